"""`geanmarbles browse`, as a browser sees it."""
