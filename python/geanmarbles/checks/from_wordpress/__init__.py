"""Sites that came from WordPress, their archives and their uploads."""
