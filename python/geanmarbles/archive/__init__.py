"""A site that came from WordPress as files for any web server, at the addresses that it had there."""
