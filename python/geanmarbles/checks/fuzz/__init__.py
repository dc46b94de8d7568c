"""Random lists of lines, and what holds of the replies to any."""
