"""Ends, signals and limits that are in the way."""
