"""Checks of the program over frames, and of the pump that moves them."""
