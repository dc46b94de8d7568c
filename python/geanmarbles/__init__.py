"""The Python of this repository: a client of the program, what serves sites by it, and what tries and builds them."""
