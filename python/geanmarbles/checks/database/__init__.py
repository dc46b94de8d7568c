"""A site in a file, whatever ends the program."""
