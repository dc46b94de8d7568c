"""What the program takes of a processor, and of memory: each command of bench/ in a module of its own."""
