"""The checks of tests/: each command in a module or a package of its own, of which `main` is called."""
