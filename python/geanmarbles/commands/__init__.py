"""The commands of examples/, each in a module of its own, of which `main` is called."""
