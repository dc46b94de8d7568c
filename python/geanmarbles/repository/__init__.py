"""The repository itself: its crates, the toolchain, how the program is built, and pages that are made of others."""
