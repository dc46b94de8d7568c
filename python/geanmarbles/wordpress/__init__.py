"""What WordPress's own export has, and how WordPress shows it."""
