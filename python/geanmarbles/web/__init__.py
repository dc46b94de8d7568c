"""A site over HTTP: pages, and requests that bring edits."""
