"""What the documents name, and what two of them say."""
