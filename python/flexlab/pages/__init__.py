"""What is shown to a reader: text, JSON, pictures."""
