"""Changes of definitions: which there are, and what each of them breaks."""
