"""A factory acceptance test: its steps, the bay that they are done at, and its page."""
