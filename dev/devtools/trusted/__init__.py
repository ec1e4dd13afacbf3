"""What the promises rest on: sizes of what is trusted, and the C functions that are assumed."""
