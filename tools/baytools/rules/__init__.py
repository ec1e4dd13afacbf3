"""What a single line diagram asks of an interlocking, as rules and as a page."""
