"""The single line diagram of a bay: its nodes and the switches between them, what it asks of an
interlocking, and its picture."""
