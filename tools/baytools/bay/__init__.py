"""What tools know of a bay: its file, its names, its rules and conditions, and its SCL file."""
