"""What tools read in the sources of the crates."""
