"""What the commands of tools/ are made of: a package for each that is larger, and what they
share."""
