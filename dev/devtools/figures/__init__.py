"""Measured figures: where they come from, and whether the sources changed since."""
