"""Scenarios and what bayctl printed of them: replayed step by step, joined, and over time."""
