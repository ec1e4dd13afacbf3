"""Pictures in SVG: their parts, and what was over time."""
