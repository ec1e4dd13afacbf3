"""What tools/panel is made of: the association that is watched, what is operated, why something may
not be done, the picture of a bay, and the pages."""
