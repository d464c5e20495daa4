"""Searches over calls of the proved program: traces that make a task late, priorities, and how far numbers may move.
What they find is said with the program's own answer."""
