"""Campaigns: many calls of the proved program on many processors, or many machines, and what they write joined.
What one call says is read by `lokwurmi.results`."""
