"""The commands of `lokwurmi` that draw, explain, search and convert. They call the proved program, and are no part of
what is proved."""
