"""The page of a system: what its tables say, its pictures, and what it has on request.
Its words are read in `commands`."""
