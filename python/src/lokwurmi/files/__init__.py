"""Bytes and texts of files and back: TOML documents with the places of their keys, traces, the lines that the program
writes. What the numbers mean is `model`'s; why a file is refused is `refusals`'s."""
