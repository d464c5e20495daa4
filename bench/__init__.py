"""Measurements, each a module that is called from the top folder, as `python3 -m bench.time_launcher`.

What they share is in `bench.timing` and `tests.support`. Nothing here decides whether an answer is right.
"""
import tests

# the packages of this repository are found by it
__all__ = ["tests"]
