"""Checks of what is read from databases of networks and from logs, of frame lengths, and of times with units. The
program is held against rules in `tests.against_rules`.
"""
