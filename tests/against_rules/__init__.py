"""Checks that hold the program against the plain rules of `tests.rules`, and the wrong bodies of tests/edits/ against
the prover. What stands around the program is checked in other folders.
"""
