"""Checks of pages, schemas, examples in pages, and of the layout of scripts. The texts of the launcher are checked in
`tests.launcher`.
"""
