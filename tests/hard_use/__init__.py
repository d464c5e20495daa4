"""Checks that stress the program and the library: hostile files, refused memory, many threads. They are scripts of bash
and programs in C.
"""
