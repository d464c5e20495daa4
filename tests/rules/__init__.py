"""The plain rules that checks compare with, followed word for word from the pages in docs/. They take nothing from the
program, from the packages in python/src, or from other folders of tests/.
"""
