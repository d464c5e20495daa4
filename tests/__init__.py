"""Checks of what isn't proved, each in the folder that says what it is held against; `run_all.py` calls them.

Each is a module that is called from the top folder, as `python3 -m tests.tools.check_page`, and takes what checks share
from `tests.support` and `tests.rules`. So no script looks for another folder; only the packages that are checked, which
aren't installed, are found by the two lines below, also by what a check starts.
"""
import os
import sys

PACKAGES = os.path.join(os.path.dirname(os.path.dirname(os.path.abspath(__file__))), "python", "src")
sys.path.insert(1, PACKAGES)
os.environ["PYTHONPATH"] = os.pathsep.join([PACKAGES, *filter(None, [os.environ.get("PYTHONPATH")])])
