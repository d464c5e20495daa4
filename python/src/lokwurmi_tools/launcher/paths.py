"""Where things are: in the repository, or in an installed copy, which has the same folders without the sources."""
from __future__ import annotations

from pathlib import Path

# the folder of the repository, or of an installed copy
TOP = Path(__file__).resolve().parents[4]
SCRIPT = TOP / "lokwurmi"
SOURCES = TOP / "python" / "src"
# what `install` writes into a copy: its version and where it is from, and the files that it has listed
INSTALLED = TOP / "INSTALLED"
PAGE = TOP / "docs" / "FILES.md"
LIBRARY = TOP / "library" / "out"


def is_installed() -> bool:
    """Whether this is an installed copy, which has no sources and never builds."""
    return INSTALLED.is_file()


def program(crate: str) -> Path:
    """Where the proved program of a crate is; nothing else is ever written there."""
    return TOP / "crates" / crate / "out" / crate
