"""Packages that a command needs beside Python's own library.

Where one is missing the command ends with a line, and where they are installed for Debian's Python alone it goes on
there.
"""
import importlib
import os
import shutil
import subprocess
import sys
from pathlib import Path

# Debian installs its packages for this Python, which needn't be the one that comes first
DEBIAN = "/usr/bin/python3"
# the package of Debian that has a module
PACKAGES = {
    "can": "python3-can",
    "canmatrix": "python3-canmatrix",
    "distributed": "python3-distributed",
    "jinja2": "python3-jinja2",
    "lxml": "python3-lxml",
    "matplotlib": "python3-matplotlib",
    "tomlkit": "python3-tomlkit",
    "xlrd": "python3-xlrd",
}
# set for the process that goes on there, so that it doesn't do so again
AGAIN = "LOKWURMI_AGAIN"


def is_here(module: str) -> bool:
    """Whether this Python has a module."""
    try:
        importlib.import_module(module)
    except ImportError:
        return False
    return True


def is_debian() -> bool:
    """Whether this is Debian's Python."""
    return os.environ.get(AGAIN) == str(os.getpid()) or os.path.realpath(sys.executable) == os.path.realpath(DEBIAN)


def has_debian(modules: tuple[str, ...]) -> bool:
    """Whether Debian's Python has the modules, and is new enough for the tools."""
    try:
        words = [DEBIAN, "-c", "import " + ", ".join(("tomllib", *modules))]
        return subprocess.run(words, capture_output=True, check=False).returncode == 0
    except OSError:
        return False


def remedy(missing: list[str]) -> str:
    """The command that installs modules on this machine."""
    if not (shutil.which("apt-get") and os.path.exists(DEBIAN)):
        return f"{shutil.which('python3') or sys.executable} -m pip install {' '.join(missing)}"
    then = "" if is_debian() else f"; {DEBIAN}, for which that is, is used then"
    return f"apt-get install {' '.join(PACKAGES[it] for it in missing)}{then}"


class Missing(Exception):
    """Modules that a command needs aren't here; `status` is that with which it ends."""

    def __init__(self, modules: tuple[str, ...], missing: list[str], status: int):
        self.modules, self.missing, self.status = modules, missing, status
        super().__init__(f"{', '.join(missing)} isn't here")


def need(*modules: str, status: int = 1) -> None:
    """Comes back where this Python has the modules, and raises `Missing` where it hasn't."""
    missing = [it for it in modules if not is_here(it)]
    if missing:
        raise Missing(modules, missing, status)


def go_on(command: str, fault: Missing, words: list[str]) -> int:
    """Has a command go on under Debian's Python where that has the modules; otherwise says what to install."""
    if not is_debian() and has_debian(fault.modules):
        os.environ[AGAIN] = str(os.getpid())
        # behind the folders of that Python, whose packages come first
        start = "import sys; sys.path.append(sys.argv.pop(1)); from lokwurmi_tools.__main__ import main; main()"
        os.execv(DEBIAN, [DEBIAN, "-c", start, str(Path(__file__).resolve().parents[2]), *words])
    missing = fault.missing
    what = f"the package {missing[0]} isn't" if len(missing) == 1 else f"the packages {' and '.join(missing)} aren't"
    print(f"lokwurmi {command}: {what} here: {remedy(missing)}", file=sys.stderr)
    return fault.status
