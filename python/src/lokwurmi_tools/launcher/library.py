"""`build-library`: proves the library, and builds the archive, the shared object and the wheel of it."""
from __future__ import annotations

import os
import re
import shutil
import subprocess
import sys
import tempfile
from pathlib import Path

from lokwurmi_tools.launcher.build import FAILED, build_for
from lokwurmi_tools.launcher.crates import Graph
from lokwurmi_tools.launcher.paths import LIBRARY, SOURCES, TOP, is_installed
from lokwurmi_tools.launcher.shown import say

CRATE = "cpa_c"
ARCHIVE, SHARED, PKG_CONFIG = "liblokwurmi.a", "liblokwurmi.so", "lokwurmi.pc"
# what the shared object shows: the functions of library/lokwurmi.h
EXPORTS = TOP / "library" / "lokwurmi.map"


class Stopped(Exception):
    """Why the library couldn't be built."""


def call(words: list[str], folder: Path) -> None:
    """Runs a command, or stops with what it says."""
    try:
        done = subprocess.run(words, cwd=folder, capture_output=True, text=True, errors="replace", check=False)
    except OSError as fault:
        raise Stopped(f"{words[0]}: {fault.strerror}") from fault
    if done.returncode:
        raise Stopped(f"{' '.join(words[:3])} failed:\n{done.stdout}{done.stderr}".rstrip())


def compiler() -> str:
    found = os.environ.get("CC", "cc")
    if not shutil.which(found):
        raise Stopped(f"there is no C compiler {found}; CC names another, and apt-get install gcc brings one")
    return found


def c_functions() -> Path:
    """The toolchain's archive with the functions by which the library allocates."""
    done = subprocess.run(["rt", "doc"], capture_output=True, text=True, stdin=subprocess.DEVNULL, check=False)
    found = Path(done.stdout.strip()).parent / "c" / "liblibc_c.a"
    if not found.exists():
        raise Stopped(f"{found} isn't there")
    return found


def pkg_config(prefix: str, libraries: str, headers: str) -> str:
    """What pkg-config is to say of the library, which lies in two folders of a prefix. That is told from where the
    file lies, so that all of it can be moved."""
    text = (TOP / "library" / PKG_CONFIG).read_text(encoding="utf-8")
    places = {"prefix": f"${{pcfiledir}}/{prefix}"}
    places |= {"libdir": f"${{prefix}}/{libraries}", "includedir": f"${{prefix}}/{headers}"}
    for key, value in places.items():
        text = re.sub(rf"^{key}=.*$", f"{key}={value}", text, flags=re.MULTILINE)
    return text


def link(archive: Path, cc: str) -> None:
    """Writes the archive of all functions, the shared object, and what pkg-config says of them."""
    allocating = c_functions()
    with tempfile.TemporaryDirectory(prefix="lokwurmi-") as folder:
        room = Path(folder)
        for it in (archive, allocating):
            call(["ar", "x", str(it)], room)
        call(["ar", "rcsD", ARCHIVE, *sorted(it.name for it in room.glob("*.o"))], room)
        flags = ["-Wl,--whole-archive", ARCHIVE, "-Wl,--no-whole-archive", f"-Wl,-soname,{SHARED}", "-Wl,-z,defs"]
        call([cc, "-shared", "-o", SHARED, *flags, f"-Wl,--version-script={EXPORTS}"], room)
        LIBRARY.mkdir(parents=True, exist_ok=True)
        for name in (ARCHIVE, SHARED):
            shutil.copy(room / name, LIBRARY / name)
    (LIBRARY / PKG_CONFIG).write_text(pkg_config("..", "out", "."), encoding="utf-8")
    shutil.copy(LIBRARY / SHARED, SOURCES / "lokwurmi" / SHARED)


def build_wheel() -> Path:
    """The wheel of the Python package with the shared object, whose tag names this platform: by python/setup.py."""
    with tempfile.TemporaryDirectory(prefix="lokwurmi-") as folder:
        room, out = Path(folder, "python"), Path(folder, "out")
        left_out = shutil.ignore_patterns("__pycache__", "*.egg-info", "build", "tests")
        shutil.copytree(TOP / "python", room, ignore=left_out)
        flags = ["--no-deps", "--no-build-isolation", "--no-index", "--quiet", "--disable-pip-version-check"]
        try:
            call([sys.executable, "-m", "pip", "wheel", *flags, "--wheel-dir", str(out), str(room)], Path(folder))
        except Stopped as fault:
            needs = "apt-get install python3-pip python3-setuptools python3-wheel"
            raise Stopped(f"the wheel wasn't built (it needs {needs}): {fault}") from fault
        made = next(out.glob("*.whl"))
        for it in LIBRARY.glob("*.whl"):
            it.unlink()
        return Path(shutil.copy(made, LIBRARY / made.name))


def archive() -> Path:
    """What the toolchain builds of the library."""
    return TOP / "crates" / CRATE / "out" / f"lib{CRATE}.a"


def why_lacking() -> str:
    """Why there is no library to be copied, if there is none: it isn't built, or a source is newer."""
    if not (LIBRARY / SHARED).exists():
        return "the library isn't built yet"
    return Graph(CRATE).why_stale(archive(), "the library")


def perform(words: list[str]) -> int:
    if words:
        say(f"build-library takes no words, and here is {words[0]}")
        return 10
    if is_installed():
        say("build-library needs the sources, which an installed copy hasn't")
        return FAILED
    graph = Graph(CRATE)
    try:
        cc = compiler()
        if why := graph.why_stale(archive(), "the library"):
            build_for(graph, why, ["lib"], archive())
        say("the archive, the shared object and the wheel are built")
        link(archive(), cc)
        made = build_wheel()
    except Stopped as fault:
        say(f"build-library: {fault}")
        return FAILED
    say(
        f"{LIBRARY / ARCHIVE}, {LIBRARY / SHARED} (also in python/src/lokwurmi), and {made}; docs/LIBRARY.md says how"
        " they are used"
    )
    return 0
