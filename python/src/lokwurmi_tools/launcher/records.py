"""Records of builds, beside each program: what it was built from, and by which toolchain; and whether it still is that
program."""
from __future__ import annotations

from pathlib import Path

from lokwurmi_tools.launcher.paths import TOP, program


def built_from(crate: str) -> Path:
    """The list of what makes a program stale where it is newer, by which the script sees without Python that nothing
    is."""
    return TOP / "crates" / crate / "out" / "lokwurmi.below"


def record_of(crate: str) -> Path:
    """What a build has noted of a program: what the toolchain calls itself, and the program's checksum."""
    return TOP / "crates" / crate / "out" / "lokwurmi.built"


def digest(file: Path) -> str:
    """The checksum of a file; none where it can't be read."""
    # loaded here, since few calls need it
    import hashlib

    try:
        return hashlib.sha256(file.read_bytes()).hexdigest()
    except OSError:
        return ""


def note_built(crate: str, kit: str, product: Path) -> None:
    record_of(crate).write_text(f"{kit}\n{digest(product)}\n", encoding="utf-8")


def is_other(crate: str) -> bool:
    """Whether a build has noted another program than the one that is there, as where one was copied over it."""
    return record_of(crate).is_file() and not kit_of(crate)


def kit_of(crate: str) -> str:
    """The toolchain that has proved and built a program; none where no build has noted this program."""
    try:
        kit, noted = record_of(crate).read_text(encoding="utf-8").splitlines()
    except (OSError, ValueError):
        return ""
    return kit if noted == digest(program(crate)) else ""
