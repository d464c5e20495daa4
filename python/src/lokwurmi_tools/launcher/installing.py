"""`install` and `uninstall`: a copy of the proved program, of what goes with them, and of the tools.

The copy has the folders of the repository without the sources, below PREFIX/lib/lokwurmi, so that all finds its
way there as in the repository. PREFIX/lib/lokwurmi/INSTALLED says what it is a copy of, and lists the files.
"""
from __future__ import annotations

import compileall
import os
import shutil
import tempfile
from collections.abc import Callable, Iterator
from pathlib import Path
from py_compile import PycInvalidationMode
from typing import NamedTuple

from lokwurmi_tools.launcher import helping
from lokwurmi_tools.launcher.build import FAILED, build_noted
from lokwurmi_tools.launcher.completing import completion_text
from lokwurmi_tools.launcher.library import ARCHIVE, SHARED, pkg_config, why_lacking
from lokwurmi_tools.launcher.manual import man_text
from lokwurmi_tools.launcher.paths import LIBRARY, TOP, is_installed, program
from lokwurmi_tools.launcher.records import digest, kit_of
from lokwurmi_tools.launcher.shown import say
from lokwurmi_tools.launcher.table import CRATE, VERSION

COPY = Path("lib") / "lokwurmi"
RECORD = COPY / "INSTALLED"
MAN = Path("share") / "man" / "man1" / "lokwurmi.1"
COMPLETION = Path("share") / "bash-completion" / "completions" / "lokwurmi"
PKG_CONFIG = Path("lib") / "pkgconfig" / "lokwurmi.pc"
# what is copied of the repository, beside the program
TAKEN = ("docs", "examples", "python/src/lokwurmi", "python/src/lokwurmi_tools")
LEFT_OUT = ("__pycache__",)
# programs in C that docs/LIBRARY.md shows
EXAMPLES = ("report.c", "edits.c")
# above the files in the record
FILES = "files:"


class Refused(Exception):
    """Why nothing was installed or taken away."""


def default_prefix() -> Path:
    return TOP.parent.parent if is_installed() else Path.home() / ".local"


def sources(has_library: bool) -> Iterator[Path]:
    """The files that are copied of the repository."""
    yield TOP / "lokwurmi"
    for folder in TAKEN:
        for it in sorted((TOP / folder).rglob("*")):
            if it.is_file() and not set(LEFT_OUT) & set(it.parts) and (has_library or it.name != SHARED):
                yield it


def head_of() -> str:
    """What `--version` of the copy says."""
    found = helping.commit()
    lines = [f"lokwurmi {VERSION}", f"toolchain {kit_of(CRATE)}"]
    if found:
        changes = ", and changes since that aren't committed" if helping.changed() else ""
        lines.append(f"commit {found}{changes}")
    lines.append("the proved build: its program was proved and built by that toolchain")
    lines.append(f"sha256 {digest(program(CRATE))} {CRATE}")
    return "\n".join(lines) + "\n"


class Record(NamedTuple):
    """What an install has listed: its files, and the folders that weren't there before."""

    files: list[Path]
    folders: list[Path]

    @classmethod
    def at(cls, prefix: Path) -> Record:
        try:
            text = (prefix / RECORD).read_text(encoding="utf-8")
        except OSError:
            return cls([], [])
        names = text.partition(f"\n{FILES}\n")[2].splitlines()
        return cls([Path(it) for it in names if not it.endswith("/")], [Path(it) for it in names if it.endswith("/")])

    def text(self, head: str) -> str:
        names = [*map(str, sorted(set(self.files))), *(f"{it}/" for it in sorted(set(self.folders)))]
        return f"{head}\n{FILES}\n" + "".join(f"{it}\n" for it in names)


class Copy:
    """Writes files below a prefix, each whole or not at all, and keeps a list of them."""

    def __init__(self, prefix: Path):
        self.prefix = prefix
        self.before = Record.at(prefix)
        self.written: list[Path] = []

    def place(self, name: Path, write: Callable[[Path], object]) -> None:
        """Has a file written beside its place, and then takes that."""
        to = self.prefix / name
        to.parent.mkdir(parents=True, exist_ok=True)
        beside = to.with_name(f".{to.name}.new")
        beside.unlink(missing_ok=True)
        write(beside)
        os.replace(beside, to)
        self.written.append(name)

    def file(self, source: Path, name: Path) -> None:
        self.place(name, lambda to: shutil.copy(source, to))

    def text(self, text: str, name: Path) -> None:
        self.place(name, lambda to: to.write_text(text, encoding="utf-8"))

    def link(self, target: str, name: Path) -> None:
        self.place(name, lambda to: to.symlink_to(target))


def places(has_library: bool) -> dict[Path, Path]:
    """Where each file of the repository goes, below the prefix."""
    found = {COPY / it.relative_to(TOP): it for it in sources(has_library)}
    found[COPY / program(CRATE).relative_to(TOP)] = program(CRATE)
    if has_library:
        found |= {Path("lib") / it: LIBRARY / it for it in (ARCHIVE, SHARED)}
        found[Path("include") / "lokwurmi.h"] = TOP / "library" / "lokwurmi.h"
        beside = [*LIBRARY.glob("*.whl"), *(TOP / "library" / it for it in EXAMPLES)]
        found |= {COPY / "library" / it.name: it for it in beside}
    return found


def refuse_others(prefix: Path, names: list[Path]) -> None:
    """Refuses to write over what isn't of an install before."""
    before = set(Record.at(prefix).files)
    for it in names:
        if it not in before and os.path.lexists(prefix / it):
            raise Refused(
                f"{prefix / it} is there, and no install has listed it: take it away first, or name another PREFIX"
            )


def need_room(prefix: Path) -> None:
    """Refuses a prefix that can't be written, before anything is built."""
    above = next(it for it in (prefix, *prefix.parents) if os.path.lexists(it))
    if not above.is_dir():
        raise Refused(f"{above} is no folder; name another PREFIX, as ~/.local")
    try:
        with tempfile.TemporaryFile(dir=above):
            return
    except OSError as fault:
        raise Refused(f"{above} can't be written: {fault.strerror}; name another PREFIX, as ~/.local") from fault


def copy_all(prefix: Path, has_library: bool) -> Copy:
    found = places(has_library)
    own = [Path("bin") / "lokwurmi", MAN, COMPLETION, RECORD, *([PKG_CONFIG] if has_library else [])]
    refuse_others(prefix, [*found, *own])
    copy, head = Copy(prefix), head_of()
    # listed before they are there, so that an install that breaks off is taken away too
    to_be = Record([*copy.before.files, *found, *own], [*copy.before.folders, *missing_folders(prefix, [*found, *own])])
    copy.text(to_be.text(head), RECORD)
    for name, source in found.items():
        copy.file(source, name)
    copy.link(os.path.join("..", COPY, "lokwurmi"), own[0])
    copy.text(man_text(), MAN)
    copy.text(completion_text(), COMPLETION)
    if has_library:
        copy.text(pkg_config("../..", "lib", "include"), PKG_CONFIG)
    # by whoever may write here, for those who may not; what Python has compiled goes with its sources
    compileall.compile_dir(prefix / COPY / "python", quiet=2, invalidation_mode=PycInvalidationMode.CHECKED_HASH)
    remove(prefix, Record([it for it in copy.before.files if it not in set(copy.written)], []))
    copy.text(Record(copy.written, to_be.folders).text(head), RECORD)
    return copy


def missing_folders(prefix: Path, names: list[Path]) -> list[Path]:
    """The folders that aren't there yet: the prefix itself, and those below."""
    found = {above for it in names for above in it.parents}
    return [it for it in found if not (prefix / it).exists()]


def install(prefix: Path) -> int:
    if is_installed():
        raise Refused("this is an installed copy: copy its folder, or call install in the repository that it is from")
    need_room(prefix)
    build_noted()
    found = helping.changed()
    if found:
        say(
            f"note: the repository has changes that aren't committed, and --version of the copy says so: {found[0]}"
            + (f" and {len(found) - 1} more" if len(found) > 1 else "")
        )
    lacking = why_lacking()
    copy = copy_all(prefix, not lacking)
    tell_written(prefix, len(set(copy.written)), lacking)
    return 0


def tell_written(prefix: Path, count: int, lacking: str) -> None:
    """Says what was written, and what whoever calls it needs."""
    say(f"{count} files are written below {prefix}: bin/lokwurmi, the program and tools in {COPY}, {MAN}, {COMPLETION}")
    if lacking:
        say(f"the library isn't among them: {lacking}; ./lokwurmi build-library builds it")
    else:
        say(f"the library too: lib/{ARCHIVE}, lib/{SHARED}, include/lokwurmi.h, {PKG_CONFIG}")
    say(f"for `import lokwurmi` in Python: export PYTHONPATH={prefix / COPY}/python/src")
    folder = str(prefix / "bin")
    if folder not in os.environ.get("PATH", "").split(os.pathsep):
        say(f"{folder} isn't in the search path: export PATH={folder}:$PATH")


def remove(prefix: Path, record: Record) -> int:
    """Takes files away, what Python has compiled of them, and the folders that are empty then; how many files there
    were."""
    count, folders = 0, [prefix / it for it in record.folders]
    for it in record.files:
        path = prefix / it
        if os.path.lexists(path):
            path.unlink()
            count += 1
        if path.suffix == ".py":
            compiled = path.parent / "__pycache__"
            for old in compiled.glob(f"{path.stem}.*.pyc"):
                old.unlink()
            folders.append(compiled)
    for folder in sorted(folders, key=lambda it: len(it.parts), reverse=True):
        try:
            folder.rmdir()
        except OSError:
            # not empty, or gone already
            continue
    return count


def uninstall(prefix: Path) -> int:
    found = Record.at(prefix)
    if not found.files:
        raise Refused(f"{prefix / RECORD} isn't there: nothing was installed below {prefix}")
    last = [it for it in found.files if it != RECORD] + [RECORD]
    count = remove(prefix, Record(last, found.folders))
    say(f"{count} files below {prefix} are taken away")
    return 0


def perform(name: str, words: list[str]) -> int:
    if len(words) > 1 or any(it.startswith("-") or not it for it in words):
        say(f"{name} takes a folder, PREFIX, or no word; ./lokwurmi --help {name} says more")
        return 10
    prefix = Path(words[0]).absolute() if words else default_prefix()
    try:
        return {"install": install, "uninstall": uninstall}[name](prefix)
    except Refused as fault:
        say(f"{name}: {fault}")
    except OSError as fault:
        say(f"{name}: {fault.filename}: {fault.strerror}")
    return FAILED
