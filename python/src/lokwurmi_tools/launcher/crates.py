"""The crates that a program depends on, by crates.txt, and whether a source of them is newer than the program."""
from __future__ import annotations

import os
from pathlib import Path

from lokwurmi_tools.launcher.paths import TOP, program
from lokwurmi_tools.launcher.records import built_from

PARTS = ("src", "specs", "proofs")
# what the program is, and what is claimed of it: another proof of the same changes neither
CLAIMED = ("src", "specs")


def listed() -> dict[str, list[str]]:
    """What each crate of crates.txt uses, of the crates that it lists: libraries of the toolchain have no line."""
    found: dict[str, list[str]] = {}
    with open(TOP / "crates.txt", encoding="utf-8") as it:
        for line in it:
            name, colon, uses = line.partition("#")[0].partition(":")
            if colon:
                found[name.split()[0]] = uses.replace(",", " ").split()
    return {name: [it for it in uses if it in found] for name, uses in found.items()}


class Graph:
    """The crates below one, and itself: order has each after those that it uses."""

    def __init__(self, top: str):
        self.top = top
        self.uses: dict[str, list[str]] = {}
        self._listed = listed()
        self._put_below(top)
        self.order = list(self.uses)
        self.below = {it: self._all_below(it) for it in self.order}

    def _put_below(self, name: str) -> None:
        uses = self._listed[name]
        for it in uses:
            if it not in self.uses:
                self._put_below(it)
        self.uses[name] = uses

    def _all_below(self, name: str) -> set[str]:
        found: set[str] = set()
        for it in self.uses[name]:
            found |= {it} | self._all_below(it)
        return found

    @property
    def queue(self) -> list[str]:
        """The crates as `rt all` takes them up: by how many are below."""
        return sorted(self.order, key=lambda it: len(self.below[it]))

    @property
    def summit(self) -> list[str]:
        """The last crates that depend on all before them, up to the top: beside them nothing else is proved."""
        count = len(self.order)
        size = 1
        while size + 2 < count and len(self.below[self.order[-size - 1]]) == count - size - 1:
            size += 1
        return self.order[count - size :]

    def folders(self) -> list[str]:
        """What makes a program stale where it is newer, as paths below the repository."""
        return ["crates.txt", *(f"crates/{it}/{part}" for it in self.order for part in CLAIMED)]

    def keep_list(self) -> None:
        """Lists beside the program what is in them, and what isn't there, for the script, at once, as calls side by
        side read it; where that can't be written, the script asks Python each time."""
        found = [it for folder in self.folders() for it in (paths_below(TOP / folder) or [TOP / folder])]
        listed = [str(it.relative_to(TOP)) for it in (*found, program(self.top))]
        kept = built_from(self.top)
        begun = kept.with_name(f"{kept.name}.{os.getpid()}")
        try:
            begun.write_text("".join(it + "\0" for it in listed), encoding="utf-8")
            begun.replace(kept)
        except OSError:
            pass

    def why_stale(self, product: Path | None = None, called: str = "the program") -> str:
        """Why the program has to be built, or another product, if it has to be.

        A build gives it the time at which it began, so that what changed meanwhile is newer. Folders count, since
        a source that was taken away leaves no other trace.
        """
        product = product or program(self.top)
        if not os.access(product, os.R_OK if product.suffix else os.X_OK):
            return f"{called} isn't built yet"
        newer = first_newer([TOP / it for it in self.folders()], product.stat().st_mtime_ns)
        return f"{newer.relative_to(TOP)} is newer than {called}" if newer else ""


def paths_below(folder: Path) -> list[Path]:
    """A file, or a folder and all that is in it; nothing where it isn't there."""
    found = [folder] if folder.exists() else []
    for root, folders, files in os.walk(folder):
        found += [Path(root, it) for it in (*folders, *files)]
    return found


def first_newer(folders: list[Path], than: int) -> Path | None:
    """The first path that was changed after a time, in nanoseconds."""
    for folder in folders:
        for it in paths_below(folder):
            if it.lstat().st_mtime_ns > than:
                return it
    return None


def is_kept(crate: str, uses: list[str], done: set[str]) -> bool:
    """Whether a crate's library was built from what its sources, and those of the crates below it, are now.

    It is looked at for what is shown: rt itself goes by checksums.
    """
    folder = TOP / "crates" / crate
    stamp = folder / "out" / "rlib" / "stamp"
    if not stamp.exists() or any(it not in done for it in uses):
        return False
    return first_newer([folder / it for it in PARTS], stamp.stat().st_mtime_ns) is None
