#!/usr/bin/env python3
"""Lists the definitions that a statement reaches: the files of specs/ that its `use` lines name, and so on.

    python3 -m tests.texts.list_reached
    python3 -m tests.texts.list_reached --from crates/cpa_segments/src/command.rt
    python3 -m tests.texts.list_reached --check

With --check nothing is listed: each file of specs/ has to be named in docs/DEFINITIONS.md, but for those of laws,
and the end of that page has to say how many files the statement of `run` reaches. The status is 1 where one of the
two isn't so.
"""
import argparse
import pathlib
import re
import sys

from tests.support.calls import TOP

CRATES = TOP / "crates"
PAGE = TOP / "docs/DEFINITIONS.md"
# what a `use` line names: a crate of the repository, and a file of its definitions
USE = re.compile(r"\buse\s+Rattle\.(cpa_\w+)\.specs\.(\w+)")
# the files that say laws of definitions, and those that name a crate's files
LAWS = ("Laws", "Lib")


def named_in(file: pathlib.Path) -> set[tuple[str, str]]:
    """The crates and files of definitions that a file names; what stands for types of the code isn't among them."""
    found = USE.findall(file.read_text(encoding="utf-8"))
    return {(crate, name) for crate, name in found if name != "declared"}


def reached_from(file: pathlib.Path) -> set[tuple[str, str]]:
    """All files of definitions that are reached from a source by `use` lines."""
    found: set[tuple[str, str]] = set()
    left = named_in(file)
    while left:
        crate, name = left.pop()
        found.add((crate, name))
        left |= named_in(CRATES / crate / "specs" / f"{name}.antt") - found
    return found


def lines_of(reached: set[tuple[str, str]]) -> list[str]:
    """A line for each crate, with its files."""
    crates = sorted({crate for crate, _ in reached})
    return [f"- `{crate}`: {', '.join(sorted(name for it, name in reached if it == crate))}" for crate in crates]


def count_of(reached: set[tuple[str, str]]) -> str:
    """How many files they are, and of how many."""
    every = [it for it in CRATES.glob("cpa_*/specs/*.antt") if it.stem != "Lib"]
    return f"These are {len(reached)} of {len(every)} files."


def missing_from_page(page: str) -> list[str]:
    """The files of definitions, but for those of laws, that the page doesn't name beside their crate."""
    found = []
    for file in sorted(CRATES.glob("cpa_*/specs/*.antt")):
        crate = file.parent.parent.name
        rows = [row for row in page.splitlines() if f"`{crate}/specs/" in row]
        if file.stem not in LAWS and not any(re.search(rf"[`/]{file.stem}\.antt`", row) for row in rows):
            found.append(f"{crate}/specs/{file.stem}.antt")
    return found


def check(file: pathlib.Path) -> int:
    """The status of a check of the page."""
    page = PAGE.read_text(encoding="utf-8")
    faults = [f"{PAGE.name}: doesn't name {it}" for it in missing_from_page(page)]
    reached = reached_from(file)
    if count_of(reached) not in page.splitlines():
        faults.append(f"{PAGE.name}: has no line: {count_of(reached)}")
    for it in faults:
        print(it)
    print(f"{len(faults)} faults")
    return 1 if faults else 0


def main() -> int:
    reader = argparse.ArgumentParser(description=__doc__, formatter_class=argparse.RawDescriptionHelpFormatter)
    reader.add_argument(
        "--from",
        dest="file",
        metavar="SOURCE",
        type=pathlib.Path,
        default=CRATES / "cpa_run/src/command.rt",
        help="the source with the statement; that of `run` if absent",
    )
    reader.add_argument("--check", action="store_true", help="hold docs/DEFINITIONS.md against the files")
    given = reader.parse_args()
    if not given.file.is_file():
        sys.exit(f"{given.file}: there is no such source; crates/cpa_run/src/command.rt has that of `run`")
    if given.check:
        return check(given.file)
    reached = reached_from(given.file)
    print("\n".join([*lines_of(reached), count_of(reached)]))
    return 0


if __name__ == "__main__":
    sys.exit(main())
