#!/usr/bin/env python3
"""Tries the wrong bodies of tests/edits/: edits of a crate that the prover must refuse, which the gate leaves out since
they take longer than all its proofs. The gate tries those that stand in crates/*/must-fail.

    python3 -m tests.against_rules.check_edits
    python3 -m tests.against_rules.check_edits cpa_sim cpa_run --verbose
    python3 -m tests.against_rules.check_edits --texts

Each is made on a copy of its crate, over the libraries that `rt ci` left in this checkout. The prover is asked about
the functions that it changes; where these are proved all the same, about their modules, and then about the whole crate.
Before a crate's edits it has to prove the first one's functions as they stand. Edits of a crate below which a library
isn't there are skipped, and counted. --texts only looks whether each edit can still be made: each text that it replaces
stands in its file exactly once. The status is 1 where an edit isn't refused or can't be made.
"""
import argparse
import os
import re
import shutil
import sys
import tempfile
import time
from collections.abc import Iterator
from concurrent.futures import ThreadPoolExecutor, as_completed
from pathlib import Path

from tests.support.calls import TOP
from tests.support.prover import AT_LIMIT, CRATES, PROVED, REFUSED, ask, function_at, is_built, path_of, words_for

EDITS = TOP / "tests" / "edits"


def crates() -> list[str]:
    """The crates that have edits here."""
    return sorted(it.name for it in EDITS.iterdir() if it.is_dir())


def edits_of(crate: str) -> list[Path]:
    """The edits of a crate."""
    return sorted((EDITS / crate).glob("*.edit"))


def changes_of(edit: Path) -> Iterator[tuple[str, str, str]]:
    """The changes of an edit: the file, and the text that another one replaces."""
    name = old = ""
    for key, text in re.findall(r"^(file|old|new): ?(.*)$", edit.read_text(encoding="utf-8"), re.M):
        if key == "file":
            name = text
        elif key == "old":
            old = text
        else:
            yield name, old, text


def fault_of(edit: Path, crate: str) -> str | None:
    """Why an edit can't be made, or None."""
    changed: dict[str, str] = {}
    for name, old, new in changes_of(edit):
        source = CRATES / crate / name
        if not source.is_file():
            return f"there is no file {source.relative_to(TOP)}"
        text = changed.get(name) or source.read_text(encoding="utf-8")
        if (count := text.count(old)) != 1:
            return f"{source.relative_to(TOP)} has {count} times: {old.strip()}"
        changed[name] = text.replace(old, new)
    return None if changed else "it changes nothing"


def faults_in(names: list[str]) -> int:
    """How many edits can't be made; says which."""
    faults = 0
    for crate in names:
        for edit in edits_of(crate):
            if fault := fault_of(edit, crate):
                print(f"{edit.relative_to(TOP)}: {fault}")
                faults += 1
    return faults


def asked_about(edit: Path, room: Path) -> list[list[str]]:
    """What the prover is asked about in turn: the functions that an edit changes, their modules, the whole crate."""
    texts = [(name, (room / name).read_text(encoding="utf-8"), old) for name, old, _ in changes_of(edit)]
    functions = {function_at(name, text, text.index(old)) or "" for name, text, old in texts}
    modules = {path_of(name) for name, _, _ in texts}
    # a text outside of any function, and the crate's root, have no path
    return [sorted(it) for it in (functions, modules) if all(it)] + [[]]


def refusal(edit: Path, room: Path, words: list[str]) -> tuple[bool, str]:
    """Whether the prover refuses the crate in a folder with an edit, and why or what it said."""
    asked = asked_about(edit, room)
    before = {name: (room / name).read_text(encoding="utf-8") for name, _, _ in changes_of(edit)}
    for name, old, new in changes_of(edit):
        (room / name).write_text((room / name).read_text(encoding="utf-8").replace(old, new), encoding="utf-8")
    try:
        for functions in asked:
            answer = ask(words, room, functions)
            if answer.status == REFUSED:
                return True, answer.why
            if answer.status == AT_LIMIT:
                return True, f"only by a limit of the prover: {answer.why}"
        return False, "it is proved with this edit" if answer.status == PROVED else answer.why
    finally:
        for name, text in before.items():
            (room / name).write_text(text, encoding="utf-8")


def try_crate(crate: str, is_verbose: bool) -> tuple[int, str]:
    """Tries the edits of a crate; gives how many aren't refused, and what to say."""
    begun, faults, said = time.monotonic(), 0, []
    with tempfile.TemporaryDirectory() as folder:
        room = Path(folder)
        for part in ("src", "specs", "proofs"):
            if (CRATES / crate / part).is_dir():
                shutil.copytree(CRATES / crate / part, room / part)
        words = words_for(crate, room / "kept")
        first = ask(words, room, asked_about(edits_of(crate)[0], room)[0])
        if first.status != PROVED:
            return 1, f"{crate}: NOT TRIED, as the prover refuses it as it stands: {first.why}"
        for edit in edits_of(crate):
            is_refused, why = refusal(edit, room, words)
            faults += not is_refused
            if is_verbose or not is_refused:
                said.append(f"\n  {edit.stem}: {'' if is_refused else 'NOT REFUSED: '}{why}")
    took = f"{time.monotonic() - begun:.0f} s"
    return faults, f"{crate:<18}{len(edits_of(crate)) - faults:>3} refused {took:>7}{''.join(said)}"


def try_all(names: list[str], is_verbose: bool) -> int:
    """Tries the edits of crates, several at once, those that have most first; gives how many aren't refused."""
    faults = 0
    with ThreadPoolExecutor(len(os.sched_getaffinity(0))) as pool:
        begun = [pool.submit(try_crate, it, is_verbose) for it in sorted(names, key=lambda it: -len(edits_of(it)))]
        for done in as_completed(begun):
            missed, said = done.result()
            print(said, flush=True)
            faults += missed
    return faults


def main(words: list[str] | None = None) -> int:
    form = argparse.RawDescriptionHelpFormatter
    reader = argparse.ArgumentParser(description=__doc__, formatter_class=form)
    reader.add_argument("names", metavar="CRATE", nargs="*", help="the crates; all that have edits here if absent")
    reader.add_argument("--texts", action="store_true", help="only look whether the edits can be made")
    reader.add_argument("--verbose", action="store_true", help="say of each edit why it is refused")
    asked = reader.parse_args(words)
    if unknown := [it for it in asked.names if it not in crates()]:
        reader.error(f"{unknown[0]} has no edits here; there are {', '.join(crates())}")
    names = asked.names or crates()
    faults = faults_in(names)
    skipped = 0
    if not faults and not asked.texts:
        if shutil.which("rt") is None:
            reader.error("the command rt of the toolchain is needed: docs/BUILDING.md")
        unbuilt = [it for it in names if not is_built(it)]
        for it in unbuilt:
            print(f"{it:<18}not tried: a library below it isn't built here as it stands; call rt ci first")
        faults = try_all([it for it in names if it not in unbuilt], asked.verbose)
        skipped = sum(len(edits_of(it)) for it in unbuilt)
    count = sum(len(edits_of(it)) for it in names)
    print(f"{count} edits, {faults} faults{f', {skipped} skipped' if skipped else ''}")
    return 1 if faults else 0


if __name__ == "__main__":
    sys.exit(main())
