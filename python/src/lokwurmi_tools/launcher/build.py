"""Proves and builds a program, and shows how far it is.

Several crates at a time are proved by one `rt all`, since several runs of `rt` would wait for each other's locks. The
last library and the program are proved after it, by all processors. Where a check was killed, crates are proved one
after the other, which takes less memory.
"""
from __future__ import annotations

import fcntl
import os
import re
import shlex
import shutil
import signal
import subprocess
import sys
import time
from collections.abc import Callable
from pathlib import Path
from typing import NoReturn, TextIO

from lokwurmi_tools.launcher import helping, shown
from lokwurmi_tools.launcher.crates import Graph, is_kept
from lokwurmi_tools.launcher.paths import TOP, program
from lokwurmi_tools.launcher.plan import Plan, at_a_time, clock
from lokwurmi_tools.launcher.processes import Work
from lokwurmi_tools.launcher.records import is_other, kit_of, note_built
from lokwurmi_tools.launcher.running import end_by
from lokwurmi_tools.launcher.shown import is_live, say
from lokwurmi_tools.launcher.table import CRATE, FIRST_WORDS, KITS

FAILED = 70
ENDINGS = (signal.SIGINT, signal.SIGTERM, signal.SIGHUP, signal.SIGQUIT, signal.SIGPIPE)
PAUSE = 0.5


def need_rt(why: str) -> str:
    """What the toolchain calls itself; ends where there is none."""
    if not shutil.which("rt"):
        say(f"{why}; to build it, the command rt of the toolchain {helping.kits()} has to be in the search path (PATH)")
        sys.exit(FAILED)
    done = subprocess.run(["rt", "version"], capture_output=True, text=True, stdin=subprocess.DEVNULL, check=False)
    identity = (done.stdout.split() or ["another toolchain"])[0]
    if identity not in KITS:
        say(f"note: rt is of {identity}, and the proofs are for {helping.kits()}")
    return done.stdout.strip()


def note_changes() -> None:
    """Says that sources aren't committed, where there are such."""
    found = [it for it in helping.changed() if it.startswith(("crates/", "crates.txt"))]
    if found:
        more = f" and {len(found) - 1} more" if len(found) > 1 else ""
        say(f"note: sources have changes that aren't committed: {found[0]}{more}")


class Build:
    """A build of one program, or of a library, that is the top of a graph of crates."""

    def __init__(self, graph: Graph, last: list[str], product: Path, lock: int):
        self.graph, self.last, self.product, self.lock = graph, last, product, lock
        out = TOP / "crates" / graph.top / "out"
        self.log_path, self.start_path = out / "lokwurmi.log", out / "lokwurmi.start"
        self.work = Work()
        self.log: TextIO | None = None
        self.current = self.failed = ""
        self.partial = ""
        self.jobs = at_a_time()
        self.before = self._kept()
        self.plan = Plan(graph, self.jobs, set(self.before))

    def _kept(self) -> set[str]:
        done: set[str] = set()
        for it in self.graph.order:
            if it != self.graph.top and is_kept(it, self.graph.uses[it], done):
                done.add(it)
        return done

    @property
    def done(self) -> set[str]:
        return self.plan.done

    # ---- what is shown

    def count(self) -> str:
        return f"{len(self.done)} of {len(self.graph.order)}"

    def draw(self) -> None:
        under_way = self.plan.under_way(self.current)
        shown.draw(f"{self.count()}: {under_way} under way; {clock(self.plan.so_far)} so far, {self.plan.rough_rest()}")

    def note_done(self, crate: str) -> None:
        """Notes that a crate is proved, and says so where no line is written over."""
        if crate in self.done:
            return
        self.done.add(crate)
        self.current = "" if self.current == crate else self.current
        self.plan.guess()
        if not is_live():
            say(f"{self.count()}: {crate} is proved; {clock(self.plan.so_far)} so far, {self.plan.rough_rest()}")

    def note_below(self, crate: str) -> None:
        for it in self.graph.uses[crate]:
            self.note_below(it)
            self.note_done(it)

    def note_begun(self, crate: str) -> None:
        """Notes that rt begins with a crate, where they go one after the other."""
        if crate == self.current:
            return
        if self.current:
            self.note_done(self.current)
        self.note_below(crate)
        self.current = crate

    # ---- what rt says

    def look(self) -> None:
        """Reads what rt has written since: where several are proved at a time it heads what it says of a crate once
        that is through, and else it names a crate when it begins with it."""
        if self.log is None:
            return
        lines = (self.partial + self.log.read()).split("\n")
        self.partial = lines.pop()
        for line in lines:
            self.take(line)

    def take(self, line: str) -> None:
        headed = re.fullmatch("== ([a-z0-9_]+)", line)
        chose = re.fullmatch("rt: chose --jobs [0-9]+ for ([a-z0-9_]+)", line)
        if headed and headed[1] in self.graph.uses:
            if (TOP / "crates" / headed[1] / "out" / "rlib" / "stamp").exists():
                self.note_done(headed[1])
            else:
                self.failed = self.failed or headed[1]
        elif chose and chose[1] in self.graph.uses:
            self.note_begun(chose[1])
        elif line.startswith("rt: waiting for ") or " waiting for it, " in line:
            shown.wipe()
            say(line)

    def said_of_failed(self) -> list[str]:
        """What rt said of the crate that failed; where they went one by one, of the last that it began with."""
        lines = self.log_path.read_text(encoding="utf-8", errors="replace").splitlines()
        heads = [at for at, it in enumerate(lines) if it.startswith("== ")]
        if not self.failed:
            begun = [at for at, it in enumerate(lines) if it.startswith("rt: chose --jobs")]
            return lines[begun[-1] if begun else 0 :]
        mine = [at for at in heads if lines[at] == f"== {self.failed}"]
        ends = [min([it for it in heads if it > at], default=len(lines)) for at in mine]
        return [line for at, end in zip(mine, ends) for line in lines[at:end]]

    def no_failure(self) -> str:
        """Why a crate has no library though nothing was found wrong, if that is so: a check that was killed has no
        last line."""
        said = self.said_of_failed() if self.failed else []
        if not self.failed or any(it.startswith("logic=not-proved") or "error" in it for it in said):
            return ""
        if any(it.startswith("logic=proved") for it in said):
            return f"{self.failed} changed while it was proved"
        return f"{self.failed} broke off, most likely because it was out of memory"

    # ---- what runs

    def watch(self, crate: str, *words: str, libraries: bool = False) -> bool:
        """Runs rt in a crate, and shows how far it is; whether it passed. With `libraries` it is ended once all below
        the summit are proved, or one has failed."""
        with open(self.log_path, "ab") as output:
            self.work.start(["rt", *words], TOP / "crates" / crate, output, kept=(self.lock,))
        while (status := self.work.status()) is None:
            self.look()
            if libraries and (self.failed or self.are_libraries_done()):
                # rt may be writing still what it says
                time.sleep(0.2)
                self.work.end()
                return not self.failed
            self.draw()
            time.sleep(PAUSE)
        self.look()
        return status == 0

    def are_libraries_done(self) -> bool:
        return self.done.issuperset(set(self.graph.order) - set(self.graph.summit))

    def run_rt(self) -> bool:
        """Proves the libraries several at a time, and then the summit with all processors, or all one after the
        other.

        rt lets only one of its runs work in a crate and those below it, so that several at a time are its own
        affair. Where a library is lacking, rt reads all sources below once before it begins; so those of the
        summit are built each for itself.
        """
        if self.jobs > 1 and not self.are_libraries_done():
            if not self.watch(self.graph.top, "all", "check", "--jobs", str(self.jobs), libraries=True):
                why = self.no_failure()
                if not why:
                    return False
                shown.wipe()
                say(f"{why}: they go on one at a time")
                self.failed, self.jobs, self.plan.jobs = "", 1, 1
                self.plan.guess()
        if self.are_libraries_done():
            for it in self.graph.summit[:-1]:
                if it not in self.done and not self.watch(it, "lib"):
                    return False
        return self.watch(self.graph.top, *self.last) and self.product.exists()

    def interrupted(self, number: int) -> NoReturn:
        for it in ENDINGS:
            signal.signal(it, signal.SIG_IGN)
        self.work.end()
        self.start_path.unlink(missing_ok=True)
        try:
            # what rt has said since it was looked at last
            self.look()
            shown.wipe()
            say(
                f"interrupted after {clock(self.plan.so_far)}, with {self.count()} proved; all that it started has"
                " ended, and the next call goes on from there"
            )
        except OSError:
            pass
        end_by(number)

    def perform(self, why: str, hint: str) -> None:
        """Builds it for a reason, or ends."""
        many = str(self.jobs) if self.jobs > 1 else "one"
        self.log_path.write_bytes(b"")
        self.start_path.touch()
        for it in ENDINGS:
            if signal.getsignal(it) is not signal.SIG_IGN or it == signal.SIGPIPE:
                signal.signal(it, lambda number, _: self.interrupted(number))
        say(
            f"{why}: it is proved and built first, {len(self.graph.order)} crates, of which {len(self.done)} are proved"
            f" already, {many} at a time; {self.plan.rough_rest()}{hint}"
        )
        note_changes()
        try:
            with open(self.log_path, encoding="utf-8", errors="replace") as self.log:
                passed = self.run_rt()
        except BrokenPipeError:
            self.interrupted(signal.SIGPIPE)
        if not passed:
            self.tell_failure()
        self.note_below(self.graph.top)
        self.note_done(self.graph.top)
        for it in ENDINGS:
            signal.signal(it, signal.SIG_IGN if it == signal.SIGPIPE else signal.SIG_DFL)
        signal.signal(signal.SIGINT, signal.default_int_handler)
        shown.wipe()
        began = self.start_path.stat().st_mtime_ns
        os.utime(self.product, ns=(began, began))
        self.start_path.unlink(missing_ok=True)
        self.log_path.unlink(missing_ok=True)
        say(f"it is built, in {clock(self.plan.so_far)}")

    def tell_failure(self) -> NoReturn:
        shown.wipe()
        # what is proved says nothing here
        for line in self.said_of_failed():
            if not line.endswith(": proved"):
                print(line, file=sys.stderr)
        say(f"the program was not built; all that the toolchain said: {self.log_path}")
        self.start_path.unlink(missing_ok=True)
        sys.exit(FAILED)


def build(words: list[str], before: Callable[[], None] = lambda: None) -> None:
    """Builds the program where it is stale, or ends; words are those of the call that wants it."""
    graph, product = Graph(CRATE), program(CRATE)
    why = graph.why_stale()
    if not why and is_other(CRATE):
        why = f"{product.relative_to(TOP)} isn't the program that was proved and built here"
    if why:
        before()
        call = shlex.join(["lokwurmi", "--unproved", *words])
        hint = f". For a first look without proofs, in a minute or so: {call}"
        build_for(graph, why, ["run", "--", *FIRST_WORDS], product, hint)
    graph.keep_list()


def build_noted() -> None:
    """Has the program be one that a build has noted, and that is no older than its sources, or ends."""
    graph, product = Graph(CRATE), program(CRATE)
    why = graph.why_stale()
    if not why and not kit_of(CRATE):
        why = f"{product.relative_to(TOP)} wasn't built by this script, which builds it anew"
    if why:
        build_for(graph, why, ["run", "--", *FIRST_WORDS], product)
    graph.keep_list()


def build_for(graph: Graph, why: str, last: list[str], product: Path, hint: str = "") -> None:
    """Builds the top of a graph, one call at a time, whichever program it wants."""
    identity = need_rt(why)
    room = TOP / "crates" / "cpa_cli" / "out"
    room.mkdir(parents=True, exist_ok=True)
    product.parent.mkdir(parents=True, exist_ok=True)
    with open(room / "lokwurmi.lock", "wb") as lock:
        if not has_waited(lock.fileno(), why) or graph.why_stale(product):
            # what another has put there, rt needn't see as stale
            product.unlink(missing_ok=True)
            Build(graph, last, product, lock.fileno()).perform(why, hint)
            note_built(graph.top, identity, product)


def has_waited(lock: int, why: str) -> bool:
    """Takes the lock; whether another call had it, for which this one waited."""
    try:
        fcntl.flock(lock, fcntl.LOCK_EX | fcntl.LOCK_NB)
        return False
    except OSError:
        say(f"{why}: another call builds already, and this one waits")
        fcntl.flock(lock, fcntl.LOCK_EX)
        return True
