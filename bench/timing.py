"""Calls of programs, timed, and the words of measurements."""

import contextlib
import os
import shlex
import subprocess
import tempfile
import time
from collections.abc import Iterator, Sequence

from tests.support.calls import NEEDS_PROGRAM, reader_of

NEEDS_BENCH = "the program cpa_bench, which is built where it isn't there"


def folder_of(doc: str | None, needs: str = NEEDS_BENCH) -> str:
    """The folder that is asked for, where the files of a script are put; one for a while where none is named."""
    reader = reader_of(doc, "/tmp/files", needs)
    reader.add_argument("folder", metavar="FOLDER", nargs="?", help="where the files are put; a new folder if absent")
    return reader.parse_args().folder or tempfile.mkdtemp()


def names_of(doc: str | None, known: Sequence[str], needs: str = NEEDS_PROGRAM) -> list[str]:
    """The cases that are asked for by their names, which are all where none is named."""
    reader = reader_of(doc, shlex.quote(known[0]), needs)
    reader.add_argument("names", metavar="NAME", nargs="*", help=f"a case, all if absent: {', '.join(known)}")
    names = reader.parse_args().names
    if unknown := [it for it in names if it not in known]:
        reader.error(f"there is no case {unknown[0]}; there are {', '.join(known)}")
    return names or list(known)


def passes(name: str, most: tuple[float, float] | None, seconds: float, memory: float) -> bool:
    """Whether a case passes its bounds on seconds and megabytes, if it has some; then it is told."""
    is_beyond = most is not None and (seconds > most[0] or memory > most[1])
    if most and is_beyond:
        print(f"{name} passes its bounds: {most[0]} s, {most[1]} MB", flush=True)
    return is_beyond


def call(command: Sequence[str]) -> tuple[float, str, str]:
    """Seconds of a call, its peak memory in kilobytes, and the first line that it writes."""
    start = time.perf_counter()
    done = subprocess.run(["/usr/bin/time", "-f", "%M", *command], capture_output=True, check=False)
    took = time.perf_counter() - start
    return took, done.stderr.decode().split()[-1], done.stdout.decode().split("\n")[0]


def spent(command: Sequence[str]) -> tuple[float, float, float, str]:
    """Seconds of processors and of the clock that a call takes, its peak memory in megabytes, and the last line that it
    writes."""
    done = subprocess.run(["/usr/bin/time", "-f", "%U %S %e %M", *command], capture_output=True, text=True, check=False)
    user, system, clock, peak = map(float, done.stderr.split()[-4:])
    lines = done.stdout.splitlines() or [""]
    return user + system, clock, peak / 1024, lines[-1]


def show(label: str, command: Sequence[str]) -> None:
    """Prints a line: the least time of five calls, the peak memory of one, and the start of what it writes first."""
    runs = [call(command) for _ in range(5)]
    print(f"{label}: {min(run[0] for run in runs):.4f} s, {runs[0][1]} KiB, {runs[0][2][:60]}", flush=True)


def least(command: Sequence[str], calls: int) -> tuple[float, float, str]:
    """The least seconds of some calls, the peak memory of one in megabytes, and the last line that it writes."""
    seconds = []
    for _ in range(calls):
        start = time.perf_counter()
        subprocess.run(command, capture_output=True, check=False)
        seconds.append(time.perf_counter() - start)
    done = subprocess.run(["/usr/bin/time", "-f", "%M", *command], capture_output=True, text=True, check=False)
    lines = done.stdout.splitlines() or [""]
    return min(seconds), int(done.stderr.split()[-1]) / 1024, lines[-1]


@contextlib.contextmanager
def files_of(texts: Sequence[str]) -> Iterator[list[str]]:
    """Files with these texts."""
    with tempfile.TemporaryDirectory() as folder:
        files = [os.path.join(folder, str(k)) for k in range(len(texts))]
        for path, text in zip(files, texts):
            with open(path, "w") as file:
                file.write(text)
        yield files


def least_over(call: Sequence[str], texts: Sequence[str], calls: int) -> tuple[float, float, str]:
    """What `least` tells of a program, with the words before its files if there are any, over files with these
    texts."""
    with files_of(texts) as files:
        return least([*call, *files], calls)


def spent_over(call: Sequence[str], texts: Sequence[str]) -> tuple[float, float, float, str]:
    """What `spent` tells of it."""
    with files_of(texts) as files:
        return spent([*call, *files])
