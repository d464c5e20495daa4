"""Times a call of the library in this process beside a start of the program.

    python3 -m bench.time_library --times 1000 examples/car_network.toml

Both analyse the same file. The start of the program is that of posix_spawn up to its end, with its output thrown away.
Said are the least and the median of N calls each, in microseconds: of a plain loop in Python, in which an execution is
changed and the system analysed; of an edit of a kept session with its bounds; and of starts of the program, once with
the file alone and once with a script of that edit. A library without sessions that are kept is timed without them.
"""
import argparse
import os
import statistics
import tempfile
import time
from collections.abc import Callable, Iterator
from itertools import cycle
from pathlib import Path

from lokwurmi import Library, Program, System


def times(count: int, call: Callable[[], object]) -> str:
    """The least and the median of so many calls, in microseconds."""
    found = []
    for _ in range(count):
        begun = time.perf_counter()
        call()
        found.append((time.perf_counter() - begun) * 1e6)
    return f"least {min(found):.1f} median {statistics.median(found):.1f}"


def start(sink: int, *words: str) -> None:
    """Starts the program, and waits for its end."""
    child = os.posix_spawn(words[0], words, os.environ, file_actions=[(os.POSIX_SPAWN_DUP2, sink, 1)])
    os.waitpid(child, 0)


def executions(system: System) -> tuple[str, int, Iterator[int]]:
    """A task with the lowest priority of its resource, its least execution, and greatest executions in turn."""
    tasks = [it for it in system.tasks.values() if it.payload is None]
    task = max(tasks, key=lambda it: it.priority or 0)
    best, worst = system.execution(task)
    return task.name, best, cycle([max(best, worst - 1), worst])


def time_file(file: str, count: int, library: Library, program: str, sink: int) -> None:
    """Times all ways over a file."""
    text, system = Path(file).read_bytes(), System.from_file(file)
    name, best, worst = executions(system)

    def changed() -> None:
        system.tasks[name].worst = next(worst)
        system.analyse(engine=library)

    print(f"{file} library {times(count, lambda: library.call('analyse', [text]))}")
    print(f"{file} loop in Python {times(count, changed)}")
    if library.has("open"):
        with System.from_file(file).session(engine=library) as session:
            line = times(count, lambda: session.edit(f"exec {name} {best} {next(worst)}"))
            print(f"{file} edit of a session, as a line {line}")
            print(f"{file} its bounds {times(count, lambda: session._open().numbers())}")

            def edited() -> int | None:
                session.exec(name, worst=next(worst))
                return session.bounds[name]

            print(f"{file} edit by exec, and its bounds {times(count, edited)}")
            print(f"{file} report of a session {times(count, session.report)}")
    print(f"{file} program {times(count, lambda: start(sink, program, 'analyse', file))}")
    with tempfile.NamedTemporaryFile("w", suffix=".txt") as script:
        script.write(f"exec {name} {best} {next(worst)}\n")
        script.flush()
        edit = times(count, lambda: start(sink, program, "session", file, script.name))
        print(f"{file} program, session of one edit {edit}")


def main() -> None:
    reader = argparse.ArgumentParser(description=__doc__, formatter_class=argparse.RawDescriptionHelpFormatter)
    reader.add_argument("--times", type=int, default=500, help="how many calls (500)")
    reader.add_argument("--program", help="the program; that of the package if absent")
    files = ["examples/two_tasks.toml", "examples/car_network.toml"]
    reader.add_argument("files", metavar="FILE", nargs="*", default=files, help=f"a system file ({' '.join(files)})")
    asked = reader.parse_args()
    library, program = Library(), str(Program(asked.program).file)
    sink = os.open(os.devnull, os.O_WRONLY)
    for file in asked.files:
        time_file(file, asked.times, library, program, sink)


if __name__ == "__main__":
    main()
