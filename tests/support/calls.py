"""Calls of programs and tools, what is tried, and words: shared by checks and measurements."""
import argparse
import glob
import os
import re
import subprocess
import sys
import tempfile
from pathlib import Path
from typing import NoReturn

TOP = Path(__file__).resolve().parents[2]
# what isn't as it should be, and how many of each kind are tried, where there are kinds
faults: list[str] = []
tried: dict[str, int] = {}
# what a script that calls the program needs
NEEDS_PROGRAM = "the program, built by ./lokwurmi analyse examples/two_tasks.toml"
LEFT = r"(?:, some [\d.]+ (?:s|min|h) to go)?"
# a line by which a tool tells how far a long call is
PROGRESS = re.compile(
    r"lokwurmi (?:"
    rf"sensitivity: \d+ of \d+ numbers, \d+ reports{LEFT}"
    r"|optimise: \d+ orders?, .*; the best so far: .*"
    r"|offsets: \d+ of \d+ tries, .*; the best so far: .*"
    rf"|worst: (?:\d+ of \d+, (?:task|path) \S+|\w+): seen \d+ of (?:\d+|overload), \d+ of \d+ tries{LEFT}"
    r"|import log: (?:frame \d+ of \d+|.*: \d+ frames are read)"
    r")"
)


def hold(is_so: object, what: str, kind: str = "") -> None:
    """Counts what is tried, and keeps what of it isn't so."""
    tried[kind] = tried.get(kind, 0) + 1
    if not is_so:
        faults.append(what)


def tell(head: str = "", without: str = "") -> NoReturn:
    """Prints what isn't so, and how many are tried, behind what else there is to say. Ends with 0 or 1."""
    for fault in faults:
        print(fault)
    kinds = ", ".join(f"{kind} {number}" for kind, number in tried.items() if kind)
    print(f"{head}{sum(tried.values())} tried{f' ({kinds})' if kinds else ''}, {len(faults)} faults{without}")
    sys.exit(1 if faults else 0)


def reader_of(doc: str | None, example: str, needs: str = "nothing that is built") -> argparse.ArgumentParser:
    """A reader of a script's words, whose help has the first sentence of what the script says of itself, what it needs,
    and the words of an example."""
    first = re.match(r"(.*?[.:])(?:\s|$)", doc or "", re.S)
    called = f"python3 -m {sys.modules['__main__'].__spec__.name}"
    return argparse.ArgumentParser(
        prog=called,
        description=" ".join(first[1].split()) if first else None,
        epilog=f"It needs {needs}.\n\nexample:\n  {called} {example}".rstrip(),
        formatter_class=argparse.RawDescriptionHelpFormatter,
    )


def add_number(reader: argparse.ArgumentParser, name: str, absent: int, what: str) -> None:
    """A word that is a number, and may be absent."""
    reader.add_argument(
        name, metavar=name.upper(), nargs="?", type=int, default=absent, help=f"{what}; {absent} if absent"
    )


def range_of(doc: str | None, count: int, needs: str = NEEDS_PROGRAM) -> range:
    """The numbers of the systems that are asked for: how many, and the first."""
    reader = reader_of(doc, f"{max(1, count // 10)} 7", needs)
    add_number(reader, "count", count, "how many systems")
    add_number(reader, "first", 0, "the number to begin with, which makes other systems")
    words = reader.parse_args()
    return range(words.first, words.first + words.count)


def check_all(doc, count, needs, before, check_system, counted):
    """A check of random systems: what comes before them, these, and a line of what is counted of them."""
    numbers, tally = range_of(doc, count, needs), dict.fromkeys(re.findall(r"{(\w+)}", counted), 0)
    with tempfile.TemporaryDirectory() as folder:
        for check in before:
            check(folder)
        for number in numbers:
            check_system(folder, number, tally)
    tell(counted.format(**tally))


def without_progress(text: str) -> str:
    """What a tool tells on standard error, without how far it is, which is told where a call takes long."""
    return "".join(line for line in text.splitlines(True) if not PROGRESS.fullmatch(line.rstrip("\n")))


def example_systems() -> list[str]:
    """The system files of examples/, beside which files of chains stand, as named from the top folder."""
    return sorted(it for it in glob.glob("examples/*.toml", root_dir=TOP) if not it.endswith(".chains.toml"))


def built(crate: str) -> str:
    """The program of a crate, which is built first where it isn't there, unless only help is asked for."""
    program = os.path.join(TOP, "crates", crate, "out", crate)
    if not os.path.exists(program) and not {"-h", "--help"}.intersection(sys.argv):
        print(f"{program} isn't there: `rt run` builds it now, which may take an hour", file=sys.stderr)
        subprocess.run(["rt", "run"], cwd=os.path.join(TOP, "crates", crate), capture_output=True, check=False)
    return program


def python_with(*modules: str) -> str | None:
    """A Python that has these modules: this one, or Debian's, for which packages are installed; None where neither has
    them."""
    for python in (sys.executable, "/usr/bin/python3"):
        words = [python, "-c", "import " + ", ".join(modules)]
        if os.path.exists(python) and not subprocess.run(words, capture_output=True, check=False).returncode:
            return python
    return None


def tool(name: str, python: str = sys.executable) -> list[str]:
    """The words that call a command of the package lokwurmi_tools, one of two words too."""
    return [python, "-m", "lokwurmi_tools", *name.split()]


def run(
    name: str, *words: object, python: str = sys.executable, given: str | None = None, env: dict[str, str] | None = None
) -> subprocess.CompletedProcess[str]:
    """A call of such a command: its status, and what it writes on both streams, but for how far it is: a slow machine
    is told that sooner. `given` is its standard input, and `env` is added to the environment."""
    done = subprocess.run(
        [*tool(name, python), *map(str, words)],
        input=given,
        capture_output=True,
        text=True,
        check=False,
        env=os.environ | env if env else None,
    )
    done.stderr = without_progress(done.stderr)
    return done


def written(folder: str, name: str, text: str, encoding: str = "utf-8") -> str:
    """A file with this text."""
    file = os.path.join(folder, name)
    with open(file, "w", encoding=encoding) as it:
        it.write(text)
    return file


def outcome(program: str, *words: object) -> tuple[str, int]:
    """What a call of a program writes, and its status."""
    done = subprocess.run([program, *map(str, words)], capture_output=True, text=True, check=False)
    return done.stdout, done.returncode


def answer(program: str, text: str, *words: str) -> tuple[int, str]:
    """The status and the text of a command over a file with this text, which stands after its first word."""
    with tempfile.NamedTemporaryFile("w", suffix=".toml") as file:
        file.write(text)
        file.flush()
        done = subprocess.run([program, words[0], file.name, *words[1:]], capture_output=True, text=True, check=False)
    return done.returncode, done.stdout
