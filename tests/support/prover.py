"""The prover, asked about single functions of a crate, over the libraries that the gate built in this checkout.

Nothing of this is the gate: that is `rt ci`, which asks about each function. A refusal of one function is a refusal of
its crate, so a wrong body is tried by its own function in seconds, where a whole crate takes minutes.
"""
import re
import subprocess
from pathlib import Path
from typing import NamedTuple

from tests.support.calls import TOP

CRATES = TOP / "crates"
FUNCTION = re.compile(r"^( *)(?:pub(?:\(\w+\))? )?(?:unsafe )?(?:extern \"C\" )?fn (\w+)", re.M)
IMPL = re.compile(r"^( *)(?:unsafe )?impl(?:<.*?>)? (?:(\S.*) for )?(\S[^{]*?) *\{", re.M)
PROVED, REFUSED, AT_LIMIT = 0, 1, 3


class Answer(NamedTuple):
    """What the prover said: its status, 2 where it was called wrongly or a name fits not one function, and why."""

    status: int
    why: str


def kit() -> Path:
    """The folder of the toolchain."""
    page = subprocess.run(["rt", "doc"], check=True, capture_output=True, text=True).stdout
    return Path(page.strip()).parent


def libraries() -> dict[str, list[str]]:
    """The libraries that each crate names in crates.txt."""
    lines = re.findall(r"^(\w+)(?: staticlib)?:(.*)$", (TOP / "crates.txt").read_text(encoding="utf-8"), re.M)
    return {name: rest.split() for name, rest in lines}


def below(crate: str, uses: dict[str, list[str]]) -> set[str]:
    """The repository's own crates that a crate stands on."""
    own = [it for it in uses[crate] if it in uses]
    return set(own).union(*(below(it, uses) for it in own))


def built(crate: str) -> Path:
    """Where the gate leaves a library."""
    return CRATES / crate / "out" / "rlib" / f"{crate}.rlib"


def is_built(crate: str) -> bool:
    """Whether the gate left all libraries below a crate here, of the text as it stands."""
    for it in below(crate, libraries()):
        # the folder is made anew where its files are links to what an earlier run built
        made = built(it)
        texts = [file for room in ("src", "specs", "proofs") for file in (CRATES / it / room).rglob("*.*")]
        if not made.is_dir() or any(text.stat().st_mtime > made.stat().st_mtime for text in texts):
            return False
    return True


def path_of(file: str) -> str:
    """The path of a file's module below its crate."""
    parts = list(Path(file).relative_to("src").with_suffix("").parts)
    return "::".join(parts[:-1] if parts[-1] in ("lib", "main", "mod") else parts)


def bare(name: str) -> str:
    """A type's or a trait's name as the prover has it in a path: the last of its own path, without arguments."""
    return re.sub(r"<.*", "", name.strip()).rsplit("::", 1)[-1]


def function_at(file: str, text: str, place: int) -> str | None:
    """The path of the function in which a place of a file stands, or None."""
    heads = [it for it in FUNCTION.finditer(text) if it.start() <= place]
    if not heads:
        return None
    head = heads[-1]
    end = text.find(f"\n{head[1]}}}", head.end())
    if not text.find("\n", head.end()) <= place < end and not head.start() <= place < head.end():
        return None
    parts = [path_of(file)]
    if head[1]:
        of = [it for it in IMPL.finditer(text) if it.start() < head.start() and len(it[1]) < len(head[1])]
        parts += [bare(of[-1][3]) + bare(of[-1][2] or "")] if of else []
    return "::".join(it for it in (*parts, head[2]) if it)


def words_for(crate: str, kept: Path) -> list[str]:
    """The words of a check of a crate that keeps what it read."""
    top, uses = kit(), libraries()
    own = [it for it in uses[crate] if it in uses]
    named = [it for it in uses[crate] if it not in uses]
    words = [str(top / "bin" / "rattle"), "check", "--crate-name", crate, "src/lib.rt"]
    for it in ["std", *named]:
        words += ["--extern", f"{it}={top}/rlibs/{it}.rlib"]
    words += ["-L", f"dependency={top}/rlibs"]
    for it in own:
        words += ["--extern", f"{it}={built(it)}"]
    for it in sorted(below(crate, uses)):
        words += ["-L", f"dependency={built(it).parent}"]
    words += ["--antt-project", f"{top}/rattle/logic/antt-project.json", "--logic-built", f"{top}/logic_built"]
    return [*words, "--links", f"{crate}=", "--jobs", "1", "--incremental", str(kept)]


def ask(words: list[str], room: Path, functions: list[str]) -> Answer:
    """Has the prover check some functions of the crate in a folder, or all of it where none is named."""
    only = [word for it in functions for word in ("--only", it)]
    done = subprocess.run([*words, *only], cwd=room, stdout=subprocess.PIPE, stderr=subprocess.STDOUT, text=True)
    lines = done.stdout.rstrip("\n").split("\n")
    verdict = r"only=\d+ proved=\d+" if functions else r"logic=(not-)?proved"
    is_answered = any(re.match(verdict, it) for it in lines[-4:])
    told = [it for it in lines if re.match(r"(note: )?\S+:\d+:\d+: ", it)]
    why = next((it for it in told if "not proved" in it or "error" in it), lines[-1])
    if done.returncode == REFUSED and not is_answered:
        return Answer(2, f"it did not reach the prover: {why}")
    return Answer(done.returncode, why)
