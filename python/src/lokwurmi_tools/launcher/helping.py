"""Help and the version."""
from __future__ import annotations

import os
import subprocess
import sys

from lokwurmi_tools.commands.catalogue import COMMANDS as TOOLS
from lokwurmi_tools.launcher.paths import INSTALLED, TOP, is_installed, program
from lokwurmi_tools.launcher.records import digest
from lokwurmi_tools.launcher.table import BY_NAME, KITS, OWN, OWN_BY_NAME, VERSION, WORDS, WORKERS, Command, Own
from lokwurmi_tools.launcher.wrong_words import commands_listed, said_of

HELP = ("--help", "-h", "help")


def names() -> list[str]:
    """All that may stand first and has a help of its own, but for what begins with a dash."""
    own = [it for it in OWN_BY_NAME if not it.startswith("-")]
    return [*BY_NAME, *dict.fromkeys(it.name.split()[0] for it in TOOLS), *own]


def own_line(it: Own) -> str:
    return f"  {it.usage:<34}  {it.brief}\n"


def help_text() -> str:
    tools = "".join(f"  {it.name:<16}  {it.does}\n" for it in TOOLS)
    return (
        "lokwurmi: the timing of distributed real-time systems; its answers are proved.\n"
        f"\nProved commands:\n{commands_listed()}"
        f"\nTools, which aren't proved and call the proved commands; each has --help:\n{tools}"
        f"\nOf the launcher itself:\n{''.join(map(own_line, OWN))}"
        "\nNUMBER is a seed, 0 to 4294967295, SIZE 0 to 128, TRACES 1 to 10000, N 1 to 64;\n"
        "write ./-name for a file -name. docs/TUTORIAL.md builds a system step by step,\n"
        "examples/README.md says what each of examples/ shows, docs/FILES.md has all\n"
        f"words and each status. They are in the folder\n{TOP}\n"
    )


def help_of(command: Command) -> str:
    """The words of one command, each with what it stands for, its statuses and an example."""
    lines = [f"lokwurmi {command.usage}", f"  writes {command.brief}; the answer is proved"]
    lines += [*([f"  {command.premise}"] if command.premise else []), ""]
    lines += [f"  {word:<11}  {WORDS[word].explained}" for word in command.words]
    if command.option == WORKERS:
        lines.append(f"  {'--workers N':<11}  {WORDS['N'].explained}")
    if command.note:
        lines.append(f"  {command.note}")
    statuses = f"; {command.statuses}" if command.statuses else ""
    lines.append(f"  {'status':<11}  0{statuses}; 10 and above: a refusal or a fault")
    lines += ["", f"An example, in the folder {TOP}:", f"  ./lokwurmi {command.name} {command.example}"]
    return "\n".join([*lines, f"More: {TOP}/docs/FILES.md", ""])


def help_of_own(it: Own) -> str:
    example = f"\nAn example, in the folder {TOP}:\n  ./lokwurmi {it.example}\n" if it.example else ""
    return f"lokwurmi {it.usage}\n  {it.brief}\n" + (f"\n  {it.more}\n" if it.more else "") + example


def asked_of(words: list[str]) -> str:
    """The command that help is asked of; none for all of it."""
    return next((it for it in words if it not in HELP), "")


def answer_help(words: list[str]) -> int:
    """Writes help, of all or of a command; 20 where it can't be written, and 10 where there is no such command."""
    name = asked_of(words)
    if not name:
        return written(help_text())
    if name in BY_NAME:
        return written(help_of(BY_NAME[name]))
    if name in OWN_BY_NAME:
        return written(help_of_own(OWN_BY_NAME[name]))
    sys.stderr.write(said_of([name], names()))
    return 10


def written(text: str) -> int:
    try:
        sys.stdout.write(text)
        sys.stdout.flush()
    except OSError:
        # nothing is left for the end of the process to write
        os.dup2(os.open(os.devnull, os.O_WRONLY), 1)
        return 20
    return 0


def kits() -> str:
    return " or ".join(KITS)


def git(*words: str) -> str | None:
    """What git says in the repository, whatever the environment names."""
    environment = {key: value for key, value in os.environ.items() if not key.startswith("GIT_")}
    command = ["git", "-C", str(TOP), "--no-optional-locks", *words]
    try:
        done = subprocess.run(command, capture_output=True, text=True, errors="replace", env=environment, check=False)
    except OSError:
        return None
    return done.stdout if done.returncode == 0 else None


def commit() -> str | None:
    """The commit of the repository, if it is one: a repository further up isn't this one."""
    prefix, head = git("rev-parse", "--show-prefix"), git("rev-parse", "--short=12", "HEAD")
    return head.strip() if head and prefix is not None and not prefix.strip() else None


def changed() -> list[str]:
    """Files that aren't committed as they are, as git names them."""
    return [it[3:] for it in (git("status", "--porcelain") or "").splitlines()] if commit() else []


def version_text() -> str:
    if is_installed():
        return installed_version()
    found, text = commit(), f"lokwurmi {VERSION}\ntoolchain {kits()}\n"
    return text + (f"commit {found}{', and changes since' if changed() else ''}\n" if found else "")


def installed_version() -> str:
    """What an installed copy is of; it is the proved build as long as its program is the one that was installed."""
    lines = INSTALLED.read_text(encoding="utf-8").partition("\n\n")[0].splitlines()
    sums = [it.split()[1:] for it in lines if it.startswith("sha256 ")]
    other = [name for wanted, name in sums if digest(program(name)) != wanted]
    told = [it for it in lines if not it.startswith("sha256 ")]
    if other:
        told[-1] = f"NOT the proved build: {', '.join(other)} isn't what was installed"
    return "\n".join(told) + "\n"
