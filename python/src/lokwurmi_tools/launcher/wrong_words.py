"""What is said of words that the program refuses: what is wrong with them, and the nearest command."""
from __future__ import annotations

import sys

from lokwurmi_tools.launcher.operands import shown, without_flag
from lokwurmi_tools.launcher.paths import PAGE
from lokwurmi_tools.launcher.table import BY_NAME, COMMANDS, MORE_TASKS, MOST_TASKS, RUNNING, WORDS, WORKERS, Command


def distance(one: str, other: str) -> int:
    """The least number of letters to put in, take out or exchange, by which one word becomes another."""
    row = list(range(len(other) + 1))
    for at, letter in enumerate(one, 1):
        before, row[0] = row[0], at
        for to, wanted in enumerate(other, 1):
            before, row[to] = row[to], min(before + (letter != wanted), row[to] + 1, row[to - 1] + 1)
    return row[-1]


def nearest(word: str, names: list[str]) -> str:
    """The name that a word is nearest to: the only one that begins so, or the nearest within half of its letters."""
    given = word[:24].lower().removeprefix("--")
    begins = [it for it in names if given and it.startswith(given)]
    if len(begins) == 1:
        return begins[0]
    near = [(distance(given, it), it) for it in names]
    near = [(far, it) for far, it in near if 2 * far <= len(it)]
    return min(near, key=lambda it: it[0])[1] if near else ""


def wrong_number(what: str, word: str, least: int, most: int) -> str:
    """What is wrong with a word for a number in a range."""
    if not (word.isascii() and word.isdigit() and len(word) <= 10):
        return f"{what} is {shown(word)}, and has to be a number of 1 to 10 digits alone, {least} to {most}"
    return "" if least <= int(word) <= most else f"{what} is {word}, and has to be {least} to {most}"


def wrong_word(sort: str, word: str) -> str:
    """What is wrong with a word in the place of FILE, NUMBER and the like."""
    from lokwurmi.refusals.remark import is_utf_8

    if not word:
        return f"the word for {sort or 'one more'} is empty"
    if not is_utf_8(word):
        of_file = "rename the file, or write /dev/stdin in its place and hand it over by <"
        helps = (
            of_file if sort in WORDS and WORDS[sort].is_file else "names have letters, digits, `_`, `-` and `.` alone"
        )
        return f"{shown(word)} isn't UTF-8: {helps}"
    if word.startswith("--"):
        return f"{shown(word)} is no option; --workers N is the only one, and --quiet stands before the command"
    if not word.startswith("-"):
        return ""
    if sort in WORDS and WORDS[sort].is_number and word[1:].isdigit():
        return f"{sort} is {word}, and can't be below 0"
    if sort in WORDS and WORDS[sort].is_file:
        return f"{shown(word)} begins with a dash: write ./{word} for a file of that name"
    return f"{shown(word)} begins with a dash, and no word but --workers does"


def wrong_count(command: Command, given: list[str]) -> str:
    """What is wrong with the number of words."""
    wanted = list(command.words)
    if wanted[-1] == MORE_TASKS:
        # one task at least
        wanted.pop()
        if len(given) > MOST_TASKS + 1:
            return f"a chain has at most {MOST_TASKS} tasks, and here are {len(given) - 1}"
        if len(given) >= len(wanted):
            return ""
    if len(given) < len(wanted):
        missing = wanted[len(given) :]
        return f"{' '.join(missing)} {'is' if len(missing) == 1 else 'are'} missing"
    if len(given) > len(wanted):
        here = "is 1 word" if len(given) == 1 else f"are {len(given)} words"
        return f"{command.name} takes {' '.join(wanted)}, and here {here}; the first too many is {given[len(wanted)]}"
    return ""


def wrong_numbers(command: Command, given: list[str]) -> str:
    for sort, word in zip(command.words, given):
        if WORDS[sort].is_number and (fault := wrong_number(sort, word, WORDS[sort].least, WORDS[sort].most)):
            return fault
    return ""


def wrong_workers(command: Command, word: str, rest: list[str], seen: bool) -> str:
    """What is wrong with --workers, whose number is taken out of the rest where it stands apart."""
    if command.option != WORKERS:
        return f"{command.name} takes no --workers"
    if seen:
        return "--workers stands twice"
    if word == WORKERS and not rest:
        return "the number is missing behind --workers: 1 to 64"
    number = rest.pop(0) if word == WORKERS else word.partition("=")[2]
    return wrong_number("the number of workers", number, WORDS["N"].least, WORDS["N"].most)


def first_fault(command: Command, words: list[str]) -> str:
    """The first thing that is wrong with the words after a command that is known."""
    rest, seen = list(words), False
    given: list[str] = []
    if command.option == RUNNING:
        rest = without_flag(rest)
        if RUNNING in rest and len(rest) < len(words):
            return f"{RUNNING} stands twice"
    while rest:
        it = rest.pop(0)
        if it == RUNNING:
            return (
                f"{RUNNING} stands first or last" if command.option == RUNNING else f"{command.name} takes no {RUNNING}"
            )
        if it == WORKERS or it.startswith(f"{WORKERS}="):
            if fault := wrong_workers(command, it, rest, seen):
                return fault
            seen = True
            continue
        sort = command.words[len(given)] if len(given) < len(command.words) else ""
        if fault := wrong_word(sort, it):
            return fault
        given.append(it)
    return wrong_count(command, given) or wrong_numbers(command, given)


def said_of(words: list[str], names: list[str]) -> str:
    """What is said of words that aren't accepted: what is wrong, and a command's own words, or the nearest command
    and all."""
    if words and words[0] in BY_NAME:
        command = BY_NAME[words[0]]
        fault = first_fault(command, words[1:]) or f"the words of {command.name} are not accepted"
        return (
            f"lokwurmi: {fault}\n"
            f"  {command.name} is called so: lokwurmi {command.usage}\n"
            f"  lokwurmi --help {command.name} says what these are\n"
        )
    if not words:
        head = "there is no command:"
    elif len(words) > 1 and words[1] in names:
        return (
            f"lokwurmi: {shown(words[0])} is no command, which stands first: lokwurmi {words[1]} {words[0]}\n"
            f"  lokwurmi --help {words[1]} says its words\n"
        )
    else:
        near = nearest(words[0], names)
        head = f"{shown(words[0])} is no command" + (
            f"; the nearest is {near} (lokwurmi --help {near}):" if near else ":"
        )
    return f"lokwurmi: {head}\n{commands_listed()}More: lokwurmi --help, and {PAGE}\n"


def commands_listed() -> str:
    return "".join(f"  {it.usage:<34}  {it.brief}\n" for it in COMMANDS)


def refuse(words: list[str], names: list[str], quiet: bool) -> int:
    """Refuses words as the program does; with 20 where that can't be written."""
    try:
        print("words refused", flush=True)
    except OSError:
        return 20
    if not quiet:
        sys.stderr.write(said_of(words, names))
    return 10
