"""A stand-in for the script `lokwurmi`, which answers by the plain rules, so that nothing has to be built.

    python3 -m tests.support.stand_in chain FILE TASK..
"""
import os
import re
import sys
import tomllib

from tests.rules import chain_files, effect_chains
from tests.rules.bounds import System
from tests.rules.runs import replayed, schedule_text
from tests.support.calls import TOP, written


def answer_chain(text, words):
    """What `chain` writes of a system."""
    tasks = [it for it in words if it != "--while-running"]
    told, status = effect_chains.Bounds(text).text_of(tasks, "above" if "--while-running" in words else "")
    # a bound that runs go beyond, for a try
    return (re.sub(r"reaction \d+", "reaction 10", told), status) if "LESS" in os.environ else (told, status)


def answer_chains(text, file):
    """What `chains` writes of a system and a file of chains, which may be refused."""
    with open(file, encoding="utf-8") as it:
        chains = it.read()
    if found := chain_files.refusal_of(chains, [it["name"] for it in tomllib.loads(text)["task"]]):
        place = f"chain {found[1]}" if found[1] else "file 0"
        return f"chains refused reason {found[0]} {place}\n", 18
    rows = [
        (it["name"], it["tasks"], it.get("reaction"), it.get("age"), it.get("held"))
        for it in tomllib.loads(chains).get("chain", [])
    ]
    return effect_chains.told_chains(effect_chains.Bounds(text), rows)


def answer(command, file, *words):
    """The text of a command, and its status."""
    if command == "schedule":
        return schedule_text(replayed(file, *words).segments), 0
    try:
        with open(file, encoding="utf-8") as it:
            text = it.read()
    except OSError:
        return f"cannot read {file}\n", 11
    if "chain" in tomllib.loads(text):
        return "system refused reason 1 file 0\n", 14
    if "worst = 0" in text:
        return "system refused reason 2 task 1\n", 14
    if command == "analyse":
        return System(text).report()
    return answer_chain(text, words) if command == "chain" else answer_chains(text, *words)


def stand_in(folder):
    """A program in a folder that answers so."""
    module = f'PYTHONPATH="{TOP}" exec "{sys.executable}" -m tests.support.stand_in "$@"'
    program = written(folder, "lokwurmi", f"#!/bin/sh\n{module}\n")
    os.chmod(program, 0o755)
    return program


if __name__ == "__main__":
    told, ended = answer(*sys.argv[1:])
    sys.stdout.write(told)
    sys.exit(ended)
