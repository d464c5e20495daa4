#!/usr/bin/env python3
"""Tries what tools do where they can't write: a standard output that is full or closed, a file that is a folder, and
one that is read, too. Outside the gate; takes a minute, and no network.

By docs/FILES.md the status is 20 where the output couldn't be written. No call ends in a traceback, and what is read is
whole afterwards. An option that stands twice is refused, since of two the first would be passed over.

    python3 -m tests.tools.check_outputs [--program PROGRAM]
"""
import argparse
import os
import resource
import shutil
import signal
import subprocess
import tempfile
import time

from tests.support.calls import TOP, built, hold, tell, tool, written

# calls that write to the standard output; {0} is a small system
CALLS = (
    "verdict {0}",
    "verdict {0} --json",
    "diff {0} {0}",
    "graph {0}",
    "explain {0} b",
    "explain --all --json {0}",
    "sensitivity {0} --only execution",
    "optimise {0} --rounds 1",
    "offsets examples/offsets.toml --tries 1",
    "worst {0} b --tries 2",
    "units examples/pedal.report.txt --tick 1us",
    "lengths can 8 --bitrate 500000",
    "effects examples/camera_brake.toml examples/camera_brake.trace.csv slip act",
    "explain --help",
    "import --help",
    "help",
)
# what these say nothing to: no program is called
WITHOUT = ("units", "lengths", "graph", "import", "help")
# calls that name a file to write which is read, too
SAME = (
    "optimise {0} --script {0}",
    "worst {0} b --to {0}",
    "graph {0} --to {0}",
    "explain {0} b --to {0}",
    "offsets {0} --output {0}",
    "ticks {0} --tick 1us --to {0}",
    "page {0} --to {0}",
)
# calls that name a folder where a file has to go, or a file where a folder has to
FOLDER = (
    "optimise {0} --script {1} --rounds 1",
    "worst {0} b --to {1} --tries 2",
    "worst {0} --all --keep {0} --tries 2",
)
# calls that write more into a file than a full disk takes, in the tests
LONG = (
    "graph {0} --to TO.svg",
    "curve examples/pedal.toml examples/pedal.report.txt sample --to TO.svg",
    "ticks {0} --tick 1us --to TO.toml",
)
# options that concern nothing, or name nothing; a classical frame has no data phase, which would make it shorter
NOTHING = {
    "lengths can 8 --bitrate 500000 --data-bitrate 2000000": "--data-bitrate concerns nothing of can",
    "lengths ethernet 8 --bitrate 500000 --extended": "--extended concerns nothing of ethernet",
    "lengths can 8 --bitrate 500000 --tagged": "--tagged concerns nothing of can",
    "optimise {0} --seconds nan": "write a number above 0",
    "worst {0} b --seconds nan": "--seconds is above 0",
    "worst {0} --tries 2 b": "words that aren't options stand together",
}
TWICE = ("graph {0} --to a.svg --to b.svg", "verdict {0} --tick 1us --tick 2us", "worst {0} --seed 1 b --seed 1")


def asked(call, program, *names):
    """The words of a call, with the program where it takes one."""
    words = call.format(*names).split()
    needs = words[0] not in (*WITHOUT, "curve", "ticks", "page") and "--help" not in words
    return [*tool(words[0]), *words[1:], *(["--program", program] if needs else [])]


def ended(words, **more):
    """The status of a call, and what it told."""
    done = subprocess.run(words, stderr=subprocess.PIPE, text=True, check=False, cwd=TOP, **more)
    return done.returncode, done.stderr


def close_output():
    os.close(1)


def fill_disk():
    """Leaves room for so many bytes in each file."""
    resource.setrlimit(resource.RLIMIT_FSIZE, (100, 100))


def check_outputs(program, file):
    """Where the standard output is full, or was closed, the status is 20, and a line says so."""
    for call in CALLS:
        words = asked(call, program, file)
        with open("/dev/full", "w", encoding="ascii") as full:
            found = [ended(words, stdout=full), ended(words, preexec_fn=close_output)]
        for status, said in found:
            hold(status == 20 and "the output can't be written" in said, f"{call}: {status} {said}")
            hold("Traceback" not in said and "ignored" not in said, f"{call}: {said}")


def check_same(program, room):
    """A file that is read isn't written."""
    file = os.path.join(room, "same.svg")
    shutil.copy(os.path.join(TOP, "examples", "two_tasks.toml"), file)
    with open(file, "rb") as it:
        whole = it.read()
    for call in SAME:
        status, said = ended(asked(call, program, file), stdout=subprocess.DEVNULL)
        hold(status == 1 and "FILE names the same file" in said, f"{call}: {status} {said}")
        with open(file, "rb") as it:
            hold(it.read() == whole, f"{call}: the file was written")
    both = asked("worst {0} b --to {1} --draw {1}", program, file, os.path.join(room, "run.svg"))
    status, said = ended(both, stdout=subprocess.DEVNULL)
    hold(status == 1 and "--to names the same file" in said, f"two files of one name: {status} {said}")


def check_refused(program, file, room):
    """A folder is no file, and a file no folder; and no option stands twice."""
    for call in FOLDER:
        status, said = ended(asked(call, program, file, room), stdout=subprocess.DEVNULL)
        hold(status == 1 and ("can't be written" in said or "no folder can be made" in said), f"{call}: {said}")
        hold("Traceback" not in said, f"{call}: {said}")
    for call, line in NOTHING.items():
        status, said = ended(asked(call, program, file), stdout=subprocess.DEVNULL)
        hold(status in (1, 2) and line in said, f"{call}: {status} {said}")
    for call in TWICE:
        status, said = ended(asked(call, program, file), stdout=subprocess.DEVNULL)
        hold(status in (2, 10) and "stands twice" in said, f"{call}: {status} {said}")


def check_whole(program, file, room):
    """Where a disk is full there is no part of a file under its name."""
    for call in LONG:
        end = os.path.splitext(call)[1]
        to = os.path.join(room, f"to{end}")
        words = [it.replace("TO" + end, to) for it in asked(call, program, file)]
        status, said = ended(words, stdout=subprocess.DEVNULL, preexec_fn=fill_disk)
        hold(status == 1 and "can't be written" in said, f"{call}: {status} {said}")
        hold(not os.path.exists(to), f"{call}: a part is left")


def check_signals(program, room):
    """A command that a signal ends says so, and leaves no temporary file; nor does it end by one that is ignored."""
    for number in (signal.SIGINT, signal.SIGTERM, signal.SIGHUP):
        folder = tempfile.mkdtemp(dir=room)
        begun = os.path.join(room, f"begun.{number}")
        # a program that takes long once it is called with a temporary file
        slow = f'#!/bin/sh\ncase "$*" in *"{folder}"*) : >"{begun}"; sleep 2;; esac\nexec "{program}" "$@"\n'
        words = asked("sensitivity examples/locks.toml", written(room, f"slow.{number}", slow))
        os.chmod(words[-1], 0o755)
        more = {"stdout": subprocess.DEVNULL, "stderr": subprocess.PIPE, "cwd": TOP, "text": True}
        with subprocess.Popen(words, env=os.environ | {"TMPDIR": folder}, **more) as it:
            while not os.path.exists(begun) and it.poll() is None:
                time.sleep(0.05)
            it.send_signal(number)
            said = it.communicate()[1]
        ends = 130 if number == signal.SIGINT else -number
        hold(it.returncode == ends and said.endswith("interrupted\n"), f"{number}: {it.returncode} {said}")
        hold(not os.listdir(folder), f"{number}: left: {os.listdir(folder)}")


def main():
    reader = argparse.ArgumentParser(description=__doc__, formatter_class=argparse.RawDescriptionHelpFormatter)
    reader.add_argument("--program", default=built("cpa_cli"), help="the built one if absent")
    program = os.path.abspath(reader.parse_args().program)
    with tempfile.TemporaryDirectory() as room:
        with open(os.path.join(TOP, "examples", "two_tasks.toml"), encoding="ascii") as it:
            file = written(room, "two.toml", it.read())
        check_outputs(program, file)
        check_same(program, room)
        check_refused(program, file, room)
        check_whole(program, file, room)
        check_signals(program, room)
    tell()


if __name__ == "__main__":
    main()
