#!/usr/bin/env python3
"""Tries that the script `lokwurmi` ends as the program did, in hundreds of calls side by side.

The program is a stand-in that ends at once: with a status, or by a signal. What is written, the status, and what is
handed on to be said in words have to be right in each call. Then signals come to calls of a program that would go on
for long, at any time from their start on: each has to end by its signal, and the program with it. Nothing is built for
this. The more calls there are at a time than processors, the more can come between two steps of the script.
"""
from __future__ import annotations

import os
import random
import shutil
import signal
import subprocess
import tempfile
import time
from collections.abc import Callable
from concurrent.futures import ThreadPoolExecutor
from functools import partial

from tests.support.calls import TOP, add_number, hold, reader_of, tell, written

# writes so many lines and ends as it is told, or notes its process and goes on
PROGRAM = """#!/bin/sh
for it; do
  case $it in
  lines.*) lines=${it#lines.} ;;
  status.*) status=${it#status.} ;;
  signal.*) signal=${it#signal.} ;;
  long) echo $$ >"$2" && exec sleep 1234 ;;
  esac
done
[ "$1" = session ] && word=line || word=row
while [ "$lines" -gt 0 ]; do
  echo "$word $lines of $1"
  lines=$((lines - 1))
done
[ -z "$signal" ] || kill "-$signal" $$
exit "$status"
"""
GOES_ON = b"sleep\0001234\0"
# stands in for what says a refusal in words: tells its status, and what of the output is handed over
WORDS = "import sys\nsys.stderr.write(f'told {sys.argv[2]}: ' + open(3).read().strip())\n"
# 200 and 255 are above 128, and no signal's
STATUSES = (0, 14, 16, 2, 200, 255)
SIGNALS = ("INT", "TERM", "HUP", "QUIT", "KILL", "SEGV")
# bash heeds no QUIT before a trap is set
AT_ANY_TIME = ("INT", "TERM", "HUP")
SIDE_BY_SIDE = 16
# no call takes so long, on any machine
SECONDS = 240


def installed(room: str) -> str:
    """A copy of the script with these stand-ins, which looks installed, so that no source is looked for."""
    folder = os.path.join(room, "crates", "cpa_cli", "out")
    launcher = os.path.join(room, "python", "src", "lokwurmi_tools", "launcher")
    os.makedirs(folder)
    os.makedirs(launcher)
    os.chmod(written(folder, "cpa_cli", PROGRAM), 0o755)
    written(launcher, "start.py", WORDS)
    written(launcher, "notices.awk", "")
    written(room, "INSTALLED", "")
    return str(shutil.copy(TOP / "lokwurmi", room))


def hold_ending(script: str, number: int) -> None:
    """Holds a call of a program that ends at once: every third one by a signal, every other one of a session."""
    command = ("simulate", "session")[number % 2]
    lines = (1, 1, 2, 40)[number // 2 % 4]
    by, status = SIGNALS[number // 3 % len(SIGNALS)], STATUSES[number // 3 % len(STATUSES)]
    is_signal = number % 3 == 0
    ending = f"signal.{by}" if is_signal else f"status.{status}"
    words = [script, command, "system", f"lines.{lines}", ending]
    done = subprocess.run(words, capture_output=True, text=True, check=False, timeout=SECONDS)
    rows = [f"{'line' if command == 'session' else 'row'} {it} of {command}" for it in range(lines, 0, -1)]
    wanted = -getattr(signal, f"SIG{by}") if is_signal else status
    said = ""
    if not is_signal and (status > 2 or command == "session"):
        said = f"told {status}: " + (rows[0] if status > 2 else "\n".join(rows))
    found = (done.returncode, done.stdout.splitlines(), done.stderr)
    hold(found == (wanted, rows, said), f"{' '.join(words[1:])}: {found}", "endings")


def hold_unread(script: str, command: str) -> None:
    """Holds a call whose reader ends after the first line: the output is known not to be whole."""
    words = [script, command, "system", "lines.9000", "status.0"]
    call = subprocess.Popen(words, stdout=subprocess.PIPE, stderr=subprocess.DEVNULL)
    assert call.stdout is not None
    call.stdout.readline()
    call.stdout.close()
    hold(call.wait(SECONDS) == 20, f"{command}, whose reader ends: {call.returncode}", "readers that end")


def goes_on(process: str) -> bool:
    """Whether the program that has noted its process in this file goes on."""
    try:
        with open(process, encoding="utf-8") as it, open(f"/proc/{it.read().strip()}/cmdline", "rb") as words:
            return words.read() == GOES_ON
    except OSError:
        return False


def hold_interrupted(script: str, room: str, number: int) -> None:
    """Holds a call that gets a signal at any time, to the script alone or, as of a terminal, to all of its group."""
    process, name = os.path.join(room, f"process{number}"), AT_ANY_TIME[number % len(AT_ANY_TIME)]
    is_for_all = number // 3 % 2 == 1
    words = [script, ("simulate", "session")[number // 6 % 2], process, "long"]
    call = subprocess.Popen(words, stdout=subprocess.DEVNULL, stderr=subprocess.PIPE, start_new_session=True)
    time.sleep(random.Random(number).random() * 0.06)
    (os.killpg if is_for_all else os.kill)(call.pid, getattr(signal, f"SIG{name}"))
    try:
        said = call.communicate(timeout=SECONDS)[1]
    except subprocess.TimeoutExpired:
        os.killpg(call.pid, signal.SIGKILL)
        said = call.communicate()[1]
    found = (call.returncode, said, goes_on(process))
    wanted = (-getattr(signal, f"SIG{name}"), b"", False)
    hold(found == wanted, f"{words[1]}, {name}, {'all' if is_for_all else 'one'}: {found}", "signals")


def side_by_side(hold_one: Callable[[int], None], count: int) -> None:
    with ThreadPoolExecutor(SIDE_BY_SIDE) as several:
        for it in several.map(hold_one, range(count)):
            assert it is None


def main() -> None:
    reader = reader_of(__doc__, "6000")
    add_number(reader, "count", 600, "how many calls that end at once; a fourth as many get a signal")
    count = reader.parse_args().count
    # what calls this may ignore signals, and programs would inherit that
    signal.signal(signal.SIGINT, signal.default_int_handler)
    for name in ("TERM", "HUP", "QUIT"):
        signal.signal(getattr(signal, f"SIG{name}"), signal.SIG_DFL)
    with tempfile.TemporaryDirectory() as room:
        script = installed(room)
        side_by_side(partial(hold_ending, script), count)
        for command in ("simulate", "session"):
            hold_unread(script, command)
        side_by_side(partial(hold_interrupted, script, room), count // 4)
    tell()


if __name__ == "__main__":
    main()
