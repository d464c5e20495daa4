#!/usr/bin/env python3
"""Tries `lokwurmi campaign` on clusters of this machine. Outside the gate.

The joined text of a campaign is that of the calls over the same numbers, added up here, and that of a single call is
the program's own. A worker that is killed loses nothing, a campaign that goes on repeats nothing, calls that fail are
tried again and then told, a job beyond its bound is found with its trace, and a table of variants has what sessions
over each answer. Where a case needs calls that are slow or fail, a script stands before the program. Schedulers and
hosts are tried by check_campaign_clusters.py. Ends with 1 where a case is wrong.

    python3 -m tests.tools.check_campaign [--only hammers | failures | ends | tables]
"""
import csv
import io
import os
import re
import signal
import subprocess
import time

from tests.support.calls import TOP, written
from tests.support.campaigns import (
    CAR,
    CROSSING,
    PROGRAM,
    added,
    begin,
    calls_in,
    campaign,
    children,
    grid_of_help,
    hold,
    main,
    program_of,
    stand_in,
    under_way,
    wait_for,
)


def hammers(folder):
    """What is joined of calls, and what is refused before there is one."""
    joined_texts(folder)
    refused_words(folder)


def joined_texts(folder):
    for file, whole, last in ((CROSSING, 9, 5), (CAR, 2, 3)):
        name = os.path.basename(file)
        done = campaign(
            PROGRAM, "hammer", file, "--traces", 10 * whole + last, "--seed", 7, "--call", 10, "--workers", 2
        )
        hold(
            done.returncode == 0
            and done.stdout == added(file, [(7 + it, 10) for it in range(whole)] + [(7 + whole, last)]),
            f"{name}: the joined text is that of the calls over the same numbers",
        )
        done = campaign(PROGRAM, "hammer", file, "--traces", 12, "--seed", 3, "--workers", 1)
        hold(
            done.stdout == program_of("hammer", file, 3, 12),
            f"{name}: a campaign of one call writes what the program does",
        )
    alone = stand_in(folder, "alone", 'echo "$3 $(taskset -cp $$ | sed "s/.*: //")" >>"$log"; exec "$program" "$@"')
    done = campaign(alone, "hammer", CROSSING, "--traces", 40, "--call", 5, "--workers", 2)
    with open(alone + ".log") as it:
        hold(
            done.returncode == 0 and all(line.split()[1].isdigit() for line in it),
            "each call has a processor of its own",
        )


def refused_words(folder):
    refused = written(folder, "refused.toml", "format = 9\n")
    done = campaign(PROGRAM, "hammer", refused, "--traces", 20, "--workers", 1)
    hold(
        (done.returncode, done.stdout) == (14, "system refused reason 13 file 0\n"),
        "a file that is refused has the program's line and status",
    )
    for words, told in (
        (("hammer", CROSSING, "--traces", 20, "--seed", 4_294_967_295, "--call", 10), "beyond 4294967295"),
        (("hammer", CROSSING, "--traces", 10**9, "--call", 1), "take a higher --call"),
        (("hammer", CROSSING, "--traces", "0"), "a number from 1"),
        (
            ("hammer", CROSSING, "--traces", "20", "--workers", "2", "--scheduler", "tcp://127.0.0.1:1"),
            "not allowed with",
        ),
        (("hammer", os.path.join(folder, "none.toml"), "--traces", "20"), "none.toml"),
    ):
        done = campaign(PROGRAM, *words)
        hold(
            done.returncode == 2 and told in done.stderr and "Traceback" not in done.stderr and done.stdout == "",
            f"words are refused before a call: {told}",
        )
    done = campaign(os.path.join(folder, "none"), "hammer", CROSSING, "--traces", 20)
    hold(done.returncode == 2 and "isn't built yet" in done.stderr, "a program that isn't there is told")


def kill_worker(running, slow):
    """Kills a worker of a campaign that has a stand-in under way; how many were killed."""

    found = []

    def at_work():
        found[:] = [
            pid
            for pid, args in children(running.pid)
            if "spawn_main" in args and any("lokwurmi-" in it for _, it in children(pid))
        ]
        return found

    if wait_for(lambda: len(calls_in(slow)) >= 4) and wait_for(at_work):
        os.kill(found[-1], signal.SIGKILL)
        return 1
    return 0


# thirty calls, each of which takes a while by this stand-in
WORDS = ("hammer", CROSSING, "--traces", 150, "--call", 5, "--workers", 2)
SLOW = '"$program" "$@"; status=$?; sleep 0.4; echo "$3" >>"$log"; exit $status'


def failures(folder):
    """Workers, campaigns and calls that end before their time."""
    slow, wanted = stand_in(folder, "slow", SLOW), added(CROSSING, [(it, 5) for it in range(1, 31)])
    tell_at_once(slow, wanted)
    killed_workers(slow, wanted)
    for name in ("SIGINT", "SIGTERM"):
        keep = os.path.join(folder, "kept" + name)
        interrupted(slow, wanted, name, keep)
    kept_folders(slow, keep)
    calls_that_fail(folder)
    calls_that_never_do(folder)


def tell_at_once(slow, wanted):
    """Into a pipe it tells at once how far it is, and what is under way before the first call is done."""
    running = begin(slow, *WORDS)
    first, second = (running.stderr.readline().rstrip() for _ in range(2))
    hold(re.fullmatch(r"campaign: 0 of 150 traces, \d+ s, workers begin", first), f"how far it is at first: {first}")
    wanted_line = r"campaign: 0 of 150 traces, \d+ s, \d+ of them under way in \d+ calls, 2 calls at a time"
    hold(re.fullmatch(wanted_line, second), f"and then: {second}")
    text, told = running.communicate()
    hold((running.returncode, text) == (0, wanted), f"and it is whole: {told[-300:]}")
    os.remove(slow + ".log")


def killed_workers(slow, wanted):
    """A worker that is killed, beside another and as the only one."""
    for count in (2, 1):
        running = begin(slow, *WORDS[:-1], count)
        killed = kill_worker(running, slow)
        text, _ = running.communicate()
        hold(
            killed == 1 and running.returncode == 0 and text == wanted,
            f"a killed worker of {count} loses nothing (status {running.returncode})",
        )
        os.remove(slow + ".log")


def interrupted(slow, wanted, name, keep):
    """A campaign that is interrupted and goes on, by what is kept in a folder."""
    running = begin(slow, *WORDS, "--resume", keep)
    wait_for(lambda: len(calls_in(slow)) >= 8)
    # an interrupt in a terminal comes to all processes of the group
    (os.killpg if name == "SIGINT" else os.kill)(running.pid, getattr(signal, name))
    text, told = running.communicate()
    hold(
        running.returncode == 130 and text == "" and f"--resume {keep}" in told and "Traceback" not in told,
        f"{name} says how to go on",
    )
    with open(os.path.join(keep, "done.jsonl")) as it:
        kept = re.findall(r'"key": "hammer (\d+) 5"', it.read())
    hold(4 <= len(kept) < 30, f"a part of it is kept ({len(kept)} of 30)")
    with open(os.path.join(keep, "done.jsonl"), "a") as it:
        it.write('{"key": "hammer 29 5", "ans')
    # a call that was under way may write its line still
    wait_for(lambda: not under_way(slow))
    os.remove(slow + ".log")
    done = campaign(slow, *WORDS, "--resume", keep)
    again = calls_in(slow)
    hold(done.returncode == 0 and done.stdout == wanted, "it goes on to the same text, past a line that was cut off")
    hold(sorted(again + kept, key=int) == [str(it) for it in range(1, 31)], "and repeats nothing")
    done = campaign(slow, *WORDS, "--resume", keep)
    hold(done.stdout == wanted and calls_in(slow) == again, "once more: nothing is called")
    os.remove(slow + ".log")


def kept_folders(slow, keep):
    """A folder of a campaign that is whole, with more traces and with other words."""
    done = campaign(slow, "hammer", CROSSING, "--traces", 165, "--call", 5, "--workers", 2, "--resume", keep)
    hold(
        done.stdout == added(CROSSING, [(it, 5) for it in range(1, 34)])
        and sorted(calls_in(slow)) == ["31", "32", "33"],
        "with more traces only the new ones are made",
    )
    done = campaign(PROGRAM, *WORDS, "--resume", keep)
    hold(done.returncode == 2 and "another program" in done.stderr, "a folder of another program is refused")
    done = campaign(slow, "hammer", CAR, "--traces", 5, "--resume", keep)
    hold(done.returncode == 2 and "another system file" in done.stderr, "a folder of another system is refused")
    no_answers = ("null", "[0, 5]", '[0, ""]', '[0, "no summary"]', '["0", "summary "]', '[0.5, "summary "]')
    for line in [f'{{"key": "hammer 1 5", "answer": {it}}}' for it in no_answers] + ["what is this"]:
        with open(os.path.join(keep, "done.jsonl"), "a") as it:
            whole = it.tell()
            it.write(f"{line}\n")
        done = campaign(slow, *WORDS, "--resume", keep)
        hold(
            done.returncode == 2 and "line 35" in done.stderr and "Traceback" not in done.stderr,
            f"a folder with a line of something else is refused: {line}: {done.stderr}",
        )
        os.truncate(os.path.join(keep, "done.jsonl"), whole)


def calls_that_fail(folder):
    """Calls that fail once."""
    for name, end in (
        ("memory", "exit 30"),
        ("disk", "exit 20"),
        ("gone", "exit 11"),
        ("killed", "kill -9 $$"),
        ("library", "echo no library >&2; exit 1"),
        ("mute", "exit 0"),
    ):
        once = stand_in(
            folder,
            name,
            f'if [ "$3" = 2 ] && mkdir "$room/{name}.failed" 2>/dev/null; then {end}; fi; exec "$program" "$@"',
        )
        done = campaign(once, "hammer", CROSSING, "--traces", 20, "--call", 5, "--workers", 2)
        hold(
            done.returncode == 0 and done.stdout == added(CROSSING, [(it, 5) for it in range(1, 5)]),
            f"a call that fails once is tried again: {end}",
        )
    gone = stand_in(
        folder,
        "rm",
        'if [ "$3" = 2 ] && mkdir "$room/rm.failed" 2>/dev/null; then rm "$0" "$2"; fi; exec "$program" "$@"',
    )
    done = campaign(gone, "hammer", CROSSING, "--traces", 40, "--call", 5, "--workers", 1)
    hold(
        done.returncode == 0 and done.stdout == added(CROSSING, [(it, 5) for it in range(1, 9)]),
        "files that are gone on a worker are written anew",
    )


def calls_that_never_do(folder):
    """A call that fails however often it is tried."""
    never = stand_in(
        folder, "never", 'echo "$3" >>"$log"; [ "$3" != 2 ] || { echo "no room" >&2; exit 30; }; exec "$program" "$@"'
    )
    keep = os.path.join(folder, "kept2")
    done = campaign(
        never, "hammer", CROSSING, "--traces", 20, "--call", 5, "--workers", 2, "--tries", 4, "--resume", keep
    )
    hold(
        done.returncode == 3
        and calls_in(never).count("2") == 4
        and "hammer 2 5: 4 of 4 tries failed" in done.stderr
        and "no room" in done.stderr
        and f"--resume {keep}" in done.stderr,
        "a call that always fails is told after the tries that were asked for",
    )
    deadly = stand_in(
        folder, "deadly", 'if [ "$3" = 2 ]; then echo "$3" >>"$log"; kill -9 $PPID; sleep 5; fi; exec "$program" "$@"'
    )
    done = campaign(deadly, "hammer", CROSSING, "--traces", 20, "--call", 5, "--workers", 2, "--tries", 1)
    hold(
        done.returncode == 3
        and calls_in(deadly) == ["2"] * 4
        and re.search(r"hammer \d 5: 1 of 1 tries failed.*the worker died.*", done.stderr)
        and "hammer 2 5" in done.stderr
        and "Traceback" not in done.stderr,
        f"a call under which each worker dies is told after four {calls_in(deadly)} {done.stderr[-300:]}",
    )


def ends(folder):
    """A job beyond its bound, and what ends at the end."""
    beyond = stand_in(
        folder,
        "beyond",
        (
            '[ "$3" -le 4 ] || exec sleep 900; echo "$3" >>"$log"; text=$("$program" "$@"); '
            'if [ "$3" = 3 ] && [ "$4" -gt 6 ]; then text=${text/beyond 0/beyond 2}; fi; echo "$text"'
        ),
    )
    keep = os.path.join(folder, "kept3")
    start = time.monotonic()
    done = campaign(beyond, "hammer", CROSSING, "--traces", 100, "--call", 10, "--workers", 4, "--resume", keep)
    took = time.monotonic() - start
    hold(
        (done.returncode, done.stdout) == (1, "beyond seed 3 trace 6\n") and "hammer" in done.stderr,
        "a job beyond its bound is told with its number and trace",
    )
    hold(took < 450, f"at once, with calls of 900 seconds under way ({took:.0f} s)")
    hold(wait_for(lambda: not under_way(beyond), 60), "and nothing of it runs on")
    done = campaign(beyond, "hammer", CROSSING, "--traces", 100, "--call", 10, "--workers", 4, "--resume", keep)
    hold((done.returncode, done.stdout) == (1, "beyond seed 3 trace 6\n"), "once more from what is kept")


REFUSED = (
    ('[[vary]]\ntask = "zz"\nworst = [1]\n', "no task of the system has the name zz"),
    ("vary = 1\n", "entries"),
    ("[[vary]\n", "can't be read"),
    ('[[vary]]\ntask = "a1"\nworst = ["x"]\n', "list of numbers"),
    ('[[vary]]\ntask = "a1"\nworst = []\n', "has no value"),
    ('[[vary]]\ntask = ["a1"]\nworst = [1]\n', "no task of the system"),
    ('[[vary]]\ntask = "a1"\nperiod = [1]\n', "or a source with one of period"),
    ('[[vary]]\ntask = "a1"\nworst = [9]\ncosts = [1, 2]\n', "one for each value"),
    ('[[vary]]\ntask = "a1"\nworst = [9]\ncosts = [nan]\n', "one for each value"),
    ('[[vary]]\ntask = "a1"\nworst = [9]\nlabel = "cost"\n', "give the entry a label"),
    ('[[vary]]\ntask = "a1"\nworst = [9]\nlabel = 3\n', "label is a text"),
    (
        '[[vary]]\ntask = "a1"\nworst = [9]\n[[vary]]\ntask = "a1"\nlabel = "x"\nexecution = [[1, 2]]\n',
        "varies the same",
    ),
    ('[[vary]]\nscripts = ["report"]\n', "has no report"),
    (
        '[[vary]]\ntask = "a1"\nworst = [' + "1," * 400 + ']\n[[vary]]\ntask = "a2"\nworst = [' + "1," * 400 + "]\n",
        "cut it into several",
    ),
)


def rows_of(done):
    return list(csv.DictReader(io.StringIO(done.stdout)))


def is_session(row, script):
    """Whether a row of that grid has what a session over its variant writes."""
    with open(script, "w") as it:
        it.write(
            f"exec b2 10 {row['b2.worst']}\nsource sa {row['sa.period']} 0 0\n"
            + ["", "swap a2 b1\n", "remove a2\n"][int(row["order"]) - 1]
        )
    session = subprocess.run([PROGRAM, "session", CROSSING, script], capture_output=True, text=True, check=False)
    if "refused" in session.stdout:
        return (row["verdict"], row["refused"], row["path.pa"]) == ("refused", "remove a2: 6", "")
    found = re.findall(r"^(task|path) (\S+) .* worst (\d+|overload)(?: deadline.*)?$", session.stdout, re.M)
    return (
        row["verdict"] == ["met", "missed", "overload"][session.returncode]
        and len(found) == 6
        and all(row[f"{kind}.{name}"] == worst for kind, name, worst in found)
    )


def variants(folder, text, *words, system=CROSSING, workers=1):
    """A campaign over the variants of a grid with this text."""
    return campaign(PROGRAM, "variants", system, written(folder, "grid.toml", text), "--workers", workers, *words)


def tables(folder):
    grid_in_help(folder)
    grids(folder)
    refused_grids(folder)


def grid_in_help(folder):
    """The grid that --help shows: its rows, its front, and what is kept of it."""
    shown, keep = grid_of_help(), ("--resume", os.path.join(folder, "kept5"))
    done = variants(folder, shown, "--front", "pb,cost", *keep, workers=2)
    rows = rows_of(done)
    is_whole = done.returncode == 0 and [it["variant"] for it in rows] == [str(it) for it in range(1, 19)]
    hold(is_whole, f"a row a variant, in order {done.stderr[-200:] if done.returncode else ''}")
    is_each = all(is_session(it, os.path.join(folder, "script.txt")) for it in rows)
    hold(is_each and len({it["verdict"] for it in rows}) >= 3, "each row is what a session over the variant writes")
    points = [(float(it["path.pb"]), float(it["cost"])) if it["verdict"] == "met" else None for it in rows]
    is_better = lambda a, b: a and a != b and a[0] <= b[0] and a[1] <= b[1]
    wanted = ["1" if it and not any(is_better(other, it) for other in points) else "0" for it in points]
    is_front = [it["front"] for it in rows] == wanted and 0 < wanted.count("1") < 18
    hold(is_front, "the front is what no other variant is better than")
    again = variants(folder, shown, "--front", "pb,cost", *keep, workers=2)
    wider = rows_of(variants(folder, shown.replace("[100, 60]", "[100, 60, 50]"), *keep))
    with open(os.path.join(keep[1], "done.jsonl")) as it:
        is_kept = again.stdout == done.stdout and len(wider) == 27 and len(it.readlines()) == 28
    hold(is_kept, "once more: nothing is called; of a wider grid only what is new")


def grids(folder):
    """Grids of priorities, executions, jitters and scripts, and a long one."""
    exchanged = '[[vary]]\ntask = "a2"\npriority = [1, 2]\n[[vary]]\ntask = "b1"\npriority = [1, 2]\n'
    refused = [it["verdict"] == "refused" for it in rows_of(variants(folder, exchanged))]
    hold(refused == [True, False, False, True], "priorities that are exchanged don't get into each other's way")
    one = '[[vary]]\nsource = "s_speed"\njitter = [50]\n'
    told = [
        "if sources on a clock keep their distances" in variants(folder, text, system=system).stderr
        for text, system in ((one, os.path.join(TOP, "examples", "offsets.toml")), (exchanged, CROSSING))
    ]
    hold(told == [True, False], "what bounds presume of clocks is told")
    several = (
        '[[vary]]\ntask = "a1"\nexecution = [[1, 2], [5, 10], [5, 80]]\n[[vary]]\nsource = "sb"\n'
        'jitter = [0, 9]\n[[vary]]\nscripts = ["", "add c p sb 1 2 9\\n"]\n'
    )
    rows = rows_of(variants(folder, several, "--front", "pa,task.c"))
    is_varied = [it["a1.execution"] for it in rows[::4]] == ["1-2", "5-10", "5-80"]
    is_added = [it["task.c"] == "" for it in rows] == [True, False] * 6
    hold(is_varied and is_added, "executions, jitters, and a task that a script adds")
    long = f'[[vary]]\ntask = "sense0"\nworst = {list(range(200, 260))}\n'
    done, other = (variants(folder, long, system=CAR, workers=count) for count in (2, 1))
    hold(
        len(done.stdout.splitlines()) == 61 and done.stdout == other.stdout,
        "car_network.toml: sixty variants, the same by one worker and two"
        f" {done.stderr[-200:] if done.returncode else ''}",
    )


def refused_grids(folder):
    """Scripts, grids and fronts that aren't taken."""
    done = variants(folder, '[[vary]]\nscripts = ["swap a1 b1", "swop a1 b1"]\n')
    is_shown = (done.returncode, done.stdout) == (15, "script refused line 1\n") and "swop" in done.stderr
    hold(is_shown, "a script that is refused is shown")
    for text, why in REFUSED:
        done = campaign(PROGRAM, "variants", CROSSING, written(folder, "grid.toml", text))
        is_told = done.returncode == 2 and why in done.stderr and "Traceback" not in done.stderr
        hold(is_told, f"a grid is refused: {why}")
    grid = written(folder, "grid.toml", grid_of_help())
    for front, why in (("pz,cost", "no column pz; there are cost, b2.worst"), ("pb", "takes two columns")):
        done = campaign(PROGRAM, "variants", CROSSING, grid, "--front", front)
        hold(done.returncode == 2 and why in done.stderr, f"a front is refused before a call: {why}")


if __name__ == "__main__":
    main(__doc__, hammers, failures, ends, tables)
