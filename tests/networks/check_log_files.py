#!/usr/bin/env python3
"""Tries which logs `lokwurmi import log` takes, and what it says of them. Outside the gate; takes about a minute, and
no network.

A log is taken whole or refused: frames that are dropped, strange or of other kinds, errors, lines that are none, and
files that are cut off are told. Logs as can-utils writes them are read where it is installed.

    python3 -m tests.networks.check_log_files
"""
import os
import shutil
import subprocess

import can

from tests.support.calls import hold, written
from tests.support.databases import PROGRAM, analysed, called, dumped, hold_refused, matrix_of, run_checks, said_by
from tests.support.logs import log_of, two_channels


def check_dropped(room):
    """Nothing of a call is dropped in silence: neither what --bus and --database don't name, nor what they name
    wrongly."""
    database, system, _, log = two_channels(room)
    words = (log, "--system", system, "--bus", "b=can0", "--program", PROGRAM)
    done = called("import log", *words)
    hold("nothing is said of channels that --bus doesn't name: can1" in done.stderr, f"a channel: {done.stderr}")
    frames = [("Speed", 16, False, 2, 10, {}), ("Lamps", 32, False, 1, 20, {})]
    same = dumped(room, "same.dbc", matrix_of([*frames, ("Doors", 32, False, 1, 0, {})]))
    other = dumped(room, "other.dbc", matrix_of([frames[0], ("Lights", 32, False, 1, 20, {})]))
    for said, more in (
        ("Lamps and Doors have the identifier 0x020", ["--database", f"b={same}"]),
        ("the database has no frame Lamps, so that nothing", ["--database", f"b={other}"]),
        ("no bus in it is called b; there are x, y", ["--database", f"x={database}", "--database", f"y={database}"]),
        ("a bus stands there twice", ["--bus", "b=can1"]),
    ):
        told = said_by("import log", *words, *more)
        hold(said in told, f"import log {more}: {told}")


def check_errors(room):
    """A system with errors: the task that stands for them is no frame; and one whose priorities are no identifiers."""
    database, _, _, log = two_channels(room)
    system = os.path.join(room, "errors.toml")
    words = (f"b={database}", "--bitrate", 500000, "--errors", "1/100ms", "--to", system)
    called("import network", *words)
    done = called("import log", log, "--system", system, "--bus", "b=can0", "--program", PROGRAM)
    hold(done.returncode == 0 and "errors" not in done.stdout and "frame Speed" in done.stdout, f"{done.stdout}")
    zero = dumped(room, "zero.dbc", matrix_of([("Speed", 0, False, 2, 10, {}), ("Lamps", 1, False, 1, 20, {})]))
    called("import network", f"b={zero}", *words[1:])
    told = said_by("import log", log, "--system", system, "--bus", "b=can0", "--program", PROGRAM)
    hold("its priorities don't tell which identifiers it has: name the --database" in told, told)


def check_strange(room):
    """Frames that a system doesn't have, longer ones, and rough times."""
    _, system, base, _ = two_channels(room)
    strange = log_of(
        room,
        "strange.log",
        [(at, *it[1:4], "can0") for at, *it in [(it[0], *it) for it in base]]
        + [(200_000, 0x30, False, 8, "can0"), (200_400, 0x10, False, 8, "can0"), (200_410, 0x20, False, 1, "can0")],
    )
    done = called("import log", strange, "--system", system, "--program", PROGRAM)
    hold(
        done.returncode == 4
        and "unknown 0x030 frames 1 payload 8" in done.stdout
        and "longer Speed payload 8 beyond 2" in done.stdout
        and "rough 100" in done.stdout
        and "up to 100 ticks sooner" in done.stderr,
        f"a strange log: {done.stdout} {done.stderr}",
    )
    report = written(room, "names.report.txt", analysed(system)[1])
    hold(called("import log", strange, "--system", system, "--report", report).stdout == done.stdout, "--report")


def check_kinds(room):
    """Messages that aren't plain frames."""
    other = os.path.join(room, "other.log")
    with can.Logger(other) as it:
        for place in range(6):
            it.on_message_received(
                can.Message(
                    timestamp=1_700_000_000 + place / 100,
                    arbitration_id=0x10,
                    is_extended_id=False,
                    dlc=2,
                    data=bytes(2),
                    channel="can0",
                    is_remote_frame=place == 1,
                    is_error_frame=place == 2,
                    is_fd=place == 3,
                    is_rx=place != 4,
                )
            )
    done = called("import log", other)
    hold(
        all(
            it in done.stderr
            for it in (
                "1 error frames: after an error a frame is sent again",
                "1 remote frames aren't taken",
                "1 CAN FD frames are taken as such",
                "1 frames of the recorder itself are taken",
            )
        )
        and "4 frames" in done.stdout,
        f"other frames: {done.stdout} {done.stderr}",
    )


RELATIVE = """date Fri Nov 1 10:00:00.000 am 2024
base hex timestamps relative
no internal events logged
0.1 1 10 Rx d 1 00
0.1 1 10 Rx d 1 00
"""


def check_log_words(room):
    """What is refused of words, and what is told then."""
    _, system, _, log = two_channels(room)
    report = written(room, "names.report.txt", analysed(system)[1])
    known = [log, "--system", system, "--program", PROGRAM]
    processors = ["--system", "examples/two_tasks.toml", "--report", "examples/two_tasks.report.txt"]
    benchmark = ["--system", "examples/sae_can.toml", "--report", "examples/sae_can.report.txt"]
    cases = (
        ("which bus is which channel", known),
        ("the log has no such channel; it has can0, can1", [*known, "--bus", "b=can7"]),
        ("there is no such bus; there are b", [*known, "--bus", "c=can0"]),
        ("write it as BUS=CHANNEL", [log, "--bus", "b"]),
        ("--report wants --system", [log, "--report", report]),
        (
            "two_tasks.report.txt: it isn't of examples/sae_can.toml: task a is in the report alone",
            [log, "--system", "examples/sae_can.toml", "--report", "examples/two_tasks.report.txt"],
        ),
        ("--period database wants --database", [log, "--period", "database"]),
        ("at least 0", [log, "--rough", "-1"]),
        ("is no time", [log, "--tick", "5"]),
        (
            "no frame of channel can0 has the identifier of a task on can: its priorities are no identifiers",
            [log_of(room, "far.log", [(0, 0x700, False, 1, "can0")]), *benchmark],
        ),
        ("it has no CAN bus", [log, *processors]),
    )
    hold_refused("import log", cases)


# times as of a recorder, in seconds since 1970
EPOCH = "(1764300000.000001) can0 010#00\n(1764300000.010002) can0 010#00\n"


def check_between_ticks(room):
    """Times between ticks are told: by ticks of 1 ms frames 9.6 ms apart seem to be 10 ms apart, without jitter."""
    rows = "".join(f"(1764300000.{it:06d}) can0 010#00\n" for it in (0, 9600, 20400, 30000))
    log, told = written(room, "between.log", rows), "frames at times between ticks are taken at the nearest one"
    done = called("import log", log, "--tick", "1ms")
    hold(f"between.log: 2 {told}: any two may be up to a tick closer" in done.stderr, f"between: {done.stderr}")
    for words in (["--tick", "100us"], []):
        done = called("import log", log, *words)
        hold(done.returncode == 0 and not done.stderr, f"between {words}: {done.stderr}")


def check_names(room):
    """A name with a line break makes no line of its own, and ticks as long as the times are fine are taken."""
    done = called("import log", written(room, "a\nb.log", EPOCH), "--tick", "1us")
    hold(done.returncode == 0 and done.stdout.startswith("# The frames of ") and "a b.log" in done.stdout, done.stdout)
    hold(all(it[:1] in "# ]s" for it in done.stdout.splitlines()), done.stdout)


def check_refused_logs(room):
    """What is refused of logs."""
    cases = (
        ("can't be read", [os.path.join(room, "none.log")]),
        ("candump -l", [written(room, "plain.log", " can0  123   [2]  11 22\n")]),
        ("No read support for this unknown log format", [written(room, "plain.pcap", "x")]),
        ("python-can can't read it", [written(room, "plain.blf", "x")]),
        ("there is no frame in it", [written(room, "empty.log", "")]),
        ("a line of the log is broken", [written(room, "huge.log", "(1.5) can0 010#00\n(1e300) can0 010#00\n")]),
        ("a line of the log is broken", [written(room, "nan.log", "(1.5) can0 010#00\n(nan) can0 010#00\n")]),
        ("times are relative to the line before", [written(room, "relative.asc", RELATIVE)]),
        # no identifier of 11 bits
        ("line 1: `(1.5) can0 FFF#00`", [written(room, "wide.log", "(1.5) can0 FFF#00\n")]),
        # a float of this size has steps of 2**-22 s, which are 238 ns
        ("its times are read to 238 ns", [written(room, "epoch.log", EPOCH), "--tick", "100ns"]),
    )
    hold_refused("import log", cases)


ASC = """date Fri Nov 1 10:00:00.000 am 2024
base hex timestamps absolute
no internal events logged
Begin Triggerblock Fri Nov 1 10:00:00.000 am 2024
 0.000000 Start of measurement
 0.010000 1 10 Rx d 1 00
 0.015000 1 Statistic: D 0 R 0 XD 0 XR 0 E 0 O 0 B 0.00%
 0.020000 1 10 Rx d 1 00
 0.030000 1 10 Rx d 1 00
End TriggerBlock
"""


def check_whole(room):
    """A log is taken whole or refused: a line that is none, frames at other places, and a file that is cut off."""
    base = [(at, 0x10, False, 2, "can0") for at in range(0, 100_000, 10_000)]
    done = called("import log", written(room, "whole.asc", ASC))
    hold(done.returncode == 0 and "period = 10000" in done.stdout, f"whole.asc: {done.stdout} {done.stderr}")
    packed = log_of(room, "cut.blf", base)
    with open(packed, "r+b") as it:
        it.truncate(os.path.getsize(packed) - 20)
    good = log_of(room, "good.log", base)
    later = "(1.000000) can0 010#00\n(3.000000) can0 010#00\n(2.000000) can0 010#00\n(4.000000) can0 010#00\n"
    joined, head = written(room, "joined.log", later), ASC[: ASC.index("no internal")]
    database = dumped(room, "other.dbc", matrix_of([("Lamps", 0x20, False, 1, 20, {})]))
    cases = (
        ("line 6: `0.010000 1 10 Rx x 1 00` is no line", [written(room, "b.asc", ASC.replace("Rx d", "Rx x", 1))]),
        (
            "line 6: `0.010000 A1 10 Rx d 1 00` is no",
            [written(room, "c.asc", ASC.replace("0 1 10 Rx", "0 A1 10 Rx", 1))],
        ),
        ("3 frames, and python-can reads 2 of them", [written(room, "d.asc", head + ASC[ASC.index(" 0.010000") :])]),
        ("cut.blf: ", [packed]),
        ("line 2: `(2.00000) can0 010#00`", [written(room, "e.log", later.replace("(3.000000)", "(2.00000)"))]),
        ("stands behind a later one of channel can0", [joined]),
        ("--sort concerns no frame", [good, "--sort"]),
        ("--classical concerns no frame", [good, "--classical"]),
        ("--bus concerns nothing", [good, "--bus", "b=can0"]),
        ("--rough concerns nothing", [good, "--rough", "5"]),
    )
    hold_refused("import log", cases)
    done = called("import log", joined, "--sort")
    hold(done.returncode == 0 and "1 frames before an earlier one" in done.stderr, f"--sort: {done.stderr}")
    done = called("import log", good, "--database", f"b={database}", "--period", "database")
    hold("x010: the database has no cycle time of it" in done.stderr, f"--period database: {done.stderr}")


TRC = """;$FILEVERSION=2.1
;$COLUMNS=N,O,T,B,I,d,R,L,D
      1        10.000 DT 1      0010 Rx -  1    00
      2        15.000 ST 1      -    Rx -  4    00 00 00 08
      3        20.000 DT 1      0010 Rx -  1    00
      4        30.000 DT 1      0010 Rx -  1    00
"""
OLD_TRC = """; no version
     1)      10  0010  1  00
     2)      15  FFFFFFFF  4  00 00 00 08
     3)      20  0010  1  00
     4)      30  0010  1  00
"""
CSV = """timestamp,arbitration_id,extended,remote,error,dlc,data
1.01,0x10,0,0,0,1,AA==
1.02,0x10,0,0,0,1,AA==
1.03,0x10,0,0,0,1,AA==
"""


def check_passed_over(room):
    """What python-can passes over in .trc and .csv files is refused or told; error frames of candump of each kind are
    none."""
    for name, text, told in (
        ("whole.trc", TRC, "1 warnings of the recorder"),
        ("errors.trc", TRC.replace(" ST ", " ER "), "1 error frames"),
        ("whole.csv", CSV, ""),
        ("old.trc", OLD_TRC, "1 warnings of the recorder"),
    ):
        done = called("import log", written(room, name, text))
        found = 'x010.seen", period = 10000' in done.stdout and told in done.stderr and bool(told) == bool(done.stderr)
        hold(found, f"{name}: {done.stdout} {done.stderr}")
    cases = (
        ("line 5: `3        20.000 FB 1", [written(room, "fd.trc", TRC.replace("20.000 DT", "20.000 FB"))]),
        ("line 6: `4        30.000 RR 1", [written(room, "remote.trc", TRC.replace("30.000 DT", "30.000 RR"))]),
        ("line 1: `;$FILEVERSION=2.0`", [written(room, "new.trc", TRC.replace("2.1", "2.0"))]),
        ("line 2: `;$COLUMNS=N,O,T,I,d,l,D`", [written(room, "columns.trc", TRC.replace("B,I,d,R,L", "I,d,l"))]),
        ("line 1: `1.01,0x10,0,0,0,1,AA==`", [written(room, "head.csv", CSV.split("\n", 1)[1])]),
    )
    hold_refused("import log", cases)
    # the kinds of linux/can/error.h: of the controller, of the bus, and both; 4, 0x80 and 0x84
    rows = [f"(1.0{at}0000) can0 {it}" for at, it in enumerate(("010#00", "20000004#00", "20000080#00", "20000084#00"))]
    done = called("import log", written(room, "errors.log", "\n".join([*rows, "(1.100000) can0 010#00"])))
    hold("3 error frames" in done.stderr and "x00000004" not in done.stdout, f"{done.stdout} {done.stderr}")


def check_can_utils(room):
    """Logs as log2asc of can-utils writes them, which is neither this project's nor python-can's."""
    if not shutil.which("log2asc"):
        return
    words = ["--system", "examples/sae_can.toml", "--report", "examples/sae_can.report.txt"]
    wanted = called("import log", "examples/sae_can.log", *words).stdout.replace("channel can0", "channel 0")
    for options, more in (([], []), (["-n"], []), (["-f"], ["--classical"])):
        file = os.path.join(room, "other.asc")
        subprocess.run(
            ["log2asc", *options, "-I", "examples/sae_can.log", "-O", file, "can0"], check=True, capture_output=True
        )
        done = called("import log", file, *words, *more)
        hold(
            done.stdout == wanted and done.returncode == 0 and not done.stderr,
            f"log2asc {options}: {done.stdout} {done.stderr}",
        )
    done = called("import log", file, *words)
    hold(
        "436 CAN FD frames are taken as such" in done.stderr
        and done.stdout.count("a frame of CAN FD, where the system has a classical one") == 17
        and done.returncode == 4,
        f"frames in lines of CAN FD: {done.stdout} {done.stderr}",
    )
    # times of four digits are rough by less than a hundred ticks
    subprocess.run(["log2asc", "-4", "-I", "examples/sae_can.log", "-O", file, "can0"], check=True, capture_output=True)
    done = called("import log", file, *words, "--rough", "100")
    hold(
        done.returncode == 0 and "frames 436 rough 60" in done.stdout and not done.stderr,
        f"log2asc -4: {done.stdout} {done.stderr}",
    )


if __name__ == "__main__":
    checks = (
        check_dropped,
        check_strange,
        check_errors,
        check_kinds,
        check_log_words,
        check_refused_logs,
        check_names,
        check_between_ticks,
        check_whole,
        check_passed_over,
        check_can_utils,
    )
    run_checks(__doc__, checks)
