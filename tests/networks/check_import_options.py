#!/usr/bin/env python3
"""Tries what `lokwurmi import network` takes of a database, and what it is told by options. Outside the gate; takes
about a minute, and no network.

What a database says besides cycle times is taken; what is left out, taken otherwise or assumed is told, and changed by
options. What a frame doesn't have, and what isn't read of one, is refused in words, with its line.

    python3 -m tests.networks.check_import_options
"""
import os

from tests.support.calls import hold, run, written
from tests.support.databases import PYTHON, dumped, hold_refused, imported, matrix_of, run_checks, said_by

DBC = """VERSION ""
BU_: Gate Motor
BO_ 256 Speed: 8 Motor
 SG_ v : 0|16@1+ (1,0) [0|0] "" Gate
BO_ 257 Extras: 4 Motor
 SG_ v : 0|16@1+ (1,0) [0|0] "" Gate
BO_ 258 Diagnosis: 8 Motor
BO_ 259 OnEvents: 8 Motor
BO_ 260 Bursts: 8 Motor
BO_ 261 Big: 24 Motor
BO_ 262 Fast: 8 Motor
BO_ 263 Muxed: 8 Motor
 SG_ which M : 0|8@1+ (1,0) [0|0] "" Gate
 SG_ a m0 : 8|8@1+ (1,0) [0|0] "" Gate
 SG_ b m1 : 8|8@1+ (1,0) [0|0] "" Gate
 SG_ c m2 : 8|8@1+ (1,0) [0|0] "" Gate
BO_ 264 Long: 2 Motor
 SG_ v : 8|24@1+ (1,0) [0|0] "" Gate
BO_ 265 Flexible: 8 Motor
BO_ 266 Signals: 8 Motor
 SG_ v : 0|16@1+ (1,0) [0|0] "" Gate
 SG_ w : 16|16@1+ (1,0) [0|0] "" Gate
BO_ 267 Uneven: 8 Motor
BO_ 3221225472 VECTOR__INDEPENDENT_SIG_MSG: 0 Vector__XXX
BA_DEF_ BO_ "GenMsgCycleTime" FLOAT 0 3600000;
BA_DEF_ BO_ "GenMsgCycleTimeFast" INT 0 3600000;
BA_DEF_ BO_ "GenMsgDelayTime" INT 0 3600000;
BA_DEF_ BO_ "DeadlineMs" INT 0 3600000;
BA_DEF_ BO_ "GenMsgSendType" ENUM "Cyclic","Spontaneous","CyclicAndSpontaneous";
BA_DEF_ BO_ "VFrameFormat" ENUM "StandardCAN","ExtendedCAN","reserved","J1939PG",\
"reserved","reserved","reserved","reserved","reserved","reserved","reserved","reserved","reserved","reserved","StandardCAN_FD","ExtendedCAN_FD";
BA_DEF_ SG_ "GenSigCycleTime" INT 0 3600000;
BA_DEF_DEF_ "GenMsgCycleTime" %s;
BA_DEF_DEF_ "GenMsgCycleTimeFast" 0;
BA_DEF_DEF_ "GenMsgDelayTime" 0;
BA_DEF_DEF_ "DeadlineMs" 0;
BA_DEF_DEF_ "GenMsgSendType" "Cyclic";
BA_DEF_DEF_ "VFrameFormat" "StandardCAN";
BA_DEF_DEF_ "GenSigCycleTime" 0;
BA_ "GenMsgCycleTime" BO_ 256 10;
BA_ "DeadlineMs" BO_ 256 7;
BA_ "GenMsgCycleTime" BO_ 257 100;
BA_ "GenMsgCycleTimeFast" BO_ 257 20;
BA_ "GenMsgSendType" BO_ 259 1;
BA_ "GenMsgDelayTime" BO_ 259 40;
BA_ "GenMsgCycleTime" BO_ 260 200;
BA_ "GenMsgSendType" BO_ 260 2;
BA_ "GenMsgDelayTime" BO_ 260 30;
BA_ "GenMsgCycleTime" BO_ 261 100;
BA_ "GenMsgCycleTime" BO_ 262 100;
BA_ "GenMsgSendType" BO_ 262 2;
BA_ "GenMsgCycleTime" BO_ 263 100;
BA_ "GenMsgCycleTime" BO_ 264 100;
BA_ "GenMsgCycleTime" BO_ 265 100;
BA_ "VFrameFormat" BO_ 265 14;
BA_ "GenMsgCycleTime" BO_ 266 60;
BA_ "GenSigCycleTime" SG_ 266 v 20;
BA_ "GenSigCycleTime" SG_ 266 w 30;
BA_ "GenMsgCycleTime" BO_ 267 2.5;
"""
# bit rates for buses with CAN FD
RATES = ("--bitrate", 500000, "--data-bitrate", 2000000)
# what DBC wants a word for: it has frames without a period, and longer ones
LEAVE = ("--without-period", "leave", "--longer", "leave")


def check_features(room):
    """What a database says besides cycle times."""
    file = written(room, "car.dbc", DBC % "0")
    system, told, text = imported(file, *RATES, *LEAVE, "--deadline-attribute", "DeadlineMs")
    periods = {it["name"].removesuffix(".queued"): it["period"] for it in system["source"]}
    hold(
        periods
        == {
            "Speed": 10_000,
            "Extras": 20_000,
            "OnEvents": 40_000,
            "Bursts": 30_000,
            "Fast": 100_000,
            "Muxed": 100_000,
            "Long": 100_000,
            "Signals": 10_000,
            "Flexible": 100_000,
            "Uneven": 2500,
        },
        f"periods: {periods}",
    )
    sporadic = [it["name"] for it in system["source"] if it.get("sporadic")]
    hold(sporadic == ["OnEvents.queued"] and system["format"] == 4, f"sent on events alone: {sporadic}")
    deadlines = {it["name"]: it["deadline"] for it in system["path"]}
    hold(deadlines["Speed"] == 7000 and deadlines["Extras"] == 20_000, f"deadlines: {deadlines}")
    tasks = {it["name"]: it for it in system["task"]}
    hold(tasks["Long"]["payload"] == 4, "a frame that is as long as its signals")
    # 29 to 34 bits of 2 us, and 97 to 114 of half a us
    hold((tasks["Flexible"]["best"], tasks["Flexible"]["worst"]) == (106, 125), f"CAN FD: {tasks['Flexible']}")


def check_told(room):
    """What is told of a database, on the standard error and in the file."""
    file = written(room, "car.dbc", DBC % "0")
    _, told, text = imported(file, *RATES, *LEAVE, "--deadline-attribute", "DeadlineMs")
    for line in (
        "of bus car 10 of 13 frames are taken",
        "no cycle time, and no least distance is told (--without-period leave): Diagnosis",
        "more than 8 bytes, and not told to be of CAN FD (--longer leave): Big",
        "deadline by --deadline, as there is no DeadlineMs: Extras",
        "no frame, but signals that are in none: VECTOR__INDEPENDENT_SIG_MSG",
        "period by GenMsgCycleTimeFast: Extras",
        "sporadic: sent on events alone (Spontaneous): OnEvents",
        "period by the least distance of the database (GenMsgDelayTime), as there is no cycle time: OnEvents",
        "so the least distance and not the cycle time: Bursts",
        "but the database has no least distance (--others): Fast",
        (
            "one frame a cycle, whatever its multiplexer has; where each value is sent in each cycle: --multiplexed"
            " each: Muxed"
        ),
        "period by the cycle times of its signals: Signals",
        "is queued exactly once a period",
    ):
        hold(
            line in told and line in " ".join(it.lstrip("# ") for it in text.splitlines()),
            f"what is told: {line}: {told}",
        )


def check_options(room):
    """What is taken otherwise by the words of a call."""
    file = written(room, "car.dbc", DBC % "0")
    system, told, _ = imported(
        file, *RATES, *LEAVE[2:], *("--others", "15ms", "--multiplexed", "each", "--jitter", "10%", "--deadline", "50%")
    )
    sources = {it["name"].removesuffix(".queued"): (it["period"], it["jitter"]) for it in system["source"]}
    hold(
        sources["Diagnosis"] == (15_000, 1500)
        and sources["Fast"] == (15_000, 1500)
        and sources["Bursts"] == (30_000, 3000)
        and sources["Uneven"] == (2500, 250),
        f"--others: {sources}",
    )
    hold(sources["Muxed"] == (33_333, 10_000 + 2 * 33_333), f"--multiplexed each: {sources}")
    hold({it["name"]: it["deadline"] for it in system["path"]}["Uneven"] == 1250, "--deadline 50%")
    system, told, _ = imported(
        file, *RATES, *LEAVE, *("--multiplexed", "out", "--deadline", "none", "--without", "S*", "--jitter", "0.5ms")
    )
    hold(
        {it["name"] for it in system["task"]} == {"Extras", "OnEvents", "Bursts", "Fast", "Long", "Flexible", "Uneven"}
        and system["path"] == []
        and all(it["jitter"] == 500 for it in system["source"]),
        f"--without: {system}",
    )
    hold(
        "multiplexed (--multiplexed out): Muxed" in told and "by --without: Speed, Signals" in told,
        f"--without: {told}",
    )


def check_defaults(room):
    """Defaults of the database, faster senders and longer ticks, by the words of a call."""
    file = written(room, "car.dbc", DBC % "0")
    system, told, _ = imported(written(room, "defaults.dbc", DBC % "50"), *RATES, *LEAVE[2:], "--defaults")
    hold(
        {it["name"]: it["period"] for it in system["source"]}.get("Diagnosis.queued") == 50_000
        and "period by the default of GenMsgCycleTime: Diagnosis" in told,
        f"a default: {told}",
    )
    system, told, _ = imported(file, *RATES, *LEAVE, "--fast", "100")
    hold(
        {it["name"]: it["period"] for it in system["source"]}["Uneven.queued"] == 2499
        and {it["name"]: it["period"] for it in system["source"]}["Speed.queued"] == 9999
        and "shorter by 100 millionths" in told,
        f"--fast: {told}",
    )
    system, told, _ = imported(file, *RATES, *LEAVE, "--tick", "10us", "--bus", "car", "--without", "Uneven")
    hold(
        {it["name"]: it["best"] for it in system["task"]}["Speed"] == 22 and "with --tick 2us none is" in told,
        f"--tick 10us: {told}",
    )


def check_flexible(room):
    """A bus of CAN FD: rates of the database, and frames of which nothing is told."""
    bus = 'BA_DEF_ "BusType" STRING;\nBA_DEF_DEF_ "BusType" "CAN FD";\nBA_DEF_ "BaudrateCANFD" INT 0 9000000;\n'
    bus += 'BA_DEF_DEF_ "BaudrateCANFD" 2000000;\nBA_DEF_ BO_ "CANFD_BRS" ENUM "0","1";\nBA_DEF_DEF_ "CANFD_BRS" "1";\n'
    text, more = DBC % "0" + bus, LEAVE
    system, told, _ = imported(written(room, "flexible.dbc", text), "--bitrate", 500000, *more)
    tasks = {it["name"]: it for it in system["task"]}
    hold((tasks["Flexible"]["best"], tasks["Flexible"]["worst"]) == (106, 125), f"a bus of CAN FD: {tasks} {told}")
    hold("doesn't tell which" not in told, f"a bus of CAN FD: {told}")
    text, more = text.replace('BA_ "VFrameFormat" BO_ 265 14;\n', ""), LEAVE[:2]
    system, told, _ = imported(written(room, "flexible.dbc", text), "--bitrate", 500000, *more)
    tasks = {it["name"]: it for it in system["task"]}
    hold("doesn't tell which frames are: those of more than 8 bytes alone" in told, f"a bus of CAN FD: {told}")
    # 29 to 34 bits of 2 us, and 8 * 24 + 38 to 10 * 24 + 39 of half a us
    hold((tasks["Big"]["best"], tasks["Big"]["worst"]) == (173, 208), f"more than 8 bytes: {tasks['Big']}")
    text = (DBC % "0" + bus).replace('"CANFD_BRS" "1"', '"CANFD_BRS" "0"')
    system, told, _ = imported(written(room, "slow.dbc", text), "--bitrate", 500000, *LEAVE)
    tasks = {it["name"]: it for it in system["task"]}
    hold((tasks["Flexible"]["best"], tasks["Flexible"]["worst"]) == (252, 296), f"one bit rate: {tasks['Flexible']}")
    # of CAN FD by the default of the database: 29 to 34 bits of 2 us, and 33 + 64 to 34 + 80 of half a us
    text = (DBC % "0").replace('"VFrameFormat" "StandardCAN"', '"VFrameFormat" "StandardCAN_FD"')
    system, told, _ = imported(written(room, "all.dbc", text), *RATES, *LEAVE[:2])
    tasks = {it["name"]: it for it in system["task"]}
    hold((tasks["Speed"].get("best"), tasks["Speed"].get("worst")) == (106, 125), f"a default: {tasks['Speed']}")
    hold("of CAN FD by the default of VFrameFormat: Speed, Extras" in told, f"a default: {told}")
    hold("as the file doesn't tell whether it does: Speed, Extras" in told, f"whether it switches: {told}")
    told = said_by("import network", written(room, "car.dbc", DBC % "0"), "--bitrate", 500000, *LEAVE)
    hold("Flexible: it is a frame of CAN FD, and the bit rate of the data phase isn't told" in told, told)


def check_refused(room):
    """What is refused of rates, times, shares and names, and of what comes of them."""
    same = dumped(room, "same.kcd", {"same": matrix_of([("a", 1, False, 1, 10, {}), ("b", 1, False, 1, 10, {})])})
    one = dumped(room, "one.dbc", matrix_of([("a", 1, False, 1, 10, {}), ("b", 2, False, 1, 10, {})]))
    many = dumped(room, "many.dbc", matrix_of([(f"m{k}", k, True, 1, 10_000, {}) for k in range(8193)]))
    cases = (
        ("a and b have the identifier 0x001", [same, "--bitrate", 500000]),
        ("the bit rate of bus one isn't told: --bitrate one=500000", [one]),
        ("there is no such bus; there are one", [one, "--bitrate", "two=500000"]),
        ("is no bit rate", [one, "--bitrate", "fast"]),
        ("is no time", [one, "--bitrate", 500000, "--tick", "1"]),
        ("is no number of millionths", [one, "--bitrate", 500000, "--fast", "1%"]),
        ("is no time", [one, "--bitrate", 500000, "--tick", "0us"]),
        ("is no time", [one, "--bitrate", 500000, "--deadline", "soon"]),
        ("there is no such bus", [one, "--bitrate", 500000, "--bus", "two"]),
        ("there is no frame c", [one, "--bitrate", 500000, "--forward", "a=c"]),
        ("two frames are passed on as one", [one, "--bitrate", 500000, "--forward", "a=b", "--forward", "b=b"]),
        ("no frame goes through it", [one, "--bitrate", 500000, "--gateway-queue", "100us"]),
        ("a bus has this name", [one, "--bitrate", 500000, "--forward", "a=b", "--gateway-queue", "one=100us"]),
        ("take a longer --tick", [one, "--bitrate", 500000, "--forward", "a=b", "--gateway-queue", "11s"]),
        ("is no time", [one, "--bitrate", 500000, "--forward", "a=b", "--gateway-queue", "gate"]),
        ("is no share", [one, "--bitrate", 500000, "--jitter", "1/0%"]),
        ("is no share", [one, "--bitrate", 500000, "--jitter=-5%"]),
        ("two frames", [one, "--bitrate", 500000, "--forward", "a"]),
        ("forwarded in a ring", [one, "--bitrate", 500000, "--forward", "a=b", "--forward", "b=a"]),
        ("its period of 10ms is less than a tick", [one, "--bitrate", 5000, "--tick", "20ms"]),
        ("and 1000 is the most: take a longer --tick", [one, "--bitrate", 5000, "--tick", "100ns"]),
        ("500: 500 bit/s? write 500000, or 500k", [one, "--bitrate", 500]),
        ("--bitrate: two rates are given for the same bus", [one, "--bitrate", "500k", "--bitrate", "125k"]),
        ("8193 sources and 8193 tasks and 8193 paths are too many", [many, "--bitrate", 500000]),
        ("--share all: 1 sources, fits", [many, "--bitrate", 500000]),
        ("8193 tasks and 8193 paths are too many", [many, "--bitrate", 500000, "--share", "all"]),
        ("is no number of errors", [one, "--bitrate", 500000, "--errors", "2"]),
        ("taken; there are a, b", [one, "--bitrate", 500000, "--only", "c"]),
        ("--without c: there is no such frame; there are a, b", [one, "--bitrate", 500000, "--without", "c"]),
        ("--paths c*: there is no such frame among", [one, "--bitrate", 500000, "--paths", "c*"]),
    )
    hold_refused("import network", cases)


def check_refused_files(room):
    """What is refused of attributes and of files."""
    one = dumped(room, "one.dbc", matrix_of([("a", 1, False, 1, 10, {}), ("b", 2, False, 1, 10, {})]))
    minus = 'FormatVersion=5.0\nTitle="x"\n\n{SENDRECEIVE}\n\n[a]\nID=-03h\nDLC=1\nCycleTime=10\n'
    cases = (
        ("no frame has such an attribute; there are", [one, "--bitrate", 500000, "--jitter-attribute", "Jitter"]),
        ("no frame has such an attribute; there are", [one, "--bitrate", 500000, "--deadline-attribute", "Dl"]),
        ("a: its GenMsgSendType is Cyclic", [one, "--bitrate", 500000, "--jitter-attribute", "GenMsgSendType"]),
        ("which is below 500000 of the bus", [one, "--bitrate", 500000, "--data-bitrate", 250000]),
        ("can't be read", [os.path.join(room, "none.dbc"), "--bitrate", 500000]),
        ("canmatrix reads no files with this ending", [written(room, "some.txt", "x"), "--bitrate", 500000]),
        ("canmatrix can't read it", [written(room, "some.arxml", "x"), "--bitrate", 500000]),
        ("two buses have the name one: name them", [one, one, "--bitrate", 500000]),
        (
            "`ID=-03h`, which says something of frames: its value is 3 or 8 hexadecimal digits and h",
            [written(room, "minus.sym", minus), "--bitrate", 500000],
        ),
        ("no frame is taken", [one, "--bitrate", 500000, "--without", "*"]),
        ("can't be written", [one, "--bitrate", 500000, "--to", os.path.join(room, "nowhere", "x.toml")]),
    )
    hold_refused("import network", cases)


# frames that lines of a DBC file don't say rightly: the line, and what is said of it
UNREAD = (
    ("BO_ 3 c 6 Sender", "line 4: `BO_ 3 c 6 Sender` is no frame that can be read, by c: a name without blanks"),
    ("BO_ 3 c d: 6 Sender", "by c: a name without blanks, and a colon behind it"),
    ("BO_ 217056256 c: 8 Sender", "it has 29 bits: add 0x80000000, so write 2364539904"),
    ("BO_ 0x3 c: 8 Sender", "by 0x3: an identifier is a decimal number"),
    ("BO_\t3 c: 8 Sender", "by its tab: write blanks"),
    ("BO_ 3 c:", "by its end: the length in bytes, and the sender"),
    ("BO_", "by its end: an identifier is a decimal number"),
    ('BA_ "GenMsgCycleTime" BO_ 9 20;', "names a frame 9, which no BO_ line has"),
    ('BA_ "GenMsgCycleTime" BO_ 1 2000;', "has a value 2000: its definition has 0 1000"),
    ('BA_ "GenMsgCycleTim" BO_ 1 20;', "is of no attribute that BA_DEF_ BO_ defines; did you mean GenMsgCycleTime?"),
    ('BA_ "GenMsgCycleTime" BO_ 1 20', "is no attribute that can be read: write it as"),
    ('BA_ "GenMsgCycleTime" BO_ 1 "20', "has a quote that isn't closed"),
    ("BO 3 c: 6 Sender", "begins with no word of a DBC file: did you mean BO_?"),
    (' SG_ v : 0|72@1+ (1,0) [0|0 "" Gate', "is no signal that can be read, and its frame's length"),
    (' SG_ v M : 0|8@1+ (1,0) [0|0 "" Gate', "is no signal that can be read, and its frame's length"),
    (' SG_ v m1 : 0|8@1+ (1,0) [0|0] "" Gate', "is multiplexed, and the frame of line 3 has no multiplexer"),
    ('\n SG_ v : 0|8@1+ (1,0) [0|0] "" Gate', "stands in no frame: its BO_ line is lost"),
    ("SG_MUL_VAL_ 1 v w 0-1;", "names a signal v, which the frame doesn't have"),
)


def check_unread(room):
    """No frame of a database is dropped in silence: what isn't read of one is refused, with its line."""
    head = 'VERSION ""\nBU_: Sender\n'
    frames = "BO_ 1 a: 8 Sender\nBO_ 2 b: 8 Sender\n"
    times = 'BA_DEF_ BO_ "GenMsgCycleTime" INT 0 1000;\nBA_DEF_DEF_ "GenMsgCycleTime" 10;\n'
    told_line = ' SG_ v : 0|8@1+ (1,0) [0|0 "" Gate'
    system, told, _ = imported(
        written(room, "signal.dbc", f"{head}BO_ 1 a: 8 Sender\n{told_line}\n{times}"), "--bitrate", "500k", "--defaults"
    )
    hold(
        f"it can't read line 4, `{told_line.strip()}`" in told and len(system["task"]) == 1, f"a broken signal: {told}"
    )
    for number, (line, told) in enumerate(UNREAD):
        one, other = frames.splitlines(True)
        file = written(room, f"unread{number}.dbc", f"{head}{one}{line}\n{other}{times}")
        if line.startswith(("BA_", "SG_MUL")):
            file = written(room, f"unread{number}.dbc", f"{head}{frames}{times}{line}\n")
        said = said_by("import network", file, "--bitrate", 500000)
        hold(told in said and file in said, f"{line}: {said}")
    comment = 'CM_ BO_ 1 "as it was:\nBO_ 7 old 8 Sender\nand more";\n'
    system, _, _ = imported(
        written(room, "comment.dbc", head + frames + comment + times), "--bitrate", 500000, "--defaults"
    )
    hold({it["name"] for it in system["task"]} == {"a", "b"}, "a frame in a comment is none")


def check_unread_elsewhere(room):
    """The same of other formats, and of two frames with one identifier."""
    symbols = 'FormatVersion=5.0\nTitle="x"\n\n[lost]\nID=005h\nDLC=1\nCycleTime=10\n\n{SENDRECEIVE}\n\n'
    file = written(room, "unread.sym", symbols + "[a]\nID=003h\nDLC=1\nCycleTime=10\n")
    hold("line 4: [lost] isn't read" in said_by("import network", file, "--bitrate", 500000), "unread.sym")
    file = written(room, "bad.sym", symbols.replace("[lost]", "") + "[a]\nID=00Xh\nDLC=1\nCycleTime=10\n")
    hold("`ID=00Xh`, which says something of frames" in said_by("import network", file, "--bitrate", 500000), "bad.sym")
    message = '<Message id="0x{0}" name="m{0}" length="1" triggered="true" interval="10"/>'
    group = f"<Group>{message.format(2)}</Group>"
    text = f'<NetworkDefinition xmlns="http://kayak.2codeornot2code.org/1.0"><Bus name="b">\n{message.format(1)}\n'
    file = written(room, "unread.kcd", f"{text}{group}</Bus></NetworkDefinition>")
    hold("line 3: message m2 of bus b isn't read" in said_by("import network", file, "--bitrate", 500000), "unread.kcd")
    # two of one identifier, of which one has no cycle time
    same = matrix_of([("a", 1, False, 1, 10, {}), ("b", 1, False, 1, 0, {}), ("c", 2, False, 1, 10, {})])
    file = dumped(room, "one_same.dbc", same)
    hold("a and b have the identifier 0x001" in said_by("import network", file, "--bitrate", 500000), "one_same.dbc")
    # a DBC file has attributes by identifiers, so that b has the cycle time
    system = imported(file, "--bitrate", 500000, "--without", "a")[0]
    hold([it["name"] for it in system.get("task", [])] == ["b", "c"], "one_same.dbc without a")


SYMBOLS = """FormatVersion=6.0
{SENDRECEIVE}
[a]
ID=00000064h
Type=FDExtended
Len=8
CycleTime=10
[b]
ID=065h
Type=fdstandard
Len=8
CycleTime=10
[c]
ID=00000066h
Type = extended
Len=8
CycleTime=10
"""
MESSAGES = """{"messages": [
{"name": "a", "id": 100, "length": 8, "is_fd": true, "is_extended_frame": true, "signals": [],
 "attributes": {"GenMsgCycleTime": "10", "GenMsgDelayTime": null}},
{"name": "b", "id": 101, "length": 8, "is_fd": true, "signals": [], "attributes": {"GenMsgCycleTime": "10"}},
{"name": "c", "id": 102, "length": 8, "is_extended_frame": true, "signals": [], "attributes": {"GenMsgCycleTime": 10}}
]}"""


def check_types(room):
    """What canmatrix leaves out of SYM and JSON files: frames of CAN FD, 29 bits, cycle times, lengths that lack."""
    for name, text in (("types.sym", SYMBOLS), ("types.json", MESSAGES)):
        system, told, _ = imported(written(room, name, text), "--bitrate", 500000, "--data-bitrate", 500000)
        found = {it["name"]: tuple(it.get(key) for key in ("best", "worst", "extended")) for it in system["task"]}
        # in bits of 2 us: 48 + 33 + 64 to 57 + 34 + 80 with 29 bits, and 29 + 33 + 64 to 34 + 34 + 80 with 11
        wanted = {"a": (290, 342, None), "b": (252, 296, None), "c": (None, None, True)}
        hold(found == wanted and {it["period"] for it in system["source"]} == {10_000}, f"{name}: {found} {told}")
    for before, after, said in (
        ('"length": 8, "is_extended_frame"', '"is_extended_frame"', "message c has no length"),
        ('"length": 8, "is_fd": true', '"length": 8, "is_fd": "true"', "message a: is_fd is 'true': it is true or f"),
        ('{"GenMsgCycleTime": 10}', "[10]", "message c: its attributes are no table of keys and values"),
        ('"GenMsgDelayTime": null', '"CANFD_BRS": "perhaps"', "a: its CANFD_BRS is perhaps: it is 1 where the frame"),
    ):
        file = written(room, "bad.json", MESSAGES.replace(before, after))
        told = said_by("import network", file, "--bitrate", 500000)
        hold(said in told, told)
    # none of them switches, so no bit rate of a data phase is needed
    text = MESSAGES.replace('"GenMsgCycleTime": "10"', '"GenMsgCycleTime": "10", "CANFD_BRS": false')
    system, told, _ = imported(written(room, "slow.json", text), "--bitrate", 500000)
    found = {it["name"]: (it.get("best"), it.get("worst")) for it in system.get("task", [])}
    hold(found == {"a": (290, 342), "b": (252, 296), "c": (None, None)}, f"slow.json: {found} {told}")


def check_lacking(room):
    """A sheet, where the package that reads it isn't here."""
    none = os.path.join(room, "none")
    os.makedirs(none)
    written(none, "xlrd.py", "raise ImportError")
    paths = os.pathsep.join((none, os.environ["PYTHONPATH"]))
    for name in ("lacks.xls", "lacks.xlsx"):
        file = dumped(room, name, matrix_of([("a", 1, False, 8, 10, {})]))
        done = run("import network", file, "--bitrate", 500000, python=PYTHON, env={"PYTHONPATH": paths})
        hold("the package xlrd isn't here: apt-get install python3-xlrd" in done.stderr, f"{name}: {done.stderr}")


# statements of all kinds, as tools of Vector write them
VECTOR = r"""VERSION ""

NS_ :
~NS_DESC_
~CM_
~BA_DEF_
~BA_
~VAL_
~CAT_DEF_
~FILTER

BS_:

BU_: ECU1 ECU2
 ECU3
VAL_TABLE_ State 3 "error" 2 "ok" ;


BO_ 100 A: 8 ECU1
 SG_ s1 : 7|16@0+ (0.1,-40) [-40|215] "degC"  ECU2,ECU3
 SG_ s2 : 39|12@0- (1,0) [0|0] "" ECU2

BO_ 101 B: 8 Vector__XXX
 SG_ m M : 0|4@1+ (1,0) [0|0] "" ECU2
 SG_ x m0 : 8|8@1+ (1E-3,0) [0|0] "" ECU2

BO_TX_BU_ 101 : ECU1,ECU2;

EV_ Env1: 0 [0|100] "" 0 1 DUMMY_NODE_VECTOR0 Vector__XXX;
CM_ BU_ ECU1 "first; with ""quotes"" no
second line";
CM_ SG_ 100 s1 "Temp \"quoted\"
 BO_ line of text
end";
CM_ BO_ 101 "x";
BA_DEF_  "BusType" STRING ;
BA_DEF_ BO_  "GenMsgCycleTime" INT 0 65535;
BA_DEF_ BO_  "GenMsgSendType" ENUM  "Cyclic","NotUsed","IfActive";
BA_DEF_ SG_  "GenSigStartValue" FLOAT -3.4E+038 3.4E+038;
BA_DEF_REL_ BU_SG_REL_ "GenSigTimeoutTime" INT 0 65535;
BA_DEF_DEF_  "BusType" "CAN";
BA_DEF_DEF_  "GenMsgCycleTime" 0;
BA_DEF_DEF_  "GenMsgSendType" "Cyclic";
BA_DEF_DEF_  "GenSigStartValue" 0;
BA_DEF_DEF_REL_ "GenSigTimeoutTime" 0;
BA_ "BusType" "CAN";
BA_ "GenMsgCycleTime" BO_ 100 10;
BA_ "GenMsgCycleTime" BO_ 101 20;
BA_ "GenMsgSendType" BO_ 101 2;
BA_ "GenSigStartValue" SG_ 100 s1 400;
BA_REL_ "GenSigTimeoutTime" BU_SG_REL_ ECU2 SG_ 100 s1 50;
VAL_ 100 s1 1 "a" 0 "b" ;
VAL_ Env1 1 "a" 0 "b" ;
SIG_GROUP_ 100 grp 1 : s1 s2;
SIG_VALTYPE_ 100 s2 : 1;
""".replace(
    "~", "\t"
)


def check_vector(room):
    """A file with all that there may be, with line feeds and with carriage returns before them."""
    for name, text in (("vector.dbc", VECTOR), ("returns.dbc", VECTOR.replace("\n", "\r\n"))):
        system, told, _ = imported(written(room, name, text), "--bitrate", "500k")
        found = [(it["name"], it["payload"], it["priority"]) for it in system.get("task", [])]
        hold(found == [("A", 8, 100), ("B", 8, 101)] and "canmatrix says" not in told, f"{name}: {found} {told}")


WANTED_HEAD = """VERSION ""
BU_: Sender
BO_ 1 a: 8 Sender
BO_ 2 b: 8 Sender
BO_ 3 c: 8 Sender
BA_DEF_ BO_ "GenMsgCycleTime" INT 0 1000;
BA_DEF_ BO_ "JitterMs" FLOAT 0 100;
BA_DEF_DEF_ "GenMsgCycleTime" %s;
BA_DEF_DEF_ "JitterMs" 0;
BA_ "GenMsgCycleTime" BO_ 1 10;
BA_ "GenMsgCycleTime" BO_ 2 20;
BA_ "JitterMs" BO_ 1 2;
BA_ "JitterMs" BO_ 2 4;
"""


def check_wanted(room):
    """What a frame doesn't have, and what an option doesn't concern, wants a word of the user's."""
    file, other = written(room, "wanted.dbc", WANTED_HEAD % "0"), written(room, "fifty.dbc", WANTED_HEAD % "50")
    rate, jitter = ("--bitrate", "500k"), ("--jitter-attribute", "JitterMs")
    cases = (
        ("no cycle time and no least distance: c", [file, *rate]),
        ("is the database's default, and one that is lost looks the same: c", [other, *rate]),
        ("these have no JitterMs of their own", [file, *rate, *jitter, "--without-period", "100ms"]),
        ("--without-period concerns no frame", [file, *rate, "--without", "c", "--without-period", "leave"]),
        ("--without-period concerns no frame", [other, *rate, "--defaults", "--without-period", "100ms"]),
        ("--others concerns no frame", [file, *rate, "--without-period", "leave", "--others", "100ms"]),
        ("--multiplexed concerns no frame", [file, *rate, "--without", "c", "--multiplexed", "each"]),
        ("--data-bitrate concerns no frame", [file, *rate, "--without", "c", "--data-bitrate", "2M"]),
        ("--defaults concerns no frame", [file, *rate, "--without", "c", "--defaults"]),
        ("--longer concerns no frame", [file, *rate, "--without", "c", "--longer", "leave"]),
        ("--jitter concerns no frame", [file, *rate, *jitter, "--without", "c", "--jitter", "1ms"]),
        (
            "with --deadline none there is no path",
            [file, *rate, "--without", "c", "--deadline", "none", "--paths", "a"],
        ),
        ("or leave", [file, *rate, "--without-period", "off"]),
    )
    hold_refused("import network", cases)
    for words, period, late in (
        ([file, "--without-period", "100ms", "--jitter", "3ms"], 100_000, 3000),
        ([file, "--without-period", "100ms", "--defaults"], 100_000, None),
        ([other, "--defaults"], 50_000, None),
        ([file, "--others", "30ms", "--jitter", "3ms"], 30_000, 3000),
    ):
        system, said, text = imported(*words, *rate, *jitter)
        sources = {it["name"]: it for it in system.get("source", [])}
        hold(sources["a.queued"] == {"name": "a.queued", "period": 10_000, "jitter": 2000}, f"{words}: {sources}")
        hold(
            (sources["c.queued"]["period"], sources["c.queued"].get("jitter")) == (period, late), f"{words}: {sources}"
        )
        hold(" # 0x003\n" in text, f"{words}: the identifier of c: {text}")
    system, said, _ = imported(file, *rate, *jitter, "--without-period", "leave")
    hold([it["name"] for it in system["task"]] == ["a", "b"] and "(--without-period leave): c" in said, said)


if __name__ == "__main__":
    checks = (
        check_features,
        check_told,
        check_options,
        check_defaults,
        check_flexible,
        check_refused,
        check_refused_files,
        check_unread,
        check_unread_elsewhere,
        check_types,
        check_lacking,
        check_wanted,
        check_vector,
    )
    run_checks(__doc__, checks)
