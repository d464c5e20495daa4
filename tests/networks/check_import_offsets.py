#!/usr/bin/env python3
"""Tries `lokwurmi import network --offsets`. Outside the gate; takes some seconds, and no network.

Offsets of DBC and ARXML files come as sources on clocks, with bounds that are worked out here by hand. What may be sent
on events, or by more than one period, is on no clock, and what can't be right of a clock is refused in words.

    python3 -m tests.networks.check_import_offsets
"""
from tests.support.calls import hold, written
from tests.support.databases import (
    analysed,
    canmatrix,
    dumped,
    hold_refused,
    imported,
    matrix_of,
    run_checks,
    timed_arxml,
)

HEAD = """VERSION ""
BU_: Motor Gate
BO_ 256 A: 8 Motor
BO_ 257 B: 8 Motor
BO_ 258 C: 8 Gate
"""
DEFINES = """BA_DEF_ BO_ "GenMsgCycleTime" FLOAT 0 3600000;
BA_DEF_ BO_ "GenMsgCycleTimeFast" INT 0 3600000;
BA_DEF_ BO_ "GenMsgStartDelayTime" FLOAT 0 3600000;
BA_DEF_ BO_ "GenMsgSendType" ENUM "Cyclic","Spontaneous","CyclicAndSpontaneous","IfActive";
BA_DEF_DEF_ "GenMsgCycleTime" 0;
BA_DEF_DEF_ "GenMsgCycleTimeFast" 0;
BA_DEF_DEF_ "GenMsgStartDelayTime" 1;
BA_DEF_DEF_ "GenMsgSendType" "Cyclic";
BA_ "GenMsgCycleTime" BO_ 256 10;
BA_ "GenMsgCycleTime" BO_ 257 10;
BA_ "GenMsgCycleTime" BO_ 258 20;
BA_ "GenMsgSendType" BO_ 256 0;
BA_ "GenMsgSendType" BO_ 257 0;
BA_ "GenMsgSendType" BO_ 258 0;
"""
STARTS = """BA_ "GenMsgStartDelayTime" BO_ 256 0;
BA_ "GenMsgStartDelayTime" BO_ 257 2.5;
BA_ "GenMsgStartDelayTime" BO_ 258 5;
"""
WHOLE = HEAD + DEFINES + STARTS
RATE = ("--bitrate", "500k")
# each frame takes 55 + 10 * 8 bits of 2 us, which are 270. Of A and B, 2500 ticks apart, one alone comes before another
# frame is sent: B may wait for C, and C for A or for B
ON_CLOCKS = {"A": 2 * 270, "B": 2 * 270, "C": 2 * 270}
ON_NONE = {"A": 2 * 270, "B": 3 * 270, "C": 3 * 270}


def bounds_of(room, text):
    """The bounds of tasks in a report, or nothing where the program refuses the system."""
    lines = analysed(written(room, "offsets.toml", text, "ascii"))[1].splitlines()
    return {it.split()[1].removeprefix("FRAME_"): int(it.split()[-1]) for it in lines if it.startswith("task ")}


def on_clocks(system):
    """Where each source is on a clock, with its jitter."""
    return {
        it["name"]
        .removesuffix(".queued")
        .removeprefix("FRAME_"): (it["clock"], it.get("offset", 0), it.get("jitter", 0))
        for it in system["source"]
        if "clock" in it
    }


def check_bounds(room):
    """A DBC file with and without its offsets, and the premise that its system says at its head."""
    file = written(room, "car.dbc", WHOLE)
    system, told, text = imported(file, *RATE, "--offsets")
    wanted = {"A": ("Motor", 0, 0), "B": ("Motor", 2500, 0), "C": ("Gate", 5000, 0)}
    hold(on_clocks(system) == wanted and system["format"] == 4, f"offsets: {system}")
    hold(bounds_of(room, text) == ON_CLOCKS, f"bounds on clocks: {bounds_of(room, text)}")
    head = " ".join(it.lstrip("# ") for it in text.split("format =")[0].splitlines())
    for said in ("by its one clock", "no two of them drift apart, none is left out", "Motor with 2 frames"):
        hold(said in head and said in told, f"the premise: {said}: {told} {head}")
    system, told, text = imported(file, *RATE)
    hold(not on_clocks(system) and "clock" not in told and system["format"] == 1, f"without --offsets: {system}")
    hold(bounds_of(room, text) == ON_NONE, f"bounds without clocks: {bounds_of(room, text)}")


def check_rounded(room):
    """An offset between two ticks is rounded down, and its jitter is greater by that: 2.5004 ms are 2500.4 ticks
    of 1 us."""
    text = WHOLE.replace("BO_ 257 2.5;", "BO_ 257 2.5004;")
    system, told, _ = imported(written(room, "uneven.dbc", text), *RATE, "--offsets")
    hold(on_clocks(system)["B"] == ("Motor", 2500, 1), f"rounded down: {system}")
    hold("its offset is rounded down, and its jitter is greater by what that takes: B from" in told, told)
    # 0.3 us of jitter and 0.4 us of the offset are within a tick, and 0.7 us with 0.4 us aren't
    for jitter, wanted in (("0.3us", 1), ("0.7us", 2), ("10us", 11)):
        system = imported(written(room, "uneven.dbc", text), *RATE, "--offsets", "--jitter", jitter)[0]
        hold(on_clocks(system)["B"] == ("Motor", 2500, wanted), f"a jitter of {jitter}: {system}")


# lines more, and the frames on clocks then, with what is said of others
OFF = (
    ('BA_ "GenMsgCycleTimeFast" BO_ 257 50;\n', {"A", "C"}, "on no clock, as it has more than one period: B"),
    ("BO_TX_BU_ 257 : Motor,Gate;\n", {"A", "C"}, "on no clock, as it has several senders: B"),
)
# lines in place of others
OTHER = (
    (
        '"GenMsgSendType" BO_ 257 0',
        '"GenMsgSendType" BO_ 257 2',
        {"A", "C"},
        "its send type is CyclicAndSpontaneous: B",
    ),
    ('"GenMsgSendType" BO_ 258 0', '"GenMsgSendType" BO_ 258 3', {"A", "B"}, "its send type is IfActive: C"),
    ('BA_ "GenMsgSendType" BO_ 258 0;\n', "", {"A", "B"}, "its GenMsgSendType is the database's default, which"),
    ('BA_ "GenMsgStartDelayTime" BO_ 257 2.5;\n', "", {"A", "C"}, "GenMsgStartDelayTime is the database's default"),
)


def check_off(room):
    """Frames that are on no clock, which is told, and what --defaults takes."""
    cases = [(WHOLE + more, names, said) for more, names, said in OFF]
    cases += [(WHOLE.replace(old, new), names, said) for old, new, names, said in OTHER]
    for text, names, said in cases:
        system, told, _ = imported(written(room, "off.dbc", text), *RATE, "--offsets")
        hold(set(on_clocks(system)) == names and said in told, f"{said}: {system} {told}")
    text = WHOLE.replace('BA_ "GenMsgStartDelayTime" BO_ 257 2.5;\n', "")
    system = imported(written(room, "off.dbc", text), *RATE, "--offsets", "--defaults")[0]
    hold(on_clocks(system)["B"] == ("Motor", 1000, 0), f"--defaults: {system}")


def check_several(room):
    """A clock for each sender of each bus; no source of two frames with other offsets; none for a frame that stands for
    others, or that a gateway passes on."""
    files = written(room, "front.dbc", WHOLE), written(room, "back.dbc", WHOLE)
    system = imported(*files, *RATE, "--offsets", "--forward", "front.A=back.A")[0]
    found = {name: clock for name, (clock, _, _) in on_clocks(system).items()}
    wanted = {"front.A": "front.Motor"}
    for bus in ("front", "back"):
        wanted |= {f"{bus}.B": f"{bus}.Motor", f"{bus}.C": f"{bus}.Gate"}
    hold(found == wanted, f"two buses: {found}")
    system = imported(files[0], *RATE, "--offsets", "--share", "all")[0]
    hold(len(on_clocks(system)) == 3, f"--share all: {system}")
    same = WHOLE.replace("BO_ 257 2.5;", "BO_ 257 0;")
    system = imported(written(room, "same.dbc", same), *RATE, "--offsets", "--share", "all")[0]
    hold(sorted(on_clocks(system).values()) == [("Gate", 5000, 0), ("Motor", 0, 0)], f"--share of one offset: {system}")
    system, _, text = imported(files[0], *RATE, "--offsets", "--only", "B")
    hold(set(on_clocks(system)) == {"A", "B"} and bounds_of(room, text)["B"] == ON_CLOCKS["B"], f"--only B: {system}")


def check_refused(room):
    """What can't be right of a clock; and a cycle that is too long, which the program refuses."""
    cases = []
    for said, old, new in (
        ("B: its offset of 10ms isn't below its period of 10ms", "BO_ 257 2.5;", "BO_ 257 10;"),
        ("isn't below its period of 20ms: where it is sent so from its second", "BO_ 258 5;", "BO_ 258 25;"),
        ("over whole periods, 5ms", "BO_ 258 5;", "BO_ 258 25;"),
        ("C: it has an offset, and no sender by whose clock that is", "C: 8 Gate", "C: 8 Vector__XXX"),
        ("has a value -1: its definition has 0 3600000", "BO_ 258 5;", "BO_ 258 -1;"),
        ("C: a period on a clock isn't rounded, and its period of 20.0005ms", "BO_ 258 20;", "BO_ 258 20.0005;"),
        ("is no whole number of ticks: take --tick 500ns", "BO_ 258 20;", "BO_ 258 20.0005;"),
        ("--offsets concerns no frame that is taken", STARTS, ""),
    ):
        name = f"refused{len(cases)}.dbc"
        cases.append((said, [written(room, name, WHOLE.replace(old, new)), *RATE, "--offsets"]))
    file = written(room, "car.dbc", WHOLE)
    cases.append(("--fast: periods on a clock are exact", [file, *RATE, "--offsets", "--fast", "100"]))
    hold_refused("import network", cases)
    text = WHOLE.replace("BO_ 256 10;", "BO_ 256 99.991;").replace("BO_ 257 10;", "BO_ 257 99.989;")
    text = imported(written(room, "long.dbc", text), *RATE, "--offsets")[2]
    told = analysed(written(room, "long.toml", text, "ascii"))
    hold("system refused reason 15 source 2" in told[1], f"a cycle that is too long: {told}")


def sent(frames, senders):
    """A bus of frames with their senders."""
    matrix = matrix_of(frames)
    for name in sorted(set(senders.values())):
        matrix.add_ecu(canmatrix.Ecu(name))
    for frame in matrix.frames:
        if frame.name in senders:
            frame.add_transmitter(senders[frame.name])
    return matrix


def check_arxml(room):
    """The same frames by ARXML."""
    frames = [("A", 0x100, False, 8, 0, {}), ("B", 0x101, False, 8, 0, {}), ("C", 0x102, False, 8, 0, {})]
    senders, periods = {"A": "Motor", "B": "Motor", "C": "Gate"}, {"A": "0.01", "B": "0.01", "C": "0.02"}
    offsets = {"A": "0", "B": "0.0025", "C": "5e-3"}
    plain = dumped(room, "plain.arxml", {"body": sent(frames, senders)})
    system, told, text = imported(timed_arxml(room, plain, periods, offsets), *RATE, "--offsets")
    wanted = {"A": ("Motor", 0, 0), "B": ("Motor", 2500, 0), "C": ("Gate", 5000, 0)}
    hold(on_clocks(system) == wanted and bounds_of(room, text) == ON_CLOCKS, f"ARXML: {system} {told}")
    file = timed_arxml(room, plain, periods, {"A": "0", "B": "0.0025"})
    system, told, _ = imported(file, *RATE, "--offsets")
    hold(set(on_clocks(system)) == {"A", "B"} and "nothing tells when it begins" in told, f"ARXML: {system} {told}")
    with open(file, encoding="utf-8") as it:
        whole = it.read()
    for more in ("<EVENT-CONTROLLED-TIMING/>", "<TRANSMISSION-MODE-FALSE-TIMING/>"):
        some = whole.replace("</TRANSMISSION-MODE-TRUE-TIMING>", f"</TRANSMISSION-MODE-TRUE-TIMING>{more}", 1)
        system = imported(written(room, "more.arxml", some), *RATE, "--offsets")[0]
        hold(set(on_clocks(system)) == {"B"}, f"ARXML with {more}: {system}")
    lost = dumped(room, "lost.arxml", {"body": sent(frames, {"A": "Motor", "B": "Motor"})})
    cases = []
    for said, told in (("0.01", "B: its offset of 10ms isn't below its period"), ("-0.001", "is no number of milli")):
        with open(timed_arxml(room, plain, periods, offsets | {"B": said}), encoding="utf-8") as it:
            cases.append((told, [written(room, f"bad{said}.arxml", it.read()), *RATE, "--offsets"]))
    hold_refused("import network", cases)
    file = timed_arxml(room, lost, periods, offsets)
    hold_refused("import network", [("C: it has an offset, and no sender", [file, *RATE, "--offsets"])])


if __name__ == "__main__":
    run_checks(__doc__, (check_bounds, check_rounded, check_off, check_several, check_refused, check_arxml))
