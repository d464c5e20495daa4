#!/usr/bin/env python3
"""Tries `lokwurmi import network`. Outside the gate; takes about a minute, and no network.

The SAE benchmark, written as a database, comes back as the system that it was, with the bounds of its report; so do
random buses, whose priorities must be the order in which the bits of two identifiers are compared on a bus. What is
left out of a database, taken otherwise or assumed is told. Databases that canmatrix brings with it are read, or
refused in words.

    python3 -m tests.networks.check_imports [COUNT, 60 if absent]
"""
import glob
import os
import random
import re
import tomllib
from fractions import Fraction

import lxml.etree

from lokwurmi.frames import classical, execution
from lokwurmi_tools.networks.arxml_lines import ArxmlFrames
from lokwurmi_tools.networks.buses import named, plain
from lokwurmi_tools.shared.faults import Fault
from lokwurmi_tools.shared.times import common, text_of, time_of
from tests.support.calls import hold, written
from tests.support.databases import (
    analysed,
    called,
    canmatrix,
    dumped,
    imported,
    least_and_greatest,
    matrix_of,
    obeys,
    random_frames,
    run_checks,
    said_by,
    timed_arxml,
)


def sae_frames():
    with open("examples/sae_can.toml", "rb") as it:
        system = tomllib.load(it)
    sources = {it["name"]: it for it in system["source"]}
    return [
        (
            it["name"],
            it["priority"],
            False,
            it["payload"],
            sources[it["after"]]["period"] // 1000,
            {"JitterMs": sources[it["after"]]["jitter"] / 1000},
        )
        for it in system["task"]
    ]


def sae_report():
    """The report of the benchmark, whose paths have the names of frames."""
    with open("examples/sae_can.report.txt", encoding="ascii") as it:
        return it.read().replace("path d", "path m")


def check_sae(room):
    """The benchmark through databases and back."""
    report = sae_report()
    files = [dumped(room, "sae.dbc", matrix_of(sae_frames())), "examples/sae_can.dbc"]
    for file in files:
        system = os.path.join(room, "sae.toml")
        words = [f"can={file}", "--bitrate", 125000, "--jitter-attribute", "JitterMs", "--to", system]
        done = called("import network", *words)
        hold(
            done.returncode == 0 and analysed(system) == (0, report),
            f"the SAE benchmark by {file}: {done.stderr} {analysed(system)}",
        )
    # a bit is 10 ticks, all else is 1.25 times as many
    done = called("import network", f"can={files[0]}", *words[1:], "--tick", "800ns")
    wanted = [
        [f"{int(word) * 5 // 4}" if word.isdigit() else word for word in line.split()]
        for line in report.splitlines()[:-1]
    ]
    hold(
        [line.split() for line in analysed(system)[1].splitlines()[:-1]] == wanted,
        f"the SAE benchmark by ticks of 800 ns: {done.stderr}",
    )


def check_without_jitter(room):
    """The benchmark without jitter, by formats that have none."""
    report, system = sae_report(), os.path.join(room, "sae.toml")
    for name, matrices in (("sae.sym", matrix_of(sae_frames())), ("sae.kcd", {"can": matrix_of(sae_frames())})):
        bounds = [line.split()[-1] for line in report.splitlines() if line.startswith("task ")]
        file = f"can={dumped(room, name, matrices)}" if name.endswith("sym") else dumped(room, name, matrices)
        done = called("import network", file, "--bitrate", 125000, "--to", system)
        hold(
            [line.split()[-1] for line in analysed(system)[1].splitlines() if line.startswith("task ")] == bounds,
            f"the SAE benchmark by {name}: {done.stderr}",
        )


def check_sheets(room):
    """The benchmark through spreadsheets, in which canmatrix reads 8 bytes for each frame: that is told."""
    frames = {it[0]: it for it in sae_frames()}
    for name in ("sae.xlsx", "sae.xls"):
        system, told, _ = imported(f"can={dumped(room, name, matrix_of(sae_frames()))}", "--bitrate", 125000)
        tasks, sources = system.get("task", []), {it["name"]: it for it in system.get("source", [])}
        hold({it["name"]: it["priority"] for it in tasks} == {it: frames[it][1] for it in frames}, f"{name}: {tasks}")
        hold(all(sources[it["after"]]["period"] == 1000 * frames[it["name"]][4] for it in tasks), f"{name}: {sources}")
        hold({it["payload"] for it in tasks} == {8}, f"{name}: {tasks}")
        hold("a sheet has no lengths of frames: each has 8 bytes" in told and "156.0 %" in told, f"{name}: {told}")


def bits_on_bus(identifier, extended):
    """What is sent up to where a frame has the bus for itself; 0 goes before 1."""
    if not extended:
        return f"{identifier:011b}" + "0" + "0"
    return f"{identifier >> 18:011b}" + "1" + "1" + f"{identifier & 0x3FFFF:018b}" + "0"


def hold_entries(what, frames, system, bit):
    """Holds the sources and the tasks of a system beside the frames that they are of, with the length of a bit."""
    tasks, sources = {it["name"]: it for it in system["task"]}, {it["name"]: it for it in system["source"]}
    hold(set(tasks) == {it[0] for it in frames} and len(sources) == len(tasks), what)
    for name, _, extended, size, cycle, attributes in frames:
        source = {"name": f"{name}.queued", "period": cycle * 1000} | (
            {"jitter": round(attributes["JitterMs"] * 1000)} if attributes["JitterMs"] else {}
        )
        hold(sources[f"{name}.queued"] == source, f"{what} {name}: {sources[f'{name}.queued']}")
        least, greatest = least_and_greatest(size, extended)
        if bit.denominator == 1:
            length = {"payload": size} | ({"extended": True} if extended else {})
        else:
            length = {"best": int(least * bit), "worst": -int(-greatest * bit // 1)}
            hold(length["best"] <= least * bit and length["worst"] >= greatest * bit, f"{what}: lengths of {name}")
        hold(
            {key: it for key, it in tasks[name].items() if key not in ("name", "on", "after", "priority")} == length,
            f"{what} {name}: {tasks[name]}",
        )


def hold_priorities(what, frames, system, bit):
    """Holds priorities: they are identifiers where these are of one length and what is written tells of which."""
    kinds = {it[2] for it in frames}
    numbers = {it["name"]: it["priority"] for it in system["task"]}
    if kinds == {False} or kinds == {True} and bit.denominator == 1:
        hold(numbers == {it[0]: it[1] for it in frames}, f"{what}: its priorities aren't its identifiers")
    else:
        hold(sorted(numbers.values()) == list(range(len(frames))), f"{what}: its priorities aren't 0, 1, 2")
    order = sorted(frames, key=lambda it: bits_on_bus(it[1], it[2]))
    hold([it[0] for it in order] == sorted(numbers, key=lambda it: numbers[it]), f"{what}: its order")
    hold(
        len(set(numbers.values())) == len(numbers) and all(0 <= it <= 536_870_911 for it in numbers.values()),
        f"{what}: its priorities",
    )


def check_random(room, count):
    draw = random.Random(1)
    for number in range(count):
        frames = random_frames(draw, draw.choice(((False,), (True,), (False, True))))
        rate = draw.choice((125_000, 250_000, 500_000, 1_000_000, 800_000, 83_333))
        file = dumped(room, "random.dbc", matrix_of(frames))
        system, told, text = imported(f"b={file}", "--bitrate", rate, "--jitter-attribute", "JitterMs")
        what = f"random bus {number}: {told}"
        bit = Fraction(1_000_000, rate)
        hold(system["resource"] == [{"name": "b", "kind": "can", "bit": -(-bit.numerator // bit.denominator)}], what)
        hold_entries(what, frames, system, bit)
        hold_priorities(what, frames, system, bit)
        accepted = analysed(written(room, "random.toml", text, "ascii"))[0] in (0, 1, 2)
        hold(accepted, f"{what}: it isn't accepted")
        hold(
            {it["name"]: (it["tasks"], it["deadline"]) for it in system["path"]}
            == {it[0]: ([it[0]], it[4] * 1000) for it in frames},
            f"{what}: its paths",
        )


def two_buses(room):
    """The frames of two buses, and a database of both."""
    front = [
        ("Speed", 0x100, False, 8, 10, {}),
        ("Doors closed", 0x7, False, 2, 100, {}),
        ("Doors-closed", 0x8, False, 2, 100, {}),
        ("Türen", 0x9, False, 1, 100, {}),
        ("y" * 80, 0x10, False, 1, 100, {}),
    ]
    back = [
        ("Lamps2", 3 << 18, True, 1, 50, {}),
        ("Speed", 0x100 << 18, True, 8, 10, {}),
        ("Lamps", 0x3, False, 1, 50, {}),
    ]
    file = dumped(room, "two.kcd", {"front": matrix_of(front), "back": matrix_of(back)})
    return front, back, file


def check_several(room):
    """The names of frames and buses, and the order of identifiers of both lengths."""
    _, _, file = two_buses(room)
    system, told, text = imported(file, "--bitrate", 500000, "--bitrate", "back=125000", "--jitter", "1%")
    names = [
        "front.Doors_closed",
        "front.Doors-closed",
        "front.Turen",
        "front." + "y" * 51,
        "front.Speed",
        "back.Lamps",
        "back.Lamps2",
        "back.Speed",
    ]
    hold(
        sorted(it["name"] for it in system["task"]) == sorted(names), f"names: {[it['name'] for it in system['task']]}"
    )
    hold({it["name"]: it["bit"] for it in system["resource"]} == {"front": 2, "back": 8}, "bits of two buses")
    hold(
        "'Doors closed' is front.Doors_closed" in told
        and "'Türen' is front.Turen" in told
        and "one that a gateway passes on comes with more jitter: --forward front.Speed=back.Speed" in told,
        told,
    )
    hold(
        "bus back: priorities are 0, 1 and so on in the order in which the bus compares identifiers" in text,
        "a bus with identifiers of both lengths",
    )
    hold(
        [
            it["name"]
            for it in sorted((it for it in system["task"] if it["on"] == "back"), key=lambda it: it["priority"])
        ]
        == ["back.Lamps", "back.Lamps2", "back.Speed"],
        "11 bits go before 29",
    )


def check_forward(room):
    """What a gateway passes on."""
    _, _, file = two_buses(room)
    system, told, _ = imported(
        file, "--bitrate", 500000, "--forward", "front.Speed=back.Speed", "--without", "back.Lamps2"
    )
    tasks = {it["name"]: it for it in system["task"]}
    hold(
        tasks["back.Speed"]["after"] == "front.Speed"
        and tasks["back.Lamps"]["priority"] == 0
        and tasks["back.Speed"]["priority"] == 1
        and not any("back.Speed" in it["name"] for it in system["source"]),
        f"--forward: {tasks}",
    )
    hold(
        {"name": "front.Speed-back.Speed", "tasks": ["front.Speed", "back.Speed"]} in system["path"]
        and "a gateway passes on at once" in told,
        f"--forward: {system['path']}",
    )


def check_gateway_queue(room):
    """What a gateway passes on through a queue: each frame by a task of its own, in the order in which they come."""
    front = [("Speed", 0x100, False, 8, 10, {}), ("Doors", 0x7, False, 2, 100, {}), ("Alone", 0x8, False, 2, 100, {})]
    back = [("Speed", 0x200, False, 8, 10, {}), ("Doors", 0x9, False, 2, 100, {}), ("Lamps", 0x3, False, 1, 50, {})]
    file = dumped(room, "queue.kcd", {"front": matrix_of(front), "back": matrix_of(back)})
    words = [file, "--bitrate", 500000, "--forward", "front.Speed=back.Speed", "--forward", "front.Doors=back.Doors"]
    system, told, text = imported(*words, "--gateway-queue", "gate=200us")
    tasks = {it["name"]: it for it in system["task"]}
    passed = {"on": "gate", "best": 1, "worst": 200}
    for name in ("Speed", "Doors"):
        own = {"name": f"back.{name}.passed", "after": f"front.{name}"} | passed
        is_passed = tasks[f"back.{name}.passed"] == own and tasks[f"back.{name}"]["after"] == own["name"]
        path = {"name": f"front.{name}-back.{name}", "tasks": [f"front.{name}", own["name"], f"back.{name}"]}
        hold(is_passed and path in system["path"], f"--gateway-queue: {tasks} {system['path']}")
    gate = {"name": "gate", "kind": "fifo"}
    hold(gate in system["resource"] and system["format"] == 4 and len(tasks) == 8, f"--gateway-queue: {text}")
    ways = "in the order in which frames come, each in up to 200us, and in no less than a tick, 1us"
    hold(f"by its queue gate, {ways}" in told, told)
    for name in ("my gate", 25 * "g"):
        done = said_by("import network", *words, "--gateway-queue", f"{name}=200us")
        hold(f"'{name}' is no name of a queue" in done, f"--gateway-queue {name}: {done}")
    system = imported(*words, "--gateway-queue", "100ns")[0]
    hold({"name": "gateway", "kind": "fifo"} in system["resource"], f"--gateway-queue without a name: {system}")
    hold([it["worst"] for it in system["task"] if it["on"] == "gateway"] == [1, 1], f"rounded up: {system}")
    # each frame that is passed on may be in front of the one that is asked for
    system = imported(*words, "--gateway-queue", "gate=200us", "--only", "back.Speed")[0]
    names = {it["name"] for it in system["task"]}
    wanted = {"back.Speed", "back.Speed.passed", "front.Speed", "back.Doors", "back.Doors.passed", "front.Doors"}
    hold(wanted <= names and "front.Alone" in names, f"--only with --gateway-queue: {names}")


def check_buses(room):
    """Buses of other names, one of several, plain KCD files, and several files."""
    front, back, file = two_buses(room)
    spaced = dumped(room, "spaced.kcd", {"Body CAN": matrix_of(front[:1])})
    system, told, _ = imported(spaced, "--bitrate", "Body_CAN=500000")
    hold(
        system["resource"][0]["name"] == "Body_CAN" and "another name: 'Body CAN' is Body_CAN" in told,
        f"a bus of another name: {told}",
    )
    system, told, _ = imported(file, "--bitrate", 500000, "--bus", "front")
    hold([it["name"] for it in system["resource"]] == ["front"] and "a bus that --bus doesn't name: back" in told, told)
    # a message of a KCD file that has an interval, and no word on what triggers it
    tree = lxml.etree.parse(file)
    for bus in tree.getroot().iter("{*}Bus"):
        bus.set("baudrate", "250000")
    for message in tree.getroot().iter("{*}Message"):
        message.attrib.pop("triggered")
    tree.write(os.path.join(room, "plain.kcd"))
    system, told, _ = imported(os.path.join(room, "plain.kcd"))
    hold(
        len(system["task"]) == 8 and "sent on events" not in told and {it["bit"] for it in system["resource"]} == {4},
        f"a plain KCD file: {told}",
    )
    first, second = dumped(room, "first.dbc", matrix_of(front[:1])), dumped(room, "second.dbc", matrix_of(back[1:2]))
    system, told, _ = imported(first, f"other={second}", "--bitrate", "first=500000", "--bitrate", "other=250000")
    hold([it["name"] for it in system["task"]] == ["first.Speed", "other.Speed"], f"two files: {told}")


def check_arxml(room):
    """A file of AUTOSAR: bit rate and cycle times."""
    file = dumped(
        room,
        "plain.arxml",
        {
            "body": matrix_of(
                [("a", 0x10, False, 8, 0, {}), ("b", 0x12345, True, 3, 0, {}), ("c", 0x12, False, 3, 0, {})]
            )
        },
    )
    timed = timed_arxml(room, file, {"a": "0.02", "b": "0.1"})
    system, told, _ = imported(timed, "--bitrate", 500000, "--without-period", "leave")
    hold(
        {it["name"]: it["period"] for it in system["source"]} == {"FRAME_a.queued": 20_000, "FRAME_b.queued": 100_000}
        and "no cycle time, and no least distance is told (--without-period leave): FRAME_c" in told,
        f"an ARXML file: {system} {told}",
    )
    hold(
        {it["name"]: it.get("extended") for it in system["task"]} == {"FRAME_a": None, "FRAME_b": True},
        f"an ARXML file: {system}",
    )


FLEXIBLE = "<CAN-FRAME-TX-BEHAVIOR>CAN-FD</CAN-FRAME-TX-BEHAVIOR>"
SUPPORT = "<CAN-FD-FRAME-SUPPORT>%s</CAN-FD-FRAME-SUPPORT>"
ANY = "<CAN-FRAME-RX-BEHAVIOR>ANY</CAN-FRAME-RX-BEHAVIOR>"
SWITCH = "<TX-BIT-RATE-SWITCH>%s</TX-BIT-RATE-SWITCH>"
# 29 to 34 bits of 2 us, and 33 + 64 to 34 + 80 of half a us where the frame switches its bit rate, else of 2 us
SWITCHED, UNSWITCHED, CLASSICAL = (106, 125, None), (252, 296, None), (None, None, 8)


def check_flexible(room):
    """A file of AUTOSAR: which frames are of CAN FD, and which of them switch their bit rate."""
    file = dumped(room, "flexible.arxml", {"body": matrix_of([("a", 0x10, False, 8, 0, {})])})
    with open(timed_arxml(room, file, {"a": "0.02"}), encoding="utf-8") as it:
        plain = it.read()
    for of_frame, of_station, wanted in (
        ("", "", CLASSICAL),
        (SUPPORT % "false", SWITCH % "true", CLASSICAL),
        (FLEXIBLE, "", SWITCHED),
        (FLEXIBLE.replace("TX", "RX"), "", SWITCHED),
        (FLEXIBLE.replace("FD", "20") + FLEXIBLE.replace("TX", "RX"), "", CLASSICAL),
        (SUPPORT % "true", "", SWITCHED),
        (FLEXIBLE, SWITCH % "true", SWITCHED),
        (FLEXIBLE, SWITCH % "false", UNSWITCHED),
        (SUPPORT % "TRUE", SWITCH % "0" + SWITCH % "false", UNSWITCHED),
        (FLEXIBLE.replace("FD", "20"), SWITCH % "true" + SWITCH % "false", CLASSICAL),
        (ANY, "", CLASSICAL),
        (ANY + FLEXIBLE, "", SWITCHED),
        (SUPPORT % "true" + ANY, "", SWITCHED),
    ):
        text = re.sub("(<IDENTIFIER>)", of_frame + r"\1", plain)
        station = f"<ELEMENTS><ECU-INSTANCE><SHORT-NAME>Motor</SHORT-NAME>{of_station}</ECU-INSTANCE></ELEMENTS>"
        text = re.sub(r"(<SHORT-NAME>ECU</SHORT-NAME>\s*)<ELEMENTS/>", r"\1" + station, text)
        rates = ("--data-bitrate", 2000000) if wanted == SWITCHED else ()
        system, told, _ = imported(written(room, "flexible.arxml", text), "--bitrate", 500000, *rates)
        found = [tuple(it.get(key) for key in ("best", "worst", "payload")) for it in system.get("task", [])]
        hold(found == [wanted], f"{of_frame} {of_station}: {found} {told}")
        is_told = "as the file doesn't tell whether it does" in told
        hold(is_told == (wanted == SWITCHED and not of_station), f"{of_frame} {of_station}: {told}")
    for bad, cluster, says in (
        (SUPPORT % "perhaps", "", "CAN-FD-FRAME-SUPPORT is perhaps: it is true or false"),
        (FLEXIBLE.replace("CAN-FD<", "FD<"), "", "CAN-FRAME-TX-BEHAVIOR is FD: it is CAN-20 or CAN-FD"),
        (ANY.replace("ANY", "SOME"), "", "CAN-FRAME-RX-BEHAVIOR is SOME: it is CAN-20 or CAN-FD or ANY"),
        (
            ANY,
            "<CAN-FD-BAUDRATE>2000000</CAN-FD-BAUDRATE>",
            "CAN-FRAME-RX-BEHAVIOR is ANY: whether it is one of CAN FD",
        ),
        (
            FLEXIBLE,
            SWITCH % "true" + SWITCH % "false",
            "it goes out of no port, and controllers differ in TX-BIT-RATE-S",
        ),
    ):
        text = re.sub("(<IDENTIFIER>)", bad + r"\1", plain)
        text = re.sub("(<CAN-CLUSTER>)", r"\1" + cluster, text)
        told = said_by("import network", written(room, "bad.arxml", text), "--bitrate", 500000)
        hold(re.search(r"bad.arxml: line \d+: frame FRAME_a of bus body: " + says, told), told)


CONTROLLER = """<CAN-COMMUNICATION-CONTROLLER><SHORT-NAME>%s</SHORT-NAME><CAN-CONTROLLER-FD-CONFIGURATION>
<TX-BIT-RATE-SWITCH>%s</TX-BIT-RATE-SWITCH></CAN-CONTROLLER-FD-CONFIGURATION></CAN-COMMUNICATION-CONTROLLER>"""
CONNECTOR = """<CAN-COMMUNICATION-CONNECTOR><SHORT-NAME>%s</SHORT-NAME>
<COMM-CONTROLLER-REF>%s</COMM-CONTROLLER-REF><FRAME-PORT><SHORT-NAME>out</SHORT-NAME>
<COMMUNICATION-DIRECTION>OUT</COMMUNICATION-DIRECTION></FRAME-PORT></CAN-COMMUNICATION-CONNECTOR>"""


def check_controllers(_):
    """A gateway whose frames switch on one of its buses alone: each goes by the controller of its connector."""
    parts = [CONTROLLER % ("quick", "true"), CONTROLLER % ("slow", "false")]
    parts += [CONNECTOR % it for it in (("to_quick", "/Gate/quick"), ("to_slow", "/Gate/slow"), ("lost", "/none"))]
    root = lxml.etree.fromstring(f"<AR><ECU-INSTANCE><SHORT-NAME>Gate</SHORT-NAME>{''.join(parts)}</ECU-INSTANCE></AR>")
    frames = ArxmlFrames("gate.arxml", root)
    for names, wanted in (
        (["to_quick"], True),
        (["to_slow"], False),
        (["to_slow", "to_quick"], "controllers that send it differ in TX-BIT-RATE-SWITCH"),
        (["lost"], "controllers that send it differ in TX-BIT-RATE-SWITCH"),
    ):
        ports = "".join(f"<FRAME-PORT-REF>/Gate/{it}/out</FRAME-PORT-REF>" for it in names)
        frame = lxml.etree.fromstring(f"<CAN-FRAME-TRIGGERING>{ports}</CAN-FRAME-TRIGGERING>")
        try:
            found = frames.switches_of(frame, "frame a")
            hold(found is wanted, f"the bit rate by {names}: {found}")
        except Fault as fault:
            hold(str(wanted) in str(fault), f"the bit rate by {names}: {fault}")


def check_clusters(room):
    """An ARXML file of two clusters, which share a frame that has another identifier on each."""
    file = dumped(
        room,
        "clusters.arxml",
        {
            "a": matrix_of([("Speed", 0x100, False, 8, 0, {}), ("Own", 0x50, False, 2, 0, {})]),
            "b": matrix_of([("Other", 0x60, False, 8, 0, {}), ("Lamps", 0x61, True, 1, 0, {})]),
        },
    )
    tree = lxml.etree.parse(file)
    refs = {it.text: it for it in tree.getroot().iter("{*}FRAME-REF")}
    refs["/Frame/FRAME_Other"].text = "/Frame/FRAME_Speed"
    tree.write(os.path.join(room, "shared.arxml"))
    # a frame that nothing triggers any more
    lost = said_by("import network", os.path.join(room, "shared.arxml"), "--bitrate", 500000, "--others", "50ms")
    hold("frame FRAME_Other is on no bus, as nothing triggers it" in lost, lost)
    for name, other, more in (("clusters.arxml", "Other", ()), ("shared.arxml", "Speed", ("--without", "FRAME_Other"))):
        system, told, _ = imported(os.path.join(room, name), "--bitrate", 500000, "--others", "50ms", *more)
        found = {it["name"]: (it["on"], it["priority"], it.get("extended", False)) for it in system.get("task", [])}
        hold(
            found
            == {
                "a.FRAME_Speed": ("a", 0x100, False),
                "a.FRAME_Own": ("a", 0x50, False),
                f"b.FRAME_{other}": ("b", 1, False),
                "b.FRAME_Lamps": ("b", 0, True),
            },
            f"{name}: {found} {told}",
        )


def check_shipped(room):
    """Databases that come with canmatrix: none of this project's."""
    folder = os.path.dirname(canmatrix.__file__)
    files = sorted(
        glob.glob(os.path.join(folder, "**", "*.dbc"), recursive=True)
        + glob.glob(os.path.join(folder, "**", "*.arxml"), recursive=True)
    )
    hold(bool(files), "canmatrix brings databases with it")
    for file in files:
        done = called("import network", file, "--bitrate", 250000, "--others", "1s")
        hold("Traceback" not in done.stderr and done.returncode in (0, 1), f"{file}: {done.stderr}")
        if done.returncode == 0:
            hold(
                analysed(written(room, "shipped.toml", done.stdout))[0] in (0, 1, 2),
                f"{file}: its system isn't accepted",
            )
        else:
            hold(done.stderr.strip() != "", f"{file}: why it is refused")


def check_words(_):
    """Times, names, and lengths of frames."""
    hold(
        time_of("250us") == 250_000
        and time_of("0.5ms") == 500_000
        and text_of(Fraction(1500)) == "1.5us"
        and common(Fraction(1000), Fraction(1250)) == 250
        and common(Fraction(800), Fraction(1, 3)) == Fraction(1, 3),
        "times",
    )
    taken = set()
    hold(
        [named(it, taken, 5) for it in ("a b", "a-b", "a+b", "aaaaaa", "aaaaab", "-x", "", "ß")]
        == ["a_b", "a-b", "a_b_2", "aaaaa", "aaa_2", "_-x", "_", "__2"],
        f"names: {taken}",
    )
    hold(plain("Türsteuergerät (links)") == "Tursteuergerat_links_", "a name without its marks")
    for size in range(9):
        hold(
            least_and_greatest(size, False) == (47 + 8 * size, 55 + 10 * size) == execution({"payload": size}, {})
            and least_and_greatest(size, True)
            == (67 + 8 * size, 80 + 10 * size)
            == execution({"payload": size, "extended": True}, {}),
            f"the lengths of a frame of {size} bytes",
        )
        for extended in (False, True):
            found = tuple(it.nominal for it in classical(size, extended))
            hold(
                found == least_and_greatest(size, extended), f"the lengths of a frame of {size} bytes in lokwurmi_tools"
            )


def check_multiplexed(_):
    """k frames in each cycle, at any times within the jitter, are what --multiplexed each makes of them."""
    draw = random.Random(6)
    for _ in range(200):
        period, count, jitter = draw.randint(5, 60), draw.randint(1, 5), draw.choice((0, draw.randint(0, 150)))
        times = sorted(
            cycle * period + draw.choice((0, jitter, draw.randint(0, jitter)))
            for cycle in range(12)
            for _ in range(count)
        )
        each = period // count
        hold(
            obeys(times, each, jitter + (count - 1) * each, 0),
            f"{count} frames in each cycle of {period}, with jitter {jitter}: {times}",
        )


if __name__ == "__main__":
    checks = (
        check_sae,
        check_without_jitter,
        check_sheets,
        check_several,
        check_forward,
        check_gateway_queue,
        check_buses,
        check_arxml,
        check_flexible,
        check_controllers,
        check_clusters,
        check_shipped,
    )
    run_checks(__doc__, (check_words, check_multiplexed, *checks), (check_random,))
