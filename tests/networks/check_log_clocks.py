#!/usr/bin/env python3
"""Tries `lokwurmi import log --clocks`. Outside the gate; takes about a minute, and no network.

Clocks are found where logs were made of clocks, with the offsets of these. Each source on a clock holds the whole log,
by a plain rule and by what `simulate` says of a trace with its times, and wouldn't with less jitter. A node that begins
anew or drifts, frames that are missing or sent on events, and periods that make a clock too long are on none.

    python3 -m tests.networks.check_log_clocks [COUNT, 20 if absent]
"""
import random
import subprocess

from tests.support.calls import hold, written
from tests.support.databases import PROGRAM, analysed, called, hold_refused, run_checks, system_of
from tests.support.logs import log_of

# the frames of two nodes: an identifier, a node, a period and an offset on its clock, all in microseconds
FRAMES = (
    (0x100, "Motor", 10_000, 0),
    (0x101, "Motor", 10_000, 2_500),
    (0x102, "Motor", 20_000, 5_000),
    (0x200, "Gate", 5_000, 1_000),
    (0x201, "Gate", 50_000, 3_000),
)
STARTS = {"Motor": 700, "Gate": 4_100}
MOTOR, GATE = {0x100, 0x101, 0x102}, {0x200, 0x201}
# the last time of a trace
LAST = 10_000_000


def times_of(frames, until, late=0, draw=None, drifts=()):
    """When the frames of some nodes come, by their identifiers: each up to so late; a node may drift, by millionths."""
    draw, drifts = draw or random.Random(1), dict(drifts)
    found = {}
    for identifier, node, period, offset in frames:
        rate = 1 + drifts.get(node, 0) / 1_000_000
        places = range((until - STARTS[node] - offset) // period)
        found[identifier] = [
            round(STARTS[node] + (offset + place * period) * rate + draw.randint(0, late)) for place in places
        ]
    return found


def log_with(room, times):
    """A log of such times."""
    rows = sorted((at, identifier) for identifier, several in times.items() for at in several)
    return log_of(room, "seen.log", [(at, identifier, False, 1, "can0") for at, identifier in rows])


def proposed(room, times, *words, may_fail=False):
    """The sources that are written for some times, by their identifiers, and what is told."""
    done = called("import log", log_with(room, times), "--clocks", *words)
    if may_fail and done.returncode == 1:
        hold("--clocks finds no two sources" in done.stderr and not done.stdout, f"{times}: {done.stderr}")
        return {}, done.stderr
    hold(done.returncode == 0 and "Traceback" not in done.stderr, f"--clocks {words}: {done.stderr}")
    system = system_of(done.stdout) if done.returncode == 0 else {"source": []}
    hold(system.get("format", 4) == 4, f"the format: {done.stdout}")
    file = written(room, "seen.toml", done.stdout)
    hold(analysed(file) == (0, "summary tasks 0 overload 0 missed 0\n"), f"analyse: {analysed(file)} {done.stdout}")
    for said in ("no node begins anew", "no clock drifts later", "no frame is left out or sent on an event"):
        hold(said in done.stdout and said in done.stderr, f"the premise: {said}: {done.stderr}")
    return {int(it["name"][1:-5], 16): it for it in system["source"]}, done.stderr + done.stdout


def groups_of(sources):
    """The identifiers on each clock."""
    found = {}
    for identifier, it in sources.items():
        if "clock" in it:
            found.setdefault(it["clock"], set()).add(identifier)
    return sorted(found.values(), key=min)


def ends_of(times, period):
    """Where the earliest and the latest of some events are, counted back by whole periods to the first of them."""
    places = [time - number * period for number, time in enumerate(times)]
    return min(places), max(places)


def has_start(sources, times):
    """Whether one moment is right for the start of a clock: event n of each source comes from its offset and n periods
    after it to that and its jitter, none left out. Each moment that the first source leaves is tried."""
    rows = [(it["period"], it.get("jitter", 0), it.get("offset", 0), times[key]) for key, it in sources.items()]
    rows.sort()
    several = [(period, jitter, offset, *ends_of(seen, period)) for period, jitter, offset, seen in rows]
    longest, (period, jitter, offset, early, late) = rows[-1][0], several[0]
    for back in range(-(longest // period) - 1, longest // period + 2):
        for start in range(late - jitter - offset - back * period, early - offset - back * period + 1):
            # the last place of a source at or before its earliest event
            places = [low - (low - start - off) % every for every, _, off, low, _ in several]
            if all(high <= place + row[1] for place, row in zip(places, several) for high in row[4:]):
                return True
    return False


def is_obeyed(room, sources, times):
    """Whether `simulate` takes a trace with these times."""
    lines = [", ".join(f'{key} = "{it[key]}"' for key in ("name", "clock")) for it in sources.values()]
    rest = [
        "".join(f", {key} = {it.get(key, 0)}" for key in ("period", "jitter", "distance", "offset"))
        for it in sources.values()
    ]
    entries = ",\n".join(f"{{ {line}{more} }}" for line, more in zip(lines, rest))
    file = written(room, "obeyed.toml", f"format = 4\nsource = [\n{entries}\n]\n")
    rows = [f"event,{it['name']},{at}\n" for key, it in sources.items() for at in times[key] if at <= LAST]
    words = [PROGRAM, "simulate", file, written(room, "obeyed.csv", "".join(rows))]
    done = subprocess.run(words, capture_output=True, text=True, check=False)
    hold(done.returncode in (0, 17), f"simulate: {done.stdout}")
    return done.returncode == 0


def hold_clocks(room, what, sources, times, by_program=True):
    """Holds that sources on clocks hold the log, and wouldn't with less jitter."""
    begin = min(at for several in times.values() for at in several)
    times = {key: [at - begin for at in several] for key, several in times.items()}
    for group in groups_of(sources):
        several = {key: sources[key] for key in group}
        hold(len(group) > 1, f"{what}: a clock of one source: {several}")
        hold(has_start(several, times), f"{what}: the log doesn't come by {several}")
        if by_program:
            hold(is_obeyed(room, several, times), f"{what}: simulate refuses a trace of {several}")
        for key, it in several.items():
            hold(it.get("offset", 0) < it["period"], f"{what}: {it}")
            early, late = ends_of(times[key], it["period"])
            hold(it.get("jitter", 0) == late - early, f"{what}: {late - early} is the least jitter of {it}")


def check_exact(room):
    """Without jitter: the offsets of the clocks that the log was made of, less that of the first event on each."""
    times = times_of(FRAMES, 2_000_000, drifts={"Gate": 150})
    sources, told = proposed(room, times)
    hold(groups_of(sources) == [MOTOR, GATE], f"two nodes: {sources} {told}")
    found = {key: (it["period"], it.get("jitter", 0), it.get("offset", 0)) for key, it in sources.items()}
    for key, period, offset in ((0x100, 10_000, 0), (0x101, 10_000, 2_500), (0x102, 20_000, 5_000)):
        hold(found[key] == (period, 0, offset), f"offsets without jitter: {found}")
    # Gate drifts by 150 millionths: 2 s are longer by 300 ticks, which its jitter covers; each time is rounded
    hold(all(abs(found[key][1] - 292) < 12 and found[key][0] in (5_000, 50_000) for key in GATE), f"drift: {found}")
    hold("All drift by 150 ppm against the recorder's clock" in told, f"the drift of a clock: {told}")
    hold_clocks(room, "two nodes", sources, times)
    # with --drift the recorder's clock is taken as by 150 millionths fast, and Motor drifts
    sources, told = proposed(room, times, "--drift", "-149.978")
    hold(groups_of(sources) == [MOTOR, GATE], f"--drift: {sources}")
    hold(all(sources[key].get("jitter", 0) <= 2 for key in GATE), f"--drift: {sources}")
    hold((sources[0x201].get("offset", 0) - sources[0x200].get("offset", 0)) % 5_000 in (1_999, 2_000, 2_001), told)


def check_jitter(room):
    """Frames that are late: offsets as far apart as the log was made, but for the jitter, which covers the log."""
    draw = random.Random(2)
    for late in (1, 40, 900, 2_400):
        times = times_of(FRAMES[:3], 3_000_000, late, draw)
        sources, told = proposed(room, times)
        hold(groups_of(sources) == [MOTOR], f"late by {late}: {told}")
        hold_clocks(room, f"late by {late}", sources, times)
        for key, offset in ((0x101, 2_500), (0x102, 5_000)):
            apart = (sources[key].get("offset", 0) - sources[0x100].get("offset", 0) - offset) % 10_000
            hold(min(apart, 10_000 - apart) <= late, f"late by {late}: {sources}")
            hold(sources[key].get("jitter", 0) <= late, f"late by {late}: {sources}")


def restarted(times, keys, at, shift, pause=0):
    """Times of which some sources begin anew at a moment, and come otherwise by a shift from then on."""
    return {
        key: [it if it < at else it + shift for it in several if it < at or it >= at + pause]
        if key in keys
        else several
        for key, several in times.items()
    }


def sent_besides(times, key, at):
    """Times with a frame more."""
    return times | {key: sorted([*times[key], at])}


def damaged(draw, late):
    """Logs with something that keeps sources off clocks: what it is, the times, which sources stay on clocks, and what
    is said of the others."""
    whole = times_of(FRAMES, 4_000_000, late, draw)
    at, key = draw.randrange(800_000, 3_000_000), draw.choice((0x100, 0x101, 0x102))
    shift = draw.choice((-1, 1)) * draw.randrange(4 * late + 50, 4_500)
    yield "a node begins anew", restarted(whole, MOTOR, at, shift), [GATE], "may have begun anew"
    shift = draw.randrange(30_000, 400_000)
    yield "a node is off", restarted(whole, MOTOR, at, shift), [GATE], "or its node began anew"
    yield "a node is off for whole periods", restarted(whole, MOTOR, at, 0, 60_000), [GATE], "events are left out"
    lost = whole[key].index(next(it for it in whole[key] if it >= at))
    missing = whole | {key: whole[key][:lost] + whole[key][lost + 1 :]}
    yield "a frame is missing", missing, [MOTOR - {key}, GATE], f"x{key:03X}: it doesn't come between"
    besides = sent_besides(whole, key, whole[key][lost] + draw.randrange(1_000, 4_000))
    yield "a frame is sent besides", besides, [MOTOR - {key}, GATE], f"x{key:03X}: it comes at"
    spread = [draw.randrange(4_000_000) for _ in range(300)]
    yield "frames on events", whole | {0x300: sorted(spread)}, [MOTOR, GATE], "x300: its gaps are from"
    # the sources of a node, of which one has a timer of its own
    drift = draw.choice((-1, 1)) * draw.randrange(50 + late, 100 + 2 * late)
    alone = times_of([(0x400, "Gate", 10_000, 123)], 4_000_000, late, draw, {"Gate": drift})
    yield "a source drifts", whole | alone, [MOTOR, GATE], "x400: "


def check_damaged(room, count):
    """What doesn't keep its distance is on no clock, with what is said of it; what does is on one."""
    draw = random.Random(3)
    file = written(room, "senders.dbc", DATABASE)
    for number in range(max(1, count // 5)):
        late = draw.choice((0, 5, 40, 200))
        for what, times, groups, said in damaged(draw, late):
            sources, told = proposed(room, times, "--database", file)
            hold(groups_of(sources) == sorted(groups, key=min), f"{number}, {what}, late by {late}: {sources} {told}")
            hold(said in told and "on no clock: " in told, f"{number}, {what}: {told}")
            hold_clocks(room, f"{number}, {what}", sources, times)


DATABASE = """VERSION ""
BU_: Motor Gate Other
BO_ 256 x100: 1 Motor
BO_ 257 x101: 1 Motor
BO_ 258 x102: 1 Motor
BO_ 512 x200: 1 Gate
BO_ 513 x201: 1 Gate
BO_ 768 x300: 1 Motor
BO_ 1024 x400: 1 Other
BA_DEF_ BO_ "GenMsgCycleTime" FLOAT 0 3600000;
BA_DEF_ BO_ "GenMsgSendType" ENUM "Cyclic","Spontaneous";
BA_DEF_DEF_ "GenMsgCycleTime" 0;
BA_DEF_DEF_ "GenMsgSendType" "Cyclic";
"""


def check_senders(room):
    """A database keeps nodes apart that drift too little to show, and tells frames that are sent on events."""
    times = times_of(FRAMES, 1_000_000, 20)
    sources, told = proposed(room, times)
    hold(groups_of(sources) == [MOTOR | GATE], f"no drift: {told}")
    sources, told = proposed(room, times, "--database", written(room, "senders.dbc", DATABASE))
    hold(groups_of(sources) == [MOTOR, GATE], f"senders: {told}")
    hold({it.get("clock") for it in sources.values()} == {"Motor", "Gate"}, f"names of clocks: {sources}")
    hold_clocks(room, "senders", sources, times)
    for more, groups, said in (
        ('BA_ "GenMsgSendType" BO_ 256 1;\n', [MOTOR - {0x100}, GATE], "x100: the database has it sent on events"),
        ("BO_TX_BU_ 513 : Gate,Motor;\n", [MOTOR], "x201: the database has several senders of it"),
    ):
        sources, told = proposed(room, times, "--database", written(room, "more.dbc", DATABASE + more))
        hold(groups_of(sources) == groups and said in told, f"{said}: {told}")
    file = written(room, "period.dbc", DATABASE + CYCLES)
    sources, told = proposed(room, times, "--database", file, "--period", "database")
    hold("x102: it drifts by -" in told and "x102: its cycle time" not in told, f"--period database: {told}")
    hold("x101: its cycle time of 10.0005ms is no whole number of ticks, and isn't rounded: --tick 500ns" in told, told)


CYCLES = """BA_ "GenMsgCycleTime" BO_ 256 10;
BA_ "GenMsgCycleTime" BO_ 257 10.0005;
BA_ "GenMsgCycleTime" BO_ 258 25;
BA_ "GenMsgCycleTime" BO_ 512 5;
BA_ "GenMsgCycleTime" BO_ 513 50;
"""


def check_cycles(room):
    """A source by whose period the cycle of a clock were too long, or had too many events, is left out; the program
    takes the file, and else refuses it."""
    STARTS["Long"] = 0
    for periods, groups, said in (
        (
            (10_000, 20_000, 99_991),
            [{0x500, 0x501}],
            "x502: by its period of 99991 the cycle of its clock would be longer than",
        ),
        ((99_991, 99_989, 50_000), [], "finds no two sources"),
        ((1_000, 1_000_000, 4_095_000), [{0x500, 0x501}], "x502: by its period of 4095000 the cycle"),
        ((1_000, 1_000_000, 3_000_000), [{0x500, 0x501, 0x502}], ""),
    ):
        frames = [(0x500 + place, "Long", period, place * 200) for place, period in enumerate(periods)]
        times = times_of(frames, 60_000_000 if max(periods) > 10**6 else 2_000_000)
        if not groups:
            hold_refused("import log", [(said, [log_with(room, times), "--clocks"])])
            continue
        sources, told = proposed(room, times)
        hold(groups_of(sources) == groups and said in told, f"periods {periods}: {told}")
        hold_clocks(room, f"periods {periods}", sources, times)


def check_words(room):
    """Words that are refused; and without --clocks the sources are as before, with the same words."""
    times = times_of(FRAMES, 1_000_000, 20) | {0x300: [5, 300_000, 310_000, 900_000]}
    file = log_with(room, times)
    plain, clocks = called("import log", file), called("import log", file, "--clocks")
    hold("clock" not in plain.stdout + plain.stderr and "format" not in plain.stdout, f"without: {plain.stdout}")
    row = next(it for it in plain.stdout.splitlines() if "x300" in it)
    hold(f"{row}; on no clock: 4 frames are too few" in clocks.stdout, f"a source on none: {clocks.stdout}")
    hold(len(plain.stdout.splitlines()) + 4 == len(clocks.stdout.splitlines()), f"lines: {clocks.stdout}")
    event = log_of(room, "event.log", [(at, 0x300, False, 1, "can0") for at in (1, 5, 9, 70, 80, 90, 91, 95, 99, 400)])
    system = ["--system", "examples/sae_can.toml", "--report", "examples/sae_can.report.txt"]
    cases = (
        ("--clocks finds no two sources that keep their distance", [event, "--clocks"]),
        ("--clocks concerns nothing beside --system", ["examples/sae_can.log", "--clocks", *system]),
        ("or with --clocks from -100000", [file, "--drift", "-5"]),
        ("or with --clocks from -100000", [file, "--clocks", "--drift", "-100001"]),
    )
    hold_refused("import log", cases)
    channels = [(at, key, False, 1, f"can{key >> 9}") for key, several in times.items() for at in several]
    done = called("import log", log_of(room, "channels.log", sorted(channels)), "--clocks")
    found = {it["name"]: it.get("clock") for it in system_of(done.stdout)["source"]}
    hold(found["can0.x100.seen"] == "can0.node" and found["can1.x200.seen"] == "can1.node", f"channels: {found}")


# the offsets of examples/stations.dbc in microseconds, by its senders; in its log frames are queued up to 30 later
STATIONS = {
    "Engine": {"Speed": 0, "Torque": 1_000, "Heat": 1_000, "Oil": 1_000},
    "Brakes": {"Wheels": 0, "Pressure": 1_000, "Pads": 1_000},
    "Body": {"Lamps": 0, "Doors": 0},
}


def check_example(_):
    """examples/stations.log, of three stations that drift by 0, 35 and -20 millionths: each source is on the clock of
    its sender, by its offset or what is sent before it."""
    words = ["examples/stations.log", "--clocks"]
    done = called("import log", *words, "--database", "can=examples/stations.dbc")
    sources = {it["name"].removesuffix(".seen"): it for it in system_of(done.stdout)["source"]}
    for clock, wanted in STATIONS.items():
        hold({name for name, it in sources.items() if it.get("clock") == clock} == set(wanted), f"{clock}: {sources}")
        first = min(sources[name]["offset"] for name in wanted)
        for name, offset in wanted.items():
            apart = sources[name]["offset"] - first - offset
            hold(abs(apart) <= 100, f"examples/stations.log: {name} is {apart} off")
    hold("on no clock: Horn: the database has it sent on events" in done.stderr, done.stderr)
    hold("two nodes mostly drift by less" not in done.stderr, done.stderr)
    alone = called("import log", *words)
    hold("9 sources" in alone.stderr and "two nodes mostly drift by less" in alone.stderr, alone.stderr)


def drawn_log(draw):
    """A log of up to three nodes, of which any may drift, be late, begin anew, or leave frames out."""
    times = {}
    for node in range(draw.randint(1, 3)):
        base, drift = draw.choice((1_000, 2_500, 10_000)), draw.choice((0, 0, draw.randint(-200, 200)))
        begin, late = draw.randrange(20_000), draw.choice((0, 3, base // 20, base // 2))
        for place in range(draw.randint(1, 4)):
            period = base * draw.choice((1, 2, 4, 5)) + draw.choice((0, 0, 0, 0, 7))
            offset, key = draw.randrange(period), 0x100 * (node + 1) + place
            several = range((draw.choice((300_000, 2_000_000)) - begin - offset) // period)
            times[key] = sorted(
                round(begin + (offset + it * period) * (1 + drift / 1e6) + draw.randint(0, late)) for it in several
            )
        if draw.random() < 0.3:
            own = {key for key in times if key >> 8 == node + 1}
            times = restarted(times, own, draw.randrange(200_000), draw.randrange(50_000))
        if draw.random() < 0.3:
            key = draw.choice([key for key in times if key >> 8 == node + 1])
            times[key] = [it for it in times[key] if draw.random() > 0.02]
    return {key: several for key, several in times.items() if several}


def check_drawn(room, count):
    """Whatever a log is, each source on a clock holds it."""
    draw, found = random.Random(4), 0
    for number in range(count):
        times = drawn_log(draw)
        sources, _ = proposed(room, times, may_fail=True)
        found += len(groups_of(sources))
        hold_clocks(room, f"log {number}", sources, times, number % 4 == 0)
    hold(3 * found > count, f"only {found} clocks in {count} logs")


if __name__ == "__main__":
    checks = (check_exact, check_jitter, check_senders, check_cycles, check_words, check_example)
    run_checks(__doc__, checks, (check_damaged, check_drawn), 20)
