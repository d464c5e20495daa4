#!/usr/bin/env python3
"""Tries `lokwurmi import log`. Outside the gate; takes about a minute, and no network.

The source of a frame of a log holds the log and would not with less jitter or more distance, by each pair of its
frames, and by what `simulate` says of a trace with its times. The log of a run of a bus obeys the system, whatever
the format it is written in; of one that is denser the first frame that comes too soon is told.

    python3 -m tests.networks.check_logs [COUNT, 60 if absent]
"""
import os
import random
import subprocess
import tomllib
from typing import NamedTuple

from tests.rules.buses import Waiting
from tests.support.calls import hold, written
from tests.support.databases import (
    PROGRAM,
    analysed,
    called,
    dumped,
    imported,
    least_and_greatest,
    matrix_of,
    obeys,
    random_frames,
    run_checks,
    system_of,
)
from tests.support.logs import log_of, two_channels


def random_times(draw):
    """The times of one frame, of several kinds of sender."""
    kind, count, period = draw.randrange(5), draw.randint(3, 60), draw.randint(2, 400)
    at, times = draw.randint(0, 50), []
    for place in range(count):
        if kind == 0:  # periodic, with jitter
            times.append(at + place * period + draw.randint(0, draw.choice((0, 3, period // 2, 3 * period))))
        elif kind == 1:  # bursts
            times.append(at + place // 3 * period * 3 + place % 3 * draw.choice((0, 1)))
        elif kind == 2:  # now and then
            times.append(times[-1] + draw.randint(0, period) if times else at)
        elif kind == 3:  # a clock that drifts
            times.append(at + place * period - place // 7)
        else:  # pauses
            times.append(
                (times[-1] if times else at) + period * draw.choice((1,) * 30 + (7,)) + draw.choice((0, 1, -1))
            )
    return sorted(times)


def breach_of(times, period, jitter, distance, begin=0):
    """The first time that comes too soon after an earlier one, from a place on, and the first such."""
    for k, b in enumerate(times[begin:], begin):
        for i, a in enumerate(times[:k]):
            if b - a < max(0, (k - i) * distance, (k - i) * period - jitter):
                return f"{a} {b}"
    return None


ONE_TASK = """format = 1
resource = [{ name = "r", kind = "preemptive" }]
source = [{ name = "s", period = %d, jitter = %d, distance = %d }]
task = [{ name = "t", on = "r", after = "s", best = 1, worst = 1, priority = 1 }]
"""


def hold_simulated(room, what, source, times):
    """Holds what the program says of a trace with these times, with a source that fits and with less jitter."""
    trace = written(room, "fit.csv", "".join(f"event,s,{time}\n" for time in times))
    for less in (0, 1):
        model = (source["period"], source.get("jitter", 0) - less, source.get("distance", 0))
        if model[1] < 0:
            continue
        file = written(room, "fit.toml", ONE_TASK % model)
        done = subprocess.run([PROGRAM, "simulate", file, trace], capture_output=True, text=True, check=False)
        wanted = breach_of(times, *model)
        hold(
            wanted is None if done.returncode == 0 else done.stdout == f"trace disobeys source s times {wanted}\n",
            f"{what}: {done.stdout} where {wanted} is expected",
        )
        hold(done.returncode == (17 if less else 0), f"{what}: {done.stdout}")


def check_fits(room, count):
    """Sources of random logs, with many frames in one log."""
    draw = random.Random(2)
    streams = {identifier: random_times(draw) for identifier in range(4 * count)}
    begin = min(times[0] for times in streams.values())
    streams = {identifier: [it - begin for it in times] for identifier, times in streams.items()}
    frames = sorted((time, identifier) for identifier, times in streams.items() for time in times)
    file = log_of(room, "random.log", [(time, identifier, False, 1, "can0") for time, identifier in frames])
    done = called("import log", file)
    hold(done.returncode == 0 and done.stderr == "", f"import log: {done.stderr}")
    sources = {int(it["name"].removesuffix(".seen")[1:], 16): it for it in system_of(done.stdout)["source"]}
    hold(set(sources) == set(streams), "each frame has its source")
    for identifier, times in streams.items():
        it = sources[identifier]
        model = (it["period"], it.get("jitter", 0), it.get("distance", 0))
        what = f"frame {identifier}: {model} of {times}"
        hold(obeys(times, *model), f"{what}: it isn't held")
        hold(not model[1] or not obeys(times, model[0], model[1] - 1, 0), f"{what}: less jitter would do")
        hold(model[2] == model[0] or not obeys(times, 1, 10**9, model[2] + 1), f"{what}: more distance would do")
        hold(model[2] <= model[0], f"{what}: its distance is above its period")
    for identifier in draw.sample(sorted(streams), min(40, len(streams))):
        hold_simulated(room, f"simulate of frame {identifier}", sources[identifier], streams[identifier])


def bus_run(draw, system, until):
    """When the frames of a bus are received, and the response of each: the waiting frames go by priority, and none is
    interrupted."""
    bit = system["resource"][0].get("bit", 1)
    tasks = {it["name"]: it for it in system["task"]}
    queue = []
    for task in tasks.values():
        source = next(it for it in system["source"] if it["name"] == task["after"])
        jitter = source.get("jitter", 0)
        begin = draw.randint(0, source["period"])
        queue += [
            (begin + at + draw.choice((0, jitter, draw.randint(0, jitter))), task["priority"], task["name"])
            for at in range(0, until, source["period"])
        ]
    waiting, now, found = Waiting(queue), 0, []
    while waiting:
        now, queued, name = waiting.next_at(now)
        waiting.sent()
        least, greatest = least_and_greatest(tasks[name]["payload"], tasks[name].get("extended", False))
        now += draw.randint(least, greatest) * bit
        found.append((now, name, now - queued))
    return found


class RunOfBus(NamedTuple):
    """A run of a bus: the words that tell its system, that system with its bounds, its frames by their names as they
    stand in a log, and when each was received, with its response."""

    words: list
    system: dict
    bounds: dict
    frames: dict
    found: list


def hold_log(room, draw, number, it):
    """Holds that a log of a run obeys its system."""
    log = log_of(
        room, draw.choice(("bus.log", "bus.asc", "bus.blf")), [(at, *it.frames[name], 0) for at, name, _ in it.found]
    )
    done = called("import log", log, *it.words)
    lines = done.stdout.splitlines()
    hold(
        done.returncode == 0 and lines and lines[-1] == "summary beyond 0 strange 0" and not done.stderr,
        f"run {number}: {done.stdout} {done.stderr}",
    )
    hold(
        sum(" within " in line for line in lines) == len(it.system["task"]) and lines[-2].endswith(" rough 0"),
        f"run {number}: {lines}",
    )


def hold_denser(room, draw, number, it):
    """Holds that a source is told which sends one frame more than it may, as soon as the bus is free."""
    name, (begin, _, _), (last, _, _) = draw.choice(sorted(it.frames)), it.found[0], it.found[-1]
    source = next(one for one in it.system["source"] if one["name"] == f"{name}.queued")
    least = least_and_greatest(it.frames[name][2], it.frames[name][1])[0] * 2
    vary = it.bounds[name] - least
    more = (source.get("jitter", 0) + vary) // (source["period"] - 200) + 2
    added = [last + 200 * place for place in range(1, more + 1)]
    dense = [(at, *it.frames[one], 0) for at, one, _ in it.found] + [(at, *it.frames[name], 0) for at in added]
    done = called("import log", log_of(room, "dense.log", dense), *it.words)
    times = [at - begin for at in [*(at for at, one, _ in it.found if one == name), *added]]
    model = (source["period"], source.get("jitter", 0) + vary, max(-vary, least))
    wanted = breach_of(times, *model, len(times) - more)
    hold(
        done.returncode == 4 and f"beyond output times {wanted}\n" in done.stdout,
        f"denser run {number}: {done.stdout} where {wanted} is expected",
    )


def check_runs(room, count):
    """Logs of runs of a bus obey its system; those of a denser bus are told."""
    draw = random.Random(3)
    for number in range(count):
        frames = random_frames(draw, draw.choice(((False,), (True,), (False, True))))
        file = dumped(room, "bus.dbc", matrix_of(frames))
        system, _, text = imported(f"b={file}", "--bitrate", 500000, "--jitter-attribute", "JitterMs")
        file = written(room, "bus.toml", text)
        status, report = analysed(file)
        if status == 2:
            continue
        bounds = {line.split()[1]: int(line.split()[-1]) for line in report.splitlines() if line.startswith("task ")}
        found = bus_run(draw, system, 3_000_000)
        hold(
            all(response <= bounds[name] for _, name, response in found), f"run {number}: a response is above its bound"
        )
        frames = {name: (identifier, extended, size) for name, identifier, extended, size, _, _ in frames}
        database = ["--database", f"b={os.path.join(room, 'bus.dbc')}"]
        words = database if "in the order in which" in text else draw.choice(([], database))
        run = RunOfBus(["--system", file, "--program", PROGRAM, *words], system, bounds, frames, found)
        hold_log(room, draw, number, run)
        hold_denser(room, draw, number, run)


def check_channels(room):
    """Names of frames, and which channel is which bus."""
    database, system, _, log = two_channels(room)
    done = called("import log", log)
    hold(
        [it["name"] for it in system_of(done.stdout)["source"]] == ["can0.x010.seen", "can1.x020.seen"],
        f"two channels: {done.stdout}",
    )
    done = called("import log", log, "--database", f"b={database}", "--bus", "b=can0", "--period", "database")
    hold(
        [(it["name"], it["period"], it["distance"]) for it in system_of(done.stdout)["source"]][0]
        == ("Speed.seen", 10_000, 10_000)
        and "cycle time 10000" in done.stdout,
        f"names: {done.stdout}",
    )
    done = called("import log", log, "--system", system, "--bus", "b=can0", "--program", PROGRAM)
    hold(
        done.returncode == 0
        and "frame Lamps absent" in done.stdout
        and "frame Speed frames 10 period 10000 jitter 0 distance 10000 input 0 0 output 154 126 within input"
        in done.stdout,
        f"one channel of two: {done.stdout}",
    )
    done = called(
        "import log", log, "--system", system, "--bus", "b=can1", "--program", PROGRAM, "--database", f"b={database}"
    )
    hold(done.returncode == 0 and "frame Speed absent" in done.stdout, f"by a database: {done.stdout}")


def check_clocks(room):
    """Recorders whose clocks are slow, and whose times are late."""
    _, system, _, _ = two_channels(room)
    # a recorder whose clock is slow by 1000 millionths
    slow = log_of(
        room, "slow.log", [(at * 999 // 1000, 0x10, False, 2, "can0") for at in range(0, 100_000_000, 10_000)]
    )
    done = called("import log", slow, "--system", system, "--program", PROGRAM)
    hold(
        done.returncode == 4
        and "frame Speed frames 10000 period 10000 jitter 99990 distance 9990 input 0 0 output" in done.stdout,
        f"a slow clock: {done.stdout}",
    )
    hold(
        called("import log", slow, "--system", system, "--program", PROGRAM, "--drift", 1010).returncode == 0, "--drift"
    )
    early = log_of(
        room,
        "early.log",
        [(at - (at // 10_000 % 2) * 700, 0x10, False, 2, "can0") for at in range(0, 1_000_000, 10_000)],
    )
    done = called("import log", early, "--system", system, "--program", PROGRAM)
    hold(done.returncode == 4 and "jitter 700 distance 9300 input" in done.stdout, f"early frames: {done.stdout}")
    hold(
        "within input" in called("import log", early, "--system", system, "--program", PROGRAM, "--rough", 700).stdout,
        "--rough",
    )


def check_tight(room):
    """To the tick: a log that needs the jitter of a model, and one that needs a tick more."""
    database = two_channels(room)[0]
    tight = os.path.join(room, "tight.toml")
    called("import network", f"b={database}", "--bitrate", 500000, "--jitter", "700.1us", "--to", tight)
    for early, verdict in (
        (701, "within input"),
        (702, "within output"),
        (855, "within output"),
        (856, "beyond output"),
    ):
        exact = log_of(
            room,
            "tight.log",
            [(at - (at // 10_000 % 2) * early, 0x10, False, 2, "can0") for at in range(0, 200_000, 10_000)],
        )
        done = called("import log", exact, "--system", tight, "--program", PROGRAM)
        hold(
            f"jitter {early} distance {10_000 - early} input 701 0 output 855 126 {verdict}" in done.stdout,
            f"a jitter of {early}: {done.stdout}",
        )
    wide = log_of(room, "wide.log", [(at, 0x10, False, 2, "can0") for at in range(0, 200_000, 20_000)])
    done = called("import log", wide, "--database", f"b={database}", "--period", "database")
    hold(
        [(it["period"], it.get("jitter", 0), it["distance"]) for it in system_of(done.stdout)["source"]]
        == [(10_000, 0, 10_000)],
        f"gaps above the period: {done.stdout}",
    )


def drawn_rows(draw, system):
    """Rows of a trace of a system: ten events of each source, and ten executions of each task."""
    rows = []
    for it in system["source"]:
        times = [
            place * it["period"] + draw.choice((0, it.get("jitter", 0), draw.randint(0, it.get("jitter", 0))))
            for place in range(10)
        ]
        rows += [f"event,{it['name']},{time}" for time in sorted(times)]
    return rows + [
        f"exec,{it['name']},{draw.choice((it['best'], it['worst'], draw.randint(it['best'], it['worst'])))}"
        for it in system["task"]
        for _ in range(10)
    ]


def check_chains(room):
    """Logs of the proved program's own runs, of buses whose frames come after tasks of processors: what `schedule`
    writes, as logs."""
    draw = random.Random(5)
    for number in range(4):
        file = written(
            room,
            "made.toml",
            subprocess.run([PROGRAM, "generate", str(number), "12"], capture_output=True, text=True, check=True).stdout,
        )
        with open(file, "rb") as it:
            system = tomllib.load(it)
        words = [
            PROGRAM,
            "schedule",
            file,
            written(room, "made.csv", "".join(f"{it}\n" for it in drawn_rows(draw, system))),
        ]
        done = subprocess.run(words, capture_output=True, text=True, check=False)
        hold(done.returncode == 0 and done.stdout, f"schedule of generated system {number}: {done.stdout}")
        tasks = {it["name"]: it for it in system["task"]}
        ends = [
            (int(end), tasks[name])
            for name, _, end in (line.split(",") for line in done.stdout.splitlines())
            if tasks[name]["on"].startswith("b")
        ]
        log = log_of(
            room,
            "made.blf",
            [(at, it["priority"], False, 8, int(it["on"][1:])) for at, it in sorted(ends, key=lambda it: it[0])],
        )
        done = called("import log", log, "--system", file, "--program", PROGRAM, "--bus", "b0=0", "--bus", "b1=1")
        lines = [line for line in done.stdout.splitlines() if line.startswith("frame ")]
        hold(
            done.returncode == 0 and len(lines) == 12 and all(" within " in line for line in lines),
            f"generated system {number}: {done.stdout} {done.stderr}",
        )
        hold(sum(int(line.split()[3]) for line in lines) == len(ends), f"generated system {number}: its frames")


def check_page(room):
    """What docs/NETWORKS.md shows."""
    with open("docs/NETWORKS.md", encoding="utf-8") as it:
        page = it.read()
    done = called("import log", "examples/sae_can.log", "--database", "can=examples/sae_can.dbc")
    shown = [line for line in page.splitlines() if line.startswith("  { name")]
    hold(shown and all(f"{line}\n" in done.stdout for line in shown), f"docs/NETWORKS.md: {shown} of {done.stdout}")
    done = called(
        "import log",
        "examples/sae_can.log",
        "--system",
        "examples/sae_can.toml",
        "--report",
        "examples/sae_can.report.txt",
    )
    shown = [line for line in page.splitlines() if line.startswith("frame ")]
    hold(
        shown and done.stdout.splitlines()[: len(shown)] == shown and done.returncode == 0,
        f"docs/NETWORKS.md: {shown} of {done.stdout}",
    )


def check_periods(room):
    """Periods of logs with pauses and bursts."""
    draw = random.Random(4)
    clean = [place * 1000 + draw.randint(0, 50) for place in range(400)]
    missing = [it for place, it in enumerate(clean) if place not in (77, 200, 201, 202, 350)]
    off = clean[:200] + [it + 7777 for it in clean[200:]]
    bursts = [place * 3000 + more * 20 for place in range(100) for more in range(3)]
    every = {1: clean, 2: missing, 3: off, 4: bursts, 5: [place * 4 + place // 2 for place in range(100)], 6: [0, 0, 0]}
    frames = sorted((at, identifier) for identifier, times in every.items() for at in times)
    done = called(
        "import log", log_of(room, "periods.log", [(at, identifier, False, 0, "can0") for at, identifier in frames])
    )
    found = {
        it["name"]: (it["period"], it.get("jitter", 0), it.get("distance", 0))
        for it in system_of(done.stdout)["source"]
    }
    hold(
        all(found[f"x00{k}.seen"][0] == 1000 and found[f"x00{k}.seen"][1] <= 50 for k in (1, 2, 3)), f"periods: {found}"
    )
    hold(
        990 <= found["x004.seen"][0] <= 1000 and found["x004.seen"][2] == 20 and found["x006.seen"] == (1, 2, 0),
        f"bursts: {found}",
    )


if __name__ == "__main__":
    run_checks(
        __doc__,
        (check_channels, check_clocks, check_tight, check_chains, check_page, check_periods),
        (check_fits, check_runs),
    )
