#!/usr/bin/env python3
"""Tries the lengths of frames, and what makes a large database fit. Outside the gate; takes some minutes, and no
network.

Frames of CAN FD are built bit by bit, with the worst and the best stuffing found by trying all that a bit may be, and
no frame takes less or more than `lokwurmi lengths` says. Frames of Ethernet come as often as is published. Buses are
followed frame by frame, with frames that are queued at any offset and with errors that hit where they cost most: none
is late by more than its bound, whether frames share a source or not. What --only leaves out changes no bound.

    python3 -m tests.networks.check_networks [COUNT, 25 if absent]
"""
import os
import random
import re
import shlex
import subprocess
from fractions import Fraction

from tests.rules.buses import Waiting
from tests.support.calls import hold, written
from tests.support.databases import (
    PROGRAM,
    PYTHON,
    analysed,
    called,
    canmatrix,
    dumped,
    imported,
    least_and_greatest,
    matrix_of,
    run_checks,
    said_by,
)

# the payloads of CAN FD by their codes, as ISO 11898-1 lists them
CODES = (0, 1, 2, 3, 4, 5, 6, 7, 8, 12, 16, 20, 24, 32, 48, 64)
# what is free in a frame
FREE = "x"


def told_length(*words):
    """The least and the greatest length that `lokwurmi lengths` tells in ticks."""
    done = called("lengths", *words)
    found = re.match(r"best = (\d+), worst = (\d+)", done.stdout)
    hold(found is not None and done.returncode == 0, f"lengths {words}: {done.stdout} {done.stderr}")
    return (int(found[1]), int(found[2])) if found else (0, 0)


# CAN FD


def header(extended, switches, size):
    """The bits up to the check sum, x where they are free, and the place of the one that switches the bit rate."""
    if extended:
        before = "0" + FREE * 11 + "11" + FREE * 18 + "0" + "1" + "0"
    else:
        before = "0" + FREE * 11 + "0" + "0" + "1" + "0"
    return before + ("1" if switches else "0") + FREE + f"{CODES.index(size):04b}" + FREE * 8 * size, len(before)


def stuffed(bits):
    """Bits with those that are stuffed: after five alike one of the other kind, but not behind the last. Each with
    whether it is stuffed."""
    found, alike, last = [], 0, None
    for place, bit in enumerate(bits):
        found.append((bit, place))
        alike = alike + 1 if bit == last else 1
        last = bit
        if alike == 5 and place < len(bits) - 1:
            last, alike = "1" if bit == "0" else "0", 1
            found.append((last, place))
    return found


def frame_time(bits, switch, size, bit, data_bit, sample, data_sample, late):
    """The time of a frame, bit by bit: at which rate each is sent, where the rate changes within a bit at its sample
    point, the check sum with its own stuff bits, and the end, with bits that come late."""
    time = Fraction(0)
    for _, place in stuffed(bits):
        time += bit if place < switch else data_bit
    # the bit that switches, which the sum above has at the data rate
    time += sample * bit + (1 - data_sample) * data_bit - data_bit
    check = 4 + (17 if size <= 16 else 21)
    fixed = 1 + sum(1 for place in range(4, check + 1) if place % 4 == 0)
    time += (check + fixed) * data_bit
    # delimiter, at whose sample point the rate changes back; acknowledgement, its delimiter, end of frame, interframe
    time += data_sample * data_bit + (1 - sample) * bit
    return time + (1 + 1 + 7 + 3 + late) * bit


def extreme(pattern, switch, weights, sign):
    """The bits of a pattern with the most or the fewest stuff bits, where one before the switch counts by the first
    weight and one behind it by the second: by trying each free bit from each state that stuffing may be in."""
    states = {("", 0): (0, "")}
    for place, free in enumerate(pattern):
        found = {}
        for (last, alike), (value, bits) in states.items():
            for bit in "01" if free == FREE else free:
                run_of, end, more = (alike + 1 if bit == last else 1), bit, 0
                if run_of == 5 and place < len(pattern) - 1:
                    run_of, end, more = 1, "1" if bit == "0" else "0", weights[place >= switch]
                state, new = (end, run_of), (value + sign * more, bits + bit)
                if state not in found or new[0] > found[state][0]:
                    found[state] = new
        states = found
    return max(states.values(), key=lambda it: it[0])[1]


def check_flexible(_):
    """No frame of CAN FD is shorter or longer than is told; the shortest is reached, and the longest but for two bits
    of the data phase."""
    draw = random.Random(11)
    rates = ((500_000, 2_000_000), (1_000_000, 8_000_000), (250_000, 250_000), (500_000, 5_000_000))
    for size in CODES:
        extended, switches = draw.random() < 0.5, draw.random() < 0.8
        rate, data_rate = draw.choice(rates)
        data_rate = data_rate if switches else rate
        bit, data_bit = Fraction(10**9, rate), Fraction(10**9, data_rate)
        words = ["fd", size, "--bitrate", rate, "--data-bitrate", data_rate, "--tick", "1ns"]
        least, greatest = told_length(*words, *(["--extended"] if extended else []))
        pattern, switch = header(extended, switches, size)
        chosen = [extreme(pattern, switch, (bit, data_bit), sign) for sign in (1, -1)]
        chosen += ["".join(draw.choice("01") if it == FREE else it for it in pattern) for _ in range(20)]
        times = []
        for bits in chosen:
            samples = Fraction(draw.randint(60, 90), 100), Fraction(draw.randint(60, 90), 100)
            times += [frame_time(bits, switch, size, bit, data_bit, *samples, late) for late in (0, 2)]
        what = f"CAN FD of {size} bytes at {rate} and {data_rate}, {extended}: {least} to {greatest}, {min(times)} to"
        hold(all(least <= it <= greatest for it in times), f"{what} {max(times)}")
        hold(min(times) == least, f"{what}: the shortest isn't reached")
        hold(max(times) + 2 * data_bit >= greatest, f"{what} {max(times)}: the longest is far")
    for size in (9, 13, 33, 63):
        larger = next(it for it in CODES if it >= size)
        both = [told_length("fd", it, "--bitrate", 500000, "--data-bitrate", 2000000) for it in (size, larger)]
        hold(both[0] == both[1], f"CAN FD of {size} bytes is filled up to {larger}")


def check_flexible_all(_):
    """Frames without a payload, all that there are: none has more stuff bits than the worst that was found."""
    pattern, switch = header(False, True, 0)
    free = [place for place, it in enumerate(pattern) if it == FREE]
    most, fewest = (len(stuffed(extreme(pattern, switch, (1, 1), sign))) for sign in (1, -1))
    found = set()
    for number in range(1 << len(free)):
        bits = list(pattern)
        for place, bit in zip(free, f"{number:0{len(free)}b}"):
            bits[place] = bit
        found.add(len(stuffed("".join(bits))))
    hold((max(found), min(found)) == (most, fewest), f"all frames without a payload: {found}, {fewest} to {most}")


def check_classical(_):
    for size in range(9):
        for extended in (False, True):
            words = ["can", size, "--bitrate", 1_000_000, *(["--extended"] if extended else [])]
            hold(told_length(*words) == least_and_greatest(size, extended), f"a classical frame of {size} bytes")
    # 31 bits and the longest frame
    hold(told_length("error", 8, "--bitrate", 500000)[1] == 2 * (31 + 135), "an error")


def check_ethernet(_):
    """Frames per second, as they are published for the shortest and the longest frames without and with a tag."""
    for rate in (10_000_000, 100_000_000, 1_000_000_000, 10_000_000_000):
        for size, tagged, published in ((46, False, 14_880), (1500, False, 812), (1500, True, 810)):
            least, greatest = told_length(
                "ethernet",
                size,
                "--bitrate",
                rate,
                "--tick",
                f"{100_000_000 / rate:g}ns",
                *(["--tagged"] if tagged else []),
            )
            # a tick is a tenth of a bit, and numbers are published of 10 Mbit/s
            hold(least == greatest and 10**8 // least == published, f"Ethernet of {size} bytes at {rate}: {least}")
    hold(told_length("ethernet", 0, "--bitrate", 10**8, "--tick", "10ns") == (672, 672), "the shortest frame")
    hold(told_length("ethernet", 42, "--bitrate", 10**8, "--tick", "10ns", "--tagged") == (672, 704), "with a tag")
    for words in (["can", 9], ["fd", 65], ["ethernet", 1501], ["can", -1]):
        hold("a frame of this kind has" in said_by("lengths", *words, "--bitrate", 500000), f"lengths {words}")
    hold("take another --tick" in said_by("lengths", "can", 8, "--bitrate", 500000, "--tick", "1ms"), "no tick")


# buses


def made_bus(draw, count, senders):
    """A bus of some frames, of some senders, whose identifiers have 11 bits."""
    identifiers = draw.sample(range(1, 2048), count)
    frames = [
        (
            f"f{place}",
            identifier,
            False,
            draw.randint(0, 8),
            draw.choice((5, 10, 20, 50)),
            {"JitterMs": draw.choice((0, 1))},
        )
        for place, identifier in enumerate(identifiers)
    ]
    matrix = matrix_of(frames)
    for frame in matrix.frames:
        frame.transmitters = [f"unit{draw.randrange(senders)}"]
    return matrix


def bounds_in(room, text):
    """The bounds in the report of a system, and its status."""
    status, report = analysed(written(room, "bus.toml", text))
    lines = [line.split() for line in report.splitlines()]
    return (
        {it[1]: it[-1] for it in lines if it[0] == "task"},
        {it[1]: it[-3:] for it in lines if it[0] == "path"},
        status,
    )


def queued(draw, task, source, until):
    """When frames are queued: one a period at an offset of its own, each by up to the jitter late."""
    jitter = source.get("jitter", 0)
    begin = draw.choice((0, draw.randint(0, source["period"])))
    times = range(begin, until, source["period"])
    late = [draw.choice((0, jitter, draw.randint(0, jitter))) for _ in times]
    return [(at + more, task["priority"], task["name"]) for at, more in zip(times, late)]


class Faults:
    """Errors that hit where they cost most, at most so many in any time of a length."""

    def __init__(self, draw, count, time, chance):
        self.draw, self.count, self.time, self.chance, self.hits = draw, count, time, chance, []

    def hit(self, begin, end):
        """When a transmission is hit, or None."""
        at = self.draw.choice((begin, end - 1, self.draw.randrange(begin, end)))
        if not self.count or self.draw.random() > self.chance:
            return None
        if len(self.hits) >= self.count and at - self.hits[-self.count] < self.time:
            return None
        self.hits.append(at)
        return at


def responses(draw, system, until, faults):
    """The greatest response of each frame of a bus: the waiting frames go by priority, none is interrupted, and one
    that is hit is sent again after 31 bits."""
    tasks = {it["name"]: it for it in system["task"] if "payload" in it}
    sources = {it["name"]: it for it in system["source"]}
    waiting = Waiting(it for task in tasks.values() for it in queued(draw, task, sources[task["after"]], until))
    bit, now, worst = system["resource"][0]["bit"], 0, {}
    while waiting:
        now, begin, name = waiting.next_at(now)
        greatest = least_and_greatest(tasks[name]["payload"], False)[1] * bit
        hit = faults.hit(now, now + greatest)
        now = now + greatest if hit is None else hit + 31 * bit
        if hit is None:
            waiting.sent()
            worst[name] = max(worst.get(name, 0), now - begin)
    return worst


def check_share(room, count):
    """Frames that share a source have the bounds that they have without, and no run at any offset passes them."""
    draw = random.Random(12)
    for number in range(count):
        file = dumped(room, "share.dbc", made_bus(draw, draw.randint(2, 30), draw.randint(1, 4)))
        words = (f"b={file}", "--bitrate", 250000, "--jitter-attribute", "JitterMs")
        found = {how: imported(*words, "--share", how) for how in ("none", "sender", "all")}
        bounds = {how: bounds_in(room, text) for how, (_, _, text) in found.items()}
        hold(bounds["none"] == bounds["sender"] == bounds["all"], f"bus {number}: bounds of shared sources")
        sizes = [len(found[how][0]["source"]) for how in ("none", "sender", "all")]
        hold(sizes == sorted(sizes, reverse=True) and sizes[2] <= 8, f"bus {number}: sources {sizes}")
        system = found["all"][0]
        hold("their bounds are those with a source each" in found["all"][1] or sizes[2] == sizes[0], "it is told")
        worst = responses(draw, system, 200_000, Faults(draw, 0, 0, 0))
        late = {
            name: it
            for name, it in worst.items()
            if bounds["all"][0][name] != "overload" and it > int(bounds["all"][0][name])
        }
        hold(not late, f"bus {number}: {late} beyond {bounds['all'][0]}")


def check_only(room, count):
    """What --only keeps has the bounds that it has among all."""
    draw = random.Random(13)
    for number in range(count):
        matrix = made_bus(draw, draw.randint(2, 30), 2)
        file = dumped(room, "only.dbc", matrix)
        words = (f"b={file}", "--bitrate", 250000, "--jitter-attribute", "JitterMs")
        asked = draw.choice([it.name for it in matrix.frames])
        whole, told, text = imported(*words)
        part, told, part_text = imported(*words, "--only", asked)
        above = {
            it["name"]
            for it in whole["task"]
            if it["priority"] <= {t["name"]: t["priority"] for t in whole["task"]}[asked]
        }
        all_bounds, bounds = bounds_in(room, text)[0], bounds_in(room, part_text)[0]
        kept = set(bounds)
        behind = {"b.behind"} if len(all_bounds) > len(above) else set()
        hold(kept == above | behind, f"bus {number}: {kept} of {above}")
        hold(all(bounds[it] == all_bounds[it] for it in above), f"bus {number}: {bounds} of {all_bounds}")
        hold([it["name"] for it in part["path"]] == [asked], f"bus {number}: paths {part['path']}")
        left = set(all_bounds) - kept
        hold(all(it in part_text for it in left), f"bus {number}: what is left out is told: {left}")


def check_gateway(room):
    """What --only keeps of two buses, between which a gateway passes frames on."""
    first = [(f"a{k}", 10 + k, False, 8, 10, {}) for k in range(6)]
    second = [
        ("b0", 1, False, 2, 20, {}),
        ("a2", 5, False, 8, 10, {}),
        ("b1", 9, False, 8, 20, {}),
        ("b2", 10, False, 1, 20, {}),
    ]
    file = dumped(room, "gate.kcd", {"one": matrix_of(first), "two": matrix_of(second)})
    words = (file, "--bitrate", 125000, "--forward", "one.a2=two.a2")
    whole = bounds_in(room, imported(*words)[2])
    part = bounds_in(room, imported(*words, "--only", "two.a2")[2])
    hold(set(part[0]) == {"one.a0", "one.a1", "one.a2", "one.behind", "two.b0", "two.a2", "two.behind"}, f"{part}")
    hold(all(whole[0][it] == part[0][it] for it in ("one.a0", "one.a1", "one.a2", "two.b0", "two.a2")), f"{part}")
    hold(part[1]["one.a2-two.a2"] == whole[1]["one.a2-two.a2"], f"--only: {part[1]}")


def check_errors(room, count):
    """With errors that hit where they cost most no frame is later than its bound."""
    draw = random.Random(14)
    hits = 0
    for number in range(count):
        file = dumped(room, "errors.dbc", made_bus(draw, draw.randint(1, 12), 2))
        faults, time = draw.randint(1, 3), draw.choice((5, 10, 40))
        words = (f"b={file}", "--bitrate", 250000, "--jitter-attribute", "JitterMs", "--errors", f"{faults}/{time}ms")
        system, told, text = imported(*words)
        hold(
            f"at most {faults} error{'s' * (faults > 1)} in any {time}ms" in told and "argued and not proved" in told,
            told,
        )
        bounds = bounds_in(room, text)[0]
        errors = {it["name"]: it for it in system["task"]}["b.errors"]
        longest = max(least_and_greatest(it["payload"], False)[1] * 4 for it in system["task"] if "payload" in it)
        hold(
            errors["worst"] == 31 * 4 + longest
            and errors["priority"] < min(it["priority"] for it in system["task"] if it is not errors),
            f"bus {number}: {errors}",
        )
        for chance in (1, 0.5, 0.1):
            model = Faults(draw, faults, time * 1000, chance)
            worst = responses(draw, system, 100_000, model)
            hits += len(model.hits)
            late = {name: it for name, it in worst.items() if bounds[name] != "overload" and it > int(bounds[name])}
            hold(not late, f"bus {number} with errors: {late} beyond {bounds}")
    hold(hits > 10 * count, f"{hits} errors")


def check_large(room):
    """Buses of more frames than formats 1 and 2 have room for, one of more than any has, and that of J1939 that
    canmatrix brings with it."""
    frames = [(f"m{k}", k, False, 8, 1000, {}) for k in range(700)]
    file = dumped(room, "large.dbc", matrix_of(frames))
    system, told, text = imported(file, "--bitrate", 500000)
    hold("700 of 700 frames are taken" in told and system["format"] == 4, told)
    hold(all(len(system[part]) == 700 for part in ("source", "task", "path")), "700 frames")
    bounds, _, status = bounds_in(room, text)
    hold(len(bounds) == 700 and status in (0, 1, 2), f"700 frames: {status}")
    system, told, text = imported(file, "--bitrate", 500000, "--share", "all", "--paths", "m3?")
    hold(len(system["task"]) == 700 and len(system["path"]) == 10, f"paths of 700 frames: {len(system['path'])}")
    bounds = bounds_in(room, text)[0]
    part = bounds_in(room, imported(file, "--bitrate", 500000, "--only", "m39")[2])[0]
    hold(
        len(part) == 41 and all(bounds[it] == part[it] for it in part if it != "large.behind"),
        f"--only of 700 frames: {part}",
    )
    more = [(f"m{k}", k, True, 8, 10000, {}) for k in range(2049)]
    told = said_by("import network", dumped(room, "paths.dbc", matrix_of(more)), "--bitrate", 500000)
    hold("--paths 'PATTERN'" in told and "2048 at most" in told, told)
    shipped = os.path.join(os.path.dirname(canmatrix.__file__), "..", "canmatrix")
    for folder, _, names in os.walk(shipped):
        if "j1939.dbc" in names:
            words = (os.path.join(folder, "j1939.dbc"), "--bitrate", 250000, "--others", "1s", "--longer", "leave")
            system, _, text = imported(*words)
            hold(len(system["task"]) > 300 and bounds_in(room, text)[2] in (0, 1, 2), "j1939.dbc is accepted")


# the page and the words


def here(room):
    """A folder in which the calls of a page write, with what they read."""
    folder = os.path.join(room, "page")
    os.mkdir(folder)
    for name in ("python", "examples", "docs"):
        os.symlink(os.path.abspath(name), os.path.join(folder, name))
    os.symlink(os.path.abspath("lokwurmi"), os.path.join(folder, "lokwurmi"))
    return folder


def shell(folder, line):
    """A call as a page has it."""
    words = shlex.split(line.split(" #")[0])
    if words[0] == "python3":
        words[0] = PYTHON
    if any(it.endswith("import log") for it in words):
        words += ["--program", PROGRAM]
    return subprocess.run(words, cwd=folder, capture_output=True, text=True, check=False)


def check_page(room):
    """Each call of docs/NETWORKS.md is made in the order of the page, and writes what stands there."""
    folder = here(room)
    with open("docs/NETWORKS.md", encoding="utf-8") as it:
        blocks = [text for kind, text in re.findall(r"^```(\w*)\n(.*?)^```$", it.read(), re.M | re.S) if not kind]
    calls = 0
    for block in blocks:
        # each call with what it writes, or calls alone
        parts = re.split(r"^\$ ", block, flags=re.M)[1:] if block.startswith("$ ") else block.splitlines()
        for line, _, text in (it.partition("\n") for it in parts):
            done = shell(folder, line)
            calls += 1
            hold("Traceback" not in done.stderr and done.returncode in (0, 1), f"{line}: {done.stderr}")
            hold(done.stdout.startswith(text), f"{line}: {done.stdout} where the page has {text}")
    hold(calls > 10, f"docs/NETWORKS.md: {calls} calls")
    with open("examples/sae_can.report.txt", encoding="ascii") as it:
        wanted = it.read().replace("path d", "path m")
    hold(shell(folder, "./lokwurmi analyse sae.toml").stdout == wanted, "the SAE benchmark, as the page has it")
    missed = shell(folder, "./lokwurmi analyse errors.toml").stdout.splitlines()[-1]
    hold(missed == "summary tasks 18 overload 0 missed 3", f"errors, as the page has them: {missed}")


def check_help(room):
    """--help works, and the first example of each of its tools runs."""
    folder = os.path.join(room, "page")
    for name in ("import network", "import log", "ticks", "units", "lengths"):
        done = called(name, "--help")
        hold(done.returncode == 0 and not done.stderr, f"{name} --help: {done.stderr}")
        line = next(it.strip() for it in done.stdout.splitlines() if it.startswith("    ") and "./lokwurmi " in it)
        if " | " in line:
            line = "./lokwurmi units examples/sae_can.report.txt --tick 1us"
        done = shell(folder, line)
        hold(done.returncode == 0 and "Traceback" not in done.stderr, f"{line}: {done.stderr}")


if __name__ == "__main__":
    lengths = (check_flexible, check_flexible_all, check_classical, check_ethernet)
    checks = (*lengths, check_page, check_help, check_gateway, check_large)
    run_checks(__doc__, checks, (check_share, check_only, check_errors), 25)
