#!/usr/bin/env python3
"""Tries `lokwurmi ticks` and `lokwurmi units`. Outside the gate; takes about a minute, and no network.

Made systems whose times have units are turned into ticks: each number is the one that lies next to the time on the safe
side, and the bounds with coarse ticks, as times, are nowhere below those with ticks in which all is whole. Comments and
entries stay; what can't be turned is refused with its line and what to do. Reports are shown with times.

    python3 -m tests.networks.check_ticks [COUNT, 60 if absent]
"""
import os
import random
import re
import signal
import subprocess
import tomllib
from fractions import Fraction

from lokwurmi import System
from lokwurmi.calls.program import Program
from tests.support.calls import built, hold, run, tool, written
from tests.support.databases import PYTHON, analysed, called, least_and_greatest, run_checks, said_by

UNITS = {"ns": 1, "us": 10**3, "ms": 10**6, "s": 10**9}
SAFE = {
    "period": "down",
    "distance": "down",
    "best": "down",
    "deadline": "down",
    "jitter": "up",
    "worst": "up",
    "region": "up",
    "gap": "up",
}
MOST_REGION = 10_000_000
KINDS = ("resource", "source", "task", "path")


def text_of(draw, nanoseconds):
    """A time in a unit in which it has few digits."""
    unit = draw.choice([it for it in UNITS if (Fraction(nanoseconds, UNITS[it]) * 10**6).denominator == 1])
    whole = Fraction(nanoseconds, UNITS[unit])
    shown = str(whole) if whole.denominator == 1 else f"{float(whole):.6f}".rstrip("0")
    return f'"{shown}{draw.choice(("", " "))}{unit}"'


def nanoseconds(text, bit=Fraction(0)):
    """What a text says, by its number and its unit."""
    number = text.rstrip("abcdefghijklmnopqrstuvwxyz ")
    unit = text[len(number) :].strip()
    return Fraction(number) * (UNITS[unit] if unit in UNITS else bit if unit == "bit" else 8 * bit)


def made_system(draw, has_regions):
    """A system with units, of a processor and a bus, with times that are multiples of 50 ns."""
    lines = ["# a generated system", f"format = {4 if has_regions else 1}", "resource = ["]
    rate = draw.choice((1_000_000, 500_000, 800_000))
    lines += [
        '  { name = "cpu", kind = "preemptive" }, # a processor',
        f'  {{ name = "bus", kind = "can", bitrate = {rate} }},',
        "]",
    ]
    sources, tasks, paths = [], [], []
    for place in range(draw.randint(1, 7)):
        period = draw.randrange(20_000, 100_000) * 50
        jitter = draw.choice((0, draw.randrange(0, period, 50)))
        distance = draw.choice((0, draw.randrange(0, period, 50)))
        sources.append(
            f'  {{ name = "s{place}", period = {text_of(draw, period)}, jitter = {text_of(draw, jitter)}, distance ='
            f" {text_of(draw, distance)} }},"
        )
        worst = draw.randrange(1000, 4000) * 50
        best = draw.randrange(500, worst // 50) * 50
        # a part of an execution, about all of it, or more than any
        region = draw.choice((draw.randrange(0, 2000) * 50, worst + 50 * draw.randint(-3, 3), 10**12))
        tasks.append(
            f'  {{ name = "t{place}", on = "cpu", after = "s{place}", best = {text_of(draw, best)}, worst ='
            f" {text_of(draw, worst)}, priority = {place}"
            + (f", region = {text_of(draw, region)} }}," if has_regions else " },")
        )
        length = draw.choice(("payload = 3", 'best = "60 bit", worst = "12 byte"', "payload = 8, extended = true"))
        tasks.append(
            f'  {{ name = "f{place}", on = "bus", after = "t{place}", {length}, priority = {place} }}, # a frame'
        )
        paths.append(
            f'  {{ name = "p{place}", tasks = ["t{place}", "f{place}"], deadline = {text_of(draw, period)} }},'
        )
    for key, entries in (("source", sources), ("task", tasks), ("path", paths)):
        lines += [f"{key} = [", *entries, "]"]
    return "\n".join(lines) + "\n"


def converted(room, text, tick):
    """The system in ticks, its text, and what is told."""
    done = called("ticks", written(room, "units.toml", text), "--tick", tick)
    hold(done.returncode == 0, f"ticks --tick {tick}: {done.stderr}")
    return (tomllib.loads(done.stdout) if done.returncode == 0 else {}), done.stdout, done.stderr


def tick_more(entry, key, tick, bit):
    """A region has a tick more, and so has an execution that isn't longer than its region."""
    if key == "region":
        return 1
    if key != "worst" or "region" not in entry:
        return 0
    region, worst = (-(-nanoseconds(entry[it], bit) // tick) for it in ("region", "worst"))
    return int(region >= worst)


def check_rounded(before, after, tick, told):
    """Each time of a system beside what became of it."""
    bit = Fraction(10**9, before["resource"][1]["bitrate"])
    for kind in KINDS:
        for old, new in zip(before[kind], after[kind]):
            for key in (it for it in old if it in SAFE):
                exact = nanoseconds(old[key], bit) / tick
                wanted = -(-exact // 1) if SAFE[key] == "up" else exact // 1
                wanted += tick_more(old, key, tick, bit)
                if key == "region" and wanted >= MOST_REGION:
                    hold(new[key] == MOST_REGION, f"{kind} {old['name']}: {new[key]}, and not the most")
                    continue
                hold(
                    new[key] == wanted, f"{kind} {old['name']}: {key} of {old[key]} is {new[key]} of {float(tick):g} ns"
                )
                what = f"{kind} {old['name']}: {key} of "
                hold(
                    (what in told) == (exact.denominator > 1), f"{what}{old[key]}: whether its rounding is told: {told}"
                )
            if "payload" in old:
                least, greatest = (
                    it * bit / tick for it in least_and_greatest(old["payload"], old.get("extended", False))
                )
                found = (new.get("best"), new.get("worst")) if "payload" not in new else (least, greatest)
                hold(
                    found == (least // 1, -(-greatest // 1)),
                    f"task {old['name']}: {new} of {float(least)}, {float(greatest)}",
                )


def bounds_in(room, text, tick):
    """The bounds of a system as times; None for overload."""
    status, report = analysed(written(room, "ticks.toml", text))
    lines = [line.split() for line in report.splitlines()]
    bounds = {it[1]: it[it.index("worst") + 1] for it in lines if it[0] in ("task", "path")}
    hold(status in (0, 1, 2) and bounds, f"a system in ticks isn't accepted: {report} {text}")
    return {name: None if it == "overload" else int(it) * tick for name, it in bounds.items()}


def check_made(room, count):
    draw = random.Random(21)
    for number in range(count):
        text = made_system(draw, number % 2 == 1)
        before = tomllib.loads(text)
        exact, exact_text, told = converted(room, text, "50ns")
        hold("rounded" not in told, f"system {number} with ticks of 50 ns: {told}")
        # where a job begins between two ticks a region holds up others for no longer than with these ticks
        finest = bounds_in(room, exact_text, Fraction(50))
        for tick in draw.sample(("1us", "700ns", "3us", "250 ns", "10us"), 2):
            ticks = nanoseconds(tick)
            after, after_text, told = converted(room, text, tick)
            check_rounded(before, after, ticks, after_text)
            bounds = bounds_in(room, after_text, ticks)
            below = {it for it in bounds if bounds[it] is not None and (finest[it] is None or bounds[it] < finest[it])}
            hold(not below, f"system {number} with ticks of {tick}: the bounds of {below} are below the exact ones")
            kept = [line.split("{")[0] for line in text.splitlines() if "#" in line or line.endswith("[")]
            hold(
                all(it in after_text for it in kept) and after_text.count("# a frame") == text.count("# a frame"),
                f"{after_text}",
            )


BASE = """format = 1
resource = [{ name = "r", kind = "tdma", gap = "1 us" }, { name = "c", kind = "can" }]
source = [{ name = "s", period = "1 ms" }]
task = [
  { name = "t", on = "r", after = "s", best = "1 us", worst = "2 us", slot = "5 us" },
]
"""


def check_refused(room):
    """What can't be turned is refused with its line."""
    for said, old, new, tick in (
        ('line 3: source s: period = "1 week" is no time', "1 ms", "1 week", "1us"),
        (
            "line 3: source s: period of 100ns is 0 ticks, and 1 to 1000000000 are possible: take a shorter tick",
            "1 ms",
            "100 ns",
            "1us",
        ),
        ("line 5: task t: best of 100ns is 0 ticks", '"1 us", worst', '"100 ns", worst', "1us"),
        ("and 1 to 1000000 are possible: take a longer tick", '"2 us"', '"2 s"', "1us"),
        ("task t: slot of 5us is 2.5 ticks, and has no safe side", 'best = "1 us"', 'best = "2 us"', "2us"),
        ("With a tick of 1us it is whole", 'best = "1 us"', 'best = "2 us"', "2us"),
        ("is told in bits, and its resource has no bit rate", '"2 us"', '"8 bit"', "1us"),
        ("is told in bits, and is on no resource", '"1 ms"', '"8 bit"', "1us"),
        ("it isn't TOML", "format", "format format", "1us"),
        ("source isn't a list of entries", 'source = [{ name = "s", period = "1 ms" }]', 'source = "s"', "1us"),
        ("bitrate = 0 is no bit rate", 'kind = "can"', 'kind = "can", bitrate = 0', "1us"),
        ("it has bit and bitrate", 'kind = "can"', 'kind = "can", bit = 1, bitrate = 500000', "1us"),
        (
            "a bit of 20ms is 20000 ticks, and 1 to 1000 are possible",
            'kind = "can"',
            'kind = "can", bitrate = 50',
            "1us",
        ),
    ):
        told = said_by("ticks", written(room, "bad.toml", BASE.replace(old, new, 1)), "--tick", tick)
        hold(said in told, f"ticks: {said}: {told}")


def check_told(room):
    """What is refused of words and files, and what is told of what is taken otherwise than it stands there."""
    file = written(room, "good.toml", BASE)
    hold("is no time" in said_by("ticks", file, "--tick", "5"), "no tick")
    hold("can't be read" in said_by("ticks", os.path.join(room, "none.toml"), "--tick", "1us"), "no file")
    hold(
        "can't be written" in said_by("ticks", file, "--tick", "1us", "--to", os.path.join(room, "no", "x")),
        "no folder",
    )
    done = called("ticks", written(room, "bare.toml", BASE.replace('"2 us"', "2")), "--tick", "1us")
    hold(done.returncode == 0 and "taken as ticks, since it has no unit: worst of task t" in done.stderr, done.stderr)
    file = written(room, "limit.toml", BASE.replace('"tdma"', '"tdma", limit = "1 min"'))
    hold("is no time" in called("ticks", file, "--tick", "1us").stderr, "a limit in minutes")
    file = written(room, "limit.toml", BASE.replace('"tdma"', '"tdma", limit = "11 s"'))
    done = called("ticks", file, "--tick", "1us")
    hold("limit of 11s is 10000000, the most" in done.stderr and "limit = 10000000" in done.stdout, done.stderr)


TWO = """format = 1
resource = [{ name = "c1", kind = "preemptive" }, { name = "c2", kind = "preemptive" }]
source = [{ name = "sa", period = "10 ms" }, { name = "sb", period = "10 ms" }]
task = [
  { name = "a", on = "c1", after = "sa", best = "2 ms", worst = "2 ms", priority = 1 },
  { name = "b", on = "c2", after = "sb", best = "3 ms", worst = "3 ms", priority = 1 },
]
"""


def check_units_of_chains(tick, system, listed, wrote, deadline):
    """What `chains` wrote, as times: bounds have a tick more for each wait, and deadlines get back what was taken off;
    so both are the same by each tick, and so is what Python says."""
    words = ("--tick", tick, "--system", system, "--chains", listed)
    done = run("units", *words, python=PYTHON, given=wrote)
    verdict, missed = ("missed", 1) if deadline == "24 ms" else ("met", 0)
    wanted = f"chain ab tasks 2 reaction 25ms deadline {deadline.replace(' ', '')} {verdict} age 15ms deadline - none\n"
    wanted += f"summary chains 1 overload 0 missed {missed} if sources stay near\n"
    hold(
        (done.returncode, done.stdout) == (0, wanted),
        f"units of chains in ticks of {tick}: {done.stdout} {done.stderr}",
    )
    # the same of a file of ticks, from which nothing was taken off
    with open(listed, encoding="utf-8") as it:
        plain = "".join(line for line in it if not line.startswith("#"))
    ticks = int(nanoseconds(deadline) / nanoseconds(tick))
    plain = written(
        os.path.dirname(listed), "plain.chains.toml", re.sub(r"reaction = \d+", f"reaction = {ticks}", plain)
    )
    text = subprocess.run(
        [built("cpa_cli"), "chains", system, plain], capture_output=True, text=True, check=False
    ).stdout
    done = run("units", *words[:-1], plain, python=PYTHON, given=text)
    hold((done.returncode, done.stdout) == (0, wanted), f"units of plain chains in ticks of {tick}: {done.stdout}")
    for said, given, more in (
        ("line 1: this is of `chains`, whose bounds hold at ticks alone", text, ()),
        ("chain x of 2 tasks isn't in it", text.replace("chain ab", "chain x"), words[2:]),
        ("no line of the report is of `chains`", "summary tasks 1 overload 0 missed 0\n", words[2:]),
        ("--system and --chains go together", text, words[2:4]),
    ):
        done = run("units", *words[:2], *more, python=PYTHON, given=given)
        hold(done.returncode in (1, 2) and said in done.stderr, f"units of chains: {said}: {done.stderr}")


def check_left_lines():
    """A step whose wait is `overload` has its response as a time; what is no report's line stays, which is told."""
    wrote = "step a first wait overload response 5920\nchain tasks 1 reaction overload age overload held overload\n"
    done = run("units", "--tick", "1us", python=PYTHON, given=wrote)
    hold(done.stdout == wrote.replace("5920", "5.92ms") and not done.stderr, f"units: {done.stdout} {done.stderr}")
    session = "line 3 refused 1\ntask a cpu jobs 0 done 0 worst none\n"
    done = run("units", "--tick", "1us", python=PYTHON, given=session)
    hold(done.stdout == session and not done.stderr, f"units: {done.stdout} {done.stderr}")
    done = run("units", "--tick", "1us", python=PYTHON, given="task a seen 1136 bound 1276\nslack a 117 next missed\n")
    hold(done.stdout == "task a seen 1.136ms bound 1.276ms\nslack a 117 next missed\n", f"units: {done.stdout}")
    told = "1 line stays as in the file, in ticks, the first of them line 2, `slack a 117 next missed`"
    hold(done.returncode == 0 and told in done.stderr, f"units: {done.stderr}")


def check_python(tick, wanted):
    """The bounds of the same chain by Python, in a system with this tick."""
    system = System(tick=tick)
    for name, worst in (("a", "2 ms"), ("b", "3 ms")):
        cpu, source = system.preemptive(f"on_{name}"), system.source(f"s{name}", period="10 ms")
        system.task(name, on=cpu, after=source, best=worst, worst=worst, priority=1)
    report = system.chain(["a", "b"], engine=Program(built("cpa_cli")))
    found = [f"{report.time(it):ms}" for it in ("reaction", "age", "held")]
    hold(found == wanted, f"Python with a tick of {tick}: {found}")


def check_chains(room):
    """Deadlines of chains have a tick less for each wait, so that no verdict depends on the tick: what comes at 1 us
    may be answered at 24999 us, and a bound of 23 ticks of 1 ms is no less than that by chance alone."""
    system = written(room, "two.toml", TWO)
    program = built("cpa_cli")
    check_left_lines()
    for tick in ("1ms", "1us"):
        ticks = written(room, f"two.{tick}.toml", called("ticks", system, "--tick", tick).stdout)
        for deadline, status in (("24 ms", 1), ("25 ms", 0)):
            text = f'format = 1\nchain = [{{ name = "ab", tasks = ["a", "b"], reaction = "{deadline}" }}]\n'
            chains = written(room, "two.chains.toml", text)
            done = called("ticks", chains, "--system", system, "--tick", tick)
            hold("a tick off for each wait" in done.stderr, f"chains in ticks of {tick}: {done.stderr}")
            listed = written(room, "two.ticks.chains.toml", done.stdout)
            found = subprocess.run([program, "chains", ticks, listed], capture_output=True, text=True, check=False)
            hold(found.returncode == status, f"{deadline} by ticks of {tick}: {found.stdout}")
            check_units_of_chains(tick, ticks, listed, found.stdout, deadline)
        wrote = subprocess.run([program, "chain", ticks, "a", "b"], capture_output=True, text=True, check=False).stdout
        shown = subprocess.run(
            [*tool("units", PYTHON), "--tick", tick], input=wrote, capture_output=True, text=True, check=False
        ).stdout
        hold("chain tasks 2 reaction 25ms age 15ms held 25ms" in shown, f"a chain in ticks of {tick}: {shown}")
        running = run(
            "units", "--tick", tick, python=PYTHON, given=wrote.replace("chain tasks", "chain while-running tasks")
        )
        hold("chain while-running tasks 2 reaction 25ms" in running.stdout, f"--while-running: {running.stdout}")
        check_python(tick, ["25ms", "15ms", "25ms"])
    chains = written(room, "lost.chains.toml", 'format = 1\nchain = [{ name = "x", tasks = ["c"], age = "1 ms" }]\n')
    for said, words in (
        ("line 2: chain is no key of a system; a file of chains wants its system: --system FILE", [chains]),
        ("has no task c; there are a, b", [chains, "--system", system]),
        ("it is no file of chains", [system, "--system", system]),
        ("it has a tick off for each wait that a bound counts already", [listed, "--system", system]),
        (
            "and chains take a period as the longest",
            [chains, "--system", written(room, "u.toml", TWO.replace("10", "1.5"))],
        ),
        ("line 1: sources is no key of a system", [written(room, "keys.toml", "sources = []\n")]),
    ):
        told = said_by("ticks", *words, "--tick", "1ms")
        hold(said in told, f"ticks {words}: {told}")


# calls of tools that write a file, and how its last line begins
WRITERS = (
    ("import network", ["can=examples/sae_can.dbc", "--bitrate", "125k", "--jitter-attribute", "JitterMs"], "]"),
    ("ticks", ["examples/units/switch_port.toml", "--tick", "1us"], "]"),
    ("graph", ["examples/pedal.toml"], "}"),
)


def check_pipe(room):
    """A reader that has enough ends a tool as any program, and no file is blamed; a file that it writes is whole."""
    rows = written(room, "long.txt", "task a cpu period 5 jitter 0 distance 0 best 1 worst 2\n" * 20_000)
    words = [*tool("units", PYTHON), rows, "--tick", "1us"]
    with subprocess.Popen(words, stdout=subprocess.PIPE, stderr=subprocess.PIPE, text=True) as child:
        child.stdout.readline()
        child.stdout.close()
        said = child.stderr.read()
    hold(said == "", f"units into a pipe that is closed: {said}")
    hold(child.returncode == -signal.SIGPIPE, f"units into a pipe that is closed: {child.returncode}")
    for name, more, last in WRITERS:
        file = os.path.join(room, "whole.txt")
        whole = called(name, *more).stdout
        hold(whole.rstrip().endswith(last), f"{name}: {whole[-80:]}")
        check_closed(name, "--help")
        check_closed(name, *more)
        if name != "graph":
            check_closed(name, *more, "--to", file)
            with open(file, encoding="utf-8") as it:
                hold(it.read() == whole, f"{name} --to, told into a pipe that is closed: its file isn't whole")


def check_closed(name, *more):
    """The status of a tool whose outputs nobody reads is that of the signal."""
    reading, writing = os.pipe()
    os.close(reading)
    done = subprocess.run([*tool(name, PYTHON), *more], stdout=writing, stderr=writing, check=False)
    os.close(writing)
    hold(done.returncode == -signal.SIGPIPE, f"{name} {more} into a pipe that is closed: status {done.returncode}")


def check_examples(room):
    """The example is what stands in examples/ in ticks, with the report beside it; reports with times."""
    done = called("ticks", "examples/units/switch_port.toml", "--tick", "1us")
    with open("examples/switch_port.toml", encoding="utf-8") as it:
        hold(
            it.read() == done.stdout.replace("../../docs", "../docs"),
            "examples/switch_port.toml isn't examples/units/switch_port.toml in ticks",
        )
    with open("examples/switch_port.report.txt", encoding="ascii") as it:
        hold(analysed("examples/switch_port.toml") == (0, it.read()), "the report of examples/switch_port.toml")
    done = called("units", "examples/switch_port.report.txt", "--tick", "1us")
    hold("task control port period 500us jitter 20us distance 0 best 6us worst 132us\n" in done.stdout, done.stdout)
    hold(done.stdout.endswith("summary tasks 3 overload 0 missed 0\n"), done.stdout)
    done = called("units", "examples/sae_can.report.txt", "--tick", "1us", "--unit", "ms")
    hold("path d1 best 0.44ms worst 29.52ms deadline 1000ms met\n" in done.stdout, done.stdout)
    report = "task worst best period 5 jitter overload distance overload best 1 worst overload\nline 3 refused 5\n"
    done = subprocess.run(
        [*tool("units", PYTHON), "--tick", "800ns"], input=report, capture_output=True, text=True, check=False
    )
    wanted = (
        "task worst best period 4us jitter overload distance overload best 800ns worst overload\nline 3 refused 5\n"
    )
    hold(done.stdout == wanted, done.stdout)


if __name__ == "__main__":
    run_checks(__doc__, (check_examples, check_refused, check_told, check_chains, check_pipe), (check_made,))
