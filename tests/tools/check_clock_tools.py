#!/usr/bin/env python3
"""Tries what tools tell of sources on clocks, beside the plain rules (tests/rules/clocks.py). Outside the gate.

Over random systems with clocks: of each task on a resource with priorities what `lokwurmi explain` tells of phases. The
response from each phase that is told is that of the rules from that start of a busy window, and from no other start is
it greater; who comes from there, with how many events and how soon, is counted once more. Which systems have bounds
that use clocks is told by the rules too: there alone the premise of clocks is said. How far `lokwurmi sensitivity` lets
each offset move is tried by all offsets round its period, by the rules, and by hand; and by hand that `lokwurmi worst`
begins a trace at the worst phase. Clocks over their cycles are worked out by hand, and where a trace has one is tried
by each tick of its cycle; pictures and pages have to show them.

    python3 -m tests.tools.check_clock_tools [NUMBER of systems, 400 if absent] [NUMBER to begin with, 0 if absent]
"""
import json
import random
import re
import tempfile
import tomllib

from lokwurmi.model.view import SystemView
from lokwurmi_tools.bounds.bound_texts import lines_of_task
from lokwurmi_tools.bounds.explained import Explained
from lokwurmi_tools.runs.clock_cycle import ClockCycle, in_parts, leads_in
from lokwurmi_tools.search.margin_question import MarginQuestion
from lokwurmi_tools.search.margins import answers_of
from lokwurmi_tools.shared.analysed import analysed
from lokwurmi_tools.shared.system_file import clock_words_on
from tests.rules import bounds as plain
from tests.rules import locks
from tests.rules.clocks import OnClocks, Placed, clocks_of, is_by
from tests.support.calls import NEEDS_PROGRAM, built, faults, hold, python_with, range_of, run, tell, written
from tests.support.clocked_systems import system_on_clocks, trace_on_clocks
from tests.support.systems import file_of

PROGRAM = built("cpa_cli")
# the longest cycle whose every tick is tried as a start
MOST_STARTS = 300
# the kinds of resources whose bounds use clocks
BY_PRIORITY = ("preemptive", "can", "ceiling")


class Rules:
    """A system by the plain rules, at the bounds of its report."""

    def __init__(self, text, report):
        self.system = plain.System(text)
        self.bounds = {name: plain.OVERLOAD if it.overload else it.worst for name, it in report.tasks.items()}

    def kind(self, name):
        return self.system.resources[self.system.tasks[name]["on"]]["kind"]

    def mates(self, name):
        """The tasks before one on its resource, the most urgent first, and those behind it."""
        tasks = self.system.tasks
        on = [it for it in tasks if tasks[it]["on"] == tasks[name]["on"] and it != name]
        before = [it for it in on if tasks[it]["priority"] < tasks[name]["priority"]]
        return sorted(before, key=lambda it: tasks[it]["priority"]), [it for it in on if it not in before]

    def sharing(self, name):
        """The clocks that two streams of a task and of those before it are on."""
        if self.kind(name) not in BY_PRIORITY:
            return set()
        anchors = [at for it in (name, *self.mates(name)[0]) for at in self.system.anchors_of(it) if at]
        clocks = [clock for clock, _ in anchors]
        return {it for it in clocks if clocks.count(it) > 1}

    def responses(self, name):
        """The greatest response of a task from each start of its busy window on its own clock."""
        before, below = self.mates(name)
        tasks, rules = self.system.tasks, OnClocks(self.system, name, before, self.bounds)
        if self.kind(name) == "can":
            blocking = max((tasks[it]["worst"] for it in below), default=0)
            bit = self.system.resources[tasks[name]["on"]].get("bit", 1)
            return [rules.can_from(blocking, bit, *it) for it in rules.starts()]
        # without locks by regions alone
        ceilings = locks.ceilings_of([tasks[it] for it in (name, *before, *below)])
        blocking = locks.blocking(tasks[name], [tasks[it] for it in below], ceilings)
        return [rules.preemptive_from(blocking, *it) for it in rules.starts()]

    def coming(self, name, clock, moment, window):
        """Of each stream of the rivals of a task on a clock how many events come in a window that begins at a moment of
        it, and how soon the first."""
        found = []
        for it in self.mates(name)[0]:
            model = self.system.input_of(it, self.bounds)
            for stream, source, at in zip(model, self.system.sources_of(it), self.system.anchors_of(it)):
                if at and at[0] == clock:
                    placed = Placed(stream, at[1], 0)
                    found.append((it, source, placed.arrivals(moment, window), placed.earliest(moment, 1)))
        return found


def check_phases(what, name, told, rules):
    """The phases of a task's own clock."""
    responses = rules.responses(name)
    cycle = told["cycle"]
    wanted = {start % cycle: response for start, response in enumerate(responses, 1)}
    found = {moment: response or 0 for moment, response in told["phases"]}
    same = all(wanted[moment] == response for moment, response in found.items())
    hold(same, f"{what}: from {found} it takes {[wanted[it] for it in found]}", "phases")
    hold(found[told["at"]] == max(responses), f"{what}: {told['at']} isn't the worst phase of {wanted}", "worst")
    hold(told["start"] == told["at"], f"{what}: {told}", "worst")


def check_coming(what, name, told, job, rules):
    """Who comes from where a clock stands."""
    system = rules.system
    task, resource = system.tasks[name], system.resources[system.tasks[name]["on"]]
    # on a bus up to a bit time after the start of the frame
    window = job["done"] - (task["worst"] - resource.get("bit", 1) if resource["kind"] == "can" else 0)
    come = [tuple(it.values()) for it in told["come"]]
    if told["start"] is not None:
        own = Placed(system.input_of(name, rules.bounds)[0], system.anchors_of(name)[0][1], 0)
        wanted = (name, system.sources_of(name)[0], job["number"], own.earliest(told["at"], 1))
        hold(come[:1] == [wanted], f"{what}: {come[:1]}, and not {wanted}", "own")
        comes = own.earliest(told["at"], job["number"])
        hold(job["came"] == comes, f"{what}: it comes at {job['came']}, and not {comes}", "own")
        come = come[1:]
    wanted = rules.coming(name, told["clock"], told["at"], window)
    hold(come == wanted, f"{what}: {come} come, and not {wanted}", "comers")
    if told["start"] is None:
        work = most_work(name, told, window, rules)
        brings = sum(events * system.tasks[it]["worst"] for it, _, events, _ in come)
        hold(brings == work, f"{what}: {brings} come of another clock, and {work} may", "others")


def most_work(name, told, window, rules):
    """The most work of the rivals that a clock brings in a window, of all its moments."""
    works = (
        sum(
            events * rules.system.tasks[it]["worst"]
            for it, _, events, _ in rules.coming(name, told["clock"], at, window)
        )
        for at in range(told["cycle"])
    )
    return max(works)


def check_explained(what, text, room):
    """What is told of each task of a system."""
    known = analysed(PROGRAM, written(room, "system.toml", text))
    explained, rules = Explained(known.view, known.report), Rules(text, known.report)
    used = set()
    for name in rules.system.tasks:
        told, sharing = explained.task(name), rules.sharing(name)
        used |= sharing
        lines = lines_of_task(told)
        if told["bound"] is None:
            continue
        clocks = told.get("clocks", [])
        hold({it["clock"] for it in clocks} == sharing, f"{what}, {name}: {clocks}, and not {sharing}", "clocks")
        for it in clocks:
            if it["at"] is None or it["cycle"] > MOST_STARTS:
                continue
            check_coming(f"{what}, {name}, clock {it['clock']}", name, it, told["job"], rules)
            hold(any("from there come" in line for line in lines), f"{what}, {name}: {lines}", "lines")
            if it["start"] is not None:
                check_phases(f"{what}, {name}", name, it, rules)
    hold(not explained.faults, f"{what}: {explained.faults}", "faults")
    hold(bool(clock_words_on(text)) == bool(used), f"{what}: the premise, and {used} are used", "premise")
    hold(set(known.view.clocks_in_bounds) == used, f"{what}: {known.view.clocks_in_bounds}, {used}", "premise")


def check_random(numbers, room):
    for number in numbers:
        system = system_on_clocks(random.Random(f"clock tools {number}"))
        check_explained(f"system {number}", file_of(system), room)
        if len(faults) > 5:
            break


def deadlines_drawn(draw, system, bounds):
    """Paths of some tasks, with deadlines that are met with little to spare."""
    names = [it["name"] for it in system["task"] if bounds[it["name"]] != plain.OVERLOAD]
    several = draw.sample(names, min(len(names), 3))
    return [
        {"name": f"p{k}", "tasks": [name], "deadline": bounds[name] + draw.randint(0, 3)}
        for k, name in enumerate(several)
    ]


def late_by(system, name, offset):
    """Which deadlines of a system are missed by an offset of a source, by the plain rules."""
    sources = [it | {"offset": offset} if it["name"] == name else it for it in system["source"]]
    bounds = plain.System(file_of(system | {"source": sources})).least_solution()
    return [f"path {it['name']}" for it in system["path"] if bounds[it["tasks"][0]] > it["deadline"]]


def check_offsets_moved(what, system, room):
    """How far each offset may move to each side, beside all offsets round its period."""
    known = analysed(PROGRAM, written(room, "system.toml", file_of(system)))
    # the file has no deadlines
    question = MarginQuestion(known, {it["name"]: it["deadline"] for it in system["path"]}, True)
    sources = {it["name"]: it for it in system["source"]}
    used = {name for clock in known.view.clocks_in_bounds for name in known.view.clocks[clock]}
    answers = answers_of(question, ("offset",), 1)
    hold(sorted({it.name for it, _ in answers}) == sorted(used), f"{what}: {answers}", "offsets")
    by_offset = {name: [late_by(system, name, it) for it in range(sources[name]["period"])] for name in used}
    for it, told in answers:
        period, offset, way = sources[it.name]["period"], sources[it.name]["offset"], -1 if it.is_earlier else 1
        late = [by_offset[it.name][(offset + way * steps) % period] for steps in range(period)]
        wanted = next((steps for steps in range(period) if late[steps]), period) - 1
        said = f"{what}, offset of {it.name}, {way}: {told}, and not {wanted}: {late}\n{file_of(system)}"
        hold(told.steps == wanted, said, "offsets")
        hold(told.ends == (wanted < period - 1), said, "offsets")
        hold(not told.ends or told.first == late[wanted + 1], said, "beyond")


def check_margins(numbers, room):
    """Offsets that move, in systems of short cycles; how many of them may not move all round."""
    for number in numbers:
        draw = random.Random(f"offsets moved {number}")
        system = system_on_clocks(draw, ("preemptive", "can"))
        if max(clocks_of(system["source"]).values(), default=1) <= 24 and len(system["task"]) <= 5:
            system["path"] = []
            bounds = plain.System(file_of(system)).least_solution()
            system["path"] = deadlines_drawn(draw, system, bounds)
            # where there is no bound the rules follow long windows again and again
            if system["path"] and max(bounds.values()) <= 40:
                check_offsets_moved(f"system {number}", system, room)
        if len(faults) > 5:
            break


# two tasks of a kind, whose sources are on one clock, and what of a call tells of its premise
TWO = """format = 4
resource = [{{ name = "p", kind = "{kind}" }}]
source = [{{ name = "s", period = 10, clock = "c" }}, {{ name = "q", period = 10, clock = "c", offset = 5 }}]
task = [
  {{ name = "a", on = "p", after = "s", best = 1, worst = 4{turns[0]} }},
  {{ name = "b", on = "p", after = "q", best = 1, worst = 3{turns[1]} }},
]
path = [{{ name = "late", tasks = ["b"], deadline = 9 }}]
"""
KINDS = {
    "preemptive": (", priority = 1", ", priority = 2"),
    "can": (", priority = 1", ", priority = 2"),
    "ceiling": (", priority = 1", ", priority = 2"),
    "fifo": ("", ""),
    "round-robin": (", slot = 2", ", slot = 3"),
}
PREMISE = "if sources on a clock keep their distances"
MARGINS = ["sensitivity", "--only", "deadline"]
CALLS = (["explain", "--all"], ["explain", "--all", "--json"], ["optimise"], ["optimise", "--json"], ["verdict"])
CALLS += (MARGINS, [*MARGINS, "--json"])


def check_premise(room):
    """The premise is said where a bound uses clocks, and else nowhere."""
    for kind, turns in KINDS.items():
        file = written(room, f"{kind}.toml", TWO.format(kind=kind, turns=turns))
        for words in CALLS:
            done = run(words[0], file, *words[1:], "--program", PROGRAM)
            is_said = PREMISE in done.stdout + done.stderr
            hold(done.returncode == 0, f"{kind}: {words}: {done.returncode} {done.stderr}", "premise")
            hold(is_said == (kind in BY_PRIORITY), f"{kind}: {words}: {done.stdout} {done.stderr}", "premise")


# of the same with a deadline of `b`: how far the offset 5 of `q` may move later, and earlier. Its bound is 3 where it
# comes 4 to 7 ticks after `s`, 4 at 3, 5 at 2, 6 at 1 and 7 at 0; at 8 `a` comes 2 ticks after `b`, and takes 4 of it
MOVED = {3: (2, 1), 4: (2, 2), 6: (2, 4), 7: (9, 9)}


def check_worked(room):
    """Offsets that move as worked out by hand, and words that name nothing."""
    text = TWO.format(kind="preemptive", turns=KINDS["preemptive"])
    for deadline, wanted in MOVED.items():
        file = written(room, "moved.toml", text.replace("deadline = 9", f"deadline = {deadline}"))
        done = run("sensitivity", file, "--only", "offset", "--json", "--program", PROGRAM)
        rows = {(it["name"], it["way"]): it for it in json.loads(done.stdout)["numbers"]}
        found = tuple(rows["q", way]["by"] for way in ("later", "earlier"))
        hold(found == wanted, f"deadline {deadline}: {rows}", "worked")
        # to move one later is to move the other earlier
        same = rows["s", "earlier"]["by"], rows["s", "later"]["by"]
        hold(same == wanted, f"deadline {deadline}: {rows}", "worked")
        last = rows["q", "later"]["last"], rows["q", "earlier"]["last"]
        hold(last == ((5 + wanted[0]) % 10, (5 - wanted[1]) % 10), f"deadline {deadline}: {rows}", "worked")
    done = run("sensitivity", file, "--only", "offset", "--program", PROGRAM)
    hold("a whole period on, it lies where it was" in done.stdout, done.stdout, "worked")
    file = written(room, "fifo.toml", TWO.format(kind="fifo", turns=KINDS["fifo"]))
    done = run("sensitivity", file, "--only", "offset", "--program", PROGRAM)
    hold(done.returncode and "no bound depends on an offset" in done.stderr, done.stderr, "refused")


# of the same with other offsets of `q`: the bound of `b`, which a run reaches, and the worst phase: where `a` is done
# when `b` comes that at which `b` comes alone, and else that at which `a` does
LATE = {5: (3, 5), 4: (3, 4), 3: (4, 0), 2: (5, 0), 1: (6, 0), 0: (7, 0)}


def check_worst(room):
    """The worst phase, by which a trace begins, as worked out by hand."""
    text = TWO.format(kind="preemptive", turns=KINDS["preemptive"])
    for offset, (bound, phase) in LATE.items():
        file = written(room, "late.toml", text.replace("offset = 5", f"offset = {offset}"))
        done = run("worst", file, "b", "--tries", "1", "--jobs", "1", "--program", PROGRAM)
        wanted = f"task b seen {bound} bound {bound} ratio 1.0000\n"
        wanted += f"phase {wanted.rstrip()} clocks c:{phase}\n"
        hold(done.stdout.startswith(wanted), f"offset {offset}: {done.stdout} {done.stderr}", "worst phase")
    file = written(room, "fifo.toml", TWO.format(kind="fifo", turns=KINDS["fifo"]))
    done = run("worst", file, "b", "--tries", "1", "--jobs", "1", "--program", PROGRAM)
    hold("phase" not in done.stdout and "task b seen" in done.stdout, f"{done.stdout} {done.stderr}", "worst phase")


def clock_of(**changes):
    """The clock of the two tasks, with other numbers."""
    text = TWO.format(kind="preemptive", turns=KINDS["preemptive"])
    for old, new in changes.values():
        text = text.replace(old, new)
    return ClockCycle(SystemView.of(tomllib.loads(text)), "c")


def check_cycles():
    """A clock over its cycle, as worked out by hand."""
    clock = clock_of()
    hold([list(clock.releases(it)) for it in ("s", "q")] == [[0], [5]], f"{clock}", "cycles")
    hold(clock.part == 1 and clock.fullest("p") == (0, 4), f"{clock.part} {clock.fullest('p')}", "cycles")
    wanted = {"s": [4, *[0] * 9], "q": [*[0] * 5, 3, *[0] * 4]}
    hold(clock.loads("p") == wanted, f"{clock.loads('p')}", "cycles")
    # a takes 4 from 0 on, and b 3 from 5 on
    bends = {(0, 4), (4, 0), (5, 3), (8, 0)}
    hold(bends <= set(clock.left("p")) and clock.left("p")[-1] == (10, 0), f"{clock.left('p')}", "cycles")
    heap = clock_of(offset=("offset = 5", "offset = 0"))
    hold(heap.fullest("p") == (0, 7) and {(0, 7), (7, 0)} <= set(heap.left("p")), f"{heap.left('p')}", "cycles")
    late = clock_of(worst=("worst = 3", "worst = 6"))
    # of 6 from 5 on a tick is left for the next cycle, and a comes behind it
    hold({(0, 1), (0, 5), (5, 0), (5, 6), (10, 1)} <= set(late.left("p")), f"{late.left('p')}", "cycles")
    twice = clock_of(period=('"q", period = 10', '"q", period = 20'))
    hold(twice.cycle == 20 and list(twice.releases("s")) == [0, 10], f"{twice}", "cycles")
    hold(in_parts([0, 4, 5, 9, 12], 2, 4, 10, 5) == [4, 2], f"{in_parts([0, 4, 5, 9, 12], 2, 4, 10, 5)}", "cycles")


def check_leads(numbers):
    """Where a trace has a clock, beside each tick of its cycle by the rules."""
    for number in numbers:
        draw = random.Random(f"leads {number}")
        system = system_on_clocks(draw)
        events = trace_on_clocks(draw, system)[0]
        view = SystemView.of(tomllib.loads(file_of(system)))
        for name, cycle in clocks_of(system["source"]).items():
            mine = [it for it in system["source"] if it.get("clock") == name]
            wanted = [lead for lead in range(cycle) if all(is_by(it, events[it["name"]], lead) for it in mine)]
            leads = leads_in(ClockCycle(view, name), events)
            found = [lead for low, high in leads for lead in range(low, high + 1)]
            hold(found == wanted, f"system {number}, clock {name}: {leads}, and not {wanted}: {mine} {events}", "leads")


# words that aren't taken, and what the line says
REFUSED = (
    (["curve", "--clock", "d"], "--clock d: there is no such clock; there are c"),
    (["curve"], "name a REPORT and a TASK, or --clock NAME"),
    (["curve", "report", "a", "--clock", "c"], "--clock goes without REPORT and TASK"),
    (["curve", "--clock", "c", "--window", "5"], "--clock goes without"),
    (["gantt", "schedule", "--clock", "c"], "--clock wants --trace"),
    (["gantt", "--trace", "TRACE", "--clock", "d"], "--clock d: there is no such clock; there are c"),
)


def check_pictures(room, python):
    """The pictures of a clock, which have its sources, and words that name nothing."""
    file, picture = written(room, "two.toml", TWO.format(kind="preemptive", turns=KINDS["preemptive"])), f"{room}/p.svg"
    trace = written(room, "trace.csv", "event,s,3\nevent,q,8\nevent,s,13\n")
    for words in (["curve", "--clock", "c"], ["gantt", "--trace", trace, "--clock", "c", "--program", PROGRAM]):
        done = run(words[0], file, *words[1:], "--to", picture, python=python)
        texts = texts_in(picture) if done.returncode == 0 else []
        hold({"s", "q"} <= set(texts), f"{words}: {done.stderr} {texts}", "pictures")
        # events at 3 and 8 of offsets 0 and 5: a cycle begins at 3
        is_told = "a cycle of c begins" in texts if words[0] == "gantt" else any("at most 4" in it for it in texts)
        hold(is_told, f"{words}: {texts}", "pictures")
    for words, said in REFUSED:
        more = [trace if it == "TRACE" else it for it in words[1:]] + (
            ["--program", PROGRAM] if "TRACE" in words else []
        )
        done = run(words[0], file, *more, "--to", picture, python=python)
        hold(done.returncode and said in done.stderr and "Traceback" not in done.stderr, f"{words}: {done}", "refused")
    page = f"{room}/page.html"
    done = run("page", file, "--to", page, "--program", PROGRAM, python=python)
    with open(page, encoding="utf-8") as it:
        text = it.read()
    hold(done.returncode == 0 and 'id="clocks"' in text and "c: a cycle of 10 ticks" in text, f"{done}", "pictures")


def texts_in(picture):
    """The texts of a picture."""
    with open(picture, encoding="utf-8") as it:
        return re.findall(r"<text[^>]*>([^<]*)</text>", it.read())


def main():
    numbers, python = range_of(__doc__, 400, NEEDS_PROGRAM), python_with("matplotlib", "jinja2")
    with tempfile.TemporaryDirectory() as room:
        check_premise(room)
        check_worked(room)
        check_worst(room)
        check_cycles()
        check_leads(numbers)
        if python:
            check_pictures(room, python)
        check_random(numbers, room)
        check_margins(numbers[::4], room)
    tell(without="" if python else ", without pictures: packages aren't here")


if __name__ == "__main__":
    main()
