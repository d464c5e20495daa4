#!/usr/bin/env python3
"""Tries `lokwurmi optimise` over random systems, and counts how often it finds an order where others fail. Outside the
gate.

Small systems have three or four chains over two processors and a CAN bus, with jitter and deadlines, and every other
system has tasks with regions; where there are up to 20,000 orders of all resources together, all are tried by sessions
of the proved program, each an exchange of two priorities from the one before. So it is known whether there is an order
under which all deadlines are met; where there is none, none may be found. Large systems have ten to sixteen chains, and
deadlines that are met by an order that the search isn't told. The edits of each order that is found must make a system
that `analyse` accepts with status 0. Every fifth small system has effect chains with deadlines besides, on all of whose
orders the plain rules say whether they are met. Ends with 1 at the first answer that can't be.

    python3 -m tests.tools.check_optimise [SMALL systems, 100 if absent] [LARGE ones of each kind, 20] [first, 0]
"""
import collections
import itertools
import json
import math
import os
import random
import re
import sys
import tempfile
from typing import NamedTuple

from lokwurmi_tools.search.priorities import PriorityOptions, PrioritySearch
from lokwurmi_tools.shared import progress
from lokwurmi_tools.shared.analysed import analysed
from lokwurmi_tools.shared.system_text import toml_of
from tests.rules import effect_chains
from tests.rules.bounds import OVERLOAD
from tests.support import chain_texts
from tests.support.calls import NEEDS_PROGRAM, TOP, add_number, answer, built, outcome, reader_of, run, written
from tests.support.systems import some_region

PROGRAM = built("cpa_cli")
# searches that are made here tell nothing
progress.TERMINAL = progress.ELSEWHERE = float("inf")
MOST = 20_000
# the least share of its deadline that a path of a large system takes by the order that isn't told
TIGHT = (0.8, 0.95, 1.0)


def chained(pick, large, has_regions):
    """A random system of chains over processors and a bus, with priorities at random and without deadlines."""
    processors, chains = (pick.randint(3, 5), pick.randint(10, 16)) if large else (2, pick.randint(3, 4))
    resources = [{"name": f"p{k}", "kind": "preemptive", "limit": 20000} for k in range(processors)] + [
        {"name": "b", "kind": "can", "limit": 20000}
    ]
    sources, tasks, paths = [], [], []
    for k in range(chains):
        period = pick.choice((100, 200, 400, 500, 1000))
        sources.append({"name": f"s{k}", "period": period, "jitter": pick.choice((0, 0, pick.randint(0, period)))})
        way = [f"p{pick.randrange(processors)}"]
        for _ in range(pick.randint(0, 3)):
            way.append(pick.choice([it["name"] for it in resources if it["name"] != way[-1]]))
        for place, on in enumerate(way):
            worst = max(1, round(period * processors * pick.uniform(0.1, 0.9) / (2.6 * chains)))
            tasks.append(
                {
                    "name": f"t{k}.{place}",
                    "on": on,
                    "after": tasks[-1]["name"] if place else f"s{k}",
                    "best": pick.randint(max(1, worst // 2), worst),
                    "worst": worst,
                }
            )
        paths.append({"name": f"c{k}", "tasks": [it["name"] for it in tasks[-len(way) :]]})
    for it, priority in zip(tasks, pick.sample(range(len(tasks)), len(tasks))):
        it["priority"] = priority
    for it in tasks if has_regions else ():
        if it["on"] != "b":
            it["region"] = some_region(pick, it["worst"])
    return {"format": 4 if has_regions else 1, "resource": resources, "source": sources, "task": tasks, "path": paths}


def made(number, large, tight):
    """Such a system with deadlines: by an order at random each path takes up to its deadline, or in small systems up to
    1.1 times as long, and so much of it at least. Then its tasks get other priorities. So of a large system it is known
    that an order meets."""
    pick = random.Random(number)
    while True:
        system = chained(pick, large, number % 2 == 1)
        worst = dict(
            re.findall(r"^path (\S+) best \d+ worst (\d+) ", answer(PROGRAM, toml_of(system), "analyse")[1], re.M)
        )
        if len(worst) == len(system["path"]):
            break
    for it in system["path"]:
        it["deadline"] = max(1, math.ceil(int(worst[it["name"]]) / pick.uniform(tight, 1.0 if large else 1.1)))
    for it, priority in zip(system["task"], pick.sample(range(len(system["task"])), len(system["task"]))):
        it["priority"] = priority
    return system


def heap(names):
    """Pairs to exchange, one after the other, so that each order of the names comes once: Heap's algorithm."""
    names, turn, k = list(names), [0] * len(names), 1
    while k < len(names):
        if turn[k] < k:
            a = 0 if k % 2 == 0 else turn[k]
            yield names[a], names[k]
            names[a], names[k] = names[k], names[a]
            turn[k] += 1
            k = 1
        else:
            turn[k] = 0
            k += 1


def all_exchanges(several):
    """The same for some resources: each order of the first with each of the others."""
    if not several:
        return
    first, *others = several
    now = {it: it for names in several for it in names}

    def inner():
        """All orders of the others, in places that are looked up, as these have moved since the time before."""
        for a, b in all_exchanges([[now[it] for it in names] for names in others]):
            yield a, b
            one, two = (next(place for place, it in now.items() if it == name) for name in (a, b))
            now[one], now[two] = b, a

    yield from inner()
    for a, b in heap(first):
        yield a, b
        yield from inner()


def is_there(system, room):
    """Whether an order meets, and how many were tried: all."""
    orders = {
        it["name"]: [task["name"] for task in system["task"] if task["on"] == it["name"]] for it in system["resource"]
    }
    wanted = math.prod(math.factorial(len(names)) for names in orders.values())
    if wanted > MOST:
        return None, wanted
    # a session takes 10,000 lines: the next one begins with the order of the one before
    at, lines, tried, found = {it["name"]: it["priority"] for it in system["task"]}, ["report"], 0, False

    def flush(begin):
        text = toml_of(system | {"task": [task | {"priority": begin[task["name"]]} for task in system["task"]]})
        files = written(room, "all.toml", text), written(room, "all.script", "\n".join(lines) + "\n")
        told, _ = outcome(PROGRAM, "session", *files)
        assert "refused" not in told
        return told.count(" overload 0 missed 0\n")

    begin = dict(at)
    for a, b in all_exchanges(list(orders.values())):
        if len(lines) > 9000:
            found, tried, lines, begin = found or flush(begin) > 0, tried + lines.count("report"), [], dict(at)
        at[a], at[b] = at[b], at[a]
        lines += [f"swap {a} {b}", "report"]
    found, tried = found or flush(begin) > 0, tried + lines.count("report")
    assert tried == wanted, (tried, wanted)
    return found, wanted


def holds(system, search, order, room):
    """Whether the program accepts the system with an order, by the edits that are written for it."""
    search.best = order
    script = written(room, "edits", "".join(line + "\n" for line in search.script()))
    return outcome(PROGRAM, "session", written(room, "given.toml", toml_of(system)), script)[1] == 0


class Row(NamedTuple):
    """What is found of a system: by which orders that aren't searched for, by the search and how, and after how many
    orders; whether there is one, None where that isn't known, and how many orders there are."""

    by: dict[str, bool]
    found: bool
    how: str
    looked: int
    there: bool | None
    orders: int


def looked_at(number, large, tight, room):
    """What is found of a system."""
    system = made(number, large, tight)
    file = written(room, "system.toml", toml_of(system))
    search = PrioritySearch(analysed(PROGRAM, file), PriorityOptions(), room)
    by = {how: holds(system, search, order, room) for how, order in search.starts()}
    search.best = None
    search.run()
    found = search.best_verdict.holds
    if found and not holds(system, search, search.best, room):
        sys.exit(f"system {number}: what is told as found isn't\n{toml_of(system)}")
    there, orders = (None, 0) if large else is_there(system, room)
    if there is False and (found or any(by.values())):
        sys.exit(f"system {number}: an order is found, and none meets\n{toml_of(system)}")
    return Row(by, found, search.how.split(",")[0], search.looked, there, orders)


def show(what, rows):
    """The counts of some systems."""
    each, most = sum(it.looked for it in rows) / len(rows), max(it.looked for it in rows)
    print(f"{what}: {len(rows)} systems, {each:.0f} orders each, {most} at most")
    known = [it for it in rows if it.there is not None]
    if known:
        have = [it for it in known if it.there]
        print(f"  all {sum(it.orders for it in known)} orders of {len(known)} systems tried: {len(have)} have one that")
        print(f"  meets, of which {sum(it.found for it in have)} are found")
        for how in rows[0].by:
            print(f"  {how}: meets in {sum(it.by[how] for it in have)} of these")
    for how in rows[0].by:
        print(f"  {how}: meets in {sum(it.by[how] for it in rows)}")
    none = [it for it in rows if not any(it.by.values())]
    print(f"  none of these three meets in {len(none)}, of which {sum(it.found for it in none)} are found")
    ways = collections.Counter(it.how for it in none if it.found)
    by = ", ".join(f"{how} {count}" for how, count in ways.items()) or "nothing"
    print(f"  found in all: {sum(it.found for it in rows)}; of those that none of the three meets by {by}", flush=True)


def check_calls():
    """What a call prints where nothing is found, and what it doesn't take."""
    file = os.path.join(TOP, "examples", "crossing_chains.toml")
    words = ["--program", PROGRAM, file, "--rounds", "1", "--restarts", "0"]
    done = run("optimise", *words)
    said = "pb misses its deadline by 5", "the search proves nothing about what it didn't try"
    if done.returncode != 3 or not all(it in done.stdout for it in said):
        sys.exit(f"{file}: {done.returncode} {done.stdout} {done.stderr}")
    told = json.loads(run("optimise", *words, "--json").stdout)
    if told["found"] or told["late"] != {"pb": 5} or told["edits"]:
        sys.exit(f"{file}: {told}")
    with open(file, encoding="utf-8") as it, tempfile.TemporaryDirectory() as room:
        text = it.read().replace("priority = 2 }", "priority = 2, region = 2 }")
        late = written(room, "late.toml", re.sub(r"^format = \d", "format = 4", text, flags=re.M))
        done = run("optimise", "--program", PROGRAM, late, "--rounds", "1", "--restarts", "0")
    if done.returncode != 3 or "regions stay as they are" not in done.stdout:
        sys.exit(f"regions: {done.returncode} {done.stdout} {done.stderr}")
    done = run("optimise", "--program", PROGRAM, file, "--rounds", "0")
    if done.returncode != 1 or "at least 1 round" not in done.stderr:
        sys.exit(f"{file}: {done.returncode} {done.stderr}")


def chained_small(number):
    """A system of one processor and up to four tasks, and a chain over it, with a deadline that some orders meet."""
    pick = random.Random(f"chains of {number}")
    sources = [{"name": f"s{k}", "period": pick.choice((10, 20, 25, 40))} for k in range(pick.randint(2, 4))]
    tasks = [
        {"name": f"t{k}", "on": "p", "after": it["name"], "best": 1, "worst": pick.randint(1, 4), "priority": k}
        for k, it in enumerate(sources)
    ]
    resource = [{"name": "p", "kind": "preemptive", "limit": 2000}]
    system = {"format": 1, "resource": resource, "source": sources, "task": tasks}
    way = [it["name"] for it in pick.sample(tasks, pick.randint(1, len(tasks)))]
    found = [(order, limits["reaction"], limits["age"]) for order, limits in all_limits(system, way)]
    reaction, age = (sorted(it[place] for it in found) for place in (1, 2))
    # a deadline that is hard, or that is too hard by a tick
    hard = reaction[0] - (1 if pick.random() < 0.3 else 0), pick.choice(age)
    return system, way, hard, any(a <= hard[0] and b <= hard[1] for _, a, b in found)


def all_limits(system, way):
    """What a chain takes by each order of the one resource, by the plain rules; orders without a bound are left out."""
    names = [it["name"] for it in system["task"]]
    for order in itertools.permutations(names):
        ranked = [it | {"priority": order.index(it["name"])} for it in system["task"]]
        rules = effect_chains.Bounds(toml_of(system | {"task": ranked}))
        if OVERLOAD not in rules.bound.values():
            yield order, rules.limits(way)


def check_with_chains(number, room):
    """Whether an order is found where there is one by which the chain is met, and what is told of it before and
    after."""
    system, way, hard, is_there = chained_small(number)
    file = written(room, "chained.toml", toml_of(system))
    listed = written(room, "listed.toml", chain_texts.text_of([("c", way, *hard, None)]))
    script = os.path.join(room, "chained.script")
    words = [file, "--chains", listed, "--script", script, "--rounds", "5", "--restarts", "2"]
    done = run("optimise", "--program", PROGRAM, *words, "--json")
    told = json.loads(done.stdout)
    what = f"chains, system {number}: {done.stdout}\n{toml_of(system)}{way} {hard}"
    if told["found"] != is_there or done.returncode != (0 if is_there else 3):
        sys.exit(f"{what}: is an order there: {is_there}")
    order = told["order"].get("p", [it["name"] for it in sorted(system["task"], key=lambda it: it["priority"])])
    limits = {"before": dict(all_limits(system, way)).get(tuple(it["name"] for it in system["task"]))}
    limits["after"] = dict(all_limits(system, way))[tuple(order)]
    for it in told["chains"]:
        for when, known in limits.items():
            if known is not None and it[when] != known[it["what"]]:
                sys.exit(f"{what}: {when} it takes {known}")
    if told["premise"] != "if sources stay near" or len(told["chains"]) != 2:
        sys.exit(f"{what}: the premise, and two deadlines")
    return is_there


def check_chains(count, first):
    """Such systems; how many have an order that meets."""
    with tempfile.TemporaryDirectory() as room:
        several = [check_with_chains(number, room) for number in range(first, first + count)]
        bad = written(room, "bad.toml", chain_texts.text_of([("a", ["nobody"], None, None, None)]))
        file = os.path.join(TOP, "examples", "effects.toml")
        done = run("optimise", "--program", PROGRAM, file, "--chains", bad)
        if done.returncode != 18 or "bad.toml:3:" not in done.stderr:
            sys.exit(f"a file of chains that is refused: {done.returncode} {done.stderr}")
    print(f"chains: {len(several)} systems, of which {sum(several)} have an order that meets, and each is found")


# two resources, of which the first is asked for 5/4 + 5/4000 of its time, and the second one for all of it
TOO_MUCH = """format = 2
resource = [{ name = "one", kind = "preemptive" }, { name = "two", kind = "preemptive" }]
source = [{ name = "s", period = 4 }, { name = "r", period = 4000 }, { name = "q", period = 40 }]
task = [
  { name = "a", on = "one", after = "s", best = 1, worst = 3, priority = 2 },
  { name = "b", on = "one", after = ["s", "r"], best = 1, worst = 2, priority = 1 },
  { name = "c", on = "one", after = "r", best = 1, worst = 3, priority = 0 },
  { name = "d", on = "two", after = "q", best = 1, worst = 40, priority = 0 },
]
"""


def check_overloaded():
    """Where a resource is asked for more than all of the time nothing is searched, and the load is told."""
    with tempfile.TemporaryDirectory() as room:
        file = written(room, "too_much.toml", TOO_MUCH)
        done = run("optimise", "--program", PROGRAM, file)
        told = json.loads(run("optimise", "--program", PROGRAM, file, "--json").stdout)
        with open(file, "w", encoding="ascii") as it:
            # all of the time, and no more
            it.write(TOO_MUCH.replace("worst = 3", "worst = 1").replace("period = 4000", "period = 400"))
        full = json.loads(run("optimise", "--program", PROGRAM, file, "--json", "--rounds", "1").stdout)
    # 3/4 + 2/4 + 2/4000 + 3/4000
    if done.returncode != 3 or "no order can do: the utilisation of one is 125.2 %" not in done.stdout:
        sys.exit(f"too much work: {done.returncode} {done.stdout} {done.stderr}")
    if "not found after 1 order" not in done.stdout or "may be an order" in done.stdout or "two is" in done.stdout:
        sys.exit(f"too much work: {done.stdout}")
    if told["found"] or told["orders"] != 1 or told["overloaded"] != {"one": 1.25125}:
        sys.exit(f"too much work: {told}")
    if full["overloaded"]:
        sys.exit(f"no more than all of the time: {full}")


def check_without_orders():
    """Where no two tasks of a resource have priorities, one order is looked at, and no more: here a queue before a
    processor with one task. The path takes 3 ticks of its task, and its deadline is 2."""
    text = """format = 4
resource = [{ name = "gate", kind = "fifo" }, { name = "cpu", kind = "preemptive" }]
source = [{ name = "s", period = 10 }]
task = [
  { name = "a", on = "gate", after = "s", best = 1, worst = 3 },
  { name = "b", on = "cpu", after = "a", best = 1, worst = 1, priority = 1 },
]
path = [{ name = "p", tasks = ["a"], deadline = 2 }]
"""
    with tempfile.TemporaryDirectory() as room:
        file = written(room, "queue.toml", text)
        done = run("optimise", "--program", PROGRAM, file)
    wanted = "not found after 1 order, the best by the order of the file: p misses its deadline by 1"
    told = "no order can do: no two tasks of a resource have priorities that could change places"
    if done.returncode != 3 or wanted not in done.stdout or told not in done.stdout:
        sys.exit(f"no orders: {done.returncode} {done.stdout} {done.stderr}")


def main():
    reader = reader_of(__doc__, "10 2", NEEDS_PROGRAM)
    add_number(reader, "small", 100, "how many small systems")
    add_number(reader, "large", 20, "how many large ones of each kind")
    add_number(reader, "first", 0, "the number to begin with, which makes other systems")
    words = reader.parse_args()
    check_calls()
    check_overloaded()
    check_without_orders()
    check_chains(max(2, words.small // 5), words.first)
    kinds = [("small", False, words.small, 0.8)]
    kinds += [(f"large, from {tight} of the deadline on", True, words.large, tight) for tight in TIGHT]
    with tempfile.TemporaryDirectory() as room:
        for what, large, count, tight in kinds:
            rows = [looked_at(number, large, tight, room) for number in range(words.first, words.first + count)]
            if rows:
                show(what, rows)


if __name__ == "__main__":
    main()
