#!/usr/bin/env python3
"""Holds the answers of `lokwurmi assign` against all orders there are, over small random systems.

Each system has 3 to 6 tasks on a preemptive or a CAN resource, with jitter and deadlines; in every third one some
tasks come after two or three sources, and in every other one those of a processor have regions. Every other processor
has priority ceilings, and its tasks locks, which take the place of their regions. Every order of them is written into
the file as priorities and given to `lokwurmi analyse`, the best first: an order is better than another where the task
in the last place, or else in the last place in which they differ, stands earlier in the file. The answer has to be
the first order under which each path over one of the tasks is met, with status 0, or `none` with status 3 where there
is no such order. Counts too where the order of rising deadlines misses one and another order meets. The same is tried
of examples/deadline_order.toml, and of the SAE benchmark: that its answer is met, that it is the published order
where the tasks are listed from the least urgent on, and that there is none where a bit takes 9 ticks.
Ends with 1 at the first answer that is another.

    python3 -m tests.against_rules.check_orders [NUMBER of systems, 300 if absent] [NUMBER to begin with, 0 if absent]
"""
import itertools
import os
import random
import re
import sys

from tests.support.calls import TOP, answer, built, range_of
from tests.support.systems import quoted_locks, some_locks, some_region

PROGRAM = built("cpa_cli")


def sections_of(number, kind, worst):
    """The kind of the resource, and what its tasks have in their lines besides: regions and locks, by draws of their
    own."""
    if kind == "can":
        return kind, [""] * len(worst)
    draw, has_regions = random.Random(f"regions of {number}"), number % 2 == 1
    found = [f", region = {some_region(draw, it)}" if has_regions else "" for it in worst]
    if number % 4 < 2:
        return kind, found
    draw = random.Random(f"locks of {number}")
    locks = [some_locks(draw, "r", it, ("a", "b", "c")[: draw.randint(1, 3)]) for it in worst]
    return "ceiling", [f", locks = {quoted_locks(it)}" if it else region for it, region in zip(locks, found)]


def made_system(number):
    """A random system, and its deadlines by the names of the tasks."""
    pick = random.Random(number)
    count, kind = pick.randint(3, 6), pick.choice(["preemptive", "can"])
    worst = [pick.randint(2, 20) for _ in range(count)]
    numbers = pick.sample(range(40), count)
    deadlines = {}
    after = [[k] for k in range(count)]
    if number % 3 == 2:
        after = [pick.sample(range(count), min(count, pick.randint(1, 3))) for _ in range(count)]
    kind, sections = sections_of(number, kind, worst)
    is_later = kind == "ceiling" or any(sections)
    lines = [f"format = {4 if is_later else 1 if all(len(several) == 1 for several in after) else 2}"]
    lines += [f'resource = [{{ name = "r", kind = "{kind}", limit = 20000 }}]', "source = ["]
    for k in range(count):
        # what all tasks after it ask for at each event, of which each is to use about its part of the time
        asked = sum(worst[i] for i in range(count) if k in after[i])
        period = round(max(asked, 1) * count * pick.uniform(1, 2.2))
        jitter = pick.choice([0, 0, pick.randint(0, period), pick.randint(0, 2 * period)])
        lines.append(
            f'{{ name = "s{k}", period = {period}, jitter = {jitter}, distance = {pick.choice([0, period // 3])} }},'
        )
    lines += ["]", "task = ["]
    for k in range(count):
        names = ", ".join(f'"s{j}"' for j in after[k])
        names = names if len(after[k]) == 1 else f"[{names}]"
        lines.append(
            f'{{ name = "t{k}", on = "r", after = {names}, best = 1, worst = {worst[k]}, priority = {numbers[k]}'
            f"{sections[k]} }},"
        )
    lines += ["]", "path = ["]
    for k in range(count):
        # at times none, and at times two, of which the least counts
        for _ in range(pick.choice([0, 1, 1, 1, 1, 1, 1, 2])):
            most = 2 * sum(ticks * len(several) for ticks, several in zip(worst, after))
            deadline = pick.randint(worst[k] + max(worst) // 2, most)
            lines.append(f'{{ name = "d{len(lines)}", tasks = ["t{k}"], deadline = {deadline} }},')
            deadlines[f"t{k}"] = min(deadline, deadlines.get(f"t{k}", deadline))
    return "\n".join(lines + ["]"]) + "\n", deadlines


def tasks_of(text, resource):
    """The tasks on a resource in the order of the file, with their priorities; each stands on a line of its own."""
    found = re.findall(rf'name = "([^"]*)", on = "{resource}",.* priority = (\d+)', text)
    return {name: int(number) for name, number in found}


def with_order(text, resource, order):
    """The file with the priorities of the resource given to its tasks in this order, highest first."""
    for name, number in zip(order, sorted(tasks_of(text, resource).values())):
        text = re.sub(rf'(name = "{name}", on = "{resource}",.* priority = )\d+', rf"\g<1>{number}", text)
    return text


def meets(text, resource, order):
    """Whether each path over one task of the resource is met under the order."""
    written = with_order(text, resource, order)
    alone = re.findall(r'name = "([^"]*)", tasks = \["([^"]*)"\], deadline', written)
    wanted = {path for path, task in alone if task in order}
    told = dict(re.findall(r"^path (\S+) .* (\w+)$", answer(PROGRAM, written, "analyse")[1], re.M))
    return all(told[path] == "met" for path in wanted)


def wanted_answer(text, resource, order):
    """What has to be answered for this order."""
    if order is None:
        return 3, f"none {resource}\n"
    numbers = sorted(tasks_of(text, resource).values())
    lines = [f"priority {name} {number}\n" for name, number in zip(order, numbers)]
    return 0, "".join(lines) + f"assigned {resource} tasks {len(order)}\n"


def best_order(text, resource):
    """The first order that meets, by trying one after the other, and how many were tried."""
    tried = 0
    for from_last in itertools.permutations(tasks_of(text, resource)):
        tried += 1
        if meets(text, resource, from_last[::-1]):
            return from_last[::-1], tried
    return None, tried


def hold(what, text, resource, order):
    got = answer(PROGRAM, text, "assign", resource)
    if got != wanted_answer(text, resource, order):
        print(f"{what} differs:\n{text}\nby trying: {wanted_answer(text, resource, order)}\nby the program: {got}")
        sys.exit(1)


def sae():
    with open(os.path.join(TOP, "examples/sae_can.toml"), encoding="utf-8") as file:
        text = file.read()
    published = list(tasks_of(text, "can"))
    status, told = answer(PROGRAM, text, "assign", "can")
    order = re.findall(r"^priority (\S+)", told, re.M)
    lines = re.findall(r'^  \{ name = "m.*\n', text, re.M)
    turned = text.replace("".join(lines), "".join(reversed(lines)))
    hold("the SAE benchmark from the least urgent on", turned, "can", published)
    hold("the SAE benchmark with a bit of 9 ticks", text.replace("bit = 8", "bit = 9"), "can", None)
    if status or sorted(order) != sorted(published) or not meets(text, "can", order):
        print(f"the SAE benchmark: no order that meets\n{told}")
        sys.exit(1)
    print(f"the SAE benchmark: {' '.join(order)}")


def main():
    numbers = range_of(__doc__, 300)
    with open(os.path.join(TOP, "examples/deadline_order.toml"), encoding="utf-8") as file:
        text = file.read()
    meeting = [order for order in itertools.permutations(tasks_of(text, "cpu")) if meets(text, "cpu", order)]
    print(f"deadline_order.toml: of all orders there meet {[' '.join(order) for order in meeting]}")
    hold("deadline_order.toml", text, "cpu", best_order(text, "cpu")[0])
    sae()
    none, several, regions, locks, tried, failing, first = 0, 0, 0, 0, 0, 0, None
    for number in numbers:
        text, deadlines = made_system(number)
        order, looked = best_order(text, "r")
        hold(f"system {number}", text, "r", order)
        tried += looked
        none += order is None
        several += "after = [" in text
        regions += "region = " in text
        locks += "locks = " in text
        rising = sorted(tasks_of(text, "r"), key=lambda name: deadlines.get(name, float("inf")))
        if order is not None and not meets(text, "r", rising):
            failing += 1
            first = number if first is None else first
    print(
        f"{len(numbers)} answers as by trying all orders, {none} of them that none meets, {several} of tasks after"
        f" several sources, {regions} of tasks with regions, {locks} of tasks with locks; {tried} orders tried"
    )
    print(f"rising deadlines miss one where another order meets: {failing} times, first in system {first}")


if __name__ == "__main__":
    main()
