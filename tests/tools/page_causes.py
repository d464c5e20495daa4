"""Pages of systems that are overloaded, and what is told of random ones."""
import os
import random
import tomllib

from lokwurmi.model.view import SystemView
from lokwurmi_tools.bounds.overload_causes import OverloadCauses
from lokwurmi_tools.shared.report import bounds_in, reports_in
from tests.support.calls import hold, written
from tests.support.systems import file_of, random_system
from tests.tools.pages import call

RANDOM = 150
PRIORITY = (
    'format = 1\nresource = [{ name = "cpu", kind = "preemptive", limit = LIMIT }]\n'
    'source = [{ name = "s", period = PERIOD }]\n'
)
TWO = (
    '{ name = "a", on = "cpu", after = "s", best = 6, worst = 6, priority = 1 }, '
    '{ name = "b", on = "cpu", after = "s", best = 6, worst = 6, priority = 2 }'
)
AFTER_B = ', { name = "c", on = "cpu", after = "b", best = 1, worst = 1, priority = 3 }'
TDMA = (
    'format = 1\nresource = [{ name = "ring", kind = "tdma", gap = 8 }]\nsource = [{ name = "s", period = PERIOD }]\n'
    'task = [{ name = "t", on = "ring", after = "s", best = 3, worst = 3, slot = 2 }]\n'
)
TURNS = (
    'format = 1\nresource = [{ name = "rr", kind = "round-robin" }]\n'
    'source = [{ name = "s", period = 10 }, { name = "l", period = 1000 }]\n'
    'task = [{ name = "a", on = "rr", after = "s", best = 6, worst = 6, slot = 2 }, '
    '{ name = "b", on = "rr", after = "s", best = 9, worst = 9, slot = 2 }, '
    '{ name = "c", on = "rr", after = "l", best = 1, worst = 1, slot = 2 }]\n'
)
QUEUE = (
    'format = 4\nresource = [{ name = "gate", kind = "fifo" }]\nsource = [{ name = "s", period = 10 }]\n'
    'task = [{ name = "a", on = "gate", after = "s", best = 6, worst = 6 }, '
    '{ name = "b", on = "gate", after = "s", best = 6, worst = 6 }]\n'
)
CASES = [
    (
        "too_much",
        PRIORITY.replace("LIMIT", "1000").replace("PERIOD", "10") + f"task = [{TWO}{AFTER_B}]\n",
        ["Too much work on cpu", "120.0 %", "Further tasks without a bound because of it: c"],
    ),
    (
        "short_limit",
        PRIORITY.replace("LIMIT", "8").replace("PERIOD", "100") + f"task = [{TWO}]\n",
        ["A long busy window on cpu", "limit of 8 ticks", "12.0 %"],
    ),
    ("short_slot", TDMA.replace("PERIOD", "10"), ["Too much work on ring", "its slot is 20.0 %"]),
    ("turns", TURNS, ["Too much work on rr", "each for its turns"]),
    ("queue", QUEUE, ["Too much work on gate", "by arrival", "120.0 %"]),
    ("empty", "format = 1\n", ["no tasks"]),
]


def check_cases(room, page_of):
    for name, text, wanted in CASES:
        page = page_of(name, written(room, name + ".toml", text))
        shown = page.run("document.body.innerText")
        for it in wanted:
            page.hold(it in shown, f"the page doesn't say {it!r}")
        page.hold_quiet()


def check_causes(room, program):
    """What is told of random systems that are overloaded."""
    draw, found = random.Random(1), {}
    file = os.path.join(room, "random.toml")
    for number in range(RANDOM):
        system = random_system(draw)
        for it in system["source"]:
            it["period"] = draw.randint(10, 90)
            it["distance"] = min(it["distance"], it["period"])
        texts = [file_of(system).replace("limit = 2000", f"limit = {limit}") for limit in (300, 30000)]
        low, high = (
            bounds_in(reports_in(call(program, "analyse", written(*os.path.split(file), text)), file)[-1])
            for text in texts
        )
        causes, over = OverloadCauses(SystemView.of(tomllib.loads(texts[0])), low).causes()
        hold(
            {it["name"] for it in over} == {name for name, it in low.items() if it is None},
            f"system {number}: not each task without a bound is told of",
        )
        covered = {name for it in causes for name in it["tasks"] + it["leaves"]}
        hold(
            covered == {it["name"] for it in over},
            f"system {number}: {covered} have a cause, and {[it['name'] for it in over]} no bound",
        )
        for it in causes:
            found[it["kind"]] = found.get(it["kind"], 0) + 1
            hold(
                it["kind"] != "load" or all(high[name] is None for name in it["tasks"]),
                f"system {number}: {it['tasks']} have a bound with a higher limit\n{texts[0]}",
            )
    hold(all(found.get(kind, 0) >= 5 for kind in ("load", "limit", "circle")), f"causes of each kind: {found}")
