"""Systems at random, of all kinds, most of them accepted; what is said of files, and bounds by the plain rules."""
from random import Random
from typing import Any

from lokwurmi import Kind, Lock, Resource, System
from lokwurmi.files.documents import Document, activators, values_in
from lokwurmi.model.entries import keys_of
from lokwurmi.model.view import SystemView
from lokwurmi.refusals.rules import first_refusal
from tests.rules.bounds import OVERLOAD
from tests.rules.bounds import System as Rules
from tests.support.systems import file_of

FAULTS = [
    ("best", 0),
    ("worst", 1_000_001),
    ("on", "nowhere"),
    ("after", "nothing"),
    ("after", []),
    ("priority", -1),
    ("slot", 0),
    ("payload", 9),
    ("name", "a b"),
    ("after", None),
    ("best", "1"),
    ("worst", 1.5),
    ("name", "s0"),
    ("extended", True),
    ("priority", None),
    ("name", '\u00e4\x7f\t"\\'),
]
"""What makes a task wrong: a key and a value; where it comes after None, it comes after itself."""


# a system, the plain rules over it, a view of it, and its bounds
Bounded = tuple[dict[str, Any], Rules, SystemView, dict[str, int | None]]


def with_bounds(system: dict[str, Any]) -> Bounded:
    """A system of the plain rules with its bounds by them."""
    text = file_of(system)
    rules = Rules(text)
    bounds = {name: None if it == OVERLOAD else it for name, it in rules.least_solution().items()}
    return system, rules, SystemView.of(values_in(text)), bounds


def view_of(system: System) -> SystemView:
    """The view of the file of a system."""
    return SystemView.of(values_in(system.to_toml()))


def told_of(text: str) -> tuple[str, str, str]:
    """The line of the refusal of a file, what is said, and what helps; nothing where it is a system."""
    found = first_refusal(Document(text))
    return (found.line.removeprefix("system refused "), found.remark.says, found.remark.helps) if found else ("",) * 3


def random_system(draw: Random, faulty: float = 0.1) -> System:
    """A system of up to 6 resources and 14 tasks; of so many a part is made wrong at one place."""
    system = System()
    resources = [
        system.resource(f"r{k}", draw.choice(list(Kind)), limit=draw.choice([None, None, 5000]))
        for k in range(draw.randint(1, 6))
    ]
    for it in resources:
        if it.kind == Kind.TDMA and draw.random() < 0.5:
            it.gap = draw.randint(0, 20)
        if it.kind == Kind.CAN and draw.random() < 0.5:
            it.bit = draw.randint(1, 2)
    add_sources(draw, system)
    priorities = list(range(40))
    draw.shuffle(priorities)
    for k in range(draw.randint(0, 14)):
        add_task(draw, system, f"t{k}", draw.choice(resources), priorities[k])
    add_paths(draw, system)
    if system.tasks and draw.random() < faulty:
        task = draw.choice(list(system.tasks.values()))
        name, value = draw.choice(FAULTS)
        setattr(task, name, task.name if (name, value) == ("after", None) else value)
    return system


def add_sources(draw: Random, system: System) -> None:
    for k in range(draw.randint(1, 5)):
        period = draw.choice([50, 100, 200, 250, 500, 1000])
        jitter = draw.choice([None, 0, draw.randint(0, 2 * period)])
        system.source(f"s{k}", period, jitter=jitter, distance=draw.choice([None, draw.randint(0, period // 2)]))


def add_task(draw: Random, system: System, name: str, on: Resource, priority: int) -> None:
    before = [*system.sources, *system.tasks]
    after = draw.choice(before) if draw.random() < 0.8 else draw.sample(before, min(len(before), draw.randint(1, 3)))
    task = system.task(name, on=on, after=after)
    if on.kind == Kind.CAN and draw.random() < 0.7:
        task.payload = draw.randint(0, 8)
        task.extended = draw.choice([None, True, False])
    else:
        task.best = draw.randint(1, 10)
        task.worst = task.best + draw.randint(0, 20)
    if on.kind in (Kind.PREEMPTIVE, Kind.CAN, Kind.CEILING):
        task.priority = priority
    elif on.kind != Kind.FIFO:
        task.slot = draw.randint(1, 20)
    if on.kind == Kind.CEILING and draw.random() < 0.7:
        task.locks = [Lock(f"{on.name}.{draw.choice('xy')}", draw.randint(0, 10), draw.randint(1, 20))]


def add_paths(draw: Random, system: System) -> None:
    count = draw.randint(0, 3)
    for k in range(count if system.tasks else 0):
        chain = [draw.choice(list(system.tasks))]
        while True:
            behind = [it.name for it in system.tasks.values() if chain[-1] in activators(keys_of(it))]
            if not behind or draw.random() < 0.2:
                break
            chain.append(draw.choice(behind))
        system.path(f"p{k}", chain, deadline=draw.choice([None, draw.randint(1, 500)]))


def random_edit(draw: Random, system: System) -> str:
    """A line of a script for a system, which may break a rule."""
    tasks = list(system.tasks) or ["t0"]
    one, other = draw.choice(tasks), draw.choice([*tasks, "nobody"])
    source = draw.choice(list(system.sources))
    period = draw.choice([100, 200, 500])
    low = draw.randint(1, 10)
    return draw.choice(
        [
            f"exec {other} {low} {low + draw.randint(-1, 20)}",
            f"priority {one} {draw.randint(0, 60)}",
            f"swap {one} {other}",
            f"slot {one} {draw.randint(0, 20)}",
            f"source {source} {period} {draw.randint(0, 300)} {draw.randint(0, 100)}",
            f"add n{draw.randint(0, 3)} {draw.choice(list(system.resources))} {draw.choice([source, one])} {low} 13"
            f" {draw.randint(1, 60)}",
            f"remove {one}",
        ]
    )
