#!/usr/bin/env python3
"""Measures how long `lokwurmi analyse` takes from a system file to its report, and how much memory.

Makes the largest allowed systems of each kind and of all kinds mixed (64 resources, 512 tasks in chains of 8), once
with chains that follow the order of the resources and once with chains that cross in cycles, and three cycles of two
chains on two resources with a limit of 10,000,000 ticks: one that settles, and two that climb until they are
overloaded, in leaps and by some ninety ticks a round. With them go systems with all 512 tasks on one resource of each
kind, in chains of 32, and the car network of examples/. Prints a line a system: the least time of some calls, the peak
memory, the last line.

    python3 -m bench.time_analyse [NAME ..]
"""
import os
import subprocess
import tempfile
import time

from bench.timing import names_of
from tests.support.calls import TOP, written

PROGRAM = os.path.join(TOP, "crates/cpa_cli/out/cpa_cli")
KINDS = {"preemptive": "preemptive", "round-robin": "round-robin", "tdma": "tdma", "can": "can"}


def place_in_order(chain, step):
    """The resource of a step where chains go from each eight resources to the next eight."""
    return 8 * step + chain % 8


def place_in_cycles(chain, step):
    """The resource of a step where chains go around all resources, so that each depends on each."""
    return (chain + 11 * step) % 64


def in_chains(kind_of, period_of, place, numbers_of):
    """The rows of 64 resources, told by their keys behind the name, and of 512 tasks in 64 chains of 8, by what they
    take and their turns."""
    text = [
        "format = 1",
        "resource = [",
        *(f'{{ name = "r{r}", {kind_of(r)} }},' for r in range(64)),
        "]",
        "source = [",
    ]
    text += [f'{{ name = "s{c}", period = {period_of(c)}, jitter = {50 * (c % 9)} }},' for c in range(64)]
    text += ["]", "task = ["]
    for c in range(64):
        for k in range(8):
            after = f"t{c}.{k - 1}" if k else f"s{c}"
            text.append(f'{{ name = "t{c}.{k}", on = "r{place(c, k)}", after = "{after}", {numbers_of(c, k)} }},')
    return [*text, "]"]


def largest(kinds, place):
    """64 resources, 512 tasks in 64 chains of 8, 64 paths over whole chains."""

    def numbers_of(chain, step):
        worst, kind = 100 + 7 * ((chain + step) % 30), kinds[place(chain, step) % len(kinds)]
        turn = f"slot = {worst}" if kind in ("round-robin", "tdma") else f"priority = {10 * step + chain}"
        return f"best = {worst // 2}, worst = {worst}, {turn}"

    text = in_chains(lambda r: f'kind = "{kinds[r % len(kinds)]}"', lambda c: 10000 + 10 * c, place, numbers_of)
    text.append("path = [")
    for c in range(64):
        tasks = ", ".join(f'"t{c}.{k}"' for k in range(8))
        text.append(f'{{ name = "p{c}", tasks = [{tasks}], deadline = 1000000 }},')
    return "\n".join(text + ["]"]) + "\n"


def on_one(kind):
    """512 tasks in 16 chains of 32 on one resource."""
    text = ["format = 1", f'resource = [{{ name = "r", kind = "{kind}", limit = 10000000 }}]', "source = ["]
    text += [f'{{ name = "s{c}", period = {20000 + 10 * c} }},' for c in range(16)]
    text += ["]", "task = ["]
    for c in range(16):
        for k in range(32):
            after = f"t{c}.{k - 1}" if k else f"s{c}"
            turn = "slot = 3" if kind in ("round-robin", "tdma") else f"priority = {16 * k + c}"
            text.append(
                f'{{ name = "t{c}.{k}", on = "r", after = "{after}", best = 1, worst = {1 + (c + k) % 3}, {turn} }},'
            )
    return "\n".join(text + ["]"]) + "\n"


def crossing(first, second):
    """Two chains that cross on two preemptive resources, with these greatest executions of their first and second
    tasks."""
    return f"""format = 1
resource = [
  {{ name = "p", kind = "preemptive", limit = 10000000 }},
  {{ name = "q", kind = "preemptive", limit = 10000000 }},
]
source = [{{ name = "sa", period = 100 }}, {{ name = "sb", period = 100 }}]
task = [
  {{ name = "a1", on = "p", after = "sa", best = 1, worst = {first}, priority = 2 }},
  {{ name = "a2", on = "q", after = "a1", best = 1, worst = {second}, priority = 1 }},
  {{ name = "b1", on = "q", after = "sb", best = 1, worst = {first}, priority = 2 }},
  {{ name = "b2", on = "p", after = "b1", best = 1, worst = {second}, priority = 1 }},
]
"""


def car_network():
    with open(os.path.join(TOP, "examples/car_network.toml")) as file:
        return file.read()


def systems():
    made = {"car-network": car_network}
    for name, kind in KINDS.items():
        made[f"{name}-in-order"] = lambda kind=kind: largest([kind], place_in_order)
        made[f"{name}-in-cycles"] = lambda kind=kind: largest([kind], place_in_cycles)
    made["mixed-in-order"] = lambda: largest(list(KINDS.values()), place_in_order)
    made["mixed-in-cycles"] = lambda: largest(list(KINDS.values()), place_in_cycles)
    for name, kind in KINDS.items():
        made[f"{name}-on-one"] = lambda kind=kind: on_one(kind)
    made["cycle-settles"] = lambda: crossing(50, 49)
    made["cycle-climbs-in-leaps"] = lambda: crossing(30, 60)
    made["cycle-climbs-slowly"] = lambda: crossing(45, 50)
    return made


def call(path):
    begin = time.perf_counter()
    done = subprocess.run(["/usr/bin/time", "-f", "%M", PROGRAM, "analyse", path], capture_output=True, check=False)
    took = time.perf_counter() - begin
    return took, done.stderr.decode().split()[-1], done.stdout.decode().strip().split("\n")[-1]


def main():
    made = systems()
    names = names_of(__doc__, list(made))
    subprocess.run(
        [os.path.join(TOP, "lokwurmi"), "analyse", os.path.join(TOP, "examples", "two_tasks.toml")],
        capture_output=True,
        check=False,
    )
    print(f"processors: {os.cpu_count()}")
    with tempfile.TemporaryDirectory() as folder:
        for name in names:
            path = written(folder, "sys", made[name]())
            runs = [call(path)]
            while len(runs) < 5 and runs[0][0] < 2:
                runs.append(call(path))
            print(f"{name}: {min(run[0] for run in runs):.4f} s, {runs[0][1]} KiB, {runs[0][2]}", flush=True)


if __name__ == "__main__":
    main()
