#!/usr/bin/env python3
"""Times `lokwurmi assign` on 64 and on 512 tasks of one resource, and `lokwurmi slack` of the tasks of the car network.

The deadlines are the bounds under the order of the file, of all 64 tasks, or of 128 of the 512, since there are at most
128 paths. In one form the tasks stand in the file in the order of their priorities, so that at each place nearly all
tasks that have none yet are tried in vain; in the other they stand the other way round, and the first that is tried is
in time. In a third, in the order of the first, the second of the tasks with a deadline meets it nowhere, which shows
where the lower places are all taken. Two systems more ask for more than there is, so that the windows of the lower
places grow up to the limit, and the tasks with a deadline are the first of the file: one with the limit that a resource
has by default, one with the greatest. Prints the least seconds of some whole calls, the peak memory, and the last line.

    python3 -m bench.time_orders [FORM ..]
"""
import os
import re
import subprocess
import tempfile

from bench.timing import least, names_of
from tests.support.calls import TOP, built, written

PROGRAM = built("cpa_cli")


def system(kind, count, turned, deadlines, share=6, limit=10_000_000):
    """So many tasks on a resource, with executions of 1 to 10 ticks. With a share of 6 the load is 87 % with 64 tasks
    and 85 % with 512, with a share of 5 it is 100.3 % with 512."""
    sources = min(count, 128)
    text = ["format = 1", f'resource = [{{ name = "r", kind = "{kind}", limit = {limit} }}]', "source = ["]
    text += [
        f'{{ name = "s{k}", period = {share * count + k * count // 128}, jitter = {50 * (k % 9)} }},'
        for k in range(sources)
    ]
    tasks = [
        f'{{ name = "t{k}", on = "r", after = "s{k % sources}", best = 1, worst = {1 + k * 7 % 10}, priority = {k} }},'
        for k in range(count)
    ]
    text += ["]", "task = [", *(reversed(tasks) if turned else tasks), "]", "path = ["]
    text += [f'{{ name = "d{k}", tasks = ["t{k}"], deadline = {deadline} }},' for k, deadline in deadlines.items()]
    return "\n".join(text + ["]"]) + "\n"


def bounds(folder, kind, count):
    """The bounds of the tasks, by the priorities that they have."""
    path = written(folder, "bounds", system(kind, count, False, {}))
    told = subprocess.run([PROGRAM, "analyse", path], capture_output=True, text=True, check=False).stdout
    return {int(k): int(bound) for k, bound in re.findall(r"^task t(\d+) .* worst (\d+)$", told, re.M)}


FORMS = [
    f"{kind}-{count}-{form}"
    for kind in ("preemptive", "can")
    for count in (64, 512)
    for form in ("last-in-time", "first-in-time", "none")
] + ["preemptive-512-overloaded", "preemptive-512-overloaded-long"]


def forms(folder):
    made = {}
    for kind in ("preemptive", "can"):
        for count in (64, 512):
            # The tasks with a deadline are spread over all places.
            held = {k: bound for k, bound in bounds(folder, kind, count).items() if k % (count // min(count, 128)) == 0}
            name = f"{kind}-{count}"
            made[f"{name}-last-in-time"] = system(kind, count, False, held)
            made[f"{name}-first-in-time"] = system(kind, count, True, held)
            made[f"{name}-none"] = system(kind, count, False, {**held, list(held)[1]: 1})
    first = {k: 30_000 for k in range(128)}
    made["preemptive-512-overloaded"] = system("preemptive", 512, False, first, 5, 1_000_000)
    made["preemptive-512-overloaded-long"] = system("preemptive", 512, False, first, 5)
    return made


def main():
    names = names_of(__doc__, FORMS)
    with tempfile.TemporaryDirectory() as folder:
        made = forms(folder)
        for name in names:
            path = written(folder, "system", made[name])
            seconds, peak, last = least(
                [PROGRAM, "assign", path, "r"], 5 if "64" in name else 1 if "long" in name else 2
            )
            print(f"{name}: {seconds:.4f} s, {peak:.1f} MB, {last}", flush=True)
    car = os.path.join(TOP, "examples/car_network.toml")
    with open(car, encoding="utf-8") as file:
        tasks = re.findall(r'name = "([^"]*)", on = ', file.read())
    slacks = {task: least([PROGRAM, "slack", car, task], 5) for task in tasks}
    for what, task in (("least", min(slacks, key=slacks.get)), ("greatest", max(slacks, key=slacks.get))):
        seconds, peak, last = slacks[task]
        print(f"slack of {len(tasks)} tasks of the car network, the {what}: {seconds:.4f} s, {peak:.1f} MB, {last}")


if __name__ == "__main__":
    main()
