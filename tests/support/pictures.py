"""Pictures that tools draw, as their checks look at them, and what stands in files beside them."""
import os
import re
import xml.etree.ElementTree

from tests.support.calls import hold, run

SVG = "{http://www.w3.org/2000/svg}"


def gantt(room, *words, given=None):
    """The texts of a Gantt chart, its bars from left to right in points, each with its height, and how many marks it
    has."""
    picture = os.path.join(room, "gantt.svg")
    done = run("gantt", *words, "--to", picture, given=given)
    hold(done.returncode == 0 and not done.stderr, f"gantt {words}: {done.stderr}")
    tree = xml.etree.ElementTree.parse(picture)
    bars, marks = [], 0
    for group in tree.iter(f"{SVG}g"):
        if group.get("id", "").startswith("PatchCollection"):
            # a single bar is defined and then used, which moves it down
            down = sum(float(it.get("y")) for it in group.iter(f"{SVG}use"))
            for path in group.iter(f"{SVG}path"):
                points = [tuple(map(float, it)) for it in re.findall(r"[ML] (\S+) (\S+)", path.get("d"))]
                bars.append(
                    (min(x for x, _ in points), max(x for x, _ in points), round(min(y for _, y in points) + down, 2))
                )
        elif group.get("id", "").startswith("PathCollection"):
            marks += sum(1 for _ in group.iter(f"{SVG}use"))
    return ["".join(it.itertext()).strip() for it in tree.iter(f"{SVG}text")], sorted(bars), marks


def lines_of(file):
    with open(file, encoding="ascii") as it:
        return it.read().splitlines()
