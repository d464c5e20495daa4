"""A campaign over what a grid varies, as a table."""
import csv
import hashlib
import itertools
import math
import sys
from collections.abc import Iterator
from typing import Any

from lokwurmi.model.limits import MOST_PRIORITY
from lokwurmi.model.view import SystemView
from lokwurmi.refusals.remark import printable
from lokwurmi_tools.campaigns.campaign_faults import Wrong
from lokwurmi_tools.campaigns.campaign_options import VariantOptions
from lokwurmi_tools.campaigns.engine import Unit, run
from lokwurmi_tools.campaigns.grids import Entry, columns_of, fronted, read_grid, row_of, script_of
from lokwurmi_tools.campaigns.kept import KeptAnswers
from lokwurmi_tools.shared.system_file import clock_words_of, read_system

# how many variants a campaign may have, and how many sessions a worker is handed at once
MOST_VARIANTS, TOGETHER = 100_000, 25


class Variants:
    """The variants of a grid, with the script of each and what is kept of it."""

    def __init__(self, grid: list[Entry], view: SystemView, kept: KeptAnswers):
        self.grid, self.kept = grid, kept
        taken = {it.priority for it in view.tasks.values()} | {
            it for entry in grid if entry.key == "priority" for it in entry.values
        }
        spare = list(itertools.islice((it for it in range(MOST_PRIORITY, 0, -1) if it not in taken), len(grid)))
        self.chosen = list(itertools.product(*(range(len(it.values)) for it in grid)))
        self.scripts = [script_of(grid, it, view, spare) for it in self.chosen]
        self.keys = ["session " + hashlib.sha256(it.encode()).hexdigest()[:32] for it in self.scripts]

    def units(self) -> list[Unit]:
        """A call for each script, once."""
        return [(key, 1, ("session", [], script)) for key, script in dict(zip(self.keys, self.scripts)).items()]

    def rows(self) -> Iterator[dict[str, Any]]:
        for number, (chosen, key, script) in enumerate(zip(self.chosen, self.keys, self.scripts), 1):
            status, text = self.kept[key]
            verdict, refused, found = row_of(status, text, script)
            # the bounds of what an edit was kept from aren't those of the variant
            bounds = {name: "" if verdict == "refused" else it for name, it in found.items()}
            cost = sum(entry.costs[place] for entry, place in zip(self.grid, chosen))
            own = {entry.label: entry.shown(place) for entry, place in zip(self.grid, chosen)}
            yield {
                "variant": number,
                **own,
                "verdict": verdict,
                "refused": refused,
                "cost": f"{cost:.12g}" if isinstance(cost, float) else cost,
                **bounds,
            }


def variants(options: VariantOptions, kept: KeptAnswers) -> int:
    view = read_system(options.file)
    grid = read_grid(options.grid, view)
    front = columns_of(options.front, grid, view) if options.front else None
    count = math.prod(len(it.values) for it in grid)
    if count > MOST_VARIANTS:
        raise Wrong(
            f"{options.grid}: there are {count} combinations, and there may be {MOST_VARIANTS}: cut it into several"
        )
    all_of = Variants(grid, view, kept)
    run(options, "variants", all_of.units(), kept, together=TOGETHER)
    columns = dict.fromkeys(key for row in all_of.rows() for key in row)
    marked = fronted(all_of.rows(), *front) if front else set()
    table = csv.DictWriter(sys.stdout, [*columns, *(["front"] if front else [])], restval="", lineterminator="\n")
    table.writeheader()
    for place, row in enumerate(all_of.rows()):
        table.writerow(row | ({"front": int(place in marked)} if front else {}))
    for it in clock_words_of(view):
        print(f"{printable(options.file)}: notice: {it}", file=sys.stderr)
    return 0
