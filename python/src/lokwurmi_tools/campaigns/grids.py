"""What a grid of variants varies, the script of each variant, and the row that a session over it brings: for
campaign.py."""
import contextlib
import itertools
import math
import tomllib
from collections.abc import Iterable, Sequence
from typing import Any

from lokwurmi.errors import Unreadable
from lokwurmi.files.text_files import reason_of
from lokwurmi.model.view import SystemView
from lokwurmi.results.reports import reports
from lokwurmi_tools.campaigns.campaign_faults import Wrong

KEYS = {
    "task": ("best", "worst", "execution", "priority", "slot"),
    "source": ("period", "jitter", "distance", "offset"),
}
# the columns that each table has
OWN = ("variant", "verdict", "refused", "cost", "front")


def is_number(it: Any) -> bool:
    return isinstance(it, int) and not isinstance(it, bool) and 0 <= it < 10**10


def is_cost(it: Any) -> bool:
    return isinstance(it, (int, float)) and not isinstance(it, bool) and abs(it) <= 10**15


def is_pair(it: Any) -> bool:
    return isinstance(it, list) and len(it) == 2 and all(map(is_number, it))


def is_script(it: Any) -> bool:
    return isinstance(it, str) and it.isascii()


class Entry:
    """What an entry of a grid varies: the label of its column, whose value it is (None of scripts), which key, the
    values, and what each of them costs."""

    who: tuple[str, str] | None

    def __init__(self, place: int, given: dict[str, Any], names: dict[str, list[str]]):
        self.place = place
        entry = dict(given)
        costs, label = entry.pop("costs", None), entry.pop("label", None)
        if set(entry) == {"scripts"}:
            self.take_scripts(entry["scripts"])
        else:
            self.take_numbers(entry, names)
        self.hold(self.values, "has no value")
        self.costs = [0] * len(self.values) if costs is None else costs
        self.hold(
            isinstance(self.costs, list) and len(self.costs) == len(self.values) and all(map(is_cost, self.costs)),
            f"costs is a list of {len(self.values)} numbers, one for each value",
        )
        self.label = label if label is not None else f"{self.who[1]}.{self.key}" if self.who else f"script{place}"
        self.hold(isinstance(self.label, str) and self.label, "label is a text")
        self.hold(
            self.label not in OWN and not self.label.startswith(("task.", "path.")),
            f"{self.label} is the name of another column: give the entry a label",
        )

    def take_scripts(self, texts: Any) -> None:
        """The texts of scripts."""
        self.who, self.key, self.values = None, "script", texts
        self.hold(
            isinstance(texts, list) and all(map(is_script, texts)),
            "scripts is a list of texts, each the lines of a script in ASCII",
        )
        self.hold(
            not any(it.split()[:1] == ["report"] for text in texts for it in text.splitlines()),
            "a script of a grid has no report: there is one at its end",
        )

    def take_numbers(self, entry: dict[str, Any], names: dict[str, list[str]]) -> None:
        """The values of a key of a task or of a source."""
        kind = next((it for it in KEYS if it in entry), "")
        keys = [it for it in entry if it != kind]
        self.hold(
            kind and len(keys) == 1 and keys[0] in KEYS[kind],
            "is scripts, or a task with one of best, worst, execution, priority, slot,"
            " or a source with one of period, jitter, distance, offset; besides, costs and label",
        )
        self.who, self.key, self.values = (kind, entry[kind]), keys[0], entry[keys[0]]
        self.hold(entry[kind] in names[kind], f"no {kind} of the system has the name {entry[kind]}")
        pairs = self.key == "execution"
        fits, what = (is_pair, "pairs [least, greatest] of numbers") if pairs else (is_number, "numbers")
        self.hold(isinstance(self.values, list) and all(map(fits, self.values)), f"{self.key} is a list of {what}")

    def hold(self, is_so: Any, why: str) -> None:
        if not is_so:
            raise ValueError(f"vary {self.place}: {why}")

    def varies(self) -> set[tuple[tuple[str, str], str]]:
        """What of the system it varies: of an execution both numbers."""
        return (
            {(self.who, it) for it in (("best", "worst") if self.key == "execution" else (self.key,))}
            if self.who
            else set()
        )

    def shown(self, place: int) -> Any:
        value = self.values[place]
        return place + 1 if self.key == "script" else "-".join(map(str, value)) if self.key == "execution" else value


def read_grid(file: str, view: SystemView) -> list[Entry]:
    """The entries of a grid."""
    try:
        with open(file, "rb") as source:
            grid = tomllib.load(source)
    except (OSError, ValueError) as fault:
        raise Wrong(f"{file}: can't be read: {reason_of(fault)}") from None
    if (
        set(grid) != {"vary"}
        or not isinstance(grid["vary"], list)
        or not all(isinstance(it, dict) for it in grid["vary"])
        or not grid["vary"]
    ):
        raise Wrong(f"{file}: a grid has entries [[vary]], and nothing else")
    names = {"task": list(view.tasks), "source": list(view.sources)}
    try:
        found: list[Entry] = []
        for place, it in enumerate(grid["vary"], 1):
            entry = Entry(place, it, names)
            for other in found:
                entry.hold(entry.label != other.label, f"{entry.label} is the label of vary {other.place} too")
                entry.hold(not entry.varies() & other.varies(), f"vary {other.place} varies the same")
            found.append(entry)
        return found
    except ValueError as fault:
        raise Wrong(f"{file}: {fault}") from None


def script_of(grid: list[Entry], chosen: Sequence[int], view: SystemView, spare: list[int]) -> str:
    """The script of a variant: an edit for each task and each source that it varies, then its scripts.

    Priorities go out of the way of each other first, to the spare ones.
    """
    executions: dict[str, list[int]] = {}
    turns: list[tuple[str, str, int]] = []
    events: dict[str, dict[str, int]] = {}
    offsets: list[str] = []
    scripts = []
    for entry, place in zip(grid, chosen):
        value = entry.values[place]
        if entry.who is None:
            scripts.append(value if value.endswith("\n") or not value else value + "\n")
            continue
        kind, name = entry.who
        if entry.key == "offset":
            offsets.append(f"offset {name} {value}")
        elif kind == "source":
            it = view.sources[name]
            given = {"period": it.period, "jitter": it.jitter, "distance": it.distance}
            events.setdefault(name, given)[entry.key] = value
        elif entry.key in ("priority", "slot"):
            turns.append((entry.key, name, value))
        else:
            now = executions.setdefault(name, list(view.executions(name)))
            if entry.key == "execution":
                now[:] = value
            else:
                now[entry.key == "worst"] = value
    lines = [f"exec {name} {least} {greatest}" for name, (least, greatest) in executions.items()]
    lines += [f"source {name} {it['period']} {it['jitter']} {it['distance']}" for name, it in events.items()] + offsets
    many = [name for key, name, _ in turns if key == "priority"]
    if len(many) > 1:
        lines += [f"priority {name} {it}" for name, it in zip(many, spare)]
    lines += [f"{key} {name} {value}" for key, name, value in turns]
    return "".join(it + "\n" for it in lines) + "".join(scripts)


VERDICTS = {0: "met", 1: "missed", 2: "overload"}


def row_of(status: int, text: str, script: str) -> tuple[str, str, dict[str, int | str]]:
    """The verdict of a variant, which of its edits was refused first, and its bounds and latencies, or `overload`, by
    the names of their columns."""
    try:
        report = reports(text)[-1]
    except Unreadable as fault:
        raise Wrong(f"session wrote no report: {text[:200]}") from fault
    refused = ""
    for line, rule in sorted(report.refused.items())[:1]:
        refused = f"{' '.join(script.split(chr(10))[line - 1].split())}: {rule}"
    bounds = {f"task.{name}": it.worst for name, it in report.tasks.items()}
    bounds |= {f"path.{name}": it.worst for name, it in report.paths.items()}
    cells: dict[str, int | str] = {column: "overload" if it is None else it for column, it in bounds.items()}
    return ("refused" if refused else VERDICTS[status]), refused, cells


def fronted(rows: Iterable[dict[str, Any]], latency: str, cost: str) -> set[int]:
    """The places of those rows that meet all deadlines than which no other is lower in one of two columns and at most
    as high in the other."""
    points = []
    for place, row in enumerate(rows):
        with contextlib.suppress(ValueError, TypeError, KeyError):
            if row["verdict"] == "met":
                points.append((float(row[latency]), float(row[cost]), place))
    best, marked = math.inf, set()
    for point, group in itertools.groupby(sorted(points), key=lambda it: it[:2]):
        if point[1] < best:
            best = point[1]
            marked |= {it[2] for it in group}
    return marked


def columns_of(front: str, grid: list[Entry], view: SystemView) -> list[str]:
    """The two columns that --front names."""
    names = front.split(",")
    added = [
        it.split()[1]
        for entry in grid
        if entry.who is None
        for text in entry.values
        for it in text.splitlines()
        if it.split()[:1] == ["add"] and len(it.split()) > 1
    ]
    there = [
        "cost",
        *(it.label for it in grid),
        *(f"path.{it}" for it in view.paths),
        *(f"task.{it}" for it in [*view.tasks, *added]),
    ]
    if len(names) != 2:
        raise Wrong(
            "--front takes two columns, as"
            f" --front {next((it for it in there if it.startswith('path.')), 'task.a')},cost"
        )
    found = [next((it for it in (name, "path." + name, "task." + name) if it in there), None) for name in names]
    if None in found:
        raise Wrong(f"--front: there is no column {names[found.index(None)]}; there are {', '.join(there)}")
    return [it for it in found if it is not None]
