"""Draws what bounds are made of, for lokwurmi explain: bars by matplotlib, a part after the other."""
import os
from typing import Any, NamedTuple

from lokwurmi.results.verdicts import PREMISE_WORDS
from lokwurmi_tools.bounds.bound_texts import note_of, percent, turn_of
from lokwurmi_tools.bounds.explained import Explained
from lokwurmi_tools.pictures.colours import letters_on, shades
from lokwurmi_tools.pictures.plotting import Patch, bare, begun, save
from lokwurmi_tools.shared.types import Values

# what isn't jobs of a task is grey or hatched
GREY, PALE, INK, MARK = "#c9d0d6", "#dce2e9", "#1c2733", "#c0392b"
HATCHES = {"blocking": "////", "slot": "....", "gap": "....", "turns": "\\\\\\\\"}
LEGEND = {
    "own": ("own executions", {"facecolor": PALE, "edgecolor": INK}),
    "rival": ("jobs of others", {"facecolor": "#9aa5b1"}),
    "frame": ("a lower frame, under way", {"facecolor": PALE, "hatch": HATCHES["blocking"]}),
    "region": ("the rest of a lower region", {"facecolor": PALE, "hatch": HATCHES["blocking"]}),
    "section": ("the rest of a lower section, with its lock", {"facecolor": PALE, "hatch": HATCHES["blocking"]}),
    "turns": ("turns of others", {"facecolor": PALE, "hatch": HATCHES["turns"]}),
    "slot": ("slots of others", {"facecolor": GREY, "hatch": HATCHES["slot"]}),
    "gap": ("gap of the cycle", {"facecolor": GREY, "hatch": HATCHES["gap"]}),
}
BOX = {"facecolor": "white", "edgecolor": "none", "pad": 0.8, "alpha": 0.85}
# a deadline that is further away than so many bounds isn't drawn
FAR = 1.6


class NothingToDraw(Exception):
    """None of the tasks has a bound whose parts are known."""


class BarScale(NamedTuple):
    """From where to where a drawing goes, in ticks, and how many points a tick is wide."""

    least: float
    most: float
    per_point: float


def letters(text: str, size: float) -> float:
    """How wide a text is in points, about."""
    return 0.6 * size * len(text)


def which_in(job: Values) -> str:
    """Which job a picture is of."""
    if "window" in job:
        return f"a job behind all that come in a window of {job['window']}"
    return (
        f"job {job['number']} of {job['of']} in the busy window" if job["of"] > 1 else "the one job in the busy window"
    )


class Bars:
    """The bars of some tasks, each with its parts one after the other, which go to a picture."""

    def __init__(self, explained: Explained, picture: str):
        self.shades, self.picture = shades(explained.view), picture

    def axes(self, names: list[str], width: float = 9.0, size: float = 8) -> tuple[Any, Any]:
        """A drawing with a row for each name."""
        figure, axes = begun(figsize=(width, 1.15 + 0.34 * len(names)))
        bare(axes)
        axes.tick_params(labelsize=8)
        axes.set_yticks(range(len(names)), names, fontsize=size)
        axes.set_ylim(len(names) - 0.4, -0.6)
        return figure, axes

    def save(self, figure: Any) -> None:
        save(figure, self.picture)

    def hue(self, part: Values) -> str:
        return GREY if part["kind"] == "gap" else self.shades[part["of"]]

    def block(self, axes: Any, place: int, start: int, part: Values) -> None:
        """A part of a bar."""
        edge, hatch = {"edgecolor": "white", "linewidth": 0.8, "zorder": 2}, HATCHES.get(part["kind"])
        if part["kind"] == "own":
            edge = {"edgecolor": INK, "linewidth": 1.0, "zorder": 3}
        axes.barh(place, part["ticks"], left=start, height=0.66, color=self.hue(part), hatch=hatch, **edge)

    def name(self, axes: Any, place: int, start: int, part: Values, came: int, scale: BarScale) -> None:
        """As much of a part's name as there is room for in it, beside the line where the job came."""
        left, right = start, start + part["ticks"]
        if left < came < right:
            left, right = (left, came) if came - left > right - came else (came, right)
        words = (f"{part['of']}  {part['count']} · {part['each']}", part["of"], str(part["ticks"]))
        text = next((it for it in words if letters(it, 7) + 4 < (right - left) * scale.per_point), "")
        is_boxed = part["kind"] in HATCHES or part["kind"] == "gap"
        box = {"bbox": BOX, "color": "#18222d"} if is_boxed else {"color": letters_on(self.hue(part))}
        if text:
            axes.text((left + right) / 2, place, text, ha="center", va="center", fontsize=7, zorder=4, **box)

    def task(self, it: Values) -> None:
        """The parts of one task, a row each; of one without a bound what its resource is asked for."""
        if it["bound"] is None:
            self.loads(it)
            return
        if not it["job"]:
            raise NothingToDraw
        job, parts = it["job"], it["parts"]
        figure, axes = self.axes([part["of"] for part in parts])
        at, scale = -job["came"], BarScale(-job["came"], it["bound"], 9.0 * 72 * 0.72 / max(1, job["done"]))
        for place, part in enumerate(parts):
            self.block(axes, place, at, part)
            self.beside(axes, place, at, part, scale)
            if place:
                axes.plot([at, at], [place - 1, place], color="#9aa5b1", linewidth=0.6, zorder=1)
            at += part["ticks"]
        self.finish(axes, it)
        self.save(figure)

    def beside(self, axes: Any, place: int, start: int, part: Values, scale: BarScale) -> None:
        """What a part is, behind its bar, before it, or on it: where there is room."""
        end, note = start + part["ticks"], note_of(part)
        text = f"{part['count']} · {part['each']} = {part['ticks']}" + (f", {note}" if note else "")
        width = (letters(text, 7) + 8) / scale.per_point
        has_room_before, fits = start - width > scale.least, end - start >= width
        if end + width < scale.most or not has_room_before and not fits:
            axes.text(end, place, f" {text} ", ha="left", va="center", fontsize=7, zorder=5)
        elif has_room_before:
            axes.text(start, place, f" {text} ", ha="right", va="center", fontsize=7, zorder=5)
        else:
            axes.text((start + end) / 2, place, text, ha="center", va="center", fontsize=7, zorder=5, bbox=BOX)

    def finish(self, axes: Any, it: Values) -> None:
        """The lines of a task's bound, of its deadline and of when it came, and what they are."""
        deadline, came = it["deadline"], it["job"]["came"]
        is_near = deadline is not None and deadline["ticks"] <= FAR * it["bound"]
        axes.axvline(it["bound"], color=MARK, linewidth=1.2)
        zero = ", which is the line at 0" if came else ""
        told = [f"ticks after the job came{zero}", "the parts in no order of time"]
        told.append(f"the red line is its bound, {it['bound']}")
        if is_near:
            axes.axvline(deadline["ticks"], color="black", linewidth=1.4, linestyle=":")
            told[-1] += f", the dotted one the deadline of {deadline['path']}, {deadline['ticks']}"
        if came:
            axes.axvline(0, color=INK, linewidth=1.2)
        axes.set_xlim(-came, 1.03 * max(it["bound"], deadline["ticks"] if is_near else 0))
        axes.set_xlabel("; ".join(told), fontsize=8)
        axes.set_title(f"{it['task']} on {it['on']}, {turn_of(it)}: {which_in(it['job'])}", fontsize=9, loc="left")

    def rows(self, tasks: list[Values], title: str, offsets: list[int], deadline: int | None = None) -> None:
        """A row a task; along a path each begins where the one before ends."""
        drawn = [(it, start) for it, start in zip(tasks, offsets) if it["bound"] is not None and it["job"]]
        if not drawn:
            raise NothingToDraw
        least = min(start - it["job"]["came"] for it, start in drawn)
        most = max([start + it["bound"] for it, start in drawn] + ([deadline] if deadline else []))
        figure, axes = self.axes([f"{it['on']}  {it['task']}" for it in tasks], 11.0, 7)
        scale = BarScale(least, most, 11.0 * 72 * 0.8 / (most - least))
        for place, (it, start) in enumerate(zip(tasks, offsets)):
            self.row(axes, place, it, start, scale)
        if deadline:
            axes.axvline(deadline, color="black", linewidth=1.4, linestyle=":")
        axes.set_xlim(least, least + 1.06 * (most - least))
        comes = "; a line where the job comes, and before it what is left of the busy window"
        label = "ticks" + (comes if any(it["job"]["came"] for it, _ in drawn) else "")
        axes.set_xlabel(f"{label}; the parts of a bar in no order of time", fontsize=8)
        axes.set_title(title, fontsize=9, loc="left")
        self.legend(axes, [it for it, _ in drawn])
        self.save(figure)

    def row(self, axes: Any, place: int, it: Values, start: int, scale: BarScale) -> None:
        """The bar of a task, and its bound behind it; an empty one where there is none."""
        if it["bound"] is None or not it["job"]:
            whole = scale.most - scale.least
            empty = {"color": "white", "edgecolor": MARK, "hatch": "////", "linewidth": 0.8}
            axes.barh(place, whole, left=scale.least, height=0.66, **empty)
            return
        at = start - it["job"]["came"]
        for part in it["parts"]:
            self.block(axes, place, at, part)
            self.name(axes, place, at, part, start, scale)
            at += part["ticks"]
        axes.plot([start, start], [place - 0.45, place + 0.45], color=INK, linewidth=1.6, zorder=5)
        axes.text(start + it["bound"], place, f" {it['bound']}", va="center", fontsize=7)

    def legend(self, axes: Any, tasks: list[Values]) -> None:
        kinds = {part["under"] or part["kind"] for it in tasks for part in it["parts"]}
        several = [(Patch(**look), text) for kind, (text, look) in LEGEND.items() if kind in kinds]
        patches, texts = zip(*several)
        where = {"loc": "lower right", "bbox_to_anchor": (1.01, 0.99), "borderaxespad": 0.2}
        axes.legend(patches, texts, fontsize=7, ncols=len(several), columnspacing=1, frameon=False, **where)

    def loads(self, it: Values) -> None:
        """What the resource of a task without a bound is asked for."""
        told = it["overload"]
        figure, axes = self.axes(list(told["loads"]))
        at = 0.0
        for place, (name, share) in enumerate(told["loads"].items()):
            axes.barh(place, 100 * share, left=at, height=0.66, color=self.shades[name])
            end = at + 100 * share
            where = (end, "left") if end < 70 else (at, "right")
            axes.text(where[0], place, f" {percent(share)} ", ha=where[1], va="center", fontsize=7)
            at = end
        axes.axvline(100, color=MARK, linewidth=1.2)
        axes.set_xlim(0, 1.03 * max(at, 100))
        axes.set_xlabel("% of the time", fontsize=8)
        asked = f"the work that {it['on']} is asked for, {percent(told['load'])}"
        axes.set_title(f"{it['task']} on {it['on']} has no bound: {asked}", fontsize=9, loc="left")
        self.save(figure)

    def path(self, it: Values) -> None:
        """A path: its tasks one after the other."""
        offsets, at = [], 0
        for task in it["tasks"]:
            offsets.append(at)
            at += task["bound"] or 0
        deadline = it["deadline"]
        title = f"{it['path']}: {'no bound' if it['worst'] is None else it['worst']}"
        title += "" if deadline is None else f", its deadline is {deadline}"
        is_near = deadline is not None and deadline <= FAR * max(1, at)
        self.rows(it["tasks"], title, offsets, deadline if is_near else None)

    def chain(self, it: Values) -> None:
        """A chain: a row for each bound, with its waits and responses one after the other."""
        asked = [what for what in ("reaction", "age", "held") if what != "held" or it[what]["deadline"] is not None]
        if any(it[what]["bound"] is None for what in asked):
            raise NothingToDraw
        limits = [it[what]["deadline"] for what in asked]
        most = max([it[what]["bound"] for what in asked])
        near = [limit for limit in limits if limit is not None and limit <= FAR * most]
        figure, axes = self.axes(asked, 11.0)
        scale = BarScale(0, max([most, *near]), 11.0 * 72 * 0.86 / (1.06 * max([most, *near])))
        for place, what in enumerate(asked):
            self.chain_row(axes, place, it[what], scale)
            if limits[place] in near:
                line = {"color": "black", "linewidth": 1.4, "linestyle": ":", "zorder": 5}
                axes.plot([limits[place]] * 2, [place - 0.45, place + 0.45], **line)
        axes.set_xlim(0, 1.06 * scale.most)
        dotted = "; the dotted line is the deadline" if near else ""
        axes.set_xlabel(f"ticks; waits for the next job are hatched{dotted}; {PREMISE_WORDS.split(':')[0]}", fontsize=8)
        name = f"{it['chain']}: " if it["chain"] else ""
        axes.set_title(name + " → ".join(it["tasks"]), fontsize=9, loc="left")
        self.save(figure)

    def chain_row(self, axes: Any, place: int, it: Values, scale: BarScale) -> None:
        """The bar of one bound of a chain, and the bound behind it."""
        at = 0
        for part in it["parts"]:
            hue, is_wait = self.shades[part["task"]], part["kind"] == "wait"
            look = {"color": "white", "edgecolor": hue, "hatch": "////"} if is_wait else {"color": hue}
            axes.barh(place, part["ticks"], left=at, height=0.66, linewidth=0.8, zorder=2, **look)
            word = "wait" if is_wait else part["task"]
            room = part["ticks"] * scale.per_point
            fits = (
                text for text in (f"{word} {part['ticks']}", word, str(part["ticks"])) if letters(text, 7) + 4 < room
            )
            box = {"bbox": BOX, "color": "#18222d"} if is_wait else {"color": letters_on(hue)}
            middle = {"ha": "center", "va": "center", "fontsize": 7, "zorder": 4}
            axes.text(at + part["ticks"] / 2, place, next(fits, ""), **middle, **box)
            at += part["ticks"]
        axes.text(at, place, f" {it['bound']}", va="center", fontsize=7)

    def all(self, tasks: list[Values], file: str) -> None:
        """Each task of a file."""
        self.rows(tasks, f"{os.path.basename(file)}: what the bounds are made of", [0] * len(tasks))
