"""Bounds before and after other offsets, as bars: for lokwurmi offsets."""
from typing import Any

from lokwurmi_tools.pictures.plotting import Line2D, Patch, bare, begun, legend_above, save
from lokwurmi_tools.shared.types import Values

# the bounds that are drawn: those that take most of their deadlines and periods
MOST_DRAWN = 60
BEFORE, AFTER, MARK = "#c9d0d6", "#1b6ca8", "#c0392b"
# a share that is drawn to its end, in percent
MOST_SHARE = 200.0


def percent(row: Values, when: str) -> float | None:
    """A bound in percent of its deadline or period."""
    return None if row[when] is None else 100 * row[when] / row["limit"]


def greatest(row: Values) -> float:
    """The greater of both; a bound that isn't there is above all others."""
    both = [percent(row, when) for when in ("before", "after")]
    return max(float("inf") if it is None else it for it in both)


def draw_bar(axes: Any, place: float, share: float | None, look: Values) -> None:
    """A bar of a bound; one that isn't there is hatched to the end."""
    if share is None:
        axes.barh(place, MOST_SHARE, color="white", edgecolor=MARK, hatch="////", linewidth=0.6, height=look["height"])
    else:
        axes.barh(place, min(share, MOST_SHARE), **look)


def draw_offsets(rows: list[Values], picture: str, title: str) -> None:
    """The bounds that take most of their deadlines and periods, two bars each."""
    drawn = sorted(rows, key=greatest, reverse=True)[:MOST_DRAWN]
    figure, axes = begun(figsize=(9, 1.5 + 0.24 * len(drawn)))
    most = 105.0
    for place, it in enumerate(drawn):
        before, after = percent(it, "before"), percent(it, "after")
        draw_bar(axes, place - 0.2, before, {"color": BEFORE, "height": 0.36})
        draw_bar(axes, place + 0.2, after, {"color": AFTER, "height": 0.36})
        ends = [MOST_SHARE if share is None else min(share, MOST_SHARE) for share in (before, after)]
        both = " → ".join("overload" if it[when] is None else str(it[when]) for when in ("before", "after"))
        axes.text(max(ends), place, f" {both}", va="center", fontsize=6.5)
        most = max(most, *ends)
    axes.axvline(100, color=MARK, linewidth=1.1)
    axes.set_yticks(range(len(drawn)), [f"{it['kind']} {it['name']}" for it in drawn], fontsize=7)
    axes.set_ylim(len(drawn) - 0.4, -0.6)
    axes.set_xlim(0, 1.16 * most)
    some = f": {MOST_DRAWN} of {len(rows)} bounds" if len(rows) > MOST_DRAWN else ""
    label(axes, title + some)
    save(figure, picture)


def label(axes: Any, title: str) -> None:
    """What the bars are."""
    axes.tick_params(axis="x", labelsize=8)
    what = "the bound in % of the deadline of a path, or of the period of a task that is on none with a deadline"
    axes.set_xlabel(f"{what}; they hold if sources on a clock keep their distances", fontsize=7)
    bare(axes)
    axes.set_title(title, fontsize=9, loc="left")
    marks = [Patch(color=BEFORE), Patch(color=AFTER), Line2D([], [], color=MARK)]
    legend_above(axes, marks, ["before", "after", "100 %"])
