"""How far the tightest numbers of a system may move, as bars."""
from typing import Any

from lokwurmi_tools.pictures.plotting import Patch, bare, begun, legend_above, save
from lokwurmi_tools.search.margin_question import KINDS
from lokwurmi_tools.search.margin_texts import name_of, share_text, shares_of, value_of
from lokwurmi_tools.shared.types import Values

# the tightest that are drawn
MOST_DRAWN = 40
HUES = {
    "execution": "#1b6ca8",
    "period": "#2e7d4f",
    "longer-period": "#8fbf5a",
    "jitter": "#a3862a",
    "speed": "#7b4fa3",
    "region": "#2a8c8c",
    "section": "#7a8c2a",
    "offset": "#a83254",
    "deadline": "#b5541c",
}


def draw_margins(rows: list[Values], picture: str, title: str) -> None:
    """The tightest numbers, a bar each: by what share they may move, up to twice what they are."""
    drawn = rows[:MOST_DRAWN]
    figure, axes = begun(figsize=(9, 1.3 + 0.19 * len(drawn)))
    widest = min(100.0, max([1.0, *(100 * it["share"] for it in drawn)])) * 1.02
    for place, it in enumerate(drawn):
        share = 100 * it["share"]
        axes.barh(place, min(share, widest), height=0.7, color=HUES[it["kind"]])
        text = f" {share_text(it)}, {value_of(it, 'last')}" + (" →" if share > widest else "")
        axes.text(min(share, widest), place, text, va="center", fontsize=6.5)
    axes.set_yticks(range(len(drawn)), [name_of(it) for it in drawn], fontsize=7)
    axes.set_ylim(len(drawn) - 0.4, -0.6)
    axes.set_xlim(0, widest * 1.22)
    axes.set_xticks([it for it in axes.get_xticks() if it <= widest])
    some = f": the {MOST_DRAWN} tightest of {len(rows)} numbers" if len(rows) > MOST_DRAWN else ""
    label(axes, drawn, title + some)
    save(figure, picture)


def label(axes: Any, drawn: list[Values], title: str) -> None:
    """What the bars are."""
    axes.tick_params(axis="x", labelsize=8)
    shares = ", ".join(shares_of(drawn))
    axes.set_xlabel("by how many % it may move alone" + (f"; {shares}" if shares else ""), fontsize=8)
    bare(axes)
    axes.set_title(title, fontsize=9, loc="left")
    kinds = [it for it in KINDS if any(row["kind"] == it for row in drawn)]
    legend_above(axes, [Patch(color=HUES[it]) for it in kinds], kinds)
