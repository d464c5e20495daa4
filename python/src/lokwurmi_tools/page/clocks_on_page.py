"""The clocks of a system on a page: the sources of each, and where matplotlib is, its cycle as a picture."""
import io

from lokwurmi_tools.page.run_pictures import inline, with_words
from lokwurmi_tools.page.system_tables import PageSystem
from lokwurmi_tools.runs.clock_cycle import ClockCycle
from lokwurmi_tools.shared.packages import is_here
from lokwurmi_tools.shared.types import Values

# of more clocks the first are drawn, and clocks of more sources aren't
MOST_DRAWN, MOST_ROWS = 12, 60


def clocks_of(system: PageSystem) -> list[Values]:
    """What the page has of each clock."""
    view, can_draw = system.view, is_here("matplotlib")
    found = []
    for place, name in enumerate(view.clocks):
        clock = ClockCycle(view, name)
        is_drawn = can_draw and place < MOST_DRAWN and len(clock.sources) <= MOST_ROWS
        sources = [view.sources[it] for it in clock.sources]
        heaps = [{"on": it, "part": clock.part, "at": at, "work": work} for it, at, work in heaps_of(clock)]
        told = {"name": name, "cycle": clock.cycle, "sources": sources, "heaps": heaps}
        told["starts"] = {it.name: ", ".join(view.successors(it.name)) or "nobody" for it in sources}
        found.append(
            told | {"in_bounds": name in view.clocks_in_bounds, "svg": picture(clock, system) if is_drawn else ""}
        )
    return found


def heaps_of(clock: ClockCycle) -> list[tuple[str, int, int]]:
    """Of each resource that a clock feeds the part of its cycle in which most comes."""
    return [(it, *clock.fullest(it)) for it in clock.resources()]


def picture(clock: ClockCycle, system: PageSystem) -> str:
    """The cycle of a clock, whose ink and paper are those of the page."""
    from lokwurmi_tools.pictures.clock_curve import drawn_clock
    from lokwurmi_tools.pictures.plotting import closed

    to = io.StringIO()
    figure = drawn_clock(clock, system.scale, width=11.0)
    figure.savefig(to, format="svg", transparent=True, metadata={"Date": None})
    closed(figure)
    # each picture of a page has names of its own
    svg = (
        inline(to.getvalue()).replace('id="', f'id="clock-{clock.name}-').replace("url(#", f"url(#clock-{clock.name}-")
    )
    return with_words(svg.replace('href="#', f'href="#clock-{clock.name}-'))
