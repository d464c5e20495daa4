"""The picture of a run that a search for late runs has found, as `lokwurmi gantt` draws it: for lokwurmi worst."""
import os
from typing import Any

from lokwurmi.files.traces import write
from lokwurmi_tools.search.worst_search import WorstOptions


def draw_run(options: WorstOptions, rows: list[str], folder: str, **marked: Any) -> None:
    """Draws the run of a trace into the picture that is asked for; `marked` says what is, as options of gantt do."""
    # not before a picture is asked for: it takes a while
    from lokwurmi_tools.pictures.gantt_chart import GanttOptions, draw_gantt

    trace = os.path.join(folder, "drawn.csv")
    write(trace, rows)
    draw_gantt(GanttOptions(options.file, options.program, options.draw or "", trace=trace, **marked))
