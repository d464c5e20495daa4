"""Matplotlib for the commands that draw: how a picture begins, looks and is saved."""
import io
import os
from typing import Any

from lokwurmi.files.whole_files import write_whole
from lokwurmi.results.axes import bare, legend_above
from lokwurmi_tools.shared.faults import Fault

try:
    import matplotlib

    matplotlib.use("Agg")
    import matplotlib.pyplot as plt
    from matplotlib.collections import LineCollection, PatchCollection
    from matplotlib.lines import Line2D
    from matplotlib.patches import Patch, Rectangle
except ImportError:
    # told by `need`, after words that ask for help
    plt = LineCollection = PatchCollection = Line2D = Patch = Rectangle = None

__all__ = ["Line2D", "LineCollection", "Patch", "PatchCollection", "Rectangle"]
__all__ += ["begun", "bare", "check_name", "legend_above", "prepare", "save"]
FORMS = (".svg", ".png", ".pdf")


def check_name(picture: str) -> None:
    """A picture's name tells its form."""
    if os.path.splitext(picture)[1] not in FORMS:
        raise Fault(f"{picture}: a picture's name ends with {', '.join(FORMS[:-1])} or {FORMS[-1]}")


def prepare() -> None:
    """Has words stay words in pictures, and what is drawn twice give the same picture."""
    plt.rcParams.update({"svg.fonttype": "none", "svg.hashsalt": "lokwurmi", "font.family": "DejaVu Sans"})
    plt.rcParams.update({"hatch.linewidth": 0.6})


def begun(*numbers: int, **look: Any) -> tuple[Any, Any]:
    """A figure and its axes."""
    prepare()
    figure, axes = plt.subplots(*numbers, layout="constrained", **look)
    return figure, axes


def closed(figure: Any) -> None:
    """Lets go of a figure that is written, where there are many."""
    plt.close(figure)


def save(figure: Any, picture: str) -> None:
    """Writes a picture, without the date."""
    drawn, form = io.BytesIO(), picture[-3:]
    figure.savefig(drawn, format=form, metadata={"Date": None} if form == "svg" else None)
    try:
        write_whole(picture, drawn.getvalue())
    except OSError as fault:
        raise Fault(f"{picture}: can't be written: {fault.strerror or fault}") from fault
