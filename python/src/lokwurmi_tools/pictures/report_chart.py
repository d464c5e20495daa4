"""The chart of a report, as a picture in a file: that of the package."""
import os
from dataclasses import dataclass
from fractions import Fraction

from lokwurmi_tools.pictures.plotting import check_name, prepare, save
from lokwurmi_tools.shared.faults import Fault
from lokwurmi_tools.shared.packages import need
from lokwurmi_tools.shared.report import read_report


@dataclass(frozen=True, slots=True)
class ChartOptions:
    """Which report is drawn, and into which picture, None for its own name with .svg; with `paths` without its tasks;
    `tick` is in nanoseconds."""

    report: str
    to: str | None = None
    paths: bool = False
    tick: Fraction | None = None


def draw_report(options: ChartOptions) -> None:
    """Writes the chart of a report."""
    need("matplotlib")
    from lokwurmi.results.charts import report_chart

    report = read_report(options.report)
    picture = options.to or os.path.splitext(options.report)[0] + ".svg"
    check_name(picture)
    if picture == options.report:
        raise Fault(f"{options.report}: the picture would have the name of the report: name it by --to")
    if not report.paths and (options.paths or not report.tasks):
        raise Fault(f"{options.report}: there is nothing to draw")
    prepare()
    save(report_chart(report, options.tick, with_tasks=not options.paths), picture)
