"""What systems, reports and runs are made of here, for hints of types. All times are in ticks."""
from typing import Any

from lokwurmi.files.traces import Rows, Times, Trace
from lokwurmi.model.event_models import Bounds, Stream

__all__ = ["Bounds", "Jobs", "Schedule", "Segment", "Stream", "Times", "Trace", "Values"]
# what a command tells of something, by keys, as in JSON
Values = dict[str, Any]
# from when to before when something ran
Segment = tuple[int, int]
# a task, and from when to before when it ran
Schedule = Rows
# when each job of a task came, and when it was done, None where it wasn't
Jobs = dict[str, list[tuple[int, int | None]]]
