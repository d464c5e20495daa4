"""Builds systems of tasks, and has them analysed by Lokwurmi, in this process or by its program.

All times are in ticks; a tick is whatever you take it for, and `System(tick="1us")` has times with units. An example:

    >>> from lokwurmi import System
    >>> system = System()
    >>> cpu = system.preemptive("cpu")
    >>> often = system.source("often", period=10)
    >>> seldom = system.source("seldom", period=20)
    >>> a = system.task("a", on=cpu, after=often, best=1, worst=3, priority=1)
    >>> b = system.task("b", on=cpu, after=seldom, best=2, worst=7, priority=2)
    >>> report = system.analyse()
    >>> report.tasks["b"].worst
    10

The bounds are those of the proved analysis. This package itself is not proved. docs/PYTHON.md has more.
"""
from importlib import import_module
from typing import TYPE_CHECKING

if TYPE_CHECKING:
    from lokwurmi.calls.engines import Engine, default_engine, use
    from lokwurmi.calls.library import Library
    from lokwurmi.calls.program import Program
    from lokwurmi.calls.sessions import Session
    from lokwurmi.calls.system import System, generated_system, made_system
    from lokwurmi.errors import (
        CallFailed,
        ChainsRefused,
        EditRefused,
        FileTooLong,
        LokwurmiError,
        NameRefused,
        NoEngine,
        NoTick,
        NotInstalled,
        NotToml,
        Refused,
        ScheduleRefused,
        ScriptRefused,
        SessionClosed,
        SystemRefused,
        TraceDisobeys,
        TraceRefused,
        UnitsRefused,
        Unreadable,
        WordsRefused,
        WrongType,
    )
    from lokwurmi.model.clocks import Clock, Release
    from lokwurmi.model.conversion import NoticeWarning, NoUnitWarning, Rounding, RoundingWarning
    from lokwurmi.model.entries import Chain, Lock, Path, Resource, Source, Task
    from lokwurmi.model.limits import Kind
    from lokwurmi.model.units import Time, ms, ns, s, us
    from lokwurmi.model.view import Anchor
    from lokwurmi.results.differences import Change, Changes, Shift, changes_of
    from lokwurmi.results.effect_chains import ChainReport, ChainsReport, JudgedChain, Step
    from lokwurmi.results.reports import (
        Buffers,
        Hammered,
        Order,
        PathReport,
        Report,
        Run,
        Schedule,
        SeenPath,
        SeenTask,
        Segment,
        Slack,
        TaskReport,
        Verdict,
    )
    from lokwurmi.results.verdicts import Bound, Verdicts

__all__ = [
    "Anchor",
    "Bound",
    "Buffers",
    "CallFailed",
    "Chain",
    "ChainReport",
    "ChainsRefused",
    "ChainsReport",
    "Change",
    "Changes",
    "Clock",
    "EditRefused",
    "Engine",
    "FileTooLong",
    "Hammered",
    "JudgedChain",
    "Kind",
    "Library",
    "Lock",
    "LokwurmiError",
    "NameRefused",
    "NoEngine",
    "NoTick",
    "NoUnitWarning",
    "NotInstalled",
    "NotToml",
    "NoticeWarning",
    "Order",
    "Path",
    "PathReport",
    "Program",
    "Refused",
    "Release",
    "Report",
    "Resource",
    "Rounding",
    "RoundingWarning",
    "Run",
    "Schedule",
    "ScheduleRefused",
    "ScriptRefused",
    "SeenPath",
    "SeenTask",
    "Segment",
    "Session",
    "SessionClosed",
    "Shift",
    "Slack",
    "Source",
    "Step",
    "System",
    "SystemRefused",
    "Task",
    "TaskReport",
    "Time",
    "TraceDisobeys",
    "TraceRefused",
    "UnitsRefused",
    "Unreadable",
    "Verdict",
    "Verdicts",
    "WordsRefused",
    "WrongType",
    "changes_of",
    "default_engine",
    "generated_system",
    "made_system",
    "ms",
    "ns",
    "s",
    "us",
    "use",
]
# where these are, the light ones first
_MODULES = (
    "errors",
    "model.limits",
    "model.units",
    "model.conversion",
    "model.entries",
    "model.clocks",
    "model.view",
    "results.reports",
    "results.effect_chains",
    "results.verdicts",
    "results.differences",
    "calls.library",
    "calls.program",
    "calls.engines",
    "calls.sessions",
    "calls.system",
)
_LOADED = ("errors", "frames", "files", "model", "refusals", "calls", "results")

if not TYPE_CHECKING:
    # each is loaded at its first use, so that whoever needs one module alone doesn't wait for all

    def __getattr__(name: str) -> object:
        if name in _LOADED:
            return import_module(f".{name}", __name__)
        for module in _MODULES if name in __all__ else ():
            found = getattr(import_module(f".{module}", __name__), name, None)
            if found and found.__module__ == f"{__name__}.{module}":
                globals()[name] = found
                return found
        raise AttributeError(f"module {__name__!r} has no attribute {name!r}")

    def __dir__() -> list[str]:
        return sorted({*globals(), *_LOADED, *__all__})
