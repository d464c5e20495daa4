"""The statuses of calls, each under one name: that of crates/cpa_call/src/statuses.rt, and of library/lokwurmi.h
without LOKWURMI_. tests/test_statuses.py compares the three, and has the few names that differ."""
from enum import IntEnum


class Status(IntEnum):
    """How a call ended. What is below WORDS_REFUSED is an answer."""

    OK = 0
    MISSED = 1
    """A deadline is missed, and all bounds are there."""
    OVERLOAD = 2
    """A bound is `overload`."""
    NONE = 3
    """`assign`: no order meets; `slack`: there is none."""
    DIFFERS = 4
    """`audit`: the schedule isn't that of the run."""
    LACKING = 5
    """Of the launcher and the tools, by `--strict`: an edit of `session` was refused, or a task of `page` has no
    bound."""
    WORDS_REFUSED = 10
    FILE_UNREAD = 11
    FILE_TOO_LONG = 12
    NOT_TOML = 13
    SYSTEM_REFUSED = 14
    SCRIPT_REFUSED = 15
    TRACE_REFUSED = 16
    TRACE_DISOBEYS = 17
    NAME_REFUSED = 18
    """The resource of `assign`, the task of `slack`, one of `chain`, or a file of chains."""
    SCHEDULE_REFUSED = 19
    SINK_FAILED = 20
    EDIT_REFUSED = 21
    """An edit of a session that is kept breaks a rule."""
    OUT_OF_MEMORY = 30
    NO_PROGRAM = 70
    """Of the launcher and the tools: there is no program that could be called, or a fault of their own."""
    INTERRUPTED = 130
    """Of the launcher and the tools: an interrupt."""

    @classmethod
    def is_answer(cls, status: int) -> bool:
        """Whether a call with this status has answered; a signal is a status below 0."""
        return 0 <= status < cls.WORDS_REFUSED
