"""Statuses of calls: each has one name in Rattle, in C and here, but for some that are listed."""
import re
import unittest
from pathlib import Path

from lokwurmi.model.commands import FILES
from lokwurmi.model.statuses import Status

TOP = Path(__file__).resolve().parents[2]
# what crates/cpa_call and library/lokwurmi.h call otherwise by now
IN_RATTLE = {"NONE_MEETS": "NONE", "OTHER_SCHEDULE": "DIFFERS", "TRACE_BREACHES": "TRACE_DISOBEYS"}
IN_C = {"TOO_LONG": "FILE_TOO_LONG", "NO_MEMORY": "OUT_OF_MEMORY"}


def named(form: str, file: str, others: dict[str, str]) -> dict[str, int]:
    """The names of statuses in a file, each as it is here, and its number."""
    found = re.findall(form, (TOP / file).read_text(encoding="utf-8"), re.M)
    return {others.get(name, name): int(number) for name, number in found}


class Statuses(unittest.TestCase):
    def test_rattle(self) -> None:
        found = named(r"^pub const (\w+): u8 = (\d+);", "crates/cpa_call/src/statuses.rt", IN_RATTLE)
        # which bounds there are is said by texts of reports, and what launcher and tools answer isn't known there
        named_there = {Status.NONE, Status.DIFFERS, *range(Status.WORDS_REFUSED, Status.NO_PROGRAM)}
        self.assertEqual(found, {it.name: it.value for it in Status if it in named_there})

    def test_header(self) -> None:
        found = named(r"^ +LOKWURMI_(\w+) = (\d+)", "library/lokwurmi.h", IN_C)
        # the library opens no file, writes into no sink, and calls no program
        others = {Status.FILE_UNREAD, Status.SINK_FAILED, Status.LACKING, Status.NO_PROGRAM, Status.INTERRUPTED}
        self.assertEqual(found, {it.name: it.value for it in Status if it not in others})

    def test_answers(self) -> None:
        self.assertEqual([it.name for it in Status if Status.is_answer(it)][-1], "LACKING")
        self.assertFalse(Status.is_answer(-9))

    def test_commands(self) -> None:
        found = re.findall(
            r"^ +int lokwurmi_|lokwurmi_(\w+)\(", (TOP / "library/lokwurmi.h").read_text(encoding="utf-8")
        )
        self.assertLessEqual(set(FILES) - {"load"}, set(found))


if __name__ == "__main__":
    unittest.main()
