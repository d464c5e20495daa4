"""Damage that checks do to files: what is put into a system file leaves it readable, however its numbers and tables are
written."""
import random
import unittest
from collections.abc import Callable, Iterator

from lokwurmi.files.documents import Document
from lokwurmi.refusals.rules import first_refusal
from tests.support.damage import with_keys, with_locks, with_queues, with_regions

Damages = Callable[[random.Random, str], str]
WRITTEN = """format = 1
resource = [{ name = "cpu", kind = "preemptive" }]
source = [
  { name = "a", period = 5_000 },
  { name = "b", period = 0x10, jitter = 0 },
  { name = "c",
    period = 7 # each week
  },
  { name = "d", period = 8, sporadic = false },
]

[[task]]
name = "t"
on = "cpu"
after = "a"
best = 1
worst = 1_000
priority = 0x1f # the lowest

[[task]]
name = "u"
on = "cpu"
after = "b"
best = 1
worst = 3
priority = 7_0"""

WITH_FRAMES = """format = 1
source = [{ name = "s", period = 1000 }]
resource = [
  { name = "bus", kind = "can", bit = 2 },
  { name = "ring", kind = "tdma",
    gap = 3 },
]
task = [
  { name = "a", on = "bus", after = "s", payload = 8, extended = true, priority = 1 },
  { name = "b", on = "bus", after = "s", priority = 2, payload = 0 },
  { slot = 3, name = "c", on = "ring", after = "s", best = 1, worst = 1 },
]
"""


class Damage(unittest.TestCase):
    def test_keys(self) -> None:
        """A key is put behind the whole value of another."""
        text = with_keys(WRITTEN, [("source", at, "period", ["jitter = 1_0"]) for at in (0, 2, 3)])
        sources = Document(text).entries["source"]
        self.assertEqual([it.get("jitter") for it in sources], [10, 0, 10, 10])
        self.assertEqual([it["period"] for it in sources], [5000, 16, 7, 8])
        text = with_keys(WRITTEN, [("task", at, "priority", ["region = 2", "extended = true"]) for at in (0, 1)])
        self.assertEqual([it["region"] for it in Document(text).entries["task"]], [2, 2])
        self.assertEqual([it["priority"] for it in Document(text).entries["task"]], [31, 70])

    def damaged(self, text: str, *damages: Damages) -> Iterator[Document]:
        """Files to which damages are done one after another, at random, all of which are systems."""
        for seed in range(200):
            draw, changed = random.Random(seed), text
            for damage in damages:
                changed = damage(draw, changed)
                document = Document(changed)
                self.assertIsNone(first_refusal(document), changed)
                yield document

    def test_regions(self) -> None:
        """Regions and sporadic sources can be put into any file, again and again, and it stays a system."""
        some = set()
        for document in self.damaged(WRITTEN, with_regions, with_regions):
            self.assertEqual([it["period"] for it in document.entries["source"]], [5000, 16, 7, 8])
            some |= {(it["name"], it.get("sporadic"), it.get("clock")) for it in document.entries["source"]}
        # three of them may be sporadic or not, or not tell it, and all may be on one of two clocks, or on none
        self.assertEqual(len(some), 3 * 10)

    def test_queues(self) -> None:
        """Resources of any file can become queues, again and again, and it stays a system."""
        kinds, rates, payloads = set(), set(), set()
        for text, damages in ((WITH_FRAMES, (with_queues, with_queues)), (WRITTEN, (with_regions, with_queues))):
            for document in self.damaged(text, *damages):
                kinds |= {it["kind"] for it in document.entries["resource"]}
                rates |= {it.get("rate") for it in document.entries["resource"]}
                payloads |= {it.get("payload") for it in document.entries["task"]}
        self.assertEqual(kinds, {"preemptive", "can", "tdma", "fifo"})
        self.assertTrue({None, 1, 100, 672} <= rates, rates)
        self.assertTrue({None, 0, 8, 46, 1500} <= payloads, payloads)

    def test_locks(self) -> None:
        """Preemptive resources of any file can have ceilings, and their tasks sections, again and again."""
        kinds, counts = set(), set()
        for document in self.damaged(WRITTEN, with_locks, with_locks, with_regions, with_queues):
            kinds |= {it["kind"] for it in document.entries["resource"]}
            counts |= {len(it.get("locks", [])) for it in document.entries["task"]}
        self.assertEqual(kinds, {"preemptive", "ceiling", "fifo"})
        self.assertTrue({0, 1, 2, 3} <= counts, counts)


if __name__ == "__main__":
    unittest.main()
