"""Documents: what is read of TOML 1.1, and where keys and values stand."""
import tempfile
import tomllib
import unittest
from pathlib import Path

from engine_for_tests import need_engine

from lokwurmi import LokwurmiError, System
from lokwurmi.files.chain_files import chains_in
from lokwurmi.files.documents import Document

NEWER = """\ufeffformat = 2
resource = [{
  name = "cpu", # a comment
  kind = "preemptive",
}]
source = [{ name = "s", period = 10 }]

[[task]]
name = "a"
on = "cpu"
after = ["s"]
best = 1
worst = 3
priority = 1
"""


class Documents(unittest.TestCase):
    def test_places(self) -> None:
        document = Document(NEWER)
        self.assertTrue(document.has_lists)
        self.assertEqual(document.text_of(document.root.values["format"].span), "2")
        self.assertEqual(document.text_of(document.root.keys["source"]), "source")
        self.assertEqual(document.text_of(document.key_span("resource", 0, "kind")), "kind")
        self.assertEqual(document.text_of(document.value_span("resource", 0, "kind")), '"preemptive"')
        self.assertEqual(document.text_of(document.place("source", 0).span), '{ name = "s", period = 10 }')
        self.assertEqual(document.text_of(document.place("task", 0).span), "[[task]]")
        self.assertEqual(document.text_of(document.item_span("task", 0, "after", 0)), '"s"')
        self.assertEqual(document.text_of(document.item_span("task", 0, "on", 0)), '"cpu"')

    def test_entries(self) -> None:
        """The entries of what isn't a list are none, and nothing is judged."""
        document = Document('task = 3\nother = 1\n[[path]]\nname = "p"\n')
        self.assertEqual((document.entries["task"], document.entries["path"]), ([], [{"name": "p"}]))
        self.assertEqual(document.values["other"], 1)
        with self.assertRaises(tomllib.TOMLDecodeError):
            Document("format = ")

    def test_newer(self) -> None:
        """Systems and chains are read as the program reads them: with inline tables of TOML 1.1, and behind a byte
        order mark."""
        system = System.from_toml(NEWER)
        self.assertEqual((system.resources["cpu"].kind, system.tasks["a"].after), ("preemptive", ["s"]))
        with tempfile.TemporaryDirectory() as folder:
            file = Path(folder, "system.toml")
            file.write_bytes(NEWER.replace("\n", "\r\n").encode())
            self.assertEqual(System.from_file(file), system)
            # a carriage return alone ends no line, so that what follows it would be a comment here and a key there
            file.write_bytes(NEWER.replace("\n", "\r").encode())
            with self.assertRaisesRegex(LokwurmiError, "isn't TOML"):
                System.from_file(file)
        self.assertEqual(System.from_toml(NEWER.replace("\n", "\r\n")), system)
        chain = chains_in('format = 1\nchain = [{ name = "c",\n tasks = ["a"], }]\n', ["a"])[0]
        self.assertEqual((chain.name, chain.tasks), ("c", ["a"]))
        need_engine()
        timed = System.from_toml(NEWER, tick="1us")
        chains = '\ufeffformat = 1\r\nchain = [{ name = "c",\r\n tasks = ["a"], }]\r\n'
        self.assertEqual(timed.chains(chains).chains["c"].name, "c")
        with self.assertRaisesRegex(LokwurmiError, "isn't TOML"):
            System.from_toml("format = 1\nresource = [{ name = }]\n")
