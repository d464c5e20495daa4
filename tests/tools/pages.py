"""Pages of `lokwurmi page` in a browser, for check_page.py: how they are made, and what is asked of one."""
import json
import os
import re
import subprocess
import sys

from tests.rules.runs import replayed
from tests.support.browser import Browser
from tests.support.calls import TOP, hold, run

EXAMPLES = os.path.join(TOP, "examples")


def example(name, end):
    return os.path.join(EXAMPLES, name + end)


def call(program, *words):
    quiet = os.environ | {"LOKWURMI_QUIET": "1"}
    return subprocess.run([program, *words], stdout=subprocess.PIPE, text=True, check=False, env=quiet).stdout


def told(text):
    """The lines of a report by their words, read here once more: those of tasks, and those of paths."""
    lines = [line.split() for line in text.splitlines()]
    return [it for it in lines if it[0] == "task"], [it for it in lines if it[0] == "path"]


def percent(share):
    """A share in percent as a page tells it: rounded up to tenths."""
    tenths = -(-share * 1000 // 1)
    return f"{tenths // 10}.{tenths % 10} %"


def schedule_of(file, trace):
    """The schedule of a run, by the step rules followed tick by tick."""
    return "".join(f"{task},{start},{end}\n" for task, start, end in replayed(file, trace).segments)


class Page:
    """A page in the browser."""

    def __init__(self, browser, name):
        self.browser, self.name = browser, name

    def run(self, text):
        return self.browser.run(text)

    def hold(self, is_so, what):
        hold(is_so, f"{self.name}: {what}")

    def rows(self, table):
        """The cells of a table, row by row."""
        return self.run(
            f"[...document.querySelectorAll('#{table} tbody tr')]"
            ".map((row) => [...row.cells].map((it) => it.innerText.trim()))"
        )

    def table(self, table):
        """The rows of a table, each by the names of its columns; of a path's name the first line."""
        heads = self.run(f"[...document.querySelectorAll('#{table} thead th')].map((it) => it.innerText.trim())")
        return [{head: cell.split("\n")[0] for head, cell in zip(heads, row)} for row in self.rows(table)]

    def shown(self, table):
        """The names of the rows that are to be seen."""
        return self.run(
            f"[...document.querySelectorAll('#{table} tbody tr')]"
            ".filter((it) => it.offsetParent !== null).map((it) => it.dataset.name)"
        )

    def text(self, selector):
        return self.run(f"document.querySelector('{selector}').innerText")

    def text_of(self, element):
        return self.run(f"{element}.innerText")

    def press(self, selector):
        """The key Enter on an element."""
        self.run(f"document.querySelector({json.dumps(selector)}).focus()")
        self.browser.key("Enter", "\r")

    def lines(self, opened):
        """The lines of what is open behind a row, each by its cells."""
        cells = "map((line) => [...line.children].map((it) => it.textContent))"
        return self.run(f"[...{opened}.querySelectorAll('dl > div')].{cells}")

    def count_shown(self, table):
        """What is said of how many rows are shown."""
        return self.run(f"document.querySelector('.tools[data-of={table}] output').textContent")

    def is_in_window(self):
        return self.run("document.documentElement.scrollWidth <= innerWidth")

    def hold_quiet(self):
        """The page complains of nothing."""
        for it in self.browser.complaints():
            self.hold(False, it)

    def choose(self, table, name, value):
        self.run(
            f"(() => {{ const it = document.querySelector('.tools[data-of={table}] select[name={name}]');"
            f" it.value = {json.dumps(value)}; it.dispatchEvent(new Event('input', {{bubbles: true}})); }})()"
        )

    def clear(self, table):
        self.run(f"document.querySelector('.tools[data-of={table}] input').focus()")
        self.browser.key("Escape")


class Pages:
    """Pages that are made by the tool, in a folder, and opened in a browser, whose profile is in another."""

    def __init__(self, program, folder, room):
        self.program, self.folder = program, folder
        self.browser = Browser(room)

    def page(self, name, file, *more):
        """The page of a file, in the browser."""
        made_page = os.path.join(self.folder, name + ".html")
        done = run("page", "--program", self.program, "--to", made_page, *more, file)
        if done.returncode or done.stderr:
            sys.exit(f"{name}: no page: {done.stderr}")
        with open(made_page, encoding="utf-8") as it:
            hold(not re.search(r"https?://|@import|url\((?!#)", it.read()), f"{name}: it has a link to the outside")
        self.browser.load(made_page)
        return Page(self.browser, name)
