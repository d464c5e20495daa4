#!/usr/bin/env python3
"""Tries the pages of `lokwurmi page` in headless Chromium. Outside the gate; takes a minute or some, and no network.

For some of the examples a page is made, with a trace, a schedule and a script where there are some. It must load
without an error and without asking for anything else, show the numbers of the report, of `simulate` and of `session`,
and the utilisation of each resource and of slots, open the parts of each bound and of each path, which add up to it and
are as long as they should be, sort each column both ways by mouse and by keyboard, also where parts are open, filter,
fit into a narrow window, be light and dark, and print. In windows of five widths the first column of Paths leaves room
for the others, the tables of a page with long names aren't cut from 1366 on, and the lines between their rows go on
under the fixed column. Pages of overloaded systems must tell what lies behind; what is told of random systems that are
overloaded must be so: with a limit a hundred times as high a task that has too much work has no bound still, and each
task without one has a cause. A page with a file of chains shows their bounds and verdicts, what they are the sum of,
and where a source of the run stays away; they count in how far numbers may move, and in other priorities. What page
doesn't take is refused in a line.

A schedule that isn't among the examples is made by the step rules of check_runs.py. With --keep pictures of the pages,
in light and dark, wide and narrow, the documents that they print, and the pages themselves stay in a folder.

    python3 -m tests.tools.check_page [--program PROGRAM] [--keep FOLDER]
"""
import argparse
import os
import tempfile

from tests.support.calls import TOP, hold, run, tell, written
from tests.tools.page_causes import check_cases, check_causes
from tests.tools.page_contents import (
    check_bars,
    check_changes,
    check_chart,
    check_loads,
    check_made,
    check_made_paths,
    check_numbers,
)
from tests.tools.page_layout import check_filters, check_letters, check_names, check_sorting, check_views
from tests.tools.page_options import (
    check_chain_searches,
    check_chains,
    check_helps,
    check_no_order,
    check_searches,
    check_times,
)
from tests.tools.page_widths import check_wide
from tests.tools.pages import Pages, example, schedule_of

# the examples, and whether they have a trace and a script
PAGES = [
    ("car_network", True, True),
    ("crossing_chains", True, True),
    ("sensor_fusion", True, True),
    ("gateway", True, False),
    ("queue", True, False),
    ("locks", True, False),
    ("tdma", False, False),
    ("overload", False, False),
]


def check_refusals(room, program):
    page = os.path.join(room, "refused.html")
    two, trace = example("two_tasks", ".toml"), example("crossing_chains", ".trace.csv")
    bad = written(room, "bad.toml", "format = 3\n")
    schedule = written(room, "bad.csv", "a,1,2\nz,3,4\n")
    chains = example("crossing_chains", ".toml")
    for status, said, words in (
        (1, "a page's name ends with .html", [two, "--to", "page.pdf"]),
        (1, "--schedule wants --trace", [two, "--to", page, "--schedule", schedule]),
        (1, "has no tick", [two, "--to", page, "--from", "5", "--until", "5"]),
        (1, "can't be called", [two, "--to", page, "--program", os.path.join(room, "nothing")]),
        (14, "bad.toml:1:10: the format 3 isn't known: it is 1, 2 or 4", [bad, "--to", page]),
        (16, "status 16", [two, "--to", page, "--trace", trace]),
        (1, 'no task is called "capture"', [two, "--to", page, "--chains", example("camera_brake", ".chains.toml")]),
        (1, 'no task is called "a"', [chains, "--to", page, "--trace", trace, "--schedule", schedule]),
    ):
        words += [] if "--program" in words else ["--program", program]
        done = run("page", *words)
        hold(done.returncode == status and said in done.stderr, f"page {words}: {done.returncode} {done.stderr}")
    hold(not os.path.exists(page), "a page is written though something is refused")


def check_examples(room, words, page_of):
    for name, with_trace, with_script in PAGES:
        more, schedule = [], example(name, ".schedule.csv")
        if with_trace:
            if not os.path.exists(schedule):
                schedule = written(
                    room, name + ".csv", schedule_of(example(name, ".toml"), example(name, ".trace.csv"))
                )
            more += ["--trace", example(name, ".trace.csv"), "--schedule", schedule]
        if with_script:
            more += ["--session", example(name, ".script.txt")]
        page = page_of(name, example(name, ".toml"), *more)
        page.browser.size(1400)
        check_names(page)
        check_numbers(page, words.program, with_trace)
        check_bars(page)
        check_loads(page)
        check_made(page, words.keep)
        check_made_paths(page)
        if with_trace:
            check_chart(page, words.program, schedule)
        if with_script:
            check_changes(page, words.program)
        check_letters(page)
        check_views(page, words.keep)
        check_sorting(page)
        check_filters(page)
        page.hold_quiet()


def main():
    reader = argparse.ArgumentParser(description=__doc__, formatter_class=argparse.RawDescriptionHelpFormatter)
    reader.add_argument("--program", default=os.path.join(TOP, "lokwurmi"), help="lokwurmi above this folder if absent")
    reader.add_argument("--keep", metavar="FOLDER", help="where pages and pictures go to")
    words = reader.parse_args()
    with tempfile.TemporaryDirectory(ignore_cleanup_errors=True) as room:
        to = words.keep or room
        os.makedirs(to, exist_ok=True)
        pages = Pages(words.program, to, room)
        try:
            check_examples(room, words, pages.page)
            check_wide(room, pages.page)
            check_chains(room, pages.page)
            check_chain_searches(room, words.program, pages.page)
            check_cases(room, pages.page)
            check_times(words.program, pages.page)
            check_helps(words.program, pages.page)
            check_searches(words.program, pages.page)
            check_no_order(pages.page)
        finally:
            pages.browser.close()
        check_causes(room, words.program)
        check_refusals(room, words.program)
    tell()


if __name__ == "__main__":
    main()
