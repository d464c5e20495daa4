"""A page with long names in windows of five widths: what there is room for, and what stays in sight."""
import os
import re
import sys
from fractions import Fraction

try:
    import matplotlib.image
except ImportError:
    sys.exit("check_page: the package matplotlib isn't here: apt-get install python3-matplotlib, for /usr/bin/python3")

from tests.support.calls import written
from tests.tools.pages import percent, schedule_of

WIDTHS = (375, 500, 1024, 1366, 1920)
# names, numbers and paths that take much room, a frame of 29 bits, slots, a region
WIDE = """format = 4
resource = [
  { name = "unit_front", kind = "preemptive" },
  { name = "backbone", kind = "tdma", gap = 500 },
  { name = "can_front", kind = "can", bit = 2 },
  { name = "unit_rear", kind = "preemptive" },
]
source = [
  { name = "wheel_pulses", period = 800, jitter = 1600, distance = 100 },
  { name = "sampling", period = 5000, jitter = 200 },
  { name = "wheel_frames", period = 10000 },
  { name = "radar", period = 20000, jitter = 2500 },
  { name = "diagnosis", period = 100000 },
  { name = "images", period = 16667 },
]
task = [
  { name = "wheel_isr", on = "unit_front", after = "wheel_pulses", best = 12, worst = 35, priority = 1 },
  { name = "pedal", on = "unit_front", after = "sampling", best = 250, worst = 450, priority = 2 },
  { name = "diagnose", on = "unit_front", after = "diagnosis", best = 2000, worst = 8000, priority = 3, region = 400 },
  { name = "pedal_f", on = "can_front", after = "pedal", payload = 4, priority = 16 },
  { name = "wheel_f", on = "can_front", after = "wheel_frames", payload = 8, priority = 2047 },
  { name = "radar_f", on = "can_front", after = "radar", payload = 6, extended = true, priority = 2048 },
  { name = "diag_f", on = "can_front", after = "diagnose", payload = 8, extended = true, priority = 416940273 },
  { name = "camera_t", on = "backbone", after = "images", best = 200, worst = 240, slot = 250 },
  { name = "joined_t", on = "backbone", after = "join", best = 60, worst = 180, slot = 350 },
  { name = "join", on = "unit_rear", after = ["pedal_f", "wheel_f", "radar_f"], best = 9, worst = 80, priority = 4096 },
  { name = "brake", on = "unit_rear", after = "joined_t", best = 120, worst = 300, priority = 5000 },
]
path = [
  { name = "pedal_brake", tasks = ["pedal", "pedal_f", "join", "joined_t", "brake"], deadline = 12000 },
  { name = "radar_brake", tasks = ["radar_f", "join", "joined_t", "brake"], deadline = 15000 },
]
"""
WIDE_TRACE = "event,wheel_pulses,0\nevent,sampling,0\nevent,radar,0\nevent,images,0\n"
# what tells the turn of each task, and of those with a slot what they use of it: the greatest execution over the
# period, by the share of the cycle, of 250 + 350 + 500 ticks; what comes to joined_t has three periods
TURNS_TOLD = [
    "priority 1",
    "priority 2",
    "priority 3\nregion 400",
    "priority 16",
    "priority 2047",
    "priority 0x800",
    "priority 0x18DA00F1",
    "slot 250",
    "slot 350",
    "priority 4096",
    "priority 5000",
]
OF_SLOT = {
    "camera_t": Fraction(240, 16667) / Fraction(250, 1100),
    "joined_t": 180 * (Fraction(1, 5000) + Fraction(1, 10000) + Fraction(1, 20000)) / Fraction(350, 1100),
}


def near(one, other):
    return all(abs(a - b) < 0.02 for a, b in zip(one, other))


def check_lines(page, width, room):
    """The lines between rows go on under the fixed column, also where the table is moved beneath it: in a picture, by
    their colour."""
    colour = [
        int(it, 16) / 255
        for it in re.findall(
            r"[0-9a-f]{2}", page.run("getComputedStyle(document.documentElement).getPropertyValue('--line').trim()")
        )
    ]
    for table in ("path-table", "task-table"):
        page.run(f"document.querySelector('#{table}').parentElement.scrollLeft = 60")
        picture = os.path.join(room, "lines.png")
        page.browser.picture(picture, width)
        pixels = matplotlib.image.imread(picture)
        boxes = page.run(
            f"[...document.querySelectorAll('#{table} tbody th')]"
            ".map((it) => { const box = it.getBoundingClientRect();"
            " return [box.left + scrollX, box.bottom + scrollY, box.width]; })"
        )
        for place, (left, bottom, wide) in enumerate(boxes):
            # at the fixed column's start, and right behind it
            for x in (int(left) + 2, int(left + wide) + 2):
                page.hold(
                    x < width and near(pixels[round(bottom) - 1][x], colour),
                    f"{table} in a window of {width}: no line below row {place} at {x}",
                )
        page.run(f"document.querySelector('#{table}').parentElement.scrollLeft = 0")


def check_full_size(page):
    """A link shows the graph in full size, in a window of its own."""
    wanted, name = page.run(
        "(() => { const it = document.querySelector('.graph svg');"
        " return [it.width.baseVal.value, it.querySelector('.node text').textContent]; })()"
    )
    driver = page.browser.driver
    before = driver.current_window_handle
    page.browser.click("#full")
    others = [it for it in driver.window_handles if it != before]
    page.hold(len(others) == 1, f"the picture in full size opens {len(others)} windows")
    for it in others:
        driver.switch_to.window(it)
        size = page.run("document.documentElement.getBoundingClientRect().width")
        page.hold(near([size], [wanted]), f"the picture in full size has {size} pixels, not {wanted}")
        page.hold(name in page.run("document.documentElement.textContent"), "another picture in full size")
        driver.close()
        driver.switch_to.window(before)


def check_verdicts(page):
    """In a narrow window the verdict of each path and chain, and the bound of each task, are in sight, wherever the
    table is moved to."""
    page.browser.size(375)
    for moved in (0, 60, 120):
        found = page.run(
            "(() => { for (const it of document.querySelectorAll('.wide')) it.scrollLeft = " + str(moved) + ";"
            " return [...document.querySelectorAll('td.keep')].map((it) => {"
            " const box = it.getBoundingClientRect(), room = it.closest('.wide').getBoundingClientRect();"
            " return [it.closest('table').id, box.right <= room.right + 1]; }); })()"
        )
        tables = {it[0] for it in found}
        page.hold(tables >= {"path-table", "task-table"}, f"only {tables} keep a column in sight")
        for table, is_in in found:
            page.hold(is_in, f"{table}, moved by {moved}: a verdict is out of sight in a window of 375")
    page.run("(() => { for (const it of document.querySelectorAll('.wide')) it.scrollLeft = 0; })()")
    page.browser.size(1400)


def check_widths(page, room):
    """What there is room for, at five widths."""
    for width in WIDTHS:
        page.browser.size(width)
        page.hold(page.is_in_window(), f"it is wider than a window of {width}")
        page.hold(
            page.run(
                "document.querySelector('nav .links').getBoundingClientRect().right"
                " <= document.querySelector('#look').getBoundingClientRect().left"
            ),
            f"the button for light or dark covers a link in a window of {width}",
        )
        wide, first = page.run(
            "(() => { const it = document.querySelector('#path-table');"
            " return [it.parentElement.clientWidth, it.querySelector('tbody th').getBoundingClientRect().width]; })()"
        )
        page.hold(first <= 0.45 * wide, f"the first column of Paths takes {first} of {wide} in a window of {width}")
        for table in ("path-table", "task-table") if width >= 1300 else ():
            wide, needs = page.run(
                f"(() => {{ const it = document.querySelector('#{table}').parentElement;"
                " return [it.clientWidth, it.scrollWidth]; })()"
            )
            page.hold(needs <= wide, f"{table} is cut in a window of {width}: {needs} of {wide}")
        check_lines(page, width, room)
    page.browser.size(1400)


def check_wide(room, page_of):
    """A page whose tables take much room; identifiers in hexadecimal, and what is used of slots."""
    file, trace = (written(room, "wide" + end, text) for end, text in ((".toml", WIDE), (".trace.csv", WIDE_TRACE)))
    schedule = written(room, "wide.schedule.csv", schedule_of(file, trace))
    page = page_of("wide", file, "--trace", trace, "--schedule", schedule)
    page.browser.look("light")
    check_widths(page, room)
    check_verdicts(page)
    check_full_size(page)
    rows = page.rows("task-table")
    page.hold([row[2] for row in rows] == TURNS_TOLD, f"the turns of its tasks: {[row[2] for row in rows]}")
    loads = {row[0]: row[9].split("\n")[1:] for row in rows}
    page.hold(
        loads == {row[0]: [f"{percent(OF_SLOT[row[0]])} of slot"] if row[0] in OF_SLOT else [] for row in rows},
        f"what is used of slots: {loads}",
    )
    page.hold("the tightest path" in page.text(".figures"), "the tightest path")
    file = written(
        room,
        "endless.toml",
        WIDE.replace("slot = 250", "slot = 5").replace(
            "deadline = 15000 },", 'deadline = 15000 }, { name = "camera", tasks = ["camera_t"] },'
        ),
    )
    page = page_of("endless", file)
    tiles = page.text(".figures")
    page.hold(
        "tightest" not in tiles and re.search(r"1\nof 3 paths without a bound", tiles),
        f"a path without a bound: {tiles}",
    )
    page.hold_quiet()
