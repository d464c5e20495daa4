"""What holds of each page: columns that are sorted, filters, names for the keyboard, letters, light and dark, print."""
import json
import os
import re


def check_column(page, table, place, press):
    """Sorts a column up and down. What has no value comes last; numbers go by their value."""
    cell = f"it.cells[{place}]"
    start = len(page.rows(table))
    for way in ("ascending", "descending"):
        press(f"#{table} thead th:nth-child({place + 1}) button")
        page.hold(
            page.run(f"document.querySelectorAll('#{table} thead th')[{place}].getAttribute('aria-sort')") == way,
            f"{table}, column {place}: it isn't {way}",
        )
        values = page.run(
            f"[...document.querySelectorAll('#{table} tbody tr')]"
            f".map((it) => {cell}.dataset.v ?? {cell}.textContent.trim())"
        )
        known = [it for it in values if it != ""]
        page.hold(
            len(values) == start and values[: len(known)] == known,
            f"{table}, column {place}: rows are lost, or those without a value aren't last: {values}",
        )
        if all(re.fullmatch(r"-?[\d.]+(e[+-]?\d+)?", it) for it in known):
            numbers = [float(it) for it in known]
            page.hold(
                numbers == sorted(numbers, reverse=way == "descending"),
                f"{table}, column {place}: it isn't {way}: {numbers}",
            )
        else:
            pairs = [(b, a) if way == "descending" else (a, b) for a, b in zip(known, known[1:])]
            page.hold(
                page.run(f"{json.dumps(pairs)}.every(([a, b]) => a.localeCompare(b, 'en', {{numeric: true}}) <= 0)"),
                f"{table}, column {place}: it isn't {way}: {known}",
            )


def check_sorting(page):
    for table in page.run("[...document.querySelectorAll('table')].map((it) => it.id)"):
        heads = page.run(
            f"[...document.querySelectorAll('#{table} thead th')].map((it) => it.hasAttribute('aria-sort'))"
        )
        for place, sorts in enumerate(heads):
            if sorts:
                check_column(page, table, place, page.press if place % 2 else page.browser.click)


def check_filters(page):
    tasks = page.table("task-table")
    resource = tasks[-1]["Resource"]
    wanted = sorted(it["Task"] for it in tasks if it["Resource"] == resource)
    page.choose("task-table", "on", resource)
    page.hold(sorted(page.shown("task-table")) == wanted, f"the filter of the resource {resource}")
    page.hold(page.count_shown("task-table") == f"{len(wanted)} of {len(tasks)}", "the count of what is shown")
    page.clear("task-table")
    page.hold(len(page.shown("task-table")) == len(tasks), "Escape doesn't show all again")
    word = tasks[-1]["Task"]
    for letter in word:
        page.browser.key(letter, letter)
    shown = page.shown("task-table")
    words = page.run(
        "Object.fromEntries([...document.querySelectorAll('#task-table tbody tr')]"
        ".map((it) => [it.dataset.name, it.dataset.words]))"
    )
    page.hold(
        word in shown and sorted(shown) == sorted(it for it, text in words.items() if word in text),
        f"what is typed, {word}, shows {shown}",
    )
    page.clear("task-table")
    page.choose("task-table", "is", "overload")
    page.hold(
        sorted(page.shown("task-table")) == sorted(it["Task"] for it in tasks if it["Bound"] == "overload"),
        "the filter of what has no bound",
    )
    page.clear("task-table")
    page.browser.click(f'button[data-show="{resource}"]')
    page.hold(sorted(page.shown("task-table")) == wanted, f"the number of the tasks of {resource} leads to them")
    page.clear("task-table")


def is_dark(page):
    paper, ink = (
        sum(map(int, re.findall(r"\d+", it)[:3]))
        for it in page.run(
            "(() => { const it = getComputedStyle(document.body); return [it.backgroundColor, it.color]; })()"
        )
    )
    return True if paper < 200 and ink > 400 else False if paper > 600 and ink < 200 else None


def check_views(page, keep):
    browser = page.browser
    for scheme in ("light", "dark"):
        browser.look(scheme)
        page.hold(is_dark(page) == (scheme == "dark"), f"its colours in {scheme}")
        for width in (1400, 420) if keep else ():
            browser.picture(os.path.join(keep, f"{page.name}.{scheme}.{width}.png"), width)
    browser.size(1400)
    browser.click("#look")
    page.hold(is_dark(page) is False, "the button doesn't make it light")
    browser.click("#look")
    page.hold(is_dark(page) is True, "the button doesn't make it dark again")
    for width in (1400, 420):
        browser.size(width)
        page.hold(page.is_in_window(), f"it is wider than a window of {width}")
    browser.size(1400)
    browser.look("dark", "print")
    page.hold(
        page.run("getComputedStyle(document.body).backgroundColor") == "rgb(255, 255, 255)" and is_dark(page) is False,
        "its print isn't light",
    )
    page.hold(
        all(
            page.run(f"getComputedStyle(document.querySelector('{it}')).display") == "none" for it in ("nav", ".tools")
        ),
        "its print has what only a screen wants",
    )
    document = browser.printed()
    page.hold(document.startswith(b"%PDF") and len(document) > 5000, "it doesn't print")
    if keep:
        with open(os.path.join(keep, page.name + ".pdf"), "wb") as it:
            it.write(document)
    browser.look("light")


def check_names(page):
    """What can be reached by keyboard has a name, and no two elements have one id."""
    page.hold(
        page.run(
            "[...document.querySelectorAll('button, a, [tabindex]')]"
            ".every((it) => (it.getAttribute('aria-label') || it.textContent.trim()))"
        ),
        "an element has no name",
    )
    page.hold(
        page.run("[...document.querySelectorAll('input, select')].every((it) => it.labels.length === 1)"),
        "a field has no label",
    )
    page.hold(
        page.run(
            "new Set([...document.querySelectorAll('[id]')].map((it) => it.id)).size"
            " === document.querySelectorAll('[id]').length"
        ),
        "an id stands twice",
    )
    page.hold(
        page.run(
            "[...document.querySelectorAll('nav a, a.skip')].every((it) => document.getElementById(it.hash.slice(1)))"
        ),
        "a link within the page leads nowhere",
    )
    page.run("document.activeElement.blur()")
    page.browser.key("Tab")
    page.hold(
        page.run("document.activeElement.className") == "skip", "the key Tab doesn't begin at the link to the tasks"
    )


def check_letters(page):
    """The smallest letters of the graph have 9 pixels at least, in a window of 1280 pixels and in a narrow one; what
    has no room is moved there, and the page isn't."""
    for width in (375, 1280):
        page.browser.size(width)
        least, is_moved = page.run(
            "(() => { const it = document.querySelector('.graph svg'), room = it.parentElement;"
            " const scale = it.getBoundingClientRect().width / it.viewBox.baseVal.width;"
            " const letters = [...it.querySelectorAll('text')].map((text) =>"
            " parseFloat(text.getAttribute('font-size')));"
            " return [Math.min(...letters) * scale, room.scrollWidth <= room.clientWidth"
            " || getComputedStyle(room).overflowX === 'auto']; })()"
        )
        page.hold(least >= 9, f"letters of {least} pixels in a window of {width}")
        page.hold(is_moved, f"a part of the graph is out of reach in a window of {width}")
        page.hold(page.is_in_window(), f"it is wider than {width}")
    page.browser.size(1400)
