#!/usr/bin/env python3
"""Tries `lokwurmi diff`, which jobs of a CI go by. Outside the gate; takes minutes, and no network.

Two versions of small systems differ in what was worked out by hand: what got worse or better, is missed or lost now
must be told so, in words, as JSON by its schema, and as a table, with the status that belongs to it. What changes
between two random systems is what a comparison by the plain rules says. Pipes, and what is refused, are tried too.

    python3 -m tests.tools.check_diff 100 [--program PROGRAM] [--by-rules]
"""
import subprocess

from tests.support.calls import hold
from tests.support.verdicts import (
    BARE,
    CHAINS,
    HAND,
    MET,
    NEAR,
    OVER,
    TWO,
    check_pipes,
    random_pair,
    rows_by_rules,
    run_checks,
)

# with 4 ticks of a, b is interrupted twice: 7 + 8 = 15; with 8 ticks of b it is too: 8 + 6 = 14
LATER = HAND.replace("worst = 3", "worst = 4")
LONGER = HAND.replace("worst = 7", "worst = 8")
THIRD = '  { name = "c", on = "cpu", after = "sb", best = 9, worst = 99, priority = 3 },\n]\n'
MORE = BARE.replace("priority = 2 },\n]\n", f"priority = 2 }},\n{THIRD}")
# one task whose bound is what it takes, by which a tick is next to nothing
LONG = """format = 1
resource = [{ name = "cpu", kind = "preemptive" }]
source = [{ name = "s", period = 9000000 }]
task = [{ name = "a", on = "cpu", after = "s", best = 1, worst = 900000, priority = 1 }]
"""
LONG_AND_1, LONG_LESS = LONG.replace("900000,", "900001,"), LONG.replace("900000,", "1,")
SAME = "no worse: no bound is lost, and no deadline newly missed"
# two versions worked out by hand, the words of the call, its status, and what is told
CHANGED = (
    (HAND, HAND, (), 0, (SAME, "5 bounds: 5 same\n")),
    (HAND, HAND, ("--all",), 0, ("the same:\n  task a   response  3", "path pb  latency   10    deadline 9: missed")),
    (HAND, LATER, (), 1, ("worse: 1 deadline is newly missed\n  5 bounds: 5 worse",)),
    (HAND, LATER, (), 1, ("newly missed:\n  path pa  latency  3 → 4  +1, +33.4 %  deadline 3: met → missed",)),
    (HAND, LATER, (), 1, ("path pb  latency   10 → 15  +5, +50.0 %  deadline 9: missed",)),
    (LATER, HAND, (), 0, (SAME, "newly met:\n  path pa", "-1, -25.0 %  deadline 3: missed → met", "1 newly met")),
    (MET, HAND, (), 1, ("path pb  latency  10    deadline 12 → deadline 9: met → missed",)),
    (HAND, MET, (), 0, ("5 same, 1 newly met, 1 with another deadline", "deadline 9 → deadline 12: missed → met")),
    (HAND, OVER, (), 2, ("worse: 3 bounds are lost, 1 deadline is newly missed", "task b   response  10 → overload")),
    (
        OVER,
        HAND,
        (),
        0,
        (SAME, "with a bound now:", "path pb  latency   overload → 10    deadline 9: unknown → missed"),
    ),
    (BARE, HAND, (), 1, ("3 appeared", "path pb  latency  - → 10    deadline 9: missed")),
    (HAND, BARE, (), 0, (SAME, "3 went", "went:\n  path pa  latency  3 → -     deadline 3: met")),
    (BARE, MORE, (), 2, ("worse: 1 bound is lost", "task c  response  - → overload")),
    (HAND, LONGER, ("--worse", "4"), 0, ("newly missed; no bound grew by more than 4 ticks", "+4, +40.0 %")),
    (HAND, LONGER, ("--worse", "3"), 1, ("worse: 3 bounds grew by more than 3 ticks",)),
    (HAND, LATER, ("--worse", "1"), 1, ("newly missed, 3 bounds grew by more than 1 tick\n",)),
    (HAND, LONGER, ("--worse", "40%"), 0, ("no bound grew by more than 40 %",)),
    (HAND, LONGER, ("--worse", "39.9%"), 1, ("worse by more than 39.9 %:\n  task b",)),
    (LONG, LONG_AND_1, (), 0, ("worse:\n  task a  response  900000 → 900001  +1, +0.0002 %",)),
    (LONG_AND_1, LONG, (), 0, ("better:\n  task a  response  900001 → 900000  -1, -0.0001 %",)),
    (LONG, LONG_LESS, (), 0, ("better:\n  task a  response  900000 → 1  -899999, -99.9 %",)),
    (HAND, LONGER, ("--tick", "10us"), 0, ("10 (100us) → 14 (140us)  +4 (+40us), +40.0 %",)),
)


def check_changes(tools, _):
    """What is told of two versions worked out by hand, and the status."""
    for before, after, words, status, told in CHANGED:
        files = tools.file("before.toml", before), tools.file("after.toml", after)
        done = tools.call("diff", *files, *words)
        hold(done.returncode == status, f"{words}: status {done.returncode} in place of {status}: {done.stdout}")
        for it in told:
            hold(it in done.stdout, f"{words}: not told: {it}\n{done.stdout}{done.stderr}")
        hold(NEAR not in done.stdout, f"a premise without chains: {done.stdout}")


def check_changed_chains(tools, _):
    """Chains side by side, as files and as kept texts: with 5 ticks of b each bound has 2 more."""
    before, after = tools.file("two.toml", TWO), tools.file(
        "more.toml", TWO.replace("best = 3, worst = 3", "best = 3, worst = 5")
    )
    chains = tools.file("two.chains.toml", CHAINS)
    done = tools.call("diff", before, after, "--chains", chains)
    hold(done.returncode == 1 and NEAR in done.stdout, f"chains: {done.stdout}{done.stderr}")
    hold("chain ab  reaction  23 → 25  +2, +8.7 %  deadline 24: met → missed" in done.stdout, f"chains: {done.stdout}")
    hold("chain ab    age       14 → 16  +2, +14.3 %  deadline 13: missed" in done.stdout, f"chains: {done.stdout}")
    timed = tools.call("diff", before, after, "--chains", chains, "--tick", "1us")
    hold("25 (25us) → 27 (27us)" in timed.stdout and timed.returncode == 0, f"chains, --tick: {timed.stdout}")
    kept = []
    for name, words in (("a.txt", ["analyse", before]), ("a.chains.txt", ["chains", before, chains])):
        wrote = subprocess.run([tools.program, *words], stdout=subprocess.PIPE, text=True, check=False).stdout
        kept.append(tools.file(name, wrote))
    again = tools.call("diff", kept[0], after, "--chains-a", kept[1], "--chains-b", chains)
    hold((again.returncode, again.stdout) == (1, done.stdout), f"of kept texts: {again.stdout}{again.stderr}")
    told = tools.json("diff", before, after, "--chains", chains)
    hold(told["premise"] == NEAR and told["counts"]["newly_missed"] == 1, f"chains as JSON: {told['counts']}")
    rows, _ = tools.rows("diff", before, after, "--chains", chains)
    hold(all((it["premise"] == NEAR) == (it["kind"] == "chain") for it in rows), f"chains as a table: {rows}")
    check_damaged(tools, before, kept, chains)
    check_refused_words(tools, before, kept, chains)


def check_damaged(tools, good, kept, chains):
    """Kept reports that are damaged."""
    with open(kept[0], encoding="utf-8") as it:
        report = it.read()
    with open(kept[1], encoding="utf-8") as it:
        judged = it.read()
    damaged = [
        (report.replace("best 2 worst 2", "best 2 wrst 2"), "line 1: `wrst` isn't `worst`"),
        (report.replace("worst 3", "worst x"), "line 2: `x` isn't a number or overload"),
        (report.replace("worst 3", "worst \u0663"), "line 2: `\u0663` isn't a number or overload"),
        (report.replace("worst 3", "worst " + 5000 * "9"), f"line 2: `{80 * '9'}` isn't a number or overload"),
        (report.replace("worst 3", "worst"), "line 2: the end of the line isn't a number or overload"),
        (report.replace("worst 3", "worst 3 4"), "line 2: `4` is a word too many"),
        (report.replace("task b", "task a"), "line 2: the task `a` stands there twice"),
        (report.replace("tasks 2", "tasks 3"), "line 3: the counts of the summary aren't those of the lines, 2 0 0"),
        (report.replace("missed 0", "missed 1"), "line 3: the counts of the summary"),
        (report * 2, "line 4: something stands behind the report"),
        (report.partition("summary")[0], "line 2: the report isn't whole"),
    ]
    for text, told in damaged:
        done = tools.call("diff", tools.file("damaged.txt", text), good)
        is_told = f"damaged.txt: {told}" in done.stderr and "as it is" in done.stderr
        hold(is_told and (done.returncode, done.stdout) == (14, ""), f"damaged: {told}: {done.stderr}")
    for text, told in (
        (
            judged.replace("24 met", "24 missed"),
            "line 1: `missed` is no verdict on 23 with the deadline 24: that is met",
        ),
        (judged.replace(" if sources stay near", ""), "line 3: the end of the line isn't `if`"),
        (judged.replace("summary chains 2", "summary chains 1"), "line 3: the counts of the summary"),
    ):
        words = [good, "--chains-a", tools.file("damaged.txt", text), "--chains-b", chains]
        done = tools.call("diff", good, *words)
        hold(f"damaged.txt: {told}" in done.stderr and done.returncode == 14, f"damaged: {told}: {done.stderr}")


def check_refused_words(tools, good, kept, chains):
    """Options that don't go together, and files that are refused as everywhere."""
    for words, told in (
        ([good], "B"),
        ([good, good, "--worse", "x"], "x says no growth"),
        ([good, good, "--worse", "-1"], "--worse"),
        ([good, good, "--chains-a", chains], "--chains-a wants --chains-b beside it"),
        ([good, good, "--chains", chains, "--chains-b", chains], "--chains is for both"),
        ([kept[0], good, "--chains", chains], "it is a report, of which --chains "),
        ([good, good, "--chains-a", kept[1], "--chains-b", chains, "--tick", "1us"], "doesn't say how many waits"),
    ):
        done = tools.call("diff", *words)
        hold((done.returncode, done.stdout) == (10, "") and told in done.stderr, f"{words}: {done.stderr}")
    for words, status in (([good, "nothing.toml"], 11), ([good, chains], 14), ([good, good, "--chains", good], 18)):
        done = tools.call("diff", *words)
        hold(done.returncode == status and f"status {status}: " in done.stderr, f"{words}: {done.stderr}")


def shift_by_rules(old, new):
    """What becomes of a bound that is on both sides, by its words."""
    if old == new:
        return "same"
    if "overload" in (old, new):
        return "lost" if new == "overload" else "found"
    return "worse" if int(new) > int(old) else "better"


def change_by_rules(old, new):
    """What a table of changes has of a bound: its shift, whether a deadline is newly met or missed, and whether it is
    lost."""
    if old is None or new is None:
        is_new = old is None
        newly = "missed" if is_new and new[2] == "missed" else ""
        return "appeared" if is_new else "went", newly, is_new and new[0] == "overload"
    newly = "missed" if new[2] == "missed" and old[2] in ("met", "none") else ""
    newly = "met" if new[2] == "met" and old[2] in ("missed", "unknown") else newly
    shift = shift_by_rules(old[0], new[0])
    return shift, newly, shift == "lost"


def check_random_pairs(tools, count):
    """The table of two random versions beside a comparison of what the plain rules say of each."""
    statuses = [0, 0, 0]
    for number in range(count):
        (file, chains, *one), (other, other_chains, *two) = random_pair(tools, number)
        before, after = rows_by_rules(*one), rows_by_rules(*two)
        wanted = {key: change_by_rules(before.get(key), after.get(key)) for key in before | after}
        words = [file, other, "--chains-a", chains, "--chains-b", other_chains]
        rows, status = tools.rows("diff", *words, "--all")
        found = {(it["kind"], it["name"], it["what"]): it for it in rows}
        hold(set(found) == set(wanted), f"pair {number}: {set(found) ^ set(wanted)}", "pairs")
        for key, it in found.items():
            hold((it["shift"], it["newly"]) == wanted[key][:2], f"pair {number}: {it}, {wanted[key]}", "changes")
            for side, kept in (("a", before), ("b", after)):
                cells = [it[f"{name}_{side}"] for name in ("bound", "deadline", "verdict")]
                told = ["" if cell is None else str(cell) for cell in kept.get(key, ("", "", ""))]
                hold(cells == told, f"pair {number}: {it}, {told}", "changes")
        lost, missed = any(it[2] for it in wanted.values()), any(it[1] == "missed" for it in wanted.values())
        hold(status == (2 if lost else 1 if missed else 0), f"pair {number}: status {status}", "pairs")
        statuses[status] += 1
        changed = [key for key in wanted if before.get(key) != after.get(key)]
        told = tools.json("diff", *words)["changes"]
        hold({(it["kind"], it["name"], it["what"]) for it in told} == set(changed), f"pair {number}: {told}", "pairs")
    hold(all(statuses) or count < 20, f"statuses of pairs {statuses}")


def check_two_pipes(tools, _):
    check_pipes(tools, "diff", [tools.file("hand.toml", HAND), tools.file("after.toml", LATER)])


if __name__ == "__main__":
    run_checks(__doc__, check_changes, check_changed_chains, check_two_pipes, check_random_pairs)
