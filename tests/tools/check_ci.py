#!/usr/bin/env python3
"""Tries `lokwurmi verdict`, which jobs of a CI go by. Outside the gate; takes minutes, and no network.

Small systems have bounds that were worked out by hand: what is met, missed and without a bound must be told so, in
words, as JSON by its schema, and as a table that the csv module reads back, with the status that belongs to it. Of
random systems all numbers must be those of the plain rules. `diff` is tried by check_diff.py. Pipes, outputs that can't
be written, and what is refused are tried too.

    python3 -m tests.tools.check_ci 100 [--program PROGRAM]
    python3 -m tests.tools.check_ci 100 --by-rules     # a stand-in by the plain rules answers, and nothing is built
"""

from tests.support.calls import hold
from tests.support.verdicts import (
    BARE,
    CHAINS,
    HAND,
    MET,
    NEAR,
    OVER,
    TWO,
    check_pipes,
    random_pair,
    row_of,
    rows_by_rules,
    run_checks,
)

# ---- verdict


def check_words(tools, _):
    """What is said, and the status, of systems worked out by hand."""
    for text, status, told in (
        (HAND, 1, ("missed: 2 deadlines: 1 met, 1 missed", "tasks  2  each has a bound")),
        (
            HAND,
            1,
            ("paths  3  each has a bound; 2 deadlines: 1 met, 1 missed", "path pb  latency  10  deadline 9  1 too"),
        ),
        (HAND, 1, ("with the least room:\n  path pa  latency  3  deadline 3  0 left",)),
        (MET, 0, ("met: 2 deadlines: 2 met", "path pa  latency  3  deadline 3  0 left")),
        (OVER, 2, ("overload: 2 deadlines: 1 missed, 1 unknown", "tasks  2  1 has no bound", "task b   response")),
        (
            OVER,
            2,
            ("path pb  latency   deadline 9\n", "path pc  latency\n", "path pa  latency  3  deadline 2  1 too late"),
        ),
        (BARE, 0, ("met: there is no deadline, and so none is missed", "paths  0")),
    ):
        done = tools.call("verdict", tools.file("hand.toml", text))
        hold(done.returncode == status, f"status {done.returncode} in place of {status}: {done.stdout}{done.stderr}")
        for it in told:
            hold(it in done.stdout, f"not told: {it}\n{done.stdout}")
        hold(NEAR not in done.stdout and "chains" not in done.stdout, f"a premise without chains: {done.stdout}")
        hold(("too late" in done.stdout) == (text in (HAND, OVER)), f"what is late: {done.stdout}")


def check_chains(tools, _):
    """Chains: with a tick a bound has one more for each wait, and so another verdict."""
    files = tools.file("two.toml", TWO), "--chains", tools.file("two.chains.toml", CHAINS)
    done = tools.call("verdict", *files)
    hold(done.returncode == 1 and NEAR in done.stdout, f"chains: {done.stdout}{done.stderr}")
    hold("chains  2  each has a bound; 3 deadlines: 2 met, 1 missed" in done.stdout, f"chains: {done.stdout}")
    hold("chain ab  age  14  deadline 13  1 too late" in done.stdout, f"chains: {done.stdout}")
    rows, status = tools.rows("verdict", *files)
    more = ["", "", "", NEAR]
    wanted = [
        row_of("task", "a", "response", "2", "", "", "none"),
        row_of("task", "b", "response", "3", "", "", "none"),
        row_of("chain", "ab", "reaction", "23", "24", "1", "met", *more),
        row_of("chain", "ab", "age", "14", "13", "-1", "missed", *more),
        row_of("chain", "ab", "held", "23", "30", "7", "met", *more),
        row_of("chain", "free", "reaction", "23", "", "", "none", *more),
        row_of("chain", "free", "age", "14", "", "", "none", *more),
    ]
    hold((rows, status) == (wanted, 1), f"the table of chains: {rows}")
    done = tools.call("verdict", *files, "--tick", "10us")
    hold("chain ab  age       15 (150us)  deadline 13 (130us)  2 (20us) too late" in done.stdout, done.stdout)
    hold("chain ab  reaction  25 (250us)  deadline 24 (240us)  1 (10us) too late" in done.stdout, done.stdout)
    hold("a tick more for each wait" in done.stdout and NEAR in done.stdout, f"--tick: {done.stdout}")
    told = tools.json("verdict", *files, "--tick", "10us")
    wanted = {"bound": 25, "deadline": 24, "slack": -1, "verdict": "missed"}
    wanted |= {"bound_time": "250us", "deadline_time": "240us", "slack_time": "-10us"}
    hold(told["chains"][0]["reaction"] == wanted and told["tick"] == "10us", f"--tick: {told['chains'][0]}")
    hold(told["chains"][1]["held"] is None and told["premise"] == NEAR, f"--tick: {told['chains'][1]}")


def check_json(tools, _):
    """All of JSON of a system worked out by hand; bounds that are lacking, and files without chains."""
    told = tools.json("verdict", tools.file("hand.toml", OVER))
    stream = {"streams": 1, "jitter": 0, "distance": 0}
    none = {"deadline": None, "slack": None, "verdict": "none"}
    hold(
        told["tasks"]
        == [
            {"name": "a", "on": "cpu", "best": 1, "period": 10, **stream, "bound": 3, **none},
            {"name": "b", "on": "cpu", "best": 2, "period": 20, **stream, "bound": None, **none},
        ],
        f"tasks: {told['tasks']}",
    )
    hold(
        told["paths"]
        == [
            {"name": "pa", "best": 1, "bound": 3, "deadline": 2, "slack": -1, "verdict": "missed"},
            {"name": "pb", "best": 2, "bound": None, "deadline": 9, "slack": None, "verdict": "unknown"},
            {"name": "pc", "best": 2, "bound": None, **none},
        ],
        f"paths: {told['paths']}",
    )
    counts = {"count": 5, "overload": 3, "deadlines": 2, "met": 0, "missed": 1, "unknown": 1}
    hold(told["counts"]["all"] == counts, f"counts: {told['counts']}")
    rest = [told[it] for it in ("verdict", "status", "chains_file", "premise", "chains", "notices")]
    hold(rest == ["overload", 2, None, None, [], []], f"the head: {rest}")
    lonely = HAND.replace('{ name = "sb", period = 20 }', '{ name = "sb", period = 20 }, { name = "x", period = 5 }')
    told = tools.json("verdict", tools.file("lonely.toml", lonely))
    hold(len(told["notices"]) == 1 and "x" in told["notices"][0], f"notices: {told['notices']}")
    done = tools.call("verdict", tools.file("lonely.toml", lonely))
    hold("lonely.toml: notice: " in done.stderr and "notice" not in done.stdout, f"notices: {done.stderr}")


def check_refused(tools, _):
    """What is refused, by the status and the words of the program."""
    good, chains = tools.file("two.toml", TWO), tools.file("two.chains.toml", CHAINS)
    bad = tools.file("bad.toml", TWO.replace("best = 2, worst = 2", "best = 2, worst = 0"))
    none = tools.file("none.chains.toml", CHAINS.replace('"b"]', '"nobody"]', 1))
    for words, status, told in (
        ([bad], 14, ("system refused reason 2 task 1", 'bad.toml:5:60: task "a": `worst` is 0, below 1', "help:")),
        ([bad, "--json"], 14, ("system refused reason 2 task 1",)),
        ([good, "--chains", none], 18, ("chains refused reason 5 chain 1", "none.chains.toml:3:32", "nobody")),
        ([good, "--chains", chains, "--json", "--csv"], 10, ("not allowed with",)),
        ([good, "--tick", "1 week"], 10, ("--tick",)),
        ([good, "--chain", chains, "--unknown"], 10, ("--unknown",)),
        ([good, "--program", "/no/program"], 70, ("can't be called",)),
        ([good, "--program", "/bin/false"], 70, ("no whole report",)),
        ([], 10, ("FILE",)),
    ):
        done = tools.call("verdict", *words)
        hold((done.returncode, done.stdout) == (status, ""), f"{words}: {done.returncode}, {done.stdout}")
        for it in told:
            hold(it in done.stderr, f"{words}: not told: {it}\n{done.stderr}")


# ---- diff


# ---- random systems


def check_random(tools, count):
    """The table of random systems beside the plain rules."""
    statuses = [0, 0, 0]
    for number in range(count):
        file, chain_file, text, chains = random_pair(tools, number)[0]
        wanted = rows_by_rules(text, chains)
        rows, status = tools.rows("verdict", file, "--chains", chain_file)
        found = {
            (it["kind"], it["name"], it["what"]): (
                it["bound"],
                int(it["deadline"]) if it["deadline"] else None,
                it["verdict"],
            )
            for it in rows
        }
        hold(
            found == wanted and list(found) == list(wanted), f"system {number}:\n{text}\n{found}\n{wanted}", "verdicts"
        )
        words = {it[0] for it in wanted.values()}, {it[2] for it in wanted.values()}
        wanted_status = 2 if "overload" in words[0] else 1 if "missed" in words[1] else 0
        hold(status == wanted_status, f"system {number}: status {status} in place of {wanted_status}", "verdicts")
        for it in rows:
            is_both = it["deadline"] and it["bound"] != "overload"
            hold(
                it["slack"] == (str(int(it["deadline"]) - int(it["bound"])) if is_both else ""),
                f"slack: {it}",
                "verdicts",
            )
        statuses[status] += 1
    hold(all(statuses) or count < 20, f"statuses {statuses}")


def check_two_pipes(tools, _):
    check_pipes(tools, "verdict", [tools.file("two.toml", TWO), "--chains", tools.file("c.toml", CHAINS)])


def main():
    run_checks(__doc__, check_words, check_chains, check_json, check_two_pipes, check_refused, check_random)


if __name__ == "__main__":
    main()
