"""What `lokwurmi explain --chain` tells, by the plain rules of chains: for check_explain.py."""
import json
import os
import random
import re
import tomllib

from lokwurmi_tools.bounds.explained import Explained
from lokwurmi_tools.bounds.explained_chain import ExplainedChains, lines_of_chain
from lokwurmi_tools.shared.analysed import analysed
from lokwurmi_tools.shared.chain_files import AskedChain
from tests.rules import bounds, effect_chains
from tests.support import chain_texts, systems
from tests.support.calls import TOP, hold, run, written
from tests.support.stand_in import stand_in

TOOL = "explain"
EFFECTS = os.path.join(TOP, "examples", "effects.toml")


def wanted_parts(rules, tasks):
    """The parts of a reaction: a wait for each job that may have been missed, and all responses."""
    found = []
    for before, name in zip([None, *tasks], tasks):
        if rules.kind(before, name) in ("first", "register"):
            found.append((name, "wait", ticks_of(rules.wait(name))))
        found.append((name, "response", ticks_of(rules.bound[name])))
    return found


def ticks_of(bound):
    return None if bound == bounds.OVERLOAD else bound


def check_chain(what, told, rules, tasks):
    """The parts of a chain, their sums, and the streams that it waits for."""
    limits = rules.limits(tasks)
    for asked in effect_chains.ASKED:
        bound = ticks_of(limits[asked])
        ticks = [it["ticks"] for it in told[asked]["parts"]]
        comes = None if None in ticks else sum(ticks)
        hold(told[asked]["bound"] == bound == comes, f"{what}, {asked}: {told[asked]}, and not {bound}", "chains")
    for asked in ("reaction", "held"):
        parts = [(it["task"], it["kind"], it["ticks"]) for it in told[asked]["parts"]]
        hold(parts == wanted_parts(rules, tasks), f"{what}, {asked}: {parts}", "chains")
    for it in told["reaction"]["parts"]:
        if it["kind"] == "wait" and it["ticks"] is not None:
            stream = it["stream"]
            whole = stream["period"] + stream["jitter"] - 1
            of = sum(ticks for _, ticks in stream["of"]) == stream["jitter"]
            hold(whole == it["ticks"] and of, f"{what}: the wait of {it}", "chains")


def check_random_chains(numbers, room):
    """Chains of random systems, all by the plain rules."""
    program = stand_in(room)
    for number in numbers:
        text, pick = systems.random_file(number), random.Random(f"chains of {number}")
        file = written(room, "chained.toml", text)
        known = analysed(program, file)
        rules = effect_chains.Bounds(text)
        chains = ExplainedChains(Explained(known.view, known.report), program, file)
        for _ in range(2):
            tasks = [pick.choice(list(rules.rules.tasks)) for _ in range(pick.randint(1, 4))]
            told = chains.chain(AskedChain("", tasks, {}))
            lines_of_chain(told, chains.explained)
            check_chain(f"system {number}, chain {tasks}", told, rules, tasks)
        hold(not chains.faults, f"system {number}: {chains.faults}", "chains")


def check_chain_texts(room, program):
    """What is written of chains: sums that are worked out by hand, times, and another file's deadlines."""
    listed = written(room, "listed.toml", chain_texts.text_of([("c", ["sense", "filter", "act"], 46, 30, 48)]))
    words = [EFFECTS, "--program", program, "--chains", listed, "--chain", "c"]
    done = run(TOOL, *words, env={"PYTHONIOENCODING": "utf-8"})
    for said in (
        "  reaction: 47 ticks if sources stay near, of 46: missed\n",
        "  age: 28 ticks if sources stay near, of 30: met\n",
        "  held: 47 ticks if sources stay near, of 48: met\n",
        "    9 + 3 + 19 + 7 + 9 = 47\n",
        "    9 + 3 + 7 + 9 = 28\n",
        "a source that falls silent",
    ):
        hold(said in done.stdout and done.returncode == 0, f"{said}: {done.stdout} {done.stderr}", "chain texts")
    # the filter takes 2 to 7 ticks, and starts act
    done = run(TOOL, EFFECTS, "--program", program, "--chain", "sense,act")
    hold("period 20 of slow + jitter 5 (filter 7 - 2) - 1 tick" in done.stdout, done.stdout, "chain texts")
    # between ticks two waits have a tick more, and of the age one
    told = json.loads(run(TOOL, *words, "--json", "--tick", "1ms").stdout)["chains"][0]
    found = [told[it]["bound"] for it in effect_chains.ASKED]
    hold(found == [49, 29, 49] and told["held"]["verdict"] == "missed", f"--tick: {found}", "chain texts")
    hold(told["premise"] == "if sources stay near", "the premise in JSON", "chain texts")
    told = json.loads(run(TOOL, EFFECTS, "--program", program, "--chains", listed, "--all", "--json").stdout)
    hold([it["chain"] for it in told["chains"]] == ["c"] and len(told["tasks"]) == 3, "--all", "chain texts")


def check_chain_faults(room, program):
    """Chains that aren't taken, a bound that isn't the sum of its parts, and one that isn't there."""
    listed = written(room, "listed.toml", chain_texts.text_of([("c", ["sense"], None, None, None)]))
    bad = written(room, "bad.toml", chain_texts.text_of([("c", ["nobody"], None, None, None)]))
    endless = os.path.join(TOP, "examples", "overload.toml")
    for words, status, said in (
        ([EFFECTS, "--chain", "sense,no"], 1, "has no task no; it has sense, filter, act"),
        ([EFFECTS, "--chains", listed, "--chain", "d"], 1, "there is no chain d; it has c"),
        ([EFFECTS, "--chains", listed], 1, "name a task, or --path PATH, or --all, or --chain TASK,TASK.."),
        ([EFFECTS, "act", "--chains", listed], 1, "--chains wants --chain, the name of one of them, or --all"),
        ([EFFECTS, "--chains", bad, "--chain", "c"], 1, 'bad.toml: line 3: chain "c": no task is called "nobody"'),
        ([endless, "--chain", "a1,b1", "--to", "chain.svg"], 1, "there is nothing to draw"),
    ):
        done = run(TOOL, *words, "--program", program)
        is_told = said in done.stderr and "Traceback" not in done.stderr
        hold(done.returncode == status and is_told, f"{words}: {done.returncode} {done.stderr}", "chain faults")
    done = run(TOOL, endless, "--chain", "a1,b1", "--program", program)
    told = "reaction: no bound" in done.stdout and re.search(r"^    b1 +response +overload$", done.stdout, re.M)
    hold(told and done.returncode == 0, f"{done.stdout} {done.stderr}", "chain faults")
    done = run(TOOL, EFFECTS, "--chain", "sense,act", "--program", stand_in(room), env={"LESS": "1"})
    said = "an error of this tool: chain sense,act: the parts of the reaction come to 45, and its bound is 10"
    hold(done.returncode == 1 and said in done.stderr, f"{done.returncode} {done.stderr}", "chain faults")


def check_chain_picture(python, room, program):
    """The picture of a chain: its parts and its bounds."""
    with open(EFFECTS, encoding="utf-8") as it:
        rules = effect_chains.Bounds(it.read())
    with open(os.path.join(TOP, "examples", "effects.chains.toml"), "rb") as it:
        tasks = next(it["tasks"] for it in tomllib.load(it)["chain"] if it["name"] == "brake")
    picture = os.path.join(room, "chain.svg")
    words = ["--chains", os.path.join(TOP, "examples", "effects.chains.toml"), "--chain", "brake", "--to", picture]
    done = run(TOOL, EFFECTS, "--program", program, *words, python=python)
    with open(picture, encoding="utf-8") as it:
        texts = [it.strip() for it in re.findall(r"<text[^>]*>([^<]*)</text>", it.read())]
    limits = rules.limits(tasks)
    several = {"reaction", "age", str(limits["reaction"]), str(limits["age"]), f"wait {rules.wait('filter')}"}
    premise = any("if sources stay near" in it for it in texts)
    hold(done.returncode == 0 and several <= set(texts) and premise, f"{texts} {done.stderr}", "chain picture")
