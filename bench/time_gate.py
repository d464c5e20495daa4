#!/usr/bin/env python3
"""Takes the time of each part of the gate: the proofs of a crate, those of its tests, and its edits that must fail.

Runs `rt ci` in the repository's top folder, on as many processors as are asked for, looks every second at the provers
that run, and prints a row a crate as docs/MAP.md has them: seconds of one processor for the proofs, the tests and all
edits. What an earlier run on this machine has proved takes no time and has no row: `--anew` has everything proved.
Where `rt ci` has no such word, as that of rattle-kit-13b, it proves everything each time, and takes no names of crates
either. With `--edits` a line for each edit follows, the dearest first: what one costs is what it takes to read the
crate, and to search for what it makes false. The last lines have the time by the clock and that of all processors, and
how fast the machine was: the seconds that a short loop took one processor before, every five minutes on one that isn't
measured, where there is one, and after. Times of two runs can be compared only as far as these are alike.

    python3 -m bench.time_gate --processors 2 --anew
    python3 -m bench.time_gate --log gate.log --edits cpa_units cpa_io
"""
import argparse
import collections
import glob
import os
import subprocess
import sys
import time

TOP = os.path.join(os.path.dirname(os.path.abspath(__file__)), "..")
TICKS = os.sysconf("SC_CLK_TCK")
KINDS = ("proofs", "tests", "edits")
LOOP = """
import time
begun, total = time.perf_counter(), 0
for step in range(15_000_000): total += step * step % 7
print(time.perf_counter() - begun)
"""


def start_loop(processor):
    """Begins the loop by whose time machines are compared."""
    words = ["taskset", "-c", str(processor), sys.executable, "-c", LOOP]
    return subprocess.Popen(words, stdout=subprocess.PIPE, text=True)


def seconds_of(loops):
    """The seconds that each of these loops took, as text."""
    return ", ".join(f"{float(loop.communicate()[0] or 'nan'):.1f}" for loop in loops) or "none"


def processes():
    """Each process: its parent, its words, its own ticks, and those of the children that it has waited for."""
    found = {}
    for entry in os.listdir("/proc"):
        if not entry.isdigit():
            continue
        try:
            with open(f"/proc/{entry}/stat", encoding="utf-8", errors="replace") as file:
                fields = file.read().rsplit(")", 1)[1].split()
            with open(f"/proc/{entry}/cmdline", "rb") as file:
                words = file.read().decode(errors="replace").split("\0")
        except OSError:
            continue
        own, waited = int(fields[11]) + int(fields[12]), int(fields[13]) + int(fields[14])
        found[int(entry)] = (int(fields[1]), words, own, waited, fields[19])
    return found


def is_prover(words):
    return os.path.basename(words[0]) == "rattle" and "--crate-name" in words


def texts_with(edit, crate):
    """The texts of a crate's files that an edit changes, with it."""
    texts, file = {}, ""
    with open(edit, encoding="utf-8") as lines:
        for line in lines.read().split("\n"):
            word, _, text = line.partition(": ")
            if word == "file":
                file = text.strip()
            elif word == "old":
                old = text
            elif line.startswith("new:") and file:
                if file not in texts:
                    with open(os.path.join(TOP, "crates", crate, file), encoding="utf-8") as source:
                        texts[file] = source.read()
                texts[file] = texts[file].replace(old, text)
    return texts


def edit_in(folder, crate):
    """Which edit a copy of a crate has; none in the copy that all begin with."""
    for edit in sorted(glob.glob(os.path.join(TOP, "crates", crate, "must-fail", "*.edit"))):
        try:
            texts = texts_with(edit, crate)
            for file, text in texts.items():
                with open(os.path.join(folder, file), encoding="utf-8") as source:
                    if source.read() != text:
                        break
            else:
                return os.path.splitext(os.path.basename(edit))[0]
        except OSError:
            continue
    return ""


def kind_of(pid, words, name):
    """What part of the gate a prover works at, and which edit it tries."""
    try:
        folder = os.readlink(f"/proc/{pid}/cwd")
    except OSError:
        folder = ""
    if os.path.basename(folder).startswith("rt-edit-"):
        return "edits", edit_in(folder, name)
    return "tests" if "--test" in words else "proofs", ""


def look(root, parts):
    """Notes the time that each prover below a process has taken so far."""
    found = processes()
    children = collections.defaultdict(list)
    for pid, (parent, *_) in found.items():
        children[parent].append(pid)

    def below(pid):
        for child in children[pid]:
            yield child
            yield from below(child)

    for pid in below(root):
        parent, words, own, waited, begun = found[pid]
        if not is_prover(words) or is_prover(found.get(parent, (0, [""]))[1]):
            continue
        spent = own + waited + sum(found[child][2] + found[child][3] for child in below(pid))
        name = words[words.index("--crate-name") + 1]
        key = (pid, begun)
        kind, edit = parts[key][1:3] if key in parts else kind_of(pid, words, name)
        parts[key] = (name, kind, edit, max(spent, parts[key][3] if key in parts else 0))


def words_of_gate(anew, crates):
    """The words that start the gate: by the help of `rt` it is seen whether its `ci` takes any of its own."""
    told = subprocess.run(
        ["rt", "help"], stdout=subprocess.PIPE, stderr=subprocess.STDOUT, text=True, check=False
    ).stdout
    if "--anew" in told:
        return ["rt", "ci", *(["--anew"] if anew else []), *crates]
    if crates:
        sys.exit("time_gate.py: `rt ci` of this toolchain takes no names: leave them out, and the whole gate is timed")
    if anew:
        print("`rt ci` of this toolchain proves all from nothing each time: --anew is left out", file=sys.stderr)
    return ["rt", "ci"]


def main():
    parser = argparse.ArgumentParser(description=__doc__, formatter_class=argparse.RawDescriptionHelpFormatter)
    parser.add_argument("crates", nargs="*", help="the crates to prove, with those below them; all without")
    parser.add_argument("--processors", type=int, default=os.cpu_count(), help="on how many processors")
    parser.add_argument(
        "--anew", action="store_true", help="prove all, also what an earlier run on this machine has proved"
    )
    parser.add_argument("--edits", action="store_true", help="tell each edit's time too")
    parser.add_argument("--log", default="gate.log", help="where the words of `rt ci` go (gate.log)")
    chosen = parser.parse_args()
    words = ["taskset", "-c", f"0-{chosen.processors - 1}", *words_of_gate(chosen.anew, chosen.crates)]
    before = seconds_of([start_loop(0)])
    parts, begun, shown, looped, beside = {}, time.monotonic(), 0, time.monotonic(), []
    with (
        open(chosen.log, "w", encoding="utf-8") as log,
        subprocess.Popen(words, cwd=TOP, stdout=log, stderr=log) as gate,
    ):
        while gate.poll() is None:
            look(gate.pid, parts)
            if time.monotonic() - shown > 60:
                shown = time.monotonic()
                print(f"{(shown - begun) / 60:.0f} minutes so far", file=sys.stderr, flush=True)
            if chosen.processors < os.cpu_count() and time.monotonic() - looped > 300:
                looped = time.monotonic()
                beside.append(start_loop(os.cpu_count() - 1))
            time.sleep(1)
    clock = time.monotonic() - begun
    seconds = tell_parts(parts, chosen.edits)
    print(
        f"{clock / 60:.1f} minutes by the clock on {chosen.processors} processors, "
        f"{seconds / 60:.1f} of one processor, status {gate.returncode}"
    )
    print(
        f"a short loop took {before} s before, {seconds_of(beside)} beside the run,"
        f" {seconds_of([start_loop(0)])} after it"
    )
    return gate.returncode


def tell_parts(parts, with_edits):
    """Prints a row for each crate, and maybe each edit; the seconds of one processor in all."""
    spent, counts = collections.Counter(), collections.Counter()
    each = collections.Counter()
    for name, kind, edit, ticks in parts.values():
        spent[name, kind] += ticks / TICKS
        counts[name, kind] += 1
        if edit:
            each[f"{name}/{edit}"] += ticks / TICKS
    for name in sorted({name for name, _ in spent}):
        cells = [f"{spent[name, kind]:.0f}" if counts[name, kind] else "none" for kind in KINDS]
        print(f"| `{name}` | " + " | ".join(cells) + " |")
    for edit, seconds in each.most_common() if with_edits else []:
        print(f"{seconds:6.0f} {edit}")
    return sum(spent.values())


if __name__ == "__main__":
    sys.exit(main())
