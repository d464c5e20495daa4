#!/usr/bin/env bash
# Hostile use of the program: outputs that can't be written, files that can't be read, words that are no text, inputs as large
# and as deep as they may be on a small stack, long and damaged lists of activators, and largest numbers. Prints a line a case,
# and ends with 1 where one answers otherwise than it should. Outside the gate: bash tests/hard_use/check_hostile.sh
top=$(cd "$(dirname "${BASH_SOURCE[0]}")/../.." && pwd) || exit 1
program=$top/crates/cpa_cli/out/cpa_cli
work=$(mktemp -d) || exit 1
trap 'rm -rf "$work"' EXIT
cd "$work" || exit 1
[ -x "$program" ] || "$top/lokwurmi" analyse "$top/examples/two_tasks.toml" >first || exit 1
cp "$top/examples/two_tasks.toml" two.toml
cp "$top/examples/car_network.toml" car.toml
wrong=0

# Makes a call with a stack of 256 KB, and says whether its status is the one that is wanted, and whether the last line of its
# text begins so. The words of the call come after these two.
answers() {
  local status=$1 last=$2
  shift 2
  words=$*
  (ulimit -s 256 && exec "$program" "$@") >text 2>errors
  got=$?
  line=$(tail -n 1 text)
  ((got == status)) && [[ $line == "$last"* ]]
}

tell_wrong() {
  printf 'WRONG %3d  %-40s %s\n' "$got" "${words:0:200}" "${line:0:200}"
  wrong=1
}

# The same, and tells what was answered.
expect() {
  if answers "$@"; then
    printf 'ok    %3d  %-40s %s\n' "$got" "${words:0:40}" "${line:0:70}"
  else
    tell_wrong
  fi
}

# The same for a call whose output goes somewhere else.
expect_status() {
  local status=$1 got=$2 name=$3
  if ((got == status)); then
    printf 'ok    %3d  %s\n' "$got" "$name"
  else
    printf 'WRONG %3d  %s\n' "$got" "$name"
    wrong=1
  fi
}

# ---- outputs
"$program" analyse two.toml >&-
expect_status 20 $? 'a closed standard output'
"$program" analyse two.toml >/dev/full
expect_status 20 $? 'a full disk'
"$program" session two.toml /dev/null >/dev/full
expect_status 20 $? 'a full disk, session'
"$program" hammer car.toml 1 2 >/dev/full
expect_status 20 $? 'a full disk, hammer'
"$program" assign two.toml cpu >/dev/full
expect_status 20 $? 'a full disk, assign'
"$program" assign two.toml zz >/dev/full
expect_status 20 $? 'a full disk, a refused resource'
"$program" slack car.toml sense0 --workers 8 >/dev/full
expect_status 20 $? 'a full disk, slack'
"$program" buffers two.toml /dev/null >/dev/full
expect_status 20 $? 'a full disk, buffers'
"$program" audit two.toml /dev/null /dev/null >/dev/full
expect_status 20 $? 'a full disk, audit'
"$program" schedule "$top/examples/crossing_chains".{toml,trace.csv} >/dev/full
expect_status 20 $? 'a full disk, schedule'
"$program" schedule two.toml >/dev/full
expect_status 20 $? 'a full disk, refused words of schedule'
"$program" chain two.toml a b >/dev/full
expect_status 20 $? 'a full disk, chain'
"$program" chain two.toml zz >/dev/full
expect_status 20 $? 'a full disk, a refused task of chain'
printf 'format = 1\nchain = [{ name = "c", tasks = ["a", "b"] }]\n' >pair
"$program" chains two.toml pair >/dev/full
expect_status 20 $? 'a full disk, chains'
"$program" chains two.toml >/dev/full
expect_status 20 $? 'a full disk, refused words of chains'
"$program" help >/dev/full
expect_status 20 $? 'a full disk, refused words'

# ---- files and words
mkdir folder
expect 11 'cannot read folder' analyse folder
expect 11 'cannot read none' analyse none
expect 11 'cannot read none' session two.toml none
expect 11 'cannot read folder' assign folder cpu
expect 11 'cannot read none' slack none a
expect 11 'cannot read none' buffers two.toml none
expect 11 'cannot read folder' audit two.toml folder none
expect 11 'cannot read none' audit two.toml /dev/null none
expect 11 'cannot read folder' schedule folder none
expect 11 'cannot read none' schedule two.toml none
expect 18 'assign refused 1' assign two.toml "$(printf '%0100000d' 0)"
expect 18 'assign refused 1' assign two.toml $'c\npu'
expect 18 'slack refused 1' slack two.toml sa
expect 10 'words refused' slack two.toml $'\xff'
expect 10 'words refused' schedule two.toml $'\xff'
expect 11 'cannot read folder' chain folder a
expect 11 'cannot read none' chain none a
expect 11 'cannot read folder' chains folder none
expect 11 'cannot read none' chains two.toml none
expect 11 'cannot read folder' chains two.toml folder
expect 18 'chain refused 2' chain two.toml a sb
expect 18 'chain refused 1' chain two.toml "$(printf '%0100000d' 0)"
expect 10 'words refused' chain two.toml $'\xff'
expect 10 'words refused' chain two.toml
expect 10 'words refused' chains two.toml
expect 10 'words refused' chains two.toml pair pair
expect 0 'chain tasks 32' chain two.toml $(yes a | head -n 32)
expect 10 'words refused' chain two.toml $(yes a | head -n 33)
if [ "$(id -u)" != 0 ]; then
  : >closed && chmod 0 closed
  expect 11 'cannot read closed' analyse closed
fi
expect 10 'words refused' analyse $'\xff'
expect 10 'words refused' analyse $'two\xc3.toml'

# ---- as large and as deep as may be
python3 - <<'P' || exit 1
import os
import tomllib

def write(name, text):
    with open(name, "w") as file:
        file.write(text)

most = 1_048_576
write("brackets", ("a = " + "[" * most)[:most])
write("nested", ("a = " + "[" * (most // 2 - 8) + "]" * (most // 2 - 8) + "\n")[:most])
write("braces", ("a = " + "{a=" * most)[:most])
write("tables", ("[" + "a." * most)[:most])
write("sections", ("[[resource]]\n" * most)[:most // 13 * 13])
write("feeds", "\n" * most)
write("comment", "#" * most)
write("string", 'a = "' + "x" * (most - 6) + '"')
write("longer", "#" * (most + 1))
write("lines", "report\n" * 10_000)
write("more_lines", "report\n" * 10_001)
write("one_line", "exec " + "a" * (most - 5))
write("words", "a " * (most // 2))
write("rows", "".join(f"event,sa,{10 * k}\n" for k in range(200_000)))
write("ran", "".join(f"a,{10 * k},{10 * k + 3}\n" for k in range(200_000)))
write("more_ran", "".join(f"a,{10 * k},{10 * k + 3}\n" for k in range(200_001)))
write("many", "".join(f"event,sa,{10 * k}\n" for k in range(200_001)))
write("late", "".join(f"event,sa,{10 * k}\n" for k in range(1_000_001)))
write("quotes", '"' * most)
write("commas", "," * most)
write("fields", "event" + ",a" * (most // 2))

kinds = {"preemptive": "", "round-robin": "", "tdma": "", "can": ", bit = 1"}

def crowd(kind, extra):
    """512 tasks on one resource."""
    turn = "slot = 3" if kind in ("round-robin", "tdma") else "priority = {}"
    work = "payload = 8, " if kind == "can" else "best = 1, worst = 3, "
    text = [f'format = 1\n[[resource]]\nname = "r"\nkind = "{kind}"{extra.replace(", ", chr(10))}\nlimit = 10000000\n']
    text += [f'[[source]]\nname = "s{k}"\nperiod = {1_000_000 + k}\njitter = 1000000\n' for k in range(128)]
    for k in range(512):
        fields = (work + turn.format(k)).replace(", ", "\n")
        text.append(f'[[task]]\nname = "t{k}"\non = "r"\nafter = "s{k % 128}"\n{fields}\n')
    return "".join(text)

for kind, extra in kinds.items():
    write("crowd_" + kind, crowd(kind, extra))
# the first task is late at each place
write("late_crowd", crowd("preemptive", "") + '[[path]]\nname = "d"\ntasks = ["t0"]\ndeadline = 1\n')

text = ["format = 1\n"] + [f'[[resource]]\nname = "r{r}"\nkind = "preemptive"\nlimit = 10000000\n' for r in range(64)]
text += [f'[[source]]\nname = "s{k}"\nperiod = 1000000000\njitter = 1000000000\ndistance = 1000000000\n' for k in range(16)]
for i in range(512):
    after = f"t{i - 1}" if i % 32 else f"s{i // 32}"
    text.append(f'[[task]]\nname = "t{i}"\non = "r{i % 64}"\nafter = "{after}"\nbest = 1\nworst = 1000000\npriority = {i // 64}\n')
write("chains", "".join(text))
write("end.toml", 'format = 1\n[[resource]]\nname = "r"\nkind = "preemptive"\n[[source]]\nname = "s"\nperiod = 1000000000\n'
      '[[task]]\nname = "t"\non = "r"\nafter = "s"\nbest = 1000000\nworst = 1000000\npriority = 1\n')
write("end.csv", "event,s,10000000\nexec,t,1000000\n")

# ---- files of chains
def many_chains(count, tasks):
    return "format = 1\n" + "".join(f'[[chain]]\nname = "c{k}"\ntasks = [{tasks}]\nreaction = 1000000000\n' for k in range(count))

steps = ", ".join(f'"t{k}"' for k in range(31, -1, -1))
write("most_chains", many_chains(128, steps))
write("more_chains", many_chains(129, '"t0"'))
write("long_chain", many_chains(1, steps + ', "t0"'))
write("same_names", ('format = 1\nchain = [\n' + '{name="a",tasks=["a"]},\n' * (most // 23))[:most - 2] .rsplit("\n", 1)[0] + "\n]\n")
write("unnamed", "format = 1\n" + "[[chain]]\n" * (most // 10 - 2))
write("wide_chain", 'format = 1\n[[chain]]\nname = "c"\ntasks = [' + '"a",' * ((most - 60) // 4) + "]\n")

# ---- lists of activators
head = 'format=2\nresource=[{name="c",kind="preemptive"}]\nsource=[{name="s",period=9}]\ntask=[\n'

def quoted(names):
    return "[" + ",".join(f'"{name}"' for name in names) + "]"

def fitting(after):
    """As many tasks as there is room for, each after what is told of its place and of their number."""
    count = 20_000
    while True:
        rows = [f'{{name="t{k}",on="c",after={after(k, count)},best=1,worst=1,priority={k}}},\n' for k in range(count)]
        size = len(head) + sum(map(len, rows)) + 2
        if size <= most:
            return head + "".join(rows) + "]\n"
        count -= -(-(size - most) * count // size)

def layers(wide, high):
    """Layers of tasks, each after all of the layer before, begun anew after so many."""
    def after(k, count):
        first = k - k % wide
        return '"s"' if first % (wide * high) == 0 else quoted(f"t{j}" for j in range(first - wide, first))
    return after

def filled(name, last):
    """One task, whose list has a name as often as there is room for, and then something else."""
    start, end = head + '{name="t0",on="c",after=[', last + '],best=1,worst=1,priority=1},\n]\n'
    return start + name * ((most - len(start) - len(end)) // len(name)) + end

write("chain", fitting(lambda k, count: f'"t{k - 1}"' if k else '"s"'))
write("chain_back", fitting(lambda k, count: f'"t{k + 1}"' if k + 1 < count else '"s"'))
write("ring", fitting(lambda k, count: f'"t{(k + 1) % count}"'))
write("into_ring", fitting(lambda k, count: quoted(["s", f"t{min(k + 1, count - 1)}"])))
write("layers", fitting(layers(16, 10_000)))
write("low_layers", fitting(layers(16, 32)))
write("wide_list", fitting(lambda k, count: '"s"' if k + 1 < count else quoted(f"t{j}" for j in range(count - 1))))
write("doubles", filled('"s",', '"s"'))
write("unknown_last", filled('"s",', '"x"'))
write("no_text_last", filled('"s",', "1"))
write("blanks", filled(" ", ""))
write("list_in_one", filled('"s",', '"s"').replace("format=2", "format=1"))
write("deep_list", filled("[", ""))

# the greatest number of streams on one resource of each kind: 512 tasks, each after 32 sources
def joined(kind):
    turn = "slot=3" if kind in ("round-robin", "tdma") else "priority={}"
    text = f'format=2\nresource=[{{name="r",kind="{kind}",limit=10000000}}]\nsource=[\n'
    text += "".join(f'{{name="s{k}",period={1_000_000 + k},jitter=1000000}},\n' for k in range(32)) + "]\ntask=[\n"
    after = quoted(f"s{k}" for k in range(32))
    return text + "".join(f'{{name="t{k}",on="r",after={after},best=1,worst=3,{turn.format(k)}}},\n' for k in range(512)) + "]\n"

for kind in kinds:
    write("joined_" + kind, joined(kind))
# chains of 32 tasks over 64 resources, the first of each after 32 sources of the greatest jitter
text = ["format=2\n"] + [f'[[resource]]\nname="r{r}"\nkind="preemptive"\nlimit=10000000\n' for r in range(64)]
text += [f'[[source]]\nname="s{k}"\nperiod=1000000000\njitter=1000000000\ndistance=1000000000\n' for k in range(32)]
for i in range(512):
    after = f'"t{i - 1}"' if i % 32 else quoted(f"s{k}" for k in range(32))
    text.append(f'[[task]]\nname="t{i}"\non="r{i % 64}"\nafter={after}\nbest=1\nworst=30000\npriority={i // 64}\n')
write("joined_chains", "".join(text))
# 32 tasks that all end at one time, and one after all of them: 64 jobs for each event
text = ["format=2\n"] + [f'[[resource]]\nname="r{r}"\nkind="preemptive"\n' for r in range(33)]
text.append('[[source]]\nname="s"\nperiod=100\n')
text += [f'[[task]]\nname="t{k}"\non="r{k}"\nafter="s"\nbest=1\nworst=1\npriority=0\n' for k in range(32)]
text.append('[[task]]\nname="u"\non="r32"\nafter=' + quoted(f"t{k}" for k in range(32)) + '\nbest=1\nworst=1\npriority=0\n')
text += [f'[[path]]\nname="w{k}"\ntasks=["t31","u"]\n' for k in range(128)]
write("fan", "".join(text))
write("fan.rows", "".join(f"event,s,{100 * k}\n" for k in range(31_250)))
write("fan.more", "".join(f"event,s,{100 * k}\n" for k in range(31_251)))

# a small file whose list is damaged at each byte, and what is to be told of it
small = ('format = 2\nresource = [{ name = "c", kind = "preemptive" }]\nsource = [{ name = "a", period = 9 }, { name = "b", period = 9 }]\n'
         'task = [{ name = "m", on = "c", after = ["a", "b"], best = 1, worst = 1, priority = 1 }]\n')

def told(data):
    """The status of the file, and how its last line begins, by the reasons of docs/FILES.md."""
    try:
        after = tomllib.loads(data.decode())["task"][0]["after"]
    except (UnicodeDecodeError, tomllib.TOMLDecodeError):
        return 13, "not TOML"
    names = [after] if isinstance(after, str) else after
    if not isinstance(names, list) or not all(isinstance(name, str) for name in names):
        return 14, "system refused reason 1 task 1"
    if not all(name in ("a", "b", "m") for name in names):
        return 14, "system refused reason 5 task 1"
    if "m" in names:
        return 14, "system refused reason 6 task 1"
    if not names or len(set(names)) < len(names):
        return 14, "system refused reason 14 task 1"
    return 0, "summary tasks 1 overload 0"

os.mkdir("damaged")
begin, rows = small.index('["a"'), []
for place in range(begin, small.index("]", begin) + 1):
    before, after = small[:place].encode(), small[place + 1:].encode()
    for byte in [b"", b"\xff", b"\x00"] + [bytes([byte]) for byte in b"abm,[]{}\"'#\\ 1=.\n"]:
        for data in (before + byte + after, before + byte + small[place:].encode()):
            with open(f"damaged/{len(rows)}", "wb") as file:
                file.write(data)
            rows.append("{}\t{}\n".format(*told(data)))
write("damaged.wanted", "".join(rows))
P
for file in brackets nested braces tables; do expect 13 'not TOML' analyse "$file"; done
expect 14 'system refused reason' analyse sections
expect 14 'system refused reason 1 file 0' analyse feeds
expect 14 'system refused reason 1 file 0' analyse comment
expect 14 'system refused reason 1 file 0' analyse string
expect 12 'too long longer' analyse longer
expect 13 'not TOML' assign nested r
expect 12 'too long longer' assign longer r
expect 14 'system refused reason 1 file 0' slack feeds t
expect 12 'too long longer' slack longer t
expect 0 'summary tasks 2' session two.toml lines
expect 15 'script refused too many lines' session two.toml more_lines
expect 15 'script refused line 1' session two.toml one_line
expect 15 'script refused line 1' session two.toml words
expect 12 'too long longer' session two.toml longer
expect 0 'summary jobs 200000' simulate two.toml rows
expect 12 'too long late' simulate two.toml late
expect 16 'trace refused too many' simulate two.toml many
expect 16 'trace refused row' simulate two.toml quotes
expect 16 'trace refused row 1 malformed' simulate two.toml commas
expect 16 'trace refused row 1 malformed' simulate two.toml fields
expect 0 'summary tasks 2 overload 0' buffers two.toml rows
expect 12 'too long late' buffers two.toml late
expect 16 'trace refused too many' buffers two.toml many
expect 0 'audit same segments 200000' audit two.toml rows ran
expect 0 'a,1999990,1999993' schedule two.toml rows
cmp -s text ran
expect_status 0 $? 'a schedule of 200,000 rows'
expect 12 'too long late' schedule two.toml late
expect 16 'trace refused too many' schedule two.toml many
expect 16 'trace refused row' schedule two.toml quotes
expect 12 'too long late' audit two.toml rows late
expect 19 'schedule refused too many' audit two.toml rows more_ran
expect 19 'schedule refused row' audit two.toml rows quotes
expect 19 'schedule refused row 1 malformed' audit two.toml rows commas
expect 19 'schedule refused row 1 malformed' audit two.toml rows fields
expect 16 'trace refused too many' audit two.toml many late

# ---- files of chains
for file in brackets nested braces tables; do expect 13 "not TOML $file" chains two.toml "$file"; done
for file in sections feeds comment string; do expect 18 'chains refused reason 1 file 0' chains two.toml "$file"; done
expect 12 'too long longer' chains two.toml longer
expect 12 'too long longer' chains longer pair
# waits of two periods and more, beside deadlines of one
expect 1 'summary chains 128 overload 0 missed 128 if sources stay near' chains chains most_chains
expect 18 'chains refused reason 5 chain 1' chains two.toml most_chains
expect 18 'chains refused reason 12 chain 129' chains chains more_chains
expect 18 'chains refused reason 11 chain 1' chains chains long_chain
expect 18 'chains refused reason 4 chain 2' chains two.toml same_names
expect 18 'chains refused reason 1 chain 1' chains two.toml unnamed
expect 18 'chains refused reason 11 chain 1' chains two.toml wide_chain

# ---- lists of activators
expect 14 'system refused reason 7 task 33' analyse chain
expect 14 'system refused reason 7 task 1' analyse chain_back
expect 14 'system refused reason 6 task 1' analyse ring
expect 14 'system refused reason 6 task 1' analyse into_ring
expect 14 'system refused reason 7 task 513' analyse layers
expect 14 'system refused reason 12 task 513' analyse low_layers
expect 14 'system refused reason 12 task 513' analyse wide_list
expect 14 'system refused reason 14 task 1' analyse doubles
expect 14 'system refused reason 5 task 1' analyse unknown_last
expect 14 'system refused reason 1 task 1' analyse no_text_last
expect 14 'system refused reason 14 task 1' analyse blanks
expect 14 'system refused reason 1 task 1' analyse list_in_one
expect 13 'not TOML' analyse deep_list
k=0
while IFS=$'\t' read -r status last; do
  answers "$status" "$last" analyse "damaged/$k" || tell_wrong
  k=$((k + 1))
done <damaged.wanted
echo "ok         $k files with a list that is damaged"
for kind in preemptive round-robin tdma can; do expect 0 'summary tasks 512 overload 0' analyse "joined_$kind"; done
expect 0 'summary tasks 512 overload 0' analyse joined_preemptive --workers 64
expect 0 'summary tasks 512 overload 0' analyse joined_chains
expect 0 'summary tasks 512 overload 0' analyse joined_chains --workers 64
for kind in preemptive can; do expect 0 'assigned r tasks 512' assign "joined_$kind" r; done
expect 18 'assign refused 3' assign joined_chains r1
expect 0 'slack t511 999997 next limit' slack joined_preemptive t511
expect 0 'summary tasks 512 overload 0' buffers joined_can /dev/null
expect 0 'summary traces 1 jobs 147968 beyond 0' hammer joined_preemptive 1 1
expect 0 'summary jobs 2000000 done 2000000 end 3124933' simulate fan fan.rows
expect 16 'trace refused too many' simulate fan fan.more
expect 0 'summary tasks 33 overload 0' buffers fan fan.rows

# ---- largest numbers
for kind in preemptive round-robin tdma can; do expect 0 'summary tasks 512 overload 0' analyse "crowd_$kind"; done
expect 0 'summary tasks 512 overload 0' analyse chains
expect 0 'summary tasks 512 overload 0' analyse chains --workers 64
for kind in preemptive can; do expect 0 'assigned r tasks 512' assign "crowd_$kind" r; done
for kind in round-robin tdma; do expect 18 'assign refused 2' assign "crowd_$kind" r; done
expect 3 'none r' assign late_crowd r
expect 18 'assign refused 3' assign chains r1
expect 0 'slack t511 999997 next limit' slack crowd_preemptive t511
expect 0 'slack t0 999997 next limit' slack crowd_round-robin t0 --workers 64
expect 3 'slack t1 none' slack late_crowd t1
expect 0 'slack t0 0 next limit' slack chains t0
expect 0 'slack t31 0 next limit' slack chains t31 --workers 64
expect 0 'summary jobs 1 done 1 end 11000000' simulate end.toml end.csv
expect 0 'summary tasks 1 overload 0' buffers end.toml end.csv
printf 't,10000000,11000000\n' >end.ran
expect 0 'audit same segments 1' audit end.toml end.csv end.ran
expect 0 't,10000000,11000000' schedule end.toml end.csv
expect 0 'chain tasks 32 reaction' chain chains t{0..31}
expect 0 'chain tasks 32 reaction' chain joined_chains t{31..0}
for kind in preemptive round-robin tdma can; do expect 0 'chain tasks 32 reaction' chain "crowd_$kind" t{480..511}; done
for kind in preemptive round-robin tdma can; do expect 0 'summary tasks 512 overload 0' buffers "crowd_$kind" /dev/null; done
expect 0 'summary tasks 512 overload 0' buffers chains /dev/null --workers 64
expect 4 'audit wrong segment 1 expected none' audit two.toml /dev/null ran
expect 0 'summary tasks 2' analyse two.toml --workers 64
expect 0 'summary tasks 384 overload 0' load 4294967295 128
exit $wrong
