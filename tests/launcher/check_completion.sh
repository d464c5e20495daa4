#!/usr/bin/env bash
# Sources what `lokwurmi --completion` writes and asks it, as bash does where a user presses the tabulator. Prints a line a case, and ends
# with 1 where one is completed otherwise than it should. Outside the gate: bash tests/launcher/check_completion.sh
top=$(cd "$(dirname "${BASH_SOURCE[0]}")/../.." && pwd) || exit 1
room=$(mktemp -d) || exit 1
trap 'rm -rf "$room"' EXIT
# shellcheck source=python/src/lokwurmi_tools/launcher/completion.bash
source <("$top/lokwurmi" --completion) || exit 1
wrong=0

# ask WANTED WORD..: the last word, which may be empty, is completed by these, in any order
ask() {
  local wanted=$1 got
  shift
  COMP_WORDS=(lokwurmi "$@")
  COMP_CWORD=$#
  _lokwurmi
  got=$(printf '%s\n' "${COMPREPLY[@]}" | sort -u | tr '\n' ' ')
  if [ "${got% }" = "$wanted" ]; then
    printf 'ok     %s -> %s\n' "$*" "${got:0:60}"
  else
    printf 'WRONG  %s -> %s, wanted %s\n' "$*" "$got" "$wanted"
    wrong=1
  fi
}

cd "$room" || exit 1
mkdir sub
cat >two.toml <<'END'
# resource = [{ name = "comment", kind = "preemptive" }]
format = 2
resource = [{ name = "cpu", kind = "preemptive" }, { kind = "can", name = 'bus.1' }]
source = [{ name = "sa", period = 10 }]
task = [
  { name = "a", on = "cpu", after = "sa", best = 1, worst = 3, priority = 1 }, # { name = "x" }
  { on = "bus.1", name="a-2", after = ["a", "sa"], payload = 3, priority = 2 },
  { on = "bus.1", name = "-b", after = "a", payload = 3, priority = 3 },
]
path = [{ name = "p", tasks = ["a", "a-2"] }]
END
cat >"a b.toml" <<'END'
[[resource]]
name = "ring"
kind = "tdma"
[[source]]
name = "s"
[[task]]
on = "ring"
name = "t1"
[[task]]
name = "t2"
[[path]]
name = "p"
tasks = ["t1"]
END
touch trace.csv script.txt picture.svg

# the commands that help lists
mapfile -t commands < <("$top/lokwurmi" --help | sed '/^Tools/,$d' | sed -nE 's/^  ([a-z]+) [A-Z].*/\1/p' | sort -u)
mapfile -t tools < <("$top/lokwurmi" --help | sed -n '/^Tools/,/^$/s/^  \([a-z]*\) .*/\1/p' | sort -u)
own=(--completion --help --quiet --strict --unproved --version build-library help install uninstall)
# sorted WORD..: in one line
sorted() { printf '%s\n' "$@" | sort -u | tr '\n' ' ' | sed 's/ $//'; }
ask "$(sorted "${own[@]}" "${commands[@]}" "${tools[@]}")" ""
ask "$(sorted "${commands[@]}" "${tools[@]}" build-library install uninstall)" --help ""
ask "$(sorted "${commands[@]}")" --unproved ""
ask "$(sorted "${commands[@]}" "${tools[@]}")" --quiet ""
ask "page session" --strict ""
ask "two.toml" --unproved analyse tw
ask "--help log network" import ""
ask "a b.toml picture.svg script.txt sub trace.csv two.toml" graph ""
ask "--help" graph -
ask "sub" install ""
for command in "${commands[@]}"; do
  takes=$("$top/lokwurmi" --help "$command" | grep -o -- '^lokwurmi.* \[--workers N\]$')
  flag=''
  [ "$command" != chain ] || flag=" --while-running"
  ask "--help${takes:+ --workers}$flag" "$command" -
done
ask "analyse assign audit" a
ask "schedule sensitivity session simulate slack" s
ask "schedule" sch
ask "--completion --help --quiet --strict --unproved --version" --
ask "slack" --help sl
ask "graph" --help gr
ask "" help slack ""
ask "a b.toml sub two.toml" analyse ""
ask "two.toml" analyse tw
ask "picture.svg" analyse pic
ask "--help --workers" analyse -
ask "--workers" analyse two.toml --w
ask "" hammer two.toml -
ask "" analyse two.toml --workers 2 -
ask "3" analyse two.toml --workers 3
# shellcheck disable=SC2016 # what stands there isn't run
ask "" analyse two.toml --workers '$(touch${IFS}run)'
[ ! -e run ] || wrong=1
ask "12" analyse two.toml --workers = 12
ask "1 16 2 32 4 64 8" analyse two.toml --workers =
ask "1 16 2 32 4 64 8" load 42 1 --workers ""
ask "two.toml" analyse --workers 2 tw
ask "script.txt sub" session two.toml ""
ask "sub trace.csv" simulate two.toml ""
ask "sub trace.csv" audit two.toml trace.csv ""
ask "two.toml" schedule tw
ask "sub trace.csv" schedule two.toml ""
ask "" schedule two.toml trace.csv ""
ask "bus.1 cpu" assign two.toml ""
ask "cpu" assign two.toml c
ask "a a-2" slack two.toml ""
ask "a a-2" chain two.toml ""
ask "a a-2" chain two.toml a ""
ask "a a-2" chain --while-running two.toml ""
ask "two.toml" chains tw
ask "a a-2" slack --workers 2 two.toml ""
ask "ring" assign 'a\ b.toml' ""
ask "t1 t2" slack '"a b.toml"' t
ask "" slack missing.toml ""
ask "" slack two.toml a ""
ask "" generate ""
for system in "$top"/examples/*.toml; do
  # beside the systems files of chains stand
  [[ $system != *.chains.toml ]] || continue
  for part in resource task; do
    # beside a reader of TOML
    names=$(_lokwurmi_names "$part" "$system" | sort -u | tr '\n' ' ')
    wanted=$(python3 -c 'import sys, tomllib; print("".join(it["name"] + " " for it in sorted(tomllib.load(open(sys.argv[2], "rb")).get(sys.argv[1], []), key=lambda it: it["name"])))' "$part" "$system")
    if [ "$(tr ' ' '\n' <<<"$names" | sort)" = "$(tr ' ' '\n' <<<"$wanted" | sort)" ]; then
      echo "ok     names of ${part}s in ${system##*/}"
    else
      echo "WRONG  names of ${part}s in ${system##*/}: $names"
      wrong=1
    fi
  done
done
exit "$wrong"
