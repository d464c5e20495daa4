#!/usr/bin/env bash
# Tries the launcher `lokwurmi` with a stand-in for the toolchain's command rt: help and version, words that are refused, hints and
# notices, signals, calls without proofs, links, blanks in paths. Prints a line a case, and ends with 1 where one answers otherwise
# than it should. Where the program of this repository is built, the words are tried on it too. Builds are tried by
# check_builds.sh. Outside the gate: bash tests/launcher/check_launcher.sh
# shellcheck source=tests/support/launcher.sh
. "$(dirname "${BASH_SOURCE[0]}")/../support/launcher.sh" || exit 1

# ---- words that need no build
afresh
commands="analyse session simulate generate load hammer assign slack buffers audit schedule chain chains"
tools=$(cd "$top/python/src" && python3 -c 'from lokwurmi_tools.commands.catalogue import COMMANDS
print("".join(it.name + ";" for it in COMMANDS))')
for words in --help -h help; do
  call "$words"
  hold "$words: status 0" is "$status" 0
  hold "$words: a line for each command" is "$(sed '/^Tools/,$d' "$room/text" | grep -oE '^  [a-z]+ [A-Z]' | tr -d ' A-Z\n')" "${commands// /}"
  hold "$words: 80 columns" is "$(grep -v "^$room" "$room/text" | awk 'length > 80' | wc -l)" 0
  hold "$words: where to begin" said 'docs/TUTORIAL\.md' "$room/text"
  hold "$words: a line for each tool" is "$(sed -n '/^Tools/,/^$/s/^  \([a-z]* \?[a-z]*\)  .*/\1/p' "$room/text" | sed 's/ *$//' | tr '\n' ';')" "$tools"
  call "$words" slack
  hold "$words slack: its words" said '^lokwurmi slack FILE TASK \[--workers N\]$' "$room/text"
  hold "$words slack: an example" said '^  \./lokwurmi slack examples/' "$room/text"
done
call slack --help
hold "slack --help" said '^lokwurmi slack FILE TASK' "$room/text"
call analyse two.toml -h
hold "analyse two.toml -h" said '^lokwurmi analyse FILE' "$room/text"
for command in $commands; do
  call --help "$command"
  hold "--help $command: each word is told" is "$(grep -cE '^  [A-Z]+ +[a-z0-9]' "$room/text")" "$(head -n 1 "$room/text" | sed 's/\[.*//' | grep -oE '\b[A-Z]+\b' | wc -l)"
  example=$(sed -n 's,^  \./lokwurmi ,,p' "$room/text")
  for file in $(tr ' ' '\n' <<<"$example" | grep /); do
    hold "the example of $command: ${file##*/}" [ -f "$top/$file" ]
  done
  if [ -x "$built" ]; then
    # shellcheck disable=SC2086 # an example's words
    (cd "$top" && "$built" $example) >"$room/text" 2>&1
    hold "the example of $command is accepted" [ $? -lt 10 ]
  fi
done
call --version
hold "--version: the version" said '^lokwurmi [0-9]' "$room/text"
hold "--version: the toolchain of README.md" said "^toolchain $(grep -o 'rattle-kit-[0-9a-z]*. or .rattle-kit-[0-9a-z]*' "$top/README.md" | tr -d '\140' | sort -u)\$" "$room/text"
hold "--version: no commit where there is none" unsaid '^commit' "$room/text"
git -C "$room" init -q && git -C "$room" -c user.name=a -c user.email=a@b commit -q --allow-empty -m a
call --version
hold "--version: not the commit of a folder above" unsaid '^commit' "$room/text"
rm -rf "$room/.git"
git -C "$work" init -q && git -C "$work" -c user.name=a -c user.email=a@b commit -q --allow-empty -m a
GIT_DIR=$top/.git call --version
hold "--version: the commit" said "^commit $(git -C "$work" rev-parse --short=12 HEAD), and changes since\$" "$room/text"
"$work/lokwurmi" --help >/dev/full 2>"$room/said"
hold "help to a full disk: status 20" is $? 20
in_terminal "'$work/lokwurmi'"
hold "no word in a terminal: help" said '^  analyse FILE'
hold "no word in a terminal: status 0" is "$status" 0

# ---- words that are refused, without a build
for near in analyze:analyse anaylse:analyse sim:simulate Bufers:buffers simulation:simulate --slack:slack loda:load ASSIGN:assign shedule:schedule; do
  call "${near%:*}" two.toml
  hold "${near%:*}: status 10, as the program says it" is "$status $(cat "$room/text")" "10 words refused"
  hold "${near%:*}: the nearest is ${near#*:}" said "the nearest is ${near#*:} "
done
call --help bufers
hold "help of an unknown command" said 'the nearest is buffers '
hold "help of an unknown command: status 10" is "$status" 10
for word in xyzzy '' s '[' '*'; do
  call "$word"
  hold "'$word' is near to nothing" unsaid 'nearest'
done
call
hold "no word, and no terminal" is "$status $(cat "$room/text")" "10 words refused"
# with no rt, words that are worth a build end with 70
for words in "analyse f" "analyse f --workers 2" "analyse --workers=2 f" "session --workers 2 f s" "load 1 2 --workers=" \
  "simulate f t" "simulate f --workers" "audit f t s" "analyse f g" "analyse" "analyse f --workers" "analyse --workers f" \
  "analyse -f" "analyse f --workers 2 --workers 2" "analyse f --workers -2" "analyse ./-f" "simulate f t --workers 2" \
  "generate 1 2 3" "slack f t --workers=8" "assign f" "hammer f 1 2" "buffers f t --workers 3" "buffers f" "analyse --workers --workers=2 f" \
  "schedule f t" "schedule f" "schedule f t s" "schedule f -t" "schedule f t --workers 2" "schedule schedule t"; do
  case $words in
  "analyse f" | "analyse f --workers 2" | "analyse --workers=2 f" | "session --workers 2 f s" | "simulate f t" | "audit f t s" | "analyse ./-f" | \
    "slack f t --workers=8" | "hammer f 1 2" | "buffers f t --workers 3" | "schedule f t" | "schedule schedule t") wanted=70 ;;
  *) wanted=10 ;;
  esac
  # shellcheck disable=SC2086 # the words
  PATH=$room/none call $words
  hold "$words: status $wanted" is "$status" "$wanted"
  if [ -x "$built" ]; then
    # shellcheck disable=SC2086
    (cd "$room" && "$built" $words) >"$room/text"
    hold "$words: the program agrees" is "$([ $? = 10 ] && echo 10 || echo 70)" "$wanted"
  fi
done
PATH=$room/none call analyse ''
hold "an empty word: status 10" is "$status" 10
hold "none of these called rt" [ ! -e "$room/calls" ]
PATH=$room/none call analyse two.toml
hold "no rt in PATH: says so" said 'command rt of the toolchain .* has to be in the search path'

# ---- a program that is built
afresh
call analyse two.toml
hold "it is built" is "$status" 0

# ---- hints, whose sections the page has
for it in 3 4 10 11 12 13 14 15 16 17 18 19 20 30; do
  in_terminal "'$work/lokwurmi' analyse status.$it"
  hold "status $it is handed on" is "$status" "$it"
  # of 3 there is a notice, which begins with the file
  hold "status $it has a hint" said '^lokwurmi: |notice: '
  section=$(sed -nE 's/.*FILES\.md, "([^"]*)".*/\1/p' "$room/said")
  [ "$it" = 10 ] || hold "status $it: the section $section" said "^##+ $section" "$top/docs/FILES.md"
done
for it in 0 1 2; do
  in_terminal "'$work/lokwurmi' analyse status.$it"
  hold "status $it has none" unsaid '^lokwurmi: '
done
call analyse status.14
hold "no terminal: the hint too" said '^lokwurmi: the file is TOML but no system'
hold "a refusal: the program's text alone on standard output" is "$(cat "$room/text")" "called analyse status.14"
LOKWURMI_QUIET=1 call analyse status.14
hold "LOKWURMI_QUIET=1: no hint" is "$status $(wc -c <"$room/said")" "14 0"
LOKWURMI_QUIET=0 call analyse status.14
hold "LOKWURMI_QUIET=0: the hint" said '^lokwurmi: '
call --quiet analyse status.14
hold "--quiet: no hint" is "$status $(wc -c <"$room/said")" "14 0"
hold "--quiet: the word isn't handed on" is "$(cat "$room/text")" "called analyse status.14"
call --quiet schedule two.toml status.16
hold "--quiet before schedule" is "$status $(cat "$room/text")" "16 called schedule two.toml status.16"
call --quiet
hold "--quiet alone, and no terminal" is "$status" 10
call --quiet --help
hold "--quiet --help" said '^lokwurmi: the timing' "$room/text"
echo 'format = 1' >"$room/one.toml"
echo 'source = [{ name = "s", period = 10 }]' >>"$room/one.toml"
call analyse one.toml
hold "a notice" said 'one.toml:2:20: notice: source "s" starts nobody'
hold "a notice: the status stays" is "$status $(cat "$room/text")" "0 called analyse one.toml"
call --quiet analyse one.toml
hold "--quiet: no notice" [ ! -s "$room/said" ]
mv "$work/python/src/lokwurmi/refusals" "$work/python/src/lokwurmi/elsewhere"
call analyse status.13
hold "no module that says it in words: the hint" said "^lokwurmi: the system file isn't TOML"
hold "no module that says it in words: nothing else" is "$(wc -l <"$room/said")" 1
mv "$work/python/src/lokwurmi/elsewhere" "$work/python/src/lokwurmi/refusals"
exec 3<"$room/two.toml"
call analyse two.toml <&3
hold "standard input may be anything" is "$status" 0

# ---- signals that come while the program runs
for signal in INT TERM HUP QUIT; do
  rm -f "$room/children"
  interrupt "$signal" 1 analyse sleep
  hold "$signal while the program runs: ends by it" is $? 0
  hold "$signal while the program runs: says nothing" [ ! -s "$room/said" ]
  hold "$signal while the program runs: the program has ended" is "$(wc -l <"$room/children") $(left)" "1 0"
done
python3 -c 'import subprocess, sys
sys.exit(subprocess.run(sys.argv[1:]).returncode == -9)' "$work/lokwurmi" analyse signal.KILL >"$room/text" 2>"$room/said" </dev/null
hold "a program that was killed: ends by the same signal" is $? 1
hold "a program that was killed: says nothing" [ ! -s "$room/said" ]
rm -f "$room/children"
(until_started 1 && printf '\003' && sleep 2) | script -qec "'$work/lokwurmi' analyse sleep" /dev/null >"$room/text" 2>&1
hold "the terminal's interrupt while the program runs: it has ended" is "$(wc -l <"$room/children") $(left)" "1 0"

# ---- a call without proofs
afresh
note='^lokwurmi: unproved: this answer is by the same sources, compiled without proofs .* and not by the proved program$'
call --unproved analyse two.toml
hold "--unproved: the program's status and text" is "$status $(cat "$room/text")" "0 tried analyse two.toml"
hold "--unproved: one line says what it is" is "$(grep -cE "$note" "$room/said") $(wc -l <"$room/said")" "1 1"
hold "--unproved: rt try alone, with the file beside it" is "$(cat "$room/calls")" "try --seconds 600 --data two.toml=$room/two.toml -- analyse two.toml"
hold "--unproved: nothing lies where proved programs do" is "$(find "$work/crates" -path '*/out/*' | wc -l)" 0
for command in $commands; do
  call --help "$command"
  operands=$(sed -n '1s/^lokwurmi [a-z]* //; 1s/ *\[.*//; 1p' "$room/text" | sed 's/FILE/two.toml/; s/TRACES/3/; s/TRACE/two.csv/; s/NUMBER/1/; s/SIZE/2/')
  # shellcheck disable=SC2086 # words
  call --unproved "$command" $operands
  hold "--unproved $command: as that command is called" is "$status $(cat "$room/text")" "0 tried $command $operands"
done
call --quiet --unproved analyse two.toml
hold "--quiet --unproved: that line stays" is "$(grep -cE "$note" "$room/said") $(wc -l <"$room/said")" "1 1"
call --unproved --quiet analyse two.toml
hold "--unproved --quiet: the same" is "$(grep -cE "$note" "$room/said") $(wc -l <"$room/said")" "1 1"
call --unproved analyse two.toml status.2
hold "--unproved: words that are refused: status 10" is "$status $(cat "$room/text")" "10 words refused"
call --unproved analyse status.2
hold "--unproved: a verdict's status" is "$status" 2
call --unproved analyse status.14
hold "--unproved: a refusal's status" is "$status" 14
hold "--unproved: a refusal in words" said '^lokwurmi: the file is TOML but no system'
call --unproved analyse big
hold "--unproved: too much output is told in words" said '^lokwurmi: no answer, after 0:0[0-9]: what it writes is above 1 MiB, the limit of a call without proofs; the proved program has no such limit'
hold "--unproved: too much output: status 70, and nothing of rt" is "$status $(wc -c <"$room/text") $(grep -c 'proved=no' "$room/said")" "70 0 0"
call --unproved analyse late
hold "--unproved: too much time is told in words" said '^lokwurmi: no answer, after 0:0[0-9]: it took more than 10 minutes, the limit of a call without proofs; the proved'
call --unproved analyse broken
hold "--unproved: what fails is shown" said '^error: src/main.rt:3: no such function$'
hold "--unproved: what fails: status 70" is "$status" 70
mkdir -p sub && touch sub/unread
(cd sub && "$work/lokwurmi" --unproved analyse ../sub/unread) >"$room/text" 2>"$room/said" </dev/null
hold "--unproved: a path upwards is absolute there, and as it was in a refusal" is "$(cat "$room/text")" "cannot read ../sub/unread"
touch stdout 'a=b'
call --unproved analyse stdout
hold "--unproved: a name that rt keeps for itself" said " -- analyse $room/stdout\$" "$room/calls"
call --unproved analyse a=b
hold "--unproved: a name with an equals sign" said " -- analyse $room/a=b\$" "$room/calls"
"$work/lokwurmi" --unproved analyse <(echo) >"$room/text" 2>"$room/said" </dev/null
hold "--unproved: a pipe is copied" said ' -- analyse /[^ ]*/copy0$' "$room/calls"
echo given | "$work/lokwurmi" --unproved analyse /dev/stdin >"$room/text" 2>"$room/said"
hold "--unproved: standard input" is "$(head -n 1 "$room/text")" given
"$work/lokwurmi" --unproved analyse two.toml >/dev/full 2>"$room/said" </dev/null
hold "--unproved: to a full disk: status 20" is $? 20
for words in graph install --version xyzzy; do
  call --unproved "$words"
  hold "--unproved $words: refused in words" said 'takes a proved command|is no command'
  hold "--unproved $words: status 10" is "$status" 10
done
PATH=$room/none call --unproved analyse two.toml
hold "--unproved without rt: status 70" is "$status" 70
in_terminal "'$work/lokwurmi' --unproved analyse two.toml"
hold "--unproved in a terminal: how long it takes" said $'\r\033\\[K''lokwurmi: compiling without proofs, and running; 0:0[0-9] so far'
for signal in INT TERM HUP QUIT; do
  rm -f "$room/children"
  interrupt "$signal" 1 --unproved analyse sleep
  hold "--unproved, $signal: ends by it" is $? 0
  hold "--unproved, $signal: all that it started has ended" is "$(wc -l <"$room/children") $(left)" "1 0"
done
hold "--unproved: no folder is left" is "$(find "${TMPDIR:-/tmp}" -maxdepth 1 -name 'lokwurmi-unproved-*' -newer "$room/bin/rt" | wc -l)" 0
hold "--unproved: it never builds" [ ! -e "$room/proved" ]

# ---- tools
call graph --help
hold "a tool: its help" is "$status $(grep -c '^usage: lokwurmi graph' "$room/text")" "0 1"
call --help graph
hold "--help of a tool" is "$status $(grep -c '^usage: lokwurmi graph' "$room/text")" "0 1"
call graph "$top/examples/two_tasks.toml"
hold "a tool: what it writes" said '^digraph' "$room/text"
call import xyzzy
hold "a tool of two words: refused by itself" is "$status" 2

# ---- where it is called from
afresh
call analyse two.toml
ln -s "$work/lokwurmi" "$room/a link"
ln -s "a link" "$room/link to a link"
ln -s "$work" "$room/linked folder"
cd / || exit 1
for by in "$work/lokwurmi" "$room/a link" "$room/link to a link" "$room/linked folder/lokwurmi"; do
  "$by" analyse "a b" >"$room/text" 2>"$room/said"
  hold "by ${by#"$room"/}, from another folder" is "$(cat "$room/text")" "called analyse a b"
done
sh -c "'$room/a link' analyse x" >"$room/text" 2>"$room/said"
hold "under sh -c" is "$(cat "$room/text")" "called analyse x"
(cd "$work" && ./lokwurmi analyse x) >"$room/text" 2>"$room/said"
hold "from its own folder" is "$(cat "$room/text")" "called analyse x"
(cd "$work/docs" && CDPATH=/ PATH=..:$PATH lokwurmi analyse x) >"$room/text" 2>"$room/said"
hold "by the search path" is "$(cat "$room/text")" "called analyse x"
if command -v shellcheck >/dev/null; then
  (cd "$top" && shellcheck -x lokwurmi python/src/lokwurmi_tools/launcher/completion.bash tests/launcher/*.sh) >"$room/said" 2>&1
  hold "shellcheck finds nothing" is $? 0
fi
exit "$wrong"
