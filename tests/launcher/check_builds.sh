#!/usr/bin/env bash
# Tries builds by the launcher `lokwurmi`, with a stand-in for the toolchain's command rt that takes seconds in place of the proofs:
# progress, what counts as newer, an interrupt, going on where it was, two calls at a time, failures. Prints a line a case, and
# ends with 1 where one answers otherwise than it should. Outside the gate: bash tests/launcher/check_builds.sh
# shellcheck source=tests/support/launcher.sh
. "$(dirname "${BASH_SOURCE[0]}")/../support/launcher.sh" || exit 1

# ---- a first build, written to a log
afresh
git -C "$work" init -q && git -C "$work" -c user.name=a -c user.email=a@b commit -q --allow-empty -m a
rmdir "$work/crates/cpa_io/specs"
LOKWURMI_JOBS=3 call analyse two.toml
hold "a first call: status of the program" is "$status" 0
hold "a first call: its text" is "$(cat "$room/text")" "called analyse two.toml"
hold "what will be done" said "^lokwurmi: the program isn't built yet: it is proved and built first, 5 crates, of which 0 are proved already, 3 at a time; some [0-9]+ minutes to go\. For a first look without proofs, in a minute or so: lokwurmi --unproved analyse two\.toml\$"
hold "a line a crate" is "$(grep -Ec '^lokwurmi: [1-5] of 5: cpa_[a-z]+ is proved; 0:[0-9]{2} so far, ' "$room/said")" 5
hold "lowest first" is "$(sed -nE 's/^lokwurmi: [1-5] of 5: (cpa_[a-z]+) .*/\1/p' "$room/said" | tr '\n' ' ')" "cpa_units cpa_io cpa_model cpa_fix cpa_cli "
hold "the libraries side by side, then the last of them and the program" is "$(tr '\n' ';' <"$room/calls")" "all check --jobs 3;lib;run -- analyse data/two_tasks.toml;"
hold "the program is proved once" is "$(grep -c cpa_cli "$room/proved")" 1
hold "no line that is written over" unsaid $'\r'
hold "it is built" said '^lokwurmi: it is built, in 0:[0-9]{2}$'
hold "no note of a file that is there" unsaid "can't be read"
hold "sources that aren't committed are told" said "note: sources have changes that aren't committed: "
call analyse two.toml
hold "the second call builds nothing" is "$(wc -l <"$room/calls")" 3
hold "the second call says nothing more" [ ! -s "$room/said" ]
start=$work/python/src/lokwurmi_tools/launcher/start.py below=$work/crates/cpa_cli/out/lokwurmi.below
mv "$start" "$start.away"
call analyse two.toml
hold "the second call needs no Python" is "$status $(cat "$room/text")" "0 called analyse two.toml"
tr '\0' '\n' <"$below" >"$below.lines" && mv "$below.lines" "$below"
call analyse two.toml
hold "a list in another form: Python decides" is "$status" 2
rm "$below"
call analyse two.toml
hold "no list: Python decides" is "$status" 2
mv "$start.away" "$start"
call analyse two.toml
hold "no list: nothing is built, and it is written anew" is "$status $(tr '\0' '\n' <"$below" | grep -c cpa_fix/src/lib.rt) $(wc -c <"$room/said")" "0 1 0"
mkdir "$work/crates/cpa_io/specs"
call analyse two.toml
hold "a folder that wasn't there" said 'crates/cpa_io/specs is newer than the program'
touch -d '1 hour ago' "$work/crates/cpa_io/specs"
in_terminal "'$work/lokwurmi' loda 1 2"
hold "built: the nearest command" said 'the nearest is load '
in_terminal "'$work/lokwurmi' load 1"
hold "built: the words of a command" said 'load is called so: lokwurmi load NUMBER SIZE \[--workers N\]'
hold "built: what is missing" said '^lokwurmi: SIZE is missing'
for it in cpa_bench cpa_cases; do
  touch "$work/crates/$it/src/lib.rt"
  call analyse two.toml
  hold "$it, on which the program doesn't stand, is newer: nothing is built" [ ! -s "$room/said" ]
done
touch "$work/crates/cpa_fix/src/lib.rt"
RT_IDENTITY=rattle-kit-14a call analyse missing.toml
hold "a source is newer: it is built again" said 'crates/cpa_fix/src/lib.rt is newer than the program'
hold "a source is newer: what is kept" said '5 crates, of which 3 are proved already'
hold "another toolchain is told" said 'note: rt is of rattle-kit-14a, and the proofs are for rattle-kit-13f or rattle-kit-13b'
hold "a file that isn't there is told" said "note: 'missing.toml' can't be read"
rm "$work/crates/cpa_fix/src/lib.rt"
call analyse two.toml
hold "a source was taken away" said 'crates/cpa_fix/src is newer than the program'

own=$work/crates/cpa_cli/out/cpa_cli
cp "$own" "$room/another" && echo '# another' >>"$room/another" && cp "$room/another" "$own"
call analyse two.toml
hold "another program in the place of the proved one: it is built anew" said "cpa_cli isn't the program that was proved and built here"
call analyse two.toml
hold "the proved one again: nothing is built" [ ! -s "$room/said" ]
touch "$own"
call analyse two.toml
hold "the proved one with another time: nothing is built" [ ! -s "$room/said" ]

# ---- other commands
afresh
LOKWURMI_JOBS=3 call schedule two.toml trace.csv
hold "schedule: status and text of the program" is "$status $(cat "$room/text")" "10 called schedule two.toml trace.csv"
hold "schedule: the words that the program is first run with" is "$(tail -n 1 "$room/calls")" "run -- analyse data/two_tasks.toml"
hold "schedule: a file that isn't there is told" said "note: 'trace.csv' can't be read"
call analyse two.toml
hold "analyse after schedule: nothing is built" unsaid 'built first'
in_terminal "'$work/lokwurmi' schedule two.toml status.17"
hold "schedule: a status is handed on, with its hint" said '^lokwurmi: the trace is readable'
hold "schedule: that status" is "$status" 17
in_terminal "'$work/lokwurmi' schedule two.toml"
hold "schedule: its words, where they are refused" said 'schedule is called so: lokwurmi schedule FILE TRACE'
afresh
LOKWURMI_JOBS=2 "$work/lokwurmi" analyse one.toml >"$room/text.1" 2>"$room/said.1" </dev/null &
until [ -e "$room/calls" ]; do sleep 0.1; done
call schedule two.toml trace.csv
wait $!
hold "two calls at once: the second waits" said 'another call builds already'
hold "two calls at once: each crate is proved once" is "$(sort "$room/proved" | uniq -d | wc -l)" 0

# ---- a source that changes while it is built
afresh
(until [ -e "$room/calls" ]; do sleep 0.1; done && touch "$work/crates/cpa_units/src/lib.rt") &
call analyse two.toml
wait $!
hold "changed meanwhile: it is built" is "$status" 0
call analyse two.toml
hold "changed meanwhile: and then again" said 'crates/cpa_units/src/lib.rt is newer than the program'
call analyse two.toml
hold "changed meanwhile: and then no more" [ ! -s "$room/said" ]

# ---- one after the other
afresh
LOKWURMI_JOBS=1 call analyse two.toml
hold "one at a time: rt run alone" is "$(tr '\n' ';' <"$room/calls")" "run -- analyse data/two_tasks.toml;"
hold "one at a time: says so" said ', one at a time; some '
hold "one at a time: a line a crate" is "$(grep -Ec '^lokwurmi: [1-5] of 5: cpa_[a-z]+ is proved; 0:[0-9]{2} so far, ' "$room/said")" 5
afresh
touch "$room/kill"
LOKWURMI_JOBS=4 call analyse two.toml
hold "killed for memory: goes on one at a time" said 'cpa_model broke off, most likely because it was out of memory: they go on one at a time$'
hold "killed for memory: it is built" is "$status $(tr '\n' ';' <"$room/calls")" "0 all check --jobs 4;run -- analyse data/two_tasks.toml;"
afresh
touch "$room/change"
LOKWURMI_JOBS=4 call analyse two.toml
hold "changed while it was proved: goes on one at a time" said 'cpa_model changed while it was proved: they go on one at a time$'
hold "changed while it was proved: it is built" is "$status" 0
rm "$room/change"

# ---- in a terminal
afresh
in_terminal "LOKWURMI_JOBS=2 '$work/lokwurmi' analyse two.toml"
hold "in a terminal: a line that is written over" said $'\r\033\\[K''lokwurmi: [0-4] of 5: cpa_[a-z]+(, cpa_[a-z]+)? under way; 0:0[0-9] so far, '
hold "in a terminal: no line a crate" unsaid 'is proved; '
hold "in a terminal: the program's text" said 'called analyse two.toml'
hold "in a terminal: the crates that wait for none" said '1 of 5: cpa_io, cpa_model under way'
afresh
in_terminal "stty cols 60; LOKWURMI_JOBS=2 '$work/lokwurmi' analyse two.toml"
hold "in a narrow terminal: no line is too long" is "$(tr '\r' '\n' <"$room/said" | sed 's/\x1b\[K//g' | grep ' of 5: ' | awk 'length > 59' | wc -l)" 0
afresh
in_terminal "TERM=dumb LOKWURMI_JOBS=1 '$work/lokwurmi' analyse two.toml"
hold "in a terminal that can't write over: a line a crate" said '^lokwurmi: 5 of 5: cpa_cli is proved; '
afresh
in_terminal "bash -c 'set -m; LOKWURMI_JOBS=1 \"$work/lokwurmi\" analyse two.toml & wait'"
hold "in the background of a terminal: a line a crate" said '^lokwurmi: 5 of 5: cpa_cli is proved; '
hold "in the background of a terminal: nothing is written over" unsaid $'\033'

# ---- an interrupt, and going on
for signal in INT TERM HUP QUIT; do
  for jobs in 1 2; do
    afresh
    touch "$room/slow"
    LOKWURMI_JOBS=$jobs interrupt "$signal" 2 analyse two.toml
    hold "$signal, $jobs at a time: ends by it" is $? 0
    hold "$signal, $jobs at a time: says so" said '^lokwurmi: interrupted after [0-9]+:[0-9]{2}, with 2 of 5 proved; all that it started has ended'
    hold "$signal, $jobs at a time: there were children" is "$(wc -l <"$room/children")" 2
    hold "$signal, $jobs at a time: all of them have ended" is "$(left)" 0
    rm "$room/slow"
    LOKWURMI_JOBS=$jobs call analyse two.toml
    # on a busy machine the crate that comes after the libraries may be begun together with them, and then again
    hold "$signal, $jobs at a time: the next call goes on" is "$(uniq "$room/proved" | tr '\n' ' ')" "cpa_units cpa_io cpa_model cpa_fix cpa_cli "
    hold "$signal, $jobs at a time: and says what is proved already" said '5 crates, of which 2 are proved already'
  done
done

afresh
touch "$room/slow"
(until_started 2 && printf '\003' && sleep 8) | script -qec "'$work/lokwurmi' analyse two.toml" /dev/null >"$room/said" 2>&1
hold "the terminal's interrupt: says so" said 'lokwurmi: interrupted after '
hold "the terminal's interrupt: there were children" is "$(wc -l <"$room/children")" 2
hold "the terminal's interrupt: all of them have ended" is "$(left)" 0
afresh
touch "$room/slow"
LOKWURMI_JOBS=2 "$work/lokwurmi" analyse two.toml 2>&1 </dev/null | (read -r _ && sleep 1)
touch "$room/children"
for ((tries = 0; tries < 600; tries++)); do
  [ "$(left) $(pgrep -fc "$room/(with|bin)")" != "0 0" ] || break
  sleep 0.1
done
hold "nobody reads what is said: all of it has ended" is "$(left) $(pgrep -fc "$room/(with|bin)")" "0 0"

# ---- two calls at a time
afresh
"$work/lokwurmi" analyse one.toml >"$room/text.1" 2>"$room/said.1" </dev/null &
until [ -e "$room/calls" ]; do sleep 0.1; done
call analyse two.toml
wait $!
hold "a second call meanwhile waits" said 'another call builds already'
hold "both have their text" is "$(cat "$room/text.1" "$room/text" | tr '\n' ' ')" "called analyse one.toml called analyse two.toml "
hold "and it is built once" is "$(grep -c run "$room/calls")" 1

# ---- failures
for jobs in 1 2; do
  afresh
  echo cpa_model >"$room/fail"
  LOKWURMI_JOBS=$jobs call analyse two.toml
  hold "a failure, $jobs at a time: status 70" is "$status" 70
  hold "a failure, $jobs at a time: the toolchain's message" said '^src/lib.rt:7: not proved: the sum may wrap$'
  hold "a failure, $jobs at a time: nothing of what passed" unsaid ': proved$|proved: all of it|chose --jobs 2 for cpa_units'
  hold "a failure, $jobs at a time: which crate" said '^== cpa_model$|for cpa_model$'
  hold "a failure, $jobs at a time: the program isn't built" said 'the program was not built; all that the toolchain said: .*lokwurmi.log$'
  hold "a failure, $jobs at a time: it isn't called proved" unsaid 'cpa_model is proved'
  hold "a failure, $jobs at a time: nothing goes on" [ ! -e "$room/went on" ]
  rm "$room/fail"
  LOKWURMI_JOBS=$jobs call analyse two.toml
  hold "mended, $jobs at a time: it is built" is "$status" 0
done
exit "$wrong"
