#!/usr/bin/env bash
# Refuses each allocation of a call in turn, and looks at what it answers: the whole text with its status, or 30 and a prefix
# of the text. Takes a case of each command, or the words that are given. Refuses each allocation of the test
# `edit_without_memory` as well, by which an edit of a session leaves all four lists and all bounds as they were where it wants
# memory. Outside the gate:
#   bash tests/hard_use/check_refused_memory.sh [analyse FILE | session FILE SCRIPT | .. | edit_without_memory]
top=$(cd "$(dirname "${BASH_SOURCE[0]}")/../.." && pwd) || exit 1
program=$top/crates/cpa_cli/out/cpa_cli
tests=$top/crates/cpa_bound_tests/out/cpa_bound_tests_tests
work=$(mktemp -d) || exit 1
trap 'rm -rf "$work"' EXIT
cat >"$work/refuse.c" <<'C'
#define _GNU_SOURCE
#include <dlfcn.h>
#include <fcntl.h>
#include <stdatomic.h>
#include <stdlib.h>
#include <unistd.h>
static atomic_long count;
static long refused = -1;
static const char *mark;
__attribute__((constructor)) static void begin(void) {
  const char *text = getenv("REFUSED");
  if (text) refused = atol(text);
  mark = getenv("MARK");
}
/* Makes an empty file of the name in MARK, where there is one, once an allocation is refused. */
static int refuses(void) {
  if (refused < 0 || atomic_fetch_add(&count, 1) != refused) return 0;
  if (mark) close(open(mark, O_CREAT | O_WRONLY, 0600));
  return 1;
}
void *malloc(size_t size) {
  static void *(*real)(size_t);
  if (!real) real = (void *(*)(size_t))dlsym(RTLD_NEXT, "malloc");
  return refuses() ? NULL : real(size);
}
void *realloc(void *old, size_t size) {
  static void *(*real)(void *, size_t);
  if (!real) real = (void *(*)(void *, size_t))dlsym(RTLD_NEXT, "realloc");
  return refuses() ? NULL : real(old, size);
}
C
cc -O1 -shared -fPIC -o "$work/refuse.so" "$work/refuse.c" -ldl || exit 1

# Each allocation of the test in turn, until it makes no more. It passes where it does without, and where an edit is refused and
# the session is as before; where it wants memory elsewhere it fails with a status of its own; else it is stopped by a signal.
try_edits() {
  local n got kept=0 elsewhere=0
  [ -x "$tests" ] || (cd "$top/crates/cpa_bound_tests" && rt test -- edit_without_memory) >"$work/tests" || exit 1
  for ((n = 0; ; n++)); do
    rm -f "$work/mark"
    REFUSED=$n MARK=$work/mark LD_PRELOAD=$work/refuse.so "$tests" sessions::edit_without_memory >"$work/part" 2>&1
    got=$?
    if ((got == 0)) && [ ! -e "$work/mark" ]; then
      break
    elif ((got == 0)); then
      kept=$((kept + 1))
    elif ((got < 128)) && [ -e "$work/mark" ]; then
      elsewhere=$((elsewhere + 1))
    else
      echo "edit_without_memory: refused allocation $n: status $got"
      exit 1
    fi
  done
  if ((kept == 0)); then
    echo "edit_without_memory: no allocation of an edit was refused"
    exit 1
  fi
  echo "edit_without_memory: $kept refusals left the session as before, or were done without; $elsewhere ended the test elsewhere"
}

if [ "$*" = edit_without_memory ]; then
  try_edits
  exit
fi
[ -x "$program" ] || "$top/lokwurmi" analyse "$top/examples/two_tasks.toml" >"$work/first" || exit 1

# Each allocation of a call in turn, at most so many, every so manieth.
try() {
  local most=$1 step=$2 status size n got sent wanting=0 without=0
  shift 2
  "$program" "$@" >"$work/whole"
  status=$?
  size=$(stat -c %s "$work/whole")
  for ((n = 0; n < most * step; n += step)); do
    REFUSED=$n LD_PRELOAD=$work/refuse.so "$program" "$@" >"$work/part"
    got=$?
    sent=$(stat -c %s "$work/part")
    if ((sent > size)) || ! cmp -s -n "$sent" "$work/whole" "$work/part"; then
      echo "$*: refused allocation $n: no prefix of the text"
      exit 1
    fi
    if ((got == 30)); then
      wanting=$((wanting + 1))
      without=0
    elif ((got == status && sent == size)); then
      # The call made no such allocation, or did without it.
      without=$((without + 1))
      ((without == 20)) && break
    else
      echo "$*: refused allocation $n: status $got with $sent bytes"
      exit 1
    fi
  done
  echo "$*: $wanting refusals ended with 30 and a prefix, all others with status $status and the whole text"
}

if (($#)); then
  try 100000 1 "$@"
  exit
fi
try_edits
cd "$top/examples" || exit 1
printf 'report\nexec b 2 8\nreport\nexec b 2 7\n' >"$work/reports.txt"
printf 'report\nexec b 2 8\nreport\nexec b 2 7\nadd c cpu sb 1 2 3\nremove c\nreport\n' >"$work/script.txt"
printf 'event,sa,0\nevent,sa,10\nevent,sb,0\nexec,b,5\n' >"$work/trace.csv"
printf 'a,0,3\nb,3,8\na,10,13\n' >"$work/schedule.csv"
# The case replay_long_window: the two tasks with other periods and executions, and events as often as they come.
sed 's/period = 10 /period = 70 /; s/period = 20 /period = 100 /; s/best = 1, worst = 3/best = 26, worst = 26/
s/best = 2, worst = 7/best = 62, worst = 62/' two_tasks.toml >"$work/long_window.toml"
printf 'event,sa,%d\n' 0 70 140 210 280 350 420 490 560 630 >"$work/long_window.csv"
printf 'event,sb,%d\n' 0 100 200 300 400 500 600 >>"$work/long_window.csv"
# Two processors that are asked for too much, so that a search by two workers starts the second one.
printf '%s\n' 'format = 1' 'resource = [{ name = "p", kind = "preemptive" }, { name = "q", kind = "preemptive" }]' \
  'source = [{ name = "s", period = 10 }]' 'task = [' \
  '  { name = "a", on = "p", after = "s", best = 1, worst = 6, priority = 1 },' \
  '  { name = "b", on = "p", after = "s", best = 1, worst = 6, priority = 2 },' \
  '  { name = "c", on = "q", after = "s", best = 1, worst = 6, priority = 1 },' \
  '  { name = "d", on = "q", after = "s", best = 1, worst = 6, priority = 2 },' ']' >"$work/too_much.toml"
# Edits of a system with several activators: some are made, and the first and the last of the removals are refused.
printf 'remove m\nadd o cpu m 1 2 3\nsource sb 25 0 0\nreport\nexec m 1 2\nadd r q o 1 1 9\nremove r\nremove n\n' >"$work/lists.txt"
printf 'm,0,3\nm,3,6\nn,3,5\nn,6,8\n' >"$work/lists.csv"
# Chains of the same system, with a deadline that is met and one that is missed; and one with a task that isn't there.
printf '%s\n' 'format = 1' 'chain = [{ name = "c", tasks = ["m", "n"], reaction = 1000, age = 1 }, { name = "d", tasks = ["n", "m"] }]' \
  >"$work/joined.chains.toml"
printf '%s\n' 'format = 1' 'chain = [{ name = "c", tasks = ["m"] }, { name = "d", tasks = ["n", "zz"] }]' >"$work/unknown.chains.toml"
try 100000 1 analyse two_tasks.toml
try 100000 1 analyse car_network.toml
try 100000 1 analyse crossing_chains.toml --workers 2
try 100000 1 analyse "$work/too_much.toml" --workers 2
try 100000 1 session two_tasks.toml "$work/reports.txt"
try 100000 1 session two_tasks.toml "$work/script.txt"
try 100000 1 session crossing_chains.toml crossing_chains.script.txt
try 100000 1 simulate two_tasks.toml "$work/trace.csv"
try 100000 1 simulate "$work/long_window.toml" "$work/long_window.csv"
try 100000 1 simulate crossing_chains.toml crossing_chains.trace.csv
try 100000 1 generate 42 3
try 100000 1 load 42 3
try 100000 1 hammer two_tasks.toml 1 2
try 100000 1 assign deadline_order.toml cpu
try 100000 1 assign sae_can.toml can
try 100000 1 slack two_tasks.toml b
try 100000 1 slack sae_can.toml m16 --workers 2
try 100000 1 buffers two_tasks.toml "$work/trace.csv"
try 100000 1 buffers car_network.toml car_network.trace.csv --workers 2
try 100000 1 audit two_tasks.toml "$work/trace.csv" "$work/schedule.csv"
try 100000 1 audit crossing_chains.toml crossing_chains.trace.csv crossing_chains.schedule.csv
try 100000 1 schedule two_tasks.toml "$work/trace.csv"
try 100000 1 schedule crossing_chains.toml crossing_chains.trace.csv
try 100000 1 analyse two_activators.toml
try 100000 1 analyse two_activators.toml --workers 2
try 100000 1 session two_activators.toml "$work/lists.txt"
try 100000 1 simulate two_activators.toml two_activators.trace.csv
try 100000 1 hammer two_activators.toml 1 2
try 100000 1 assign two_activators.toml cpu
try 100000 1 slack two_activators.toml n --workers 2
try 100000 1 buffers two_activators.toml two_activators.trace.csv
try 100000 1 audit two_activators.toml two_activators.trace.csv "$work/lists.csv"
try 100000 1 schedule two_activators.toml two_activators.trace.csv
try 100000 1 chain effects.toml sense filter act
try 100000 1 chain two_activators.toml m n m
try 100000 1 chain overload.toml zz
try 100000 1 chains effects.toml effects.chains.toml
try 100000 1 chains two_activators.toml "$work/joined.chains.toml"
try 100000 1 chains two_activators.toml "$work/unknown.chains.toml"
try 1000 7 slack car_network.toml sense0
try 1000 7 generate 1 128
try 1000 7 load 1 128
