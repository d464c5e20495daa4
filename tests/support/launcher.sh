# shellcheck shell=bash
# A small repository of its own for checks of the launcher `lokwurmi`, and a stand-in for the toolchain's command rt, which sleeps
# and prints. It is read by a check, and leaves that in a folder for a while, with `wrong` 1 where a case was.
top=$(cd "$(dirname "${BASH_SOURCE[0]}")/../.." && pwd) || exit 1
room=$(mktemp -d) || exit 1
trap 'rm -rf "$room"' EXIT
work="$room/with blanks"
wrong=0
export RT_ROOM=$room TERM=xterm

# hold WHAT TEST..: the test succeeds
hold() {
  local what=$1
  shift
  if "$@"; then
    printf 'ok     %s\n' "$what"
  else
    printf 'WRONG  %s: %s\n' "$what" "$*"
    [ ! -s "$room/said" ] || sed 's/^/       | /' "$room/said"
    wrong=1
  fi
}
# said FORM [FILE]: a line of what was said has the form
# shellcheck disable=SC2317 # these three are called by hold
said() { grep -Eq -- "$1" "${2:-$room/said}"; }
# shellcheck disable=SC2317
unsaid() { ! said "$@"; }
# shellcheck disable=SC2317
is() { [ "$1" = "$2" ]; }
# call WORD..: text and said have what is written on the two streams; no terminal
call() {
  "$work/lokwurmi" "$@" >"$room/text" 2>"$room/said" </dev/null
  status=$?
}
# in_terminal COMMAND: said has what the terminal got
in_terminal() {
  script -qec "$1" /dev/null >"$room/said" 2>&1 </dev/null
  status=$?
}

# until_started NUMBER: waits until so many processes have noted that they run, for two minutes at most
until_started() {
  local it
  for ((it = 0; it < 1200; it++)); do
    [ ! -e "$room/children" ] || [ "$(wc -l <"$room/children")" -lt "$1" ] || break
    sleep 0.1
  done
  sleep 0.5
}
# interrupt SIGNAL NUMBER WORD..: sends a signal to a call once so many processes run; succeeds where it ends by that. A shell
# that runs it in the background would have it ignore interrupts.
interrupt() {
  local signal=$1 number=$2
  shift 2
  python3 -c 'import signal, subprocess, sys, time
number = getattr(signal, "SIG" + sys.argv[1])
def count():
    try:
        return sum(1 for _ in open(sys.argv[3]))
    except OSError:
        return 0
it = subprocess.Popen(sys.argv[4:], preexec_fn=lambda: signal.signal(signal.SIGINT, signal.SIG_DFL))
for _ in range(1200):
    if count() >= int(sys.argv[2]) or it.poll() is not None:
        break
    time.sleep(0.1)
time.sleep(0.5)
it.send_signal(number)
sys.exit(it.wait() != -number)' "$signal" "$number" "$room/children" "$work/lokwurmi" "$@" >"$room/text" 2>"$room/said" </dev/null
}

# How many of the children of the stand-in go on: another process may have got the number of one since.
left() {
  local it
  while read -r it; do
    case $(ps -o stat=,args= -p "$it") in
    Z*) ;;
    *sleep\ 30[0-9] | *"$room"*) echo "$it" ;;
    esac
  done <"$room/children" | wc -l
}

# this repository's program
built=$top/crates/cpa_cli/out/cpa_cli

# ---- a small repository of its own, and a stand-in for rt
afresh() {
  local it
  rm -rf "$work"
  mkdir -p "$work"/{docs,examples,python/src,library}
  cp "$top/lokwurmi" "$work/" && cp -r "$top"/python/src/{lokwurmi,lokwurmi_tools} "$work/python/src/" || exit 1
  cp "$top"/library/{lokwurmi.{h,map,pc},report.c,edits.c} "$work/library/" && cp "$top"/python/*.{toml,py,md} "$work/python/" || exit 1
  cp "$top/examples/two_tasks.toml" "$work/examples/" && cp "$top/docs/FILES.md" "$work/docs/" || exit 1
  cat >"$work/crates.txt" <<'END'
# the crates, and what they use
cpa_units:
cpa_io: cpa_units
cpa_model: cpa_units indexmap
cpa_fix: cpa_units cpa_io cpa_model
cpa_cli may_wait=1: cpa_io cpa_fix
cpa_c staticlib: cpa_units cpa_io cpa_model cpa_fix
cpa_bench: cpa_units
cpa_cases: cpa_units cpa_model
END
  for it in cpa_units cpa_io cpa_model cpa_fix cpa_cli cpa_c cpa_bench cpa_cases; do
    mkdir -p "$work/crates/$it"/{src,specs,proofs}
    touch -d '1 hour ago' "$work/crates/$it"/src/lib.rt "$work/crates/$it"/{src,specs,proofs}
  done
  touch -d '1 hour ago' "$work/crates.txt"
  mkdir -p "$work/crates/cpa_cli/data"
  printf 'crate,proofs,tests,edits,edit_count\ncpa_model,238,,335,6\ncpa_units,,2,3,1\n' >"$work/docs/times.csv"
  rm -f "$room"/{calls,proved,children,slow,fail,kill,"went on",said,text}
  touch "$room/two.toml"
}
mkdir -p "$room/bin" "$room/none"
cat >"$room/bin/rt" <<'END'
#!/usr/bin/env bash
# Stands in for rt: proves a crate in half a second, and keeps that.
[ "$1" != version ] || exec echo "${RT_IDENTITY:-rattle-kit-13f} logic 0"
echo "$*" >>"$RT_ROOM/calls"
own=${PWD##*/}
case $own in
cpa_cli) below="cpa_units cpa_io cpa_model cpa_fix" ;;
cpa_fix) below="cpa_units cpa_io cpa_model" ;;
cpa_c) below="cpa_units cpa_io cpa_model cpa_fix" ;;
*) [ "$1" = doc ] || exit 2 ;;
esac

prove() {
  if [ -e "$RT_ROOM/slow" ] && [ "$1" = cpa_model ]; then
    setsid sleep 300 &
    echo $! >>"$RT_ROOM/children"
    (trap '' TERM; sleep 301; true) &
    echo $! >>"$RT_ROOM/children"
    wait
  fi
  sleep 0.6
  echo "$1" >>"$RT_ROOM/proved"
  if [ "$(cat "$RT_ROOM/fail" 2>/dev/null)" = "$1" ]; then
    printf 'fn %s::first: proved\nsrc/lib.rt:7: not proved: the sum may wrap\nlogic=not-proved\n' "$1"
    return 1
  fi
  echo "fn $1::first: proved"
}

case $1 in
all)
  for it in $below "$own"; do
    if [ ! -e "../$it/out/rlib/stamp" ]; then
      if [ -e "$RT_ROOM/kill" ] && [ "$it" = cpa_model ]; then
        printf '== %s\nfn %s::first: proved\n== summary\ncpa_units: ok\n%s: failed (-9)\n1 of 5 crates ok\n' "$it" "$it" "$it"
        exit 1
      fi
      if [ -e "$RT_ROOM/change" ] && [ "$it" = cpa_model ]; then
        printf '== %s\nlogic=proved functions=1\n' "$it"
        continue
      fi
      told=$(prove "$it")
      if [ $? = 1 ]; then
        printf '== %s\n%s\n' "$it" "$told"
        # it goes on with what doesn't stand on that
        sleep 20
        touch "$RT_ROOM/went on"
        exit 1
      fi
      mkdir -p "../$it/out/rlib" && touch "../$it/out/rlib/stamp"
    fi
    printf '== %s\nproved: all of it\n' "$it"
  done
  printf '== summary\n5 of 5 crates ok\n'
  ;;
run | lib)
  for it in $below "$own"; do
    [ ! -e "../$it/out/rlib/stamp" ] || continue
    echo "rt: chose --jobs 2 for $it"
    prove "$it" || exit 1
    [ "$1 $it" = "run $own" ] || { mkdir -p "../$it/out/rlib" && touch "../$it/out/rlib/stamp"; }
  done
  if [ "$own" = cpa_c ]; then
    printf 'int lokwurmi_version(void) { return 1; }\n' >out/one.c && cc -fPIC -c -o out/one.o out/one.c && ar rcs out/libcpa_c.a out/one.o
  fi
  [ "$1" = run ] || exit 0
  printf '#!/bin/sh\necho "called $*"\nfor it; do case $it in sleep) echo $$ >>"$RT_ROOM/children"; exec sleep 300 ;; signal.*) kill -${it#signal.} $$ ;; status.*) exit ${it#status.} ;; esac; done\ncase $1 in anal*) exit 0 ;; esac\nexit 10\n' >"out/$own"
  chmod +x "out/$own"
  ;;
doc)
  mkdir -p "$RT_ROOM/kit/c" && printf 'int allocates;\n' >"$RT_ROOM/kit/two.c"
  cc -fPIC -c -o "$RT_ROOM/kit/two.o" "$RT_ROOM/kit/two.c" && ar rcs "$RT_ROOM/kit/c/liblibc_c.a" "$RT_ROOM/kit/two.o"
  echo "$RT_ROOM/kit/START.md"
  ;;
try)
  # as rt does: the program's words are those after --, its output comes once it has ended, and then how it ended
  words=$* words=${words#* -- } status=0
  sleep 1
  case $words in
  *big) echo 'checked: no-answer: the program wrote more than 1048576 bytes to standard output or to standard error, the limit on each' >&2 ;;
  *late) echo 'checked: no-answer: the program did not end within the time limit' >&2 ;;
  *broken) echo 'error: src/main.rt:3: no such function' >&2 ;;
  esac
  case $words in *big | *late) echo 'run=no-answer proved=no' >&2 && exit 6 ;; *broken) echo 'run=none proved=no' >&2 && exit 1 ;; esac
  case $words in
  *sleep) setsid sleep 302 & echo $! >>"$RT_ROOM/children" && wait ;;
  *status.*) status=${words##*status.} ;;
  *unread*) echo "cannot read ${words#analyse }" && status=11 ;;
  *stdin) cat ;;
  esac
  [ "$status" = 11 ] || echo "tried $words"
  printf 'checked: ended status=%s\nrun=ended status=%s runners=1 races=unchecked proved=no\n' "$status" "$status" >&2
  exit "$status"
  ;;
esac
END
chmod +x "$room/bin/rt"
for it in bash sh env readlink dirname find sed awk cat tee nproc flock mkdir touch mv rm sleep grep head git; do
  ln -s "$(command -v "$it")" "$room/none/$it"
done
PATH=$room/bin:$PATH
cd "$room" || exit 1

