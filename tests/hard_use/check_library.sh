#!/usr/bin/env bash
# Tries the library of docs/LIBRARY.md, which ./lokwurmi build-library has built, and the Python package: the C examples beside the program over all
# examples, by each C and C++ compiler that is there, static and shared; each function under valgrind where that is installed; each allocation
# refused in turn; sessions of eight threads; and the tests of the package.
#
#     bash tests/hard_use/check_library.sh [PROGRAM]
cd "$(dirname "${BASH_SOURCE[0]}")/../.." || exit 1
program=$(realpath "${1:-crates/cpa_cli/out/cpa_cli}")
room=$(mktemp -d) && trap 'rm -rf "$room"' EXIT
library=library/out/liblokwurmi.a
faults=0 skipped=0
fault() {
  echo "check_library: $1" >&2
  faults=$((faults + 1))
}
[ -e $library ] || { fault "./lokwurmi build-library builds $library, which isn't there" && exit 1; }
# each C compiler, over the static and the shared library, and each C++ compiler
try_examples() {
  "$1" -std=c11 -Wall -Wextra -pedantic -Werror -Ilibrary library/report.c "${@:2}" -o "$room/report" || return
  "$1" -std=c11 -Wall -Wextra -pedantic -Werror -Ilibrary library/edits.c "${@:2}" -o "$room/edits" || return
  "$room/report" examples/two_tasks.toml && "$room/edits" examples/two_tasks.toml b 1 2 2 12
}
"$program" analyse examples/two_tasks.toml >"$room/there"
for cc in gcc clang; do
  command -v $cc >/dev/null || continue
  try_examples $cc $library >"$room/static" || fault "$cc over the static library"
  try_examples $cc -Llibrary/out -llokwurmi "-Wl,-rpath,$PWD/library/out" >"$room/shared" || fault "$cc over the shared library"
  cmp -s "$room/static" "$room/shared" || fault "$cc: the shared library answers otherwise than the static one"
  head -n 3 "$room/static" | cmp -s - "$room/there" || fault "$cc: another report than the program's"
done
printf '#include "lokwurmi.h"\nint main() { lokwurmi_handle handle = LOKWURMI_CLOSED; lokwurmi_close(&handle); return handle.open != 0 || lokwurmi_version() != 2; }\n' >"$room/header.cc"
for cc in g++ clang++; do
  command -v $cc >/dev/null || continue
  $cc -std=c++11 -Wall -Wextra -pedantic -Werror -Ilibrary "$room/header.cc" $library -o "$room/header" || fault "$cc over the header"
  "$room/header" || fault "$cc: a program that closes a handle"
done
for it in library/report library/edits tests/hard_use/library_calls tests/hard_use/library_refused tests/hard_use/library_threads; do
  flags=()
  [ "$it" != tests/hard_use/library_refused ] || flags=("-Wl,--wrap=malloc" "-Wl,--wrap=realloc")
  [ "$it" != tests/hard_use/library_threads ] || flags=(-pthread)
  cc -std=c11 -O2 -Wall -Wextra -Werror -Ilibrary "${flags[@]}" -o "$room/${it##*/}" $it.c $library || exit 1
done
tried=0
for file in examples/*.toml; do
  [[ $file == *.chains.toml ]] && continue
  "$room/report" "$file" >"$room/here"
  here=$?
  "$program" analyse "$file" >"$room/there"
  there=$?
  tried=$((tried + 1))
  { [ $here = $there ] && cmp -s "$room/here" "$room/there"; } || fault "$file: another report than the program's"
done
echo "$tried examples: reports as the program's"
verdicts=(met missed overload)
for worst in {2..12}; do
  echo "exec b 2 $worst" >"$room/script"
  "$program" session examples/two_tasks.toml "$room/script" >"$room/session"
  verdict=${verdicts[$?]}
  echo "$worst $(sed -n 's/^task b .* //p' "$room/session") $verdict"
done >"$room/there"
"$room/edits" examples/two_tasks.toml b 1 2 2 12 >"$room/here"
cmp -s "$room/here" "$room/there" || fault "library/edits: other bounds than the program's"
echo "edits of a kept session: bounds as the program's"
if command -v valgrind >/dev/null; then
  valgrind -q --leak-check=full --show-leak-kinds=all --error-exitcode=99 "$room/library_calls" || fault "valgrind, over library_calls"
  valgrind -q --leak-check=full --error-exitcode=99 "$room/library_refused" examples/two_tasks.toml || fault "valgrind, over library_refused"
else
  # nothing else sees memory that is never freed
  skipped=1
  echo "skipped: valgrind isn't here (apt-get install valgrind), so that nothing is said of memory that isn't freed"
fi
"$room/library_refused" examples/car_network.toml || fault "library_refused"
"$room/library_threads" examples/car_network.toml || fault "library_threads"
LOKWURMI_PROGRAM=$program LOKWURMI_SYSTEMS=${LOKWURMI_SYSTEMS:-500} PYTHONPATH=python/src:python/tests "${PYTHON:-python3}" -m unittest discover -s python/tests || fault "tests of the package"
echo "$faults faults, $skipped skipped"
((faults == 0))
