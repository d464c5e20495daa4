#!/usr/bin/env bash
# Tries an installed copy where there is neither this repository nor a toolchain: it is installed, moved to another folder, and
# called in a mount namespace in which both are hidden. There it has to pass examples/check.sh, tell a refusal in words, and draw.
# With its files alone the programs of library/ are compiled by each C compiler that is there, and another one as C++, and the
# blocks of docs/PYTHON.md and docs/LIBRARY.md are run, by the copy and by its wheel in a virtual environment. In the end it is
# uninstalled, and nothing may be left. The programs and the library have to be built. Outside the gate; it needs root, or user
# namespaces.
#
#     bash tests/launcher/check_installed.sh
top=$(cd "$(dirname "${BASH_SOURCE[0]}")/../.." && pwd) || exit 1
room=$(mktemp -d) && trap 'rm -rf "$room"' EXIT
tried=0 wrong=0
# hold WHAT COMMAND..: tells a command that fails
hold() {
  tried=$((tried + 1))
  if ! "${@:2}" >"$room/said" 2>&1; then
    wrong=$((wrong + 1))
    echo "WRONG  $1"
    sed 's/^/       | /' "$room/said" | tail -n 20
  fi
}
# shellcheck disable=SC2317 # called by `hold`
is_same() { [ "$1" = "$2" ] || { printf '%s\nand not\n%s\n' "$1" "$2"; false; }; }

if [ "${1-}" != inside ]; then
  hold "install" "$top/lokwurmi" install "$room/first"
  ((wrong == 0)) && mv "$room/first" "$room/moved" || exit 1
  kit=$(rt doc 2>/dev/null) && kit=${kit%/*} || kit=
  # this script is read from a copy, since its folder is hidden
  cp "${BASH_SOURCE[0]}" "$room/check.sh"
  words=(unshare --mount)
  ((EUID == 0)) || words+=(--map-root-user)
  "${words[@]}" bash "$room/check.sh" inside "$room" "$top" "$kit"
  exit
fi

# ---- without the repository and the toolchain
room=$2 copy=$2/moved here=$2/moved/lib/lokwurmi
trap - EXIT
for it in "$3" "$4"; do
  [ ! -d "$it" ] || mount -t tmpfs none "$it" || exit 1
done
export PATH=/usr/bin:/bin HOME=$room/home PKG_CONFIG_PATH=$copy/lib/pkgconfig LOKWURMI_QUIET=
unset PYTHONPATH LOKWURMI_PROGRAM LOKWURMI_LIBRARY
mkdir "$HOME" && cd "$HOME" || exit 1
hold "no toolchain is there" bash -c '! command -v rt'
hold "the repository is hidden" [ ! -e "$3/lokwurmi" ]
"$copy/bin/lokwurmi" --version >version
hold "--version" grep -q "the proved build" version
hold "examples/check.sh" bash "$here/examples/check.sh" "$copy/bin/lokwurmi"
printf 'format = 1\nsource = [{ name = "s", perod = 10 }]\n' >refused.toml
"$copy/bin/lokwurmi" analyse refused.toml >line 2>words
hold "a refusal: its status" is_same $? 14
hold "a refusal: in words" grep -q 'did you mean .period.?' words
hold "graph" "$copy/bin/lokwurmi" graph --to graph.svg "$here/examples/pedal.toml"
hold "page" "$copy/bin/lokwurmi" page "$here/examples/pedal.toml" --trace "$here/examples/pedal.trace.csv" --to page.html
hold "the man page" grep -q LOKWURMI "$copy/share/man/man1/lokwurmi.1"

# ---- the library
report=$(cat "$here/examples/two_tasks.report.txt")
read -ra flags <<<"$(pkg-config --cflags --libs lokwurmi)"
flags+=("-Wl,-rpath,$(pkg-config --variable=libdir lokwurmi)")
cat >plus.cc <<'END'
#include <cstdio>
#include "lokwurmi.h"
int main(int count, char **words) {
  static uint8_t text[1 << 20], out[1 << 20];
  std::FILE *file = count == 2 ? std::fopen(words[1], "rb") : nullptr;
  size_t used = 0, size = file ? std::fread(text, 1, sizeof text, file) : 0;
  uint8_t status = lokwurmi_analyse(text, size, out, sizeof out, &used);
  std::fwrite(out, 1, used, stdout);
  return status;
}
END
for cc in gcc clang; do
  command -v $cc >/dev/null || continue
  hold "$cc, shared" $cc -std=c11 -Wall -Wextra -pedantic -Werror "$here/library/report.c" "${flags[@]}" -o report
  hold "$cc, shared: its report" is_same "$(./report "$here/examples/two_tasks.toml")" "$report"
  hold "$cc, static" $cc -std=c11 -Wall -Wextra -Werror "-I$copy/include" "$here/library/edits.c" "$copy/lib/liblokwurmi.a" -o edits
  hold "$cc, static: a bound" is_same "$(./edits "$here/examples/two_tasks.toml" b 1 2 2 12 | tail -n 1)" "12 18 met"
done
for cc in g++ clang++; do
  command -v $cc >/dev/null || continue
  hold "$cc" $cc -std=c++11 -Wall -Wextra -pedantic -Werror plus.cc "${flags[@]}" -o plus
  hold "$cc: its report" is_same "$(./plus "$here/examples/two_tasks.toml")" "$report"
done

# ---- Python: each block of the two pages, with what stands behind it
cat >blocks.py <<'END'
import re, subprocess, sys
here, page, python = sys.argv[1:]
blocks = re.findall(r"^```python\n(.*?)^```\n(?:\n```\n(.*?)^```)?", open(f"{here}/docs/{page}").read(), re.M | re.S)
# the two scripts that stand beside each other in a table
blocks = [it for it in blocks if "polling" not in it[0] and "pycpa" not in it[0]]
words = [python, "-W", "ignore", "-c", "\n".join(code for code, _ in blocks)]
done = subprocess.run(words, cwd=here, capture_output=True, text=True)
wanted = "".join(told for _, told in blocks)
sys.exit(done.stderr or done.stdout if done.returncode or not blocks or wanted not in ("", done.stdout) else 0)
END
for page in PYTHON.md LIBRARY.md; do
  PYTHONPATH=$here/python/src hold "docs/$page, by the copy" python3 blocks.py "$here" $page python3
done
hold "a virtual environment" python3 -m venv venv
if [ -x venv/bin/python ]; then
  hold "the wheel" venv/bin/python -m pip install --no-index --quiet "$here"/library/lokwurmi-*.whl
  for page in PYTHON.md LIBRARY.md; do
    hold "docs/$page, by the wheel" python3 blocks.py "$here" $page "$PWD/venv/bin/python"
  done
  hold "the wheel is taken away" venv/bin/python -m pip uninstall --quiet --yes lokwurmi
  hold "nothing of it is left" is_same "$(find venv -iname '*lokwurmi*')" ""
fi

hold "uninstall" "$copy/bin/lokwurmi" uninstall
hold "nothing is left" [ ! -e "$copy" ]
echo "$tried tried, $wrong faults"
exit $((wrong > 0))
