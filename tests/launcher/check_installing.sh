#!/usr/bin/env bash
# Tries `lokwurmi install`, `uninstall` and `build-library`, with a stand-in for the toolchain's command rt. Prints a line a case, and
# ends with 1 where one answers otherwise than it should. Outside the gate: bash tests/launcher/check_installing.sh
# shellcheck source=tests/support/launcher.sh
. "$(dirname "${BASH_SOURCE[0]}")/../support/launcher.sh" || exit 1

# ---- install and uninstall
afresh
call install "$room/two.toml/sub"
hold "install below a file: refused" is "$status $(grep -c "two.toml is no folder" "$room/said")" "70 1"
call install --here
hold "install with an option: status 10" is "$status" 10
# who may write everywhere would write there too
if [ "$(id -u)" != 0 ]; then
  mkdir -p "$room/shut" && chmod 555 "$room/shut"
  call install "$room/shut"
  hold "install where nothing may be written: refused" is "$status $(grep -c "can't be written" "$room/said")" "70 1"
fi
hold "none of these built anything" [ ! -e "$room/calls" ]
to="$room/put here"
mkdir -p "$to/bin" && touch "$to/bin/another"
git -C "$work" init -q && git -C "$work" -c user.name=a -c user.email=a@b commit -q --allow-empty -m a
LOKWURMI_JOBS=2 call install "$to"
hold "install: status" is "$status" 0
hold "install: builds what isn't built" is "$(grep -c '^run' "$room/calls")" 1
hold "install: says what it has written" said '^lokwurmi: [0-9]+ files are written below '
hold "install: says what the search path lacks" said "^lokwurmi: $to/bin isn't in the search path: export PATH="
hold "install: says that sources aren't committed" said "changes that aren't committed, and --version of the copy says so"
mv "$work" "$room/elsewhere"
# copy WORD..: the installed copy, with no toolchain and no C compiler in the search path
copy() {
  env -i HOME="$room" PATH="$to/bin:$room/none" lokwurmi "$@" >"$room/text" 2>"$room/said" </dev/null
  status=$?
}
copy --version
hold "the copy: --version" is "$(sed 's/[0-9a-f]\{12\}/COMMIT/' "$room/text" | tr '\n' ';')" \
  "lokwurmi 1.0;toolchain rattle-kit-13f logic 0;commit COMMIT, and changes since that aren't committed;the proved build: its program was proved and built by that toolchain;"
copy analyse two.toml
hold "the copy: a command" is "$status $(cat "$room/text")" "0 called analyse two.toml"
hold "the copy: says nothing beside" [ ! -s "$room/said" ]
copy schedule two.toml two.csv
hold "the copy: a command of two files" is "$(cat "$room/text")" "called schedule two.toml two.csv"
copy analyse status.14
hold "the copy: refusals in words" said '^lokwurmi: the file is TOML but no system.*put here/lib/lokwurmi/docs/FILES.md'
copy analyse status.10
hold "the copy: words that the program refuses, in words" said 'analyse is called so: lokwurmi analyse FILE'
copy loda 1 2
hold "the copy: the nearest command" said 'the nearest is load '
copy --help
hold "the copy: help" said '^  analyse FILE' "$room/text"
copy graph "$top/examples/two_tasks.toml"
hold "the copy: a tool" said '^digraph' "$room/text"
copy --unproved analyse two.toml
hold "the copy: no --unproved, which it says" said 'which an installed copy hasn.t'
copy install "$room/third"
hold "the copy doesn't install itself, which it says" is "$status $(grep -c 'this is an installed copy' "$room/said")" "70 1"
hold "the man page is one" is "$(grep -c '^\.SH' "$to/share/man/man1/lokwurmi.1")" 11
if command -v man >/dev/null; then
  hold "the man page has no fault" is "$(LC_ALL=C.UTF-8 man --warnings -l "$to/share/man/man1/lokwurmi.1" 2>&1 >/dev/null | wc -l)" 0
fi
hold "completion is there" bash -c "source '$to/share/bash-completion/completions/lokwurmi' && complete -p lokwurmi >/dev/null"
mv "$to" "$room/moved here" && to="$room/moved here"
copy analyse two.toml
hold "the copy may be moved" is "$status $(cat "$room/text")" "0 called analyse two.toml"
echo 'echo other' >>"$to/lib/lokwurmi/crates/cpa_cli/out/cpa_cli"
copy --version
hold "a program that was changed is told" said "^NOT the proved build: cpa_cli isn't what was installed$" "$room/text"
mv "$room/elsewhere" "$work"
LOKWURMI_JOBS=2 call install "$to"
hold "install once more: builds nothing" is "$(grep -c '^run' "$room/calls")" 1
copy --version
hold "install once more: it is the proved build" said '^the proved build' "$room/text"
PYTHONPATH="$to/lib/lokwurmi/python/src" python3 -c 'import lokwurmi, lokwurmi_tools.pictures.system_graph'
hold "the Python package can be imported" is $? 0
call uninstall "$room/third"
hold "uninstall where nothing is: refused" is "$status $(grep -c 'nothing was installed' "$room/said")" "70 1"
copy uninstall
hold "uninstall by the copy itself" is "$status" 0
hold "uninstall takes all away, and nothing else" is "$(cd "$to" && find . | sort | tr '\n' ' ')" ". ./bin ./bin/another "
touch "$to/bin/lokwurmi"
call install "$to"
hold "install writes over nothing of another" is "$status $(grep -c 'no install has listed it' "$room/said")" "70 1"
rm "$to/bin/lokwurmi"
mkdir "$room/home"
HOME="$room/home" call install
hold "install without a word: ~/.local" [ -L "$room/home/.local/bin/lokwurmi" ]
HOME="$room/home" call uninstall
hold "uninstall without a word: ~/.local, and the folders that weren't there" is "$status $(find "$room/home" -type f | wc -l)" "0 0"
echo '#!/bin/sh' >"$work/crates/cpa_cli/out/cpa_cli"
LOKWURMI_JOBS=1 call install "$to"
hold "install: a program that no build has noted is built anew" said "crates/cpa_cli/out/cpa_cli wasn't built by this script, which builds it anew: "
call uninstall "$to"
PATH=$room/none call install "$to"
hold "install needs no toolchain where all is built" is "$status" 0
call uninstall "$to"

# ---- the library
if command -v cc >/dev/null; then
  LOKWURMI_JOBS=2 call build-library
  hold "build-library: status" is "$status" 0
  hold "build-library: proves what it depends on" said '^lokwurmi: the library isn.t built yet: it is proved and built first, 5 crates, of which [0-9] are proved already'
  hold "build-library: the archive" is "$(ar t "$work/library/out/liblokwurmi.a" | sort | tr '\n' ' ')" "one.o two.o "
  hold "build-library: the shared object shows its functions alone" is "$(nm -D --defined-only "$work/library/out/liblokwurmi.so" | awk '$2 != "A" { print $3 }' | tr '\n' ' ')" "lokwurmi_version@@LOKWURMI_2 "
  hold "build-library: the wheel's platform" is "$(cd "$work/library/out" && echo ./*.whl | sed 's/[0-9.]*-py3/VERSION-py3/')" "./lokwurmi-VERSION-py3-none-linux_$(uname -m).whl"
  hold "build-library: the wheel has the library" is "$(python3 -m zipfile -l "$work/library/out"/*.whl | grep -c 'lokwurmi/liblokwurmi.so')" 1
  : >"$room/calls"
  call build-library
  hold "build-library once more: proves nothing" is "$(cat "$room/calls")" doc
  call install "$to"
  hold "install takes the library along" [ -e "$to/lib/liblokwurmi.so" ]
  hold "install takes the library along: what C needs" [ -e "$to/include/lokwurmi.h" ]
  hold "install takes the library along: what pkg-config needs" grep -q '^prefix=.{pcfiledir}/\.\./\.\.$' "$to/lib/pkgconfig/lokwurmi.pc"
  hold "install takes the library along: the examples in C" [ -e "$to/lib/lokwurmi/library/report.c" ]
  call uninstall "$to"
  hold "uninstall takes it away" is "$(cd "$to" && find . | sort | tr '\n' ' ')" ". ./bin ./bin/another "
  touch "$work/crates/cpa_c/src/lib.rt"
  call install "$to"
  hold "install leaves a library out that is older than its sources" said "the library isn't among them: crates/cpa_c/src/lib.rt is newer than the library"
  hold "install leaves it out: no shared object anywhere" is "$(find "$to" -name '*.so' | wc -l)" 0
  call uninstall "$to"
  CC=none-such call build-library
  hold "build-library without a C compiler: says so" is "$status $(grep -c 'there is no C compiler none-such' "$room/said")" "70 1"
fi
exit "$wrong"
