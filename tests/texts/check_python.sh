#!/usr/bin/env bash
# Holds the packages of python/src, and all Python scripts of this repository, against their rules: types of the packages by
# mypy, faults by pyflakes, lines of at most 120 characters by pycodestyle, the layout by black and isort, as python/pyproject.toml
# says. All are packages of Debian 12 (apt-get install mypy pyflakes3 pycodestyle black isort); ruff, which Debian 12 doesn't
# have, is called where it is there. Outside the gate; takes a minute or some, and no network.
#
#     bash tests/texts/check_python.sh
cd "$(dirname "${BASH_SOURCE[0]}")/../../python" || exit 1
all=(src tests ../tests ../bench ../examples/python)
faults=0

# must NAME WORD..: a call that must end well; one that isn't there is told, and is a fault too
must() {
  local name=$1
  shift
  if ! command -v "$1" >/dev/null; then
    echo "$name: $1 isn't here: apt-get install $name"
    faults=$((faults + 1))
  elif ! "$@"; then
    echo "$name: faults"
    faults=$((faults + 1))
  fi
}

must mypy mypy --config-file pyproject.toml
must pyflakes3 pyflakes3 "${all[@]}"
must pycodestyle pycodestyle --max-line-length=120 --ignore=E203,E226,E241,E704,E731,W503,W504 "${all[@]}"
must isort isort --settings-path . --check --quiet "${all[@]}"
must black black --config pyproject.toml --quiet --check "${all[@]}"
if command -v ruff >/dev/null; then
  must ruff ruff check "${all[@]}"
else
  echo "ruff isn't here: it is no package of Debian 12; pyflakes and pycodestyle look for the same"
fi
echo "$faults faults"
((faults == 0))
