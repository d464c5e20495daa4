# Completion for bash of the words of `lokwurmi`: commands, options, files, and the names of resources and tasks in the system
# file that stands there already. `lokwurmi --completion` writes this file with the words of the table of commands before it,
# so write into ~/.bashrc:
#
#     source <(lokwurmi --completion)
# shellcheck shell=bash disable=SC2154 # the words stand before it: _lokwurmi_own, _lokwurmi_tools and the four below

# The names of the resources or the tasks of a system file, a line each, but for those that no command can be asked about since
# they begin with a dash; nothing where it can't be read.
_lokwurmi_names() {
  awk -v wanted="$1" '
    { sub(/(^|[ \t])#.*$/, "") }
    # the names of locks are no names of tasks
    {
      rest = $0
      left = ""
      while (rest != "") {
        if (depth == 0 && match(rest, /(^|[{, \t])locks[ \t]*=[ \t]*\[/)) {
          left = left substr(rest, 1, RSTART - 1) " "
          depth = 1
        } else if (depth > 0 && match(rest, /[][]/)) {
          depth += substr(rest, RSTART, 1) == "[" ? 1 : -1
        } else {
          if (depth == 0) left = left rest
          break
        }
        rest = substr(rest, RSTART + RLENGTH)
      }
      $0 = left
    }
    /^[ \t]*\[\[/ { part = $0; gsub(/[][ \t\r]/, "", part); next }
    /^[ \t]*[a-z]+[ \t]*=[ \t]*\[/ && !/^[ \t]*tasks[ \t]*=/ { part = $0; sub(/[ \t]*=.*$/, "", part); sub(/^[ \t]*/, "", part) }
    part == wanted {
      rest = $0
      while (match(rest, /(^|[{, \t])name[ \t]*=[ \t]*["\047][A-Za-z0-9_.][A-Za-z0-9_.-]*["\047]/)) {
        name = substr(rest, RSTART, RLENGTH - 1)
        sub(/^.*["\047]/, "", name)
        print name
        rest = substr(rest, RSTART + RLENGTH)
      }
    }' "$2" 2>/dev/null
}

# _lokwurmi_files WORD ENDING: folders, and files with the ending; any file where none has it
_lokwurmi_files() {
  mapfile -t COMPREPLY < <(compgen -f -X "!*$2" -- "$1")
  if ((${#COMPREPLY[@]} == 0)); then
    mapfile -t COMPREPLY < <(compgen -f -- "$1")
  else
    mapfile -t -O "${#COMPREPLY[@]}" COMPREPLY < <(compgen -d -- "$1")
  fi
  compopt -o filenames 2>/dev/null
}

# Sets given, the words before the one to complete without --workers and its number, and has_workers. Bash takes = as a word.
# What stands before a command as --quiet isn't counted.
_lokwurmi_read() {
  local at
  for ((at = 1; at < COMP_CWORD; at++)); do
    case ${COMP_WORDS[at]} in
    --workers)
      has_workers=yes
      [ "${COMP_WORDS[at + 1]}" != "=" ] || ((at++))
      ((at++))
      ;;
    --workers=*) has_workers=yes ;;
    --while-running) ((${#given[@]} > 1)) && given+=("${COMP_WORDS[at]}") ;;
    --quiet | --unproved | --strict) ((${#given[@]} > 0)) && given+=("${COMP_WORDS[at]}") || before=${COMP_WORDS[at]} ;;
    *) given+=("${COMP_WORDS[at]}") ;;
    esac
  done
}

# Whether the word to complete is the number after --workers; number has what stands of it.
_lokwurmi_is_number() {
  local before=${COMP_WORDS[COMP_CWORD - 1]}
  number=${COMP_WORDS[COMP_CWORD]#=}
  [ "$before" != "=" ] || before=${COMP_WORDS[COMP_CWORD - 2]}
  [ "$before" = --workers ]
}

# A file, or the name of a resource or a task, by the command and how many words are given with it.
_lokwurmi_operand() {
  local word=$1 file=${given[1]-} sort
  local -a sorts
  # as the line has it: with quotes, backslashes or a tilde
  file=${file//[\\\"\']/}
  [[ ${file:0:2} != \~/ ]] || file=$HOME/${file:2}
  read -ra sorts <<<"${_lokwurmi_words[${given[0]}]-}"
  sort=${sorts[${#given[@]} - 1]-}
  # the last word of a chain stands for up to 31 tasks
  if [[ ${sorts[-1]-} == "[TASK..]" ]] && ((${#given[@]} >= ${#sorts[@]} && ${#given[@]} <= 33)); then
    sort=TASK
  fi
  [ -n "$sort" ] || return
  if [ -n "${_lokwurmi_endings[$sort]-}" ]; then
    _lokwurmi_files "$word" "${_lokwurmi_endings[$sort]}"
  elif [ -n "${_lokwurmi_parts[$sort]-}" ]; then
    mapfile -t COMPREPLY < <(compgen -W "$(_lokwurmi_names "${_lokwurmi_parts[$sort]}" "$file")" -- "$word")
  fi
}

# What completes the first word: with --quiet, --strict or --unproved before it, a command alone.
_lokwurmi_first() {
  found=("${!_lokwurmi_words[@]}")
  [ "$before" = --unproved ] || found+=("${!_lokwurmi_tools[@]}")
  [ "$before" != --strict ] || found=(session page)
  [ -n "$before" ] || found+=("${_lokwurmi_own[@]}" help)
}

_lokwurmi() {
  local word=${COMP_WORDS[COMP_CWORD]} number has_workers='' before=''
  local -a given=() found=()
  COMPREPLY=()
  _lokwurmi_read
  if _lokwurmi_is_number; then
    # a number that stands there stays
    if [ -z "$number" ]; then
      COMPREPLY=(1 2 4 8 16 32 64)
    elif [[ $number =~ ^[0-9]+$ ]]; then
      COMPREPLY=("$number")
    fi
    return
  fi
  case ${given[0]-} in
  '') _lokwurmi_first ;;
  help | --help | -h) ((${#given[@]} > 1)) || found=("${!_lokwurmi_words[@]}" "${!_lokwurmi_tools[@]}" install uninstall build-library) ;;
  install | uninstall)
    ((${#given[@]} > 1)) || mapfile -t COMPREPLY < <(compgen -d -- "$word")
    compopt -o filenames 2>/dev/null
    return
    ;;
  *) _lokwurmi_after "$word" || return ;;
  esac
  mapfile -t COMPREPLY < <(compgen -W "${found[*]}" -- "$word")
}

# What completes a word after a command; fails where that is done already.
_lokwurmi_after() {
  local option=${_lokwurmi_options[${given[0]}]-}
  if [[ -v _lokwurmi_tools[${given[0]}] ]]; then
    if ((${#given[@]} == 1)) && [[ -n ${_lokwurmi_tools[${given[0]}]} ]]; then
      read -ra found <<<"${_lokwurmi_tools[${given[0]}]}"
    elif [[ $1 != -* ]]; then
      _lokwurmi_files "$1" ""
      return 1
    fi
    found+=(--help)
    return
  fi
  if [[ $1 != -* ]]; then
    _lokwurmi_operand "$1"
    return 1
  fi
  case $option in
  --workers) [ -n "$has_workers" ] || found=(--workers) ;;
  --while-running) [[ " ${COMP_WORDS[*]} " == *" --while-running "* ]] || found=(--while-running) ;;
  esac
  ((${#given[@]} > 1)) || found+=(--help)
}

complete -F _lokwurmi lokwurmi ./lokwurmi
