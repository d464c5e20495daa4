# Writes a line where a system file that is accepted may deserve a notice: a source that no `after` names, a frame on a CAN
# resource whose priority is above that of 11 bits without `extended`, or with it where other frames have 11 bits; a clock that
# one source names, or any clock beside a sporadic source; critical sections; and, where `unbounded` tells of a chain without a
# bound, a sporadic source. Where the layout is uncommon it may miss one.
{ sub(/(^|[ \t])#.*$/, "") }
/^[ \t]*\[\[/ { part = $0; gsub(/[][ \t\r]/, "", part); end_frame(); next }
/^[ \t]*[a-z]+[ \t]*=[ \t]*\[/ && !/^[ \t]*(tasks|after)[ \t]*=/ { part = $0; sub(/[ \t]*=.*$/, "", part); sub(/^[ \t]*/, "", part) }
/"can"|'can'/ { can = 1 }
in_list || /after[ \t]*=/ { take_activators($0) }
part == "source" {
  rest = $0
  while (match(rest, /(^|[{, \t])name[ \t]*=[ \t]*["'][^"']*["']/)) {
    name = substr(rest, RSTART, RLENGTH - 1)
    sub(/^.*["']/, "", name)
    sources[name] = 1
    rest = substr(rest, RSTART + RLENGTH)
  }
  rest = $0
  while (match(rest, /(^|[{, \t])clock[ \t]*=[ \t]*["'][^"']*["']/)) {
    name = substr(rest, RSTART, RLENGTH - 1)
    sub(/^.*["']/, "", name)
    on_clock[name]++
    clocked = 1
    rest = substr(rest, RSTART + RLENGTH)
  }
}
/priority[ \t]*=/ {
  number = $0
  sub(/^.*priority[ \t]*=[ \t]*\+?/, "", number)
  gsub(/_/, "", number)
  # four digits and more, or of another base
  if (number ~ /^(0[xob]|[0-9][0-9][0-9][0-9])/) long = 1
  if (number ~ /^[0-9]+/ && number + 0 <= 2047 && number !~ /^0[xob]/) long = 0
}
/sporadic["' \t]*=[ \t]*true/ { sporadic = 1 }
/(^|[{, \t])locks[ \t]*=/ { locks = 1 }
/extended[ \t]*=[ \t]*true/ { extended = 1 }
/payload[ \t]*=/ { payload = 1 }
/priority[ \t]*=/ && /[{}]/ { end_frame() }
END {
  end_frame()
  for (name in sources) if (!(name in named)) { print "source"; exit }
  for (name in on_clock) if (on_clock[name] == 1) { print "clock"; exit }
  if (clocked && sporadic) { print "clock"; exit }
  if (locks) { print "lock"; exit }
  if (can && (some_long || (some_extended && some_short))) { print "priority"; exit }
  if (unbounded && sporadic) print "sporadic"
}
function end_frame() {
  if (long && !extended) some_long = 1
  if (long && extended) some_extended = 1
  if (payload && !extended) some_short = 1
  long = extended = payload = 0
}
# the names after `after`, whose list may go over several lines
function take_activators(line, end) {
  while (in_list || match(line, /after[ \t]*=[ \t]*/)) {
    if (!in_list) {
      line = substr(line, RSTART + RLENGTH)
      if (line !~ /^\[/) { take_name(line); line = substr(line, 2); continue }
      in_list = 1
    }
    end = index(line, "]")
    take_names(end ? substr(line, 1, end) : line)
    if (!end) return
    line = substr(line, end + 1)
    in_list = 0
  }
}
function take_name(line, end) {
  if (match(line, /^("[^"]*"|'[^']*')/)) named[substr(line, 2, RLENGTH - 2)] = 1
}
function take_names(list) {
  while (match(list, /"[^"]*"|'[^']*'/)) {
    named[substr(list, RSTART + 1, RLENGTH - 2)] = 1
    list = substr(list, RSTART + RLENGTH)
  }
}
