# How far a build is: `12 of 36 crates, about 20 min more`. What each crate costs is read from the table of
# docs/GATE.md. The estimate comes from a schedule of the crates on this number of lanes, in which those with the longest
# chain of others behind them come first, as `rt ci` starts them, and each takes the seconds of its row (a fifth more on
# several lanes, which share caches). How slow the machine is
# follows from the crates that are done: it is the time so far by the time at which the schedule has done as much.
#
# usage: awk -v name=gthost -v lanes=4 -v seconds=600 -v changed='CRATE ..' -v then='CRATE=STAMP ..' \
#            -v now='CRATE=STAMP ..' -f tools/progress.awk crates.txt docs/GATE.md
# The build began `seconds` ago. `changed` are the crates whose sources are others than at the last build; `then` and
# `now` have the stamp of each library that is there. A crate that changed, or is above such a one, is done once its
# stamp is another.
function add_below(crate,    parts, n, i) {
  if ((crate in is_below) || !(crate in deps)) return
  is_below[crate] = 1
  n = split(deps[crate], parts, " ")
  for (i = 1; i <= n; i++) { uses[crate, parts[i]] = 1; add_below(parts[i]) }
}

# The seconds of a crate and of the longest chain of crates that wait for it.
function chain(crate,    other, most) {
  if (crate in chains) return chains[crate]
  for (other in is_below) if (((other, crate) in uses) && chain(other) > most) most = chain(other)
  return chains[crate] = most + cost[crate]
}

function is_stale(crate,    parts, n, i) {
  if (crate in staleness) return staleness[crate]
  staleness[crate] = index(" " changed " ", " " crate " ") > 0
  n = split(deps[crate], parts, " ")
  for (i = 1; i <= n; i++) if (is_stale(parts[i])) staleness[crate] = 1
  return staleness[crate]
}

# The stamps, by crate.
function read_stamps(text, stamps,    parts, n, i, at) {
  n = split(text, parts, " ")
  for (i = 1; i <= n; i++) { at = index(parts[i], "="); stamps[substr(parts[i], 1, at - 1)] = substr(parts[i], at + 1) }
}

function can_start(crate, is_done,    parts, n, i) {
  n = split(deps[crate], parts, " ")
  for (i = 1; i <= n; i++) if ((parts[i] in is_below) && !(parts[i] in is_done)) return 0
  return 1
}

# Schedules the crates that are not in `done`: `moments` has the second at which each of them ends, in their order, and
# `sums` the seconds of those that are done by then.
function schedule(done,    is_done, until, crate, next_one, i, free, time, sum) {
  for (crate in done) is_done[crate] = 1
  free = lanes
  while (1) {
    for (; free > 0; free--) {
      next_one = ""
      for (i = 1; i <= crate_count; i++) {
        crate = order[i]
        if (!(crate in is_below) || (crate in is_done) || (crate in until) || !can_start(crate, is_done)) continue
        if (next_one == "" || chain(crate) > chain(next_one)) next_one = crate
      }
      if (next_one == "") break
      until[next_one] = time + cost[next_one]
    }
    next_one = ""
    for (crate in until) if (next_one == "" || until[crate] < until[next_one]) next_one = crate
    if (next_one == "") return
    time = until[next_one]
    delete until[next_one]
    is_done[next_one] = 1
    free++
    sum += cost[next_one]
    moments[++steps] = time
    sums[steps] = sum
  }
}

# How many times as long as scheduled the build takes, when crates of so many seconds are done. Before the first one is,
# the machine counts as slow only once that is late.
function slowness(made,    i, before) {
  if (!seconds || !steps) return 1
  for (i = 1; i <= steps && sums[i] <= made + 0.5; i++) before = moments[i]
  if (!before) return seconds > moments[1] ? seconds / moments[1] : 1
  return seconds / (i > steps ? before : (before + moments[i]) / 2)
}

FILENAME ~ /crates.txt$/ && /^[a-z]/ {
  crate = $1; sub(/:$/, "", crate)
  words = $0; sub(/^[^:]*:/, "", words)
  deps[crate] = words
  order[++crate_count] = crate
  cost[crate] = 60
}
/^\| [a-z_]+ \| [0-9]+ \|/ { if ($2 in cost) cost[$2] = $4 }
END {
  add_below(name)
  read_stamps(then, old)
  read_stamps(now, new)
  for (crate in is_below) {
    if (lanes > 1) cost[crate] *= 1.2
    all++
    if ((crate in old) && !is_stale(crate)) at_first[crate] = 1
    if ((crate in new) && (!is_stale(crate) || new[crate] != old[crate])) {
      count++
      if (!(crate in at_first)) made += cost[crate]
    }
  }
  schedule(at_first)
  rest = (steps ? moments[steps] : 0) * slowness(made) - seconds
  if (rest < 0) rest = 0
  printf "%d of %d crates, about %d min%s\n", count, all, rest / 60 + 1, seconds ? " more" : ""
}
