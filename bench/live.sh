#!/usr/bin/env bash
# Times the loads of `bench live`, whole calls on a running monitor, beside the bare words (`bench words`) and beside a
# program in C that keeps its entries as Xen keeps them, under a lock for the table and one for each entry: the
# table's lock with its readers in one word, or spread over a word for each thread. Whole calls are recorded (`on`),
# recorded into room that was made before the first call (`ahead`), recorded while the records are taken every 128
# rounds (`taken`), or not recorded (`off`). Prints millions of operations a second (a map, an unmap, a revocation, a
# withdrawal or a grant is one), how many times longer a round of each kind of whole calls takes than one of bare words,
# and the ratios of each kind to C with its lock spread. An owner that revokes and grants, or withdraws and grants, is
# timed alone. Below the table are the instructions of a round on one thread, as valgrind counts them, and those of
# whole calls in a run of 64 domains.
#
# A second table has the loads of bytes: thousands of loads, stores and copies a second, beside a program in C with a
# mutex for each frame (`live_bytes.c`), without a journal and with one. Copies are not recorded (`off`), or recorded
# and the records taken every 128 rounds (`taken`); loads and stores are never recorded. The last columns are the ratios
# of both to C, and of `off` to C with its journal. A forwarded copy goes by a transitive entry at each end. What C loses
# by its journal is what a journal costs there. Below the table are the instructions of a round on one thread, and the
# most memory that a million stores or copies were seen to have.
# `bench/live.sh [RUNS] calls` or `bytes` prints the one table alone.
#
# `bench/live.sh [RUNS] [TABLE]` makes so many runs of each program by turns (11), and takes from their time that of
# no rounds. `PRIORITY='chrt -f 1' bench/live.sh` runs the programs before other work, but not those of as many threads
# as there are processors: C's locks spin. `bench/live.sh 0` counts instructions alone. PROGRAM=FILE takes the built
# program bench. Before all that, tools/inlined.py sees that what the sources call `inline(always)` is inlined in it.
set -euo pipefail

# shellcheck source=bench/common.sh
source "$(dirname "${BASH_SOURCE[0]}")/common.sh"
runs="${1:-11}"
table="${2:-both}"
work="$(mktemp -d)"
trap 'rm -rf "$work"' EXIT

cp "$(built bench live apart 1 0)" "$work/live"
"$top/tools/inlined.py" "$work/live"
ln "$work/live" "$work/words"
"${CC:-clang}" -O2 -pthread -o "$work/counted" "$top/bench/live_tables.c"
"${CC:-clang}" -O2 -pthread -DSPREAD -o "$work/spread" "$top/bench/live_tables.c"
"${CC:-clang}" -O2 -pthread -o "$work/plain" "$top/bench/live_bytes.c"
"${CC:-clang}" -O2 -pthread -DJOURNAL -o "$work/journal" "$top/bench/live_bytes.c"

programs=(live-on live-ahead live-taken live-off words counted spread)
movers=(live-off live-taken plain journal)

# How often each thread of a program does what it does, in a run that is long enough to be timed. The journal of the C
# program keeps what is written, so there is no memory for long runs of stores and copies.
rounds_of() {
  case "$1 $2" in
    *" load-"* | *" fresh-"* | plain*) echo 500000 ;;
    *" grants" | *" withdrawals") echo 200000 ;; # generations end them soon after a million
    "live-"*" "*-64) echo 200000 ;;
    "live-"*" "*-4096) echo 100000 ;;
    *" "*-64) echo 100000 ;;
    *" "*-4096) echo 10000 ;;
    live-on* | live-ahead* | live-taken*) echo 200000 ;; # 400,000 records, for which `bench live` makes room ahead
    *) echo 3000000 ;;
  esac
}

# The word that says how a program's calls are recorded, where it has one behind its name.
audit_of() {
  case "$1" in
    *-*) echo "${1##*-}" ;;
  esac
}

# The word that says what the program in Rattle measures. Those in C have none.
subject_of() {
  case "$1" in
    live-* | words) echo "${1%-*}" ;;
  esac
}

# The nanoseconds of one run.
nanoseconds() {
  local from to
  from="$(date +%s%N)"
  first "$3" "$work/${1%-*}" $(subject_of "$1") "$2" "$3" "$4" $(audit_of "$1") >"$work/$1.out"
  to="$(date +%s%N)"
  echo "$((to - from))"
}

# The least nanoseconds of a round of each of these programs, times the threads, in their order.
least_times() {
  local program rounds load="$1" threads="$2"
  shift 2
  for _ in $(seq "$runs"); do
    for program in "$@"; do
      rounds="$(rounds_of "$program" "$load")"
      echo "$program $(nanoseconds "$program" "$load" "$threads" 0) $(nanoseconds "$program" "$load" "$threads" "$rounds") $rounds"
    done
  done | awk -v names="$*" '
    !($1 in none) || $2 < none[$1] { none[$1] = $2 }
    !($1 in some) || $3 < some[$1] { some[$1] = $3 }
    { rounds[$1] = $4 }
    END {
      count = split(names, name)
      for (i = 1; i <= count; i++) printf "%.3f ", (some[name[i]] - none[name[i]]) / rounds[name[i]]
    }'
}

# One line of the table.
compare() {
  least_times "$1" "$2" "${programs[@]}" | awk -v load="$1" -v threads="$2" '{
    printf "%-11s %7d", load, threads
    for (i = 1; i <= 7; i++) printf " %7.1f", speed[i] = 2000 * threads / $i
    for (i = 1; i <= 4; i++) printf " %7.2f", speed[5] / speed[i]
    for (i = 1; i <= 4; i++) printf " %7.2f", speed[i] / speed[7]
    printf "\n"
  }'
}

# One line of the table of bytes.
compare_bytes() {
  least_times "$1" "$2" "${movers[@]}" | awk -v load="$1" -v threads="$2" '{
    for (i = 1; i <= 4; i++) speed[i] = 1000000 * threads / $i
    printf "%-12s %7d %9.0f %9.0f %9.0f %9.0f %7.2f %7.2f %9.2f\n", load, threads, speed[1], speed[2], speed[3],
      speed[4], speed[1] / speed[3], speed[2] / speed[3], speed[1] / speed[4]
  }'
}

# The most memory, in KB, that a program was seen to have.
resident() {
  local most=0 now
  "$@" >/dev/null &
  while now="$(sed -n 's/^VmHWM:[^0-9]*\([0-9]*\).*/\1/p' "/proc/$!/status" 2>/dev/null)" && [ -n "$now" ]; do
    most="$now"
    sleep 0.01
  done
  wait
  echo "$most"
}

# The instructions of a round of a program on one thread.
instructions() {
  local none some
  none="$(counted "$1" "$2" 1000 "${@:3}")"
  some="$(counted "$1" "$2" 11000 "${@:3}")"
  echo "$(((some - none) / 10000))"
}

counted() {
  valgrind --tool=cachegrind --cache-sim=no --cachegrind-out-file="$work/cachegrind" --log-file="$work/log" \
    "$work/${1%-*}" $(subject_of "$1") "$2" 1 "$3" $(audit_of "$1") "${@:4}" >/dev/null
  sed -n 's/.*I *refs: *//p' "$work/log" | tr -d ,
}

moves=(load-64 load-4096 fresh-64 fresh-4096 store-64 store-4096 copy-64 copy-4096 forward-64 forward-4096)
if [ "$table" != bytes ]; then
  if [ "$runs" -gt 0 ]; then
    printf '%-11s %7s %7s %7s %7s %7s %7s %7s %7s %7s %7s %7s %7s %7s %7s %7s %7s\n' load threads on ahead taken off words \
      counted spread w/on w/ahead w/taken w/off on/s ahead/s taken/s off/s
    for load in apart adjacent; do
      for threads in 1 2 3 4; do
        compare "$load" "$threads"
      done
    done
    for load in grants withdrawals; do compare "$load" 1; done
  fi
  for load in apart grants withdrawals; do
    for program in "${programs[@]}"; do
      echo "$load, $program: $(instructions "$program" "$load") instructions a round"
    done
    for program in live-on live-ahead live-off; do
      echo "$load, $program, 64 domains: $(instructions "$program" "$load" 64) instructions a round"
    done
  done
fi
if [ "$table" != calls ]; then
  if [ "$runs" -gt 0 ]; then
    printf '%-12s %7s %9s %9s %9s %9s %7s %7s %9s\n' load threads off taken C 'C,journal' off/C taken/C /journal
    for load in "${moves[@]}"; do
      for threads in 1 4; do
        compare_bytes "$load" "$threads"
      done
    done
  fi
  for load in "${moves[@]}"; do
    echo "$load: $(for program in "${movers[@]}"; do echo "$program $(instructions "$program" "$load")"; done | paste -sd' ') instructions a round"
  done
  for load in store-64 copy-64; do
    echo "$load: $(resident "$work/live" live "$load" 1 1000000 off) KB resident after a million"
  done
fi
