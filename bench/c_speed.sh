#!/usr/bin/env bash
# Times the loads of `bench live`, maps and unmaps on a running monitor, from C threads through the library
# (bench/c/speed.c), beside `bench live` itself. Prints millions of operations a second (a map or an unmap is one), how
# many times longer a round takes from C, and below the table the instructions of a round on one thread, as valgrind
# counts them, also of a grant and a revocation by an owner, and of a copy in two halves, which is a call from C only.
#
# `bench/c_speed.sh [RUNS]` makes so many runs of each by turns (11), and takes from their time that of no rounds;
# `PRIORITY='chrt -f 1' bench/c_speed.sh` runs them before other work; `bench/c_speed.sh 0` counts instructions only.
# LIBRARY=DIR takes the library from DIR, where `./gthost library` left it, and PROGRAM=FILE the built program bench.
# PRIORITY is left out where there are as many threads as processors.
set -euo pipefail
# shellcheck source=bench/common.sh
source "$(dirname "${BASH_SOURCE[0]}")/common.sh"
cd "$top"
runs="${1:-11}"
work="$(mktemp -d)"
trap 'rm -rf "$work"' EXIT

library="${LIBRARY:-}"
if [ -z "$library" ]; then
  library="$work/library"
  ./tools/library.sh "$library" >"$work/log" 2>&1 || { cat "$work/log"; exit 1; }
fi
tools/inlined.py "$library/libgthost.a" # what the sources call inline(always) is inlined
"${CC:-clang}" -std=c11 -O2 -pthread -I"$library" bench/c/speed.c "$library/libgthost.a" -o "$work/c"
cp "$(built bench live apart 1 0)" "$work/rattle"

# The word that says what the program in Rattle measures. That in C has none.
subject_of() {
  [ "$1" != rattle ] || echo live
}

# There is room for 400,000 records ahead.
rounds_of() {
  if [ "$1" = off ]; then echo 3000000; else echo 200000; fi
}

nanoseconds() {
  local from to
  from="$(date +%s%N)"
  first "$3" "$work/$1" $(subject_of "$1") "$2" "$3" "$4" "$5" >/dev/null
  to="$(date +%s%N)"
  echo "$((to - from))"
}

# One line: a load, so many threads, and how calls are recorded.
compare() {
  local load="$1" threads="$2" audit="$3" rounds program
  rounds="$(rounds_of "$audit")"
  for _ in $(seq "$runs"); do
    for program in c rattle; do
      echo "$program $(nanoseconds "$program" "$load" "$threads" 0 "$audit") $(nanoseconds "$program" "$load" "$threads" "$rounds" "$audit")"
    done
  done | awk -v line="$(printf '%-8s %7d %-6s' "$load" "$threads" "$audit")" -v rounds="$rounds" -v threads="$threads" '
    !($1 in none) || $2 < none[$1] { none[$1] = $2 }
    !($1 in some) || $3 < some[$1] { some[$1] = $3 }
    END {
      c = (some["c"] - none["c"]) / rounds
      rattle = (some["rattle"] - none["rattle"]) / rounds
      printf "%s %8.1f %8.1f %8.2f\n", line, 2000 * threads / c, 2000 * threads / rattle, c / rattle
    }'
}

# counted PROGRAM LOAD ROUNDS AUDIT
counted() {
  valgrind --tool=cachegrind --cache-sim=no --cachegrind-out-file="$work/cachegrind" --log-file="$work/log" \
    "$work/$1" $(subject_of "$1") "$2" 1 "$3" "$4" >/dev/null
  sed -n 's/.*I *refs: *//p' "$work/log" | tr -d ,
}

instructions() {
  echo "$((($(counted "$1" "$2" 11000 "$3") - $(counted "$1" "$2" 1000 "$3")) / 10000))"
}

# One line about the instructions of a load, and how calls are recorded.
count() {
  local c rattle
  c="$(instructions c "$1" "$2")"
  rattle="$(instructions rattle "$1" "$2")"
  echo "$1, $2: $c instructions a round from C, $rattle from Rattle, $((c - rattle)) more"
}

if [ "$runs" -gt 0 ]; then
  printf '%-8s %7s %-6s %8s %8s %8s\n' load threads audit C Rattle C/Rattle
  for audit in off ahead on; do
    for load in apart adjacent; do
      for threads in 1 2 4; do
        compare "$load" "$threads" "$audit"
      done
    done
  done
fi
for audit in off ahead on; do count apart "$audit"; done
count grants off
echo "copies, off: $(instructions c copies off) instructions a round from C"
