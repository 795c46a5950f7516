#!/usr/bin/env bash
# Times frames and map handles: nanoseconds for one access, and for one handle kept and popped.
# Each line is the time of COUNT accesses less that of none, divided by COUNT; the least of five runs.
# PROGRAM=FILE takes the built program bench. Below are the instructions of one access, as valgrind counts them.
set -euo pipefail

# shellcheck source=bench/common.sh
source "$(dirname "${BASH_SOURCE[0]}")/common.sh"
program="$(built bench frames writes 0)"
work="$(mktemp -d)"
trap 'rm -rf "$work"' EXIT

# nanoseconds of the quickest of five runs
quickest() {
  local best=0 start took
  for _ in 1 2 3 4 5; do
    start=$(date +%s%N)
    "${priority[@]}" "$program" frames "$1" "$2" > /dev/null
    took=$(($(date +%s%N) - start))
    if [ "$best" -eq 0 ] || [ "$took" -lt "$best" ]; then best=$took; fi
  done
  echo "$best"
}

each() {
  local none all
  none=$(quickest "$1" 0)
  all=$(quickest "$1" "$2")
  echo "$1: $(((all - none) / $2)) ns each, of $2 ($("$program" frames "$1" "$2"))"
}

each writes 20000
each words 1000000
each reads 2000000
each copies 20000
each overlaps 20000
each named 20000
each locks 2000000
each locked 20000
each handles 8192
each handles 1000000

# The instructions of a run.
counted() {
  valgrind --tool=cachegrind --cache-sim=no --cachegrind-out-file="$work/cachegrind" --log-file="$work/log" \
    "$program" frames "$1" "$2" >/dev/null
  sed -n 's/.*I *refs: *//p' "$work/log" | tr -d ,
}

for access in writes words reads copies overlaps named locks locked; do
  echo "$access: $((($(counted "$access" 11000) - $(counted "$access" 1000)) / 10000)) instructions each"
done
