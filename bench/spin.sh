#!/usr/bin/env bash
# Counts the states that SPIN visits for the programs `map N` of explore_sizes.sh (map.pml), without its partial order
# reduction and with it. It wants SPIN (Debian's package `spin`) and a C compiler. Compare with `bench/explore_sizes.sh`,
# which also finds the texts. The gate does not run it.
# usage: bench/spin.sh [N]        up to this number of mappers, 4 if it is left out
set -euo pipefail

model="$(cd "$(dirname "${BASH_SOURCE[0]}")" && pwd)/map.pml"
most="${1:-4}"
work="$(mktemp -d)"
trap 'rm -rf "$work"' EXIT
cd "$work"

# Verifies the model of a size, compiled with these flags, and prints a line about it.
measure() {
  local size="$1" name="$2"
  shift 2
  spin -a -DN="$size" "$model" >/dev/null
  cc -O2 -DSAFETY -DMEMLIM=8192 "$@" -o pan pan.c 2>/dev/null
  /usr/bin/time -f '%U %M' -o cost ./pan -m1000000 >out
  awk -v size="$size" -v name="$name" '
    FNR == NR { seconds = $1; peak = $2; next }
    /states, stored/ { states = $1 }
    /^State-vector/ { bytes = $2 }
    END { printf "map %d  %-18s %10d states %8.2f s %6d MB  vector %d bytes\n", size, name, states, seconds, peak / 1024, bytes }
  ' cost out
}

for ((size = 1; size <= most; size++)); do
  measure "$size" 'each turn' -DNOREDUCE
  measure "$size" 'reduced'
done
