#!/usr/bin/env bash
# Times `gthost play` on scripts of 10,000, 20,000 and 40,000 lines, and on one of as many lines as a
# script may have bytes for, 1 MiB: prints lines and seconds. Twice the lines should take at most 2.2
# times as long.
#
# `bench/play.sh [RUNS]` prints the least time of so many runs (5). Where the machine has other work,
# `PRIORITY='chrt -f 1' bench/play.sh` runs the program before it. PROGRAM=FILE takes the built program gthost.
#
# A script makes the calls grant, map, load, unmap and revoke by turns, with a label of its own
# for each map.
#
# Then scripts of 5,000, 10,000 and 20,000 lines of copies of 4,096 bytes, by a page's grant, by a sub-page's, through a
# transitive entry and within a frame by turns: prints lines and seconds. Again twice the lines should take at most 2.2
# times as long.
#
# Then 30,000 lines of map, load and unmap of one mapping more, with 10 and with 8,000 mappings in use:
# prints mappings and seconds, those of making the mappings in use taken away. Both should take the same.
#
# Then the script of 40,000 lines once more, without and with its audit: with it a run should take at most 1.5 times
# as long.
set -euo pipefail

# shellcheck source=bench/common.sh
source "$(dirname "${BASH_SOURCE[0]}")/common.sh"
runs="${1:-5}"
program="$(built gthost)"
work="$(mktemp -d)"
trap 'rm -rf "$work"' EXIT

# A script of so many lines.
script() {
  awk -v lines="$1" 'BEGIN {
    print "triple b_t a_t map_read"
    print "triple b_t a_t map_write"
    print "triple b_t a_t unmap"
    print "domain 1 u:r:a_t 8 1 1"
    print "domain 2 u:r:b_t 8 1 1"
    for (line = 6; line <= lines; line++) {
      turn = int((line - 6) / 5)
      entry = turn % 512
      step = (line - 6) % 5
      if (step == 0) print "do 1 grant " entry " page 2 rw 5"
      if (step == 1) print "do 2 map h" turn " 1 " entry " rw"
      if (step == 2) print "do 2 load h" turn " 0 2"
      if (step == 3) print "do 2 unmap h" turn
      if (step == 4) print "do 1 revoke " entry
    }
  }'
}

# The seconds of one run, of `gthost play` with these words.
seconds() {
  local from to
  from="$(date +%s%N)"
  "${priority[@]}" "$program" play "$@" >/dev/null
  to="$(date +%s%N)"
  awk -v ns="$((to - from))" 'BEGIN { printf "%.3f\n", ns / 1e9 }'
}

# The least time of all runs.
least() {
  for _ in $(seq "$runs"); do seconds "$@"; done | sort -n | head -n 1
}

printf '%8s  %s\n' lines seconds
for lines in 10000 20000 40000; do
  script "$lines" >"$work/$lines.gt"
  printf '%8s  %s\n' "$lines" "$(least "$work/$lines.gt")"
done
script 60000 >"$work/longer.gt"
head -c 1048576 "$work/longer.gt" | sed '$d' >"$work/longest.gt"
printf '%8s  %s\n' "$(wc -l <"$work/longest.gt")" "$(least "$work/longest.gt")"

# A script of so many lines of copies.
copies() {
  awk -v lines="$1" 'BEGIN {
    print "triple a_t b_t copy"
    print "triple b_t a_t copy"
    print "triple b_t b_t copy"
    print "triple c_t b_t copy"
    print "domain 1 u:r:a_t 64 1 2"
    print "domain 2 u:r:b_t 64 1 2"
    print "domain 3 u:r:c_t 64 1 2"
    print "do 1 grant 0 page 2 rw 5"
    print "do 1 grant 1 sub 2 rw 6 0 4096"
    print "do 1 grant 2 page 3 ro 7"
    print "do 3 grant 0 via 2 ro 1 2"
    for (line = 12; line <= lines; line++) {
      turn = line % 4
      frame = int(line / 4) % 64
      if (turn == 0) print "do 2 copy gref 1 0 0 frame self " frame " 0 4096"
      if (turn == 1) print "do 2 copy frame self " frame " 0 gref 1 1 0 4096"
      if (turn == 2) print "do 2 copy gref 3 0 0 frame self " frame " 0 4096"
      if (turn == 3) print "do 2 copy frame self " frame " 0 frame self " (frame + 1) % 64 " 0 4096"
    }
  }'
}

printf '%8s  %s\n' copies seconds
for lines in 5000 10000 20000; do
  copies "$lines" >"$work/copies.gt"
  printf '%8s  %s\n' "$lines" "$(least "$work/copies.gt")"
done

# The audit of the script of 40,000 lines: as many lines, two in five of which are audited.
printf '%8s  %s\n' audit seconds
printf '%8s  %s\n' without "$(least "$work/40000.gt")"
printf '%8s  %s\n' with "$(least --audit "$work/40000.gt")"

# A script with so many mappings in use, and so many lines of calls by one more.
held() {
  awk -v held="$1" -v lines="$2" 'BEGIN {
    print "triple b_t a_t map_read"
    print "triple b_t a_t unmap"
    print "domain 1 u:r:a_t 8 1 1"
    print "domain 2 u:r:b_t 8 1 1"
    for (entry = 0; entry <= 16; entry++) print "do 1 grant " entry " page 2 ro 5"
    for (made = 0; made < held; made++) print "do 2 map k" made " 1 " made % 16 " ro"
    for (line = 0; line < lines; line++) {
      step = line % 3
      if (step == 0) print "do 2 map h 1 16 ro"
      if (step == 1) print "do 2 load h 0 2"
      if (step == 2) print "do 2 unmap h"
    }
  }'
}

printf '%8s  %s\n' mappings seconds
for mappings in 10 8000; do
  held "$mappings" 0 >"$work/before.gt"
  held "$mappings" 30000 >"$work/all.gt"
  awk -v mappings="$mappings" -v all="$(least "$work/all.gt")" -v before="$(least "$work/before.gt")" \
    'BEGIN { printf "%8d  %.3f\n", mappings, all - before }'
done
