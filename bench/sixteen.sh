#!/usr/bin/env bash
# Runs `gthost run` on a script of 16 domains, and on one of 64, with 1,000 lines for each domain, whose order the
# script fixes where they meet: prints how many lines it writes, whether ten runs write the same, the least seconds of
# them, and what valgrind finds lost at its end. Each domain grants a page to the next one and maps that of the one
# before. Of 16 domains each stores, loads, copies, pokes and peeks then. Of 64 domains each loads, peeks, and asks for
# sizes and versions, since lines for more do not fit into a script. At last each takes its page back once the next one
# is through with it.
#
# `bench/sixteen.sh [RUNS] [DOMAINS]` makes so many runs (10) with so many domains (both). PROGRAM=FILE takes the built
# program gthost.
set -euo pipefail

# shellcheck source=bench/common.sh
source "$(dirname "${BASH_SOURCE[0]}")/common.sh"
runs="${1:-10}"
counts="${2:-16 64}"
program="$(built gthost)"
work="$(mktemp -d)"
trap 'rm -rf "$work"' EXIT

# The script, of so many domains with 1,000 lines each.
script() {
  awk -v domains="$1" 'BEGIN {
    split("map_read map_write unmap copy query", perms)
    for (i = 1; i <= 5; i++) print "triple a_t a_t " perms[i]
    for (d = 1; d <= domains; d++) print "domain " d " u:r:a_t 8 1 1"
    for (d = 1; d <= domains; d++) {
      before = (d + domains - 2) % domains + 1
      after = d % domains + 1
      print "do " d " grant 0 page " after " rw 1"
      print "tell " d " granted" d
      print "await " d " granted" before
      print "do " d " map m " before " 0 rw"
      for (line = 0; line < 991; line++) {
        byte = sprintf("%02x%02x", d, line % 256)
        if (domains > 16) few(d, before, line)
        else many(d, before, line, byte, line % 5)
      }
      print "do " d " unmap m"
      print "tell " d " done" d
      print "await " d " done" after
      print "do " d " peek 1 0 4"
      print "do " d " revoke 0"
    }
  }
  function many(d, before, line, byte, step) {
    if (step == 0) print "do " d " store m " line % 4000 " " byte
    if (step == 1) print "do " d " load m " (line - 1) % 4000 " 4"
    if (step == 2) print "do " d " copy gref " before " 0 " (line - 2) % 4000 " frame self 2 " line % 4000 " 2"
    if (step == 3) print "do " d " poke 2 " line % 4000 " " byte
    if (step == 4) print "do " d " peek 2 " (line - 2) % 4000 " 4"
  }
  # A script has at most 1,048,576 bytes, so that 64,000 lines have some 16 each.
  function few(d, before, line) {
    if (line == 0) print "do " d " store m 0 " sprintf("%02x", d)
    else if (line % 4 == 0) print "do " d " load m 0 1"
    else if (line % 4 == 1) print "do " d " size " before
    else if (line % 4 == 2) print "do " d " peek 1 0 0"
    else print "do " d " demote 1"
  }'
}

# Runs the script of so many domains, and prints what is said above.
try() {
  script "$1" >"$work/script"
  local least= run from to
  for run in $(seq "$runs"); do
    from="$(date +%s%N)"
    "$program" run "$work/script" --audit >"$work/out.$run"
    to="$(date +%s%N)"
    cmp "$work/out.1" "$work/out.$run" || { echo "run $run writes another text" >&2; exit 1; }
    if [ -z "$least" ] || [ $((to - from)) -lt "$least" ]; then least=$((to - from)); fi
  done
  awk -v domains="$1" -v lines="$(wc -l <"$work/out.1")" -v runs="$runs" -v ns="$least" \
    'BEGIN { printf "%d domains: %d lines, the same in %d runs, %.3f seconds\n", domains, lines, runs, ns / 1e9 }'
  grep -c ' ok' "$work/out.1" | sed 's/$/ of them are ok/'
  valgrind --leak-check=full --error-exitcode=3 --log-file="$work/log" "$program" run "$work/script" --audit >"$work/out"
  cmp "$work/out.1" "$work/out"
  sed -n 's/^==[0-9]*== *//; /in use at exit\|total heap usage\|lost:\|no leaks\|ERROR SUMMARY/p' "$work/log"
}

for count in $counts; do try "$count"; done
