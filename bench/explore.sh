#!/usr/bin/env bash
# Draws small programs for `run`, and holds `gthost explore` against the program itself. Of each program
#
# - every text that `gthost run` prints in 200 runs must be among those that `explore` prints;
# - every witness, played, must give the answers of its text, and after them only `ok` for each mapping that a domain
#   unmaps at the end of its list. A text that needs the release of a mapping that its domain may not unmap has none.
#
# A program has two or three domains with two to four calls each on the entries 0 and 1 of the first domain, and some
# flags between them. In some programs the policy does not let a domain unmap what it maps. One that can't run (`stuck`),
# or has more states than the limit, is drawn anew. The same seed draws the same programs. With the word `cases` the
# programs are those of `explored/` in `cases_program`, whose texts the gate compares with stored ones. It is no part of the gate.
# Prints how much was tried; the status is 1 if something is wrong, and the program is then left as explore-N.gt.
# PROGRAM=FILE takes the built program gthost.
# usage: bench/explore.sh [SEED [PROGRAMS [RUNS]]]        1, 50 and 200 if they are left out
#        bench/explore.sh cases [RUNS]                    200 runs of each if they are left out
set -euo pipefail

# shellcheck source=bench/common.sh
source "$(dirname "${BASH_SOURCE[0]}")/common.sh"
seed="${1:-1}"
programs="${2:-50}"
runs="${3:-200}"
if [ "$seed" = cases ]; then runs="${2:-200}"; fi
program="$(built gthost)"
work="$(mktemp -d)"
trap 'rm -rf "$work"' EXIT
failed=0

# Prints the program of this number.
draw() {
  awk -v seed="$1" '
    function upto(n) { return int(rand() * n) }
    function pick(words,   parts, n) { n = split(words, parts, " "); return parts[upto(n) + 1] }
    function entry(to) {
      return pick("page page page sub") == "page" ? "page " to " " pick("ro rw rw") " " 2 + upto(2) : \
        "sub " to " " pick("ro rw") " " 2 + upto(2) " 0 " 1 + upto(4)
    }
    function own(   call) {
      call = pick("grant grant revoke revoke withdraw demote promote poke peek")
      if (call == "grant") return "grant " upto(2) " " entry(2 + upto(domains - 1))
      if (call == "poke") return "poke " 2 + upto(2) " 0 " pick("aa bb cc")
      if (call == "peek") return "peek " 2 + upto(2) " 0 1"
      return call " " upto(2)
    }
    function other(   call) {
      call = pick("map map map load load store unmap unmap copy copy")
      if (call == "map") return "map " pick("g h") " 1 " upto(2) " " pick("ro rw")
      if (call == "unmap") return "unmap " pick("g h")
      if (call == "load") return "load " pick("g h") " 0 1"
      if (call == "store") return "store " pick("g h") " 0 " pick("01 02")
      return pick("0 1") == "0" ? "copy gref 1 " upto(2) " 0 frame self 0 0 1" : "copy frame self 0 0 gref 1 " upto(2) " 0 1"
    }
    BEGIN {
      srand(seed); upto(2)
      domains = 2 + (rand() < 0.3)
      for (dom = 2; dom <= domains; dom++) {
        if (rand() < 0.8) print "triple t" dom " t1 unmap"
        print "triple t" dom " t1 map_read"
        if (rand() < 0.8) print "triple t" dom " t1 map_write"
        if (rand() < 0.8) { print "triple t" dom " t1 copy"; print "triple t1 t" dom " copy" }
        print "triple t" dom " t" dom " copy"
      }
      for (dom = 1; dom <= domains; dom++) print "domain " dom " u:r:t" dom " 4 1 " 1 + (rand() < 0.8)
      most = domains == 2 ? 3 : 2
      if (rand() < 0.9) print "do 1 grant 0 " entry(2)
      flags = rand() < 0.5
      if (flags) print "tell 1 begun"
      for (call = 2 + upto(most); call > 0; call--) print "do 1 " own()
      for (dom = 2; dom <= domains; dom++) {
        if (flags && rand() < 0.7) print "await " dom " begun"
        if (rand() < 0.7) print "do " dom " map " pick("g h") " 1 0 " pick("ro rw")
        for (call = 1 + upto(most); call > 0; call--) print "do " dom " " other()
        if (rand() < 0.3) print "tell " dom " done" dom
      }
      if (rand() < 0.3) { print "await 1 done2"; print "do 1 " own() }
    }'
}

# Tells whether a played witness has the answers of a text, domain by domain and without the numbers of their lines,
# and after them only `ok`.
gives() {
  awk -v text="$1" '
    function answer(line) { sub(/^[^ ]* /, "", line); return line }
    FILENAME == text { wanted[$2, ++count[$2]] = answer($0); next }
    { k = ++at[$2]; if (answer($0) != (k <= count[$2] ? wanted[$2, k] : $2 " ok")) bad = 1 }
    END { for (dom in count) if (at[dom] < count[dom]) bad = 1; exit bad }' "$1" "$2"
}

# Tells that the program of a number is wrong.
wrong() {
  echo "wrong: program $1: $2"
  cp "$work/program.gt" "explore-$1.gt"
  failed=1
}

# Tries the program of a number; false if there is nothing to try.
try() {
  local number="$1" fault text count printed=0 run at
  local -A may=() seen=()
  fault="$("$program" explore "$work/program.gt" 2>&1 >"$work/all")" || true
  case "$fault" in
    '') ;;
    *' waits for the flag '*) return 1 ;;
    *) wrong "$number" "explore says $fault"; return ;;
  esac
  if grep -q 'not all texts' "$work/all"; then return 1; fi
  rm -f "$work"/text.*
  awk -v work="$work" '/^text /{ file = work "/text." $2; printf "" >file; next } /^states /{ next } { print >file }' "$work/all"
  count="$(find "$work" -name 'text.*' | wc -l)"
  for ((at = 1; at <= count; at++)); do may["$(<"$work/text.$at")."]=1; done
  for ((run = 0; run < runs; run++)); do
    text="$(timeout 60 "$program" run "$work/program.gt" 2>&1)." || { wrong "$number" "a run ends with $text"; return; }
    [ -z "${seen[$text]-}" ] || continue
    seen[$text]=1
    printed=$((printed + 1))
    [ -n "${may[$text]-}" ] || { wrong "$number" "explore does not print what a run prints"; return; }
  done
  for ((at = 1; at <= count; at++)); do
    if fault="$("$program" explore --witness "$at" "$work/program.gt" 2>&1 >"$work/witness.gt")"; then
      if grep -q '^# no script' "$work/witness.gt"; then
        unplayable=$((unplayable + 1))
        continue
      fi
      "$program" play "$work/witness.gt" >"$work/played" || { wrong "$number" "the witness of text $at is not played"; return; }
      gives "$work/text.$at" "$work/played" || { wrong "$number" "the witness of text $at gives another"; return; }
      witnesses=$((witnesses + 1))
    else
      wrong "$number" "the witness of text $at: $fault"
      return
    fi
  done
  texts=$((texts + count))
  ran=$((ran + printed))
  states=$((states + $(sed -n 's/^states //p' "$work/all")))
}

texts=0 ran=0 witnesses=0 unplayable=0 states=0 tried=0 passed=0
if [ "$seed" = cases ]; then
  for file in "$top"/crates/cases_program/data/explored/*.gt; do
    cp "$file" "$work/program.gt"
    if try "$(basename "$file" .gt)"; then tried=$((tried + 1)); else passed=$((passed + 1)); fi
  done
else
  for ((number = 1; tried < programs; number++)); do
    draw "$((seed * 100000 + number))" >"$work/program.gt"
    if try "$number"; then tried=$((tried + 1)); else passed=$((passed + 1)); fi
  done
fi
echo "$tried programs ($passed drawn anew), $states states, $texts texts"
echo "$((tried * runs)) runs printed $ran of them, and no other"
echo "$witnesses witnesses gave their texts; $unplayable texts need a release that play has no line for"
exit $failed
