#!/usr/bin/env bash
# Draws scripts and has cases_compare make each on running domains and on the core, with everything compared after
# each call. It is no part of the gate, whose scripts are in the data of cases_compare: those of the files `drawn_*`
# were drawn here, as `bench/compare.sh --print SEED COUNT` prints them.
#
# A script has 2 to 6 domains of versions 1 and 2 with 1 to 64 frames each, and one more that only looks. Each domain
# publishes entries of all kinds, and then calls are drawn: most name what there is, some what is not.
# PROGRAM=FILE takes the built program cases_compare.
# usage: bench/compare.sh [SEED [FILES]]        so many files of 100 scripts each (10)
#        bench/compare.sh --print SEED COUNT    prints a file of so many scripts
set -euo pipefail
# shellcheck source=bench/common.sh
source "$(dirname "${BASH_SOURCE[0]}")/common.sh"

# Prints so many scripts, drawn from this seed. They have one head.
draw() {
  awk -v seed="$1" -v count="$2" '
    function upto(n) { return int(rand() * n) }
    function pick(words,   parts, n) { n = split(words, parts, " "); return parts[upto(n) + 1] }
    function hex(n,   text) { text = ""; while (n-- > 0) text = text sprintf("%02x", upto(256)); return text == "" ? "-" : text }
    function mode() { return pick("rw rw ro") }
    function dom() { return upto(20) == 0 ? 8 : upto(domains) + 1 }
    function ref() { return upto(30) == 0 ? pick("255 256 511 512 2047 2048") : upto(6) }
    function frame(d) { return upto(25) == 0 ? frames[d] : upto(frames[d]) }
    function off() { return pick("0 0 0 1 7 100 4000 4095 4096") }
    function len() { return pick("0 1 2 4 16 64 96 97 4096") }
    # An entry that was published for this domain, where a few looks find one.
    function granted(d,   tries, o, r) {
      for (tries = 0; tries < 12; tries++) {
        o = upto(domains) + 1; r = upto(6)
        if (who[o, r] == d) break
      }
      return o " " r
    }
    function grant(d, r,   kind, named) {
      named = dom(); who[d, r] = named
      kind = version[d] == 1 ? "page" : pick("page page sub via")
      if (upto(25) == 0) kind = pick("page sub via")
      if (kind == "page") return "grant " r " page " named " " mode() " " frame(d)
      if (kind == "sub") return "grant " r " sub " named " " mode() " " frame(d) " " off() " " len()
      return "grant " r " via " named " " mode() " " granted(d)
    }
    function end(d) { return upto(3) == 0 ? "frame self " frame(d) " " off() : "gref " granted(d) " " off() }
    function call(d,   n) {
      n = upto(100)
      if (n < 12) return grant(d, ref())
      if (n < 15) return "bytes " ref() " " (version[d] == 1 ? "0100" sprintf("%02x", dom()) "0005000000" : hex(pick("8 16 15")))
      if (n < 20) return "revoke " ref()
      if (n < 23) return "withdraw " ref()
      if (n < 26) return "demote " ref()
      if (n < 29) return "promote " ref()
      if (n < 43) return "map " pick("h k m") " " (upto(8) == 0 ? dom() " " ref() : granted(d)) " " pick("rw ro ro rw 2 6 3")
      if (n < 49) return "unmap " pick("h k m")
      if (n < 55) return "load " pick("h k m") " " off() " " len()
      if (n < 62) return "store " pick("h k m") " " off() " " hex(pick("0 1 4 64"))
      if (n < 65) return "peek " frame(d) " " off() " " len()
      if (n < 70) return "poke " frame(d) " " off() " " hex(pick("0 1 4 96"))
      if (n < 94) return "copy " end(d) " " end(d) " " len()
      if (n < 95) return "version " pick("1 2 3")
      if (n < 97) return "setup " pick("0 1 2 4 5")
      if (n < 99) return "size " dom()
      return "getversion " dom()
    }
    BEGIN {
      srand(seed)
      split("map_read map_write unmap copy query setup", perms, " ")
      for (s = 1; s <= 2; s++) for (t = 1; t <= 2; t++) for (p = 1; p <= 6; p++)
        if (s == t || upto(8) != 0 || p == 1) print "triple t" s " t" t " " perms[p]
      if (upto(4) == 0) print "wear " 1048575 - upto(4)
      domains = 2 + upto(5)
      for (d = 1; d <= domains; d++) {
        frames[d] = pick("1 2 3 8 8 9 16 64"); version[d] = pick("1 2 2")
        print "domain " d " u:r:t" upto(2) + 1 " " frames[d] " " upto(4) + 1 " " version[d]
      }
      print "domain 99 u:r:t1 1 1 1"
      print "===="
      for (n = 1; n <= count; n++) {
        if (n > 1) print "----"
        delete who
        for (d = 1; d <= domains; d++) {
          print "do " d " poke 0 0 " hex(32)
          for (r = 0; r < 4; r++) print "do " d " " grant(d, r)
        }
        for (c = 0; c < 24; c++) { d = upto(domains) + 1; print "do " d " " call(d) }
      }
    }'
}

if [ "${1:-}" = --print ]; then
  draw "$2" "$3"
  exit
fi
seed="${1:-1}" files="${2:-10}"
program="$(built cases_compare)"
work="$(mktemp -d)"
trap 'rm -rf "$work"' EXIT
names=()
for ((n = 0; n < files; n++)); do
  name="drawn_$((seed + n))"
  draw "$((seed + n))" 100 >"$work/$name.gt"
  names+=("$name")
done
cd "$work"
"$program" "${names[@]}" | tee "$work/said"
! grep -q 'script ' "$work/said"
