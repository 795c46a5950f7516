#!/usr/bin/env bash
# Compares each `$ ./gthost ..` of the pages, and what stands below it, with what the gate compares
# (crates/cases_program/stdout). Names of files are the same there without their folders. A pipe into `tail -n N` or
# `head -n N` is followed; of a line with `2>&1 >/dev/null` the page shows the last lines.
# usage: tools/worked_lines.sh [PAGE..]     docs/TOUR.md and README.md if none is named
set -euo pipefail
cd "$(dirname "${BASH_SOURCE[0]}")/.."
if [ $# -eq 0 ]; then set -- docs/TOUR.md README.md; fi
awk '
  function plain(line) { gsub(/examples\//, "", line); gsub(/crates\/cases_program\/data\//, "", line); return line }
  function last_lines(all, n,    lines, count, i, out) {
    count = split(all, lines, "\n") - 1
    for (i = count - n + 1; i <= count; i++) if (i > 0) out = out lines[i] "\n"
    return out
  }
  function first_lines(all, n,    lines, count, i, out) {
    count = split(all, lines, "\n") - 1
    for (i = 1; i <= n && i <= count; i++) out = out lines[i] "\n"
    return out
  }
  function compare(    wanted, command, n, first) {
    if (at == "") return
    tried++
    command = plain(asked)
    gsub(/["\047]/, "", command)
    if (match(command, / \| tail -n [0-9]+$/)) {
      n = substr(command, RSTART + 10)
      command = substr(command, 1, RSTART - 1)
    } else if (match(command, / \| head -n [0-9]+$/)) {
      first = substr(command, RSTART + 10) + 0
      command = substr(command, 1, RSTART - 1)
    } else if (sub(/ 2>&1 >\/dev\/null$/, "", command)) {
      n = lines_shown
    }
    sub(/^\.\/gthost/, "gthost", command)
    if (!(command in stored)) sub(/ -v /, " --verbose ", command)
    if (!(command in stored)) {
      print at ": no stored run of " command
      wrong++
    } else {
      wanted = stored[command]
      if (n != "") wanted = last_lines(wanted, n)
      if (first != "") wanted = first_lines(wanted, first)
      if (wanted != plain(shown)) {
        print at ": `" asked "` prints otherwise:\n" wanted
        wrong++
      }
    }
    at = ""
  }
  FILENAME ~ /cases_program\/stdout$/ {
    if (/^\$ gthost/) { key = substr($0, 3); stored[key] = "" }
    else if (/^\$ / || /^status [0-9]+$/) key = ""
    else if (key != "") stored[key] = stored[key] $0 "\n"
    next
  }
  /^\$ \.\/gthost / { compare(); at = FILENAME ":" FNR; asked = substr($0, 3); shown = ""; lines_shown = 0; next }
  /^```/ || /^\$ / { compare(); next }
  at != "" { shown = shown $0 "\n"; lines_shown++ }
  END { compare(); print tried + 0 " worked lines, " wrong + 0 " wrong"; exit wrong > 0 }
' crates/cases_program/stdout "$@"
