#!/usr/bin/env bash
# Runs `gthost run` where the system refuses it threads, memory or the disk, and judges each run. It is no part of the
# gate. Each run must end within a minute by itself, and tell its fault in one line. What it printed must be a
# beginning of the whole text, and nothing where a thread was refused. Where a call finds no memory it is answered
# N26, and a record that finds none counts as lost: then the lines, and how many records there are, must be those of
# the whole.
#
# - Sixteen domains under less and less address space (`ulimit -v`), until the program does not start any more. Each
#   thread takes some 8 MiB of it for its stack. Some of these runs must be refused a thread.
# - examples/ring.gt with its audit lines, with one request for memory after the other refused (tools/refused.c).
# - The same into a device that is full.
#
# usage: tools/run.sh
set -euo pipefail
top="$(cd "$(dirname "${BASH_SOURCE[0]}")/.." && pwd)"
program="${PROGRAM:-$top/crates/gthost/out/gthost}"
[ -x "$program" ] || "$top/gthost" policy </dev/null # proves and builds it, where that is not done yet; no policy prints nothing
work="$(mktemp -d)"
trap 'rm -rf "$work"' EXIT
failed=0
declare -A ends

# Tells that a run is wrong.
wrong() { echo "wrong: $1"; failed=1; }

# What a text is like whose calls may have been refused memory: N26 is then an answer like others, and changes those
# that follow from it. So of each answer its line and its domain are kept, and of each audit line its domain and its
# call.
alike() { sed -E 's/^([0-9]+ [0-9]+) .*/\1/; s/^(audit [0-9]+ [a-z]+) .*/\1/; /^lost /d' "$1"; }

# How many audit lines a text has, together with those that it tells as lost.
recorded() { awk '/^audit / { n++ } /^lost / { n += $2 } END { print n + 0 }' "$1"; }

# Whether a text is the whole one: `exactly`, or `loosely` but for what calls were answered that found no memory.
is_whole() {
  case "$1" in
    exactly) cmp -s "$work/out" "$work/whole" ;;
    loosely)
      cmp -s <(alike "$work/out" | grep -v '^audit') <(alike "$work/whole" | grep -v '^audit') &&
        [ -z "$(diff <(alike "$work/whole") <(alike "$work/out") | sed -n '/^>/p')" ] &&
        [ "$(recorded "$work/out")" -eq "$(recorded "$work/whole")" ]
      ;;
  esac
}

# Whether a text is a beginning of the whole one.
is_beginning() {
  case "$1" in
    exactly) cmp -s "$work/out" <(head -c "$(stat -c %s "$work/out")" "$work/whole") ;;
    loosely) cmp -s <(alike "$work/out") <(alike "$work/whole" | head -n "$(wc -l <"$work/out")") ;;
  esac
}

# Judges a run by its exit status and what it printed, against the whole text.
judge() {
  local name="$1" status="$2" how="$3" fault
  fault="$(cat "$work/err")"
  case "$status:$fault" in
    0:) is_whole "$how" || wrong "$name printed another text" ;;
    1:'gthost: thread') [ ! -s "$work/out" ] || wrong "$name was refused a thread and printed" ;;
    1:'gthost: memory' | 1:'gthost: write') is_beginning "$how" || wrong "$name printed no beginning" ;;
    *) wrong "$name ended with status $status: $fault" ;;
  esac
  ends["${fault:-whole}"]=$((${ends["${fault:-whole}"]:-0} + 1))
}

# How the runs ended, each way with how often.
tell() {
  local fault
  for fault in "${!ends[@]}"; do echo "$1: ${ends[$fault]} runs, $fault"; done | sort
  ends=()
}

# Sixteen domains, each of which waits for all and then makes its calls.
{
  echo 'triple a_t a_t map_read'
  for id in $(seq 16); do echo "domain $id u:r:a_t 8 1 1"; done
  for id in $(seq 16); do echo "tell $id here$id"; done
  for id in $(seq 16); do
    for other in $(seq 16); do echo "await $id here$other"; done
    for gref in $(seq 0 19); do echo "do $id grant $gref page 1 ro 3"; done
  done
} >"$work/many.gt"
"$program" run "$work/many.gt" >"$work/whole"
for ((space = 260000; space >= 8000; space -= 4000)); do
  status=0
  (ulimit -v "$space" && timeout 60 "$program" run "$work/many.gt") >"$work/out" 2>"$work/err" || status=$?
  # With less than this the system does not load the program.
  case "$status" in 126 | 127) break ;; esac
  judge "$space KiB" "$status" exactly
done
[ "${ends['gthost: thread']:-0}" -gt 0 ] || wrong 'no run was refused a thread'
tell 'less and less address space'

# One request for memory after the other refused.
"${CC:-cc}" -O1 -shared -fPIC -o "$work/refused.so" "$top/tools/refused.c" -ldl
ring=("$program" run "$top/examples/ring.gt" --audit)
"${ring[@]}" >"$work/whole"
requests="$(LD_PRELOAD="$work/refused.so" "${ring[@]}" 2>&1 >/dev/null | sed -n 's/^requests //p')"
[ "${requests:-0}" -gt 0 ] || wrong 'no request for memory was counted'
for ((n = 1; n <= requests; n++)); do
  status=0
  timeout 60 env REFUSED="$n" LD_PRELOAD="$work/refused.so" "${ring[@]}" >"$work/out" 2>"$work/both" || status=$?
  sed '/^requests /d' "$work/both" >"$work/err"
  judge "request $n" "$status" loosely
done
tell 'each request for memory refused'

# A device that is full.
status=0
timeout 60 "${ring[@]}" >/dev/full 2>"$work/err" || status=$?
: >"$work/out"
judge 'a full device' "$status" exactly
tell 'a full device'
exit $failed
