#!/usr/bin/env bash
# Times each part of the gate with one job, and prints a table of processor seconds (user and system).
# A part is what `rt ci` does with a crate: its proof from nothing, the check of its tests from
# nothing, and its must-fail edits. The builds and runs of programs and tests are left out: seconds.
# It works on a copy and changes nothing. Libraries that are proved here already are taken over, so
# that a few crates can be timed alone. The whole takes as long as the gate on one processor.
# Beside other work on the machine the same part takes up to twice as many seconds: the table ends
# with the load at the beginning and at the end.
# usage: tools/gate.sh [-p proof|tests|edits] [CRATE..]         no CRATE: all
set -euo pipefail
top="$(cd "$(dirname "${BASH_SOURCE[0]}")/.." && pwd)"
parts="proof tests edits"
if [ "${1:-}" = -p ]; then parts="$2"; shift 2; fi
work="$(mktemp -d)"
trap 'rm -rf "$work"' EXIT
load() { cut -d ' ' -f 1 /proc/loadavg 2>/dev/null || uptime; }
first="$(load)"

# A copy of the repository with the libraries as they are proved, and no other kept work.
(cd "$top" && git ls-files -z -co --exclude-standard | tar --null --ignore-failed-read -cf - -T -) | tar -xf - -C "$work"
for made in "$top"/crates/*/out/rlib; do
  [ -e "$made" ] || continue
  name="$(basename "$(dirname "$(dirname "$made")")")"
  mkdir -p "$work/crates/$name/out"
  cp -a "$made"* "$work/crates/$name/out/"
done
cd "$work"

# The crates named and those below them, lowest first, each once.
declare -A seen=()
lowest_first() {
  local name dep
  for name in "$@"; do
    [ -d "crates/$name" ] && [ -z "${seen[$name]:-}" ] || continue
    seen[$name]=1
    for dep in $(sed -n "s/^$name\( [^:]*\)*: *//p" crates.txt); do lowest_first "$dep"; done
    order+=("$name")
  done
}
order=()
# shellcheck disable=SC2046
if [ $# -gt 0 ]; then wanted=("$@"); else wanted=($(sed -n 's/^\([a-z0-9_]*\)[ :].*/\1/p' crates.txt)); fi
lowest_first "${wanted[@]}"

# Seconds that the command takes, with what it says in the file `said`.
seconds() {
  local TIMEFORMAT='%U %S' spent
  rm -rf out/incremental
  spent="$({ time "$@" >"$work/said" 2>&1; } 2>&1)" || { tail -n 5 "$work/said" >&2; echo "failed: $*" >&2; return 1; }
  awk '{printf "%.0f", $1 + $2}' <<<"$spent"
}
has() { case " $parts " in *" $1 "*) true ;; *) false ;; esac; }

echo '| crate | functions | proof | tests | edits | their seconds | all |'
echo '|---|---|---|---|---|---|---|'
total=0
for crate in "${order[@]}"; do
  cd "$work/crates/$crate"
  is_wanted=
  for it in "${wanted[@]}"; do if [ "$it" = "$crate" ]; then is_wanted=1; fi; done
  if [ -n "$is_wanted" ]; then
    proof=0 tests=0 edits=0 count=0 functions=
    if has proof; then
      proof="$(seconds rt check --jobs 1)"
      functions="$(sed -n 's/.* functions=\([0-9]*\).*/\1/p' "$work/said" | tail -n 1)"
    fi
    if has tests && grep -rq '#\[test\]' src; then tests="$(seconds rt check --test --jobs 1)"; fi
    if has edits && [ -d must-fail ]; then
      count="$(find must-fail -name '*.edit' | wc -l)"
      edits="$(cd "$work" && seconds rt must-fail "$crate")"
    fi
    all=$((proof + tests + edits))
    total=$((total + all))
    echo "| $crate | $functions | $proof | $tests | $count | $edits | $all |"
  fi
  # the crates above it are timed over its library
  if [ ! -e out/rlib ] && grep -Eq ":.* $crate( |\$)" "$work/crates.txt"; then rt lib --jobs 1 >"$work/said" 2>&1; fi
  rm -rf out/incremental
done
echo
echo "$total seconds, $((total / 60)) minutes of the processor; load $first at the beginning, $(load) at the end"
