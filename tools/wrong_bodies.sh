#!/usr/bin/env bash
# Tries the wrong bodies of a crate that are outside the gate, in crates/CRATE/wrong-bodies/. The
# prover must refuse each. Whoever changes a crate runs this for it.
# It works on a copy of the crate and of the repository's libraries below it, so it changes nothing.
# What is proved of those libraries already is taken over; the rest is proved first.
# usage: tools/wrong_bodies.sh CRATE..                  all of them
#        tools/wrong_bodies.sh CRATE=NAME,NAME..        these of a crate alone, from either folder
#        tools/wrong_bodies.sh CRATE=waiting            those that wait for their first run
# `tools/wrong_bodies_list.sh --tried CRATE [NAME..]` notes the day for those that were refused.
set -euo pipefail
top="$(cd "$(dirname "${BASH_SOURCE[0]}")/.." && pwd)"
work="$(mktemp -d)"
trap 'rm -rf "$work"' EXIT

# The crate and the crates of the repository below it, one a line.
below() {
  local name
  for name in "$@"; do
    [ -d "$top/crates/$name" ] || continue
    echo "$name"
    # shellcheck disable=SC2046
    below $(sed -n "s/^$name\( [^:]*\)*: *//p" "$top/crates.txt" | tr ' ' '\n' | grep -v =)
  done
}

# The edits of one crate, in the place of those that the gate tries.
try() {
  local crate="${1%%=*}" names="${1#"${1%%=*}"}" room="$work/${1%%=*}" needed name
  [ -d "$top/crates/$crate/src" ] || { echo "no crate $crate" >&2; return 1; }
  needed="$(below "$crate" | sort -u)"
  mkdir -p "$room/crates"
  cp "$top/HANDLES" "$room/"
  for name in $needed; do
    grep -E "^$name( [^:]*)?:" "$top/crates.txt" >>"$room/crates.txt"
    cp -a "$top/crates/$name" "$room/crates/"
    rm -rf "$room/crates/$name/must-fail"
  done
  mkdir "$room/crates/$crate/must-fail"
  if [ "$names" = =waiting ]; then
    names="=$(awk -v crate="$crate" '/^[^ #]/ { on = $1 == crate } on && /^ / { print $1 }' \
      "$top/tools/wrong_bodies_tried.txt" | paste -sd,)"
    [ "$names" != = ] || { echo "$crate has no body that waits" >&2; return 1; }
  fi
  if [ -n "$names" ]; then
    for name in $(tr ',' ' ' <<<"${names#=}"); do
      cp "$top/crates/$crate"/{must-fail,wrong-bodies}/"$name".edit "$room/crates/$crate/must-fail/" 2>/dev/null || true
      [ -f "$room/crates/$crate/must-fail/$name.edit" ] || { echo "no edit $name of $crate" >&2; return 1; }
    done
  else
    cp "$top/crates/$crate"/wrong-bodies/*.edit "$room/crates/$crate/must-fail/"
  fi
  echo "== $crate: $(ls "$room/crates/$crate/must-fail" | wc -l) wrong bodies"
  (cd "$room" && rt must-fail "$crate")
}

[ $# -gt 0 ] || { sed -n 's/^# //p' "$0" >&2; exit 2; }
failed=0
for it in "$@"; do
  try "$it" || failed=1
  rm -rf "${work:?}/${it%%=*}"
done
exit $failed
