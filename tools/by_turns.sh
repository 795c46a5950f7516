#!/usr/bin/env bash
# Tries a wrong body that no clause refuses: a lock round each list, so that the domains of a run are served one after
# the other. Proofs say nothing of time, so worked scripts refuse it: domains that meet at a gate never meet. It works
# on a copy, proves nothing, and is no part of the gate. It ends well where none of those scripts prints what it must.
# usage: tools/by_turns.sh
set -euo pipefail
top="$(cd "$(dirname "${BASH_SOURCE[0]}")/.." && pwd)"
work="$(mktemp -d)"
trap 'rm -rf "$work"' EXIT
mkdir "$work/crates"
cp "$top/HANDLES" "$work/"
for crate in "$top"/crates/{gt_*,test_cases,test_failing,cases_run}; do
  name="$(basename "$crate")"
  grep -E "^$name( [^:]*)?:" "$top/crates.txt" >>"$work/crates.txt"
  (cd "$top/crates" && tar cf - --exclude=out "$name") | tar xf - -C "$work/crates"
done
source="$work/crates/gt_run/src/threads.rt"
sed -i \
  -e "s/^    start: &'s OnceLock<bool>,/&\n    turn: \&'s Mutex<u64>,/" \
  -e 's/^    let start = &start;/&\n    let turn = Mutex::new(0u64);\n    let turn = \&turn;/' \
  -e 's/{ work(rt, domain, job, gate, start) }/{ let _turn = turn.lock(rt); work(rt, domain, job, gate, start) }/' \
  -e 's/scope, context, monitor, domains, parts, start)/scope, context, monitor, domains, parts, start, turn)/' \
  -e 's/^use std::sync::{OnceLock, Wait};/use std::sync::{Mutex, OnceLock, Wait};/' "$source"
for part in "turn: &'s Mutex" 'let turn = &turn;' 'turn.lock(rt); work' 'parts, start, turn)' '{Mutex, OnceLock'; do
  grep -qF "$part" "$source" || { echo 'the edit does not fit any more' >&2; exit 2; }
done
# The gate of these scripts gives up sooner here, since a program that is tried takes far longer than one that is built.
sed -i 's/100_000_000/1_000_000/' "$work/crates/cases_run/src/gates.rt"
cd "$work/crates/cases_run"
two=two_that_wait_for_each_other
three=three_that_wait_for_each_other
rt try --seconds 300 --data "$two.gt=data/$two.gt" --data "$three.gt=data/$three.gt" --data many.gt=data/many.gt -- \
  --two-meet "$two" --three-meet "$three" --many many >"$work/out" 2>"$work/err" || { cat "$work/err" >&2; exit 1; }
cat "$work/out"
# Domains that meet print nothing here, and one that a gate gives up prints a line `LINE ID gate`.
is_refused() { sed -n "/^== $1\$/,/^==/p" "$work/out" | grep -q "$2"; }
digest="$(sed -n '/^== many$/{n;p;q}' stdout)"
is_refused "$two" ' gate$' && is_refused "$three" ' gate$' && [ -n "$digest" ] && ! grep -qxF "$digest" "$work/out"
