#!/usr/bin/env bash
# Compares the kinds of step on the shared table with the eight known ones. One of them takes a frame, `LocksSlot`, and
# it alone promises `Locks`. A second one could take a frame that no contract names. Also finds a `peek`: a look at a
# word that no view has, so a body could refuse a call by what it found in another domain's table.
# Each kind has a line `ghost then`, which can have no other name.
# usage: tools/plays.sh
set -euo pipefail
cd "$(dirname "${BASH_SOURCE[0]}")/.."
known="StepOnWord: promises_word J.kind
StoreOnWord: λ st m _ m'. promises_word_stored J.kind st m m'
LocksSlot: λ _ m n m'. Locks J.places J.name J.slot m n m'
FreesBy: λ _ m _ m'. Frees J.places J.name J.access J.left m m'
ReturnsTo: λ _ m _ m'. Returns J.left m m'
RaisesFlag: λ _ m _ m'. AddsStep J.layout (Flag J.flag Raised) m m'
LooksAtFlag: λ _ m n m'. looks_at_flag J.layout J.flag m n m'
LearnsOfAll: learns_all_of J.kind"

# Each kind of step in the source of the library crates: its name, and what it promises.
kinds() {
  find crates/*/src -name '*.rt' | sort | xargs awk '
    /^impl.* for [A-Z]/ { name = $0; sub(/.* for /, "", name); sub(/[^A-Za-z].*/, "", name) }
    /ghost +then *=/ { promise = $0; sub(/.*then *= *\{ */, "", promise); sub(/ *\};.*$/, "", promise); print name ": " promise }'
}

if ! diff <(echo "$known") <(kinds) >&2; then
  echo "tools/plays.sh: the kinds of step on the shared table are others than the known ones" >&2
  exit 1
fi
if grep -nw peek crates/gt_shared_table/src/*.rt >&2; then
  echo "tools/plays.sh: gt_shared_table looks at a word without a step" >&2
  exit 1
fi
echo "$(echo "$known" | wc -l) kinds of step on the shared table, one of which takes a frame"
