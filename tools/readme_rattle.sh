#!/usr/bin/env bash
# Compares the Rattle of README.md and of crates/gt_live/README.md with the program crates/share, which the gate proves
# and runs: each line of their blocks must be a line of its main.rt. Blanks at the start of a line don't count.
# usage: tools/readme_rattle.sh
set -euo pipefail
cd "$(dirname "${BASH_SOURCE[0]}")/.."
program=crates/share/src/main.rt status=0
for page in README.md crates/gt_live/README.md; do
  awk -v program="$program" '
    function bare(line) { sub(/^[ \t]+/, "", line); return line }
    FILENAME == program { is_there[bare($0)] = 1; next }
    /^```rust$/ { on = 1; next }
    /^```$/ { on = 0 }
    on && NF {
      lines++
      if (!(bare($0) in is_there)) { print FILENAME ":" FNR ": no line of " program ": " $0; wrong++ }
    }
    END {
      print FILENAME ": " lines + 0 " lines of Rattle, " wrong + 0 " wrong"
      exit (wrong || !lines)
    }' "$program" "$page" || status=1
done
exit "$status"
