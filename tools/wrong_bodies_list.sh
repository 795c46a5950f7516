#!/usr/bin/env bash
# Writes docs/WRONG_BODIES.md from the edits, each of which says in its line `bug:` what it would do, and from the table
# of runs outside the gate. That has a line for each crate: its name, the day of its last run, and how many of its bodies
# were refused. Below it are those that wait for their first run.
# usage: tools/wrong_bodies_list.sh                         writes the page
#        tools/wrong_bodies_list.sh --check                 says whether the page is as it would be written
#        tools/wrong_bodies_list.sh --tried CRATE [NAME..]  notes that these were refused today, or all, and writes the page
#        tools/wrong_bodies_list.sh --waits CRATE NAME..    notes that these new ones wait for a run, and writes the page
set -euo pipefail
cd "$(dirname "${BASH_SOURCE[0]}")/.."
page=docs/WRONG_BODIES.md
table=tools/wrong_bodies_tried.txt

# The libraries of crates.txt in its order.
crates() { sed -n 's/^\([a-z0-9_]*\)[ :].*/\1/p' crates.txt; }

# One line for each edit of a folder. Those of the second argument wait for their first run.
lines() {
  awk -v waits=" $2 " '
    function print_last() {
      if (!bug) { print file " has no line '"'bug:'"'" >"/dev/stderr"; exit 1 }
      name = file
      gsub(/.*\/|\.edit$/, "", name)
      printf "- `%s`%s: %s\n", name, index(waits, " " name " ") ? " (not tried yet)" : "", bug
    }
    FNR == 1 { if (file) print_last(); file = FILENAME; bug = "" }
    /^bug: ./ && !bug { bug = substr($0, 6) }
    END { if (file) print_last() }
  ' "$1"/*.edit
}

count() { find crates/*/"$1" -name '*.edit' 2>/dev/null | wc -l; }

# The names of a crate's edits outside the gate.
outside() { find "crates/$1/wrong-bodies" -name '*.edit' 2>/dev/null | sed 's|.*/||; s/\.edit$//' | LC_ALL=C sort; }

# The bodies of a crate that wait, the day of its last run, and how many were refused, by the table.
waiting() { awk -v crate="$1" '/^[^ #]/ { on = $1 == crate } on && /^ / { print $1 }' "$table"; }
day() { awk -v crate="$1" '$1 == crate && /^[^ #]/ { print $2 }' "$table"; }
refused() { awk -v crate="$1" '$1 == crate && /^[^ #]/ { print $3 }' "$table"; }

# Fails if the table has not each body outside the gate.
check_table() {
  local crate name
  for crate in $(crates); do
    for name in $(waiting "$crate"); do
      [ -f "crates/$crate/wrong-bodies/$name.edit" ] || { echo "$table: $crate has no body $name" >&2; return 1; }
    done
    [ "$(outside "$crate" | wc -l)" -eq $(($(refused "$crate" | grep . || echo 0) + $(waiting "$crate" | wc -l))) ] ||
      { echo "$table: $crate has other bodies: note new ones by $0 --tried or --waits" >&2; return 1; }
  done
}

# The lines of the table on a crate: this day, and these bodies that wait.
entry() {
  local crate="$1" day="$2" count
  shift 2
  count=$(($(outside "$crate" | wc -l) - $#))
  printf '%s %s %s\n' "$crate" "$day" "$count"
  [ $# -eq 0 ] || printf '  %s\n' "$@"
}

# Puts bodies of a crate into the table: as refused today (`--tried`; no names: all), or as waiting (`--waits`).
note() {
  local kind="$1" crate="$2" names=("${@:3}") day rest=() name
  [ -n "$(outside "$crate")" ] || { echo "$crate has no bodies outside the gate" >&2; return 1; }
  [ ${#names[@]} -gt 0 ] || [ "$kind" = --waits ] || mapfile -t names < <(outside "$crate")
  for name in "${names[@]}"; do
    [ -f "crates/$crate/wrong-bodies/$name.edit" ] || { echo "$crate has no body $name" >&2; return 1; }
  done
  if [ "$kind" = --tried ]; then
    day="$(date -u +%F)"
    mapfile -t rest < <(comm -23 <(waiting "$crate" | LC_ALL=C sort) <(printf '%s\n' "${names[@]}" | LC_ALL=C sort))
  else
    day="$(day "$crate" | grep . || echo earlier)"
    mapfile -t rest < <({ waiting "$crate" && printf '%s\n' "${names[@]}"; } | LC_ALL=C sort -u)
  fi
  {
    sed '/^[^#]/,$d' "$table"
    for name in $(crates); do
      if [ "$name" = "$crate" ]; then entry "$crate" "$day" "${rest[@]}"; continue; fi
      awk -v crate="$name" '/^[^ #]/ { on = $1 == crate } on && !/^#/' "$table"
    done
  } >"$table.new"
  mv "$table.new" "$table"
}

# The bodies that were planted last, each in the words of who would suffer.
planted() {
  cat <<'END'
### In the words of guests and hosts

These bodies were planted last. Where a private contract or a private definition repeats a body, it was changed with it,
so that only the contract of a public call could refuse it. The third column names the clause, the definition or the
invariant that is false of the body. Those that a contract refuses are among the edits.

| Bug | Crate | Refused by |
|---|---|---|
| A guest that may read one frame reads frame 0 | `gt_shared_table` | contract: `step` and `locks` of `read_frame` |
| A store without memory keeps the lock of its frame | `gt_shared_table` | contract: `IsAlone`, between calls |
| A store is answered with N26, though the frame has the byte | `gt_shared_table` | contract: `refused` |
| Each guest's table begins with the size of the first guest's | `gt_shared_table` | contract: `HoldsAll` |
| A copy without memory has read its source | `gt_shared_table` | contract: `step` and `refused` of `copy_frames` |
| A store looks at another guest's table unseen | `gt_shared_table` | test: `tools/plays.sh` |
| A guest that waits for a raised flag waits for ever | `gt_shared_table` | test: `cases_run`, which then never ends |
| A guest's calls are laid to domain 0 | `gt_audit` | contract: `AppendsRecord`, `IsFor` |
| The audit line of a call names another caller | `gt_audit` | contract: `text` of `push_line` |
| A trail that was cleared still has its records | `gt_audit` | contract: `HasNone` |
| A trail whose records were taken has no bound any more | `gt_audit` | contract: `goes_on` of `take` |
| A record that counts as lost is in the shared log | `gt_audit` | nothing |
| Of two records under one number, a search finds the later | `gt_audit` | nothing |
| A guest that reads a granted page gets its own page | `gt_words` | contract: `step` and `receipt` of `read_frame` |
| The second call on a domain goes to the table of another | `gt_words` | contract: `position` |
| A guest that unmaps keeps its write pin | `gt_words` | contract: `Unpins` |
| A page that is granted to one guest is granted to another | `gt_words` | contract: `Publishes` |
| A store to a frame that its domain lacks is answered with N26 | `gt_words` | nothing |
| A guest that leaves maps another page | `gt_attached` | contract: `LeavesRun` (`Resets`, `HasLeft`) |
| A host copies from the destination to the source | `gt_attached` | contract: `BeginsAccess` |
| A program that looks at the status takes a refused call as done | `gt_attached` | contract: `encoded` |
| The record of a copy shows its destination as its source | `gt_attached` | contract: `record_kept` |
| A run starts without the guests that got no memory | `gt_attached` | contract: `guests` and `count` of `start` |
| A guest that is dropped grants a page again before it leaves | `gt_attached` | test: `tools/leaves.sh` |
| A policy is read without its last byte | `gt_start` | contract: `begun` and `fault` (`IsPolicyMeaning`) |
| The handle of the first guest is that of the last one | `gt_start` | contract: `begun` (`IsSetBy`) |
| A guest starts with the type after the policy's last one | `gt_start` | contract: `begun` (`AreTypes`) |
| A fault of the settings names no guest | `gt_start` | contract: `fault` (`IsLimitFault`) |
| A type that the policy lacks is answered with want of memory | `gt_start` | nothing |
| The name of a mapping of an earlier run unmaps a page of this one | `gt_c` | contract: `Unmaps` (`RefusesForeign`) |
| A refused unmap is answered as done | `gt_c` | contract: `Unmaps` |
| A page that C grants for reading, by a 2, can be written | `gt_c` | contract: `GrantsPage` |
| An entry of 16 bytes is read by its first 8 | `gt_c` | contract: `GrantsBytes` |
| A host sees pins that write as pins that read | `gt_c` | contract: `ReportsEntry` |
| A copy that C begins goes the other way | `gt_c` | contract: `BeginsCopy` |
| `finish` answers that no entry is in use, while a guest maps one | `gt_c` | test: `tools/leaves.sh` |
| A copy that was refused prints `ok` | `gt_run` | contract: `Asks` |
| A guest's line unmaps what the label names for domain 0 | `gt_run` | contract: `ServesCall` (`MakesRequest`) |
| A guest at the end of its list takes back its pages | `gt_run` | contract: `IsOutputOf` (`HasLeft`) |
| A guest that waits for a flag keeps a processor busy | `gt_run` | nothing |
| A guest that gets no thread grants a page before it leaves | `gt_run` | test: `tools/leaves.sh` |
| A policy is checked against no `neverallow` statement | `gt_check_command` | contract: `CheckedNever` |
| A file that is not text is a clean policy | `gt_check_command` | contract: `Checked` |
| A question about a misspelled type is answered with `denied` | `gt_check_command` | contract: `AskedOf` |
| `check --script` is silent about a label that no map has | `gt_check_command` | test: `cases_program` |
| A fault that `play` finds is reported of a script for `run` | `gt_check_command` | test: `cases_program` |
| A file of `neverallow` statements loses its last byte | `gt_file_commands` | contract: `read_whole` |
| A command whose file can't be opened reads the standard input | `gt_file_commands` | contract: `Works` (`DoesOnFile`) |
| Questions after the first denied one are not answered | `gt_file_commands` | contract: `AnswersLines` |
| `check` without a file answers that its file can't be opened | `gt_file_commands` | contract: `Works` (`DoesOnFile`) |
| A faulty script prints as JSON what it played | `gt_file_commands` | contract: `PlayedAsJson` |

Of the bodies that nothing refuses, each has its sentence in [NOT_PROVED.md](NOT_PROVED.md).

END
}

write() {
  local crate folder
  cat <<END
# Wrong bodies

Made by \`tools/wrong_bodies_list.sh\` from the edits themselves; don't edit it.

Each line is a body that the proofs refuse: an edit of a crate, and what it would do. The gate tries
$(count must-fail) of them (\`must-fail/\`), those that a definition of meaning refuses. The other $(count wrong-bodies)
(\`wrong-bodies/\`) are tried by \`tools/wrong_bodies.sh CRATE\`, which whoever changes a crate runs for it. Each crate
has the day of its last run here, as far as it is known. $(grep -c '^ ' "$table") of the bodies wait for their first run: they are marked.

A lock round the words of an entry can't be written as an edit: taking one asks for a bound \`Wait\`, and
no call of \`gt_words\` on words has it.

## Planted by hand

Before these edits some 150 bodies were planted in the crates below \`explore\`, and changed together with what
only repeats them: private contracts and private definitions. What nothing refused then has a clause or a test
now. The table has the bodies that were planted since, in the other crates. Most of those that a contract
refuses are among the edits. The bodies of the program and of \`gt_run\` were changed alone.

| Crate | Planted | Refused by a contract | By a test | By nothing |
|---|---|---|---|---|
| \`gt_explore_search\` | 21 | 16 | 5 | 0 |
| \`gt_explore_replay\` | 15 | 15 | 0 | 0 |
| \`gt_explore_moves\` | 17 | 16 | 1 | 0 |
| \`gt_explore\`, \`gt_explore_answers\` | 12 | 11 | 1 | 0 |
| \`gt_command_line\` | 12 | 12 | 0 | 0 |
| \`gt_neverallow\` | 15 | 15 | 0 | 0 |
| \`gt_check_command\` | 2 | 0 | 2 | 0 |
| \`gt_program\`, \`gt_file_commands\` | 32 | 10 | 22 | 0 |
| \`gt_run\` | 31 | 22 | 9 | 0 |
| all | 157 | 117 | 40 | 0 |

Of the bodies that a test refuses, one passed all tests at first: a search that gives up at its limit and forgets the
turn that it is trying. \`test_explore_search\` now compares how many texts are found within each number of states.

Eleven bodies were refused by nothing when they were planted. One has a clause now (with \`-v\`, a run whose text could
not be allocated is reported as a failed write: \`Relays\`). The others are now refused by command lines of \`cases_program\`,
most of them with texts that are made while they are read: a report of \`check\`, or of breaches, that is cut off at
65,536 bytes; \`explore\` or \`run\` that reports a failed read as want of memory; a name that is refused unopened, since
it begins with a dot or has more than 255 bytes, by a command, by \`run\` or as a further text; a further text that is
refused above 65,536 bytes; and a further text that can't be read and has no reason.

END
  planted
  for crate in $(crates); do
    for folder in must-fail wrong-bodies; do
      [ -n "$(find "crates/$crate/$folder" -name '*.edit' 2>/dev/null | head -n 1)" ] || continue
      if [ $folder = must-fail ]; then
        printf '\n## %s, in the gate\n\n' "$crate"
        lines "crates/$crate/$folder" ""
      else
        printf '\n## %s, outside the gate\n\n' "$crate"
        [[ "$(day "$crate")" != 2* ]] || printf 'Last run: %s.\n\n' "$(day "$crate")"
        lines "crates/$crate/$folder" "$(waiting "$crate" | tr '\n' ' ')"
      fi
    done
  done
}

if [ "${1:-}" = --check ]; then
  check_table
  write | cmp - "$page" || { echo "$page is stale: run tools/wrong_bodies_list.sh" >&2; exit 1; }
else
  case "${1:-}" in --tried | --waits) note "$@" ;; esac
  write >"$page.new"
  mv "$page.new" "$page"
fi
