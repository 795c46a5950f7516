#!/usr/bin/env bash
# Tries the built program gthost at its edges: pipes that close, closed streams, a full device, a folder as FILE, a FILE
# that is too long, a word that is not UTF-8, and a terminal. It is no part of the gate.
# usage: tools/pipes.sh [PROGRAM]        the program; crates/gthost/out/gthost if it is left out
set -uo pipefail
top="$(cd "$(dirname "${BASH_SOURCE[0]}")/.." && pwd)"
program="${1:-$top/crates/gthost/out/gthost}"
work="$(mktemp -d)"
trap 'rm -rf "$work"' EXIT
tried=0 failed=0

# A script whose text is some 400 KB, one that is too long, and a short one.
head='policy
type t;
allow t t:grant *;
end
domain 1 u:r:t 1 1 1
'
{ printf '%s' "$head"; for ((i = 0; i < 40000; i++)); do echo 'do 1 peek 0 0 4'; done; } >"$work/big.gt"
{ printf '%s' "$head"; yes '# a line that says nothing' | head -c 2097152; } >"$work/long.gt"
{ printf '%s' "$head"; echo 'do 1 peek 0 0 4'; } >"$work/short.gt"
printf 'type t;\nallow t t:grant copy;\n' >"$work/short.te"

# What a command ended with, and what it said.
check() {
  local name="$1" wanted="$2" status="$3" said="$4"
  tried=$((tried + 1))
  if ! [[ "$status" =~ ^($wanted)$ ]]; then
    echo "wrong: $name: status $status, and not $wanted"
    failed=$((failed + 1))
  fi
  if ! [[ "$(cat "$work/err")" =~ ^($said)$ ]]; then
    echo "wrong: $name: standard error is '$(cat "$work/err")', and not '$said'"
    failed=$((failed + 1))
  fi
}

# The status of a failed command: 1 of play, run and policy, and of help and the version; 2 of the others.
failed_status() { case "$1" in play* | run* | policy* | -*) echo 1 ;; *) echo 2 ;; esac; }

closed='gthost: write|'
(set +o pipefail; "$program" play "$work/big.gt" 2>"$work/err"; echo $? >"$work/status") | head -n 1 >"$work/out"
check 'a pipe that closes' '1|141' "$(cat "$work/status")" "$closed"
[ "$(wc -l <"$work/out")" -eq 1 ] || { echo 'wrong: a pipe that closes: no line came'; failed=$((failed + 1)); }
for words in "run $work/short.gt" rules --help; do
  # shellcheck disable=SC2086
  ("$program" $words 2>"$work/err"; echo $? >"$work/status") | true
  check "$words to a pipe that is closed" "0|$(failed_status "$words")|141" "$(cat "$work/status")" "$closed"
done

printf 'type t\nallow t t:grant copy;\n' >"$work/missing_semicolon.te"
for words in "play $work/short.gt" "run $work/short.gt" "policy $work/short.te" "check $work/missing_semicolon.te" \
  "why t t copy $work/short.te" 'rules' '--help' '--version' "explore $work/short.gt" "play -v $work/short.gt" \
  "run -v $work/short.gt"; do
  # shellcheck disable=SC2086
  "$program" $words >/dev/full 2>"$work/err"
  status=$?
  check "$words to a full device" "$(failed_status "$words")" "$status" 'gthost: write'
  # shellcheck disable=SC2086
  "$program" $words >&- 2>"$work/err"
  status=$?
  check "$words to a closed output" "$(failed_status "$words")" "$status" 'gthost: write'
done

"$program" play <&- >"$work/out" 2>"$work/err"
check 'a closed input' 1 $? 'gthost: read'
"$program" play "$work/short.gt" >"$work/out" 2>&-
[ $? -eq 0 ] || { echo 'wrong: a closed standard error'; failed=$((failed + 1)); }
: >"$work/err"
"$program" play "$work/missing" >"$work/out" 2>&-
check 'a fault with a closed standard error' 1 $? ''
"$program" play $'\xff' >"$work/out" 2>"$work/err"
check 'a word that is not UTF-8' 2 $? 'error: a word of the command line is not UTF-8'

# A folder as FILE, and a FILE that is too long. Commands that answer have the reason in their line.
for command in play run policy; do
  "$program" "$command" "$work" >"$work/out" 2>"$work/err"
  check "$command of a folder" 1 $? 'gthost: read'
done
for command in explore check 'why t t copy' 'entries --version 1'; do
  # shellcheck disable=SC2086
  "$program" $command "$work" >"$work/out" 2>"$work/err"
  check "$command of a folder" 2 $? "gthost: $work: is a directory"
done
for command in play run; do
  "$program" "$command" "$work/long.gt" >"$work/out" 2>"$work/err"
  check "$command of 2 MiB" 1 $? 'gthost: line 1: limit'
done
"$program" explore "$work/long.gt" >"$work/out" 2>"$work/err"
check 'explore of 2 MiB' 2 $? "gthost: $work/long.gt:1:1: a script has at most 1048576 bytes"
"$program" policy "$work/long.gt" >"$work/out" 2>"$work/err"
check 'policy of 2 MiB' 1 $? 'gthost: line 1: policy limit'
"$program" why t t copy "$work/long.gt" >"$work/out" 2>"$work/err"
check 'why of 2 MiB' 2 $? "gthost: $work/long.gt:1:1: a policy has at most 1048576 bytes"
"$program" entries --version 1 "$work/long.gt" >"$work/out" 2>"$work/err"
check 'entries of 2 MiB' 2 $? "gthost: $work/long.gt: more than 16 frames, which is 65536 bytes"

# With their reasons, in the system's words.
for command in play run; do
  "$program" "$command" -v "$work" >"$work/out" 2>"$work/err"
  check "$command -v of a folder" 1 $? $'gthost: read\n'"$work: Is a directory \\(os error 21\\)"
  "$program" "$command" -v "$work/missing" >"$work/out" 2>"$work/err"
  check "$command -v of a file that is not there" 1 $? \
    $'gthost: read\n'"$work/missing: No such file or directory \\(os error 2\\)"
  "$program" "$command" -v "$work/long.gt" >"$work/out" 2>"$work/err"
  check "$command -v of 2 MiB" 1 $? $'gthost: line 1: limit\n'"$work/long.gt:1:1: a script has at most 1048576 bytes"
done
"$program" play -v <&- >"$work/out" 2>"$work/err"
check '-v of a closed input' 1 $? $'gthost: read\n<stdin>: .* \\(os error 9\\)'

# A terminal: the rules have lines of its width, and a caret has a colour, unless NO_COLOR is set.
if command -v script >/dev/null; then
  : >"$work/err"
  COLUMNS=50 script -qec "'$program' rules N19" /dev/null >"$work/out" </dev/null
  check 'rules on a terminal' 0 $? ''
  [ "$(tr -d '\r' <"$work/out" | wc -L)" -le 50 ] || { echo 'wrong: rules on a terminal of 50 columns'; failed=$((failed + 1)); }
  script -qec "'$program' check '$work/missing_semicolon.te'" /dev/null >"$work/out" </dev/null
  check 'check on a terminal' 1 $? ''
  NO_COLOR=1 script -qec "'$program' check '$work/missing_semicolon.te'" /dev/null >"$work/plain" </dev/null
  check 'check without colours' 1 $? ''
  escape=$'\x1b'
  grep -q "$escape" "$work/out" || { echo 'wrong: no colour on a terminal'; failed=$((failed + 1)); }
  if grep -q "$escape" "$work/plain"; then echo 'wrong: a colour with NO_COLOR'; failed=$((failed + 1)); fi
else
  echo "not tried: a terminal (there is no command script)"
fi

echo "$tried tried, $failed wrong"
[ "$failed" -eq 0 ]
