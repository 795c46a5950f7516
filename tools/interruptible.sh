#!/usr/bin/env bash
# Tries that SIGINT ends a search of the program with the texts found, and leaves nothing behind: 20 searches that take
# long, half of them by a signal to the whole group, as of a terminal. It is no part of the gate.
#
# usage: tools/interruptible.sh [PROGRAM]        the program; crates/gthost/out/gthost if it is left out
set -euo pipefail
top="$(cd "$(dirname "${BASH_SOURCE[0]}")/.." && pwd)"
program="$(realpath "${1:-$top/crates/gthost/out/gthost}")"
work="$(mktemp -d)"
trap 'rm -rf "$work"' EXIT
failed=0

# An installation of the program alone.
mkdir -p "$work/bin" "$work/libexec" "$work/temporary"
cp "$program" "$work/libexec/gthost"
{ sed -nE '/^(run_interruptible|write_command)\(\)/,/^}/p' "$top/gthost" && echo write_command; } | bash >"$work/bin/gthost"
chmod 755 "$work/bin/gthost"

# Nine mappers of a page each, which the owner revokes and withdraws: a search of millions of states.
{
  printf 'policy\ntype a_t;\ntype b_t;\nallow b_t a_t:grant { map_read map_write unmap };\nend\n'
  echo 'domain 1 u:r:a_t 16 1 1'
  for ((id = 2; id <= 10; id++)); do echo "domain $id u:r:b_t 8 1 1"; done
  for ((id = 2; id <= 10; id++)); do echo "do 1 grant $((id - 2)) page $id rw $((id - 2))"; done
  echo 'tell 1 granted'
  for word in revoke withdraw; do for ((at = 0; at < 9; at++)); do echo "do 1 $word $at"; done; done
  for ((id = 2; id <= 10; id++)); do
    printf 'await %d granted\ndo %d map h 1 %d rw\ndo %d store h 0 01\ndo %d unmap h\n' \
      "$id" "$id" $((id - 2)) "$id" "$id"
  done
} >"$work/long.gt"

wrong() {
  echo "wrong: $1"
  failed=$((failed + 1))
}

for ((i = 0; i < 20; i++)); do
  status=0 group=''
  if [ $((i % 2)) -eq 0 ]; then group='-'; fi
  TMPDIR="$work/temporary" setsid env --default-signal=INT "$work/bin/gthost" explore --states 100000000 "$work/long.gt" \
    >"$work/out" 2>"$work/err" </dev/null &
  search=$!
  sleep 1
  kill -s INT -- "$group$search"
  wait "$search" || status=$?
  [ "$status" -eq 2 ] || wrong "search $i: status $status"
  grep -qE '^text 1 of at least [0-9]+$' "$work/out" || wrong "search $i: no texts"
  grep -qE '^states [0-9]+, depth [0-9]+: not all texts' "$work/out" || wrong "search $i: no last line"
  [ ! -s "$work/err" ] || wrong "search $i: $(cat "$work/err")"
  ! pgrep -s "$search" >/dev/null || wrong "search $i: something goes on"
  [ -z "$(ls -A "$work/temporary")" ] || wrong "search $i: a file is left"
done
echo "20 searches ended by a signal, $failed wrong"
[ "$failed" -eq 0 ]
