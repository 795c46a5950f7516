#!/usr/bin/env bash
# Runs a test or a program once for each of its requests for memory, with that one refused. A program runs in its
# `data`. It must end with status 0 and the whole text, or with status 1 and a beginning of it.
# It is no part of the gate. `rt test` or `rt run` in the crate builds what is run.
# usage: tools/refused.sh CRATE TEST..      as: tools/refused.sh test_core memory::calls_with_memory_refused
#        tools/refused.sh CRATE WORD..      as: tools/refused.sh cases_play first step_by_step
set -euo pipefail
cd "$(dirname "$0")/.."
crate=$1
shift
work=$(mktemp -d)
trap 'rm -rf "$work"' EXIT
"${CC:-cc}" -O1 -shared -fPIC -o "$work/refused.so" tools/refused.c -ldl

# Runs a command with this request refused, and none where it is 0.
run() {
    local number=$1
    shift
    timeout 60 env REFUSED="$number" LD_PRELOAD="$work/refused.so" "$@" >"$work/one" 2>"$work/err"
}

# Whether a test passes, or a program prints what it must, with this request refused.
is_good() {
    local status=0
    run "$@" || status=$?
    [ -n "$program" ] || return "$status"
    case $status in
        0) cmp -s "$work/whole" "$work/one" ;;
        1) cmp -s <(head -c "$(stat -c %s "$work/one")" "$work/whole") "$work/one" ;;
        *) return 1 ;;
    esac
}

# Tries a command with each of its requests refused in turn.
try() {
    local name=$1 n requests failed=0
    shift
    run 0 "$@"
    cp "$work/one" "$work/whole"
    requests=$(sed -n 's/^requests //p' "$work/err")
    for ((n = 1; n <= requests; n++)); do
        if ! is_good "$n" "$@"; then
            echo "$name fails with request $n refused"
            failed=$((failed + 1))
        fi
    done
    echo "$name: $requests requests, each refused in turn, $failed failures"
}

program=
if [ -f "crates/$crate/src/main.rt" ]; then
    program=$PWD/crates/$crate/out/$crate
    cd "crates/$crate/data"
    try "$*" "$program" "$@"
else
    for name in "$@"; do
        try "$name" "crates/$crate/out/${crate}_tests" "$name"
    done
fi
