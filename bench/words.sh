#!/usr/bin/env bash
# Times the loads of `bench words` beside two programs in C: one that makes the same steps on the same words by hand, and
# one with a ticket lock for each entry. Prints millions of operations a second (a map, an unmap, a grant, a revocation
# or a withdrawal is one) and the ratios of `bench words` to the two. Below the table are the instructions of a round on
# one thread, as valgrind counts them, in a run of 6 domains and in one of 64.
#
# `bench/words.sh [RUNS]` makes so many runs of each program by turns (21), and takes from their time that of no
# rounds; `bench/words.sh 0` counts instructions only. If the machine has other work, `PRIORITY='chrt -f 1'
# bench/words.sh` runs the programs before it, but not those of as many threads as there are processors: the locks spin.
# PROGRAM=FILE takes the built program bench.
set -euo pipefail

# shellcheck source=bench/common.sh
source "$(dirname "${BASH_SOURCE[0]}")/common.sh"
runs="${1:-21}"
work="$(mktemp -d)"
trap 'rm -rf "$work"' EXIT

cp "$(built bench words apart 1 0)" "$work/proved"
for program in atomics locks; do
  "${CC:-clang}" -O2 -pthread -o "$work/$program" "$top/bench/words_$program.c"
done

# The word that says what the proved program measures. Those in C have none.
subject_of() {
  [ "$1" != proved ] || echo words
}

# The nanoseconds of one run.
nanoseconds() {
  local from to
  from="$(date +%s%N)"
  first "$3" "$work/$1" $(subject_of "$1") "$2" "$3" "$4" >"$work/$1.out"
  to="$(date +%s%N)"
  echo "$((to - from))"
}

# The times of the three programs, one a line: the least, or the middle one where threads want the same entry, since the
# least is then that of a run whose threads hardly met.
chosen_times() {
  local program
  for _ in $(seq "$runs"); do
    for program in proved atomics locks; do
      echo "$program $(nanoseconds "$program" "$1" "$2" "$3")"
    done
  done | sort -k1,1 -k2,2n | awk -v load="$1" -v threads="$2" '
    { times[$1, ++count[$1]] = $2 }
    function chosen(program) { return times[program, shared ? int((count[program] + 1) / 2) : 1] }
    END { shared = threads > 1 && (load != "apart" && load != "adjacent"); print chosen("proved"), chosen("atomics"), chosen("locks") }'
}

# One line of the table.
compare() {
  local none some
  none="$(chosen_times "$1" "$2" 0)"
  some="$(chosen_times "$1" "$2" "$3")"
  cmp "$work/proved.out" "$work/atomics.out"
  cmp "$work/proved.out" "$work/locks.out"
  awk -v load="$1" -v threads="$2" -v rounds="$3" -v none="$none" -v some="$some" 'BEGIN {
    split(none, without); split(some, with)
    for (i = 1; i <= 3; i++) speed[i] = 2000 * rounds * threads / (with[i] - without[i])
    printf "%-11s %7d %8.1f %8.1f %8.1f %9.2f %9.2f\n", load, threads, speed[1], speed[2], speed[3], speed[1] / speed[2], speed[1] / speed[3]
  }'
}

# The instructions of a round of a program on one thread.
instructions() {
  local none some
  none="$(counted "$1" "$2" 1000 "${@:3}")"
  some="$(counted "$1" "$2" 11000 "${@:3}")"
  echo "$(((some - none) / 10000))"
}

counted() {
  valgrind --tool=cachegrind --cache-sim=no --cachegrind-out-file="$work/cachegrind" --log-file="$work/log" \
    "$work/$1" $(subject_of "$1") "$2" 1 "${@:3}" >/dev/null
  sed -n 's/.*I *refs: *//p' "$work/log" | tr -d ,
}

loads=(apart adjacent one grants withdrawals)
if [ "$runs" -eq 0 ]; then timed=(); else timed=("${loads[@]}"); fi
[ "$runs" -eq 0 ] || printf '%-11s %7s %8s %8s %8s %9s %9s\n' load threads proved atomics locks /atomics /locks
for load in "${timed[@]}"; do
  for threads in 1 2 3 4; do
    case "$load $threads" in
      apart* | adjacent*) rounds=3000000 ;;
      *" 1") rounds=1000000 ;; # generations end the loads of an owner soon after
      *) rounds=300000 ;;
    esac
    compare "$load" "$threads" "$rounds"
  done
done
for load in "${loads[@]}"; do
  echo "$load: $(instructions proved "$load") instructions a round, with 64 domains $(instructions proved "$load" 64)," \
    "C with atomics $(instructions atomics "$load"), with locks $(instructions locks "$load")"
done
