#!/usr/bin/env bash
# Times large policy texts over 256 types, each the quickest of five runs.
#
# First by the program bench, in milliseconds: the text is parsed, its table compiled, and all
# triples are asked of the table; the time of making the text is taken off. Then what one question
# costs in nanoseconds: by the table, over all 458,752 triples, and by the walk of the statements, over
# the 1,792 triples of a type on itself. Then `gthost policy` as it is built, on the same texts from a
# file, with the processor time that it took beside the time that passed, and `gthost flow` for one pair
# of types and for all. At last `gthost check`, with its peak of memory: of texts with a line for each statement and on
# one line, without a finding and with a thousand; and `gthost check --never` of a policy that breaks a thousand
# statements on one line.
#
# 65,536 statements fit into a text where they are as short as `allow a b:c *;`, which grants
# nothing; of class `grant` 53,500 do.
#
# usage: bench/policy.sh [check]     with `check` only `gthost check`
#
# PROGRAM=DIR takes the built programs gthost and bench from DIR; with `check` PROGRAM may be the file gthost.
set -euo pipefail

# shellcheck source=bench/common.sh
source "$(dirname "${BASH_SOURCE[0]}")/common.sh"
part="${1-}"
if [ "$part" != check ]; then
  several_programs gthost and bench
  parts="$(built bench policy make grant 0)"
fi
program="$(built gthost)"
work="$(mktemp -d)"
trap 'rm -rf "$work"' EXIT

# nanoseconds of the quickest of five runs
quickest() {
  local best=0 start took
  for _ in 1 2 3 4 5; do
    start=$(date +%s%N)
    "${priority[@]}" "$parts" policy "$@" > /dev/null
    took=$(($(date +%s%N) - start))
    if [ "$best" -eq 0 ] || [ "$took" -lt "$best" ]; then best=$took; fi
  done
  echo "$best"
}

each() {
  local made parsed compiled asked walked
  made=$(quickest make "$1" "$2")
  parsed=$(quickest parse "$1" "$2")
  compiled=$(quickest compile "$1" "$2")
  asked=$(quickest table "$1" "$2")
  walked=$(quickest walk "$1" "$2")
  echo "class $1, $2 statements: parse $(((parsed - made) / 1000000)) ms, compile $(((compiled - parsed) / 1000000)) ms, list $(((asked - compiled) / 1000000)) ms"
  echo "class $1, $2 statements: a question by the table $(((asked - compiled) / 458752)) ns, by the walk $(((walked - parsed) / 1792)) ns"
}

# A text of 256 types and so many statements of a class, each of another pair of types as long as
# there are any.
text() {
  awk -v class="$1" -v count="$2" 'BEGIN {
    letters = "abcdefghijklmnopqrstuvwxyzABCDEFGHIJKLMNOPQRSTUVWXYZ"
    for (front = 0; front < 5; front++)
      for (letter = 1; letter <= 52; letter++)
        if (types < 256) name[types++] = substr("abcd", front, front > 0) substr(letters, letter, 1)
    for (i = 0; i < types; i++) printf "type %s;", name[i]
    for (i = 0; i < count; i++)
      printf "allow %s %s:%s *;", name[i % types], name[int(i / types) % types], class
    print ""
  }'
}

# seconds that passed, and seconds of the processor, of one run of the program
seconds() {
  local TIMEFORMAT='%R %U'
  { time "${priority[@]}" "$program" "$@" > /dev/null; } 2>&1 || [ $? -eq 1 ] # 1: no path
}

# listing CLASS COUNT WORD..: the quickest of five runs of these words and the text
listing() {
  local class="$1" count="$2" passed worked
  shift 2
  text "$class" "$count" > "$work/$class.te"
  for _ in 1 2 3 4 5; do seconds "$@" "$work/$class.te"; done > "$work/times"
  passed=$(sort -n "$work/times" | head -n 1 | cut -d ' ' -f 1)
  worked=$(sort -n -k 2 "$work/times" | head -n 1 | cut -d ' ' -f 2)
  echo "gthost $*, class $class, $count statements: $passed s, of which $worked s of the processor"
}

# the same text, with a line for each statement
lines() { text "$1" "$2" | sed 's/;/;\n/g'; }

# 65,536 statements of 256 types on one line, the first 5,000 of class grant, and the others of a class of Xen's with a
# shorter name
most() {
  text grant 0 | tr -d '\n'
  text grant 65536 | grep -o 'allow . [^;]*;' | head -n 13312 | awk '
    { statement[NR] = $0 }
    END {
      for (i = 0; i < 65536; i++) {
        one = statement[i % NR + 1]
        sub(/grant \*/, i < 5000 ? "grant*" : "xen*", one)
        printf "%s", one
      }
      print ""
    }'
}

# a thousand statements of a class that no policy has, as a suffix for other texts
slips() { lines grnat 1000 | grep allow; }

# checking NAME WORD..: the quickest of five runs of check with these words, and the most memory that one took
checking() {
  local name="$1" passed peak
  shift
  for _ in 1 2 3 4 5; do
    "${priority[@]}" /usr/bin/time -q -a -o "$work/times" -f '%e %U %M' "$program" check "$@" >"$work/out" || [ $? -eq 1 ]
  done
  passed=$(sort -n "$work/times" | head -n 1 | cut -d ' ' -f 1,2)
  peak=$(cut -d ' ' -f 3 "$work/times" | sort -n | tail -n 1)
  rm "$work/times"
  printf '%s: %s s, of which %s s of the processor, at most %d KB, output of %d KB\n' "gthost check, $name" \
    "${passed% *}" "${passed#* }" "$peak" "$(($(wc -c <"$work/out") / 1024))"
}

checks() {
  lines grant 2000 >"$work/small.te"
  lines grant 48000 >"$work/distinct.te"
  { lines grant 47000; lines grant 1000 | grep allow; } >"$work/repeats.te"
  { lines grant 1000; slips; } >"$work/slips.te"
  tr '\n' ' ' <"$work/slips.te" >"$work/slips_line.te"
  { text grant 2000 | head -c 32500 | sed 's/;[^;]*$/;/'; slips; } | tr '\n' ' ' >"$work/long_line.te"
  text grant 53500 >"$work/whole_line.te"
  most >"$work/most.te"
  echo 'allow a b:grant copy;' | cat <(text grant 0) - >"$work/one.te"
  for _ in $(seq 1000); do printf 'neverallow a b:grant copy; '; done >"$work/nevers.te"
  for _ in $(seq 1000); do printf 'neverflow a b; '; done >"$work/flows.te"
  checking '2,000 statements, a line each, no finding' "$work/small.te"
  checking '48,000 statements, a line each, no finding' "$work/distinct.te"
  checking '48,000 statements, a line each, 1,000 repeat another' "$work/repeats.te"
  checking '65,536 statements on one line of 1 MiB, no finding' "$work/most.te"
  checking '53,500 of class grant on one line of 1 MiB, no finding' "$work/whole_line.te"
  checking '2,000 statements, a line each, 1,000 findings' "$work/slips.te"
  checking '2,000 statements on one line, 1,000 findings' "$work/slips_line.te"
  checking "a policy of $(($(wc -c <"$work/long_line.te") / 1024)) KB on one line, 1,000 findings" "$work/long_line.te"
  checking 'the same as JSON' --format json "$work/long_line.te"
  checking '1,000 neverallow statements on one line, all broken' --never "$work/nevers.te" "$work/one.te"
  checking '1,000 neverflow statements on one line, all broken' --never "$work/flows.te" "$work/one.te"
}

if [ "$part" != check ]; then
  each c 65536
  each grant 53500
  listing c 65536 policy
  listing grant 53500 policy
  listing c 65536 flow a b
  listing grant 53500 flow a b
  listing grant 53500 flow - -
fi
checks
