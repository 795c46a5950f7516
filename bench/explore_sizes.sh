#!/usr/bin/env bash
# Explores families of programs of growing size, and prints what each costs: states, texts, seconds and megabytes.
#
#   map N    N domains map, store to and unmap a page each, while the owner grants and revokes all of them
#   copy N   N domains copy from a page each, while the owner grants and revokes all of them
#   bytes N  the same as copy N, with a grant by bytes of a page that no domain uses
#   race N   an owner revokes and grants a page N times against a domain that maps and unmaps it N times
#   pairs N  N pairs of domains that share nothing with each other
#   ring N   N domains grant a page to the next one and revoke it, and map that of the one before and unmap it
#   relay N  N domains hand a token on: each awaits that of the one before, maps its page, and grants one of its own
#   text N   an owner pokes a frame N times against a domain that loads it N times: few states, many texts
#   via N    a domain copies through a transitive entry, while N others copy from pages of their own
#   high N   the same as map N, with references from 8,000 on
#   turns N  N requests on one page, each answered before the next
#
# A program that meets more states than the limit, or takes more than a minute, is reported as such. At the end are the
# states and seconds of SPIN for `map N`, if it is installed (bench/spin.sh). The gate does not run it, since it prints
# times.
# PROGRAM=FILE takes the built program gthost.
# usage: bench/explore_sizes.sh [STATES]        1,000,000 if it is left out
set -euo pipefail

# shellcheck source=bench/common.sh
source "$(dirname "${BASH_SOURCE[0]}")/common.sh"
states="${1:-1000000}"
program="$(built gthost)"
work="$(mktemp -d)"
trap 'rm -rf "$work"' EXIT

# Prints the policy, and this number of domains.
head_of() {
  printf 'policy\nattribute dom;\ntype a_t, dom;\ntype b_t, dom;\n'
  printf 'allow dom dom:grant { map_read map_write unmap copy };\nend\n'
  echo 'domain 1 u:r:a_t 8 1 1'
  for ((dom = 2; dom <= $1; dom++)); do echo "domain $dom u:r:b_t 8 1 1"; done
}

# Prints a grant of a page to each of this number of domains, a flag, and their revocations. The references begin at
# `first`.
granted_and_revoked() {
  local mode="$1" count="$2" page="$3" first="${4:-0}" at
  for ((at = 0; at < count; at++)); do echo "do 1 grant $((first + at)) page $((at + 2)) $mode $((page + at))"; done
  echo 'tell 1 granted'
  for ((at = 0; at < count; at++)); do echo "do 1 revoke $((first + at))"; done
}

# Prints the program of a family and a size.
write() {
  local family="$1" size="$2" at dom before
  case "$family" in
    map)
      head_of $((size + 1))
      granted_and_revoked rw "$size" 0
      for ((dom = 2; dom <= size + 1; dom++)); do
        printf 'await %d granted\ndo %d map h 1 %d rw\ndo %d store h 0 01\ndo %d unmap h\n' \
          "$dom" "$dom" $((dom - 2)) "$dom" "$dom"
      done ;;
    copy | bytes)
      head_of $((size + 1))
      if [ "$family" = bytes ]; then echo 'do 1 bytes 7 0100020007000000'; fi
      echo 'do 1 poke 5 0 5a'
      granted_and_revoked ro "$size" 0
      for ((dom = 2; dom <= size + 1; dom++)); do
        printf 'await %d granted\ndo %d copy gref 1 %d 0 frame self 0 0 1\ndo %d peek 0 0 1\n' \
          "$dom" "$dom" $((dom - 2)) "$dom"
      done ;;
    high)
      head_of $((size + 1)) | sed 's/^domain 1 .*/domain 1 u:r:a_t 8 16 1/'
      granted_and_revoked rw "$size" 0 8000
      for ((dom = 2; dom <= size + 1; dom++)); do
        printf 'await %d granted\ndo %d map h 1 %d rw\ndo %d store h 0 01\ndo %d unmap h\n' \
          "$dom" "$dom" $((dom + 7998)) "$dom" "$dom"
      done ;;
    via)
      head_of $((size + 3)) | sed 's/^\(domain [23] u:r:b_t\) 8 1 1/\1 8 1 2/'
      printf 'do 1 grant 0 page 2 ro 5\ntell 1 page\nawait 2 page\ndo 2 grant 0 via 3 ro 1 0\ntell 2 via\n'
      printf 'await 3 via\ndo 3 copy gref 2 0 0 frame self 0 0 1\ndo 1 revoke 0\ndo 2 revoke 0\n'
      for ((dom = 4; dom <= size + 3; dom++)); do
        printf 'do 1 grant %d page %d ro %d\ntell 1 g%d\nawait %d g%d\n' \
          $((dom - 3)) "$dom" $((5 + dom % 3)) "$dom" "$dom" "$dom"
        printf 'do %d copy gref 1 %d 0 frame self 0 0 1\n' "$dom" $((dom - 3))
      done ;;
    turns)
      head_of 2
      for ((at = 0; at < size; at++)); do
        printf 'do 1 grant 0 page 2 rw 5\ntell 1 q%d\nawait 2 q%d\ndo 2 map h 1 0 rw\ndo 2 store h 0 01\n' "$at" "$at"
        printf 'do 2 unmap h\ntell 2 d%d\nawait 1 d%d\ndo 1 revoke 0\n' "$at" "$at"
      done ;;
    race)
      head_of 2
      printf 'do 1 grant 0 page 2 rw 5\ntell 1 granted\n'
      for ((at = 0; at < size; at++)); do printf 'do 1 revoke 0\ndo 1 grant 0 page 2 rw 5\n'; done
      echo 'await 2 granted'
      for ((at = 0; at < size; at++)); do printf 'do 2 map h 1 0 rw\ndo 2 unmap h\n'; done ;;
    pairs)
      head_of $((2 * size))
      for ((at = 0; at < size; at++)); do
        dom=$((2 * at + 1))
        printf 'do %d grant 0 page %d rw 1\ntell %d g%d\ndo %d revoke 0\n' "$dom" $((dom + 1)) "$dom" "$at" "$dom"
        printf 'await %d g%d\ndo %d map h %d 0 rw\ndo %d store h 0 01\ndo %d unmap h\n' \
          $((dom + 1)) "$at" $((dom + 1)) "$dom" $((dom + 1)) $((dom + 1))
      done ;;
    ring)
      head_of "$size"
      for ((dom = 1; dom <= size; dom++)); do
        before=$(((dom + size - 2) % size + 1))
        printf 'do %d grant 0 page %d rw 1\ntell %d g%d\n' "$dom" $((dom % size + 1)) "$dom" "$dom"
        printf 'do %d revoke 0\nawait %d g%d\n' "$dom" "$dom" "$before"
        printf 'do %d map h %d 0 rw\ndo %d unmap h\n' "$dom" "$before" "$dom"
      done ;;
    relay)
      head_of "$size"
      for ((dom = 1; dom <= size; dom++)); do
        before=$((dom - 1))
        if [ "$dom" -gt 1 ]; then
          printf 'await %d t%d\ndo %d map h %d 0 rw\ndo %d store h 0 %02x\ndo %d unmap h\n' \
            "$dom" "$before" "$dom" "$before" "$dom" "$dom" "$dom"
        fi
        printf 'do %d grant 0 page %d rw 1\ntell %d t%d\n' "$dom" $((dom % size + 1)) "$dom" "$dom"
      done ;;
    text)
      head_of 2
      printf 'do 1 grant 0 page 2 ro 5\ntell 1 granted\n'
      for ((at = 1; at <= size; at++)); do printf 'do 1 poke 5 0 %02x\n' "$at"; done
      printf 'await 2 granted\ndo 2 map h 1 0 ro\n'
      for ((at = 0; at < size; at++)); do echo 'do 2 load h 0 1'; done
      echo 'do 2 unmap h' ;;
  esac
}

# Explores the program of a family and a size, and prints a line about it.
measure() {
  local family="$1" size="$2" begun ended last texts memory
  write "$family" "$size" >"$work/program.gt"
  begun="$(date +%s.%N)"
  timeout 60 /usr/bin/time -f %M -o "$work/memory" \
    "$program" explore --states "$states" "$work/program.gt" >"$work/all" 2>"$work/fault" || true
  ended="$(date +%s.%N)"
  last="$(tail -n 1 "$work/all")"
  texts="$(grep -c '^text ' "$work/all" || true)"
  memory="$(tail -n 1 "$work/memory" 2>/dev/null || echo 0)"
  [ -n "$last" ] || last="$(head -n 1 "$work/fault")"
  awk -v name="$family $size" -v last="${last:-more than a minute}" -v texts="$texts" -v begun="$begun" -v ended="$ended" \
    -v memory="$memory" 'BEGIN { printf "%-8s %6d texts %7.2f s %5d MB  %s\n", name, texts, ended - begun, memory / 1024, last }'
}

for size in 1 2 3 4 5 6; do measure map "$size"; done
for size in 1 2 3 4 7; do measure copy "$size"; done
for size in 4; do measure bytes "$size"; done
for size in 1 2 3 4; do measure race "$size"; done
for size in 1 2 3; do measure pairs "$size"; done
for size in 2 3 4 5 6; do measure ring "$size"; done
for size in 4 8 16 64; do measure relay "$size"; done
for size in 4 6 7 8; do measure text "$size"; done
for size in 1 2 3; do measure via "$size"; done
for size in 4; do measure high "$size"; done
for size in 256 1024 2048; do measure turns "$size"; done

# The same programs `map N` by SPIN, in the same hour.
if command -v spin >/dev/null; then
  "$(dirname "${BASH_SOURCE[0]}")/spin.sh" 5
else
  echo 'map N by SPIN: not measured, since it is not installed'
fi
