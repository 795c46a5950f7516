#!/usr/bin/env bash
# Tries contrib/flask.sh, which makes a policy for gthost of a FLASK policy.
#
# usage: tools/flask.sh               what it writes and says of the policies in contrib/flask is what is stored, and
#                                     the program lists the triples of sesearch for the result (part of the gate)
#        tools/flask.sh tools [CONF]  compiles contrib/flask/host.conf, or another policy.conf, by checkpolicy, and
#                                     compares what sesearch says with what gthost lists: of the policy.conf, of the
#                                     binary policy, and with two domains of each type. It needs the packages
#                                     checkpolicy and setools; PROGRAM=FILE takes a built gthost
set -euo pipefail
top="$(cd "$(dirname "${BASH_SOURCE[0]}")/.." && pwd)"
flask="$top/contrib/flask.sh" stored="$top/contrib/flask" data="$top/crates/cases_program/data"
work="$(mktemp -d)"
trap 'rm -rf "$work"' EXIT
failed=0

wrong() {
  echo "wrong: $1"
  failed=1
}

# Runs flask.sh, and compares its status and what it writes with a file.
writes() {
  local name="$1" file="$2" status=0
  shift 2
  "$flask" "$@" >"$work/out" 2>"$work/said" || status=$?
  [ "$status" -eq 0 ] || wrong "$name: status $status"
  diff "$file" "$work/out" || wrong "$name: another text"
}

says() { grep -qF -- "$2" "$work/said" || { wrong "$1: not said: $2"; cat "$work/said"; }; }

# A policy that is refused, with its fault.
refuses() {
  local name="$1" fault="$2" status=0
  shift 2
  "$flask" "$@" >"$work/out" 2>"$work/said" || status=$?
  [ "$status" -eq 2 ] && [ ! -s "$work/out" ] || wrong "$name: status $status"
  [ "$(cat "$work/said")" = "flask.sh: $fault" ] || { wrong "$name: another fault"; cat "$work/said"; }
}

# What a command line of cases_program prints.
listed() {
  LINE="\$ gthost $1" awk '$0 == ENVIRON["LINE"] { on = 1; next } on && /^status / { exit } on' \
    "$top/crates/cases_program/stdout"
}

stored_cases() {
  writes 'a policy.conf' "$data/host.te" "$stored/host.conf"
  diff "$stored/host.said" "$work/said" || wrong 'a policy.conf: something else is said'
  writes 'several domains of a type' "$data/hosts.te" guest_t=3 network_t=2 "$stored/host.conf"
  writes 'neverallow' "$data/host_never.te" --never "$stored/host.conf"
  listed 'policy host.te' | diff "$stored/host.triples" - || wrong 'other triples than by sesearch'
  listed 'policy hosts.te' | diff "$stored/hosts.triples" - || wrong 'several domains: other triples than by sesearch'
  writes 'several files' "$stored/modules.te" "$stored/base.te" "$stored/module.te"
  says 'several files' 'module.te:15: this block is optional, and what it requires is not declared: left out'
  says 'several files' 'the hypervisor denies nothing to permissive types (probe_t), and gthost does'
  says 'several files' 'permissions that class grant has beyond the seven are left out'
}

faults() {
  local file="$work/bad.te"
  bad() { printf '%b' "$3" >"$file"; refuses "$1" "$2" "$file"; }
  bad 'a macro' 'bad.te:2: declare_domain is a macro: expand the sources by m4 first' 'type a_t;\ndeclare_domain(b_t)\n'
  bad 'a module' 'bad.te:1: policy_module is a macro: expand the sources by m4 first' 'policy_module(a, 1.0)\n'
  bad 'an undeclared name' 'bad.te:2: b_t is not declared' 'type a_t;\nallow a_t b_t:grant copy;\n'
  bad 'a required name' 'bad.te:1: b_t is required, and none of the files declares it' 'require { type b_t; }\n'
  bad 'no end' 'bad.te:2: the policy ends in a statement' 'type a_t;\nallow a_t a_t:grant { copy'
  bad 'no statement' 'bad.te:1: no statement begins with "grant"' 'grant a_t b_t;\n'
  bad 'twice' 'bad.te:2: a_t is declared twice' 'type a_t;\ntype b_t alias a_t;\n'
  bad 'a boolean' 'bad.te:1: "b" is not a declared boolean' 'type a_t; if (b) { allow a_t a_t:grant copy; }\n'
  bad 'no colon' 'bad.te:1: expected ";" before "grant"' 'allow a_t b_t grant copy;\n'
  echo 'type a_t;' >"$file"
  refuses 'domains of no type' 'b_t=2: the policy has no such type of domains' b_t=2 "$file"
  refuses 'a missing file' "$work/missing: can't be read" "$work/missing"
  refuses 'no file' 'usage: contrib/flask.sh [--never] [TYPE=N].. POLICY..'
  refuses 'an option' 'no option --all; usage: contrib/flask.sh [--never] [TYPE=N].. POLICY..' --all "$file"
  printf '\x8c\xff\x7c\xf9' >"$work/binary"
  refuses 'a binary policy and another' "$work/binary: a binary policy is read alone" "$work/binary" "$file"
}

# The triples of a binary policy, by seinfo and sesearch: a line `SOURCE TARGET PERMISSION` each. The host has COUNTS
# domains of each type, as `a_t=2 b_t=3`. It shares nothing with flask.py.
triples() {
  local binary="$1" counts="$2"
  {
    seinfo -b -x "$binary" | sed -nE 's/^ +bool ([^ ]+) true;/bool \1 1/p; s/^ +bool ([^ ]+) false;/bool \1 0/p'
    seinfo -t -x "$binary" | sed -nE 's/ alias \{[^}]*\}//; s/ alias [^ ,;]+//; s/^ +type ([^;]*);/type \1/p' | tr -d ,
    sesearch -T -c domain "$binary" | sed -nE 's/^type_transition ([^ ]+) ([^ ]+):domain ([^;]+);.*/own \1 \2 \3/p'
    sesearch -A -c grant "$binary" | sed -E 's/:grant / /; s/[{}]//g'
  } | awk -v counts="$counts" '
    $1 == "bool" { value[$2] = $3 }
    $1 == "type" { has[$2, $2] = 1; names[++n] = $2; for (i = 3; i <= NF; i++) has[$2, $i] = 1 }
    $1 == "own" && $2 == $3 { own[$2] = $4; is_own[$4] = 1 }
    $1 == "allow" {
      line = $0
      sub(/;.*/, "", line)
      rest = substr($0, length(line) + 2)
      if (rest ~ /\[/) {
        wanted = rest ~ /:True/
        gsub(/^.*\[|\].*$/, "", rest)
        m = split(rest, words, " ")
        rest = ""
        for (i = 1; i <= m; i++) rest = rest " " (words[i] in value ? value[words[i]] : words[i])
        command = "echo $((" rest "))"
        command | getline is
        close(command)
        if (is != wanted) next
      }
      m = split(line, words, " ")
      for (i = 1; i <= n; i++) if ((names[i], words[2]) in has)
        for (j = 1; j <= n; j++) if ((names[j], words[3]) in has || (words[3] == "self" && i == j))
          for (k = 4; k <= m; k++) may[names[i], names[j], words[k]] = 1
    }
    function show(a, b, asked, name, k) {
      for (k = 1; k <= 7; k++) if ((name, asked, permissions[k]) in may) print a, b, permissions[k]
    }
    END {
      split("map_read map_write unmap transfer setup copy query", permissions, " ")
      m = split(counts, words, " ")
      for (i = 1; i <= m; i++) { split(words[i], parts, "="); count[parts[1]] = parts[2] }
      for (i = 1; i <= n; i++) if (!(names[i] in is_own) || own[names[i]] == names[i])
        for (k = 1; k <= (names[i] in count ? count[names[i]] : 1); k++) {
          domains[++d] = names[i] (k > 1 ? "_" k : "")
          of[d] = names[i]
        }
      for (i = 1; i <= d; i++) for (j = 1; j <= d; j++)
        show(domains[i], domains[j], i == j && of[i] in own ? own[of[i]] : of[j], of[i])
    }
  ' | LC_ALL=C sort -s -k 1,2
}

# The same by gthost, from a policy that flask.sh wrote.
gthost_triples() { "$flask" "$@" 2>/dev/null >"$work/made.te" && "$program" policy "$work/made.te"; }

by_tools() {
  local conf="${1:-$stored/host.conf}" binary="$work/policy" twice types
  program="${PROGRAM:-$top/gthost}"
  checkpolicy -t Xen -c 30 -o "$binary" "$conf" >/dev/null
  triples "$binary" '' >"$work/triples"
  if [ $# -eq 0 ]; then
    diff "$stored/host.triples" "$work/triples" || wrong 'the stored triples are not those of sesearch'
    triples "$binary" 'guest_t=3 network_t=2' | diff "$stored/hosts.triples" - ||
      wrong 'the stored triples of several domains are not those of sesearch'
  fi
  gthost_triples "$conf" | diff "$work/triples" - || wrong 'other triples of the policy.conf'
  gthost_triples "$binary" | diff "$work/triples" - || wrong 'other triples of the binary policy'
  types="$(sed -nE 's/^type ([^,;]+).*/\1/p' "$work/made.te")"
  twice="$(printf '%s=2 ' $types)"
  # shellcheck disable=SC2086
  gthost_triples $twice "$conf" | diff <(triples "$binary" "$twice") - ||
    wrong 'other triples with two domains of each type'
  echo "$(wc -l <"$work/triples") triples, as by sesearch"
}

case "${1-}" in
  '') stored_cases && faults ;;
  tools) by_tools "${@:2}" ;;
  *) echo "usage: tools/flask.sh [tools [CONF]]" >&2; exit 2 ;;
esac
exit "$failed"
