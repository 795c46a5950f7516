#!/usr/bin/env bash
# Writes what a FLASK policy says of grants as a policy for gthost. docs/POLICY.md explains the result.
#
# usage: contrib/flask.sh [--never] [TYPE=N].. POLICY..
#
# POLICY is a policy.conf, as m4 leaves it (several files are read as one), or one binary policy, which is read by
# seinfo and sesearch of the package setools. The standard error says what was left out, and what that means.
#
#   TYPE=N    The host has N domains of this type: TYPE, TYPE_2 and so on are then the types of these domains.
#   --never   Write the neverallow statements, for `gthost check --never`. A binary policy has none.
#
# Exit status: 0, or 2 if there is no policy for gthost: a wrong command line, a file that can't be read, a macro that
# is left, an undeclared name, or a statement without an end.
set -euo pipefail
here="$(dirname "$(readlink -f "${BASH_SOURCE[0]}")")"

fail() {
  printf 'flask.sh: %s\n' "$1" >&2
  exit 2
}

# Whether a file is a binary policy: it begins with the magic number of SELinux.
is_binary() { [ "$(head -c 4 "$1" | od -An -tx1 | tr -d ' ')" = 8cff7cf9 ]; }

# The statements of a binary policy that say what may be done with grants, in the language of its sources.
statements_of() {
  seinfo -b -x "$1" | grep -E '^ +bool '
  seinfo --permissive -x "$1" | grep -E '^ +permissive '
  seinfo --constrain -x "$1" | grep -E '^ +constrain '
  seinfo -a -x "$1" | grep -E '^ +attribute '
  seinfo -t -x "$1" | grep -E '^ +type '
  sesearch -T -c domain "$1"
  sesearch -A -c grant "$1"
}

words=()
files=()
for word in "$@"; do
  case "$word" in
    --never | [A-Za-z]*=[0-9]*) words+=("$word") ;;
    -h | --help) sed -n '2,/^set /s/^# \{0,1\}//p' "$0"; exit 0 ;;
    -*) fail "no option $word; usage: contrib/flask.sh [--never] [TYPE=N].. POLICY.." ;;
    *) files+=("$word") ;;
  esac
done
[ "${#files[@]}" -gt 0 ] || fail "usage: contrib/flask.sh [--never] [TYPE=N].. POLICY.."
command -v python3 >/dev/null || fail "python3 is not installed"
for file in "${files[@]}"; do
  [ -r "$file" ] && [ ! -d "$file" ] || fail "$file: can't be read"
  is_binary "$file" || continue
  [ "${#files[@]}" -eq 1 ] || fail "$file: a binary policy is read alone"
  command -v sesearch >/dev/null && command -v seinfo >/dev/null ||
    fail "$file: a binary policy needs seinfo and sesearch (the package setools)"
  statements="$(mktemp)"
  trap 'rm -f "$statements"' EXIT
  statements_of "$file" >"$statements" || fail "$file: seinfo or sesearch can't read it"
  python3 "$here/flask.py" --binary "${words[@]}" "$statements" "$file"
  exit
done
exec python3 "$here/flask.py" "${words[@]}" "${files[@]}"
