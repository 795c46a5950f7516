# shellcheck shell=bash
# What the scripts of this folder share; they source it.
#
# PROGRAM=FILE measures a program that was built before, by another revision or on another machine, and proves and
# builds nothing. For a script that measures several programs PROGRAM is a folder that has each under its name.
# PRIORITY='chrt -f 1' runs what is measured before other work.

top="$(cd "$(dirname "${BASH_SOURCE[0]}")/.." && pwd)"
read -ra priority <<<"${PRIORITY:-}"

# built NAME [WORD..]: prints the path of the built program of the crate NAME: PROGRAM if it is set, and else the
# crate's own, which `rt run -- WORD..` proves and builds first if that is not done yet.
built() {
  local name="$1" path="${PROGRAM:-}"
  shift
  if [ -z "$path" ]; then
    if [ "$name" = gthost ]; then
      "$top/gthost" policy </dev/null >/dev/null # no policy prints nothing
    else
      (cd "$top/crates/$name" && rt run -- "$@" >/dev/null 2>&1)
    fi
    path="$top/crates/$name/out/$name"
  elif [ -d "$path" ]; then
    path="$path/$name"
  fi
  if [ ! -f "$path" ] || [ ! -x "$path" ]; then
    echo "no program $path" >&2
    return 2
  fi
  realpath "$path"
}

# Refuses a PROGRAM that is one file, in a script that measures several programs.
several_programs() {
  [ -z "${PROGRAM:-}" ] || [ -d "$PROGRAM" ] || { echo "PROGRAM has to be a folder with $*" >&2; exit 2; }
}

# first THREADS COMMAND..: runs the command under PRIORITY. It leaves PRIORITY out if the threads are as many as the
# processors: a thread that spins on a lock under a real-time class could keep the lock's holder from running for good.
first() {
  local threads="$1"
  shift
  if [ "$threads" -lt "$(nproc)" ]; then "${priority[@]}" "$@"; else "$@"; fi
}
