#!/usr/bin/env bash
# Tries the launcher ./gthost: what it answers before the program is built, what it runs then, how it builds, and how a
# build ends that can't go on. It is no part of the gate. A command of its own takes the place of rt, so that a build
# takes a second; with the word `kit` the real rt runs the first example, not proved, and all command lines of the tour.
#
# usage: tools/launcher.sh [kit]
set -euo pipefail
top="$(cd "$(dirname "${BASH_SOURCE[0]}")/.." && pwd)"
work="$(mktemp -d)"
trap 'chmod -R u+w "$work"; rm -rf "$work"' EXIT
chmod 755 "$work"
tried=0 failed=0

# A copy of what the launcher reads, and of what it installs.
checkout="$work/checkout"
for folder in "$top"/crates/gt_*/; do mkdir -p "$checkout/crates/$(basename "$folder")"; done
mkdir -p "$checkout/crates/gthost/src" "$checkout"/crates/{gthost_play,cases_program} \
  "$checkout"/crates/gt_types/{must-fail,wrong-bodies} \
  "$checkout/tools" "$checkout/docs" "$work/bin" "$work/other"
cp -r "$top/gthost" "$top/HANDLES" "$top/crates.txt" "$top/gthost.1" "$top/contrib" "$top/examples" "$checkout/"
cp "$top"/tools/*.awk "$top/tools/lanes.sh" "$checkout/tools/"
cp "$top/docs/GATE.md" "$checkout/docs/"
cp -r "$top"/crates/cases_program/{args,stdin,stdout,data} "$checkout/crates/cases_program/"
cp "$top/crates/gthost/src/main.rt" "$checkout/crates/gthost/src/"
out="$checkout/crates/gthost/out"
script="$work/other/some.gt"
echo 'do 1 revoke 0' >"$script"

# What stands for rt. STUB says how the build goes, KIT is the kit's line, and each build adds a line to `builds`.
cat >"$work/bin/rt" <<'STUB'
#!/usr/bin/env bash
case "$1" in
  version) echo "$KIT" ;;
  try)
    crate="$2" data=()
    while [ "$1" != -- ]; do
      if [ "$1" = --data ]; then data+=("$2"); fi
      shift
    done
    shift
    case "$STUB" in
      slow_try) sleep 6 ;;
      hangs) # as rt: its child has a session of its own, and a second signal ends this one before the child is ended
        setsid sleep 300 &
        child=$!
        trap 'trap - INT TERM HUP; sleep 0.3; kill "$child"; exit 143' INT TERM HUP
        echo "$$ $child" >>"$WORK/children"
        wait "$child"
        ;;
    esac
    if [ "$crate" = cases_program ]; then
      for file in "${data[@]}"; do [ -f "${file#*=}" ] || { echo "no file: $file"; exit 2; }; done
      if [ "$STUB" = other ]; then echo "other"; else cat "$STORED"; fi
      exit 0
    fi
    echo "tried $crate $*"
    for file in "${data[@]}"; do echo "with $file"; done
    if [ "$STUB" = reads ] && [ ! -t 0 ]; then cat; fi
    echo "gthost: line 4: config" >&2
    echo "run=ended status=1 runners=1 races=unchecked proved=no" >&2
    case "$STUB" in slow_end) sleep 6 ;; esac
    exit 1
    ;;
  ci)
    echo ci >>"$WORK/builds"
    echo "rt: gt_types proved"
    echo "$RT_JOBS" >"$WORK/jobs"
    find . -name must-fail -o -name wrong-bodies -o -name out >"$WORK/beyond"
    sed 's/[: ].*//' crates.txt >"$WORK/copied"
    ls crates >"$WORK/folders"
    case "$STUB" in
      slow) sleep 300 & echo "$$ $!" >>"$WORK/children"; wait ;;
      brief) sleep 2 ;;
      fails) echo "error: a goal is open"; exit 1 ;;
      fails_once) sleep 2; if [ ! -e "$WORK/failed" ]; then : >"$WORK/failed"; exit 1; fi ;;
      full) echo "OSError: [Errno 28] No space left on device"; exit 1 ;;
    esac
    mkdir -p crates/gthost/out
    cat >crates/gthost/out/gthost <<'PROGRAM'
#!/bin/sh
if [ "$STUB $1" = "searches explore" ]; then
  echo "$$" >>"$WORK/children"
  until [ -e "$GTHOST_STOP" ]; do sleep 0.1; done
  if [ "$2" = goes_on ]; then while true; do sleep 0.1; done; fi
  echo "the texts found"
  exit 2
fi
echo "the program: $*"
if [ "$*" = "explore -" ]; then cat; fi
exit 3
PROGRAM
    chmod 755 crates/gthost/out/gthost
    ;;
esac
STUB
chmod 755 "$work/bin/rt"
export WORK="$work" STUB=good KIT STORED="$top/crates/cases_program/stdout"
KIT="$(sed -n 's/^for \(rattle-kit-.*\)/\1/p' "$top/crates/cases_program/stdout" | head -n 1)"
path="$PATH"
PATH="$work/bin:$path"

wrong() {
  echo "wrong: $1"
  sed 's/^/  out: /' "$work/out"
  sed 's/^/  err: /' "$work/err"
  failed=$((failed + 1))
}

# Runs the launcher on words, and compares its status.
try() {
  local name="$1" wanted="$2" status=0
  shift 2
  "${as[@]}" timeout 60 "$checkout/gthost" "$@" >"$work/out" 2>"$work/err" </dev/null || status=$?
  tried=$((tried + 1))
  [ "$status" -eq "$wanted" ] || wrong "$name: status $status, and not $wanted"
}

# The same for words whose standard input is a terminal, on which a line is typed.
typed() {
  local name="$1" wanted="$2" status=0
  shift 2
  printf 'do 1 revoke 0\n\004' | timeout 60 script -qec \
    "$(printf '%q ' "$checkout/gthost" "$@") >$work/out 2>$work/err" /dev/null >/dev/null || status=$?
  tried=$((tried + 1))
  [ "$status" -eq "$wanted" ] || wrong "$name: status $status, and not $wanted"
}

# What the last run must have written, on which stream, and how many lines its standard error has.
has() { grep -qE "$3" "$work/$2" || wrong "$1: no '$3'"; }
lines() { [ "$(wc -l <"$work/err")" -eq "$2" ] || wrong "$1: other than $2 lines of standard error"; }
same() { cmp -s "$work/$2" "$3" || wrong "$1: another text"; }
unbuilt() { [ ! -e "$out" ] || wrong "$1: something was built"; }
builds() { [ "$(wc -l <"$work/builds")" -eq "$2" ] || wrong "$1: other than $2 builds"; }
is_alive() { for child in $(cat "$work/children"); do if kill -0 "$child" 2>/dev/null; then return 0; fi; done; return 1; }
anew() { chmod -R u+w "$checkout"; rm -rf "$checkout"/crates/*/out "$work/builds" "$work/failed"; : >"$work/builds"; STUB=good; }

as=(env)
anew

# Before the program is built.
stored() {
  LINE="\$ gthost $1" awk '$0 == ENVIRON["LINE"] { f = 1; next } f && /^status / { exit } f' "$top/crates/cases_program/stdout" >"$work/stored"
  [ "$1" != --help ] || { printf '\nIn this checkout:\n' && sed -nE 's|^#  +(./gthost [a-z]+ .*)|  \1|p' "$top/gthost"; } >>"$work/stored"
}
for words in --help --version rules 'rules N19' 'play -h'; do
  stored "$words"
  # shellcheck disable=SC2086
  try "$words" 0 $words
  same "$words" out "$work/stored"
done
stored --help; try -h 0 -h; same -h out "$work/stored"
stored --version; try -V 0 -V; same -V out "$work/stored"
stored 'play -h'; try 'play --help' 0 play --help; same 'play --help' out "$work/stored"
if command -v script >/dev/null; then
  tried=$((tried + 1))
  COLUMNS=60 script -qec "'$checkout/gthost' rules N19" /dev/null </dev/null | tr -d '\r' >"$work/out"
  awk '$0 == "$ terminal: gthost rules N19" { f = 1; next } f && /^status / { exit } f' "$top/crates/cases_program/stdout" >"$work/stored"
  same 'rules on a terminal' out "$work/stored"
fi
for name in N27 N0 N019 N+19 ''; do
  echo "gthost: no rule '$name' (rules are N1 to N26)" >"$work/stored"
  try "rules $name" 2 rules "$name"
  same "rules $name" err "$work/stored"
done

# Each command line that the gate tries and that is wrong is answered as the gate has it. So is a FILE that is missing.
export TEXT="$work/text"
pushd "$checkout/crates/cases_program/data" >/dev/null
while read -r _ words; do
  : >"$TEXT"
  LINE="\$ gthost${words:+ $words}" awk '$0 == ENVIRON["LINE"] { f = 1; next } f && /^status / { print $2; exit } f { print > ENVIRON["TEXT"] }' \
    "$top/crates/cases_program/stdout" >"$work/status"
  wanted="$(cat "$work/status")"
  # shellcheck disable=SC2086
  first="$(head -n 1 "$work/text")"
  if [[ $first == "error: "* || $first == "gthost: no rule "* || -z $words ]] || [[ $words == *missing* && $words != *.te*.te* ]]; then
    try "$words" "$wanted" $words
    same "$words" err "$work/text"
    [ ! -s "$work/out" ] || wrong "$words: a text on the standard output"
  fi
done < <(grep '^gthost' "$top/crates/cases_program/args")
popd >/dev/null
try 'two similar commands' 2 paly; has 'two similar commands' err "tip: some similar subcommands exist: 'policy', 'play'$"
try 'a missing file of statements' 2 check --never="$work/missing" "$script"; has 'a missing file of statements' err ': no such file$'
try 'a folder to check' 2 check "$work"; has 'a folder to check' err ': is a directory$'; lines 'a folder to check' 1
try 'a folder as FILE' 1 play -v "$work"; has 'a folder as FILE' err 'Is a directory \(os error 21\)'; lines 'a folder as FILE' 2
try 'a file below a file' 1 play -v "$script/x"; has 'a file below a file' err 'Not a directory \(os error 20\)'
try 'no UTF-8' 2 play $'\xff'; has 'no UTF-8' err 'a word of the command line is not UTF-8'; lines 'no UTF-8' 1
try 'build of a word' 2 build now; lines 'build of a word' 1
try 'install of two' 2 install a b; lines 'install of two' 1
try 'install of a flag' 2 install --all; lines 'install of a flag' 1
for word in build tour install library; do
  try 'the help' 0 --help; has 'the help' out "^  ./gthost $word( .*)?  [a-z]"
  for words in "help $word" "$word --help" "$word -h"; do
    # shellcheck disable=SC2086
    try "$words" 0 $words; has "$words" out "^Usage: ./gthost $word"
  done
done
[ -z "$(awk 'length > 80' "$work/stored" "$work/out")" ] || wrong 'a line of help above 80 columns'
for words in biuld:build libary:library touur:tour instal:install; do
  try "${words%:*}" 2 "${words%:*}"; has "${words%:*}" err "tip: .*'${words#*:}'$"
done
unbuilt 'before the program is built'

# No kit: there is a line for it, and nothing is made.
mkdir "$work/plain"
for tool in bash env dirname basename readlink find sort xargs sha256sum sed awk stat grep timeout cat tr iconv; do ln -s "$(command -v "$tool")" "$work/plain/$tool"; done
as=(env "PATH=$work/plain"); try 'no kit' 1 play "$script"; has 'no kit' err 'rt.*not on the PATH'; lines 'no kit' 1; as=(env)
unbuilt 'no kit'

# Before the build each run is compiled, and said not to be proved: `play` and `policy` by a program of their own.
first() { has "$1" err 'not built yet: this run is compiled in about [0-9]+ s, and not proved; ./gthost build .* [0-9]+ crates, about [0-9]+ min$'; }
cd "$work/other"
try 'a first run' 1 play some.gt
has 'a first run' out '^tried gthost_play play some.gt$'; has 'a first run' out "^with some.gt=$script$"
first 'a first run'; has 'a first run' err '^gthost: line 4: config$'; lines 'a first run' 2
try 'with records' 1 play "$script" --audit; has 'with records' out "^tried gthost_play play --audit $script$"
try 'a policy' 1 policy ./some.gt; has 'a policy' out '^tried gthost_play policy ./some.gt$'
try 'another option' 1 play -v some.gt; has 'another option' out '^tried gthost play -v some.gt$'; first 'another option'
try 'another command' 1 check some.gt; has 'another command' out '^tried gthost check some.gt$'
mkdir below; cd below
try 'a file above' 1 why - - copy ../some.gt; has 'a file above' out "^tried gthost why - - copy $work/other/below/../some.gt$"
cd ..; STUB=reads
try 'a pipe' 1 play <(cat some.gt); has 'a pipe' out '^tried gthost_play play$'; has 'a pipe' out '^do 1 revoke 0$'; lines 'a pipe' 2
try 'an empty input' 1 play; has 'an empty input' out '^tried gthost_play play$'; lines 'an empty input' 2
if command -v script >/dev/null; then
  typed 'a typed script' 1 play; lines 'a typed script' 3; has 'a typed script' out '^do 1 revoke 0$'
  [ "$(sed -n '1s/^gthost: reading the script from standard input, .*/first/p; 2s/.*this run is compiled.*/then/p' "$work/err")" = $'first\nthen' ] ||
    wrong 'a typed script: another order'
  typed 'a script for run' 1 run -v; has 'a script for run' err '^gthost: reading the script from'; has 'a script for run' out '^do 1 revoke 0$'
  typed 'a script to check' 1 check --script; has 'a script to check' err '^gthost: reading the script from'
  typed 'a typed policy' 1 check -v; has 'a typed policy' err '^gthost: reading the policy from'
  typed 'a typed dump' 1 entries --version 1; has 'a typed dump' err '^gthost: reading the dump from'
  typed 'typed questions' 1 why some.gt; has 'typed questions' err '^gthost: reading the questions from'; has 'typed questions' out '^do 1 revoke 0$'
  typed 'a file on a terminal' 1 play some.gt; lines 'a file on a terminal' 2
  typed 'a question with a file' 1 why - - copy some.gt; lines 'a question with a file' 2
  typed 'the terminal as a file' 1 play /dev/stdin; has 'the terminal as a file' out '^do 1 revoke 0$'
fi
STUB=slow_try
try 'a run that takes long' 1 play some.gt; has 'a run that takes long' err '^gthost: compiling, 5 s$'; lines 'a run that takes long' 3
STUB=slow_end; tried=$((tried + 1))
"$checkout/gthost" play some.gt >"$work/out" 2>&1 </dev/null || true
: >"$work/err"; has 'a run that ends late' out '^gthost: compiling, 5 s$'
[ "$(sed -n '/^tried /,$p' "$work/out")" = "$(printf '%s\n' 'tried gthost_play play some.gt' "with some.gt=$script" 'gthost: line 4: config')" ] ||
  wrong 'a run that ends late: another order'
STUB=good; tried=$((tried + 2)); status=0
"$checkout/gthost" play some.gt >/dev/full 2>"$work/err" </dev/null || status=$?
has 'a full device' err '^gthost: write$'; [ "$status" -eq 1 ] || wrong "a full device: status $status"
status=0; "$checkout/gthost" check some.gt >&- 2>"$work/err" </dev/null || status=$?
has 'a closed output' err '^gthost: write$'; [ "$status" -eq 2 ] || wrong "a closed output: status $status"
# A signal ends a run that is not proved with all that it started: one for the group, as of timeout and of a terminal, and
# one for the launcher alone.
for signal in TERM INT HUP; do
  for ((i = 0; i < 20; i++)); do
    STUB=hangs tried=$((tried + 1)) status=0
    rm -f "$work/children"
    setsid env --default-signal="$signal" "$checkout/gthost" explore some.gt >"$work/out" 2>"$work/err" </dev/null &
    launcher=$!
    until [ -s "$work/children" ]; do sleep 0.05; done
    if [ $((i % 4)) -eq 3 ]; then kill -s "$signal" "$launcher"; else kill -s "$signal" -- "-$launcher"; fi
    wait "$launcher" 2>/dev/null || status=$?
    [ "$status" -eq $((128 + $(kill -l "$signal"))) ] || wrong "$signal in a run: status $status"
    for _ in $(seq 20); do is_alive || pgrep -s "$launcher" >/dev/null || break; sleep 0.1; done # until they are reaped
    if is_alive; then wrong "$signal in a run: a child goes on"; fi
    ! pgrep -s "$launcher" >"$work/out" || wrong "$signal in a run: something goes on"
  done
done
for ((i = 0; i < 20; i++)); do
  tried=$((tried + 1)) status=0
  rm -f "$work/children"
  timeout 1 "$checkout/gthost" explore some.gt >"$work/out" 2>"$work/err" </dev/null || status=$?
  [ "$status" -eq 124 ] || wrong "timeout: status $status"
  for _ in $(seq 20); do is_alive || break; sleep 0.1; done
  [ -s "$work/children" ] && ! is_alive || wrong 'timeout: a child goes on'
done
STUB=good
try 'the tour' 0 tour; has 'the tour' out "^$(wc -l <"$top/crates/cases_program/args") command lines, all as recorded$"; lines 'the tour' 1
STUB=other; try 'another tour' 1 tour; has 'another tour' err 'not all as recorded'
STUB=good
unbuilt 'runs that are not proved'

# The build, and later runs.
try 'a build' 0 build
has 'a build' err 'proving and building the program \(not built yet\): 0 of [0-9]+ crates, about [0-9]+ min on idle processors; log: .*/build-[0-9]+\.log'
lines 'a build' 2
try 'a built program' 3 play x; has 'a built program' out '^the program: play x$'; lines 'a built program' 0
try 'a second build' 0 build; has 'a second build' err '^gthost: built: '; lines 'a second build' 1
as=(env "PATH=$work/plain"); try 'a run without a kit' 3 play x; lines 'a run without a kit' 0; as=(env)
[ "$(sed -n 2p "$out/built")" = "$KIT" ] || wrong 'the stamp has no kit'
touch "$work/bin/rt"; try 'the same kit in another file' 3 play x; lines 'the same kit in another file' 0
builds 'later runs' 1
echo '// more' >>"$checkout/crates/gthost/src/main.rt"
try 'a changed source' 1 play some.gt; has 'a changed source' err 'the sources have changed since the build: this run'
try 'a build after it' 0 build; has 'a build after it' err 'the sources have changed since the build\): [0-9]+ of [0-9]+'
touch -d yesterday "$work/bin/rt"; KIT="another-kit-14 logic 0"
try 'another kit' 0 build; has 'another kit' err 'the kit is another'; has 'another kit' err 'this checkout is for rattle-kit'
KIT="$(sed -n 's/^for //p' "$work/stored" "$top/crates/cases_program/stdout" | head -n 1)"
rm "$out/gthost"; touch "$work/bin/rt"; try 'a program that is gone' 0 build
builds 'each of them' 4

# What is built is a copy of the program and of the crates below it, without wrong bodies.
anew; try 'a copy' 0 build
awk -v name=gthost -f "$top/tools/below.awk" "$top/crates.txt" | sed 's/[: ].*//' >"$work/below"
cmp -s "$work/below" "$work/copied" || wrong 'a copy of other crates'
[ "$(sort "$work/below")" = "$(sort "$work/folders")" ] || wrong 'a copy of other folders'
grep -q '^gt_types$' "$work/below" && grep -q '^gthost$' "$work/below" || wrong 'a copy without its first or its last crate'
[ ! -s "$work/beyond" ] || wrong 'a copy of what a build does not read'
[ ! -e "$out/copy" ] || wrong 'a copy is left'
jobs="$(cat "$work/jobs")"
[ "$jobs" -ge 1 ] && [ "$jobs" -le "$(nproc)" ] || wrong "$jobs crates at once"

# Builds that do not end well.
anew; STUB=fails; try 'an open goal' 1 build; has 'an open goal' err 'a goal is open'; has 'an open goal' err 'not built; log: '
[ ! -e "$out/built" ] || wrong 'an open goal has a stamp'
STUB=full; try 'a full disk' 1 build; has 'a full disk' err 'the disk is full.*log: '; lines 'a full disk' 2
STUB=good; try 'once it is mended' 0 build; try 'the program then' 3 play x

# Signals: the build ends with its children, the status is the signal's, and the next run builds.
for signal in INT TERM HUP; do
  anew; STUB=slow; tried=$((tried + 1)); rm -f "$work/children"
  env --default-signal="$signal" "$checkout/gthost" build >"$work/out" 2>"$work/err" </dev/null &
  launcher=$! status=0
  until [ -s "$work/children" ]; do sleep 0.1; done
  kill -s "$signal" "$launcher"
  wait "$launcher" || status=$?
  [ "$status" -eq $((128 + $(kill -l "$signal"))) ] || wrong "$signal: status $status"
  has "$signal" err 'stopped; the next run goes on'
  for _ in $(seq 30); do is_alive || break; sleep 0.1; done
  if is_alive; then wrong "$signal: a child goes on"; fi
  [ ! -e "$out/built" ] || wrong "$signal: a stamp"
  STUB=good; try "after $signal" 0 build
done

# A reader of the messages that has ended doesn't end the build.
anew; STUB=brief; status=0; tried=$((tried + 1))
rm -f "$work/status"
{ "$checkout/gthost" build 2>&1 >"$work/out" </dev/null || echo $? >"$work/status"; } | sleep 0.1
: >"$work/err"
[ ! -e "$work/status" ] || wrong 'a closed standard error'

# Two builds at once: one builds, and the other waits for it, or builds where the first failed, with a log each.
for kind in brief fails_once; do
  anew; STUB=$kind; tried=$((tried + 2)); one=0 two=0
  "$checkout/gthost" build >"$work/one" 2>"$work/one.err" </dev/null &
  first=$!
  sleep 0.7
  "$checkout/gthost" build >"$work/out" 2>"$work/err" </dev/null &
  second=$!
  wait "$first" || one=$?
  wait "$second" || two=$?
  has 'the second of two' err 'another run builds; waiting'
  has 'the second of two' err '^gthost: built: '
  [ "$two" -eq 0 ] || wrong "the second of two: status $two"
  case "$kind:$one" in brief:0) builds 'two at once' 1 ;; fails_once:1) builds 'the second after a failure' 2 ;; *) wrong "the first of two: status $one" ;; esac
done
[ "$(find "$out" -name 'build-*.log' | wc -l)" -eq 2 ] || wrong 'two builds have not a log each'

# A checkout that can't be written, for a user who is not root.
anew; chmod -R a-w "$checkout"
if [ "$(id -u)" -eq 0 ]; then as=(setpriv --reuid=65534 --regid=65534 --clear-groups); fi
try 'a read-only checkout' 1 build; has 'a read-only checkout' err 'cannot write to .*/out \(Permission denied\)'; lines 'a read-only checkout' 1
stored --help; try 'help in it' 0 --help; same 'help in it' out "$work/stored"
as=(env); anew
try 'a build before it' 0 build; chmod -R a-w "$checkout"
if [ "$(id -u)" -eq 0 ]; then as=(setpriv --reuid=65534 --regid=65534 --clear-groups); fi
try 'a built checkout, read-only' 3 play x; lines 'a built checkout, read-only' 0
as=(env)

# A disk without room, where this user may mount one.
anew
if unshare -m true 2>/dev/null; then
  cat >"$work/in_full" <<'FULL'
mount -t tmpfs -o size=64k none "$1/crates/gthost/out" && head -c 70000 /dev/zero >"$1/crates/gthost/out/zeros" 2>/dev/null
exec "$1/gthost" build
FULL
  mkdir "$out"; tried=$((tried + 1)); status=0
  unshare -m bash "$work/in_full" "$checkout" >"$work/out" 2>"$work/err" </dev/null || status=$?
  [ "$status" -eq 1 ] || wrong "no room: status $status"
  has 'no room' err 'the disk is full|No space left'
else
  echo "not tried: a disk without room (no leave to mount one)"
fi

anew

# The library: how far it is on standard error, and what rt prints in a log alone.
cat >"$checkout/tools/library.sh" <<'LIBRARY'
#!/bin/sh
echo "error: a line of rt"
if [ "$STUB" = fails ]; then exit 1; fi
mkdir -p "$1" && : >"$1/libgthost.a"
LIBRARY
chmod 755 "$checkout/tools/library.sh"
try 'a library' 0 library "$work/library"; lines 'a library' 2
has 'a library' err 'proving and building the library: 0 of [0-9]+ crates, about [0-9]+ min on idle processors; log: .*/build-[0-9]+\.log'
has 'a library' err 'built: .*/library/libgthost.a'; [ -e "$work/library/libgthost.a" ] || wrong 'a library: it is not there'
STUB=fails; try 'no library' 1 library "$work/library"; has 'no library' err 'the library was not built; log: '
try 'a library of no folder' 2 library; has 'a library of no folder' err 'usage: ./gthost library DIR'
anew

# Installing.
try 'an installation' 0 install "$work/prefix"; has 'an installation' err 'proving and building'; has 'an installation' err "installed $work/prefix/bin/gthost.* cd $work/prefix/share/gthost && gthost play examples/first.gt$"
for file in bin/gthost libexec/gthost share/man/man1/gthost.1 share/bash-completion/completions/gthost share/zsh/site-functions/_gthost \
  share/fish/vendor_completions.d/gthost.fish share/gthost/examples/first.gt; do
  [ -s "$work/prefix/$file" ] || wrong "an installation: no $file"
done
cmp -s "$out/gthost" "$work/prefix/libexec/gthost" || wrong 'an installation: another program'
ln -s "$work/prefix/bin/gthost" "$work/linked"
for command in "$work/prefix/bin/gthost" "$work/linked" "$checkout/gthost"; do
  for words in 'play x' 'explore x' 'explore -v x'; do
    tried=$((tried + 1)) status=0
    # shellcheck disable=SC2086
    "$command" $words >"$work/out" 2>"$work/err" </dev/null || status=$?
    [ "$status" -eq 3 ] || wrong "$words: status $status"
    has "$words" out "^the program: $words$"; lines "$words" 0
  done
  tried=$((tried + 1))
  echo 'a script' | "$command" explore - >"$work/out" 2>"$work/err" || true
  has 'a search of the standard input' out '^a script$'
done

# SIGINT ends a search with the texts found, for the group as of a terminal and for the shell alone; a second one, and
# another signal, end the program. Nothing goes on, and no file is left.
signals() {
  local wanted="$1" first="$2" second="$3"
  shift 3
  tried=$((tried + 1)) status=0
  rm -rf "$work/children" "$work/temporary" && mkdir "$work/temporary"
  TMPDIR="$work/temporary" setsid env --default-signal="$first" "$@" >"$work/out" 2>"$work/err" </dev/null &
  launcher=$!
  until [ -s "$work/children" ]; do sleep 0.05; done
  kill -s "$first" -- "$launcher_sign$launcher"
  if [ -n "$second" ]; then sleep 0.2 && kill -s "$second" -- "$launcher_sign$launcher"; fi
  wait "$launcher" 2>/dev/null || status=$?
  [ "$status" -eq "$wanted" ] || wrong "$first $second in a search: status $status"
  for _ in $(seq 20); do is_alive || pgrep -s "$launcher" >/dev/null || break; sleep 0.1; done
  if is_alive; then wrong "$first $second in a search: the program goes on"; fi
  ! pgrep -s "$launcher" >/dev/null || wrong "$first $second in a search: something goes on"
  [ -z "$(ls -A "$work/temporary")" ] || wrong "$first $second in a search: a file is left"
}
STUB=searches
for command in "$work/prefix/bin/gthost" "$checkout/gthost"; do
  for ((i = 0; i < 20; i++)); do
    launcher_sign='-'
    if [ $((i % 4)) -eq 3 ]; then launcher_sign=''; fi
    signals 2 INT '' "$command" explore x; has 'SIGINT in a search' out '^the texts found$'; lines 'SIGINT in a search' 0
  done
  launcher_sign='-'
  signals 130 INT INT "$command" explore goes_on
  for signal in TERM HUP; do signals $((128 + $(kill -l "$signal"))) "$signal" '' "$command" explore goes_on; done
done
STUB=good
try 'a second installation' 0 install "$work/prefix"; lines 'a second installation' 1
# The version has the commit: that of the checkout, and after an installation that of the program.
if command -v git >/dev/null; then
  git init -q "$checkout"
  git -C "$checkout" -c user.name=a -c user.email=a@a commit -q --allow-empty -m a
  try 'the version in a repository' 0 --version; has 'the version in a repository' out '^commit [0-9a-f]{12}$'
  try 'an installation of a repository' 0 install "$work/prefix"
  for word in --version -V; do
    tried=$((tried + 1)) status=0
    "$work/prefix/bin/gthost" "$word" >"$work/out" 2>"$work/err" </dev/null || status=$?
    [ "$status" -eq 3 ] || wrong "$word of an installation: status $status"
    has "$word of an installation" out '^commit [0-9a-f]{12}$'
    [ "$(sed -n 1p "$work/out")" = 'the program: --version' ] || wrong "$word of an installation: another first line"
  done
  rm -rf "$checkout/.git"
fi
try 'no folder to install below' 1 install "$work/out"; has 'no folder to install below' err 'cannot write .*Not a directory'; lines 'no folder to install below' 1

# What bash offers: for the words, the last of which is being typed.
# shellcheck disable=SC1091
source "$top/contrib/completions/gthost.bash"
offers() {
  local wanted="$1"
  shift
  COMP_WORDS=("$@") COMP_CWORD=$(($# - 1)) COMPREPLY=() tried=$((tried + 1))
  _gthost "$1"
  printf '%s\n' "${COMPREPLY[*]}" >"$work/out"
  : >"$work/err"
  [[ " ${COMPREPLY[*]} " == *" $wanted "* ]] || wrong "completions of $*"
}
offers 'help' gthost he
offers 'build' "$top/gthost" bu
offers 'policy' gthost -v pol
offers 'explore' gthost help e
offers '--audit' gthost -v play --a
offers 'all' gthost explore --witness ''
offers 'n19' gthost rules n1
offers '19' gthost rules 1
offers 'N19' gthost rules ''
offers 'query' gthost why a_t b_t q
[ "${COMPREPLY[*]}" = query ] || wrong 'completions of a permission'
offers 'json' gthost run --format j
COMP_WORDS=(gthost explore --trace '') COMP_CWORD=3; _gthost gthost
[ "${#COMPREPLY[@]}" -eq 0 ] || wrong 'completions of a number'

# The estimate of a first build, on machines as fast as that of docs/GATE.md and slower: whenever a tenth of the crates or
# more is done, it is right within a third. The build that it is asked about takes the crates in another order, those of
# the longest chains first, and each takes up to a fifth more or less than its row.
fake_build() {
  awk -v name=gthost -v lanes=4 -v slow="$1" '
    /^[a-z]/ { crate = $1; sub(/:$/, "", crate); words = $0; sub(/^[^:]*:/, "", words); deps[crate] = words; cost[crate] = 60 }
    /^\| [a-z_]+ \| [0-9]+ \|/ { if ($2 in cost) cost[$2] = $4 }
    function below(crate,    parts, n, i) {
      if ((crate in is_below) || !(crate in deps)) return
      is_below[crate] = 1
      n = split(deps[crate], parts, " ")
      for (i = 1; i <= n; i++) { uses[crate, parts[i]] = 1; below(parts[i]) }
    }
    function chain(crate,    other, most) {
      if (crate in chains) return chains[crate]
      for (other in is_below) if (((other, crate) in uses) && chain(other) > most) most = chain(other)
      return chains[crate] = most + cost[crate]
    }
    function is_ready(crate,    other) {
      for (other in is_below) if (((crate, other) in uses) && !(other in is_done)) return 0
      return 1
    }
    END {
      below(name)
      srand(7)
      for (crate in is_below) cost[crate] *= slow * 1.2 * (0.8 + 0.4 * rand())
      free = lanes
      while (1) {
        for (; free > 0; free--) {
          best = ""
          for (crate in is_below)
            if (!(crate in until) && is_ready(crate) && (best == "" || chain(crate) > chain(best))) best = crate
          if (best == "") break
          until[best] = time + cost[best]
        }
        best = ""
        for (crate in until) if (!(crate in is_done) && (best == "" || until[crate] < until[best])) best = crate
        if (best == "") exit
        time = until[best]
        is_done[best] = 1
        free++
        print int(time), best
      }
    }' "$top/crates.txt" "$top/docs/GATE.md"
}
for slow in 1 2 3; do
  fake_build "$slow" >"$work/fake"
  whole="$(tail -n 1 "$work/fake" | cut -d ' ' -f 1)" count="$(wc -l <"$work/fake")" tried=$((tried + 1))
  for ((part = 10; part <= 100; part += 5)); do
    at="$(sed -n "$(((count * part + 99) / 100))p" "$work/fake" | cut -d ' ' -f 1)"
    now="$(awk -v at="$at" '$1 <= at { printf "%s=1 ", $2 }' "$work/fake")"
    awk -v name=gthost -v lanes=4 -v seconds="$at" -v changed='' -v then='' -v now="$now" -f "$top/tools/progress.awk" \
      "$top/crates.txt" "$top/docs/GATE.md" >"$work/out"
    more="$(sed -nE 's/.*about ([0-9]+) min more$/\1/p' "$work/out")"
    awk -v told="$((at + more * 60))" -v whole="$whole" 'BEGIN { exit !(told * 3 > whole * 2 && told * 3 < whole * 4) }' ||
      { : >"$work/err"; wrong "an estimate at $part of 100 crates, $slow times as slow: $((at + more * 60)) of $whole s"; }
  done
done

if [ "${1-}" = kit ]; then
  PATH="$path" tried=$((tried + 2)) status=0
  "$top/gthost" play "$top/examples/first.gt" >"$work/out" 2>"$work/err" </dev/null || status=$?
  [ "$status" -eq 0 ] || wrong "a run of the kit: status $status"
  stored 'play first.gt'; same 'a run of the kit' out "$work/stored"
  status=0
  "$top/gthost" tour >"$work/out" 2>"$work/err" </dev/null || status=$?
  [ "$status" -eq 0 ] || wrong "a tour of the kit: status $status"
fi

echo "$tried runs of the launcher, $failed wrong"
[ "$failed" -eq 0 ]
