#!/usr/bin/env bash
# bench/c.sh [LISTS [SEED]]: builds the static library for C, and tries it in C, C++ and Rust.
#
#   header    gthost.h compiles as C99 and C++, says what the exports say, and tests each pointer before it passes it on
#             (tools/header.py)
#   vmm       the program of crates/gt_c/README.md, linked as pkg-config says; the C of README.md, in a function
#   rules     gthost_rule_text gives the lines of `gthost rules`
#   smoke     each answer of a short run is as the rules give it; each call of a handle of no domain and of a null pointer
#   memory    which calls take memory, and each allocation of a start failing in turn
#   blk       the split block driver of examples/blk, with its hostile back end (where Xen's headers are installed)
#   xen_front a guest that grants by stores into its own table, and a back end: examples/xen_front
#   threads   four threads on one monitor
#   renew     a reference is worn three times, and mappings live through each renewal of their run (gthost_renew.h)
#   xengnttab the libraries of contrib/xengnttab: a network pair, libxenvchan unmodified, and its calls as a script
#             (where libxen-dev is installed; VCHAN=DIR has what contrib/xengnttab/fetch.sh fetched, else it is fetched)
#   rust      the wrapper of contrib/rust, its tests, and the program of its README (where there is a rustc)
#   lists     LISTS random lists of calls (10,000) get the answers and the audit of `gthost play`
#
# All C is compiled with -Wall -Wextra -Wpedantic -Werror by each of gcc and clang that there is. smoke, memory, blk,
# xen_front, threads, renew, xengnttab and 200 of the lists run under AddressSanitizer and UBSan too, blk, xen_front, threads
# and xengnttab under ThreadSanitizer, where the compiler has them. The sanitizers see the C side: the library is compiled
# by its own compiler.
# LIBRARY=DIR takes the library from DIR, where `./gthost library` left it, and PROGRAM=FILE the built program gthost.
set -euo pipefail
cd "$(dirname "$0")/.."
lists="${1:-10000}"
seed="${2:-1}"
work="$(mktemp -d)"
trap 'rm -rf "$work"' EXIT
warnings=(-Wall -Wextra -Wpedantic -Werror)
wrapped=("-Wl,--wrap=malloc" "-Wl,--wrap=realloc" "-Wl,--wrap=free")

library="${LIBRARY:-}"
if [ -z "$library" ]; then
  library="$work/library"
  ./tools/library.sh "$library" >"$work/log" 2>&1 || { cat "$work/log"; exit 1; }
fi
archive="$library/libgthost.a"
xen=no
! printf '#include <xen/io/blkif.h>\n' | "${CC:-cc}" -include stdint.h -include string.h -E - >/dev/null 2>&1 || xen=yes

# build COMPILER NAME FLAG..: a program of bench/c, or of examples
build() {
  local compiler="$1" name="$2" files=("bench/c/$2.c") flags=()
  shift 2
  [ ! -d "examples/$name" ] || files=("examples/$name"/*.c)
  [ "$name" != memory ] || flags=("${wrapped[@]}")
  "$compiler" -std=c11 "${warnings[@]}" -pthread -I"$library" "$@" "${files[@]}" "$archive" "${flags[@]}" -o "$work/$name"
}

# Whether a compiler has these sanitizers, and what it builds with them runs here.
has() {
  printf 'int main(void) { return 0; }\n' | "$1" "-fsanitize=$2" -x c - -o "$work/has" 2>/dev/null && "$work/has" 2>/dev/null
}

headers() {
  printf '#include "gthost.h"\n#include "gthost_renew.h"\nint main(void) { return 0; }\n' | tee "$work/only.c" >"$work/only.cpp"
  "$1" -std=c99 "${warnings[@]}" -I"$library" -c "$work/only.c" -o "$work/only.o"
  local cxx="${1/gcc/g++}"
  cxx="${cxx/clang/clang++}"
  ! command -v "$cxx" >/dev/null || "$cxx" "${warnings[@]}" -I"$library" -c "$work/only.cpp" -o "$work/only.o"
  python3 tools/header.py >"$work/header.c"
  "$1" -std=c11 "${warnings[@]}" -I"$library" -c "$work/header.c" -o "$work/header.o"
}

# The code of a language in a page.
block() {
  awk -v "first=^\`\`\`$1\$" '$0 ~ first { inside = 1; next } /^```$/ { inside = 0 } inside' "$2"
}

vmm() {
  local flags=("-I$library" "$archive")
  ! command -v pkg-config >/dev/null || read -ra flags <<<"$(PKG_CONFIG_PATH="$library" pkg-config --cflags --libs gthost)"
  block c crates/gt_c/README.md >"$work/vmm.c"
  "$1" -std=c99 "${warnings[@]}" "$work/vmm.c" "${flags[@]}" -o "$work/vmm"
  "$work/vmm"
  # the lines of README.md stand in a program
  {
    printf '#include "gthost.h"\nvoid lines(struct gthost_domain *domain);\nvoid lines(struct gthost_domain *domain)\n{\n'
    block c README.md
    printf '(void)answer;\n}\n'
  } >"$work/lines.c"
  "$1" -std=c99 "${warnings[@]}" -I"$library" -c "$work/lines.c" -o "$work/lines.o"
}

programs=(smoke memory threads xen_front renew)
[ "$xen" = no ] || programs+=(blk)

# What a program is run with: fewer rounds under a sanitizer.
words_of() {
  case "$1 $2" in
    "blk plain") echo 20000 ;;
    "blk "*) echo 2000 ;;
    "xen_front plain") echo 100000 ;;
    "xen_front "*) echo 5000 ;;
    "renew plain") echo 3 ;;
    "renew "*) echo 1 ;;
    "threads plain") echo 1000000 ;;
    "threads "*) echo 50000 ;;
    *) echo ;;
  esac
}

run_all() {
  local compiler="$1" kind="$2" name words
  shift 2
  for name in "${programs[@]}"; do
    [ "$kind" != thread ] || [[ " blk xen_front threads " = *" $name "* ]] || continue
    build "$compiler" "$name" "$@"
    read -ra words <<<"$(words_of "$name" "$kind")"
    "$work/$name" "${words[@]}" >"$work/said" || { cat "$work/said"; echo "$compiler, $kind: $name FAILED"; exit 1; }
    [ "$kind" != plain ] || cat "$work/said"
  done
  echo "$compiler, $kind: ${programs[*]} ok"
}

# The sources of libxenvchan, if the headers for it are here.
vchan="${VCHAN:-}"
bench=no
! printf '#include <xengnttab.h>\n#include <libxenvchan.h>\n' | "${CC:-cc}" -E - >/dev/null 2>&1 || bench=yes
if [ "$bench" = yes ] && [ -z "$vchan" ]; then
  vchan="$work/libxenvchan"
  contrib/xengnttab/fetch.sh "$vchan" >"$work/log" 2>&1 ||
    { echo "not tried: libxenvchan (its sources can't be fetched)" && vchan=; }
fi

# The libraries for drivers, and their tests.
drivers() {
  local compiler="$1" kind="$2" out="$work/xg-$1-$2" small=2000000 packets=100000
  shift 2
  [ "$bench" = yes ] || return 0
  [ "$kind" = plain ] || { small=100000 packets=5000; }
  make -s -j 4 -C contrib/xengnttab GTHOST="$library" OUT="$out" CC="$compiler" CFLAGS="$*" ${vchan:+VCHAN="$vchan"} tests
  # Xen's rings are read and written by plain accesses with barriers. Where both sides have the page at one address,
  # ThreadSanitizer reports that.
  local run=("$out/first") mode modes=(remap direct) words
  [ "$kind" != thread ] || modes=(remap)
  for mode in "${modes[@]}"; do
    run+=("$out/net $mode $packets")
    [ -z "$vchan" ] || run+=("$out/vchan $mode $small")
  done
  [ -z "$vchan" ] || run+=("$out/trace $out/calls.gt $out/answers")
  for words in "${run[@]}"; do
    # shellcheck disable=SC2086
    $words >"$work/said" 2>&1 || { cat "$work/said"; echo "$compiler, $kind: $words FAILED"; exit 1; }
  done
  echo "$compiler, $kind: xengnttab ok"
}

for compiler in ${CC:-gcc clang}; do
  command -v "$compiler" >/dev/null || continue
  headers "$compiler"
  vmm "$compiler"
  run_all "$compiler" plain -O2
  drivers "$compiler" plain -O2
  sanitized=(-g -O1 -fsanitize=address,undefined -fno-sanitize-recover=all)
  if has "$compiler" address,undefined; then
    run_all "$compiler" address "${sanitized[@]}"
    drivers "$compiler" address "${sanitized[@]}"
  fi
  if has "$compiler" thread; then
    run_all "$compiler" thread -g -O1 -fsanitize=thread
    drivers "$compiler" thread -g -O1 -fsanitize=thread
  fi
  last="$compiler"
done

if command -v rustc >/dev/null; then
  rustc --edition 2021 -O -D warnings --crate-type rlib --crate-name gthost -L "native=$library" -o "$work/libgthost.rlib" contrib/rust/src/lib.rs
  rustc --edition 2021 -D warnings --test --extern "gthost=$work/libgthost.rlib" -L "native=$library" -o "$work/share" contrib/rust/tests/share.rs
  "$work/share" -q
  block rust contrib/rust/README.md >"$work/readme.rs"
  rustc --edition 2021 -D warnings --extern "gthost=$work/libgthost.rlib" -L "native=$library" -o "$work/readme" "$work/readme.rs"
  "$work/readme"
fi

play="${PROGRAM:-}"
if [ -z "$play" ]; then
  ./gthost --version >/dev/null # builds it, where that is not done yet
  ./gthost play examples/first.gt >/dev/null
  play=crates/gthost/out/gthost
fi
cat >"$work/rules.c" <<'C'
#include "gthost.h"
#include <stdio.h>
int main(void)
{
    for (uint32_t rule = GTHOST_N1; rule <= GTHOST_N26; rule++) {
        puts((const char *)gthost_rule_text(rule).bytes);
    }
    return 0;
}
C
"$last" -std=c99 "${warnings[@]}" -I"$library" "$work/rules.c" "$archive" -o "$work/rules"
"$work/rules" >"$work/said"
"$play" rules | diff - "$work/said"
if [ "$bench" = yes ] && [ -n "$vchan" ]; then # the calls of libxenvchan as a script: the program gives the same answers
  "$play" play "$work/xg-$last-plain/calls.gt" | sed -E 's/ source=.*//' | diff "$work/xg-$last-plain/answers" -
fi
build "$last" lists -O2
python3 bench/lists.py "$play" "$work/lists" "$lists" "$seed"
if has "$last" address,undefined; then
  build "$last" lists -g -O1 -fsanitize=address,undefined -fno-sanitize-recover=all
  python3 bench/lists.py "$play" "$work/lists" 200 "$((seed + 1))"
fi
