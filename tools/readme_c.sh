#!/usr/bin/env bash
# Compiles the C of README.md and of crates/gt_c/README.md against include/gthost.h, where there is a C compiler. A block
# without `main` becomes the body of a function that has `domain`, the handles of two domains, and `answer`.
# usage: tools/readme_c.sh
set -euo pipefail
cd "$(dirname "${BASH_SOURCE[0]}")/.."
compiler="${CC:-cc}"
if ! command -v "$compiler" >/dev/null; then
  echo "the C of the pages is not compiled: there is no $compiler"
  exit 0
fi
work="$(mktemp -d)"
trap 'rm -rf "$work"' EXIT
blocks=0 wrong=0
for page in README.md crates/gt_c/README.md; do
  rm -f "$work"/block*
  awk -v prefix="$work/block" '/^```c$/ { on = 1; n++; next } /^```$/ { on = 0 } on { print > (prefix n ".c") }' "$page"
  for block in "$work"/block*.c; do
    [ -e "$block" ] || continue
    blocks=$((blocks + 1))
    if ! grep -q '\bmain(' "$block"; then
      {
        printf '#include "gthost.h"\nvoid worked(struct gthost_domain *domain, struct gthost_answer answer);\n'
        printf 'void worked(struct gthost_domain *domain, struct gthost_answer answer)\n{\n(void)domain;\n(void)answer;\n{\n'
        cat "$block"
        printf '}\n}\n'
      } >"$block.whole"
      mv "$block.whole" "$block"
    fi
    if ! "$compiler" -std=c11 -Wall -Wextra -Werror -Wno-unused-variable -Wno-unused-but-set-variable -Wno-unused-but-set-parameter \
      -Iinclude -c "$block" -o "$work/block.o" 2>"$work/said"; then
      echo "$page: C that does not compile:"
      cat "$work/said"
      wrong=$((wrong + 1))
    fi
  done
done
echo "$blocks blocks of C, $wrong wrong"
[ "$wrong" -eq 0 ]
