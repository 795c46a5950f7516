#!/usr/bin/env python3
"""Lists the functions that the sources call `#[inline(always)]` and that a built program or library has by themselves.

The compiler drops the hint of a function that would grow large, and says nothing. Then its arguments and its answer go
through memory, which costs more than the call. A function of the list below has a reason to be called; any other that
is found fails.

usage: tools/inlined.py FILE..        FILE: a built program, or libgthost.a
"""

import pathlib
import re
import subprocess
import sys

TOP = pathlib.Path(__file__).resolve().parent.parent
CALLED = {}


def functions_of(path):
    """The functions of a source file with the hint: the names of crate and modules, of the type if any, and its own."""
    crate, *modules = path.relative_to(TOP / "crates").with_suffix("").parts
    modules = [crate] + [it for it in modules[1:] if it not in ("lib", "main")]
    owner, hinted = None, False
    for line in path.read_text(encoding="utf-8").splitlines():
        head = re.match(r"(?:unsafe )?(?:impl\b(?:<[^{]*?>)? (?:.* for )?|pub trait |trait )(?:\w+::)*(\w+)", line)
        if head:
            owner = head[1]
        elif line.startswith("}"):
            owner = None
        hinted = hinted or line.strip() == "#[inline(always)]"
        name = re.match(r"\s*(?:pub(?:\([^)]*\))? )?(?:const )?(?:unsafe )?(?:extern \"C\" )?fn (\w+)", line)
        if name:
            if hinted:
                yield modules, owner, name[1]
            hinted = False


def symbols_of(file):
    """The functions that a file defines, each by the names that lead to it."""
    made = subprocess.run(["nm", "--defined-only", file], check=True, capture_output=True, text=True).stdout
    names = {line.split(" ", 2)[2] for line in made.splitlines() if re.match(r"\S* [tTwW] ", line)}
    return [re.sub(r"(::)?<#\w+>", "", it).split("::") for it in sorted(names)]


def is_of(symbol, modules, owner, name):
    if symbol[0] != modules[0] or symbol[-1] != name:
        return False
    return owner in symbol if owner else symbol[:-1] == modules


def main(files):
    if not files:
        print(__doc__.strip().splitlines()[-1], file=sys.stderr)
        return 2
    hinted = [it for path in sorted((TOP / "crates").glob("*/src/**/*.rt")) for it in functions_of(path)]
    symbols = [it for file in files for it in symbols_of(file)]
    crates = {it[0] for it in symbols}
    found = {"::".join(symbol) for symbol in symbols for it in hinted if is_of(symbol, *it)}
    for name in sorted(found - set(CALLED)):
        print(f"{name} is `inline(always)`, and a function of its own", file=sys.stderr)
    inlined = sum(modules[0] in crates for modules, _, _ in hinted)
    print(f"{inlined} functions are `inline(always)`; {len(found)} stand alone, {len(found & set(CALLED))} with a reason")
    return 1 if found - set(CALLED) else 0


if __name__ == "__main__":
    sys.exit(main(sys.argv[1:]))
