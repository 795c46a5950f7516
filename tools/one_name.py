#!/usr/bin/env python3
"""Checks that a definition's name is declared in the specs of one crate only, so that a page can name it without its
crate. Fields, constructors and the lemmas of one file (those that are not `pub`) are not looked at.

usage: tools/one_name.py

Prints each name that two or more crates declare, with the files. The exit status is 1 if there is one.
"""
import collections
import pathlib
import re
import sys

# `do` continues by the operator of this name that is in scope: for results in the grammar of policies, and for options
# in that of scripts.
MAY = {"◌>>=◌"}
DECLARED = re.compile(r"(?:(?:abbrev|pub|unfoldable|opaque|inline|record|data|class) +)+(?!(?:use|mod|pub) )([^\s:(){}]+)")


def declared(path):
    """Yields the names that a file declares at the left, or in a module at its depth."""
    depth = 0
    for line in path.read_text(encoding="utf-8").split("\n"):
        text = line.lstrip(" ")
        indent = len(line) - len(text)
        if not text or text.startswith("--"):
            continue
        depth = min(depth, indent // 2)
        if text.startswith("module "):
            depth += 1
        elif indent == 2 * depth and (found := DECLARED.match(text)):
            yield found[1]


def main():
    top = pathlib.Path(__file__).resolve().parent.parent / "crates"
    places = collections.defaultdict(set)
    for path in sorted(top.glob("*/specs/**/*.antt")):
        for name in declared(path):
            places[name].add(path.relative_to(top))
    twice = [name for name in sorted(places) if len({path.parts[0] for path in places[name]}) > 1 and name not in MAY]
    for name in twice:
        print(name, "is declared in", " and in ".join(map(str, sorted(places[name]))))
    print(len(places), "names of definitions,", len(twice), "of them in two crates or more")
    return 1 if twice else 0


if __name__ == "__main__":
    sys.exit(main())
