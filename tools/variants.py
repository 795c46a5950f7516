#!/usr/bin/env python3
"""Sees that specs, proofs and clauses call a constructor by the name of its type's variant, that the variants of a type
have the same alias in all files, which means no other type, and that no Prelude.antt gives a name another one.
usage: tools/variants.py"""
import collections
import pathlib
import re
import sys

CRATES = pathlib.Path(__file__).resolve().parent.parent / "crates"
USE = re.compile(r"^ *(?:unfoldable )?(pub )?(?:ghost )?use (Rattle\.[^\s{;]+?)(?:\.\{(.*)\})?(?: as (\S+?))?;?$", re.M)
aliases, meanings, passed, renamed, bad = collections.defaultdict(set), collections.defaultdict(set), {}, [], []
for path in sorted([*CRATES.glob("*/*/**/*.antt"), *CRATES.glob("*/src/**/*.rt")]):
    where = path.relative_to(CRATES)
    if where.parts[1] == "out":
        continue
    for public, source, items, alias in USE.findall(path.read_text(encoding="utf-8")):
        if source.endswith(".TheVariants") and not items:
            aliases[source].add(alias)
            meanings[alias].add(source)
        for item in filter(None, (x.strip() for x in items.split(","))):
            name, _, other = item.partition(" as ")
            if public:
                module = ".".join(["Rattle", *where.with_suffix("").parts])
                passed[module, other or name.rsplit(".", 1)[-1]] = f"{source}.{name}"
            if other:
                renamed.append((where, f"{source}.{name}", other))
for where, first, other in renamed:
    name = first
    while tuple(name.rsplit(".", 1)) in passed:  # a module passes it on
        name = passed[tuple(name.rsplit(".", 1))]
    if ".TheVariants." in name and name.rsplit(".", 1)[-1] != other:
        bad.append(f"{where}: the constructor {name} under another name, {other}")
    elif where.name == "Prelude.antt" and "◌" not in other:
        bad.append(f"{where}: passes {first} on under another name, {other}")
bad += [f"{x} has several aliases: {', '.join(sorted(y))}" for x, y in aliases.items() if len(y) > 1]
bad += [f"{x} means several types: {', '.join(sorted(y))}" for x, y in meanings.items() if len(y) > 1]
print("\n".join([*bad, f"{len(aliases)} types with an alias of their variants, {len(bad)} names to mend"]))
sys.exit(bool(bad))
