#!/usr/bin/env python3
"""Counts the functions of the product, and those that have a contract: an `ensures` of their own, or of the trait that
their `impl` is for. Tests, cases, benchmarks and the example don't count.

usage: tools/contracts.py             prints the counts by crate
       tools/contracts.py --check     fails if README.md gives another number"""
import os, re, sys

TOP = os.path.join(os.path.dirname(os.path.abspath(__file__)), "..")
APART = ("test_", "cases_", "bench", "share")
HEAD = re.compile(r"^(\s*)(?:pub(?:\([^)]*\))? )?(?:const )?(?:unsafe )?(?:extern \"C\" )?fn (\w+)")


def functions(path):
    """Each function with a body: whether it has a contract."""
    with open(path, encoding="utf-8") as file:
        lines = file.read().split("\n")
    traits = []  # the ends of `impl Trait for ..` blocks, by their indentation
    for number, line in enumerate(lines):
        traits = [indent for indent in traits if not (line.startswith(indent + "}") and line.strip() == "}")]
        block = re.match(r"^(\s*)(?:unsafe )?impl\b.*\bfor\b.*\{\s*$", line)
        if block and not line.rstrip().endswith("}"):
            traits.append(block.group(1))
        head = HEAD.match(line)
        if not head:
            continue
        contract = False
        for below in lines[number:]:
            if re.search(r"\bensures\b", below):
                contract = True
            if re.match(rf"^{head.group(1)}\{{", below) or below.rstrip().endswith(("{", "{}")) and "ensures" not in below \
                    and "requires" not in below and not below.lstrip().startswith("//"):
                yield contract or bool(traits)
                break
            if below.rstrip().endswith(";"):
                break  # a declaration in a trait


def main():
    total = promised = 0
    for crate in sorted(os.listdir(f"{TOP}/crates")):
        if crate.startswith(APART) or not os.path.isdir(f"{TOP}/crates/{crate}/src"):
            continue
        found = [each for folder, _, names in os.walk(f"{TOP}/crates/{crate}/src") for name in names
                 if name.endswith(".rt") for each in functions(os.path.join(folder, name))]
        total, promised = total + len(found), promised + sum(found)
        if sys.argv[1:] != ["--check"]:
            print(f"{crate:20} {len(found):5} functions, {sum(found):5} with a contract")
    share = 100 * promised // total
    print(f"contracts: {total} functions, {promised} with a contract, {share} in 100")
    if sys.argv[1:] == ["--check"]:
        with open(f"{TOP}/README.md", encoding="utf-8") as file:
            text = " ".join(file.read().split())
        for wanted in (f"More than {(total - 1) // 100 * 100:,} functions", f"{share} in 100 of them have a contract"):
            if wanted not in text:
                sys.exit(f"contracts: README.md does not have '{wanted}'")


main()
