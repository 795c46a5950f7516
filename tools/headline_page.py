#!/usr/bin/env python3
"""Prints the definitions that the headline rests on, and no others, with the types that they name: one page, each
file after those that it uses.

usage: tools/headline_page.py            prints the page
       tools/headline_page.py --check    fails if a definition lies outside gt_model and gt_types

A name in a definition is followed through imports, other names (`as`) and what files pass on (`pub use`)."""
import collections, os, re, sys

ROOTS = [("Rattle.gt_model.specs.Legal", "Legal"), ("Rattle.gt_model.specs.History", "setting_of")]
HOMES = ("gt_model", "gt_types")
TOP = os.path.join(os.path.dirname(os.path.abspath(__file__)), "..")

IMPORT = re.compile(r"^(?:unfoldable )?(pub )?use (Rattle\.[^\s{]+?)(?:\.\{(.*)\})?(?: as (\S+))?$")
HEAD = re.compile(r"^(?:(?:pub|abbrev|unfoldable|opaque|record|data|class)\s+)+([^\s:({]+)")


def read(path):
    with open(path, encoding="utf-8") as file:
        return file.read()


class File:
    """One file of definitions: what it imports, what it passes on, and the lines of each definition."""

    def __init__(self, path):
        self.path, self.imports, self.passed, self.definitions = path, {}, {}, {}
        self.lines = read(path).split("\n")
        comment = name = None
        for number, line in enumerate(self.lines):
            found = IMPORT.match(line)
            if found:
                name = None
                self.take(*found.groups())
            elif line.startswith("--"):
                name, comment = None, number if comment is None else comment
            elif not line.strip():
                comment = None
            elif not line[0].isspace():
                head = HEAD.match(line)
                if head:
                    name = head.group(1)
                    self.definitions.setdefault(name, []).append([number if comment is None else comment, number])
                comment = None
            if name and line.strip():
                self.definitions[name][-1][1] = number

    def take(self, public, module, names, alias):
        items = [(module, None, alias or module.rsplit(".", 1)[-1])]
        if names is not None:
            items = []
            for item in filter(None, (item.strip() for item in names.split(","))):
                path, _, other = item.partition(" as ")
                at, name = f"{module}.{path.strip()}".rsplit(".", 1)
                items.append((at, name, other.strip() or name))
        for at, name, here in items:
            self.imports[here] = (at, name)
            if public:
                self.passed[here] = (at, name)

    def text(self, name):
        return "\n".join("\n".join(self.lines[first : last + 1]) for first, last in self.definitions[name])


def read_all():
    files = {}
    for crate in sorted(os.listdir(f"{TOP}/crates")):
        for folder, _, names in os.walk(f"{TOP}/crates/{crate}/specs"):
            for name in names:
                if name.endswith(".antt"):
                    path = os.path.join(folder, name)
                    inner = os.path.relpath(path, f"{TOP}/crates/{crate}/specs")[:-5].replace("/", ".")
                    files[f"Rattle.{crate}.specs.{inner}"] = File(path)
    return files


def origin(files, module, name):
    """The file that declares a name, or the crate and path of a declared type."""
    while module in files and name not in files[module].definitions and name in files[module].passed:
        module, name = files[module].passed[name]
    if name is None:
        module, _, name = module.rpartition(".")
    crate, _, path = f"{module}.{name}".removeprefix("Rattle.").partition(".specs.declared.")
    return ("type", crate, path) if path else ("definition", module, name)


def uses(files, module, name):
    """What a definition names, apart from std."""
    text = re.sub(r"--.*", "", files[module].text(name))
    for word in set(re.split(r"[\s(){}\[\],;λ=:→]+", text)):
        for part in {word, *word.split(".")}:
            if part in files[module].definitions:
                yield ("definition", module, part)
            elif part in files[module].imports:
                yield origin(files, *files[module].imports[part])


def closure(files):
    seen, types, waiting = set(), set(), list(ROOTS)
    while waiting:
        at = waiting.pop()
        if at in seen:
            continue
        if at[0] not in files or at[1] not in files[at[0]].definitions:
            sys.exit(f"headline_page: no definition {at[1]} in {at[0]}")
        seen.add(at)
        for kind, home, name in uses(files, *at):
            if kind == "type":
                types.add((home, name))
            elif home in files and name in files[home].definitions:
                waiting.append((home, name))
    return seen, types


def in_order(files, seen):
    """The files of these definitions, each after those that it uses."""
    needs = collections.defaultdict(set)
    for module, name in seen:
        needs[module] |= {u[1] for u in uses(files, module, name) if u[0] == "definition" and u[1:] in seen}
    order = []

    def visit(module):
        if module not in order and module not in open_now:
            open_now.append(module)
            for below in sorted(needs[module]):
                visit(below)
            order.append(module)

    open_now = []
    for module in sorted(needs):
        visit(module)
    return order


def type_text(crate, path):
    """The source of a struct, an enum or a constant, with its comment."""
    parts = path.split(".")
    inner = "/".join(p for p in parts if p[:1].islower()) or "lib"
    names = [p for p in parts if p[:1].isupper() and not p.startswith("The")]
    file = f"{TOP}/crates/{crate}/src/{inner}.rt"
    if not names or not os.path.exists(file):
        return None
    item = re.search(
        rf"(?:^(?:///|#\[)[^\n]*\n)*^pub (?:struct|enum|const) {re.escape(names[0])}\b[^{{;]*(?:;|\{{.*?^\}}|\{{[^\n]*\}})",
        read(file), re.M | re.S)
    return (os.path.relpath(file, TOP), names[0], item.group(0)) if item else None


def main():
    files = read_all()
    seen, types = closure(files)
    if sys.argv[1:] == ["--check"]:
        outside = sorted({module for module, _ in seen if module.split(".")[1] not in HOMES})
        outside += sorted({crate for crate, _ in types if crate not in HOMES and crate != "std"})
        if outside:
            sys.exit("headline_page: outside " + " and ".join(HOMES) + ": " + " ".join(outside))
        print(f"headline_page: {len(seen)} definitions in {len({m for m, _ in seen})} files of {' and '.join(HOMES)}")
        return
    if sys.argv[1:]:
        sys.exit(__doc__)
    print("# The headline in full\n\n## Types\n")
    for file, _, text in sorted(set(filter(None, (type_text(*each) for each in types)))):
        print(f"`{file}`\n\n```rust\n{text}\n```\n")
    for module in in_order(files, seen):
        print(f"## {os.path.relpath(files[module].path, TOP)}\n\n```")
        names = sorted((n for m, n in seen if m == module), key=lambda n: files[module].definitions[n][0])
        print("\n\n".join(files[module].text(name) for name in names) + "\n```\n")


main()
