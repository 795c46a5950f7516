#!/usr/bin/python3
"""Compares `gthost flow` with the information flow analysis of SETools, over the worked policies and drawn ones.

usage: tools/flow_setools.py PROGRAM [COUNT [SEED]]

PROGRAM is a built gthost. It needs the packages checkpolicy and setools, whose module only the system's python3 has.
Each policy in the repository that gthost accepts, in a file or in a script, and COUNT drawn ones are compiled by
checkpolicy as they are, but for the names of types and attributes. contrib/flask/host.conf is compiled itself, and
gthost reads what contrib/flask.sh makes of it. Both are asked for all pairs of types whether there is a path, and how
long a shortest one is.

The permission map has `r` for map_read, `w` for map_write and copy, and `n` for all others. It can't express that a map
for writing asks for map_read too. So a second analysis has `b` for map_read, `w` for copy, and `n` for map_write. An
edge that only the first one has comes of map_write without map_read, and of nothing else. The tool removes these edges
from the graph of SETools, and then lets SETools find the paths. The two lines that it prints have the counts, also of
the edges removed, and of the pairs for which they make a difference.
"""
import glob
import os
import random
import re
import subprocess
import sys
import tempfile

import setools
from flows import PERMISSIONS, drawn

TOP = os.path.dirname(os.path.dirname(os.path.abspath(__file__)))
FIRST = {"map_read": "r", "map_write": "w", "copy": "w"}
SECOND = {"map_read": "b", "copy": "w"}
# checkpolicy requires declarations before uses.
ORDER = ["attribute", "type", "typeattribute", "allow"]
LINE_END = r"[ \t\r]*(?:#.*)?\n"


def conf(text):
    """Returns the policy.conf of a policy, and the name of each type in it.

    A name may be a word that checkpolicy reserves, so all are new. Each word after a colon is declared as a class, and
    as a permission of each class: gthost ignores the words that it doesn't know.
    """
    statements = [re.findall(r"[A-Za-z][\w.-]*|\S", it) for it in re.sub(r"#.*", "", text).split(";")]
    statements = sorted((it for it in statements if it), key=lambda it: ORDER.index(it[0]))
    names = {it[1]: f"n{at}" for at, it in enumerate(statements) if it[0] in ("attribute", "type")}
    words, lines = {"grant", *PERMISSIONS}, ["type initial_t; allow initial_t initial_t:grant query;"]
    for it in statements:
        colon = it.index(":") if ":" in it else len(it)
        words |= {word for word in it[colon:] if word[0].isalpha()}
        lines.append(" ".join([it[0], *(names.get(word, word) for word in it[1:colon]), *it[colon:], ";"]))
    classes = [f"class {word}" for word in sorted(words)]
    lines = [*classes, "sid kernel", *(f"{it} {{ {' '.join(sorted(words))} }}" for it in classes), *lines]
    lines += ["role r; role r types initial_t; user u roles r;", "sid kernel u:r:initial_t", ""]
    return "\n".join(lines), {it[1]: names[it[1]] for it in statements if it[0] == "type"}


def worked():
    """Returns for each worked policy its file, the flags with which `flow` reads it, and its text."""
    for where in ("contrib/**", "examples/**", "crates/*/data/**"):
        for file in sorted(glob.glob(os.path.join(TOP, where), recursive=True)):
            if not file.endswith((".te", ".gt")):
                continue
            with open(file, encoding="latin-1") as it:
                text = it.read()
            block = re.search(rf"(?m)^[ \t\r]*policy{LINE_END}((?:.*\n)*?)[ \t\r]*end{LINE_END}", text)
            if file.endswith(".te"):
                yield file, [], text
            elif block:
                yield file, ["--script"], block[1]


class Comparison:
    """Policies that were compared, and their counts."""

    def __init__(self, program, room):
        self.program, self.room = program, room
        self.counts = dict.fromkeys(["policies", "pairs", "paths", "longest", "faults", "removed", "other"], 0)

    def file(self, name, text):
        path = os.path.join(self.room, name)
        with open(path, "w", encoding="utf-8") as it:
            it.write(text)
        return path

    def gthost(self, file, flags=()):
        """Returns the distance of each pair that has a path, or None if the policy has a fault."""
        it = subprocess.run([self.program, "flow", *flags, "-", "-", file], capture_output=True, text=True, check=False)
        found = {(m[1], m[2]): int(m[3]) for m in re.finditer(r"(?m)^(\S+) -> (\S+)  (\d+)$", it.stdout)}
        assert len(found) == it.stdout.count("\n"), (file, it)
        if it.returncode == 2:
            assert it.stderr and not found, (file, it)
            return None
        assert it.returncode == (0 if found else 1) and not it.stderr, (file, it)
        return found

    def analysis(self, policy, directions):
        """Returns SETools' analysis with these directions of class grant, and booleans by their defaults."""
        perms = setools.PermissionMap(self.file("map", "1\nclass grant 1\nquery n 1\n"))
        perms.map_policy(policy)
        for it in perms:
            it.direction = directions.get(it.perm, "n") if it.class_ == "grant" else "n"
        found = setools.InfoFlowAnalysis(policy, perms, booleans={})
        found._build_subgraph()
        return found

    def setools(self, source, types):
        """Returns the distances by the first map, those without the edges removed, and the number of these edges."""
        binary = os.path.join(self.room, "binary")
        it = subprocess.run(["checkpolicy", "-t", "Xen", "-c", "30", "-o", binary, source], capture_output=True,
                            text=True, check=False)
        assert it.returncode == 0, (source, it.stderr)
        policy = setools.SELinuxPolicy(binary)
        first, second = self.analysis(policy, FIRST), self.analysis(policy, SECOND)

        def distances():
            return {(x, y): len(list(path)) for x in types for y in types if x != y
                    for path in first.shortest_path(types[x], types[y])}

        whole = distances()
        alone = [edge for edge in first.subG.edges() if not second.subG.has_edge(*edge)]
        first.subG.remove_edges_from(alone)
        return whole, distances(), len(alone)

    def compare(self, name, source, types, wanted):
        whole, found, removed = self.setools(source, types)
        assert found == wanted, (name, sorted(set(found.items()) ^ set(wanted.items())))
        other = len({pair for pair, _ in set(whole.items()) ^ set(found.items())})
        for key, more in (("policies", 1), ("pairs", len(types) * (len(types) - 1)), ("paths", len(found)),
                          ("removed", removed), ("other", other)):
            self.counts[key] += more
        self.counts["longest"] = max([self.counts["longest"], *found.values()])

    def show(self, kind):
        print("{policies} {kind} policies with {pairs} pairs are the same: {paths} have a path, of at most {longest}. "
              "Edges of map_write alone: {removed}, which make a difference for {other} pairs. "
              "Policies with a fault: {faults}".format(kind=kind, **self.counts))


def main(program, count=200, seed=1):
    with tempfile.TemporaryDirectory() as room:
        those, these, draw = Comparison(program, room), Comparison(program, room), random.Random(seed)
        for file, flags, text in worked():
            wanted = those.gthost(file, flags)
            if wanted is None:
                those.counts["faults"] += 1
                continue
            source, types = conf(text)
            those.compare(file, those.file("conf", source), types, wanted)
        host = os.path.join(TOP, "contrib/flask/host.conf")
        made = subprocess.run([os.path.join(TOP, "contrib/flask.sh"), host], capture_output=True, text=True, check=True)
        types = re.findall(r"(?m)^type ([\w.-]+)", made.stdout)
        those.compare(host, host, dict(zip(types, types)), those.gthost(those.file("p.te", made.stdout)))
        those.show("worked")
        for number in range(count):
            text = "\n".join(drawn(draw)[0]) + "\n"
            source, types = conf(text)
            wanted = these.gthost(these.file("p.te", text))
            assert wanted is not None, (number, text)
            these.compare((number, text), these.file("conf", source), types, wanted)
        these.show("drawn")


if __name__ == "__main__":
    main(sys.argv[1], *map(int, sys.argv[2:4]))
