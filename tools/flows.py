#!/usr/bin/env python3
"""Compares `gthost flow`, and `neverflow` in `check --never`, with a walk of its own over drawn policies.

usage: tools/flows.py PROGRAM [COUNT [SEED]]

PROGRAM is a built gthost. Each policy has up to eight types, some attributes, and statements with sets, `self` and `-`.
For each one the program lists all pairs, once more with trusted types, and shows the steps of one pair, as text, as
JSON and by a script. The distances must be those of this walk, and each step one that a statement on its lines allows.
Then it checks drawn `neverflow` statements: its errors must be the pairs that have a path, each with one that is as
short. The last line has the counts.
"""
import collections
import itertools
import json
import os
import random
import re
import subprocess
import sys
import tempfile

PERMISSIONS = ["map_read", "map_write", "unmap", "transfer", "setup", "copy", "query"]


def drawn(draw):
    """Returns the lines of a policy, its types, their attributes, and what each line allows as triples."""
    types = [f"t{i}_t" for i in range(draw.randint(1, 8))]
    attributes = [f"a{i}" for i in range(draw.randint(0, 3))]
    has = {name: {a for a in attributes if draw.random() < 0.4} for name in types}
    lines = [f"attribute {a};" for a in attributes]
    for name in types:
        lines.append(f"type {', '.join([name, *sorted(has[name])])};")
    allows = collections.defaultdict(set)

    def drawn_set(is_target):
        """Returns a set as text, its types, and whether it contains self."""
        items = draw.sample(types + attributes, min(draw.randint(1, 3), len(types) + len(attributes)))
        minus = [it for it in draw.sample(types + attributes, 1) if draw.random() < 0.2 and it not in items]
        itself = is_target and draw.random() < 0.2
        words = items + [f"-{it}" for it in minus] + ["self"] * itself
        meant = {t for t in types if any(t == it or it in has[t] for it in items)}
        meant -= {t for t in types if any(t == it or it in has[t] for it in minus)}
        return ("{ " + " ".join(words) + " }" if len(words) > 1 else words[0]), meant, itself

    for _ in range(draw.randint(0, 10)):
        source, sources, _ = drawn_set(False)
        target, targets, itself = drawn_set(True)
        perms = draw.sample(PERMISSIONS, draw.randint(1, 4))
        lines.append(f"allow {source} {target}:grant {{ {' '.join(perms)} }};")
        for s, p in itertools.product(sources, perms):
            allows[len(lines)] |= {(s, t, p) for t in targets | ({s} if itself else set())}
    return lines, types, has, allows


def distances(types, allowed, trusted):
    """Returns the number of accesses on a shortest path for each pair that has one."""

    def flows(x, y):
        load = (y, x, "map_read") in allowed
        copy = (x, y, "copy") in allowed
        store = x not in trusted and (x, y, "map_read") in allowed and (x, y, "map_write") in allowed
        return load or copy or store

    found = {}
    for source in types:
        far, front = {source: 0}, [source]
        while front:
            front = [y for x in front for y in types if y not in far and flows(x, y) and far.setdefault(y, far[x] + 1)]
        found.update({(source, y): d for y, d in far.items() if y != source})
    return found


def as_objects(out):
    """Returns what `--format json` must print for this text."""
    found = []
    for line in out.splitlines():
        x, y, asks = re.fullmatch(r" *(\S+) -> (\S+)  (.*)", line).groups()
        named = [{"perm": p, "line": int(at)} for p, at in re.findall(r"(\w+) \(line (\d+)\)", asks)]
        if named:
            access = {"map_read": "load", "copy": "copy"}.get(named[-1]["perm"], "store")
            found.append({"source": x, "target": y, "access": access, "perms": named})
        else:
            found.append({"source": x, "target": y, "accesses": None if asks == "none" else int(asks)})
    return found


def drawn_nevers(draw, types, has):
    """Returns the lines of some neverflow statements, and the types of each one's source and target."""
    attributes = sorted(set().union(*has.values()))

    def drawn_choice():
        if draw.random() < 0.15:
            return "*", set(types)
        items = draw.sample(types + attributes, draw.randint(1, min(3, len(types) + len(attributes))))
        minus = [it for it in draw.sample(types + attributes, 1) if draw.random() < 0.3 and it not in items]
        meant = {t for t in types if any(t == it or it in has[t] for it in items)}
        meant -= {t for t in types if any(t == it or it in has[t] for it in minus)}
        text = "{ " + " ".join(items + [f"-{it}" for it in minus]) + " }" if len(items + minus) > 1 else items[0]
        return ("~" + text, set(types) - meant) if draw.random() < 0.3 else (text, meant)

    lines, meant = [], []
    for _ in range(draw.randint(1, 3)):
        (source, sources), (target, targets) = drawn_choice(), drawn_choice()
        lines.append(f"neverflow {source} {target};")
        meant.append((sources, targets))
    return lines, meant


def main(program, count=2000, seed=1):
    draw, other, pairs, steps, breaches = random.Random(seed), random.Random(seed), 0, 0, 0
    with tempfile.TemporaryDirectory() as room:
        file, script, never = (os.path.join(room, name) for name in ("p.te", "s.gt", "n.te"))

        def ran(*words):
            it = subprocess.run([program, *words], capture_output=True, text=True, check=False)
            assert not it.stderr, (words, it.stderr)
            return it.returncode, it.stdout

        def asked(*words):
            return ran("flow", *words, file)

        def write(path, lines):
            with open(path, "w", encoding="utf-8") as it:
                it.write("\n".join(lines) + "\n")

        for number in range(count):
            lines, types, has, allows = drawn(draw)
            write(file, lines)
            write(script, ["# A script.", "policy", *lines, "end", f"domain 1 u:r:{types[0]} 1 1 1"])
            allowed = set().union(*allows.values()) if allows else set()
            for trusted in ([], draw.sample(types, draw.randint(1, len(types)))):
                wanted = distances(types, allowed, trusted)
                flag = ["--trust", ",".join(trusted)] if trusted else []
                status, out = asked(*flag, "-", "-")
                found = {(m[1], m[2]): int(m[3]) for m in re.finditer(r"(?m)^(\S+) -> (\S+)  (\d+)$", out)}
                assert found == wanted and status == (0 if wanted else 1), (number, lines, trusted, found, wanted)
                pairs += len(types) * (len(types) - 1)
                source, target = draw.choice(types), draw.choice(types)
                status, out = asked(*flag, source, target)
                far = 0 if source == target else wanted.get((source, target))
                head, *rest = out.splitlines()
                assert head == f"{source} -> {target}  {'none' if far is None else far}", (number, lines, out)
                assert status == (1 if far is None else 0) and len(rest) == (far or 0), (number, lines, out)
                objects = asked("--format", "json", *flag, source, target)
                assert objects[0] == status, (number, lines, objects)
                assert [json.loads(line) for line in objects[1].splitlines()] == as_objects(out), (number, objects)
                there = re.sub(r"line (\d+)", lambda m: f"line {int(m[1]) + 2}", out)
                assert ran("flow", "--script", *flag, source, target, script) == (status, there), (number, lines)
                at = source
                for step in rest:
                    x, y, asks = re.fullmatch(r"  (\S+) -> (\S+)  (.*)", step).groups()
                    named = re.findall(r"(\w+) \(line (\d+)\)", asks)
                    by = [p for p, _ in named]
                    s, t = (y, x) if by == ["map_read"] else (x, y)
                    assert x == at and by in (["map_read"], ["copy"], ["map_read", "map_write"]), (number, lines, out)
                    assert by != ["map_read", "map_write"] or x not in trusted, (number, lines, out)
                    for p, line in named:
                        first = min(n for n, triples in allows.items() if (s, t, p) in triples)
                        assert first == int(line), (number, lines, out)
                    at, steps = y, steps + 1
                assert far is None or at == target, (number, lines, out)
            wanted = distances(types, allowed, [])
            texts, meant = drawn_nevers(other, types, has)
            write(never, texts)
            status, out = ran("check", "--never", never, "--format", "json", file)
            found = []
            for it in map(json.loads, out.splitlines()):
                path = re.search(r" flow (.*), which ", it["message"])[1].split(" -> ")
                assert it["file"] == never and it["severity"] == "error" and it["column"] == 1, (number, it)
                assert all(wanted[x, y] == 1 for x, y in zip(path, path[1:])), (number, lines, path)
                assert len(path) == wanted[path[0], path[-1]] + 1, (number, lines, path)
                found.append((path[0], it["line"], path[-1]))
            broken = [(x, n, y) for x in types for n, (sources, targets) in enumerate(meant, 1) for y in types
                      if x in sources and y in targets and (x, y) in wanted]
            assert found == broken and status == (1 if broken else 0), (number, lines, texts, found, broken)
            breaches += len(broken)
    print(f"{count} policies, {pairs} pairs, {steps} steps and {breaches} breaches of neverflow are the same")


if __name__ == "__main__":
    main(sys.argv[1], *map(int, sys.argv[2:4]))
