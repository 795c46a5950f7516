#!/usr/bin/env python3
"""races.py PROGRAM [COUNT [SEED]]: holds `explore --races` against all orders of small scripts.

Draws COUNT scripts (300) by a seed (1). An owner grants a page to two domains, and raises a flag behind each grant. The
others wait for their flag, map the page, and load from it and store to it; the owner peeks and pokes the frame. All
raise further flags and wait for them. So whether an access is made depends on the flags alone, and the orders of the
lines decide which accesses can come one directly after the other. They are walked here, line by line.

Prints what was counted. The status is 1 if something differs; the script is then left as races-SEED-NUMBER.
"""

import collections
import os
import random
import subprocess
import sys

HEAD = """triple b_t a_t map_read
triple b_t a_t map_write
triple b_t a_t unmap
domain 1 u:r:a_t 8 1 1
domain 2 u:r:b_t 8 1 1
domain 3 u:r:b_t 8 1 1
"""
FRAMES = [5, 6]
FLAGS = ["p", "q", "r"]


def access(rng, dom, frame):
    """A line that accesses bytes of a frame of domain 1: its text, and the range and the kind of the access."""
    off, count = rng.randrange(4), rng.randint(1, 3)
    is_write = rng.random() < 0.5
    where = f"{frame}" if dom == 1 else "h"
    word = ("poke" if is_write else "peek") if dom == 1 else ("store" if is_write else "load")
    rest = "00" * count if is_write else f"{count}"
    return f"do {dom} {word} {where} {off} {rest}", (frame, off, off + count, is_write)


def drawn(rng):
    """The lines of a script: each its text, its domain, and what it does: an access, or a flag that it raises or awaits."""
    lines, lists = [], collections.defaultdict(list)
    shared = {dom: rng.choice(FRAMES) for dom in (2, 3)}
    for dom in (2, 3):
        lists[1].append((f"do 1 grant {dom} page {dom} rw {shared[dom]}", None))
        lists[1].append((f"tell 1 g{dom}", ("tell", f"g{dom}")))
        lists[dom].append((f"await {dom} g{dom}", ("await", f"g{dom}")))
        lists[dom].append((f"do {dom} map h 1 {dom} rw", None))
    told = set()
    for _ in range(rng.randint(3, 6)):
        dom = rng.choice([1, 1, 2, 3])
        frame = rng.choice(FRAMES) if dom == 1 else shared[dom]
        lists[dom].append(access(rng, dom, frame))
        dom, flag = rng.choice([1, 2, 3]), rng.choice(FLAGS)
        if rng.random() < 0.4 and flag not in told:
            told.add(flag)
            lists[dom].append((f"tell {dom} {flag}", ("tell", flag)))
        elif rng.random() < 0.5 and flag in told:
            lists[dom].append((f"await {dom} {flag}", ("await", flag)))
    for dom in (2, 3):
        lists[dom].append((f"do {dom} unmap h", None))
    for dom in (1, 2, 3):
        lines += [(text, dom, does) for text, does in lists[dom]]
    return lines


def conflict(one, other):
    return one[0] == other[0] and max(one[1], other[1]) < min(one[2], other[2]) and (one[3] or other[3])


def is_access(does):
    return does is not None and isinstance(does[0], int)


def races_of(lines):
    """The pairs of lines, counted from the first, that can be the next lines of two domains and access a common byte."""
    lists = {dom: [at for at, line in enumerate(lines) if line[1] == dom] for dom in (1, 2, 3)}
    start = ((0, 0, 0), frozenset())
    met, open_states, found = {start}, [start], set()
    while open_states:
        at, flags = open_states.pop()
        next_of = {dom: lists[dom][at[dom - 1]] for dom in (1, 2, 3) if at[dom - 1] < len(lists[dom])}
        for one in next_of:
            for other in next_of:
                y, z = lines[next_of[one]][2], lines[next_of[other]][2]
                if one < other and is_access(y) and is_access(z) and conflict(y, z):
                    found.add(tuple(sorted((next_of[one], next_of[other]))))
        for dom, line in next_of.items():
            does, raised = lines[line][2], flags
            if does is not None and does[0] == "await" and does[1] not in flags:
                continue
            if does is not None and does[0] == "tell":
                raised = flags | {does[1]}
            state = (tuple(n + (k + 1 == dom) for k, n in enumerate(at)), raised)
            if state not in met:
                met.add(state)
                open_states.append(state)
    return found


def main(program, count="300", seed="1"):
    program, seen = os.path.abspath(program), collections.Counter()
    for number in range(int(count)):
        lines = drawn(random.Random(f"{seed}/{number}"))
        text = HEAD + "".join(line[0] + "\n" for line in lines)
        first = HEAD.count("\n") + 1
        wanted = [f"race {one + first} {other + first}" for one, other in sorted(races_of(lines))] or ["no race"]
        done = subprocess.run([program, "explore", "--races"], input=text, capture_output=True, text=True, timeout=60)
        if done.stderr.endswith("stuck\n"):
            seen["scripts that can wait for ever"] += 1
            continue
        *printed, states = done.stdout.splitlines() or [""]
        if printed != wanted or done.returncode != (wanted != ["no race"]) or not states.startswith("states "):
            with open(f"races-{seed}-{number}", "w", encoding="utf-8") as out:
                out.write(text)
            print(f"races {number} of seed {seed}: {printed} {states} {done.stderr}, and by all orders {wanted}")
            return 1
        seen["scripts"] += 1
        seen["races"] += len(wanted) if wanted != ["no race"] else 0
        seen["scripts without a race"] += wanted == ["no race"]
        seen["states"] += int(states.split()[1])
    print(f"races: {count} of seed {seed}, nothing differs")
    print(", ".join(f"{word}: {seen[word]}" for word in sorted(seen)))
    return 0


if __name__ == "__main__":
    if len(sys.argv) < 2:
        raise SystemExit(__doc__)
    sys.exit(main(*sys.argv[1:]))
