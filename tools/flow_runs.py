#!/usr/bin/env python3
"""Plays drawn scripts twice, with other bytes of the types that `gthost flow` calls high, and compares the other lines.

usage: tools/flow_runs.py PROGRAM [COUNT [SEED]]

PROGRAM is a built gthost. Each script has up to four types, a policy in which the bytes of one type do not reach all
others, and up to five domains with 120 calls, some of them step by step. The types that `flow` finds from the first one
are high. The script is played with other bytes in the stores and pokes of high domains, and once more with other bytes
and without some of their accesses. All lines must be the same, but those of accesses of high domains. With --trust, a
type whose stores `flow` leaves out makes the same accesses each time, and only the bytes that it reads may differ. The
last line has the counts.
"""
import os
import random
import re
import subprocess
import sys
import tempfile

RIGHTS = ["map_read", "map_read map_write", "copy", "map_read map_write copy", "query", "map_write"]
CALLS = 120


def drawn_policy(draw):
    """Returns the types, and the lines of a policy in which each type may do everything to itself."""
    types = [f"t{i}_t" for i in range(draw.randint(2, 4))]
    lines = [f"type {name};" for name in types]
    for source in types:
        lines.append(f"allow {source} self:grant {{ map_read map_write unmap copy query setup }};")
        for target in types:
            if source != target and draw.random() < 0.5:
                lines.append(f"allow {source} {target}:grant {{ unmap {draw.choice(RIGHTS)} }};")
    return types, lines


def drawn_calls(draw, domains):
    """Returns the calls: a domain, the words before any bytes, the bytes or none, and whether it is an access."""
    calls, labels, number = [], {domain: [] for domain in domains}, 0

    def end():
        if draw.random() < 0.4:
            return f"frame self {draw.randrange(3)} {draw.randrange(8)}"
        return f"gref {draw.choice(domains)} {draw.randrange(4)} {draw.randrange(8)}"

    for _ in range(CALLS):
        domain, other, entry, frame = draw.choice(domains), draw.choice(domains), draw.randrange(4), draw.randrange(3)
        mode, data = draw.choice(["rw", "rw", "ro"]), draw.randbytes(draw.randint(1, 8)).hex()
        kind = draw.randrange(14)
        words, given, is_access = None, None, False
        if kind < 3:
            words = draw.choice([
                f"grant {entry} page {other} {mode} {frame}",
                f"grant {entry} page {other} {mode} {frame}",
                f"grant {entry} sub {other} {mode} {frame} 0 {draw.randint(1, 16)}",
                f"grant {entry} via {other} {mode} {draw.choice(domains)} {draw.randrange(4)}",
            ])
        elif kind == 3:
            words = f"{draw.choice(['revoke', 'withdraw', 'demote', 'promote'])} {entry}"
        elif kind < 6:
            number += 1
            labels[domain].append(f"m{number}")
            words = f"map m{number} {other} {entry} {mode}"
        elif kind == 6 and labels[domain]:
            words = f"unmap {draw.choice(labels[domain])}"
        elif kind == 7 and labels[domain]:
            words, is_access = f"load {draw.choice(labels[domain])} {draw.randrange(8)} {draw.randint(1, 8)}", True
        elif kind < 10 and labels[domain]:
            words, given, is_access = f"store {draw.choice(labels[domain])} {draw.randrange(8)}", data, True
        elif kind == 10:
            words, given, is_access = f"poke {frame} {draw.randrange(8)}", data, True
        elif kind == 11:
            words, is_access = f"peek {frame} {draw.randrange(8)} 8", True
        elif kind == 12 and draw.random() < 0.3:
            words = draw.choice([f"size {other}", f"getversion {other}", "setup 3"])
        else:
            words = f"copy {end()} {end()} {draw.randint(1, 8)}"
        verb = "begin" if not is_access and draw.random() < 0.2 else "do"
        calls.append((domain, f"{verb} {domain} {words}", given, is_access))
        if draw.random() < 0.2:
            ticked = draw.choice(domains)
            calls.append((ticked, f"tick {ticked} {draw.choice([1, 2, 5, 80])}", None, False))
    for domain in domains:
        calls.append((domain, f"tick {domain} 100", None, False))
        calls += [(domain, f"do {domain} peek {frame} 0 16", None, True) for frame in range(3)]
    return calls


def main(program, count=2000, seed=1):
    draw = random.Random(seed)
    made = differed = lines_compared = ok = 0

    with tempfile.TemporaryDirectory() as room:

        def ran(*words):
            it = subprocess.run([program, *words], capture_output=True, text=True, check=False)
            assert not it.stderr, (words, it.stderr)
            return it.stdout

        while made < count:
            types, policy = drawn_policy(draw)
            trusted = draw.sample(types, 1) if draw.random() < 0.3 else []
            file = os.path.join(room, "p.te")
            with open(file, "w", encoding="utf-8") as it:
                it.write("\n".join(policy) + "\n")
            flag = ["--trust", trusted[0]] if trusted else []
            reached = set(re.findall(r"(?m)^\S+ -> (\S+)  \d+$", ran("flow", *flag, types[0], "-", file)))
            high_types = {types[0]} | reached
            type_of = {number: draw.choice(types) for number in range(1, draw.randint(3, 5) + 1)}
            type_of[1] = types[0]
            high = {number for number, name in type_of.items() if name in high_types}
            # A trusted type is one of those high types, and it makes the same accesses each time.
            free = {number for number in high if type_of[number] not in trusted}
            if len(high) == len(type_of) or not free:
                continue
            calls = drawn_calls(draw, sorted(type_of))
            head = ["policy", *policy, "end"]
            head += [f"domain {number} u:r:{name} 3 2 2" for number, name in type_of.items()]

            def played(changes, drops):
                text = head[:]
                for domain, words, given, is_access in calls:
                    if drops and is_access and domain in free and draw.random() < 0.7:
                        text.append("#")
                    elif given is None:
                        text.append(words)
                    elif changes and domain in free:
                        text.append(f"{words} {draw.randbytes(len(given) // 2).hex()}")
                    else:
                        text.append(f"{words} {given}")
                script = os.path.join(room, "s.gt")
                with open(script, "w", encoding="utf-8") as it:
                    it.write("\n".join(text) + "\n")
                return ran("play", script).splitlines()

            def seen(lines):
                """Returns the lines but those of high accesses, and those of trusted ones without their bytes."""
                found = []
                for line in lines:
                    at, domain, word = (line.split() + [""])[:3]
                    access = calls[int(at) - len(head) - 1][3]
                    if access and int(domain) in high:
                        if int(domain) in free:
                            continue
                        line = f"{at} {domain} {word}"
                    found.append(line)
                return found

            first = played(False, False)
            wanted = seen(first)
            for drops in (False, True):
                again = played(True, drops)
                pairs = zip(wanted, seen(again))
                assert seen(again) == wanted, (made, drops, head, calls, [x for x in pairs if x[0] != x[1]][:2])
                differed += again != first
                lines_compared += len(wanted)
                ok += sum(" ok" in line for line in wanted)
            made += 1
    print(f"{2 * count} pairs of plays, {differed} of which differ in lines of high accesses: "
          f"the other {lines_compared} lines, {ok} of them Ok, are the same")


if __name__ == "__main__":
    main(sys.argv[1], *map(int, sys.argv[2:4]))
