#!/usr/bin/env python3
"""precedence.py PROGRAM [COUNT [SEED]]: holds terms of order, as in `explore --find '7<9'`, against all orders, played.

Draws COUNT small scripts (40) by a seed (1): two domains with a few calls, the second of which waits until the first has
granted a page. Each order of their moves is played, by a script with `begin` and `tick` lines, and what `play` prints says when each call was answered. So for each
pair of calls the texts are known that have an order in which the first is answered before the second begins. `explore
--find` lists these texts for the term, and for the term with a condition those that satisfy it; `--never` holds if there
are none, and else prints a script for `play` whose calls are in that order. Terms that are joined in other ways are
held against each order, too: the texts that `--find` lists, and the verdicts of `--find`, `--never` and `--always`.

Prints what was counted. The status is 1 if something differs; the script is then left as precedence-SEED-NUMBER.
"""

import os
import re
import subprocess
import sys

sys.dont_write_bytecode = True
from draws import STATES, Differs, Draws, texts_of

HEAD = """triple mapper_t owner_t map_read
triple mapper_t owner_t map_write
triple mapper_t owner_t unmap
triple mapper_t owner_t copy
triple owner_t mapper_t copy
domain 1 u:r:owner_t 8 1 1
domain 2 u:r:mapper_t 8 1 1
"""
FIRST = ["poke 5 0 2a", "grant 0 page 2 rw 5"]
OWNED = ["revoke 0", "withdraw 0", "peek 5 0 1", "poke 5 0 2b", "grant 1 page 2 ro 6", "demote 0"]
MAPPED = [["map page 1 0 ro", "unmap page"], ["map page 1 0 ro", "load page 0 1", "unmap page"]]
OTHER = ["getversion 1", "size 1", "poke 3 0 ff", "grant 0 page 1 ro 3", "revoke 0"]
# Expressions of two terms of order, which hold of an order or not, and a condition, which its text meets or not.
JOINED = [
    ("!{0}", lambda one, other, met: not one),
    ("{0}|{1}", lambda one, other, met: one or other),
    ("!({0}&{1})", lambda one, other, met: not (one and other)),
    ("!({0}|{1})", lambda one, other, met: not (one or other)),
    ("{0}|{2}", lambda one, other, met: one or met),
    ("!{0}&{2}", lambda one, other, met: not one and met),
    ("{2}|!{1}", lambda one, other, met: met or not other),
    ("{0}&!{2}|{1}", lambda one, other, met: one and not met or other),
    ("!{2}&({0}|{1})", lambda one, other, met: not met and (one or other)),
]
MOST = 1_500


class Precedence(Draws):
    def script(self, rng):
        owner = rng.sample(OWNED, rng.randint(1, 2))
        mapper = rng.choice([*MAPPED, *MAPPED, rng.sample(OTHER, 2)])
        granted = [*HEAD.splitlines(), *(f"do 1 {call}" for call in FIRST), "tell 1 go"]
        return [*granted, *(f"do 1 {call}" for call in owner), "await 2 go", *(f"do 2 {call}" for call in mapper)]

    def played(self, lines):
        """The answers by the lines of a script that is played, and the domains with an open call."""
        done = self.run("play", text="".join(line + "\n" for line in lines).encode())
        answers, open_in = {}, set()
        for line in done.stdout.decode().splitlines():
            number, dom, answer = line.split(" ", 2)
            if answer == "open":
                open_in.add(dom)
            else:
                answers[int(number)] = answer
        return answers, open_in

    def orders(self, lines):
        """Each order of the moves: the answers of the calls, and the moves at which each begins and is answered."""
        calls = {dom: [n for n, line in enumerate(lines) if line.startswith(f"do {dom} ")] for dom in "12"}
        stack = [([], {dom: 0 for dom in "12"}, {}, {}, {})]
        while stack:
            moves, done, begun, answered, answers = stack.pop()
            ends = True
            for dom in "12":
                if done[dom] == len(calls[dom]):
                    continue
                ends = False
                if dom == "2" and done["1"] < len(FIRST):
                    continue
                at = calls[dom][done[dom]]
                is_open = at in begun
                move = f"tick {dom} 1" if is_open else "begin" + lines[at][2:]
                script = [*lines[: HEAD.count("\n")], *moves, move]
                now = dict(begun) if is_open else {**begun, at: len(script)}
                seen, open_in = self.played(script)
                if dom in open_in:
                    stack.append(([*moves, move], done, now, answered, answers))
                else:
                    answer = seen[now[at]]
                    stack.append(([*moves, move], {**done, dom: done[dom] + 1}, now, {**answered, at: len(script)}, {**answers, at: answer}))
            if ends:
                yield begun, answered, answers

    def precedence(self, rng):
        lines = self.script(rng)
        text = "".join(line + "\n" for line in lines).encode()
        self.text = text
        calls = [n for n, line in enumerate(lines) if line.startswith("do ")]
        texts, count = {}, 0
        for begun, answered, answers in self.orders(lines):
            count += 1
            if count > MOST:
                self.seen["too many orders"] += 1
                return
            shown = "".join(f"{n + 1} {lines[n].split()[1]} {answers[n]}\n" for n in calls)
            pairs = {(a, b) for a in calls for b in calls if answered[a] < begun[b]}
            texts.setdefault(shown, []).append(pairs)
        self.seen["orders"] += count
        self.seen["texts"] += len(texts)
        for a in calls:
            for b in rng.sample(calls, min(2, len(calls))):
                self.pair(rng, text, texts, lines, a, b)
            self.joined(rng, text, texts, lines, calls)

    def pair(self, rng, script, texts, lines, a, b):
        line = rng.choice([n for n, said in enumerate(lines) if said.startswith("do ")])
        answer = rng.choice(["ok", "ok", "N10", "N19", "N6"])
        for condition in ("", f"{line + 1}={answer}"):
            wanted = sorted(
                (shown for shown, orders in texts.items() if any((a, b) in pairs for pairs in orders)), key=str.encode
            )
            if condition:
                wanted = [shown for shown in wanted if re.search(rf"^{line + 1} \d {answer}( |$)", shown, re.M)]
            term = f"{a + 1}<{b + 1}"
            expression = "&".join(rng.sample([part for part in (term, condition) if part], 2 if condition else 1))
            done = self.run("explore", "--states", STATES, f"--find={expression}", text=script)
            if done.returncode == 2 and condition:
                self.seen["conditions refused"] += 1
                continue
            found = texts_of(done.stdout.decode())[0] if wanted else []
            self.want(done.returncode == (not wanted), f"--find '{expression}' has status {done.returncode}: {done.stderr}")
            self.want(found == wanted, f"--find '{expression}' lists {len(found)} texts, and the orders give {len(wanted)}")
            self.seen["terms that hold" if wanted else "terms that never hold"] += 1
            self.never(script, expression, wanted, lines, a, b)

    def joined(self, rng, script, texts, lines, calls):
        """Holds a claim whose terms are joined in some way against each order."""
        pairs = [tuple(rng.sample(calls, 2)) for _ in "01"]
        line, answer = rng.choice(calls), rng.choice(["ok", "N10", "N19", "N6"])
        said, holds = rng.choice(JOINED)
        expression = said.format(*(f"{a + 1}<{b + 1}" for a, b in pairs), f"{line + 1}={answer}")
        met = {shown: re.search(rf"^{line + 1} \d {answer}( |$)", shown, re.M) is not None for shown in texts}
        passes = {
            shown: {bool(holds(pairs[0] in order, pairs[1] in order, met[shown])) for order in orders}
            for shown, orders in texts.items()
        }
        wanted = sorted((shown for shown in texts if True in passes[shown]), key=str.encode)
        fails = any(False in passes[shown] for shown in texts)
        statuses = {"find": not wanted, "never": bool(wanted), "always": fails}
        for kind, status in statuses.items():
            done = self.run("explore", "--states", STATES, f"--{kind}={expression}", text=script)
            if done.returncode == 2 and "{2}" in said:
                self.seen["conditions refused"] += 1
                return
            self.want(done.returncode == status, f"--{kind} '{expression}' has status {done.returncode}: {done.stderr}")
            if kind == "find":
                found = sorted(set(texts_of(done.stdout.decode())[0] if wanted else []), key=str.encode)
                self.want(found == wanted, f"--find '{expression}' lists {len(found)} texts, and the orders give {len(wanted)}")
            self.seen["joined claims"] += 1

    def never(self, script, expression, wanted, lines, a, b):
        done = self.run("explore", "--states", STATES, f"--never={expression}", text=script)
        self.want(done.returncode == bool(wanted), f"--never '{expression}' has status {done.returncode}")
        if not wanted:
            self.want(done.stdout.startswith(b"holds\n"), f"--never '{expression}' prints otherwise")
            return
        said = done.stdout.decode().splitlines()
        begins = re.fullmatch(r"# does not hold: text \d+ of \d+", said[0])
        self.want(begins is not None, f"--never '{expression}' begins with {said[0]}")
        shown = "".join(line[2:] + "\n" for line in said[1:] if re.match(r"# \d+ \d ", line))
        self.want(shown == wanted[0], f"--never '{expression}' shows another text")
        placed = {int(line.rsplit(" ", 1)[1]): n + 1 for n, line in enumerate(said) if "  # line " in line}
        answers, _ = self.played(said[: placed[b + 1] - 1])
        self.want(placed[a + 1] in answers, f"--never '{expression}': line {a + 1} has no answer when line {b + 1} begins")
        self.seen["counterexamples"] += 1


def main(program, count="40", seed="1"):
    draws = Precedence(os.path.abspath(program), seed)
    for number in range(int(count)):
        try:
            draws.draw("precedence", number)
        except (Differs, subprocess.TimeoutExpired) as wrong:
            name = f"precedence-{seed}-{number}"
            with open(name, "wb") as out:
                out.write(draws.text)
            print(f"precedence {number} of seed {seed}: {wrong}: {name}")
            return 1
    print(f"precedence: {count} of seed {seed}, nothing differs")
    print(" ".join(f"{word}:{draws.seen[word]}" for word in sorted(draws.seen)))
    return 0


if __name__ == "__main__":
    if len(sys.argv) < 2:
        raise SystemExit(__doc__)
    sys.exit(main(*sys.argv[1:]))
