#!/usr/bin/env python3
"""choices.py PROGRAM [COUNT [SEED]]: holds `explore` of scripts with `maybe` and `leave` against that of plain scripts.

Draws COUNT scripts (300) by a seed (1). Some of their calls are `maybe` lines, and their domains may leave at some lines.
The plain scripts are made here: each `maybe` line is a `do` line or empty, and the list of a domain ends at a `leave` line
or does not. The texts that `explore` lists are those that it lists for the plain scripts, each once, in order. A plain
script in which a domain waits for ever has none, and is counted. `--find`, `--never`, `--always` and `--has` decide as
these texts do, and a witness, played, gives its text.

Prints what was counted. The status is 1 if something differs; the script is then left as choices-SEED-NUMBER.
"""

import os
import random
import subprocess
import sys

sys.dont_write_bytecode = True
from drawn_texts import race
from draws import STATES, Differs, Draws, drawn_expression, satisfies, texts_of

WAITING = b"# choices in which a domain waits for ever: "


def with_choices(rng, script):
    """The script with `maybe` in place of some `do`, and lines `leave`."""
    out = []
    for line in script.splitlines():
        words = line.split(" ")
        if words[0] in ("do", "tell", "await"):
            if rng.random() < 0.15:
                out.append(f"leave {'0' * rng.randint(0, 1)}{words[1]}")
            if words[0] == "do" and rng.random() < 0.3:
                line = f"{rng.choice(['', ' ', chr(9)])}maybe {' '.join(words[1:])}{rng.choice(['', '', ' # maybe 1'])}"
        out.append(line)
    return "".join(line + "\n" for line in out)


def plain_scripts(lines, left=frozenset()):
    """The lines of each plain script, line by line."""
    if not lines:
        yield []
        return
    words, rest = lines[0].split("#")[0].split(), lines[1:]
    dom = int(words[1]) if words[0] in ("do", "tell", "await", "maybe", "leave") else None
    if dom is None:
        kinds = [(lines[0], left)]
    elif dom in left:
        kinds = [("", left)]
    elif words[0] == "maybe":
        kinds = [("do " + " ".join(words[1:]), left), ("", left)]
    elif words[0] == "leave":
        kinds = [("", left), ("", left | {dom})]
    else:
        kinds = [(lines[0], left)]
    for line, gone in kinds:
        for more in plain_scripts(rest, gone):
            yield [line, *more]


class Choices(Draws):
    waiting = 0

    def run(self, *words, **rest):
        done = super().run(*words, **rest)
        front, mark, number = done.stdout.rpartition(WAITING)
        if mark:
            done.stdout, self.waiting = front, int(number)
        return done

    def choices(self, rng):
        script = with_choices(rng, race(rng)).encode()
        self.text = script
        plain = list(plain_scripts(script.decode().splitlines()))
        if len(plain) == 1:
            self.seen["without choices"] += 1
            return
        if len(plain) > 200:
            self.seen["too many"] += 1
            return
        texts, states, stuck = set(), 0, 0
        for lines in plain:
            done = self.run("explore", "--states", STATES, text="\n".join(lines).encode())
            if done.returncode == 2:
                self.want(b"stuck" in done.stderr or b"flag" in done.stderr, f"a plain script has the fault {done.stderr}")
                stuck += 1
                continue
            found, met = texts_of(done.stdout.decode())
            texts, states = texts | set(found), states + int(met)
        self.seen["plain scripts"] += len(plain)
        self.seen["that wait"] += stuck
        self.waiting = 0
        done = self.run("explore", "--states", STATES, text=script)
        if b"stuck" in done.stderr or b"flag" in done.stderr:
            self.seen["faults"] += 1
            return
        wanted = sorted(texts, key=str.encode)
        found, met = texts_of(done.stdout.decode())
        self.want(done.returncode == 0, f"explore has status {done.returncode}: {done.stderr[:200]}")
        self.want(found == wanted, f"explore lists {len(found)} texts, and the plain scripts have {len(wanted)}")
        self.want(int(met) == states, f"explore met {met} states, and the plain scripts {states}")
        self.want(self.waiting == stuck, f"{self.waiting} choices wait, and {stuck} plain scripts")
        self.seen["texts"] += len(wanted)
        self.decided(rng, script, wanted, states)
        self.given(rng, script, wanted)
        self.witness(rng, script, wanted)

    def decided(self, rng, script, texts, states):
        expression = drawn_expression(rng, texts)
        asked = self.run("explore", "--states", STATES, f"--find={expression}", text=script)
        if b"term" in asked.stderr:
            self.seen["terms refused"] += 1
            return
        self.expression(script, texts, states, expression)

    def expression(self, script, texts, states, expression):
        holds = [satisfies(text, expression) for text in texts]
        found = "".join(f"text {at + 1} of {len(texts)}\n{text}" for at, text in enumerate(texts) if holds[at])
        done = self.run("explore", "--states", STATES, f"--find={expression}", text=script)
        self.want(done.returncode == (not any(holds)), f"--find '{expression}' has status {done.returncode}")
        self.want(done.stdout.decode() == f"{found}states {states}\n", f"--find '{expression}' prints other texts")
        for claim, against in (("--never", True), ("--always", False)):
            done = self.run("explore", "--states", STATES, f"{claim}={expression}", text=script)
            first = holds.index(against) + 1 if against in holds else 0
            self.want(done.returncode == (first > 0), f"{claim} '{expression}' has status {done.returncode}")
            start = f"# does not hold: text {first} of {len(texts)}\n" if first else f"holds\nstates {states}\n"
            self.want(done.stdout.decode().startswith(start), f"{claim} '{expression}' prints otherwise")
            self.seen["claims that hold"] += first == 0

    def given(self, rng, script, texts):
        place = rng.randrange(len(texts))
        for text, status in ((texts[place], 0), (texts[place] + "x", 1)):
            path = self.file("given.text", text.encode())
            done = self.run("explore", "--states", STATES, "--has", path, text=script)
            self.want(done.returncode == status, f"--has has status {done.returncode}")
            line = f"text {place + 1} of {len(texts)}\n".encode()
            self.want(done.stdout.startswith(line) == (status == 0), "--has names another text")


def main(program, count="300", seed="1"):
    draws = Choices(os.path.abspath(program), seed)
    for number in range(int(count)):
        try:
            draws.draw("choices", number)
        except (Differs, subprocess.TimeoutExpired) as wrong:
            name = f"choices-{seed}-{number}"
            with open(name, "wb") as out:
                out.write(draws.text)
            print(f"choices {number} of seed {seed}: {wrong}: {name}")
            return 1
    print(f"choices: {count} of seed {seed}, nothing differs")
    print(" ".join(f"{word}:{draws.seen[word]}" for word in sorted(draws.seen)))
    return 0


if __name__ == "__main__":
    if len(sys.argv) < 2:
        raise SystemExit(__doc__)
    sys.exit(main(*sys.argv[1:]))
