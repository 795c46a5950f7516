#!/usr/bin/env python3
"""states.py PROGRAM [COUNT [SEED]]: holds claims about states, as in `explore --never-state '1.0:rw'`, against all orders.

Draws COUNT small scripts (20) by a seed (1), as precedence.py does: two domains with a few calls, the second of which
waits until the first has granted a page. Each order of their moves is played, move by move, and after each move `show`
says what some entries show. Claims are drawn, and judged here by what was shown at each moment. `explore --never-state`
holds if no moment meets the claim, and else prints a script for `play` whose `show` lines, played, meet it.

Prints what was counted. The status is 1 if something differs; the script is then left as states-SEED-NUMBER.
"""

import os
import re
import subprocess
import sys

sys.dont_write_bytecode = True
from draws import STATES, Differs
from precedence import FIRST, HEAD, MOST, Precedence

ENTRIES = ["1.0", "1.1", "2.0", "1.600"]
WORDS = ["none", "invalid", "page", "sub", "via", "rw", "ro"]
NUMBERS = {"frame": [3, 5, 6], "gen": [0, 1, 2], "reads": [0, 1], "writes": [0, 1], "grantee": [1, 2], "off": [0], "ref": [0]}
CLAIMS = 12


def shown_words(text):
    """What a `show` printed of an entry: its words, and its numbers by their names."""
    words = text.split()
    if words == ["none"]:
        return {"none"}, {}
    numbers = {name: int(value) for name, value in (w.split("=") for w in words if "=" in w and not w.startswith("status"))}
    plain = [w for w in words if "=" not in w]
    if len(plain) == 3:
        numbers["grantee"] = int(plain[1])
        plain = [plain[0], plain[2]]
    return set(plain), numbers


def is_met(term, moment):
    denied, entry, word = term
    words, numbers = moment[entry]
    cut = re.fullmatch(r"([a-z]+)([=<>])(\d+)", word)
    if cut is None:
        met = word in words
    elif cut[1] not in numbers:
        met = False
    else:
        shown, number = numbers[cut[1]], int(cut[3])
        met = {"=": shown == number, "<": shown < number, ">": shown > number}[cut[2]]
    return met != denied


def drawn_term(rng):
    entry = rng.choice([*ENTRIES, "1.0", "1.0"])
    if rng.random() < 0.5:
        return rng.random() < 0.3, entry, rng.choice(WORDS)
    name = rng.choice(list(NUMBERS))
    return rng.random() < 0.3, entry, f"{name}{rng.choice('=<>')}{rng.choice(NUMBERS[name])}"


def written(rng, claim):
    mark = rng.choice([":", " "])
    terms = ["&".join(f"{'!' * denied}{entry}{mark}{word}" for denied, entry, word in terms) for terms in claim]
    return "|".join(terms)


class States(Precedence):
    def moments(self, lines):
        """What the entries show at each moment of each order."""
        head = lines[: HEAD.count("\n")]
        calls = {dom: [n for n, line in enumerate(lines) if line.startswith(f"do {dom} ")] for dom in "12"}
        shows = [f"show {entry.replace('.', ' ')}" for entry in ENTRIES]
        stack = [([], {dom: 0 for dom in "12"})]
        while stack:
            moves, begun = stack.pop()
            played = self.run("play", text="".join(line + "\n" for line in [*head, *moves, *shows]).encode())
            said = [line.split(" ", 4) for line in played.stdout.decode().splitlines()]
            yield {f"{words[2]}.{words[3]}": shown_words(words[4]) for words in said if words[1] == "show"}
            opened = {words[1] for words in said if words[2] == "open"}
            for dom in "12":
                if dom in opened:
                    stack.append(([*moves, f"tick {dom} 1"], begun))
                elif begun[dom] < len(calls[dom]) and (dom == "1" or begun["1"] - ("1" in opened) >= len(FIRST)):
                    call = "begin" + lines[calls[dom][begun[dom]]][2:]
                    stack.append(([*moves, call], {**begun, dom: begun[dom] + 1}))

    def states(self, rng):
        lines = self.script(rng)
        self.text = "".join(line + "\n" for line in lines).encode()
        moments = []
        for moment in self.moments(lines):
            if moment not in moments:
                moments.append(moment)
            if self.seen["moments"] > MOST * 100:
                self.seen["too many moments"] += 1
                return
            self.seen["moments"] += 1
        self.seen["different moments"] += len(moments)
        for _ in range(CLAIMS):
            claim = [[drawn_term(rng) for _ in range(rng.randint(1, 3))] for _ in range(rng.randint(1, 2))]
            self.claim(rng, claim, moments)

    def claim(self, rng, claim, moments):
        said = written(rng, claim)
        wanted = any(all(is_met(term, moment) for term in terms) for terms in claim for moment in moments)
        done = self.run("explore", "--states", STATES, f"--never-state={said}", text=self.text)
        self.want(done.returncode == wanted, f"--never-state '{said}' has status {done.returncode}: {done.stderr}")
        if not wanted:
            self.want(done.stdout.startswith(b"holds\n"), f"--never-state '{said}' prints otherwise")
            self.seen["claims that hold"] += 1
            return
        self.want(done.stdout.startswith(b"# does not hold: at its end "), f"--never-state '{said}' prints otherwise")
        played = self.run("play", text=done.stdout).stdout.decode().splitlines()
        shows = [line.split(" ", 4) for line in played if line.split(" ")[1] == "show"]
        moment = {f"{dom}.{ref}": shown_words(text) for _, _, dom, ref, text in shows}
        met = any(all(is_met(term, moment) for term in terms) for terms in claim)
        self.want(met, f"--never-state '{said}' prints a script that shows {moment}")
        self.seen["claims that do not hold"] += 1


def main(program, count="20", seed="1"):
    draws = States(os.path.abspath(program), seed)
    for number in range(int(count)):
        try:
            draws.draw("states", number)
        except (Differs, subprocess.TimeoutExpired) as wrong:
            name = f"states-{seed}-{number}"
            with open(name, "wb") as out:
                out.write(draws.text)
            print(f"states {number} of seed {seed}: {wrong}: {name}")
            return 1
    print(f"states: {count} of seed {seed}, nothing differs")
    print(" ".join(f"{word}:{draws.seen[word]}" for word in sorted(draws.seen)))
    return 0


if __name__ == "__main__":
    if len(sys.argv) < 2:
        raise SystemExit(__doc__)
    sys.exit(main(*sys.argv[1:]))
