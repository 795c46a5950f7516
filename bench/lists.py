#!/usr/bin/env python3
"""lists.py PLAY DRIVER [COUNT [SEED]]: are the library's answers those of `gthost play`?

Writes COUNT scripts (10,000) of random calls by a seed, over 2 to 4 domains with tables of both versions, with numbers
that a hostile guest would hand in. Each is played by PLAY (the program gthost) and by DRIVER (bench/c/lists.c on the
library), and the two texts are compared: every answer, every audit line, and why a run does not start. Prints how often
each rule was answered. The status is 1 if a text differs; the script is then left as lists-K.gt.
"""

import collections
import random
import re
import subprocess
import sys

PERMISSIONS = ["map_read", "map_write", "unmap", "setup", "copy", "query"]
BAD_POLICIES = [
    "type a_t", "type a_t; type a_t;", "allow a_t b_t:grant copy;", "type a_t; allow a_t a_t:grant read;",
    "type a_t; allow * a_t:grant copy;", "type a_t; role r;", "type a_t;\nallow a_t a_t:grant { copy",
    "type a_t; typeattribute a_t s;", "attribute a_t; type a_t;", "type a_t; allow ~a_t a_t:grant copy;", "type a;\n?",
]
FAULTS = {3: "syntax", 4: "unknown", 5: "twice", 6: "permission", 7: "outside", 8: "limit"}


class List:
    """A script, with what its writer remembers so that many calls are answered Ok."""

    def __init__(self, rng):
        self.rng = rng
        self.lines = []
        self.granted = []  # (owner, reference, to)
        self.mapped = []  # (domain, label)
        self.fresh = 60
        self.types = ["a_t", "b_t", "c_t"][: rng.randint(1, 3)]
        self.ids = rng.sample([0, 1, 2, 3, 7, 300, 32751], rng.randint(2, 4))
        self.frames = {}
        self.write_head()
        for _ in range(rng.randint(5, 60)):
            self.write_call()

    def pick(self, *choices):
        return self.rng.choice(choices)

    def write_policy(self):
        rng = self.rng
        for name in self.types:
            self.lines.append(f"type {name};")
        if rng.random() < 0.03:
            self.lines += rng.choice(BAD_POLICIES).split("\n")
        for source in self.types:
            for target in self.types:
                allowed = [one for one in PERMISSIONS if rng.random() < 0.85]
                if allowed:
                    self.lines.append(f"allow {source} {target}:grant {{ {' '.join(allowed)} }};")

    def write_head(self):
        rng = self.rng
        self.lines.append("policy")
        self.write_policy()
        self.lines.append("end")
        if rng.random() < 0.3:
            self.lines.append(f"wear {self.pick(0, 5, 1048570, 1048574, 1048575)}")
        is_bad = rng.random() < 0.02
        for dom in self.ids:
            self.frames[dom] = self.pick(1, 2, 8, 64)
            table = self.pick(1, 1, 1, 2, 3, 16)
            version = rng.randint(1, 2)
            if is_bad and rng.random() < 0.5:
                self.write_bad_domain(dom)
            else:
                self.lines.append(f"domain {dom} u:r:{rng.choice(self.types)} {self.frames[dom]} {table} {version}")

    def write_bad_domain(self, dom):
        dom, frames, table, version = self.pick(
            (32752, 8, 1, 1), (dom, 0, 1, 1), (dom, 8, 0, 1), (dom, 8, 17, 1), (dom, 8, 1, 3), (self.ids[0], 8, 1, 1)
        )
        self.lines.append(f"domain {dom} u:r:{self.types[0]} {frames} {table} {version}")

    # numbers

    def dom(self):
        if self.rng.random() < 0.93:
            return self.rng.choice(self.ids)
        return self.pick("self", 4, 32751, 32752, 32753, 65535)

    def gref(self):
        if self.rng.random() < 0.9:
            return self.rng.randint(0, 5)
        return self.pick(255, 256, 511, 512, 4095, 4096, 8191, 8192, 2**31, 2**32 - 1)

    def frame(self, dom):
        if self.rng.random() < 0.9:
            return self.rng.randrange(self.frames[dom])
        return self.pick(self.frames[dom], 63, 64, 2**32 - 1, 2**32, 2**63, 2**64 - 1)

    def off(self):
        return self.rng.randint(0, 64) if self.rng.random() < 0.8 else self.pick(0, 4000, 4095, 4096, 32768, 65535)

    def flags(self):
        return self.pick("rw", "ro") if self.rng.random() < 0.9 else self.pick(0, 1, 2, 3, 4, 6, 7, 8, 2**31, 2**32 - 1)

    def mode(self):
        return self.pick("rw", "rw", "ro")

    # calls

    def write_call(self):
        weighted = [
            (self.grant, 24), (self.entry_bytes, 8), (self.map, 22), (self.unmap, 12), (self.owner, 18), (self.copy, 12),
            (self.halves, 4), (self.table, 5), (self.query, 4),
        ]
        caller = self.rng.choice(self.ids)
        what = self.rng.choices([one for one, _ in weighted], [weight for _, weight in weighted])[0]
        what(caller)

    def do(self, caller, call):
        self.lines.append(f"do {caller} {call}")

    def grant(self, caller):
        gref, to = self.gref(), self.dom()
        self.granted.append((caller, gref, to))
        kind = self.pick("page", "page", "page", "sub", "via")
        if kind == "page":
            self.do(caller, f"grant {gref} page {to} {self.mode()} {self.frame(caller)}")
        elif kind == "sub":
            length = self.pick(0, 1, 64, 4096, 65535)
            self.do(caller, f"grant {gref} sub {to} {self.mode()} {self.frame(caller)} {self.off()} {length}")
        else:
            owner, onward = self.dom(), self.gref()
            if self.granted and self.rng.random() < 0.8:
                owner, onward, _ = self.rng.choice(self.granted)
            self.do(caller, f"grant {gref} via {to} {self.mode()} {owner} {onward}")

    def entry_bytes(self, caller):
        rng = self.rng
        flags = self.pick(1, 1, 5, 3, 7, 257, 261, rng.randrange(65536), 1 << rng.randrange(16) | 1)
        to = self.dom()
        to = 32752 if to == "self" else to
        frame = self.frame(caller)
        if rng.random() < 0.5:
            text = flags.to_bytes(2, "little") + to.to_bytes(2, "little") + (frame % 2**32).to_bytes(4, "little")
        else:
            middle = rng.randrange(2**32) if rng.random() < 0.5 else 64 << 16
            text = flags.to_bytes(2, "little") + to.to_bytes(2, "little") + middle.to_bytes(4, "little") + frame.to_bytes(8, "little")
        if rng.random() < 0.1:
            text = text[: rng.randrange(len(text))] if rng.random() < 0.7 else text + b"\0" * rng.randint(1, 40)
        gref = self.gref()
        self.granted.append((caller, gref, to))
        self.do(caller, f"bytes {gref} {text.hex() or '-'}")

    def remembered(self, caller):
        """The owner, the reference and the one it was granted to: mostly of a grant, and then mostly its own."""
        if self.granted and self.rng.random() < 0.85:
            owner, gref, to = self.rng.choice(self.granted)
            return owner, gref, to if to in self.ids and self.rng.random() < 0.9 else caller
        return self.dom(), self.gref(), caller

    def map(self, caller):
        owner, gref, caller = self.remembered(caller)
        label = self.pick("a", "b", "c", "d")
        self.mapped.append((caller, label))
        self.do(caller, f"map {label} {owner} {gref} {self.flags()}")

    def unmap(self, caller):
        if self.mapped and self.rng.random() < 0.8:
            caller, label = self.mapped.pop(self.rng.randrange(len(self.mapped)))
            self.do(caller, f"unmap {label}")
        else:
            self.do(caller, f"unmap {self.pick('a', 'b', 'none')}")

    def owner(self, caller):
        what = self.pick("revoke", "revoke", "withdraw", "demote", "promote")
        gref = self.gref()
        if self.granted and self.rng.random() < 0.8:
            caller, gref, _ = self.rng.choice(self.granted)
        self.do(caller, f"{what} {gref}")

    def end(self, caller):
        if self.rng.random() < 0.6:
            owner, gref, to = self.remembered(caller)
            return f"gref {owner} {gref} {self.off()}", to
        if self.rng.random() < 0.3:
            return "frame self 0 0", caller  # where the program in C has memory that is no frame
        dom = caller if self.rng.random() < 0.9 else self.dom()
        return f"frame {dom} {self.frame(caller)} {self.off()}", caller

    def copy(self, caller):
        source, caller = self.end(caller)
        dest, _ = self.end(caller)
        self.do(caller, f"copy {source} {dest} {self.pick(0, 1, 16, 16, 64, 4096, 65535)}")

    def halves(self, owner):
        """A copy in two halves by a fresh entry, of which the owner makes calls while the copy is at its access."""
        caller, gref = self.rng.choice(self.ids), self.fresh
        is_sub = self.rng.random() < 0.3
        self.fresh += 1
        entry = f"{'sub' if is_sub else 'page'} {caller} {self.mode()} {self.frame(owner)}{' 0 64' if is_sub else ''}"
        self.do(owner, f"grant {gref} {entry}")
        ends = [f"gref {owner} {gref} {self.rng.randint(0, 40)}", f"frame {caller} {self.frame(caller)} {self.off()}"]
        self.rng.shuffle(ends)
        self.lines.append(f"begin {caller} copy {ends[0]} {ends[1]} {self.pick(0, 16, 64)}")
        self.lines.append(f"tick {caller} {5 if is_sub else 4}")
        for _ in range(self.rng.randint(0, 3)):
            self.do(owner, f"{self.pick('revoke', 'demote', 'promote', 'withdraw')} {gref}")
        if self.rng.random() < 0.3:
            self.query(caller)
        self.lines.append(f"tick {caller} 100")

    def table(self, caller):
        if self.rng.random() < 0.5:
            self.do(caller, f"version {self.pick(1, 2, 0, 3, 2**32 - 1)}")
        else:
            self.do(caller, f"setup {self.pick(1, 2, 3, 16, 17, 0, 2**32 - 1)}")

    def query(self, caller):
        self.do(caller, f"{self.pick('size', 'getversion')} {self.dom()}")

    def text(self):
        return "".join(line + "\n" for line in self.lines)


def full(maps, entries):
    """So many maps, spread over so many entries: the pins of one run out, or the mappings of the domain."""
    head = "policy\ntype a_t; allow a_t a_t:grant { map_read unmap };\nend\ndomain 1 u:r:a_t 8 1 1\ndomain 2 u:r:a_t 8 1 1\n"
    grants = "".join(f"do 1 grant {gref} page 2 rw 3\n" for gref in range(entries))
    return head + grants + "".join(f"do 2 map a 1 {place % entries} ro\n" for place in range(maps)) + "do 1 revoke 0\n"


def run(program, text):
    done = subprocess.run(program, input=text.encode(), capture_output=True, timeout=120)
    if done.returncode not in (0, 1):
        raise SystemExit(f"lists: {program[0]}: status {done.returncode}: {done.stderr.decode()}")
    return done


def fault_wanted(text, line):
    """What play says of a fault that the library gave as `fault KIND LINE DOM`."""
    _, kind, at, _ = line.split()
    if int(kind) in FAULTS:
        return f"gthost: line {int(at) + text.split(chr(10)).index('policy') + 1}: policy {FAULTS[int(kind)]}"
    return "config" if int(kind) >= 10 else line


def is_same(text, play, driver):
    said, told = play.stdout.decode(), driver.stdout.decode()
    if told.startswith("fault "):
        wanted, got = fault_wanted(text, told), play.stderr.decode()
        return said == "" and (got.startswith(wanted) or (wanted == "config" and re.match(r"gthost: line \d+: config", got)))
    return play.returncode == 0 and said == told


def main(play, driver, count=10000, seed=1):
    seen, calls, faults = collections.Counter(), 0, 0
    for place in range(count):
        if place < 2:
            text = (full(4097, 1), full(8194, 3))[place]
        else:
            text = List(random.Random(f"{seed} {place}")).text()
        by_play, by_driver = run([play, "play", "--audit"], text), run([driver], text)
        if not is_same(text, by_play, by_driver):
            name = f"lists-{place}.gt"
            with open(name, "w", encoding="ascii") as out:
                out.write(text)
            print(f"list {place} of seed {seed} differs: {name}")
            return 1
        faults += by_driver.stdout.startswith(b"fault ")
        for line in by_play.stdout.decode().splitlines():
            if not line.startswith("audit"):
                calls += 1
                seen[line.split()[2]] += 1
    order = sorted(seen, key=lambda word: (word[0] == "N", int(word[1:]) if word[0] == "N" else 0, word))
    print(f"{count} lists of seed {seed}, {calls} answers and {faults} faults: all the same")
    print(" ".join(f"{word}:{seen[word]}" for word in order))
    return 0


if __name__ == "__main__":
    if len(sys.argv) < 3:
        raise SystemExit(__doc__)
    sys.exit(main(sys.argv[1], sys.argv[2], *(int(word) for word in sys.argv[3:])))
