#!/usr/bin/env python3
"""draws.py PROGRAM KIND [COUNT [SEED]]: holds the built program gthost against itself, and against rules written here.

Draws COUNT texts (1,000) of this KIND by a seed (1):

  orders    scripts whose domains make their calls in turn, with the numbers that a hostile guest would pass: each
            domain has in `run`, where flags lead threads from call to call, the answers and the audit that it has in
            `play`
  races     short scripts whose domains make their calls in any order: what `run` prints is found by `explore --has`;
            `--find`, `--never` and `--always` decide as its texts do, which are judged here; a witness, played, gives
            its text
  faults    drawn and worked scripts and policies with a changed byte, word or line: no command crashes, a fault names a
            line and nothing is printed before it, and `check` has an error on the same line, and none where the text is
            accepted
  policies  policies whose allow statements are evaluated here: `policy` lists these triples, `why` answers by them, and
            `check --never` has an error for each pair of an allow and a neverallow statement that have one in common

Prints what was counted. The status is 1 if something differs; the text is then left as draws-KIND-SEED-NUMBER.
"""

import collections
import glob
import os
import random
import re
import subprocess
import sys
import tempfile

sys.dont_write_bytecode = True
from drawn_texts import PERMISSIONS, Guests, Rules, changed, race

STATES = "30000"
TOP = os.path.dirname(os.path.dirname(os.path.abspath(__file__)))
WORKED = sorted(glob.glob(f"{TOP}/examples/*.[gt][te]") + glob.glob(f"{TOP}/crates/cases_play/data/*.gt"))
FAULT = re.compile(rb"gthost: line (\d+): (limit|utf8|syntax|config|mode|stuck|policy [a-z]+.*)\n")


class Differs(Exception):
    """What the program said that it may not say."""


class Draws:
    def __init__(self, program, seed):
        self.program, self.seed = program, seed
        self.seen = collections.Counter()
        self.text = b""
        self.work = tempfile.mkdtemp(prefix="draws-")

    def run(self, *words, text=b"", statuses=(0, 1, 2)):
        done = subprocess.run([self.program, *words], input=text, capture_output=True, timeout=300, cwd=self.work)
        self.seen["processes"] += 1
        if done.returncode not in statuses:
            raise Differs(f"{words[0]}: status {done.returncode}: {done.stderr[:200]}")
        return done

    def ran(self, text, audit):
        """What `run` prints of a script, and its fault."""
        done = self.run("run", *["--audit"][: int(audit)], text=text, statuses=(0, 1))
        return done.stdout.decode(), done.stderr.decode()

    def file(self, name, text):
        path = os.path.join(self.work, name)
        with open(path, "wb") as out:
            out.write(text)
        return path

    def want(self, holds, what):
        if not holds:
            raise Differs(what)

    def draw(self, kind, number):
        rng = random.Random(f"{kind} {self.seed} {number}")
        getattr(self, kind)(rng)

    # orders

    def orders(self, rng):
        guests = Guests(rng)
        by_turns, plain = guests.text(True).encode(), guests.text(False).encode()
        self.text = by_turns
        said, fault = self.ran(by_turns, True)
        played = self.run("play", "--audit", text=plain, statuses=(0, 1))
        self.want(fault == played.stderr.decode(), "the faults differ")
        self.seen["faults"] += played.returncode
        lines = played.stdout.decode().splitlines()
        wanted = by_domain([line for line in lines if not line.startswith("audit ")], guests.ids)
        wanted += by_domain([line for line in lines if line.startswith("audit ")], guests.ids)
        self.want(said.splitlines() == wanted, "the texts differ")
        for line in lines:
            if not line.startswith("audit "):
                self.seen[line.split()[2]] += 1

    # races

    def races(self, rng):
        script = race(rng).encode()
        self.text = script
        said, fault = self.ran(script, False)
        if fault:
            self.want(FAULT.fullmatch(fault.encode()) and said == "", f"run has the fault {fault}")
            self.seen["faults"] += 1
        else:
            self.explored(rng, script, said)

    def explored(self, rng, script, said):
        explored = self.run("explore", "--states", STATES, text=script)
        path = self.file("run.text", said.encode())
        asked = self.run("explore", "--states", STATES, "--has", path, text=script)
        if explored.returncode == 2:
            self.want(b"not all texts" in explored.stdout, f"explore has the fault {explored.stderr}")
            self.seen["not all texts"] += 1
            return
        texts, states = texts_of(explored.stdout.decode())
        self.seen["texts"] += len(texts)
        self.want(asked.returncode == 0, "explore --has does not find what run prints")
        place = texts.index(said) + 1
        wanted = f"text {place} of {len(texts)}\nstates {states}\n"
        self.want(asked.stdout.decode() == wanted, "explore --has names another text")
        self.claims(rng, script, texts, states)
        self.witness(rng, script, texts)

    def claims(self, rng, script, texts, states):
        expression = drawn_expression(rng, texts)
        holds = [satisfies(text, expression) for text in texts]
        found = "".join(f"text {at + 1} of {len(texts)}\n{text}" for at, text in enumerate(texts) if holds[at])
        done = self.run("explore", "--states", STATES, f"--find={expression}", text=script)
        if done.returncode == 2 and b": term " in done.stderr:  # a term that no answer can meet
            self.want(not any(holds), f"--find '{expression}' is refused: {done.stderr}")
            self.seen["terms refused"] += 1
            return
        self.want(done.returncode == (not any(holds)), f"--find '{expression}' has status {done.returncode}")
        if b": not all texts" in done.stdout:  # it ends early once a text is found
            parts = re.split(r"^(?:text \d+.*|states .*)\n", done.stdout.decode(), flags=re.M)[1:-1]
            met = parts and all(part in texts and satisfies(part, expression) for part in parts)
            self.want(met, f"--find '{expression}' prints other texts")
            self.seen["finds that end early"] += 1
        else:
            self.want(done.stdout.decode() == f"{found}states {states}\n", f"--find '{expression}' prints other texts")
        for claim, against in (("--never", True), ("--always", False)):
            done = self.run("explore", "--states", STATES, f"{claim}={expression}", text=script)
            first = holds.index(against) + 1 if against in holds else 0
            self.want(done.returncode == (first > 0), f"{claim} '{expression}' has status {done.returncode}")
            start = f"# does not hold: text {first} of {len(texts)}\n" if first else f"holds\nstates {states}\n"
            starts = done.stdout.decode().startswith((start, "# no script for play"))
            if first and b": not all texts" in done.stdout:  # it ends early once a text is found
                starts = done.stdout.startswith(b"# does not hold: text ")
            self.want(starts, f"{claim} '{expression}' prints otherwise")
            self.seen["claims that hold"] += first == 0

    def witness(self, rng, script, texts):
        place = rng.randrange(len(texts))
        done = self.run("explore", "--states", STATES, "--witness", str(place + 1), text=script)
        self.want(done.returncode == 0, f"--witness {place + 1} has status {done.returncode}")
        if done.stdout.startswith(b"# no script for play"):
            self.seen["texts without a script"] += 1
            return
        played = self.run("play", text=done.stdout, statuses=(0, 1))
        self.want(played.returncode == 0, "a witness is not played")
        wanted, given = answers_of(texts[place]), answers_of(played.stdout.decode())
        for dom in set(wanted) | set(given):
            front, back = given[dom][: len(wanted[dom])], given[dom][len(wanted[dom]) :]
            self.want(front == wanted[dom] and set(back) <= {"ok"}, f"the witness of text {place + 1} gives another")
        self.seen["witnesses"] += 1

    # faults

    def faults(self, rng):
        if rng.random() < 0.25:
            path = rng.choice(WORKED)
            with open(path, "rb") as text:
                worked = changed(rng, text.read())
            (self.faulty_policy if path.endswith(".te") else self.faulty_script)(worked)
        elif rng.random() < 0.3:
            self.faulty_policy(changed(rng, Rules(rng).text().encode()))
        else:
            script = Guests(rng).text(rng.random() < 0.5) if rng.random() < 0.7 else race(rng)
            self.faulty_script(changed(rng, script.encode()))

    def fault(self, done, name):
        """The line of the fault of a command, or 0."""
        if done.returncode == 0:
            self.want(done.stderr == b"", f"{name} succeeds with {done.stderr[:200]}")
            return 0
        match = FAULT.fullmatch(done.stderr)
        self.want(match and done.stdout == b"", f"{name} fails with {done.stderr[:200]}")
        line, count = int(match[1]), self.text.count(b"\n") + (not self.text.endswith(b"\n") and self.text != b"")
        self.want(1 <= line <= count + 1, f"{name} has a fault on line {line} of {count}")
        self.seen[match[2].split()[0].decode()] += 1
        return line

    def error(self, done, name):
        """The line of the one error of a check, or 0."""
        found = re.findall(rb"^<stdin>:(\d+):\d+: error: ", done.stdout, re.M)
        fits = len(found) == done.returncode and done.stderr == b""
        self.want(fits, f"{name} has {len(found)} errors and status {done.returncode}")
        return int(found[0]) if found else 0

    def faulty_script(self, text):
        self.text = text
        played = self.fault(self.run("play", text=text, statuses=(0, 1)), "play")
        ran = self.fault(self.run("run", text=text, statuses=(0, 1)), "run")
        found = self.error(self.run("check", "--script", text=text, statuses=(0, 1)), "check")
        wanted = max(played, ran) if played and ran else 0
        self.want(found == wanted, f"play has a fault on line {played}, run on line {ran}, and check on line {found}")
        self.seen["accepted" if not wanted else "refused"] += 1

    def faulty_policy(self, text):
        self.text = text
        listed = self.run("policy", text=text, statuses=(0, 1))
        line = self.fault(listed, "policy")
        self.seen["accepted" if not line else "refused"] += 1
        done = self.run("check", text=text)
        if done.returncode == 2:
            self.want(b": utf8\n" in listed.stderr, "check has no answer")
            place = re.fullmatch(rb"gthost: <stdin>:(\d+):\d+: invalid UTF-8\n", done.stderr)
            self.want(place and int(place[1]) == line, f"check names another line: {done.stderr}")
        else:
            found = self.error(done, "check")
            self.want(found == line, f"policy has a fault on line {line}, check on line {found}")

    # policies

    def policies(self, rng):
        rules = Rules(rng)
        self.text = rules.text().encode()
        triples = rules.triples()
        order = sorted(triples, key=lambda one: (one[0].encode(), one[1].encode(), PERMISSIONS.index(one[2])))
        listed = self.run("policy", text=self.text)
        self.want(listed.returncode == 0, f"policy fails: {listed.stderr}")
        wanted = "".join(" ".join(one) + "\n" for one in order)
        self.want(listed.stdout.decode() == wanted, "policy lists other triples")
        self.seen["triples"] += len(triples)
        self.questions(rng, rules, triples)
        self.breaches(rng, rules)

    def questions(self, rng, rules, triples):
        asked, wanted = [], []
        for _ in range(4):
            source, target = (rng.choice(rules.types + rules.attributes + ["-"]) for _ in range(2))
            word = rng.choice(PERMISSIONS + ["-"])
            sources, targets = (set(rules.types) if one == "-" else rules.named(one) for one in (source, target))
            if not sources or not targets:
                continue  # an attribute of no type is no source and no target
            allowed = any(s in sources and t in targets and word in ("-", one) for s, t, one in triples)
            asked.append(f"{source} {target} {word}")
            wanted.append("allowed" if allowed else "denied")
        done = self.run("why", self.file("policy.te", self.text), text="".join(line + "\n" for line in asked).encode())
        lines = done.stdout.decode().split("\n")
        said = [lines[at + 1] for at, line in enumerate(lines) if line.startswith("# ")]
        self.want(said == wanted and done.returncode == ("denied" in wanted), f"why {asked} says {said}: {done.stderr}")
        self.seen.update(wanted)

    def breaches(self, rng, rules):
        nevers = [rules.statement(never=True) for _ in range(rng.randint(1, 3))]
        never = self.file("never.te", "".join(rules.spelled("neverallow", one) + "\n" for one in nevers).encode())
        wanted = [
            (rules.first + at, number + 1)
            for at, allow in enumerate(rules.allows) for number, one in enumerate(nevers)
            if rules.triples_of(allow) & rules.triples_of(one)
        ]
        done = self.run("check", "--never", never, self.file("policy.te", self.text))
        self.want(done.returncode == bool(wanted), f"check --never has status {done.returncode}: {done.stderr}")
        found = re.findall(r":(\d+):1: error: (?:.*\n)*?\S*never\.te:(\d+):1: note: ", done.stdout.decode())
        self.want([(int(a), int(n)) for a, n in found] == wanted, f"check --never has other pairs than {wanted}")
        self.seen["breaches"] += len(wanted)


def by_domain(lines, ids):
    return sorted(lines, key=lambda line: ids.index(int(line.split()[1])))


def texts_of(printed):
    """The texts that `explore` prints, and the number of states."""
    parts = re.split(r"^text \d+ of \d+\n", printed, flags=re.M)[1:]
    last, states = re.fullmatch(r"((?:.*\n)*)states (\d+)\n", parts[-1]).groups()
    return parts[:-1] + [last], states


def answers_of(text):
    """The answers of each domain, without the numbers of their lines."""
    answers = collections.defaultdict(list)
    for line in text.splitlines():
        _, dom, answer = line.split(" ", 2)
        answers[dom].append(answer)
    return answers


def drawn_expression(rng, texts):
    """One or two terms, mostly about a line of one of the texts."""
    terms = []
    for _ in range(rng.choice([1, 1, 2])):
        lines = rng.choice(texts).splitlines()
        number, dom, answer = rng.choice(lines).split(" ", 2) if lines else ("0", "1", "ok")
        words = answer.split(" ")
        front = " ".join(words[: rng.randint(1, len(words))])
        other = rng.choice([front, front, "ok", f"N{rng.randint(1, 26)}"])
        terms.append(rng.choice([rng.choice(words), f"{number}={other}", f"{dom}:{other}"]) if lines else "ok")
    return rng.choice(["&", " & "]).join(terms)


def satisfies(text, expression):
    lines = [line.split(" ") for line in text.splitlines()]
    return all(any(meets(line, term.strip()) for line in lines) for term in expression.split("&"))


def meets(line, term):
    match = re.fullmatch(r"(\d+)([=:])(.*)", term)
    if not match:
        return term in line[2:]
    words = match[3].split()
    return line[0 if match[2] == "=" else 1] == match[1] and line[2 : 2 + len(words)] == words


def main(program, kind, count="1000", seed="1"):
    draws = Draws(os.path.abspath(program), seed)
    for number in range(int(count)):
        try:
            draws.draw(kind, number)
        except (Differs, subprocess.TimeoutExpired) as wrong:
            name = f"draws-{kind}-{seed}-{number}"
            with open(name, "wb") as out:
                out.write(draws.text)
            print(f"{kind} {number} of seed {seed}: {wrong}: {name}")
            return 1
    print(f"{kind}: {count} of seed {seed}, nothing differs")
    print(" ".join(f"{word}:{draws.seen[word]}" for word in sorted(draws.seen)))
    return 0


if __name__ == "__main__":
    if len(sys.argv) < 3:
        raise SystemExit(__doc__)
    sys.exit(main(*sys.argv[1:]))
