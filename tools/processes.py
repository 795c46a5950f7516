#!/usr/bin/env python3
"""Runs each plain command line of cases_program as a process of the built program gthost, and compares what it writes
and its exit status with what that program stores. The program of Rattle's own compiler runs one line of each status.
Then it tries each kind of fault line: the line goes to the standard error, and nothing to the standard output.
It also explores each script that a command line runs in threads: if that had two texts, its stored one would be a race.

usage: tools/processes.py [PROGRAM]        the program; crates/gthost/out/gthost if it is left out
"""

import os
import shutil
import subprocess
import sys
import tempfile

CASES = "crates/cases_program"
# Command lines with other streams than the system's (the README of cases_program).
PREFIXES = ("full: ", "unflushed: ", "asked: ", "terminal: ", "not UTF-8: ", "no memory: ", "made: ", "counted: ")

# A head and a body for `play` and `run`, and a policy: each is a text without a fault.
HEAD = b"triple b_t a_t map_read\ndomain 1 u:r:a_t 8 1 1\ndomain 2 u:r:b_t 8 1 1\n"
POLICY = b"type a_t;\nallow a_t a_t:grant copy;\n"
# Each kind of fault line of docs/FORMATS_SCRIPTS.md: the command, its standard input, and the line.
FAULTS = [
    ("play", b" " * 1_048_577, "line 1: limit"),
    ("play", HEAD + b"\xff\n", "line 4: utf8"),
    ("play", HEAD + b"do 1 revoke\n", "line 4: syntax"),
    ("play", HEAD + b"do 3 revoke 0\n", "line 4: config"),
    ("play", HEAD + b"tell 1 x\n", "line 4: mode"),
    ("run", HEAD + b"tick 1 1\n", "line 4: mode"),
    ("run", HEAD + b"await 1 x\n", "line 4: stuck"),
    ("play", b"policy\ntype a_t\nend\n", "line 3: policy syntax"),
    ("policy", b" " * 1_048_577, "line 1: policy limit"),
    ("policy", b"type a_t;\n\xff\n", "line 2: utf8"),
    ("policy", b"type a_t\n", "line 2: policy syntax"),
    ("policy", POLICY + b"allow a_t b_t:grant copy;\n", "line 3: policy unknown b_t"),
    ("policy", POLICY + b"type a_t;\n", "line 3: policy twice a_t"),
    ("policy", POLICY + b"allow a_t a_t:grant map_red;\n", "line 3: policy permission map_red"),
    ("policy", POLICY + b"neverallow a_t a_t:grant copy;\n", "line 3: policy outside neverallow"),
]


def text_of(path):
    with open(path, encoding="utf-8", errors="surrogateescape") as it:
        return it.read()


def stored():
    """Returns each plain command line with its text and its exit status, in their order."""
    lines = text_of(f"{CASES}/args").splitlines()
    blocks, rest = [], text_of(f"{CASES}/stdout")
    for line, after in zip(lines, [*lines[1:], None]):
        head = f"$ {line}\n"
        if not rest.startswith(head):
            sys.exit(f"{CASES}/stdout has no text for {line}")
        end = len(rest) if after is None else rest.index(f"\n$ {after}\n", len(head) - 1) + 1
        text, _, status = rest[len(head) : end].rpartition("status ")
        rest = rest[end:]
        if not line.startswith(PREFIXES):
            blocks.append((line, text, int(status)))
    return blocks


def differs(program, line, text, status, given):
    """Returns whether the process of a command line differs from what is stored, and prints how."""
    words = [program, *line.split(" ")[1:]]
    how = {"stdin": given, "stdout": subprocess.PIPE, "stderr": subprocess.STDOUT, "cwd": f"{CASES}/data"}
    ran = subprocess.run(words, timeout=120, check=False, **how)
    wrote = ran.stdout.decode(errors="surrogateescape")
    if ran.returncode != status:
        print(f"wrong: {line}: status {ran.returncode} in place of {status}")
    if wrote != text:
        print(f"wrong: {line}: another text than the stored one")
    return ran.returncode != status or wrote != text


def misses(program, words, given, line, status=1, out=subprocess.PIPE):
    """Returns whether a process does not end with this line as its standard error and with no other output, and says so."""
    ran = subprocess.run([program, *words], input=given, stdout=out, stderr=subprocess.PIPE, timeout=120, check=False)
    wrote = (ran.stdout or b"", ran.stderr.decode(errors="surrogateescape"), ran.returncode)
    if wrote == (b"", f"{line}\n", status):
        return False
    print(f"wrong: {' '.join(words)}: {wrote[1]!r} with status {wrote[2]}, in place of {line!r}")
    return True


def faults(program):
    """Tries each kind of fault line, and returns how many there are and how many are wrong."""
    missing = "/nonexistent/file"
    wrong = sum(misses(program, [command], given, f"gthost: {line}") for command, given, line in FAULTS)
    wrong += sum(misses(program, [it, missing], b"", "gthost: read") for it in ("play", "run", "policy"))
    full = [("play", HEAD + b"do 1 revoke 0\n"), ("run", HEAD + b"do 1 revoke 0\n"), ("policy", POLICY)]
    with open("/dev/full", "wb") as out:
        wrong += sum(misses(program, [command], given, "gthost: write", out=out) for command, given in full)
    wrong += misses(program, ["check", missing], b"", f"gthost: {missing}: no such file", 2)
    wrong += misses(program, ["rules", "N27"], b"", "gthost: no rule 'N27' (rules are N1 to N26)", 2)
    return len(FAULTS) + 8, wrong


def raced(program, blocks):
    """Returns how many scripts are run in threads, and how many of them have more than one text, and says which."""
    ran = [line.split(" ") for line, _, status in blocks if line.startswith("gthost run ") and status == 0]
    files = sorted({os.path.normpath(word) for words in ran for word in words if word.endswith(".gt")})
    wrong = 0
    for file in files:
        how = {"stdin": subprocess.DEVNULL, "stdout": subprocess.PIPE, "cwd": f"{CASES}/data", "text": True}
        texts = subprocess.run([program, "explore", file], timeout=120, check=False, **how).stdout
        if not texts.startswith("text 1 of 1\n"):
            print(f"wrong: gthost run {file} is stored, and what it prints depends on the order of its threads")
            wrong += 1
    return len(files), wrong


def main(program):
    os.chdir(os.path.join(os.path.dirname(os.path.abspath(__file__)), ".."))
    program = os.path.abspath(program)
    blocks, wrong = stored(), 0
    with open(f"{CASES}/stdin", "rb") as given:
        for line, text, status in blocks:
            wrong += differs(program, line, text, status, given)
    first = {status: (line, text, status) for line, text, status in reversed(blocks)}
    if os.path.exists(f"{program}.by-rattle"):
        with tempfile.TemporaryDirectory() as folder:
            other = shutil.copy(f"{program}.by-rattle", os.path.join(folder, "gthost"))  # its name is in its help
            for line, text, status in first.values():
                wrong += differs(other, line, text, status, subprocess.DEVNULL)
    tried, missed = faults(program)
    runs, races = raced(program, blocks)
    wrong += missed + races
    ways = f"{len(blocks)} command lines and {tried} faults as processes, statuses {sorted(first)}, {runs} scripts that run"
    print(f"{ways}: {wrong} wrong")
    return 1 if wrong or sorted(first) != [0, 1, 2] or not runs else 0


if __name__ == "__main__":
    sys.exit(main(sys.argv[1] if len(sys.argv) > 1 else "crates/gthost/out/gthost"))
