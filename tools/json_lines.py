#!/usr/bin/env python3
"""The JSON of the texts of crates/cases_play, made and read by another program than gthost.

    tools/json_lines.py check            compares the end of crates/cases_play/stdout with this program's JSON, reads
                                   each of its lines as JSON, and makes the line of the text of it again
    tools/json_lines.py expected         prints what the end of that file has to be, from `== run` on
    tools/json_lines.py program GTHOST   runs GTHOST on the examples, on the dumps of crates/cases_program and on dumps
                                   of drawn bytes, with --format json and without, and compares; then runs each command
                                   line of crates/cases_program with --format json, and reads each line as an object
                                   that has no name twice

Exit status: 0 if all is the same. docs/FORMATS_SCRIPTS.md has the form, from which this is written.
"""
import glob
import json
import os
import random
import re
import subprocess
import sys
import tempfile

TOP = os.path.dirname(os.path.dirname(os.path.abspath(__file__)))
CASES = os.path.join(TOP, "crates", "cases_play")
CALLS = {
    "map": ["owner", "ref", "flags"],
    "unmap": ["owner", "ref"],
    "size": ["owner"],
    "getversion": ["owner"],
    "version": ["asked"],
    "setup": ["asked"],
    "copy": [end + part for end in ("from_", "to_") for part in ("kind", "owner", "at", "off")] + ["len", "flags"],
}
WITH_FORMAT = ["play", "run", "explore", "policy", "check", "flow", "entries"]
PLAIN_NUMBER = re.compile(r"-?(0|[1-9][0-9]*)\Z", re.ASCII)


def value(name, word, is_fact):
    """A word as a value: hexadecimal is text, whatever its digits."""
    if not (is_fact and name in ("bytes", "status")) and PLAIN_NUMBER.match(word):
        return int(word)
    return None if word == "-" else word


def facts(words):
    """Members of words NAME=VALUE, and of the bytes of an answer."""
    for word in words:
        name, mark, rest = word.partition("=")
        yield (name, value(name, rest, True)) if mark else ("bytes", value("bytes", word, True))


def answer(words):
    if words[:1] and words[0].startswith("N"):
        yield "rule", value("rule", words[0], False)
        if words[1:]:
            yield "status", value("status", words[1], False)
        yield from facts(words[2:])
    elif words:
        yield "answer", value("answer", words[0], False)
        yield from facts(words[1:])


def entry(words):
    """An entry, after its reference."""
    names = {"page": ["grantee", "mode"], "sub": ["grantee", "mode"], "via": ["grantee", "mode"], "refused": ["field"]}
    yield "kind", words[0]
    named = names.get(words[0], [])
    yield from ((name, value(name, word, False)) for name, word in zip(named, words[1:]))
    yield from facts(words[1 + len(named):])


def run_line(words):
    if words[0] == "audit":
        yield "type", "audit"
        yield "domain", value("domain", words[1], False)
        if words[2:] and words[2] in CALLS:
            colon = words.index(":")
            yield "call", words[2]
            yield from ((name, value(name, word, False)) for name, word in zip(CALLS[words[2]], words[3:colon]))
            yield from answer(words[colon + 1:])
        return
    if words[0] == "lost":
        yield "type", "lost"
        yield "records", value("records", words[1], False)
        return
    yield "line", value("line", words[0], False)
    if words[1:] and words[1] == "show":
        yield "type", "show"
        yield "domain", value("domain", words[2], False)
        yield "entry", value("entry", words[3], False)
        yield from entry(words[4:])
    elif words[1:]:
        yield "domain", value("domain", words[1], False)
        yield from answer(words[2:])


def members(kind, line):
    words = line.split(" ")
    if kind == "policy":
        return [(name, value(name, word, False)) for name, word in zip(["source", "target", "perm"], words)]
    if kind == "entries":
        return [("entry", value("entry", words[0], False))] + list(entry(words[1:]))
    return list(run_line(words))


def spelled(text):
    """A value as gthost spells it: only what JSON has to escape is escaped."""
    if text is None:
        return "null"
    if isinstance(text, int):
        return str(text)
    escapes = {'"': '\\"', "\\": "\\\\"}
    return '"' + "".join(escapes.get(c, "\\u%04x" % ord(c) if c < " " else c) for c in text) + '"'


def object_of(pairs):
    return "{" + ",".join(spelled(name) + ":" + spelled(what) for name, what in pairs) + "}"


def text_of(kind, pairs):
    """The line of a text that an object tells."""
    keyed = {"frames", "max", "version", "source", "target", "perm", "field", "frame", "off", "len", "to", "ref", "gen",
             "reads", "writes", "status", "live"}
    call = dict(pairs).get("call")
    words, is_answer = [], False
    for i, (name, what) in enumerate(pairs):
        word = "-" if what is None else str(what)
        if call is not None and not is_answer and name in ("answer", "rule"):
            words.append(":")
            is_answer = True
        positional = (
            kind == "policy"
            or name not in keyed
            or (call is not None and not is_answer and name in CALLS[call])
            or (name == "status" and pairs[i - 1][0] == "rule")
            or (name == "field" and pairs[i - 1] == ("kind", "refused"))
        )
        words.append(word if positional else name + "=" + word)
    return " ".join(words)


def read_object(line):
    """The members of the object of a line, in which no object may have a name twice."""

    def once(pairs):
        if len({name for name, _ in pairs}) != len(pairs):
            raise ValueError("a name is there twice: " + line)
        return pairs

    return json.loads(line, object_pairs_hook=once)


def lines_of(name):
    with open(os.path.join(CASES, "data", name), "rb") as file:
        return file.read().decode("utf-8", errors="replace").split("\n")


ODD = [
    [("line", 12), ("domain", 1), ("answer", 'say"so\\n\x01\x1f\x7f')],
    [("line", 12), ("domain", 1), ("answer", "ok"), ("a", "b=c")],
    [("line", ":")],  # the second colon is that of an audit line
    [("line", -5), ("domain", "01"), ("answer", "ok")],
    [("type", "audit"), ("answer", "ok")],
    [("line", ""), ("domain", 1)],
    [("line", 1), ("domain", 2), ("rule", "N5"), ("status", -8), ("source", '"\\\t"'), ("target", "\u00e9"),
     ("perm", "\ufffd")],
    [("line", "last"), ("domain", "line")],
]


def expected():
    out = []
    for name in ("run", "policy", "entries"):
        out.append("== " + name)
        out.extend(object_of(members(name, line)) for line in lines_of(name + ".txt") if line)
    out.append("== odd")
    out.extend(object_of(pairs) for pairs in ODD)
    out.append("each write that fails is told")
    return "\n".join(out) + "\n"


def compare(kind, text, objects):
    """How many lines differ."""
    wrong = 0
    if len(text) != len(objects):
        print("not as many objects as lines:", len(objects), len(text))
        return 1
    for line, told in zip(text, objects):
        pairs = read_object(told)
        if text_of(kind, pairs) != line or pairs != members(kind, line):
            print("another line:", line, told)
            wrong += 1
    return wrong


def check():
    with open(os.path.join(CASES, "stdout"), encoding="utf-8") as file:
        _, mark, end = file.read().partition("== run\n")
    stored = mark + end
    wrong = 0 if stored == expected() else 1
    if wrong:
        print("the stored text is another than this program makes")
    sections = re.split(r"== (\w+)\n", stored)[1:]
    for kind, body in zip(sections[::2], sections[1::2]):
        objects = [line for line in body.split("\n") if line.startswith("{")]
        if kind == "odd":
            for told in objects:
                read_object(told)
            continue
        wrong += compare(kind, [line for line in lines_of(kind + ".txt") if line], objects)
    return wrong


def printed(words):
    return subprocess.run(words, capture_output=True, check=False)


def drawn_dump(rng):
    """Bytes of a dump: entries whose bits are drawn, and some zeros; the end may be cut off."""
    entries = []
    for _ in range(rng.randint(1, 600)):
        bits = rng.choice([0, 1, 1, 1, 1, 2, 3, rng.getrandbits(16)]) | rng.choice([0, 0, 4, 8, 24, 0x8000, 0x40, 0x100])
        entry = bits.to_bytes(2, "little") + rng.choice([0, 1, 2, 32751, rng.getrandbits(16)]).to_bytes(2, "little")
        entry += rng.choice([b"\0" * 12, b"\5" + b"\0" * 11, rng.randbytes(12), b"\1\0\2" + b"\0" * 9])
        entries.append(rng.choice([entry[:8], entry[:16], b"\0" * 8]))
    whole = b"".join(entries)
    return whole[: len(whole) - rng.choice([0, 0, 3])]


def entries_of(gthost):
    """How many dumps were told, and how many differences there are."""
    rng = random.Random(1)
    wrong = runs = 0
    with tempfile.TemporaryDirectory() as folder:
        for number in range(40):
            with open(os.path.join(folder, "%d.bin" % number), "wb") as file:
                file.write(drawn_dump(rng))
        dumps = glob.glob(os.path.join(folder, "*.bin")) + glob.glob(os.path.join(TOP, "crates", "cases_program", "data", "dumps", "*"))
        for path in sorted(dumps + glob.glob(os.path.join(TOP, "examples", "*.hex"))):
            hexadecimal = ["--hex"] if path.endswith(".hex") else []
            for words in (["--version", version, *every, *hexadecimal] for version in "12" for every in ([], ["--all"])):
                text = printed([gthost, "entries", *words, path])
                told = printed([gthost, "entries", *words, "--format", "json", path])
                wrong += (text.returncode, text.stderr) != (told.returncode, told.stderr)
                if text.returncode == 0:
                    runs += 1
                    wrong += compare("entries", text.stdout.decode().splitlines(), told.stdout.decode().splitlines())
    return runs, wrong


def every_command_line(gthost):
    """How many objects the command lines of crates/cases_program print, and how many of them can't be read."""
    cases = os.path.join(TOP, "crates", "cases_program")
    gthost = os.path.abspath(gthost)
    wrong = objects = 0
    with open(os.path.join(cases, "args"), encoding="utf-8") as file:
        lines = [line.split() for line in file]
    for words in lines:
        if words[:1] != ["gthost"] or words[1:2] not in [[name] for name in WITH_FORMAT]:
            continue
        if "-h" in words or "--help" in words:
            continue  # a help is no JSON
        forms = [] if any(word.startswith("--format") for word in words) else ["--format", "json"]
        with open(os.path.join(cases, "stdin"), "rb") as stdin:
            told = subprocess.run([gthost, words[1], *forms, *words[2:]], cwd=os.path.join(cases, "data"), stdin=stdin,
                                  capture_output=True, check=False)
        for line in told.stdout.decode(errors="replace").splitlines():
            if forms or line.startswith("{"):
                objects += 1
                try:
                    read_object(line)
                except ValueError as fault:
                    print(" ".join(words), fault)
                    wrong += 1
    return objects, wrong


def program(gthost):
    wrong = runs = 0
    for path in sorted(glob.glob(os.path.join(TOP, "examples", "*.gt"))):
        for command in (["play"], ["play", "--audit"], ["run", "--audit"]):
            text = printed([gthost, *command, path])
            told = printed([gthost, *command, "--format", "json", path])
            if text.returncode or told.returncode != text.returncode:
                wrong += text.returncode != told.returncode
                continue
            runs += 1
            if command[0] == "play":
                wrong += compare("run", text.stdout.decode().splitlines(), told.stdout.decode().splitlines())
            else:
                # two runs may go other ways: what the objects say has to be lines of a run
                for line in told.stdout.decode().splitlines():
                    pairs = read_object(line)
                    wrong += members("run", text_of("run", pairs)) != pairs
    for path in sorted(glob.glob(os.path.join(TOP, "examples", "*.te"))):
        runs += 1
        text = printed([gthost, "policy", path]).stdout.decode().splitlines()
        wrong += compare("policy", text, printed([gthost, "policy", "--format", "json", path]).stdout.decode().splitlines())
    told, differences = entries_of(gthost)
    wrong += differences
    objects, unread = every_command_line(gthost)
    wrong += unread
    print(runs, "texts,", told, "dumps and", objects, "objects,", wrong, "differences")
    return wrong if runs and told and objects else 1


if __name__ == "__main__":
    if sys.argv[1:] == ["check"]:
        failures = check()
        print("the same" if not failures else "%d differences" % failures)
        sys.exit(1 if failures else 0)
    if sys.argv[1:] == ["expected"]:
        sys.stdout.buffer.write(expected().encode())
        sys.exit(0)
    if len(sys.argv) == 3 and sys.argv[1] == "program":
        sys.exit(1 if program(sys.argv[2]) else 0)
    print(__doc__)
    sys.exit(2)
