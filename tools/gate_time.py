#!/usr/bin/env python3
"""Prints how long the gate and a first build take by the rows of docs/GATE.md, as `rt ci` schedules them, and what each
part of the repository costs by them.

`rt ci` starts whatever has the longest chain of others after it, and measures a chain in lines of .rt files. Edits
fill what the proofs leave free. No row has what comes after the proofs: clang, the runs of the programs, the scripts.

usage: tools/gate_time.py            prints the tables of estimates and of parts, and the longest chain of a first build
       tools/gate_time.py --check    fails if docs/GATE.md has other estimates or parts, or rows that don't add up

An estimate of the page may be off by a twentieth, so that a line more in a crate doesn't make it stale.
"""

import collections
import glob
import heapq
import os
import re
import sys

PAGE, CRATES = "docs/GATE.md", "crates.txt"

# What a user would miss without these crates. Each crate is in one part: the first whose pattern it matches.
PARTS = (
    ("`explore --races`", r"gt_explore_(races|racing)"),
    ("claims about moments (`--never-state`)", r"gt_(state_claims|explore_states|explore_moments|moment_scripts)"),
    ("claims with terms of order", r"gt_(precedence|explore_ordered|explore_precedence)"),
    ("claims by names, several at once, and without a list of texts", r"gt_(call_names|explore_claims|explore_kinds)"),
    ("`maybe` and `leave`", r"gt_explore_(choices|by_choice)"),
    ("`--summary` and `--diff`", r"gt_explore_summary"),
    ("`--trace`, and orders with few changes of domain", r"gt_explore_(trace|tracing|changes)"),
    ("flows of bytes (`flow`, `neverflow`), noninterference, separation", r"gt_\w*flow\w*|gt_separation|gt_policy_questions"),
    ("the rest of `explore`: texts, verdicts, witnesses", r"gt_explore\w*|gt_answer_forms|gt_commuting"),
    ("policies: parser, table, findings, `neverallow`", r"gt_(policy\w*|allow|findings|neverallow|check_command)"),
    ("the library for C", r"gt_(c|start|attached)"),
    ("the monitor in threads", r"gt_(word_history|shared_table|words|live|linearization)"),
    ("scripts, `play`, `run`", r"gt_(script\w*|host|run|entries)"),
    ("the core, and what all rests on", r"gt_(types|model|entry|roster|frames|text|json|handles|audit|calls|core)"),
    ("the command line and its reasons", r"gt\w+"),
    ("tests, programs with stored output, `share`, `bench`", r"\w+"),
)
COLUMNS = ("proof", "tests", "count", "edits", "all")
Task = collections.namedtuple("Task", "waits lines seconds fills")


def read(path):
    with open(path, encoding="utf-8") as file:
        return file.read()


def rows_of(page):
    """The rows of the table of costs: five numbers for each crate, and for `all`."""
    rows = {}
    for line in page.splitlines():
        cells = [it.strip() for it in line.strip().strip("|").split("|")]
        if len(cells) == 6 and re.fullmatch(r"[a-z0-9_]+", cells[0]) and cells[0] != "crate":
            rows[cells[0]] = dict(zip(COLUMNS, (int(it or 0) for it in cells[1:])))
    return rows


def below_of():
    """The crates of crates.txt, in its order, each with those of the repository that it uses."""
    lines = re.findall(r"^([a-z]\w*)[^:\n]*:(.*)$", read(CRATES), re.M)
    names = {name for name, _ in lines}
    return {name: [it for it in words.split() if it in names] for name, words in lines}


def program_of(below):
    """The program's crate and those below it."""
    found, left = set(), ["gthost"]
    while left:
        it = left.pop()
        found.add(it)
        left += below[it]
    return {it: deps for it, deps in below.items() if it in found}


def lines_of(crate):
    """How many lines of .rt files a crate has, and whether one of them is a test's."""
    texts = [read(it) for it in glob.glob(f"crates/{crate}/src/**/*.rt", recursive=True)]
    return sum(it.count("\n") for it in texts), any(re.search(r"#\s*\[[^]]*\btest\b", it) for it in texts)


def lowest_first(below):
    """The crates in the order in which `rt ci` lists them: by how many they use, with what those use."""
    def every(crate):
        return {it for dep in below[crate] for it in [dep, *every(dep)]}
    return sorted(below, key=lambda it: len(every(it)))


def tasks_of(below, rows, whole):
    """What a run does: the proofs of the crates and, in a whole gate, the tests and edits too."""
    tasks = {}
    for crate in lowest_first(below):
        lines, has_tests = lines_of(crate)
        waits, row = [(it, "proof") for it in below[crate]], rows[crate]
        tasks[crate, "proof"] = Task(waits, lines, row["proof"], False)
        if not whole:
            continue
        tasks[crate, "tests"] = Task(waits, lines * has_tests, row["tests"], False)
        if row["count"]:
            first = [(crate, "proof"), (crate, "tests")]
            # a second check comes before several edits, and takes as long as one of them
            parts = row["count"] + (row["count"] > 1)
            if row["count"] > 1:
                tasks[crate, "seed"] = Task(first, 0, row["edits"] / parts, True)
                first = [(crate, "seed")]
            for number in range(row["count"]):
                tasks[crate, number] = Task(first, lines, row["edits"] / parts, True)
    return tasks


def behind(tasks, measure):
    """The longest chain of tasks that begins with each, by a measure."""
    found = dict.fromkeys(tasks, 0)
    for key in reversed(list(tasks)):
        found[key] += measure(tasks[key])
        for it in tasks[key].waits:
            found[it] = max(found[it], found[key])
    return found


def schedule(tasks, lanes):
    """The seconds until the last task ends."""
    rest = behind(tasks, lambda it: it.lines)
    left = sorted(tasks, key=lambda it: (tasks[it].fills, -rest[it]))
    done, running, now = set(), [], 0
    while left or running:
        while len(running) < lanes:
            ready = next((it for it in left if done.issuperset(tasks[it].waits)), None)
            if ready is None:
                break
            left.remove(ready)
            heapq.heappush(running, (now + tasks[ready].seconds, str(ready), ready))
        now, _, ended = heapq.heappop(running)
        done.add(ended)
    return now


def seconds_of(task):
    return task.seconds


def minutes(seconds):
    return f"{seconds / 60:.0f} min"


def estimate(name, tasks):
    """A line of the table. In brackets: how many times the longest chain or an even share, whichever is longer."""
    total, chain = sum(it.seconds for it in tasks.values()), max(behind(tasks, seconds_of).values())
    cells = [f"{len({crate for crate, _ in tasks})}", minutes(total), minutes(chain)]
    for lanes in (4, 2):
        time = schedule(tasks, lanes)
        cells.append(f"{minutes(time)} ({time / max(chain, total / lanes):.2f})")
    return f"| {name} | {' | '.join(cells)} |"


def estimates(below, rows):
    """The lines of the table of estimates."""
    yield "| by the rows | crates | sum | longest chain | on 4 processors | on 2 |"
    yield "|---|---|---|---|---|---|"
    yield estimate("`rt ci`", tasks_of(below, rows, True))
    yield estimate("`./gthost build`", tasks_of(program_of(below), rows, False))


def parts(below, rows):
    """The lines of the table of parts."""
    yield "| part | crates | seconds |"
    yield "|---|---|---|"
    left = list(below)
    for name, pattern in PARTS:
        found = [it for it in left if re.fullmatch(pattern, it)]
        left = [it for it in left if it not in found]
        yield f"| {name} | {len(found)} | {sum(rows[it]['all'] for it in found)} |"


def longest_chain(below, rows):
    """The crates of the longest chain of a first build, with their seconds."""
    tasks = tasks_of(program_of(below), rows, False)
    rest = behind(tasks, seconds_of)
    above = [max(rest, key=rest.get)]
    while above:
        key = max(above, key=rest.get)
        yield f"{key[0]} {tasks[key].seconds}"
        above = [it for it in tasks if key in tasks[it].waits]


def agrees(line, other):
    """Whether two lines differ at most in numbers, and in these by a twentieth."""
    number = r"\d+(?:\.\d+)?"
    pairs = zip(re.findall(number, line), re.findall(number, other))
    return re.sub(number, "", line) == re.sub(number, "", other) and all(
        abs(float(one) - float(two)) <= float(one) / 20 for one, two in pairs
    )


def wrong_rows(below, rows):
    """What is wrong with the rows: one that is missing or has no crate, or a sum that is another."""
    for crate in below:
        if crate not in rows:
            yield f"no row of {crate}"
    for crate, row in rows.items():
        if crate not in below and crate != "all":
            yield f"a row of {crate}, which {CRATES} doesn't have"
        if row["all"] != row["proof"] + row["tests"] + row["edits"]:
            yield f"the row of {crate} is not the sum of its parts"
        if crate != "all" and row["count"] != len(glob.glob(f"crates/{crate}/must-fail/*.edit")):
            yield f"the row of {crate} has another number of edits"
    for column in COLUMNS:
        total = sum(row[column] for crate, row in rows.items() if crate != "all")
        if total != rows["all"][column]:
            yield f"the row `all` has {rows['all'][column]} for {column}, and the rows {total}"


def main(words):
    os.chdir(os.path.join(os.path.dirname(os.path.abspath(__file__)), ".."))
    if words not in ([], ["--check"]):
        print("usage: tools/gate_time.py [--check]", file=sys.stderr)
        return 2
    page = read(PAGE)
    below, rows = below_of(), rows_of(page)
    wrong = list(wrong_rows(below, rows))
    if not wrong and not words:
        print("\n".join([*estimates(below, rows), "", *parts(below, rows)]))
        print("\nthe longest chain of a first build:", ", ".join(longest_chain(below, rows)))
    elif not wrong:
        lines = page.splitlines()
        made = [*estimates(below, rows), *parts(below, rows)]
        wrong = [f"no line '{it}'" for it in made if not any(agrees(it, line) for line in lines)]
    for it in wrong:
        print(f"{PAGE}: {it}", file=sys.stderr)
    return 1 if wrong else 0


if __name__ == "__main__":
    sys.exit(main(sys.argv[1:]))
