#!/usr/bin/env python3
"""Runs a command, and prints before its last line what each crate's proof, tests and edits cost.

The costs are processor seconds (user and system) of the kit's processes, as /proc shows them twice a second while they
run, so each process may cost up to half a second more. Machines differ, so they are also compared with the rows of
docs/GATE.md: how many times as long this run took, and which crates took a third more or less than their rows by that
pace. The status is that of the command. If that is 0, the command CHECK runs too, before the last line is printed, and
its failure makes the status 1.

usage: tools/gate_costs.py [--then CHECK] COMMAND [WORD..]        as .ci/run does, with the command rt ci
"""

import glob
import os
import re
import subprocess
import sys
import threading
import time

TICKS = os.sysconf("SC_CLK_TCK")
PAUSE = 0.5
COLUMNS = ("proof", "tests", "edits")


def read(path):
    with open(path, "rb") as it:
        return it.read()


def part_of(pid):
    """The crate and the column of a process of the kit, or None of another."""
    words = read(f"/proc/{pid}/cmdline").decode(errors="replace").split("\0")
    if not words[0].endswith("/rattle") or "--crate-name" not in words:
        return None
    crate = words[words.index("--crate-name") + 1]
    if "/rt-edit" in os.readlink(f"/proc/{pid}/cwd") or "/rt-edit" in " ".join(words):
        return crate, "edits"
    return crate, "tests" if "--test" in words else "proof"


class Costs:
    def __init__(self):
        self.parts = {}  # (pid, start) of each process seen: its crate and column, or None
        self.seconds = {}  # (pid, start): what it took so far
        self.memory = 0  # the most that one process held, in KiB

    def look(self):
        """Notes what each process of the kit has taken so far."""
        for folder in glob.glob("/proc/[0-9]*"):
            pid = folder[6:]
            try:
                fields = read(f"{folder}/stat").decode(errors="replace").rpartition(")")[2].split()
                key = (pid, fields[19])
                if self.parts.get(key) is None:
                    # A process begins as a copy of the one that starts it, so a new one is looked at more than once.
                    self.parts[key] = part_of(pid)
                if self.parts[key]:
                    self.seconds[key] = (int(fields[11]) + int(fields[12])) / TICKS
                    self.memory = max(self.memory, int(fields[21]) * os.sysconf("SC_PAGE_SIZE") // 1024)
            except (OSError, ValueError, IndexError):
                continue

    def table(self):
        """The costs of each crate, a column each."""
        table = {}
        for key, seconds in self.seconds.items():
            crate, column = self.parts[key]
            row = table.setdefault(crate, dict.fromkeys(COLUMNS, 0.0))
            row[column] += seconds
        return table


def show(costs, seconds):
    table = costs.table()
    sums = [0.0, 0.0, 0, 0.0, 0.0]
    print("| crate | proof | tests | edits | their seconds | all |")
    print("|---|---|---|---|---|---|")
    for crate in in_order(table):
        row = table[crate]
        count = len(glob.glob(f"crates/{crate}/must-fail/*.edit"))
        cells = [row["proof"], row["tests"], count, row["edits"], sum(row.values())]
        sums = [one + other for one, other in zip(sums, cells)]
        print(f"| {crate} | " + " | ".join(f"{cell:.0f}" if cell >= 0.5 else "" for cell in cells) + " |")
    print("| all | " + " | ".join(f"{cell:.0f}" for cell in sums) + " |")
    print(f"{seconds / 60:.0f} minutes on {os.cpu_count()} processors; {costs.memory / 1024 / 1024:.1f} GiB in the largest process")
    compare(costs)


def rows_of(page):
    """The rows of the page's table: the seconds of each crate, a column each."""
    rows = {}
    for line in page.splitlines():
        cells = [it.strip() for it in line.strip().strip("|").split("|")]
        if len(cells) == 6 and re.fullmatch(r"[a-z0-9_]+", cells[0]) and cells[0] not in ("crate", "all"):
            proof, tests, _, edits = (int(it or 0) for it in cells[1:5])
            rows[cells[0]] = dict(zip(COLUMNS, (proof, tests, edits)))
    return rows


def compare(costs):
    """Prints how the costs compare with the rows of docs/GATE.md."""
    table = costs.table()
    try:
        page = rows_of(read("docs/GATE.md").decode())
    except (OSError, ValueError):
        return
    # a part that an earlier run did is in neither sum
    rows = {
        crate: {column: row[column] if table[crate][column] else 0 for column in COLUMNS}
        for crate, row in page.items()
        if crate in table
    }
    of_rows = {column: sum(row[column] for row in rows.values()) for column in COLUMNS}
    took = {column: sum(table[crate][column] for crate in rows) for column in COLUMNS}
    total = sum(of_rows.values())
    if not total or not sum(took.values()):
        return
    pace = sum(took.values()) / total
    parts = ", ".join(f"{column} {took[column] / of_rows[column]:.2f}" for column in COLUMNS if of_rows[column])
    print(f"by the rows of docs/GATE.md {total} seconds, of which this run took {pace:.2f} times as many ({parts})")
    other = []
    for crate in in_order(rows):
        row, now = sum(rows[crate].values()), sum(table[crate].values()) / pace
        if abs(now - row) >= max(10, row / 3):
            other.append(f"{crate} {now:.0f} ({row})")
    if other:
        print(f"a third from their rows, by that pace: {', '.join(other)}")
    new = [crate for crate in in_order(table) if crate not in page]
    if new:
        print(f"without a row: {', '.join(new)}")


def in_order(table):
    """The crates as crates.txt lists them, and after them any others."""
    try:
        listed = re.findall(r"^([a-z0-9_]+)[ :]", read("crates.txt").decode(), re.M)
    except OSError:
        listed = []
    return [crate for crate in listed if crate in table] + sorted(set(table) - set(listed))


def watch(costs, is_over):
    while not is_over.wait(PAUSE):
        costs.look()


def main(words):
    check = None
    if words[:1] == ["--then"]:
        check, words = words[1:2], words[2:]
    if not words:
        print(__doc__.strip().splitlines()[-1], file=sys.stderr)
        return 2
    began = time.monotonic()
    costs, is_over = Costs(), threading.Event()
    watcher = threading.Thread(target=watch, args=(costs, is_over), daemon=True)
    command = subprocess.Popen(words, stdout=subprocess.PIPE)
    watcher.start()
    last = b""
    for line in command.stdout:
        sys.stdout.buffer.write(last)
        sys.stdout.buffer.flush()
        last = line
    status = command.wait()
    is_over.set()
    watcher.join()
    show(costs, time.monotonic() - began)
    sys.stdout.flush()
    if check and status == 0:
        status = 1 if subprocess.run(check, check=False).returncode else 0
    sys.stdout.buffer.write(last)
    sys.stdout.buffer.flush()
    return status if status >= 0 else 128 - status


if __name__ == "__main__":
    sys.exit(main(sys.argv[1:]))
