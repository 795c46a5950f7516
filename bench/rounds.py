#!/usr/bin/env python3
"""Prints the tables of docs/PERFORMANCE.md with whole calls beside C, all measured in one go.

It runs `bench/live.sh RUNS` and then `bench/c_speed.sh RUNS` on the same programs, and joins what they print: the
instructions of a round on one thread, the least nanoseconds of RUNS runs by turns, and the ratio of the times, on one
thread and on four. Above the tables are the commit, the processor and the load. PROGRAM=FILE takes the built program
bench, LIBRARY=DIR the library, and PRIORITY='chrt -f 1' runs both before other work (see bench/common.sh).

usage: bench/rounds.py [RUNS]     11 runs if it is left out; 0 counts instructions only
"""
import os, re, subprocess, sys

TOP = os.path.dirname(os.path.dirname(os.path.abspath(__file__)))

# A row: what the round is, the load of `bench live`, how calls are recorded, and the program in C beside it. The words
# have only the atomics of C beside them, which bench/words.sh times.
CALLS = [
    ("map and unmap, not recorded", "apart", "off"),
    ("map and unmap, records taken", "apart", "taken"),
    ("map and unmap, records kept", "apart", "on"),
    ("grant and revocation", "grants", "off"),
    ("withdrawal and grant", "withdrawals", "off"),
]
# The same of bytes.
BYTES = [
    ("load of 64 bytes", "load-64", "off"),
    ("load of 4,096 bytes", "load-4096", "off"),
    ("load of 64 bytes into new memory", "fresh-64", "off"),
    ("load of 4,096 bytes into new memory", "fresh-4096", "off"),
    ("store of 64 bytes", "store-64", "off"),
    ("store of 4,096 bytes", "store-4096", "off"),
    ("copy of 64 bytes, not recorded", "copy-64", "off"),
    ("copy of 4,096 bytes, not recorded", "copy-4096", "off"),
    ("copy of 4,096 bytes, records taken", "copy-4096", "taken"),
    ("forwarded copy of 64 bytes", "forward-64", "off"),
    ("forwarded copy of 4,096 bytes", "forward-4096", "off"),
]
KINDS = ["on", "ahead", "taken", "off", "words", "counted", "spread"]


def said(*words):
    """What a script prints."""
    done = subprocess.run(words, cwd=TOP, stdout=subprocess.PIPE, text=True)
    if done.returncode:
        sys.exit(f"{' '.join(words)} ended with status {done.returncode}")
    return done.stdout


def processor():
    for line in open("/proc/cpuinfo"):
        if line.startswith("model name"):
            return line.partition(":")[2].strip()
    return "unknown"


class Measured:
    """What bench/live.sh and bench/c_speed.sh printed: instructions by load and program, nanoseconds by load, threads
    and program. A round of calls is two operations, and one of bytes is one access."""

    def __init__(self, live, from_c):
        self.count, self.time = {}, {}
        for line in live.splitlines():
            words = line.split()
            if found := re.match(r"(\w+), (live-\w+|words|counted|spread): (\d+) instructions", line):
                self.count[found[1], found[2].replace("live-", "")] = int(found[3])
            elif line.endswith("instructions a round") and ", " not in line:
                names = words[1:-3]
                for name, number in zip(names[::2], names[1::2]):
                    self.count[words[0].rstrip(":"), name.replace("live-", "")] = int(number)
            elif len(words) > 8 and words[1].isdigit():
                load, threads = words[0], int(words[1])
                if "-" in load:
                    for kind, speed in zip(["off", "taken", "plain"], words[2:5]):
                        self.time[load, threads, kind] = 1_000_000 * threads / float(speed)
                else:
                    for kind, speed in zip(KINDS, words[2:9]):
                        self.time[load, threads, kind] = 2_000 * threads / float(speed)
        for line in from_c.splitlines():
            words = line.split()
            if found := re.match(r"(\w+), (\w+): (\d+) instructions a round from C", line):
                self.count[found[1], f"c-{found[2]}"] = int(found[3])
            elif len(words) == 6 and words[1].isdigit():
                self.time[words[0], int(words[1]), f"c-{words[2]}"] = 2_000 * int(words[1]) / float(words[3])


def number(value):
    return "" if value is None else f"{value:,}"


def nanoseconds(value):
    return "" if value is None else f"{value:.1f}"


def row(measured, name, load, kind, beside, threads):
    """A row of a table: instructions on one thread, nanoseconds of a round of each thread, and C's by ours."""
    ours, theirs = measured.count.get((load, kind)), measured.count.get((load, beside))
    time, other = measured.time.get((load, threads, kind)), measured.time.get((load, threads, beside))
    ratio = f"{other / time:.2f}" if time and other else ""
    counts = f" {number(ours)} | {number(theirs)} |" if threads == 1 else ""
    print(f"| {name} |{counts} {nanoseconds(time)} | {nanoseconds(other)} | {ratio} |")


def main():
    runs = sys.argv[1] if len(sys.argv) > 1 else "11"
    commit = said("git", "describe", "--always", "--dirty").strip()
    load = open("/proc/loadavg").read().split()[0]
    measured = Measured(said("bench/live.sh", runs), said("bench/c_speed.sh", runs))
    print(f"{commit}, {processor()}, {os.cpu_count()} processors, a load of {load} at the start, {runs} runs\n")
    rows = [(*it, "spread") for it in CALLS] + [(*it, "plain") for it in BYTES]
    rows[3:3] = [("map and unmap from C, not recorded", "apart", "c-off", "spread")]
    rows[5:5] = [("grant and revocation from C", "grants", "c-off", "spread")]
    rows.insert(0, ("map and unmap of bare words", "apart", "words", "none"))
    rows.append(("copy in two halves from C, no bytes", "copies", "c-off", "none"))
    print("| A round, one thread | Instructions | C | Nanoseconds | C | to C |\n|---|---|---|---|---|---|")
    for it in rows:
        row(measured, *it, 1)
    print("\n| A round, four threads | Nanoseconds | C | to C |\n|---|---|---|---|")
    for it in rows:
        if (it[1], 4, it[2]) in measured.time:
            row(measured, *it, 4)


if __name__ == "__main__":
    main()
