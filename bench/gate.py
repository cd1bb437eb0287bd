#!/usr/bin/env python3
"""Runs the gate and prints what it costs: `bench/gate.py [NAME..]`.

It runs `rt ci` at the top, with the names given, shows what that prints, and then prints a table with a row for each crate that
was worked on: the lines of its src/, specs/ and proofs/, and the processor minutes of its proof, of that of its tests and of its
must-fail edits. What an earlier run passed is kept on a machine and isn't done again: it counts nothing, and the table is that of
the whole gate only where nothing was kept. The edits of all crates are told together at the end, so they count to the first crate
that has some: run it with one name for those of a crate. The row `rest` has what belongs to no crate, as the runs of programs.

A process's time is known when it has ended: what was added since the line before is counted to the crate and the part that the
next line names. Where two end between two lines, both count to the first of these.
"""
import os
import pathlib
import re
import resource
import subprocess
import sys

TOP = pathlib.Path(__file__).resolve().parent.parent
PARTS = ["proof", "tests", "edits"]
ENDED = [
    ("proof", re.compile(r"rt: (\w+) proved$")),
    ("tests", re.compile(r"rt: (\w+): its tests are proved$")),
    ("edits", re.compile(r"rt: must-fail (\w+)/")),
]


def processor_seconds(pid):
    """The processor seconds of the processes below this one that have ended."""
    fields = pathlib.Path(f"/proc/{pid}/stat").read_text().rpartition(")")[2].split()
    return (int(fields[13]) + int(fields[14])) / os.sysconf("SC_CLK_TCK")


def crate_and_part(line):
    """The crate and the part of the work whose end a line tells, if it tells one."""
    for part, ended in ENDED:
        found = ended.match(line)
        if found:
            return found.group(1), part
    return None


def lines_of(crate):
    """How many lines the sources, definitions and proofs of a crate have."""
    folder = TOP / "crates" / crate
    paths = [p for below in ("src", "specs", "proofs") for p in (folder / below).rglob("*") if p.is_file()]
    return sum(len(path.read_bytes().splitlines()) for path in paths)


def row(name, lines, minutes, total):
    """One line of the table."""
    return f"| {name} | {lines} | " + " | ".join(f"{m:.1f}" for m in [*minutes, total]) + " |"


def print_table(table, total):
    """The rows of all crates, the dearest first, what is left of the whole, and the whole."""
    columns = [sum(column) for column in zip(*table.values())] or [0.0] * len(PARTS)
    print(f"\n| crate | lines | {' | '.join(PARTS)} | all |\n|---|---|---|---|---|---|")
    for crate in sorted(table, key=lambda crate: -sum(table[crate])):
        print(row(crate, lines_of(crate), table[crate], sum(table[crate])))
    print(f"| rest | | | | | {total - sum(columns):.1f} |")
    print(row("all", sum(map(lines_of, table)), columns, total))


def main():
    gate = subprocess.Popen(["rt", "ci", *sys.argv[1:]], cwd=TOP, stdout=subprocess.PIPE, stderr=subprocess.STDOUT, text=True)
    seconds, before = {}, 0.0
    for line in gate.stdout:
        print(line, end="", flush=True)
        ended = crate_and_part(line)
        if ended:
            now = processor_seconds(gate.pid)
            crate, part = ended
            costs = seconds.setdefault(crate, dict.fromkeys(PARTS, 0.0))
            costs[part] += now - before
            before = now
    status = gate.wait()
    used = resource.getrusage(resource.RUSAGE_CHILDREN)
    total = (used.ru_utime + used.ru_stime) / 60
    print_table({crate: [costs[part] / 60 for part in PARTS] for crate, costs in seconds.items()}, total)
    return status


sys.exit(main())
