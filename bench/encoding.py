#!/usr/bin/env python3
"""Times how conjunctions become rows and prints a table: `bench/encoding.py`.

Each line has a number of conditions, the columns and rows of the system that they make as one conjunction, the
milliseconds of processor time that this took, and the nanoseconds for each condition, which are to stay about the same.
The time is the least of three runs, and includes making the tree of the conjunction and the column that each condition is
about; the time of a run of none is taken off.
"""
import os
import pathlib
import re
import subprocess
import sys

TOP = pathlib.Path(__file__).resolve().parent.parent
PROGRAM = TOP / "crates" / "encoding_bench" / "out" / "encoding_bench"


def run(count):
    """What the program prints of so many conditions, and the seconds of processor time that it took."""
    child = subprocess.Popen([PROGRAM, str(count)], stdout=subprocess.PIPE, text=True)
    printed = child.stdout.read()
    _, status, usage = os.wait4(child.pid, 0)
    if status != 0:
        sys.exit(f"{PROGRAM} {count} ended with status {os.waitstatus_to_exitcode(status)}")
    return printed, usage.ru_utime + usage.ru_stime


def best(count):
    """What the program prints of so many conditions, and the least time of three runs."""
    runs = [run(count) for _ in range(3)]
    return runs[0][0], min(seconds for _, seconds in runs)


def main():
    if not PROGRAM.exists():
        subprocess.run(["rt", "run"], cwd=PROGRAM.parent.parent, check=True, capture_output=True)
    print(f"{'conditions':>10} {'columns':>9} {'rows':>9} {'ms':>8} {'ns each':>8}")
    _, idle = best(0)
    for count in [1_000, 10_000, 100_000, 200_000]:
        printed, seconds = best(count)
        columns, rows = map(int, re.fullmatch(r"(\d+) columns, (\d+) rows\n", printed).groups())
        if (columns, rows) != (3 * count - 1, 4 * count - 2):
            sys.exit(f"{count} conditions made {columns} columns and {rows} rows")
        taken = seconds - idle
        print(f"{count:>10,} {columns:>9,} {rows:>9,} {taken * 1e3:>8.1f} {taken / count * 1e9:>8.0f}")


main()
