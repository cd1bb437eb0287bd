#!/usr/bin/env python3
"""Times sorting beside parsing and prints a table: `bench/sorting.py`.

Each line has a number of terms of a sum, the milliseconds of processor time that parsing a statement with it took, those
that sorting it took, and how many times as long sorting took. The first is what a run that parses the statement takes
beyond one that only cuts it into tokens, the second what a run that sorts it takes beyond one that only parses it; the time
of a run is the least of three.
"""
import os
import pathlib
import subprocess
import sys

TOP = pathlib.Path(__file__).resolve().parent.parent
PROGRAM = TOP / "crates" / "zim_sort_table" / "out" / "zim_sort_table"
ANSWERS = {"cut": "tokens", "parse": "a statement", "sort": "no fault"}


def seconds(word, count):
    """The seconds of processor time of a run that does this with a sum of so many terms."""
    table = f"declare var x ;\n{word} minimize o : {' + '.join(['2 * x'] * count)} ;\n"
    child = subprocess.Popen([PROGRAM], stdin=subprocess.PIPE, stdout=subprocess.PIPE, text=True)
    child.stdin.write(table)
    child.stdin.close()
    printed = child.stdout.read()
    _, status, usage = os.wait4(child.pid, 0)
    if status != 0 or not printed.endswith(f"    {ANSWERS[word]}\n"):
        sys.exit(f"{PROGRAM} didn't {word} a sum of {count} terms")
    return usage.ru_utime + usage.ru_stime


def main():
    if not PROGRAM.exists():
        subprocess.run(["rt", "run"], cwd=PROGRAM.parent.parent, check=True, capture_output=True)
    print(f"{'terms':>10} {'parsing':>9} {'sorting':>9} {'times':>6}")
    for count in [1_000, 10_000, 100_000]:
        cut, parsed, sorted_ = (min(seconds(word, count) for _ in range(3)) for word in ANSWERS)
        parsing, sorting = parsed - cut, sorted_ - parsed
        print(f"{count:>10,} {parsing * 1e3:>9.1f} {sorting * 1e3:>9.1f} {sorting / parsing:>6.2f}")


main()
