#!/usr/bin/env python3
"""Times exact numbers and sums of forms and prints two tables: `bench/numbers.py [MILLIONS]`.

The first table has the nanoseconds of one `add`, `mul` and `compare` of small whole numbers, of short
decimals and of 100-bit numbers, beside the same loop over pairs of `i128` in Rust (`bench/pairs.rs`, built
by `rustc -O`), and how many times as long ours takes. Each is done MILLIONS million times (20 if none is
given; a twentieth of that but for small numbers), and the time of a run without operations is taken off.
Both programs print a check of their results, and these must be equal. The second table has the time of a
sum of 1,000, 10,000 and 100,000 forms of one column each, added to one form in column order, and of
10,000, 100,000 and 1,000,000 whose columns come in a scattered order. Times are those of the processor, so
a busy machine disturbs them little.
"""
import os
import pathlib
import subprocess
import sys
import tempfile

TOP = pathlib.Path(__file__).resolve().parent.parent
PROGRAM = TOP / "crates" / "numbers_bench" / "out" / "numbers_bench"


def run(program, *words):
    """What a program prints, and the seconds of processor time that it took."""
    child = subprocess.Popen([program, *map(str, words)], stdout=subprocess.PIPE)
    printed = child.stdout.read()
    _, status, usage = os.wait4(child.pid, 0)
    if status != 0:
        sys.exit(f"{program} {words} ended with status {os.waitstatus_to_exitcode(status)}")
    return printed, usage.ru_utime + usage.ru_stime


def best(program, *words):
    """What a program prints, and the least time of three runs."""
    runs = [run(program, *words) for _ in range(3)]
    return runs[0][0], min(seconds for _, seconds in runs)


def per_operation(program, kind, operation, count):
    """The check and the nanoseconds of one operation."""
    printed, seconds = best(program, kind, operation, count)
    _, idle = best(program, kind, operation, 0)
    return printed, (seconds - idle) / count * 1e9


def numbers(other, millions):
    """Prints the table of operations."""
    print(f"{'operands':>8} {'operation':>9} {'ours ns':>8} {'Rust ns':>8} {'times':>6}")
    for kind in ["small", "short", "wide"]:
        count = int(millions * 1_000_000) // (1 if kind == "small" else 20)
        for operation in ["add", "mul", "compare"]:
            ours, time = per_operation(PROGRAM, kind, operation, count)
            theirs, rust = per_operation(other, kind, operation, count)
            if ours != theirs:
                sys.exit(f"{kind} {operation}: the results differ")
            print(f"{kind:>8} {operation:>9} {time:>8.1f} {rust:>8.1f} {time / rust:>6.2f}")


def forms():
    """Prints the table of sums."""
    print(f"\n{'columns':>9} {'forms':>9} {'ms':>8} {'ns each':>8}")
    _, idle = best(PROGRAM, "forms", "add", 0)
    in_order = [("in order", "add", count) for count in [1_000, 10_000, 100_000]]
    scattered = [("scattered", "gather", count) for count in [10_000, 100_000, 1_000_000]]
    for columns, operation, count in in_order + scattered:
        printed, seconds = best(PROGRAM, "forms", operation, count)
        if int(printed) != count:
            sys.exit(f"a sum of {count} columns has {int(printed)} terms")
        print(f"{columns:>9} {count:>9,} {(seconds - idle) * 1e3:>8.2f} {(seconds - idle) / count * 1e9:>8.0f}")


def main():
    millions = float(sys.argv[1]) if sys.argv[1:] else 20
    if not PROGRAM.exists():
        subprocess.run(["rt", "run"], cwd=PROGRAM.parent.parent, check=True, capture_output=True)
    with tempfile.TemporaryDirectory() as folder:
        other = pathlib.Path(folder, "pairs")
        subprocess.run(["rustc", "-O", "-o", other, TOP / "bench" / "pairs.rs"], check=True)
        numbers(other, millions)
    forms()


main()
