#!/usr/bin/env python3
"""Times the program on generated plain models and prints a table: `bench/plain.py [STATEMENTS..]`.

Half of a model's statements declare variables and half are constraints of three terms. Each model comes in
two variants with the same variables in the same constraints: one with whole numbers, and one with their
hundredth parts. For each number of statements (10,000, 100,000 and 1,000,000 if none is given) and each variant
it prints the seconds that the fastest of three runs took, those of them that a processor worked, the most memory
that it held at once, and the bytes that it read and, in its three files, wrote. The last column has the
processor's seconds of the decimal variant over those of the whole one, which are to be at most 1.5.
"""
import os
import pathlib
import random
import subprocess
import sys
import tempfile
import time

PROGRAM = pathlib.Path(__file__).resolve().parent.parent / "zimplc"
VARIANTS = ["whole", "decimal"]
RUNS = 3


def number(draw, most, variant):
    """A whole number from 1 to the most, or the hundredth part of one."""
    whole = draw.randint(1, most)
    return str(whole) if variant == "whole" else f"{whole // 100}.{whole % 100:02}"


def model_text(statements, variant):
    """A plain model: variables x0, x1, .., and constraints of three terms; it has no objective."""
    draw = random.Random(statements)
    count = statements // 2
    lines = [f"var x{j};" for j in range(count)]
    for i in range(statements - count):
        a, b, c = sorted(draw.sample(range(count), 3))
        p, q, r = (number(draw, most, variant) for most in (99, 99, 999))
        lines.append(f"subto c{i}: {p}*x{a} - {q}*x{b} + x{c} <= {r};")
    return "\n".join(lines) + "\n"


def measured(statements, variant):
    """Compiles one model and gives seconds, processor seconds, peak bytes, bytes read and bytes written."""
    with tempfile.TemporaryDirectory() as folder:
        model = pathlib.Path(folder, "m.zpl")
        model.write_text(model_text(statements, variant))
        start = time.monotonic()
        child = subprocess.Popen([PROGRAM, "m.zpl", "--out", "m"], cwd=folder)
        _, status, usage = os.wait4(child.pid, 0)
        seconds = time.monotonic() - start
        if status != 0:
            sys.exit(f"the run of {statements} statements ended with status {os.waitstatus_to_exitcode(status)}")
        written = sum(p.stat().st_size for p in pathlib.Path(folder).iterdir()) - model.stat().st_size
        worked = usage.ru_utime + usage.ru_stime
        return seconds, worked, usage.ru_maxrss * 1024, model.stat().st_size, written


def fastest(statements):
    """The run of each variant that worked least, of several that take turns."""
    rounds = [[measured(statements, variant) for variant in VARIANTS] for _ in range(RUNS)]
    return [min(runs, key=lambda run: run[1]) for runs in zip(*rounds)]


def main():
    sizes = [int(word) for word in sys.argv[1:]] or [10_000, 100_000, 1_000_000]
    subprocess.run([PROGRAM], capture_output=True)
    print(f"{'statements':>12} {'numbers':>8} {'seconds':>9} {'processor':>9} {'peak MiB':>9} {'read':>12} {'written':>12} {'times':>6}")
    for statements in sizes:
        runs = fastest(statements)
        for variant, (seconds, worked, peak, read, written) in zip(VARIANTS, runs):
            times = worked / max(runs[0][1], 0.001)
            print(
                f"{statements:>12,} {variant:>8} {seconds:>9.2f} {worked:>9.2f} {peak / 2**20:>9.1f}"
                f" {read:>12,} {written:>12,} {times:>6.2f}",
                flush=True,
            )


main()
