#!/usr/bin/env python3
"""Times the parser on long statements and prints a table: `bench/parsing.py [PARTS..]`.

A model begins with a constraint whose left side is a sum of so many terms, or with a set of so many members. Each
model comes in two variants. In one the tokens behind that statement have no semicolon, so the run ends when the
tokens are cut into statements. In the other they are a statement that no rule of the grammar reads, and as all
statements are parsed before the first is used, the run ends when the first is parsed. So the difference is the
time of parsing. For each number of parts (10,000, 100,000 and 1,000,000 if none is given) and each of the two it
prints the bytes that were read, the processor's seconds that the fastest of three runs worked on each variant, their
difference, the megabytes of text for each second of parsing, and the most memory that the second held at once.

Below it stands, for each way to nest a statement 200 deep, the least stack of a few sizes within which the program
parses it.
"""
import os
import pathlib
import resource
import subprocess
import sys
import tempfile

PROGRAM = pathlib.Path(__file__).resolve().parent.parent / "zimplc"
LONG = {
    "sum": lambda parts: "subto c: " + " + ".join(["x"] * parts) + " <= 1;\n",
    "set": lambda parts: "set A := {" + ",".join(map(str, range(1, parts + 1))) + "};\n",
}
DEEPEST = 200
NESTED = {
    "parentheses": ("(", "1", ")"),
    "brackets": ("p[", "1", "]"),
    "braces": ("card({", "1", "})"),
    "if": ("if 1 == 1 then ", "1", " else 2 end"),
    "sum": ("sum <i> in A : ", "1", ""),
}
CUT = ("var y", b"m.zpl:2: 6 OpenStatement\n")
PARSED = ("subto b c;", b"m.zpl:2: 5 Syntax\n")
STACKS_KIB = [64, 128, 256, 512, 1024, 2048, 4096, 8192]
RUNS = 3


def nested_text(beginning, middle, end):
    """A statement with a part in a part, as deep as one may stand; a beginning may open two brackets."""
    times = DEEPEST // max(1, sum(beginning.count(sign) for sign in "([{"))
    return f"param p := {beginning * times}{middle}{end * times};\n"


def run(text, ending, stack=None):
    """Runs the program over a statement and an ending, and gives whether it ended there, and what it used."""
    more, line = ending
    with tempfile.TemporaryDirectory() as folder:
        pathlib.Path(folder, "m.zpl").write_text(text + more)
        limits = stack and (lambda: resource.setrlimit(resource.RLIMIT_STACK, (stack, stack)))
        words = [PROGRAM, "m.zpl", "--out", "m"]
        child = subprocess.Popen(words, cwd=folder, preexec_fn=limits, stderr=subprocess.PIPE)
        said = child.stderr.read()
        _, _, usage = os.wait4(child.pid, 0)
        return said == line, usage


def measured(text, ending):
    """The processor's seconds and the peak bytes of a run."""
    ended, usage = run(text, ending)
    if not ended:
        sys.exit("the program didn't end where it was to end")
    return usage.ru_utime + usage.ru_stime, usage.ru_maxrss * 1024


def least_stack(text):
    """The least of the sizes, in KiB, within which the program parses a text."""
    return next((size for size in STACKS_KIB if run(text, PARSED, size * 1024)[0]), None)


def main():
    sizes = [int(word) for word in sys.argv[1:]] or [10_000, 100_000, 1_000_000]
    subprocess.run([PROGRAM], capture_output=True)
    print(f"{'parts':>12} {'of a':>6} {'read':>12} {'cut':>9} {'parsed':>9} {'parsing':>9} {'MB/s':>8} {'peak MiB':>9}")
    for parts in sizes:
        for kind, make in LONG.items():
            text = make(parts)
            rounds = [(measured(text, CUT), measured(text, PARSED)) for _ in range(RUNS)]
            (cut, _), (parsed, peak) = (min(runs) for runs in zip(*rounds))
            speed = len(text) / 1e6 / max(parsed - cut, 0.001)
            print(
                f"{parts:>12,} {kind:>6} {len(text):>12,} {cut:>9.2f} {parsed:>9.2f} {parsed - cut:>9.2f}"
                f" {speed:>8.2f} {peak / 2**20:>9.1f}",
                flush=True,
            )
    print(f"\n{'nested 200 deep':>15} {'stack KiB':>10}")
    for name, parts in NESTED.items():
        print(f"{name:>15} {least_stack(nested_text(*parts)) or 'more':>10}", flush=True)


main()
