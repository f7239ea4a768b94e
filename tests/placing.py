#!/usr/bin/env python3
"""Runs the built program on generated lists and on lists for `@sv39` with little table memory.

    tests/placing.py [all]

builds the program where needed. Each image that comes is judged by `replay`. The lists of `make` must be
solved with no split at all: a few numbers of accesses with a few seeds, and with `all` those of 2 to 64
accesses with the seeds 1 to 20. One seed gives one image, and another seed another one. `load N` must
count the words of the image that `solve` prints for the same list and seed.
Ends with `N passed, M failed`.
"""
import subprocess
import sys
import tempfile
from pathlib import Path

TOP = Path(__file__).resolve().parent.parent
PROGRAM = TOP / "crates" / "deeptrans" / "out" / "deeptrans"
COUNTS = {"passed": 0, "failed": 0}
FEW = [(n, seed) for n in (2, 3, 4, 7, 16, 64) for seed in (1, 20)]
ALL = [(n, seed) for n in range(2, 65) for seed in range(1, 21)]

ONE = """requests 1
tables 0x80000000 %s
context c0
access a0 c0
%s
bits in kind 0x3 0x1
end
"""
BAD_ROOT = "ends fault 5\nbits reg satp 0xf000000000000000 0x8000000000000000"


def run(*words):
    came = subprocess.run([PROGRAM, *map(str, words)], stdout=subprocess.PIPE, text=True)
    return came.returncode, came.stdout


def told(name, good):
    COUNTS["passed" if good else "failed"] += 1
    if not good:
        print("FAILED: " + name)


def solved(name, file, splits, seed, image):
    """The image that comes, which must meet the list."""
    status, text = run("solve", "@sv39", file, splits, seed)
    image.write_text(text)
    judged = run("replay", "@sv39", file, image) if status == 0 else None
    told("%s: status %d" % (name, status), judged == (0, "satisfies\n"))
    return text


def few_tables(folder):
    """One page for all tables, 256 of them, and none."""
    file, image = folder / "list", folder / "image"
    for end, demands, splits in (
        ("0x80001000", "via d12", 0),
        ("0x80001000", "via d12", 100000),
        ("0x80100000", "via d12", 0),
        ("0x80000000", BAD_ROOT, 0),
        ("0x80000000", BAD_ROOT, 1000),
    ):
        file.write_text(ONE % (end, demands))
        solved("tables to %s, %d splits" % (end, splits), file, splits, 1, image)
    file.write_text(ONE % ("0x80000000", "via d12"))
    told("no read can be made", run("solve", "@sv39", file, 1000, 1)[0] == 1)
    file.write_text(ONE % ("0x80100000", "via d12"))
    texts = [solved("seed %d" % seed, file, 1000, seed, image) for seed in (1, 2, 1)]
    told("another seed, another image", texts[0] != texts[1])
    told("the same seed, the same image", texts[0] == texts[2])


def made(folder, n, seed, splits):
    """The image of a generated list."""
    file, image = folder / "list", folder / "image"
    status, text = run("make", n)
    told("make %d: status %d" % (n, status), status == 0)
    file.write_text(text)
    return solved("make %d, seed %d, %d splits" % (n, seed, splits), file, splits, seed, image)


def loads(folder):
    """`load` tells of the image that `solve` prints."""
    for n in (1, 2, 4, 64):
        words = made(folder, n, n, 10000).count("\nword ")
        wanted = "load %d\naccesses %d\nanswer image\nwords %d\n" % (n, n, words)
        told("load %d" % n, run("load", n) == (0, wanted))
        told("load %d has %d words" % (n, words), n != 1 or words in (2, 3))


def main():
    if subprocess.run([TOP / "deeptrans"], stdout=subprocess.PIPE).returncode != 3:
        sys.exit("the program can't be run")
    with tempfile.TemporaryDirectory() as name:
        folder = Path(name)
        few_tables(folder)
        loads(folder)
        for n, seed in ALL if sys.argv[1:] == ["all"] else FEW:
            made(folder, n, seed, 0)
    print("%(passed)d passed, %(failed)d failed" % COUNTS)
    sys.exit(COUNTS["failed"] != 0)


main()
