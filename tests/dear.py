#!/usr/bin/env python3
"""Proves a crate from nothing with one job, and prints what each part of its proof took.

    python3 tests/dear.py CRATE [SECONDS]

A part is a module of the proof: `PATH.Lts` is what a function does, step by step, `PATH.Proof` its
goals and their answers, and what has no function in its name the definitions and lemmas of the
crate. Parts that took SECONDS or more are printed, 2 where no number is given, dearest first. The
seconds are those of the clock, so the machine should have a processor free. What the crate stands
on is proved first where it isn't yet, and not counted.
"""
import os
import re
import subprocess
import sys
import time

TOP = os.path.dirname(os.path.dirname(os.path.abspath(__file__)))


def modules(folder):
    """The files of proved modules, by the time at which each was written."""
    for at, _, names in os.walk(folder):
        for name in filter(lambda it: it.endswith(".oantt"), names):
            path = f"{at}/{name}"
            yield os.stat(path).st_mtime, path


def main(crate, least="2"):
    folder = f"{TOP}/crates/{crate}"
    for _, path in list(modules(f"{folder}/out")):
        os.remove(path)
    begin = time.time()
    ended = subprocess.run(["rt", "check", "--jobs", "1"], cwd=folder, stdout=sys.stderr).returncode
    written = sorted(it for it in modules(f"{folder}/out") if it[0] >= begin)
    if not written:
        return ended or 1
    before, took = written[0][0], {}
    for at, path in written:
        name = re.sub(rf"^Rattle-{crate}-(proofs\.)?|(\.decls)?\.oantt$", "", os.path.basename(path))
        took[name] = took.get(name, 0) + at - before
        before = at
    for name, seconds in sorted(took.items(), key=lambda it: -it[1]):
        if seconds >= float(least):
            print(f"{seconds:8.1f} {name}")
    print(f"{sum(took.values()):8.1f} all, after the first module")
    return ended


if __name__ == "__main__":
    sys.exit(main(*sys.argv[1:]))
