#!/usr/bin/env python3
"""Runs `solve` on random lists for examples/claims/model, and judges what it answers.

    tests/solving.py [RUNS [SEED]]

builds the program where needed. The lists are those of tests/judge.py: each is drawn about an image
of which is known whether it meets the list. An image that comes is judged by that script's own judge,
and each of its words must be one that a walk reads; where `impossible` comes, the known image must
break the list; a record must have so many splits as were given; and `check` must accept each log.
Ends with `N passed, M failed`.
"""
import random
import subprocess
import sys
import tempfile
from collections import Counter
from pathlib import Path

import judge

SPLITS = (0, 3, 100, 2000)


def image_of(text):
    """The image that a text spells."""
    image = {"contexts": [], "accesses": [], "words": {}}
    for line in text.splitlines():
        kind, *numbers = line.split()
        numbers = [int(n, 0) for n in numbers if kind != "image"]
        if kind == "tables":
            image["tables"] = numbers
        elif kind == "context":
            image["contexts"].append(numbers[0])
        elif kind == "access":
            image["accesses"].append(tuple(numbers))
        elif kind == "word":
            image["words"][numbers[0]] = numbers[1]
    return image


def image_fault(text, asked, about):
    """What is wrong with an image, or None."""
    image = image_of(text)
    if image["tables"] != list(about["tables"]):
        return "other table bounds"
    if [a[0] for a in image["accesses"]] != [a[0] for a in about["accesses"]]:
        return "other accesses"
    told = judge.claims(image, asked)
    if not all(told):
        return "breaks %d" % (told.index(False) + 1)
    read = {}
    for c, va, write in image["accesses"]:
        read.update(judge.Walk(image, image["contexts"][c], va, write).reads.values())
    return None if read == image["words"] else "its words are not those that are read"


def log_fault(run, text, status, splits, files):
    """What is wrong with a log, or None."""
    first = text.split("\n", 1)[0]
    if first != ("impossible" if status == 1 else "budget %d" % splits):
        return "first line " + first
    made = sum(line.startswith("split ") for line in text.splitlines())
    if status == 2 and made != splits:
        return "%d splits" % made
    files["log"].write_text(text)
    came = run("check", judge.EXAMPLE / "model", files["list"], files["log"])
    want = (0, "closed %d\n" % made) if status == 1 else (2, "open %d\n" % made)
    if (came.returncode, came.stdout) != want:
        return "check answers %d %r" % (came.returncode, came.stdout)
    return None


def fault_of(run, draw, image, asked, files):
    """What is wrong with the answer about a list, or None; and the answer's status."""
    splits = draw.choice(SPLITS)
    came = run("solve", judge.EXAMPLE / "model", files["list"], str(splits), str(draw.randrange(1 << 64)))
    status = came.returncode
    if status == 0:
        return image_fault(came.stdout, asked, image), status
    if status == 1 and all(judge.claims(image, asked)):
        return "impossible, although an image is known", status
    if status not in (1, 2):
        return "status %d: %r" % (status, came.stdout), status
    return log_fault(run, came.stdout, status, splits, files), status


def main():
    runs, seed = (int(word) for word in (sys.argv[1:] + ["200", "1"][len(sys.argv) - 1:]))
    built = subprocess.run([judge.TOP / "deeptrans"], stdout=subprocess.PIPE)
    if built.returncode != 3:
        sys.exit("the program can't be run")
    program = judge.TOP / "crates" / "deeptrans" / "out" / "deeptrans"
    draw, base, counts, failed = random.Random(seed), judge.example(), Counter(), 0

    def run(*words):
        return subprocess.run([program, *words], stdout=subprocess.PIPE, text=True)

    with tempfile.TemporaryDirectory() as folder:
        files = {name: Path(folder) / name for name in ("list", "log")}
        for number in range(runs):
            image = judge.changed(draw, base)
            asked = judge.asked_of(draw, image)
            files["list"].write_text(judge.list_text(image, asked))
            fault, status = fault_of(run, draw, image, asked, files)
            counts[status] += 1
            if fault is not None:
                failed += 1
                print("FAILED: run %d of seed %d: %s" % (number, seed, fault))
                print(files["list"].read_text() + judge.image_text(image))
    print("%d images, %d impossible, %d at their budget" % (counts[0], counts[1], counts[2]))
    print("%d passed, %d failed" % (runs - failed, failed))
    sys.exit(failed != 0)


main()
