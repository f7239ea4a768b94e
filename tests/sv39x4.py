#!/usr/bin/env python3
"""Compares `walk @sv39x4` with a walk of its own on random images.

The walk here follows the RISC-V Privileged Architecture 20211203, sections 4.3.2, 8.4 and 8.5, with
Svnapot and Svpbmt, and knows nothing of the model's graph. Each image has 64 accesses in 16 contexts
over the tables of both stages, with entries near the edge of every rule.
Usage: tests/sv39x4.py [RUNS [SEED]]. Ends with `N passed, M failed`.
"""

import random
import subprocess
import sys
import tempfile
from pathlib import Path

TOP = Path(__file__).resolve().parent.parent
LOW, PAGE = 0x80000000, 4096
ROOT, SECOND, FIRST = 0, (4, 5), (6, 7, 8)
HIGH = LOW + 9 * PAGE
FETCH, LOAD, STORE, READ = range(4)
CODES = {"pf": (12, 13, 15), "af": (1, 5, 7), "gf": (20, 21, 23)}
INDICES = [0, 1, 2, 511]


class Fault(Exception):
    """A fault by the first letters of its name."""


def bits(number, high, low):
    return number >> low & (1 << high - low + 1) - 1


def may(entry, use, mxr):
    """R, W and X for a fetch, load, store, or the read of an entry of the first stage."""
    readable, writable, executable = (bits(entry, k, k) for k in (1, 2, 3))
    return (executable, readable or mxr and executable, writable, readable)[use]


def stage(walk, x, root, top, fetch, fault, permitted, stores):
    """Where a stage leads the address x, and its page; fetch reads an entry."""
    table = root
    for level in (2, 1, 0):
        high = top if level == 2 else 20 + 9 * level
        entry = fetch("%s%d" % (walk, level), table + bits(x, high, 12 + 9 * level) * 8)
        valid, readable, writable, executable = (bits(entry, k, k) for k in range(4))
        if not valid or writable and not readable or bits(entry, 60, 54) or bits(entry, 62, 61) == 3:
            raise Fault(fault)
        napot, number = bits(entry, 63, 63), bits(entry, 53, 10)
        if not readable and not executable:
            if any(bits(entry, k, k) for k in (4, 6, 7, 63)) or bits(entry, 62, 61) or level == 0:
                raise Fault(fault)
            table = number * PAGE
            continue
        if napot and (level != 0 or number % 16 != 8) or not permitted(entry):
            raise Fault(fault)
        if number % 512 ** level or not bits(entry, 6, 6) or stores and not bits(entry, 7, 7):
            raise Fault(fault)
        size = 16 if napot else 12 + 9 * level
        return number * PAGE >> size << size | x % 2 ** size, size
    raise AssertionError("a pointer at level 0")


def walk(context, access, words):
    """The lines of a walk behind its first."""
    (vsatp, hgatp, sum_bit, vmxr, hmxr), (va, kind, user) = context, access
    lines = []

    def physical(name, address):
        if not LOW <= address < HIGH or address % 8:
            raise Fault("af")
        lines.append("read %s 0x%x 0x%x" % (name, address, words.get(address, 0)))
        return words.get(address, 0)

    def second(letter, x, use):
        if hgatp == 0:
            if x >> 56:
                raise Fault("af")
            return x, None
        if x >> 41:
            raise Fault("gf")
        allowed = lambda entry: bits(entry, 4, 4) and may(entry, use, hmxr)
        return stage(letter, x, bits(hgatp, 43, 0) * PAGE, 40, physical, "gf", allowed, use == STORE)

    def through_second(name, address):
        letter = {"v2": "a", "v1": "b", "v0": "c"}[name]
        return physical(name, second(letter, address, READ)[0])

    def serves(entry):
        for_user = bits(entry, 4, 4)
        if user and not for_user or not user and for_user and (kind == FETCH or not sum_bit):
            return False
        return may(entry, kind, vmxr or hmxr)

    try:
        first_page, x = None, va
        if vsatp:
            if va >> 38 not in (0, 2 ** 26 - 1):
                raise Fault("pf")
            x, first_page = stage("v", va, bits(vsatp, 43, 0) * PAGE, 38, through_second, "pf", serves, kind == STORE)
        pa, second_page = second("g", x, kind)
    except Fault as fault:
        letters = fault.args[0]
        return lines + ["fault %s%d %d" % (letters, CODES[letters][kind], CODES[letters][kind])]
    pages = [page for page in (first_page, second_page) if page]
    name = "d%d" % min(pages) if pages else "dbare"
    return lines + ["done %s 0x%x %d" % (name, pa, min(pages + [12] * (not pages)))]


def changed(draw, entry):
    if draw.random() < 0.12:
        entry ^= 1 << draw.choice([0, 1, 2, 3, 4, 5, 6, 7, 8, 10, 13, 14, 19, 54, 60, 61, 62, 63])
    return entry


def second_entry(draw, level, index):
    """An entry of the second stage: a page of the same place from LOW on, or a pointer."""
    if level and draw.random() < 0.6:
        return changed(draw, (LOW >> 12) + SECOND[2 - level] << 10 | 1)
    number = (LOW >> 12) + (index << 9 * level)
    napot = level == 0 and draw.random() < 0.1
    number = number & ~15 | 8 if napot and draw.random() < 0.8 else number
    flags = draw.choice([0xDF] * 8 + [0xD7, 0xD7, 0xD9, 0xD3, 0x5F, 0xCF])
    return changed(draw, napot << 63 | number << 10 | flags)


def first_entry(draw, place):
    """An entry of the guest: a pointer to one of its tables, or a page."""
    base = draw.choice([0, 0, 0, LOW >> 12])
    if draw.random() < (0.8, 0.7, 0.1)[place]:
        return changed(draw, base + draw.choice([FIRST[min(place + 1, 2)]] * 4 + [6, 7, 8, 9]) << 10 | 1)
    napot = draw.random() < 0.2
    number = draw.choice([0, 5, 8, 0x200, 0x40000, 0x40000, 0x7FFFFFF, draw.getrandbits(29), draw.getrandbits(44)])
    number = number & ~15 | 8 if napot and draw.random() < 0.8 else number
    return changed(draw, napot << 63 | number << 10 | draw.choice([0xC7, 0xCF, 0xCF, 0xDF, 0xDF, 0xD7, 0x47, 0x49, 0xD9]))


def random_image(draw):
    words = {}
    for index in INDICES + [512, 2047]:
        words[LOW + index * 8] = second_entry(draw, 2, index)
    for level, page in zip((1, 0), SECOND):
        for index in INDICES + list(range(5, 10)):
            words[LOW + page * PAGE + index * 8] = second_entry(draw, level, index)
    for place, page in enumerate(FIRST):
        for index in INDICES:
            words[LOW + page * PAGE + index * 8] = first_entry(draw, place)
    contexts = []
    for _ in range(16):
        bare = draw.random() < 0.15
        root = draw.choice([6] * 9 + [7, 9, 0x20000000]) + (bare and LOW >> 12)
        vsatp = 0 if draw.random() < 0.15 else 8 << 60 | root
        hgatp = 0 if bare else 8 << 60 | (LOW >> 12) + draw.choice([ROOT] * 9 + [12]) | draw.choice([0, 0, 0x3FFF << 44])
        contexts.append((vsatp, hgatp) + tuple(draw.getrandbits(1) for _ in range(3)))
    accesses = []
    for _ in range(64):
        va = draw.getrandbits(12)
        for level in range(3):
            va |= draw.choice(INDICES) << 12 + 9 * level
        if bits(va, 38, 38) and draw.random() < 0.7:
            va |= (2 ** 25 - 1) << 39
        if draw.random() < 0.08:
            va ^= 1 << draw.randrange(39, 64)
        accesses.append((draw.randrange(16), (va, draw.randrange(3), draw.getrandbits(1))))
    return words, contexts, accesses


def text_of(words, contexts, accesses):
    lines = ["image 1", "tables 0x%x 0x%x" % (LOW, HIGH)]
    lines += ["context 0x%x 0x%x 0x%x 0x%x 0x%x" % context for context in contexts]
    lines += ["access %d 0x%x 0x%x 0x%x" % ((context,) + inputs) for context, inputs in accesses]
    lines += ["word 0x%x 0x%x" % word for word in sorted(words.items())]
    return "\n".join(lines + ["end"]) + "\n"


def main():
    runs, seed = (int(word) for word in (sys.argv[1:] + ["100", "1"][len(sys.argv) - 1:]))
    built = subprocess.run([TOP / "deeptrans"], stdout=subprocess.PIPE)
    if built.returncode != 3:
        sys.exit("the program can't be run")
    program = TOP / "crates" / "deeptrans" / "out" / "deeptrans"
    draw, passed, failed, ends = random.Random(seed), 0, 0, {}
    with tempfile.TemporaryDirectory() as folder:
        file = Path(folder) / "image"
        for run in range(runs):
            words, contexts, accesses = random_image(draw)
            wanted = []
            for k, (context, inputs) in enumerate(accesses):
                lines = walk(contexts[context], inputs, words)
                wanted += ["access %d" % k] + lines
                end = lines[-1].split()[1]
                ends[end] = ends.get(end, 0) + 1
            file.write_text(text_of(words, contexts, accesses))
            came = subprocess.run([program, "walk", "@sv39x4", file], stdout=subprocess.PIPE, text=True)
            if came.stdout == "\n".join(wanted) + "\n" and came.returncode == 0:
                passed += 1
            else:
                failed += 1
                print("FAILED: run %d of seed %d" % (run, seed))
    print("ends: " + ", ".join("%s %d" % pair for pair in sorted(ends.items())))
    print("%d passed, %d failed" % (passed, failed))
    sys.exit(failed != 0)


main()
