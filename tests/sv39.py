#!/usr/bin/env python3
"""Compares `walk @sv39` with a walk of its own on random images.

The walk here follows the steps of the RISC-V Privileged Architecture 20211203, section 4.3.2, with
Svnapot and Svpbmt, and knows nothing of the model's graph. Each image has 64 accesses in 16 contexts
over four tables, with entries near the edge of every rule.
Usage: tests/sv39.py [RUNS [SEED]]. Ends with `N passed, M failed`.
"""

import random
import subprocess
import sys
import tempfile
from pathlib import Path

TOP = Path(__file__).resolve().parent.parent
LOW, PAGE = 0x80000000, 4096
HIGH = LOW + 4 * PAGE
FETCH, LOAD, STORE = range(3)
PAGE_FAULT, ACCESS_FAULT = (12, 13, 15), (1, 5, 7)


def bits(number, high, low):
    return number >> low & (1 << high - low + 1) - 1


def permitted(entry, kind, user, sum_bit, mxr):
    readable, writable, executable, for_user = (bits(entry, k, k) for k in (1, 2, 3, 4))
    if user and not for_user:
        return False
    if not user and for_user and (kind == FETCH or not sum_bit):
        return False
    return (executable, readable or mxr and executable, writable)[kind]


def leaf(entry, level, va, kind, user, sum_bit, mxr):
    """The name, address and page of a result, or None for a page fault."""
    napot, number = bits(entry, 63, 63), bits(entry, 53, 10)
    if napot and (level != 0 or number % 16 != 8):
        return None
    if not permitted(entry, kind, user, sum_bit, mxr):
        return None
    if number % 512 ** level:
        return None
    if not bits(entry, 6, 6) or kind == STORE and not bits(entry, 7, 7):
        return None
    size = 16 if napot else 12 + 9 * level
    return "d%d" % size, number * PAGE >> size << size | va % 2 ** size, size


def walk(context, access, words):
    """The lines of a walk behind its first."""
    (satp, sum_bit, mxr), (va, kind, user) = context, access
    page_fault = "fault pf%d %d" % (PAGE_FAULT[kind], PAGE_FAULT[kind])
    access_fault = "fault af%d %d" % (ACCESS_FAULT[kind], ACCESS_FAULT[kind])
    if satp == 0:
        return [access_fault if va >> 56 else "done dbare 0x%x 12" % va]
    if va >> 38 not in (0, 2 ** 26 - 1):
        return [page_fault]
    lines, table = [], bits(satp, 43, 0) * PAGE
    for level in (2, 1, 0):
        address = table + bits(va, 20 + 9 * level, 12 + 9 * level) * 8
        if not LOW <= address < HIGH:
            return lines + [access_fault]
        entry = words.get(address, 0)
        lines.append("read r%d 0x%x 0x%x" % (level, address, entry))
        valid, readable, writable, executable = (bits(entry, k, k) for k in range(4))
        if not valid or writable and not readable or bits(entry, 60, 54) or bits(entry, 62, 61) == 3:
            return lines + [page_fault]
        if readable or executable:
            found = leaf(entry, level, va, kind, user, sum_bit, mxr)
            return lines + ["done %s 0x%x %d" % found if found else page_fault]
        if any(bits(entry, k, k) for k in (4, 6, 7, 63)) or bits(entry, 62, 61) or level == 0:
            return lines + [page_fault]
        table = bits(entry, 53, 10) * PAGE
    raise AssertionError("a pointer at level 0")


def random_entry(draw, table):
    """An entry of one of the four tables, which leads on or maps a page, at times with a bit changed."""
    if draw.random() < (0.75 if table < 2 else 0.15):
        entry = (LOW >> 12) + draw.choice([1, 2, 2, 3, table, 5]) << 10 | 1
    else:
        napot = draw.random() < 0.25
        number = draw.choice([0x90000, 0x90200, 0xC0000, 0xC0000, draw.getrandbits(44)])
        number = number & ~15 | 8 if napot and draw.random() < 0.8 else number
        entry = napot << 63 | number << 10 | draw.choice([0xC7, 0xCF, 0xCF, 0xDF, 0xDF, 0xD7, 0x47, 0x49, 0xD9])
    if draw.random() < 0.2:
        entry ^= 1 << draw.choice([0, 1, 2, 3, 4, 5, 6, 7, 8, 10, 13, 14, 19, 54, 60, 61, 62, 63])
    return entry


def random_image(draw):
    words, indices = {}, [0, 1, 2, 511]
    for address in range(LOW, HIGH, 8):
        if (address - LOW) % PAGE // 8 in indices:
            words[address] = random_entry(draw, (address - LOW) // PAGE)
    contexts = []
    for _ in range(16):
        satp = 8 << 60 | (LOW >> 12) + draw.choice([0] * 9 + [1, 2, 4])
        contexts.append((draw.choice([satp] * 6 + [0, satp | 0xFFFF << 44]), draw.getrandbits(1), draw.getrandbits(1)))
    accesses = []
    for _ in range(64):
        va = draw.getrandbits(12)
        for level in range(3):
            va |= draw.choice(indices) << 12 + 9 * level
        if bits(va, 38, 38) != (draw.random() < 0.05):
            va |= (2 ** 25 - 1) << 39
        if draw.random() < 0.05:
            va ^= 1 << draw.randrange(39, 64)
        accesses.append((draw.randrange(16), (va, draw.randrange(3), draw.getrandbits(1))))
    return words, contexts, accesses


def text_of(words, contexts, accesses):
    lines = ["image 1", "tables 0x%x 0x%x" % (LOW, HIGH)]
    lines += ["context 0x%x 0x%x 0x%x" % context for context in contexts]
    lines += ["access %d 0x%x 0x%x 0x%x" % ((context,) + inputs) for context, inputs in accesses]
    lines += ["word 0x%x 0x%x" % word for word in sorted(words.items())]
    return "\n".join(lines + ["end"]) + "\n"


def main():
    runs, seed = (int(word) for word in (sys.argv[1:] + ["100", "1"][len(sys.argv) - 1:]))
    built = subprocess.run([TOP / "deeptrans"], stdout=subprocess.PIPE)
    if built.returncode != 3:
        sys.exit("the program can't be run")
    program = TOP / "crates" / "deeptrans" / "out" / "deeptrans"
    draw, passed, failed, ends = random.Random(seed), 0, 0, {}
    with tempfile.TemporaryDirectory() as folder:
        file = Path(folder) / "image"
        for run in range(runs):
            words, contexts, accesses = random_image(draw)
            wanted = []
            for k, (context, inputs) in enumerate(accesses):
                lines = walk(contexts[context], inputs, words)
                wanted += ["access %d" % k] + lines
                end = lines[-1].split()[1]
                ends[end] = ends.get(end, 0) + 1
            file.write_text(text_of(words, contexts, accesses))
            came = subprocess.run([program, "walk", "@sv39", file], stdout=subprocess.PIPE, text=True)
            if came.stdout == "\n".join(wanted) + "\n" and came.returncode == 0:
                passed += 1
            else:
                failed += 1
                print("FAILED: run %d of seed %d" % (run, seed))
    print("ends: " + ", ".join("%s %d" % pair for pair in sorted(ends.items())))
    print("%d passed, %d failed" % (passed, failed))
    sys.exit(failed != 0)


main()
