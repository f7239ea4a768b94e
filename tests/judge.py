#!/usr/bin/env python3
"""Compares `replay` with a judge of its own, on random lists and images for examples/claims/model.

    tests/judge.py [RUNS [SEED]]

builds the program where needed. Each run takes the example's image with a few numbers changed, and a
list of random contexts, accesses, demands, links and kept ranges, of which most are drawn from what
the walks come to, so that both answers come often. Ends with `N passed, M failed`.
"""
import random
import subprocess
import sys
import tempfile
from pathlib import Path

TOP = Path(__file__).resolve().parent.parent
EXAMPLE = TOP / "examples" / "claims"
WORD_BYTES = 4
ADDRESSES = 1 << 32


# ---- the model, written again by hand: its rules, and its walk by page-table levels

READS = ("first", "second")
FORKS = ("first", "present", "split", "second", "mapped", "allowed")
NODES = FORKS + ("small", "large", "absent", "lost", "denied")
GRANULE = 12


class Walk:
    def __init__(self, image, root, va, write):
        self.image, self.path, self.sides, self.reads = image, [], {}, {}
        self.code = self.pa = self.page = None
        table = self.read("first", root + 4 * (va >> 22))
        if table is None:
            return self.fault("lost", 2)
        if not self.test("present", table & 1):
            return self.fault("absent", 1)
        if self.test("split", table >> 1 & 1):
            return self.done("large", (table >> 22 << 22) + (va & 0x3fffff), 22)
        leaf = self.read("second", (table >> 12 << 12) + 4 * (va >> 12 & 0x3ff))
        if leaf is None:
            return self.fault("lost", 2)
        if not self.test("mapped", leaf & 1):
            return self.fault("absent", 1)
        if not self.test("allowed", 1 - write | leaf >> 2 & 1):
            return self.fault("denied", 3)
        return self.done("small", (leaf >> 12 << 12) + (va & 0xfff), 12)

    def read(self, node, cell):
        cell %= ADDRESSES
        lo, hi = self.image["tables"]
        made = cell % WORD_BYTES == 0 and lo <= cell < hi
        self.path.append(node)
        self.sides[node] = made
        if not made:
            return None
        self.reads[node] = (cell, self.image["words"].get(cell, 0))
        return self.reads[node][1]

    def test(self, node, bit):
        self.path.append(node)
        self.sides[node] = bit == 1
        return bit == 1

    def fault(self, node, code):
        self.path.append(node)
        self.code = code

    def done(self, node, pa, page):
        self.path.append(node)
        self.pa, self.page = pa, page

    def table(self, node):
        """The bytes of the table of a made read, from the first to the last."""
        return block(self.reads[node][0], GRANULE) if node in self.reads else None

    def cell(self, node):
        return self.reads[node][0] if node in self.reads else None

    def result(self):
        return None if self.pa is None else block(self.pa, self.page)


def block(address, exponent):
    start = address >> exponent << exponent
    return range(start, start + (1 << exponent))


def meet(one, other):
    """Some number is in both."""
    return max(one.start, other.start) < min(one.stop, other.stop)


# ---- what the claims of a list come to

def quantity(words, walk, root, va, write):
    kind = words[0]
    if kind == "pa":
        return walk.pa, words[1:]
    name = words[1]
    if kind == "reg":
        number = root
    elif kind == "in":
        number = {"va": va, "write": write}[name]
    else:
        number = None if name not in walk.reads else walk.reads[name][kind == "word"]
    return number, words[2:]


def met(demand, walk, root, va, write):
    kind, *words = demand.split()
    if kind == "via":
        return words[0] in walk.path
    if kind == "avoid":
        return words[0] not in walk.path
    if kind == "take":
        return walk.sides.get(words[0]) == (words[1] == "then")
    if kind == "ends":
        return walk.pa is not None if words[0] == "done" else walk.code == int(words[1], 0)
    if kind == "page":
        return walk.page == int(words[0], 0)
    number, ends = quantity(words, walk, root, va, write)
    one, other = (int(end, 0) for end in ends)
    if number is None:
        return False
    return number & one == other if kind == "bits" else one <= number <= other


def holds(link, walks):
    kind, what, *words = link.split()
    if what == "page":
        ends = [walks[int(a[1:])].result() for a in words]
    else:
        sides = ((walks[int(a[1:])], node) for a, node in (words[:2], words[2:]))
        ends = [w.table(n) if what == "table" else w.cell(n) for w, n in sides]
    if None in ends:
        return False
    return ends[0] == ends[1] if kind == "share" else not meet(*ends)


def claims(image, asked):
    """The truth of each claim, in order."""
    roots = image["contexts"]
    told = [root % 4096 == 0 for root in roots]
    told += [va % 4 == 0 for _, va, _ in image["accesses"]]
    walks = [Walk(image, roots[c], va, write) for c, va, write in image["accesses"]]
    for (c, va, write), walk, demands in zip(image["accesses"], walks, asked["demands"]):
        told += [met(d, walk, roots[c], va, write) for d in demands]
    told += [holds(link, walks) for link in asked["links"]]
    pages = [w.result() for w in walks if w.pa is not None]
    tables = [w.table(n) for w in walks for n in w.reads]
    told.append(not any(meet(page, table) for page in pages for table in tables))
    told += [not any(meet(range(*kept), used) for used in pages + tables) for kept in asked["kept"]]
    return told


# ---- random images and lists

def example():
    image = {"contexts": [], "accesses": [], "words": {}}
    for line in (EXAMPLE / "image").read_text().splitlines():
        kind, *numbers = (line.split("#")[0].split() or [""])
        numbers = [int(n, 0) for n in numbers]
        if kind == "tables":
            image["tables"] = numbers
        elif kind == "context":
            image["contexts"].append(numbers[0])
        elif kind == "access":
            image["accesses"].append(tuple(numbers))
        elif kind == "word":
            image["words"][numbers[0]] = numbers[1]
    return image


def changed(draw, image):
    """The image with a few numbers changed."""
    image = {"tables": image["tables"], "contexts": list(image["contexts"]),
             "accesses": list(image["accesses"]), "words": dict(image["words"])}
    for _ in range(draw.choice((0, 0, 1, 2, 3))):
        at = draw.randrange(8)
        if at == 0:
            image["contexts"][draw.randrange(2)] = draw.choice((0x1000, 0x2000, 0x3000, 0x6000, 0x1004))
        elif at < 4:
            i = draw.randrange(len(image["accesses"]))
            c, va, write = image["accesses"][i]
            va = draw.choice((va ^ 1 << draw.randrange(24), va, draw.choice(image["accesses"])[1]))
            image["accesses"][i] = (draw.choice((c, 1 - c)), va, draw.choice((write, 1 - write)))
        else:
            cell = draw.choice(list(image["words"]))
            word = image["words"][cell]
            image["words"][cell] = draw.choice((word ^ 1, word ^ 2, word ^ 4, word ^ 0x1000, word ^ 0x6000,
                                                draw.choice(list(image["words"].values())), 0x3, 0x80000003))
    image["accesses"] += draw.choices(image["accesses"], k=draw.randrange(3))
    return image


def span(draw, number, most):
    """Two ends, mostly about the number."""
    number = draw.randrange(most) if number is None or draw.random() < 0.1 else number
    lo = max(0, number - draw.choice((0, 0, 1, draw.randrange(5000), -1)))
    hi = min(most - 1, number + draw.choice((0, 0, 1, draw.randrange(5000), -1)))
    return "0x%x 0x%x" % (min(lo, most - 1), max(hi, 0))


def bits(draw, number, most):
    number = draw.randrange(most) if number is None or draw.random() < 0.1 else number
    mask = draw.choice((most - 1, 1, 0, draw.randrange(most)))
    value = number & mask if draw.random() < 0.8 else draw.randrange(most)
    return "0x%x 0x%x" % (mask, value)


def demand(draw, walk, root, va, write):
    kind = draw.choice(("via", "avoid", "take", "ends", "page", "bits", "range"))
    if kind == "via":
        return "via " + draw.choice(walk.path if draw.random() < 0.8 else NODES)
    if kind == "avoid":
        return "avoid " + draw.choice(NODES)
    if kind == "take":
        if draw.random() < 0.2:
            return "take %s %s" % (draw.choice(FORKS), draw.choice(("then", "else")))
        node = draw.choice(list(walk.sides))
        return "take %s %s" % (node, "then" if walk.sides[node] == (draw.random() < 0.9) else "else")
    if kind == "ends":
        if draw.random() < 0.8:
            return "ends done" if walk.code is None else "ends fault %d" % walk.code
        return draw.choice(("ends done", "ends fault %d" % draw.randrange(4)))
    if kind == "page":
        return "page %d" % (walk.page if walk.page and draw.random() < 0.8 else draw.choice((12, 22, 0, 32)))
    words = draw.choice((["reg", "root"], ["in", "va"], ["in", "write"], ["word", draw.choice(READS)],
                         ["cell", draw.choice(READS)], ["pa"]))
    most = 2 if words[-1] == "write" else ADDRESSES
    number = quantity(words, walk, root, va, write)[0]
    return "%s %s %s" % (kind, " ".join(words), (bits if kind == "bits" else span)(draw, number, most))


def link(draw, count):
    a, b = (draw.randrange(count) for _ in "ab")
    kind = draw.choice(("share table", "share cell", "share page", "apart table", "apart page"))
    if kind.endswith("page"):
        return "%s a%d a%d" % (kind, a, b)
    return "%s a%d %s a%d %s" % (kind, a, draw.choice(READS), b, draw.choice(READS))


def true_first(draw, made, truth, count):
    """So many of what is made, mostly those that hold."""
    chosen = []
    while len(chosen) < count:
        one = made()
        if truth(one) or draw.random() < 0.02:
            chosen.append(one)
    return chosen


def kept_range(draw, walks):
    """A range, mostly about an end of a page or a table."""
    used = [w.result() for w in walks if w.pa is not None] + [w.table(n) for w in walks for n in w.reads]
    if not used or draw.random() < 0.2:
        return tuple(sorted(draw.randrange(ADDRESSES + 1) for _ in "ab"))
    at = draw.choice(used)
    edge = draw.choice((at.start, at.stop)) + draw.choice((-1, 0, 0, 1))
    ends = sorted((edge, edge + draw.choice((0, 1, -1, 4096, -4096))))
    return tuple(min(max(end, 0), ADDRESSES) for end in ends)


def asked_of(draw, image):
    walks = [Walk(image, image["contexts"][c], va, write) for c, va, write in image["accesses"]]
    demands = []
    for (c, va, write), walk in zip(image["accesses"], walks):
        root = image["contexts"][c]
        demands.append(true_first(draw, lambda: demand(draw, walk, root, va, write),
                                  lambda d: met(d, walk, root, va, write), draw.randrange(6)))
    links = true_first(draw, lambda: link(draw, len(walks)), lambda l: holds(l, walks), draw.randrange(6))
    kept = [kept_range(draw, walks) for _ in range(draw.choice((0, 0, 0, 1, 1, 2)))]
    return {"demands": demands, "links": links, "kept": kept}


# ---- texts

def image_text(image):
    lines = ["image 1", "tables 0x%x 0x%x" % tuple(image["tables"])]
    lines += ["context 0x%x" % root for root in image["contexts"]]
    lines += ["access %d 0x%x 0x%x" % access for access in image["accesses"]]
    lines += ["word 0x%x 0x%x" % (cell, image["words"][cell]) for cell in sorted(image["words"])]
    return "\n".join(lines + ["end"]) + "\n"


def list_text(image, asked):
    lines = ["requests 2", "tables 0x%x 0x%x" % tuple(image["tables"])]
    lines += ["keep 0x%x 0x%x" % kept for kept in asked["kept"]]
    lines += ["context c%d" % i for i in range(len(image["contexts"]))]
    for i, ((context, _, _), demands) in enumerate(zip(image["accesses"], asked["demands"])):
        lines += ["access a%d c%d" % (i, context)] + demands
    return "\n".join(lines + asked["links"] + ["end"]) + "\n"


def main():
    runs, seed = (int(word) for word in (sys.argv[1:] + ["400", "1"][len(sys.argv) - 1:]))
    built = subprocess.run([TOP / "deeptrans"], stdout=subprocess.PIPE)
    if built.returncode != 3:
        sys.exit("the program can't be run")
    program = TOP / "crates" / "deeptrans" / "out" / "deeptrans"
    draw, base, passed, failed, met_lists = random.Random(seed), example(), 0, 0, 0
    with tempfile.TemporaryDirectory() as folder:
        list_file, image_file = Path(folder) / "list", Path(folder) / "image"
        for run in range(runs):
            image = changed(draw, base)
            asked = asked_of(draw, image)
            list_file.write_text(list_text(image, asked))
            image_file.write_text(image_text(image))
            told = claims(image, asked)
            want = "satisfies\n" if all(told) else "breaks %d\n" % (told.index(False) + 1)
            met_lists += all(told)
            came = subprocess.run([program, "replay", EXAMPLE / "model", list_file, image_file],
                                  stdout=subprocess.PIPE, text=True)
            if came.stdout == want and came.returncode == (0 if all(told) else 1):
                passed += 1
            else:
                failed += 1
                print("FAILED: run %d of seed %d: wanted %r, came %r" % (run, seed, want, came.stdout))
                print(list_file.read_text() + image_file.read_text())
    print("%d lists met, %d broken" % (met_lists, runs - met_lists))
    print("%d passed, %d failed" % (passed, failed))
    sys.exit(failed != 0)


if __name__ == "__main__":
    main()
