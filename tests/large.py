#!/usr/bin/env python3
"""Writes large inputs, to measure what the program takes for them.

    python3 tests/large.py FOLDER

makes `limits` (a model at every limit at once), `many_nodes`, `many_regs`, `many_rules` and
`long_lines` (models of just 16 MiB that are read to their end; the check refuses all but the last), `bytes` (a model with words
of one byte), `bytes_list` and `bytes_image` (an image of just 16 MiB for it, which meets the list),
`bytes_broken` (the same with its last word's address repeated); `reads` (a model of 1024 nodes
whose walk makes 64 reads), `reads_list` (a list at every limit at once), `reads_image` (which meets
it), `reads_long` (the list with comments, of 16 MiB) and `reads_case` (a case of `dt_cases` that
prints the list); and the logs `log_steps`, `log_tries`
and `log_splits` (64 MiB each: a long refutation, the most values of tries, and the most items of a
tree) and `log_opens` (64 MiB of items of which the second is already wrong); and `problem` and
`problem_list`, a model and a list whose three products are all at their limits, for
`dt_encode_bench`.
"""
import sys

FOLDER = sys.argv[1]
MOST = 16 * 1024 * 1024
MOST_LOG = 64 * 1024 * 1024


def write(name, lines):
    with open("%s/%s" % (FOLDER, name), "w") as out:
        out.write("\n".join(lines) + "\n")


def limits():
    """32 registers, 16 inputs, 512 variables, 64 rules, 1024 nodes, 64 reads, 16 results, and 8192 operators."""
    lines = ["model 1", "word 64", "address 56"]
    lines += ["reg register_of_the_translation_%02d 56" % i for i in range(32)]
    lines += ["input input_of_the_translation_%02d 56" % i for i in range(16)]
    lines += ["var variable_of_the_translation_%03d %d" % (i, 64 if i < 64 else 56) for i in range(512)]
    reg = "register_of_the_translation_%02d"
    inp = "input_of_the_translation_%02d"
    var = "variable_of_the_translation_%03d"
    node = "node_of_the_translation_%04d"
    left = 8192

    def chain(start, count):
        """An expression of so many operators, 56 bits wide."""
        text = start
        for i in range(count):
            text = "(add %s 56:0x%x)" % (text, i + 1) if i < 31 else "(xor %s %s)" % (text, start)
        return text

    def wide(start, count):
        """So many operators with no way longer than 32."""
        half = min(count, 31)
        text = chain(start, half)
        if count > half:
            text = "(xor %s %s)" % (text, chain(start, count - half - 1))
        return text

    rules = []
    for i in range(32):
        rules.append("legal context (eq %s 56:0x0)" % (reg % i))
        left -= 1
    for i in range(32):
        rules.append("legal access (eq %s 56:0x0)" % (inp % (i % 16)))
        left -= 1
    lines += rules
    nodes = 1024
    faults = 1
    # first the lets and reads of 512 variables, then branches, results and a fault
    branches = nodes - 512 - 16 - faults
    share, extra = divmod(left - 16, 512 + branches)
    used = 0
    at = 0
    for i in range(512):
        count = share + (1 if at < extra else 0)
        used += count
        start = reg % (i % 32)
        if i < 64:
            lines.append("node %s read %s %s 12 %s %s" % (node % at, var % i, wide(start, count), node % (at + 1), node % 1023))
        else:
            lines.append("node %s let %s %s %s" % (node % at, var % i, wide(inp % (i % 16), count), node % (at + 1)))
        at += 1
    for i in range(branches):
        count = share + (1 if at < extra else 0)
        used += count
        lines.append("node %s if (eq %s 56:0x1) %s %s" % (node % at, wide(var % (64 + i % 448), count - 1), node % (at + 1), node % (1007 + i % 16)))
        at += 1
    for i in range(16):
        lines.append("node %s done (not %s) 12" % (node % at, var % (64 + i)))
        used += 1
        at += 1
    lines.append("node %s fault 13" % (node % at))
    at += 1
    assert at == 1024 and used == left, (at, used, left)
    lines.append("end")
    write("limits", lines)


def models():
    head = ["model 1", "word 64", "address 16"]
    size = sum(len(line) + 1 for line in head) + 4
    lines = []
    while size < MOST - 40:
        line = "node n%07d fault 1" % len(lines)
        lines.append(line)
        size += len(line) + 1
    write("many_nodes", head + lines + ["end"])
    size = sum(len(line) + 1 for line in head) + 4
    lines = []
    while size < MOST - 40:
        line = "reg r%07d 1" % len(lines)
        lines.append(line)
        size += len(line) + 1
    write("many_regs", head + lines + ["end"])
    rule = "legal context " + "(not " * 32 + "1:1" + ")" * 32
    write("many_rules", head + [rule] * ((MOST - 100) // (len(rule) + 1)) + ["node a fault 1", "end"])
    tail = ["node a fault 1", "end"]
    size = sum(len(line) + 1 for line in head + tail)
    lines = []
    deep = "legal context (eq 1:0x1 1:0x1)"
    for _ in range(32):
        lines.append(deep)
        size += len(deep) + 1
    while size < MOST - 16400:
        line = "# " + "x" * 16382
        lines.append(line)
        size += len(line) + 1
    write("long_lines", head + lines + tail)


def image():
    write("bytes", ["model 1", "word 8", "address 32", "reg base 32", "input x 8", "var w 8",
                    "node s read w (add base (concat 24:0x0 x)) 12 t u",
                    "node t if (slice 0 0 w) d f", "node u fault 5", "node f fault 13",
                    "node d done 32:0x80000000 12", "end"])
    write("bytes_list", ["requests 1", "tables 0x0 0x1000000", "context c0", "access a0 c0", "ends done", "end"])
    head = ["image 1", "tables 0x0 0x1000000", "context 0x1000", "access 0 0x2"]
    size = sum(len(line) + 1 for line in head) + 4
    lines = []
    while size < MOST - 40:
        line = "word 0x%x 0x%x" % (len(lines), (len(lines) * 7 + 1) % 256 | 1)
        lines.append(line)
        size += len(line) + 1
    write("bytes_image", head + lines + ["end"])
    write("bytes_broken", head + lines + [lines[-1], "end"])
    print(len(lines), "words")


def log(name, claim, items, last):
    """Of items one behind the other, as many as there is room for, and the last ones."""
    size = sum(len(line) + 1 for line in [claim, "end"] + last)
    lines = []
    while True:
        more = items(len(lines))
        size += sum(len(line) + 1 for line in more)
        if size > MOST_LOG:
            break
        lines += more
    write(name, [claim] + lines + last + ["end"])
    print(name, len(lines) + len(last), "items")


def logs():
    def refuted(at):
        steps = ["forward %d" % ((at * 7919 + i * 104729) % 100000) for i in range(5)]
        steps += ["backward %d %d" % ((at * 15485863 + i * 32452843) % 100000, i % 3) for i in range(4)]
        return steps + ["split %d %d" % (at % 1000, at % 64), "close %d" % (at * 49979687 % 100000)]

    log("log_steps", "impossible", refuted, ["close 0"])
    log("log_tries", "budget 0", lambda at: ["try 0 0"], ["open"])
    pairs = (MOST_LOG - 40) // 15
    log("log_splits", "budget %d" % pairs, lambda at: ["split 0 0", "open"], ["open"])
    log("log_opens", "impossible", lambda at: ["open"], ["open"])


READS, TESTS, RESULTS = 64, 942, 16
CONTEXTS, ACCESSES, DEMANDS, LINKS, KEPT = 16, 64, 64, 256, 16
TABLES, PAGES, FREE = 0x10000000, 0x80000000, 0x40000000


def reads_model():
    """The first word leads to the second, and so on, 64 in all; then as many tests as there is room for."""
    lines = ["model 1", "word 64", "address 56", "reg root 56"]
    lines += ["reg r%02d 64" % i for i in range(1, 32)]
    lines += ["input number 56"] + ["input i%02d 64" % i for i in range(1, 16)]
    lines += ["var w%02d 64" % i for i in range(READS)]
    lines += ["legal context (eq (slice 11 0 root) 12:0x0)"] * 32
    lines += ["legal access (ltu number 56:0x40)"] * 32
    follow = ["read_%02d" % i for i in range(READS)] + ["test_%03d" % i for i in range(TESTS)] + ["result_00"]
    cell = "(add root (concat 37:0x0 (concat (slice 15 0 number) 3:0x0)))"
    for i in range(READS):
        lines.append("node %s read w%02d %s 12 %s lost" % (follow[i], i, cell, follow[i + 1]))
        cell = "(slice 55 0 w%02d)" % i
    for i in range(TESTS):
        at = READS + i
        left = TESTS - i
        if left < RESULTS:
            lines.append("node %s if (eq (slice 3 0 number) 4:0x%x) result_%02d %s" % (follow[at], left, left, follow[at + 1]))
        else:
            lines.append("node %s if (eq number 56:0x%x) other %s" % (follow[at], 1000 + i, follow[at + 1]))
    lines += ["node result_%02d done (slice 55 0 w63) 12" % i for i in range(RESULTS)]
    lines += ["node lost fault 1", "node other fault 2", "end"]
    assert sum(line.startswith("node") for line in lines) == 1024
    return lines


def reads_cells(access):
    """The cells that an access reads, each in a table of its own."""
    context, first = access % CONTEXTS, TABLES + 0x1000 * (access % CONTEXTS)
    assert context < CONTEXTS
    rest = TABLES + 0x1000 * CONTEXTS + 0x1000 * (READS - 1) * access
    return [first + 8 * access] + [rest + 0x1000 * i + 8 * (access % 8) for i in range(READS - 1)]


def reads_words(access, page):
    cells = reads_cells(access)
    return list(zip(cells, cells[1:] + [page]))


def reads_page(access):
    return PAGES + 0x1000 * access


def reads_demands(access):
    """64 demands that the walk of this access meets, each kind and quantity among them."""
    cells = reads_cells(access)
    lines = ["ends done", "page 12", "avoid lost", "via result_%02d" % (access % RESULTS),
             "bits pa 0xfff000 0x%x" % (reads_page(access) & 0xfff000), "range pa 0x%x 0x%x" % (PAGES, PAGES + 0xfffff),
             "bits reg root 0xfff 0x0", "range reg root 0x%x 0x%x" % (TABLES, TABLES + 0xffff),
             "bits in number 0x3f 0x%x" % access, "range in number 0 63"]
    at = READS - 1
    while len(lines) < DEMANDS:
        word = reads_words(access, reads_page(access))[at][1]
        lines += ["take read_%02d then" % at, "take test_%03d else" % (900 + at % 20), "via test_%03d" % (920 + at % 6),
                  "avoid other", "bits word read_%02d 0xffffffffffffffff 0x%x" % (at, word),
                  "range word read_%02d 0x%x 0x%x" % (at, word, word), "bits cell read_%02d 0xfff 0x%x" % (at, cells[at] & 0xfff),
                  "range cell read_%02d 0x%x 0x%x" % (at, cells[at], cells[at] + 7)]
        at -= 1
    return lines[:DEMANDS]


def reads_links():
    """256 links that hold: shares of one context's first table, or of an access with itself, and walks apart."""
    lines = []
    for i in range(LINKS):
        a, b = i % ACCESSES, (i + 1 + i // ACCESSES) % ACCESSES
        kind = i % 5
        if kind == 0:
            lines.append("share table a%02d read_00 a%02d read_00" % (a, (a + CONTEXTS) % ACCESSES))
        elif kind == 1:
            lines.append("share cell a%02d read_63 a%02d read_63" % (a, a))
        elif kind == 2:
            lines.append("share page a%02d a%02d" % (a, a))
        elif kind == 3:
            lines.append("apart table a%02d read_63 a%02d read_63" % (a, b))
        else:
            lines.append("apart page a%02d a%02d" % (a, b))
    return lines


def reads_list():
    lines = ["requests 2", "tables 0x%x 0x%x" % (TABLES, TABLES + 0x2000000)]
    lines += ["keep 0x%x 0x%x" % (FREE + 0x10000 * i, FREE + 0x10000 * (i + 1)) for i in range(KEPT)]
    lines += ["context c%02d" % i for i in range(CONTEXTS)]
    for i in range(ACCESSES):
        lines += ["access a%02d c%02d" % (i, i % CONTEXTS)] + reads_demands(i)
    return lines + reads_links() + ["end"]


def reads_long(lines):
    size = sum(len(line) + 1 for line in lines)
    comment = "# " + "x" * 16381
    more, rest = divmod(MOST - size, len(comment) + 1)
    write("reads_long", lines[:2] + [comment] * more + ["#" + "x" * (rest - 2)] + lines[2:])


def reads_image():
    lines = ["image 1", "tables 0x%x 0x%x" % (TABLES, TABLES + 0x2000000)]
    lines += ["context 0x%x" % (TABLES + 0x1000 * i) + " 0x0" * 31 for i in range(CONTEXTS)]
    lines += ["access %d 0x%x" % (i % CONTEXTS, i) + " 0x0" * 15 for i in range(ACCESSES)]
    words = {}
    for i in range(ACCESSES):
        words.update(reads_words(i, reads_page(i)))
    assert len(words) == READS * ACCESSES
    lines += ["word 0x%x 0x%x" % (a, words[a]) for a in sorted(words)]
    write("reads_image", lines + ["end"])


def printed(line):
    """The printed spelling of a line of a list: the numbers of ranges and masks in hexadecimal."""
    words = line.split()
    if words[0] not in ("tables", "keep", "bits", "range"):
        return line
    return " ".join(hex(int(word, 0)) if word[0].isdigit() else word for word in words)


def reads_case(model, lines):
    widths = 16 * (56 + 31 * 64) + 64 * (56 + 15 * 64 + 64 * READS)
    expected = [printed(line) for line in lines] + ["choices %d %d" % (16 * 32 + 64 * (16 + READS), widths)]
    parts = (("model", model), ("list", lines), ("expect", expected))
    write("reads_case", ["case reads list"] + [line for word, text in parts for line in [word] + ["|" + piece for piece in text]])


def reads():
    model, lines = reads_model(), reads_list()
    write("reads", model)
    write("reads_list", lines)
    reads_long(lines)
    reads_image()
    reads_case(model, lines)


def chain_of(start, count, step):
    """So many operators on one way, 56 bits wide."""
    text = start
    for i in range(count):
        text = "(add %s 56:0x%x)" % (text, step * 64 + i + 1)
    return text


def problem_model():
    """4 reads, 8 results, and 3125 nodes and operators."""
    lines = ["model 1", "word 64", "address 56", "reg base 56", "input x 56"]
    lines += ["var w%d 64" % i for i in range(4)]
    left = 3125 - 4 - 7 - 8 - 1
    lets = []
    while left > 60:
        count = min(60, left - 1)
        lets.append(count)
        left -= count + 1
    lines += ["var v%d 56" % i for i in range(len(lets))]
    # what is left over is put on the tests
    spare = left
    for i, count in enumerate(lets):
        start = "x" if i == 0 else "v%d" % (i - 1)
        half = chain_of(start, count // 2, 2 * i)
        rest = chain_of("base", count - count // 2 - 1, 2 * i + 1)
        lines.append("node l%d let v%d (xor %s %s) %s" % (i, i, half, rest, "l%d" % (i + 1) if i + 1 < len(lets) else "s0"))
    for i in range(4):
        cell = "base" if i == 0 else "v%d" % i
        lines.append("node s%d read w%d %s 12 %s f" % (i, i, cell, "s%d" % (i + 1) if i < 3 else "t0"))
    tests = [1] * 7
    pages = [0] * 8
    spare -= sum(tests)
    for i in range(spare):
        pages[i % 8] += 1
    for i in range(7):
        lines.append("node t%d if (slice %d %d w%d) d%d %s" % (i, i, i, i % 4, i, "t%d" % (i + 1) if i < 6 else "d7"))
    for i in range(8):
        lines.append("node d%d done %s 12" % (i, chain_of("v%d" % i, pages[i], 200 + i)))
    lines += ["node f fault 1", "end"]
    write("problem", lines)


def problem_list():
    """64 accesses of 64 demands, 256 links and 16 kept ranges."""
    lines = ["requests 2", "tables 0x80000000 0x80100000"]
    lines += ["keep 0x%x 0x%x" % (0x10000000 * i, 0x10000000 * i + 0x1000) for i in range(16)]
    lines += ["context c%d" % i for i in range(16)]
    for i in range(64):
        lines.append("access a%d c%d" % (i, i % 16))
        lines += ["bits pa 0xff 0x0", "ends done", "page 12"]
        lines += ["bits in x 0x%x 0x%x" % (1 << j, 1 << j if i >> (j % 6) & 1 else 0) for j in range(50)]
        lines += ["range word s%d 0x1 0x%x" % (j % 4, (1 << 60) + i) for j in range(11)]
    lines += ["share page a%d a%d" % (i % 64, (i * 7 + 1) % 64) for i in range(128)]
    lines += ["apart page a%d a%d" % (i % 64, (i * 11 + 3) % 64) for i in range(128)]
    write("problem_list", lines + ["end"])


limits()
models()
image()
logs()
reads()
problem_model()
problem_list()
