#!/usr/bin/env python3
"""Compares what steps cost with what the same algorithm costs in C.

    python3 tests/steps.py [PROGRAM [RUNS]]

makes a trace of steps, compiles tests/steps/same.c, runs both programs on the trace in turn, RUNS
times each, and prints the ratios of the processor times that they took for the steps. It ends with
status 0 where the programs agree on what each step did and on the cells that come out, else with 1.
PROGRAM is crates/dt_box_bench/out/dt_box_bench where it isn't given: `rt run` in
crates/dt_box_bench proves and builds it. Without a C compiler nothing is compared.

A trace has a problem and moves on its cells, a line of numbers each:

    OP A B C P Q     a node: the operator's number below, three operands, two parameters
    15 0 0 0 W       a choice of W bits
    16 T             term T must be 1
    17 T             the step forward to node T
    18 T K           the step backward from node T to its operand at place K
    19 T I V         bit I of term T is set to V

The problem is like those that a list of accesses gives: words of 64 bits, masked and cut into
fields, compared with one another and with constants, and from the answers a deep net of one bit.
The moves are like those of a search: a bit is set, and then steps go out from it. Bits and required
terms are those of one assignment, so no cell becomes empty.
"""
import os
import random
import resource
import shutil
import subprocess
import sys
import tempfile

TOP = os.path.dirname(os.path.dirname(os.path.abspath(__file__)))
(CONST, NOT, AND, OR, XOR, ADD, SUB, SLICE, CONCAT, SEXT, SHL, SHR, EQ, LTU, ITE, CHOICE, REQUIRE,
 FORWARD, BACKWARD, SET) = range(20)
NAMES = "Const Not And Or Xor Add Sub Slice Concat SignExt Shl Shr Eq Ltu Ite".split()
ARITY = {CONST: 0, CHOICE: 0, NOT: 1, SLICE: 1, SEXT: 1, SHL: 1, SHR: 1, ITE: 3}
ROUNDS = 50
FLAGS = 0.75  # how often a bit of a choice of one bit is set


def arity(op):
    return ARITY.get(op, 2)


def ones(width):
    return (1 << width) - 1


class Problem:
    """Terms with the values that they have under one assignment."""

    def __init__(self, seed):
        self.random = random.Random(seed)
        self.terms = []      # (op, operands, parameters)
        self.widths = []
        self.values = []
        self.users = []
        self.required = []

    def pick(self, among):
        return among[int(self.random.random() * len(among))]

    def term(self, op, operands, parameters, width, value):
        at = len(self.terms)
        self.terms.append((op, operands, parameters))
        self.widths.append(width)
        self.values.append(value & ones(width))
        self.users.append([])
        for operand in set(operands):
            self.users[operand].append(at)
        return at

    def choice(self, width):
        return self.term(CHOICE, (), (width, 0), width, self.random.getrandbits(width))

    def const(self, width, value):
        return self.term(CONST, (), (width, value), width, value)

    def node(self, op, operands, first=0, second=0):
        xs = [self.values[t] for t in operands]
        width = self.widths[operands[0]]
        low = self.widths[operands[1]] if len(operands) > 1 else 0
        if op == NOT:
            value = ~xs[0]
        elif op == AND:
            value = xs[0] & xs[1]
        elif op == OR:
            value = xs[0] | xs[1]
        elif op == XOR:
            value = xs[0] ^ xs[1]
        elif op == ADD:
            value = xs[0] + xs[1]
        elif op == SUB:
            value = xs[0] - xs[1]
        elif op == SLICE:
            width, value = first - second + 1, xs[0] >> second
        elif op == CONCAT:
            width, value = width + low, xs[0] << low | xs[1]
        elif op == SEXT:
            sign = xs[0] >> (width - 1)
            width, value = first, xs[0] + sign * (ones(first) ^ ones(width))
        elif op == SHL:
            value = xs[0] << first
        elif op == SHR:
            value = xs[0] >> first
        elif op == EQ:
            width, value = 1, int(xs[0] == xs[1])
        elif op == LTU:
            width, value = 1, int(xs[0] < xs[1])
        else:
            width, value = low, xs[1] if xs[0] else xs[2]
        return self.term(op, tuple(operands), (first, second), width, value)


def fields_of(problem, words):
    """Words masked, moved and cut into fields: wide terms by their width."""
    wide = {}
    for word in words:
        mask = problem.const(64, problem.random.getrandbits(64))
        found = [word, problem.node(AND, (word, mask))]
        if problem.random.random() < 0.15:
            found.append(problem.node(problem.pick((ADD, SUB, XOR)), (word, problem.pick(words))))
        if problem.random.random() < 0.1:
            found.append(problem.node(problem.pick((SHL, SHR)), (word,), 12))
        if problem.random.random() < 0.4:
            low = problem.pick((0, 3, 10, 12, 21, 30))
            field = problem.node(SLICE, (word,), low + 8, low)
            found.append(field)
            found.append(problem.node(CONCAT, (field, problem.const(3, 0))))
            found.append(problem.node(SEXT, (field,), 12))
        for term in found:
            wide.setdefault(problem.widths[term], []).append(term)
    return wide


def tests_of(problem, wide, words, count):
    """Terms of one bit over the wide ones: comparisons, flags, and a few wide choices by a test."""
    tests = []
    for _ in range(count):
        width = problem.pick(list(wide))
        among = wide[width]
        at = problem.random.random()
        first = problem.pick(among)
        if at < 0.60:
            second = problem.pick(among)
        else:
            near = problem.values[first] if at < 0.75 else problem.random.getrandbits(width)
            second = problem.const(width, near)
        tests.append(problem.node(LTU if problem.random.random() < 0.03 else EQ, (first, second)))
        if at < 0.04:
            bit = problem.pick(range(64))
            tests.append(problem.node(SLICE, (problem.pick(words),), bit, bit))
        if 0.10 < at < 0.13:
            among.append(problem.node(ITE, (tests[-1], first, second)))
    return tests


def net_of(problem, tests, count):
    """A net of And, Or and Not over the tests, each over terms that are near it."""
    net = list(tests)
    for _ in range(count):
        near = [net[int(problem.random.random() * len(net))] for _ in range(2)]
        at = problem.random.random()
        if at < 0.43:
            net.append(problem.node(AND, near))
        elif at < 0.58:
            net.append(problem.node(OR, near))
        elif at < 0.985:
            net.append(problem.node(NOT, near[:1]))
        else:
            net.append(problem.node(XOR, near))
    return net


def made(seed):
    problem = Problem(seed)
    words = [problem.choice(64) for _ in range(40)]
    wide = fields_of(problem, words)
    tests = tests_of(problem, wide, words, 450)
    flags = [problem.choice(1) for _ in range(1100)]
    net = net_of(problem, tests + flags, 3300)
    for term in net:
        if problem.values[term] == 1 and problem.random.random() < 0.05:
            problem.required.append(term)
    return problem


class Search:
    """Which bits are known, as far as a sketch of known bits tells it, and the moves made so far.

    The values of known bits are those of the assignment, so a mask for each term is enough. It only
    decides which steps the trace has; what they do is for the two programs to find.
    """

    def __init__(self, problem):
        self.problem = problem
        self.masks = [0] * len(problem.terms)
        self.moves = []

    def forward(self, node):
        op, operands, (first, second) = self.problem.terms[node]
        m = [self.masks[t] for t in operands]
        v = [self.problem.values[t] for t in operands]
        full = ones(self.problem.widths[node])
        if op == NOT:
            return m[0]
        if op == AND:
            return m[0] & m[1] | m[0] & ~v[0] | m[1] & ~v[1]
        if op == OR:
            return m[0] & m[1] | m[0] & v[0] | m[1] & v[1]
        if op == EQ and (v[0] ^ v[1]) & m[0] & m[1]:
            return full
        if op == SLICE:
            return m[0] >> second & full
        if op == ITE:
            return (m[1] if v[0] else m[2]) if m[0] else m[1] & m[2] & ~(v[1] ^ v[2])
        return full if all(m[k] == ones(self.problem.widths[t]) for k, t in enumerate(operands)) else 0

    def backward(self, node, place):
        op, operands, (_, second) = self.problem.terms[node]
        r, value = self.masks[node], self.problem.values[node]
        m = [self.masks[t] for t in operands]
        v = [self.problem.values[t] for t in operands]
        other = 1 - place
        if op == NOT:
            return r
        if op == AND:
            return r & value | r & ~value & m[other] & v[other]
        if op == OR:
            return r & ~value | r & value & m[other] & ~v[other]
        if op == EQ:
            return m[other] if r and value else 0
        if op == SLICE:
            return r << second
        if op == ITE and place:
            return r if m[0] and v[0] == 2 - place else 0
        return 0

    def take(self, node, place):
        """Takes a step, and tells whether a further bit of its target, which comes first, is known."""
        if place is None:
            self.moves.append((FORWARD, node))
            target, mask = node, self.forward(node)
        else:
            self.moves.append((BACKWARD, node, place))
            target, mask = self.problem.terms[node][1][place], self.backward(node, place)
        more = mask & ~self.masks[target]
        self.masks[target] |= mask
        return target, more != 0

    def settle(self, terms):
        """Takes the steps of the nodes near these terms, and of those near each that they change."""
        queue = list(terms)
        while queue:
            term = queue.pop(0)
            for node in [term] + self.problem.users[term]:
                count = arity(self.problem.terms[node][0])
                for place in [None] + list(range(count)) if count else []:
                    target, more = self.take(node, place)
                    if more and target not in queue:
                        queue.append(target)

    def guess(self):
        """Sets a bit of a choice that isn't known."""
        problem = self.problem
        open_choices = [t for t, term in enumerate(problem.terms)
                        if term[0] == CHOICE and self.masks[t] != ones(problem.widths[t])]
        flags = [t for t in open_choices if problem.widths[t] == 1]
        term = problem.pick(flags if flags and problem.random.random() < FLAGS else open_choices)
        bit = problem.pick([i for i in range(problem.widths[term]) if not self.masks[term] >> i & 1])
        self.masks[term] |= 1 << bit
        self.moves.append((SET, term, bit, problem.values[term] >> bit & 1))
        self.settle([term])


def moves_of(problem, guesses):
    search = Search(problem)
    for term, (op, _, _) in enumerate(problem.terms):
        if op == CONST:
            search.moves.append((FORWARD, term))
            search.masks[term] = ones(problem.widths[term])
    for term in problem.required:
        search.masks[term] = 1
    search.settle([t for t, mask in enumerate(search.masks) if mask])
    for _ in range(guesses):
        search.guess()
    return search.moves


def lines_of(problem, moves):
    lines = []
    for op, operands, parameters in problem.terms:
        lines.append((op,) + operands + (0,) * (3 - len(operands)) + parameters)
    lines += [(REQUIRE, term) for term in problem.required]
    return lines + moves


def shares(problem, moves):
    """How the steps divide over operators, and how many go to one bit."""
    steps = [move for move in moves if move[0] != SET]
    count, narrow = {}, 0
    for move in steps:
        op, operands, _ = problem.terms[move[1]]
        count[op] = count.get(op, 0) + 1
        target = move[1] if move[0] == FORWARD else operands[move[2]]
        narrow += problem.widths[target] == 1
    parts = ["%s %.0f%%" % (NAMES[op], 100 * n / len(steps)) for op, n in sorted(count.items(), key=lambda e: -e[1])]
    print("%d terms, %d steps: %s; to one bit %.0f%%"
          % (len(problem.terms), len(steps), ", ".join(parts), 100 * narrow / len(steps)))


def run(program, trace, rounds):
    """What a program prints, and the processor time that it took in seconds."""
    before = resource.getrusage(resource.RUSAGE_CHILDREN).ru_utime
    done = subprocess.run([program, trace, str(rounds)], stdout=subprocess.PIPE, check=True)
    return done.stdout.decode(), resource.getrusage(resource.RUSAGE_CHILDREN).ru_utime - before


def main():
    program = sys.argv[1] if len(sys.argv) > 1 else os.path.join(TOP, "crates/dt_box_bench/out/dt_box_bench")
    runs = int(sys.argv[2]) if len(sys.argv) > 2 else 20
    compiler = shutil.which("cc") or shutil.which("gcc") or shutil.which("clang")
    if not compiler:
        print("skipped: there is no C compiler")
        return 0
    if not os.path.exists(program):
        print("skipped: %s isn't built" % program)
        return 0
    problem = made(20261201)
    moves = moves_of(problem, 1600)
    shares(problem, moves)
    with tempfile.TemporaryDirectory() as folder:
        trace = os.path.join(folder, "trace")
        with open(trace, "w") as out:
            for line in lines_of(problem, moves):
                out.write(" ".join(map(str, line)) + "\n")
        programs = {"steps": program}
        for name, flags in (("C", []), ("C that compares first", ["-DFIRST"])):
            programs[name] = os.path.join(folder, "same%d" % len(programs))
            source = os.path.join(TOP, "tests/steps/same.c")
            subprocess.run([compiler, "-O3"] + flags + ["-o", programs[name], source], check=True)
        return compare(programs, trace, runs, len(moves))


def compare(programs, trace, runs, moves):
    base = {name: min(run(path, trace, 0)[1] for _ in range(5)) for name, path in programs.items()}
    best, printed = {}, {}
    for _ in range(runs):
        for name, path in programs.items():
            text, time = run(path, trace, ROUNDS)
            printed.setdefault(name, set()).add(text)
            best[name] = min(best.get(name, time), time)
    answers = set.union(*printed.values())
    if len(answers) != 1:
        for name, texts in printed.items():
            print("%s: %s" % (name, " | ".join(texts).strip()))
        print("the programs differ")
        return 1
    print("the same cells: " + answers.pop().strip())
    cost = {name: (best[name] - base[name]) / moves / ROUNDS * 1e9 for name in programs}
    for name in programs:
        print("%-24s %5.1f ns a step, %.2f of C" % (name, cost[name], cost[name] / cost["C"]))
    return 0


if __name__ == "__main__":
    sys.exit(main())
