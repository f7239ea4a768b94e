"""A request list of a model as SMT-LIB (QF_BV).

The text is written from what the documents say of models, lists and images, and shares nothing with
the program's own problem. Registers, inputs and the words of reads are constants of SMT-LIB; each
node of each walk has definitions (`at.a0.r2`: access a0 visits r2; `made`, `cell`, `test`, `let`,
`pa`); and each claim is an assertion. A solution is an image that meets the list.
"""
from __future__ import annotations

import sys
from dataclasses import dataclass, field
from itertools import combinations
from pathlib import Path

sys.path.insert(0, str(Path(__file__).resolve().parent.parent / "tools"))
from texts import Expr, Line, Model, Node, lines_of, read_bytes

BINARY = {"and": "bvand", "or": "bvor", "xor": "bvxor", "add": "bvadd", "sub": "bvsub", "concat": "concat",
          "eq": "bvcomp"}


# ---- lists

@dataclass
class Access:
    name: str
    context: int
    demands: list[list[str]] = field(default_factory=list)


@dataclass
class Requests:
    lo: int = 0
    hi: int = 0
    kept: list[tuple[int, int]] = field(default_factory=list)
    contexts: list[str] = field(default_factory=list)
    accesses: list[Access] = field(default_factory=list)
    links: list[list[str]] = field(default_factory=list)


def number(text: str) -> int:
    return int(text, 16) if "x" in text else int(text)


def read_requests(source: str) -> Requests:
    """A list; the program decides which lists are lawful."""
    asked = Requests()
    for line in lines_of(source, read_bytes(source)):
        kind, *rest = line.tokens
        try:
            add_line(asked, kind, rest, line)
        except (ValueError, IndexError):
            raise line.refuse("this can't be read") from None
    return asked


def add_line(asked: Requests, kind: str, rest: list[str], line: Line) -> None:
    if kind == "tables":
        asked.lo, asked.hi = map(number, rest)
    elif kind == "keep":
        lo, hi = map(number, rest)
        asked.kept.append((lo, hi))
    elif kind == "context":
        asked.contexts.append(rest[0])
    elif kind == "access":
        asked.accesses.append(Access(rest[0], asked.contexts.index(rest[1])))
    elif kind in ("share", "apart"):
        asked.links.append([kind, *rest])
    elif kind in ("via", "avoid", "take", "ends", "page", "bits", "range"):
        asked.accesses[-1].demands.append([kind, *rest])
    elif kind not in ("requests", "end"):
        raise line.refuse(f"`{kind}` begins no line")


# ---- terms of SMT-LIB, as text

def const(value: int, width: int) -> str:
    return f"(_ bv{value} {width})"


def conj(parts: list[str]) -> str:
    return parts[0] if len(parts) == 1 else f"(and {' '.join(parts)})" if parts else "true"


def disj(parts: list[str]) -> str:
    return parts[0] if len(parts) == 1 else f"(or {' '.join(parts)})" if parts else "false"


def is_one(term: str) -> str:
    return f"(= {term} #b1)"


def term_of(expr: Expr, names: dict[str, str]) -> str:
    """An expression of the model, its names being these terms."""
    op, numbers = expr.op, expr.numbers
    if op == "name":
        return names[expr.name]
    if op == "const":
        return const(numbers[0], expr.width)
    parts = [term_of(part, names) for part in expr.parts]
    if op in BINARY:
        return f"({BINARY[op]} {parts[0]} {parts[1]})"
    if op == "not":
        return f"(bvnot {parts[0]})"
    if op == "slice":
        return f"((_ extract {numbers[0]} {numbers[1]}) {parts[0]})"
    if op == "sext":
        return f"((_ sign_extend {expr.width - expr.parts[0].width}) {parts[0]})"
    if op in ("shl", "shr"):
        return f"({'bvshl' if op == 'shl' else 'bvlshr'} {parts[0]} {const(numbers[0], expr.width)})"
    if op == "ltu":
        return f"(ite (bvult {parts[0]} {parts[1]}) #b1 #b0)"
    return f"(ite {is_one(parts[0])} {parts[1]} {parts[2]})"


# ---- the problem of a list

class Writer:
    """Writes the text. `place` below is an access and a node, as in the name `cell.a0.r2`."""

    def __init__(self, model: Model, asked: Requests):
        self.model, self.asked = model, asked
        self.lines = ["(set-logic QF_BV)"]
        self.reads = [node for node in model.nodes.values() if node.act == "read"]
        self.results = [node for node in model.nodes.values() if node.act == "done"]

    def declare(self, name: str, width: int) -> str:
        self.lines.append(f"(declare-fun {name} () (_ BitVec {width}))")
        return name

    def define(self, name: str, sort: int | None, body: str) -> str:
        """A definition of so many bits, or of a truth. Debian's boolector doesn't know `define-fun`."""
        told = "Bool" if sort is None else f"(_ BitVec {sort})"
        self.lines += [f"(declare-fun {name} () {told})", f"(assert (= {name} {body}))"]
        return name

    def claim(self, term: str) -> None:
        self.lines.append(f"(assert {term})")

    # -- addresses

    def block(self, address: str, exponent: int) -> str | None:
        """The number of the block of 2^exponent bytes, None where there is one block alone."""
        width = self.model.address
        return f"((_ extract {width - 1} {exponent}) {address})" if exponent < width else None

    def one_block(self, one: str, other: str, exponent: int) -> str:
        start = self.block(one, exponent)
        return f"(= {start} {self.block(other, exponent)})" if start else "true"

    def overlap(self, one: str, exponent: int, other: str, other_exponent: int) -> str:
        """Of two blocks that have a byte in common, the larger one holds the other."""
        return self.one_block(one, other, max(exponent, other_exponent))

    def from_to(self, address: str, lo: int, hi: int) -> list[str]:
        """The address is from lo up to hi, which may be 2^address."""
        below = [f"(bvult {address} {const(hi, self.model.address)})"] if hi < 2**self.model.address else []
        return [f"(bvule {const(lo, self.model.address)} {address})"] + below

    def touches(self, address: str, exponent: int, lo: int, hi: int) -> str:
        """The address's block has a byte from lo up to hi, where lo is below hi."""
        width, low = self.model.address, 2**exponent - 1
        first = f"(bvand {address} {const((2**width - 1) & ~low, width)})"
        last = f"(bvor {address} {const(low % 2**width, width)})"
        return f"(and (bvule {first} {const(hi - 1, width)}) (bvule {const(lo, width)} {last}))"

    # -- walks

    def walk(self, access: Access) -> None:
        """The definitions of an access's walk, node by node."""
        self.names = {each: f"reg.{self.asked.contexts[access.context]}.{each}" for each in self.model.reg}
        self.names |= {each: f"in.{access.name}.{each}" for each in self.model.input}
        for kind, rule in self.model.rules:
            if kind == "legal access":
                self.claim(is_one(term_of(rule, self.names)))
        into: dict[str, list[str]] = {name: [] for name in self.model.nodes}
        into[next(iter(into))].append("true")
        for name, node in self.model.nodes.items():
            place = f"{access.name}.{name}"
            at = self.define(f"at.{place}", None, disj(into[name]))
            for target, side in zip(node.targets, self.visit(node, place, at)):
                into[target].append(side)

    def visit(self, node: Node, place: str, at: str) -> list[str]:
        """What a node does; the sides by which the walk leaves it."""
        if node.act == "fault":
            return []
        expr = term_of(node.expr, self.names)
        if node.act == "done":
            self.define(f"pa.{place}", node.expr.width, expr)
            return []
        if node.act == "let":
            self.assign(node, place, at, self.define(f"let.{place}", node.expr.width, expr))
            return [at]
        if node.act == "if":
            test = self.define(f"test.{place}", None, is_one(expr))
            return [f"(and {at} {test})", f"(and {at} (not {test}))"]
        cell = self.define(f"cell.{place}", self.model.address, expr)
        low = self.model.word_bytes.bit_length() - 1
        whole = [f"(= ((_ extract {low - 1} 0) {cell}) {const(0, low)})"] if low else []
        made = self.define(f"made.{place}", None,
                           conj([at, *whole, *self.from_to(cell, self.asked.lo, self.asked.hi)]))
        self.assign(node, place, made, f"word.{place}")
        return [made, f"(and {at} (not {made}))"]

    def assign(self, node: Node, place: str, when: str, value: str) -> None:
        """The variable's value from here on; no walk assigns it twice."""
        if before := self.names.get(node.variable):
            width = self.model.widths[node.variable]
            value = self.define(f"var.{place}", width, f"(ite {when} {value} {before})")
        self.names[node.variable] = value

    # -- claims

    def quantity(self, access: Access, words: list[str]) -> tuple[list[tuple[str, str]], int, list[str]]:
        """The terms that a quantity may be, each with when it is; its width; the words behind it."""
        model = self.model
        if words[0] == "pa":
            places = (f"{access.name}.{node.name}" for node in self.results)
            terms = [(f"at.{place}", f"pa.{place}") for place in places]
            return terms, model.address, words[1:]
        kind, name, *rest = words
        if kind == "reg":
            return [("true", f"reg.{self.asked.contexts[access.context]}.{name}")], model.widths[name], rest
        if kind == "in":
            return [("true", f"in.{access.name}.{name}")], model.widths[name], rest
        width = model.word if kind == "word" else model.address
        return [(f"made.{access.name}.{name}", f"{kind}.{access.name}.{name}")], width, rest

    def demand(self, access: Access, words: list[str]) -> str:
        kind, *rest = words
        at = f"at.{access.name}."
        if kind in ("via", "avoid"):
            return at + rest[0] if kind == "via" else f"(not {at}{rest[0]})"
        if kind == "take":
            read = self.model.nodes[rest[0]].act == "read"
            side = f"{'made' if read else 'test'}.{access.name}.{rest[0]}"
            return f"(and {at}{rest[0]} {side if rest[1] == 'then' else f'(not {side})'})"
        if kind == "ends" and rest[0] == "fault":
            return disj([at + node.name for node in self.model.nodes.values()
                         if node.act == "fault" and node.number == number(rest[1])])
        if kind in ("ends", "page"):
            return disj([at + node.name for node in self.results
                         if kind == "ends" or node.number == number(rest[0])])
        terms, width, ends = self.quantity(access, rest)
        one, other = (const(number(each), width) for each in ends)
        if kind == "bits":
            return disj([f"(and {when} (= (bvand {term} {one}) {other}))" for when, term in terms])
        return disj([f"(and {when} (bvule {one} {term}) (bvule {term} {other}))" for when, term in terms])

    def link(self, words: list[str]) -> str:
        kind, what, *rest = words
        if what == "page":
            pairs = [(f"at.{rest[0]}.{x.name}", f"pa.{rest[0]}.{x.name}", x.number,
                      f"at.{rest[1]}.{y.name}", f"pa.{rest[1]}.{y.name}", y.number)
                     for x in self.results for y in self.results]
        else:
            one, other = f"{rest[0]}.{rest[1]}", f"{rest[2]}.{rest[3]}"
            pairs = [(f"made.{one}", f"cell.{one}", self.model.nodes[rest[1]].number,
                      f"made.{other}", f"cell.{other}", self.model.nodes[rest[3]].number)]
        related = []
        for when, x, size, then, y, other_size in pairs:
            if what == "cell":
                same = f"(= {x} {y})"
            elif kind == "apart":
                same = f"(not {self.overlap(x, size, y, other_size)})"
            else:
                same = self.one_block(x, y, size) if size == other_size else "false"
            related.append(f"(and {when} {then} {same})")
        return disj(related)

    def write(self) -> str:
        for context in self.asked.contexts:
            names = {each: self.declare(f"reg.{context}.{each}", self.model.widths[each])
                     for each in self.model.reg}
            for kind, rule in self.model.rules:
                if kind == "legal context":
                    self.claim(is_one(term_of(rule, names)))
        for access in self.asked.accesses:
            for each in self.model.input:
                self.declare(f"in.{access.name}.{each}", self.model.widths[each])
            for node in self.reads:
                self.declare(f"word.{access.name}.{node.name}", self.model.word)
            self.walk(access)
            for words in access.demands:
                self.claim(self.demand(access, words))
        for words in self.asked.links:
            self.claim(self.link(words))
        self.memory()
        return "\n".join(self.lines + ["(check-sat)", "(exit)", ""])

    def places(self, nodes: list[Node]) -> list[tuple[str, int]]:
        """These nodes of each access, with their exponents."""
        return [(f"{access.name}.{node.name}", node.number) for access in self.asked.accesses for node in nodes]

    def memory(self) -> None:
        """One word for one cell; no page on a table; nothing in a kept range."""
        reads, pages = self.places(self.reads), self.places(self.results)
        for (x, _), (y, _) in combinations(reads, 2):
            self.claim(f"(=> (and made.{x} made.{y} (= cell.{x} cell.{y})) (= word.{x} word.{y}))")
        for x, size in pages:
            for y, other in reads:
                self.claim(f"(not (and at.{x} made.{y} {self.overlap(f'pa.{x}', size, f'cell.{y}', other)}))")
        used = [(f"at.{x}", f"pa.{x}", size) for x, size in pages]
        used += [(f"made.{x}", f"cell.{x}", size) for x, size in reads]
        for lo, hi in self.asked.kept:
            for when, address, size in used if lo < hi else ():
                self.claim(f"(not (and {when} {self.touches(address, size, lo, hi)}))")


def smt_of(model: Model, asked: Requests) -> str:
    return Writer(model, asked).write()
