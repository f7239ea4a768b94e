"""A strict reader of the texts of smt_write.py, which checks sorts, and their values on an image."""
from __future__ import annotations

import re

from smt_write import Requests
from texts import Image, Model

TOKEN = re.compile(r"[()]|[^\s()]+")
SYMBOL = re.compile(r"[A-Za-z][A-Za-z0-9_.]*")
Term = str | list
BOOL = 0  # the sort of truths; any other sort is a number of bits


class Unlawful(Exception):
    """A text that isn't one of SMT-LIB's, or not one that is written here."""


def parsed(text: str) -> list[Term]:
    """The expressions of a text."""
    stack: list[list[Term]] = [[]]
    for token in TOKEN.findall(text):
        if token == "(":
            stack.append([])
        elif token == ")":
            if len(stack) == 1:
                raise Unlawful("a parenthesis closes nothing")
            whole = stack.pop()
            stack[-1].append(whole)
        else:
            stack[-1].append(token)
    if len(stack) > 1:
        raise Unlawful("a parenthesis isn't closed")
    return stack[0]


def mentions(term: Term, name: str) -> bool:
    return term == name if isinstance(term, str) else any(mentions(part, name) for part in term)


def lawful(holds: bool, term: Term) -> None:
    if not holds:
        raise Unlawful(f"sorts don't fit in {str(term)[:200]}")


class Script:
    """A text that was read, each sort checked: what it declares, its definitions, and its other assertions.

    A definition stands directly behind the declaration of its name, and says what that name is equal to.
    """

    def __init__(self, text: str):
        self.sorts: dict[str, int] = {}
        self.declared = ""  # by the command before
        self.bodies: dict[str, Term] = {}
        self.asserts: list[Term] = []
        commands = parsed(text)
        if commands[:1] != [["set-logic", "QF_BV"]] or commands[-2:] != [["check-sat"], ["exit"]]:
            raise Unlawful("it doesn't begin or end as it has to")
        for command in commands[1:-2]:
            self.command(command)

    def command(self, command: Term) -> None:
        if command[0] == "assert":
            lawful(len(command) == 2 and self.sort(command[1]) == BOOL, command)
            if command[1][:2] == ["=", self.declared] and not mentions(command[1][2], self.declared):
                self.bodies[self.declared] = command[1][2]
            else:
                self.asserts.append(command[1])
            self.declared = ""
            return
        keyword, name, parameters, sort = command
        if keyword != "declare-fun" or parameters != [] or not SYMBOL.fullmatch(name) or name in self.sorts:
            raise Unlawful(f"{command[:2]}")
        self.sorts[name], self.declared = self.told(sort), name

    def told(self, sort: Term) -> int:
        if sort == "Bool":
            return BOOL
        lawful(sort[:2] == ["_", "BitVec"] and len(sort) == 3 and int(sort[2]) > 0, sort)
        return int(sort[2])

    def sort(self, term: Term) -> int:
        if isinstance(term, str):
            known = {"true": BOOL, "false": BOOL, "#b0": 1, "#b1": 1}
            lawful(term in known or term in self.sorts, term)
            return known[term] if term in known else self.sorts[term]
        if term[0] == "_":
            lawful(len(term) == 3 and term[1][:2] == "bv" and int(term[1][2:]) < 2 ** int(term[2]), term)
            return int(term[2])
        given = [self.sort(part) for part in term[1:]]
        return self.applied(term, given)

    def applied(self, term: Term, given: list[int]) -> int:
        """The sort of an operator over parts of these sorts."""
        if isinstance(term[0], list):
            _, op, *numbers = term[0]
            first, numbers = given[0], [int(each) for each in numbers]
            lawful(len(given) == 1 and first != BOOL, term)
            if op == "extract":
                lawful(len(numbers) == 2 and 0 <= numbers[1] <= numbers[0] < first, term)
                return numbers[0] - numbers[1] + 1
            lawful(op == "sign_extend" and len(numbers) == 1, term)
            return first + numbers[0]
        op, count = term[0], len(given)
        alike = len(set(given)) == 1
        if op in ("and", "or", "=>", "not"):
            lawful(alike and given[0] == BOOL and (count == 1 if op == "not" else count >= 2), term)
            return BOOL
        if op == "ite":
            lawful(count == 3 and given[0] == BOOL and given[1] == given[2], term)
            return given[1]
        if op == "=":
            lawful(count == 2 and alike, term)
            return BOOL
        lawful(BOOL not in given and count == (1 if op == "bvnot" else 2), term)
        if op == "concat":
            return sum(given)
        lawful(alike and op in VALUES, term)
        return {"bvult": BOOL, "bvule": BOOL, "bvcomp": 1}.get(op, given[0])


VALUES = {
    "and": lambda *parts: all(parts), "or": lambda *parts: any(parts), "not": lambda a: not a,
    "=>": lambda a, b: not a or b, "=": lambda a, b: a == b, "bvult": lambda a, b: a < b,
    "bvule": lambda a, b: a <= b, "bvcomp": lambda a, b: int(a == b), "bvnot": lambda a: ~a,
    "bvand": lambda a, b: a & b, "bvor": lambda a, b: a | b, "bvxor": lambda a, b: a ^ b,
    "bvadd": lambda a, b: a + b, "bvsub": lambda a, b: a - b, "bvshl": lambda a, b: a << b,
    "bvlshr": lambda a, b: a >> b, "ite": lambda a, b, c: b if a else c,
}


class Values:
    """What the terms of a script come to on an image. A read's word is that of memory at its cell."""

    def __init__(self, script: Script, model: Model, asked: Requests, image: Image):
        self.script, self.image, self.known = script, image, {}
        for name, values in zip(asked.contexts, image.contexts):
            self.known |= {f"reg.{name}.{each}": value for each, value in zip(model.reg, values)}
        for access, (_, values) in zip(asked.accesses, image.accesses):
            self.known |= {f"in.{access.name}.{each}": value for each, value in zip(model.input, values)}

    def of_name(self, name: str) -> int | bool:
        if name not in self.known:
            body = self.script.bodies.get(name)
            self.known[name] = (self.image.words.get(self.of_name("cell" + name[4:]), 0) if body is None
                                else self.of(body))
        return self.known[name]

    def of(self, term: Term) -> int | bool:
        if isinstance(term, str):
            given = {"true": True, "false": False, "#b0": 0, "#b1": 1}
            return given[term] if term in given else self.of_name(term)
        if term[0] == "_":
            return int(term[1][2:])
        if term[0] == "ite":
            return self.of(term[2] if self.of(term[1]) else term[3])
        if term[0] == "and":
            return all(self.of(part) for part in term[1:])
        values = [self.of(part) for part in term[1:]]
        if isinstance(term[0], list):
            return self.indexed(term, values[0])
        if term[0] == "concat":
            return values[0] << self.script.sort(term[2]) | values[1]
        value = VALUES[term[0]](*values)
        return value if isinstance(value, bool) else value % 2 ** self.script.sort(term)

    def indexed(self, term: Term, value: int) -> int:
        _, op, first, *last = term[0]
        if op == "extract":
            return value >> int(last[0]) & 2 ** (int(first) - int(last[0]) + 1) - 1
        width = self.script.sort(term[1])
        return value | (2 ** int(first) - 1 << width if value >> width - 1 else 0)

    def broken(self) -> list[Term]:
        """The assertions that the image breaks."""
        return [term for term in self.script.asserts if not self.of(term)]
