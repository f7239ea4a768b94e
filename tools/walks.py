"""The walks of an image's accesses, for the tools that show them."""
from __future__ import annotations

from dataclasses import dataclass
from typing import Iterator

from texts import Expr, Image, Model, Node


@dataclass(frozen=True)
class Visit:
    """A node that a walk comes to, and what happens there."""
    node: Node
    came: int = 0  # the value of its expression: of a read the cell, of a result the address
    word: int = 0  # what a read reads
    side: int = 0  # the edge by which the walk goes on


def value_of(expr: Expr, env: dict[str, int], node: Node) -> int:
    if expr.op == "name":
        if expr.name not in env:
            raise node.line.refuse(f"the walk comes here before {expr.name} has a value")
        return env[expr.name]
    if expr.op == "const":
        return expr.numbers[0]
    a, b, c = ([value_of(part, env, node) for part in expr.parts] + [0, 0])[:3]
    first, n = expr.parts[0].width, (expr.numbers or (0,))[-1]
    results = {
        "not": ~a, "and": a & b, "or": a | b, "xor": a ^ b, "add": a + b, "sub": a - b, "slice": a >> n,
        "concat": a << expr.parts[-1].width | b, "sext": a - (a >> first - 1 << first), "shl": a << n,
        "shr": a >> n, "eq": int(a == b), "ltu": int(a < b), "ite": b if a else c,
    }
    return results[expr.op] % 2**expr.width


def named_values(model: Model, image: Image, access: int) -> dict[str, int]:
    """The registers and inputs of an access, by their names."""
    context, inputs = image.accesses[access]
    return dict(zip(model.reg + model.input, image.contexts[context] + inputs))


def visits(model: Model, image: Image, access: int) -> Iterator[Visit]:
    """The walk of an access: each node from the first on, by the values that came."""
    env = named_values(model, image, access)
    node = next(iter(model.nodes.values()))
    while True:
        visit = visited(node, env, model, image)
        if node.variable and visit.side == 0:
            env[node.variable] = visit.word if node.act == "read" else visit.came
        yield visit
        if not node.targets:
            return
        node = model.nodes[node.targets[visit.side]]


def visited(node: Node, env: dict[str, int], model: Model, image: Image) -> Visit:
    came = value_of(node.expr, env, node) if node.expr else 0
    if node.act == "if":
        return Visit(node, came, side=1 - came)
    if node.act != "read":
        return Visit(node, came)
    if image.lo <= came < image.hi and came % model.word_bytes == 0:
        return Visit(node, came, word=image.words.get(came, 0))
    return Visit(node, came, side=1)
