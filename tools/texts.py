"""What the tools share: models and images read, refusals, files written.

The program decides which texts are lawful. Here a text is read as far as a tool needs it: line by
line, with its names, numbers, widths and edges. What can't be used is Refused.
"""
from __future__ import annotations

import os
import re
import sys
from dataclasses import dataclass, field
from pathlib import Path
from typing import Callable, Collection, Iterator

LONGEST_LINE, DEEPEST = 16_384, 32
NAME = re.compile(r"[a-z][a-z0-9_]{0,30}")
NUMBER = re.compile(r"0x[0-9a-fA-F]+|[0-9]+")
TOKEN = re.compile(r"[()]|[^ \t\r()]+")
BAD_BYTE = re.compile(rb"[^\x20-\x7e\t\r]")

# For each operator, how many numbers and how many parts follow it.
OPERATORS = {"not": (0, 1), "and": (0, 2), "or": (0, 2), "xor": (0, 2), "add": (0, 2), "sub": (0, 2),
             "slice": (2, 1), "concat": (0, 2), "sext": (1, 1), "shl": (1, 1), "shr": (1, 1),
             "eq": (0, 2), "ltu": (0, 2), "ite": (0, 3)}
# For each act, what follows it: a variable, an expression, an integer, names of nodes.
ACTS = {"let": "ven", "read": "veinn", "if": "enn", "fault": "i", "done": "ei"}


class Refused(Exception):
    """Bad input: the place and the cause."""


@dataclass
class Line:
    """A line of a text, and its tokens that weren't taken yet."""
    source: str
    place: int
    tokens: list[str] = field(default_factory=list)

    def refuse(self, cause: str) -> Refused:
        return Refused(f"{self.source}: line {self.place}: {cause}")

    def take(self) -> str:
        if not self.tokens:
            raise self.refuse("the line ends too early")
        return self.tokens.pop(0)

    def number(self, least: int, most: int, token: str | None = None) -> int:
        """The number that this token spells, or the next one."""
        token = self.take() if token is None else token
        if not NUMBER.fullmatch(token):
            raise self.refuse(f"`{token}` is no number")
        value = int(token, 16) if "x" in token else int(token.lstrip("0")[:50] or "0")
        if not least <= value <= most:
            span = f": from {least:#x} to {most:#x}" if least <= most else ""
            raise self.refuse(f"{token} is out of range{span}")
        return value

    def new_name(self, taken: Collection[str]) -> str:
        name = self.take()
        if not NAME.fullmatch(name):
            raise self.refuse(f"`{name}` is no name")
        if name in taken:
            raise self.refuse(f"the name {name} was declared before")
        return name


@dataclass(frozen=True)
class Expr:
    """A name (`op` is "name"), a constant ("const") or an operator over parts."""
    op: str
    width: int
    name: str = ""
    numbers: tuple[int, ...] = ()
    parts: tuple[Expr, ...] = ()


@dataclass
class Node:
    name: str
    act: str
    line: Line
    variable: str = ""
    expr: Expr | None = None
    number: int = 0  # the granule of a read, the code of a fault, the page exponent of a result
    targets: tuple[str, ...] = ()


@dataclass
class Model:
    word: int = 0
    address: int = 0
    reg: list[str] = field(default_factory=list)
    input: list[str] = field(default_factory=list)
    var: list[str] = field(default_factory=list)
    widths: dict[str, int] = field(default_factory=dict)
    rules: list[tuple[str, Expr]] = field(default_factory=list)  # `legal context` or `legal access`
    nodes: dict[str, Node] = field(default_factory=dict)

    @property
    def word_bytes(self) -> int:
        return self.word // 8


@dataclass
class Image:
    lo: int = 0
    hi: int = 0
    contexts: list[list[int]] = field(default_factory=list)
    accesses: list[tuple[int, list[int]]] = field(default_factory=list)
    words: dict[int, int] = field(default_factory=dict)


# ---- lines

def read_bytes(source: str) -> bytes:
    if source.startswith("@"):
        raise Refused(f"{source}: no file; `./deeptrans model {source}` prints the model's text")
    return sys.stdin.buffer.read() if source == "-" else Path(source).read_bytes()


def lines_of(source: str, data: bytes) -> Iterator[Line]:
    """The lines that have tokens."""
    for place, piece in enumerate(data.split(b"\n"), 1):
        spoken = piece.split(b"#", 1)[0]
        if len(piece) > LONGEST_LINE:
            raise Line(source, place).refuse(f"more than {LONGEST_LINE} bytes")
        if bad := BAD_BYTE.search(spoken):
            raise Line(source, place).refuse(f"the byte {bad[0][0]:#04x} outside a comment")
        if tokens := TOKEN.findall(spoken.decode("ascii")):
            yield Line(source, place, tokens)


def in_order(source: str, kinds: list[str], once: set[str]) -> Iterator[tuple[str, Line]]:
    """The lines; their kinds rise, those of `once` come once. The caller takes all tokens."""
    at, data = -1, read_bytes(source)
    for line in lines_of(source, data):
        kind = line.take()
        kind += f" {line.take()}" if kind == "legal" else ""
        rank = kinds.index(kind) if kind in kinds else -1
        if rank < max(at, 0) or rank == at and kind in once:
            raise line.refuse(f"no line `{kind}` may stand here")
        if due := [each for each in kinds[at + 1:rank] if each in once]:
            raise line.refuse(f"a line `{due[0]}` has to come first")
        if rank == 0 and line.take() != "1":
            raise line.refuse(f"the first line has to be `{kind} 1`")
        at = rank
        yield kind, line
        if line.tokens:
            raise line.refuse(f"`{line.tokens[0]}` is too much")
    if at < len(kinds) - 1:
        last = data.count(b"\n") + (bool(data) and not data.endswith(b"\n"))
        raise Line(source, last + 1).refuse("the text ends before its line `end`")


# ---- models

def width_of(op: str, numbers: list[int], widths: list[int]) -> int | None:
    """The width of an operator's value, None where the parts don't fit it."""
    n, low = (numbers + [0, 0])[:2]
    first, last = widths[0], widths[-1]
    fits, width = {
        "slice": (low <= n < first, n - low + 1), "concat": (first + last <= 128, first + last),
        "sext": (first <= n <= 128, n), "shl": (n < first, first), "shr": (n < first, first),
        "ite": (first == 1 and widths[1:2] == [last], last),
        "eq": (first == last, 1), "ltu": (first == last, 1),
    }.get(op, (first == last, first))
    return width if fits else None


def read_expr(line: Line, widths: dict[str, int], depth: int = 0) -> Expr:
    token = line.take()
    if token in widths:
        return Expr("name", widths[token], name=token)
    if ":" in token:
        width, value = token.split(":", 1)
        bits = line.number(1, 128, width)
        return Expr("const", bits, numbers=(line.number(0, 2**bits - 1, value),))
    if token != "(":
        raise line.refuse(f"no register, input or variable is called `{token}`")
    if (op := line.take()) not in OPERATORS:
        raise line.refuse(f"`{op}` is no operator")
    if depth == DEEPEST:
        raise line.refuse(f"more than {DEEPEST} operators one within the other")
    many, arity = OPERATORS[op]
    numbers = [line.number(0, 2**32 - 1) for _ in range(many)]
    parts = [read_expr(line, widths, depth + 1) for _ in range(arity)]
    if (closing := line.take()) != ")":
        raise line.refuse(f"`{closing}` stands where `{op}` has to end")
    given = [part.width for part in parts]
    if (width := width_of(op, numbers, given)) is None:
        raise line.refuse(f"`{' '.join(map(str, [op, *numbers]))}` doesn't fit parts of {given} bits")
    return Expr(op, width, numbers=tuple(numbers), parts=tuple(parts))


def read_node(line: Line, model: Model) -> Node:
    node = Node(line.new_name(model.nodes), line.take(), line)
    if node.act not in ACTS:
        raise line.refuse(f"`{node.act}` is no act")
    for part in ACTS[node.act]:
        if part == "v":
            node.variable = line.take()
            if node.variable not in model.var:
                raise line.refuse(f"no variable is called `{node.variable}`")
        elif part == "e":
            node.expr = read_expr(line, model.widths)
        elif part == "i":
            least = model.word_bytes.bit_length() - 1 if node.act == "read" else 0
            node.number = line.number(least, 65535 if node.act == "fault" else model.address)
        else:
            node.targets += (line.take(),)
    wanted = {"let": model.widths.get(node.variable), "if": 1}.get(node.act, model.address)
    if node.expr and node.expr.width != wanted:
        raise line.refuse(f"the expression has {node.expr.width} bits in place of {wanted}")
    return node


def read_model(source: str) -> Model:
    model = Model()
    kinds = ["model", "word", "address", "reg", "input", "var", "legal context", "legal access",
             "node", "end"]
    for kind, line in in_order(source, kinds, {"model", "word", "address", "end"}):
        if kind == "node":
            node = read_node(line, model)
            model.nodes[node.name] = node
        elif kind.startswith("legal"):
            model.rules.append((kind, read_expr(line, model.widths)))
        elif kind in ("word", "address"):
            setattr(model, kind, line.number(8, 64))
            if kind == "word" and model.word not in (8, 16, 32, 64):
                raise line.refuse("a word has 8, 16, 32 or 64 bits")
        elif kind in ("reg", "input", "var"):
            name = line.new_name(model.widths)
            model.widths[name] = line.number(1, 128)
            getattr(model, kind).append(name)
    places = {name: place for place, name in enumerate(model.nodes)}
    for name, node in model.nodes.items():
        for target in node.targets:
            if places.get(target, -1) <= places[name]:
                raise node.line.refuse(f"no later node is called `{target}`")
    if not model.nodes:
        raise Refused(f"{source}: the model has no node")
    return model


# ---- images

def read_image(source: str, model: Model) -> Image:
    image, free, size = Image(), 0, model.word_bytes
    kinds = ["image", "tables", "context", "access", "word", "end"]
    for kind, line in in_order(source, kinds, {"image", "tables", "end"}):
        if kind == "tables":
            image.lo, image.hi = (line.number(0, 2**model.address) for _ in range(2))
            if image.lo % size or image.hi % size or image.lo > image.hi:
                raise line.refuse(f"table memory has to rise from a multiple of {size} to another")
            free = image.lo
        elif kind == "context":
            image.contexts.append([line.number(0, 2**model.widths[reg] - 1) for reg in model.reg])
        elif kind == "access":
            context = line.number(0, len(image.contexts) - 1)
            values = [line.number(0, 2**model.widths[name] - 1) for name in model.input]
            image.accesses.append((context, values))
        elif kind == "word":
            address = line.number(free, image.hi - size)
            if address % size:
                raise line.refuse(f"{address:#x} isn't a multiple of {size}")
            image.words[address] = line.number(0, 2**model.word - 1)
            free = address + size
    return image


# ---- files and answers

def write(target: str, data: bytes) -> None:
    """Writes a whole file or none: beside it first, then in its place. `-` is standard output."""
    path = Path(target)
    if target == "-":
        sys.stdout.buffer.write(data)
        return
    if path.exists() and not path.is_file():  # a device or a pipe
        path.write_bytes(data)
        return
    beside = Path(f"{path.resolve()}.{os.getpid()}")
    try:
        beside.write_bytes(data)
        beside.replace(path.resolve())
    finally:
        beside.unlink(missing_ok=True)


def end(main: Callable[[], int]) -> None:
    """Ends with main's status, or with 2 and one line on standard error for what is refused."""
    try:
        status = main()
        sys.stdout.flush()
    except (Refused, OSError) as error:
        print(f"{Path(sys.argv[0]).name}: {error}", file=sys.stderr)
        status = 2
    sys.exit(status)
