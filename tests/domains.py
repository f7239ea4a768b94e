#!/usr/bin/env python3
"""Works out the answers of the five domains for a table of cases, apart from the program.

    python3 tests/domains.py crates/dt_domain_table

writes the cases to its `stdin` and the wanted answers to its `stdout`. Known bits go bit by bit,
intervals by formulas on whole numbers, and the least and the greatest number that both hold are
found by trying all numbers up to a width of 8, and else bit by bit from the top. What listed numbers
give is found by trying all selections of them. Each answer is also tried for what every domain owes: no value that the operands can give is lost.
"""
import random
import sys

random.seed(20261201)

OPS = ["const", "not", "and", "or", "xor", "add", "sub", "slice", "concat", "sext", "shl", "shr",
       "eq", "ltu", "ite"]
ARITY = {"const": 0, "not": 1, "slice": 1, "sext": 1, "shl": 1, "shr": 1, "ite": 3}


def arity(op):
    return ARITY.get(op, 2)


def ones(w):
    return (1 << w) - 1


# ---- the operators on numbers

def value(op, p, ws, xs):
    w = ws[0]
    a, b, c = xs
    if op == "const":
        return p[1]
    if op == "not":
        return ones(w) - a
    if op == "and":
        return a & b
    if op == "or":
        return a | b
    if op == "xor":
        return a ^ b
    if op == "add":
        return (a + b) % (1 << w)
    if op == "sub":
        return (a - b) % (1 << w)
    if op == "slice":
        return (a >> p[1]) % (1 << (p[0] - p[1] + 1))
    if op == "concat":
        return (a << ws[1]) + b
    if op == "sext":
        return a + ((1 << p[0]) - (1 << w) if a >> (w - 1) else 0)
    if op == "shl":
        return (a << p[0]) % (1 << w)
    if op == "shr":
        return a >> p[0]
    if op == "eq":
        return int(a == b)
    if op == "ltu":
        return int(a < b)
    if op == "ite":
        return b if a == 1 else c


def result_width(op, p, ws):
    if op in ("const", "sext"):
        return p[0]
    if op == "slice":
        return p[0] - p[1] + 1
    if op == "concat":
        return ws[0] + ws[1]
    if op in ("eq", "ltu"):
        return 1
    if op == "ite":
        return ws[1]
    return ws[0]


# ---- known bits: None for an empty one, else a list of 0, 1 or None, the lowest bit first

def known_words(k, w):
    if k is None:
        return (0, 0, 1)
    return (sum(1 << i for i, b in enumerate(k) if b is not None),
            sum(1 << i for i, b in enumerate(k) if b == 1), 0)


def bits_of(x, w):
    return [x >> i & 1 for i in range(w)]


def nots(k):
    return [None if b is None else 1 - b for b in k]


def ripple(f, g, carry):
    out = []
    for a, b in zip(f, g):
        three = (a, b, carry)
        out.append(None if None in three else a ^ b ^ carry)
        carry = 1 if three.count(1) >= 2 else 0 if three.count(0) >= 2 else None
    return out


def clash(f, g):
    return any(a is not None and b is not None and a != b for a, b in zip(f, g))


def k_meet(f, g):
    if f is None or g is None or clash(f, g):
        return None
    return [b if a is None else a for a, b in zip(f, g)]


def k_least(k):
    return sum(1 << i for i, b in enumerate(k) if b == 1)


def k_most(k):
    return sum(1 << i for i, b in enumerate(k) if b != 0)


def k_forward(op, p, ws, ks):
    if any(k is None for k in ks[:arity(op)]):
        return None
    a, b, c = ks
    w = ws[0]
    if op == "const":
        return bits_of(p[1], p[0])
    if op == "not":
        return nots(a)
    if op == "and":
        return [1 if x == 1 and y == 1 else 0 if x == 0 or y == 0 else None for x, y in zip(a, b)]
    if op == "or":
        return [0 if x == 0 and y == 0 else 1 if x == 1 or y == 1 else None for x, y in zip(a, b)]
    if op == "xor":
        return [None if x is None or y is None else x ^ y for x, y in zip(a, b)]
    if op == "add":
        return ripple(a, b, 0)
    if op == "sub":
        return ripple(a, nots(b), 1)
    if op == "slice":
        return a[p[1]:p[0] + 1]
    if op == "concat":
        return b + a
    if op == "sext":
        return a + [a[-1]] * (p[0] - w)
    if op == "shl":
        return ([0] * p[0] + a)[:w]
    if op == "shr":
        return a[p[0]:] + [0] * p[0]
    if op == "eq":
        return [0 if clash(a, b) else 1 if None not in a and None not in b else None]
    if op == "ltu":
        return [1 if k_most(a) < k_least(b) else 0 if k_least(a) >= k_most(b) else None]
    if op == "ite":
        if a[0] is not None:
            return b if a[0] == 1 else c
        return [x if x == y else None for x, y in zip(b, c)]


def k_backward(op, p, ws, ks, r, place):
    w = ws[place]
    full = [None] * w
    if r is None or any(k is None for k in ks[:arity(op)]):
        return None
    a, b, c = ks
    it = ks[place]
    other = ks[1 - place] if arity(op) == 2 else None
    if op == "not":
        return nots(r)
    if op == "and":
        return [1 if x == 1 else 0 if x == 0 and y == 1 else None for x, y in zip(r, other)]
    if op == "or":
        return [0 if x == 0 else 1 if x == 1 and y == 0 else None for x, y in zip(r, other)]
    if op == "xor":
        return [None if x is None or y is None else x ^ y for x, y in zip(r, other)]
    if op == "add":
        return ripple(r, nots(other), 1)
    if op == "sub":
        return ripple(r, b, 0) if place == 0 else ripple(a, nots(r), 1)
    if op == "slice":
        return [r[i - p[1]] if p[1] <= i <= p[0] else None for i in range(w)]
    if op == "concat":
        return r[ws[1]:] if place == 0 else r[:ws[1]]
    if op == "sext":
        top = [x for x in r[w - 1:] if x is not None]
        if top and min(top) != max(top):
            return None
        return r[:w - 1] + [top[0] if top else None]
    if op == "shl":
        return [r[i + p[0]] if i + p[0] < w else None for i in range(w)]
    if op == "shr":
        return [r[i - p[0]] if i >= p[0] else None for i in range(w)]
    if op == "eq":
        if r[0] == 1:
            return other
        if r[0] == 0 and None not in other:
            unknown = [i for i in range(w) if it[i] is None]
            agrees = not clash(it, other)
            if not unknown and agrees:
                return None
            if len(unknown) == 1 and agrees:
                return [1 - other[i] if i == unknown[0] else None for i in range(w)]
        return full
    if op == "ite":
        if place == 0:
            one, two = clash(r, b), clash(r, c)
            return None if one and two else [0] if one else [1] if two else [None]
        return r if a[0] == (1 if place == 1 else 0) else full
    return full


# ---- intervals: None for an empty one, else (lo, hi)

def r_single(r):
    return r is not None and r[0] == r[1]


def r_meet(r, s):
    if r is None or s is None:
        return None
    lo, hi = max(r[0], s[0]), min(r[1], s[1])
    return (lo, hi) if lo <= hi else None


def r_sub(a, b, w, full):
    if r_single(a) and r_single(b):
        x = (a[0] - b[0]) % (1 << w)
        return (x, x)
    if a[0] >= b[1]:
        return (a[0] - b[1], a[1] - b[0])
    if a[1] < b[0]:
        return (a[0] - b[1] + (1 << w), a[1] - b[0] + (1 << w))
    return full


def r_add(a, b, w, full):
    m = ones(w)
    if r_single(a) and r_single(b):
        x = (a[0] + b[0]) % (1 << w)
        return (x, x)
    if a[1] + b[1] <= m:
        return (a[0] + b[0], a[1] + b[1])
    if a[0] + b[0] > m:
        return (a[0] + b[0] - (1 << w), a[1] + b[1] - (1 << w))
    return full


def r_forward(op, p, ws, rs):
    used = rs[:arity(op)]
    if any(r is None for r in used):
        return None
    out = result_width(op, p, ws)
    full = (0, ones(out))
    a, b, c = rs
    w = ws[0]
    m = ones(w)
    if all(r_single(r) for r in used):
        x = value(op, p, ws, [r[0] if r else 0 for r in rs])
        return (x, x)
    if op == "not":
        return (m - a[1], m - a[0])
    if op == "and":
        return (0, min(a[1], b[1]))
    if op == "or":
        return (max(a[0], b[0]), m)
    if op == "add":
        return r_add(a, b, w, full)
    if op == "sub":
        return r_sub(a, b, w, full)
    if op == "slice":
        if a[0] >> (p[0] + 1) == a[1] >> (p[0] + 1):
            cut = lambda x: value("slice", p, ws, [x, 0, 0])
            return (cut(a[0]), cut(a[1]))
        return full
    if op == "concat":
        return ((a[0] << ws[1]) + b[0], (a[1] << ws[1]) + b[1])
    if op == "sext":
        if a[0] >> (w - 1) == a[1] >> (w - 1):
            ext = lambda x: value("sext", p, ws, [x, 0, 0])
            return (ext(a[0]), ext(a[1]))
        return full
    if op == "shl":
        return (a[0] << p[0], a[1] << p[0]) if a[1] << p[0] <= m else full
    if op == "shr":
        return (a[0] >> p[0], a[1] >> p[0])
    if op == "eq":
        return (0, 0) if r_meet(a, b) is None else full
    if op == "ltu":
        return (1, 1) if a[1] < b[0] else (0, 0) if a[0] >= b[1] else full
    if op == "ite":
        if r_single(a):
            return b if a[0] == 1 else c
        return (min(b[0], c[0]), max(b[1], c[1]))
    return full


def r_backward(op, p, ws, rs, r, place):
    w = ws[place]
    m = ones(w)
    full = (0, m)
    if r is None or any(x is None for x in rs[:arity(op)]):
        return None
    a, b, c = rs
    it = rs[place]
    other = rs[1 - place] if arity(op) == 2 else None
    if op == "not":
        return (m - r[1], m - r[0])
    if op == "and":
        return (r[0], m)
    if op == "or":
        return (0, r[1])
    if op == "add":
        return r_sub(r, other, w, full)
    if op == "sub":
        return r_add(r, b, w, full) if place == 0 else r_sub(a, r, w, full)
    if op == "slice":
        if p[0] == w - 1:
            return (r[0] << p[1], (r[1] << p[1]) + (1 << p[1]) - 1)
        return full
    if op == "concat":
        lo, hi = r[0] >> ws[1], r[1] >> ws[1]
        if place == 0:
            return (lo, hi)
        return (r[0] % (1 << ws[1]), r[1] % (1 << ws[1])) if lo == hi else full
    if op == "shr":
        if r[1] <= m >> p[0]:
            return (r[0] << p[0], (r[1] << p[0]) + (1 << p[0]) - 1)
        return full
    if op == "eq":
        if r == (1, 1):
            return other
        if r == (0, 0) and r_single(other):
            x = other[0]
            if it == (x, x):
                return None
            if it[0] == x:
                return (x + 1, it[1])
            if it[1] == x:
                return (it[0], x - 1)
        return full
    if op == "ltu":
        if r == (1, 1):
            if place == 0:
                return (0, b[1] - 1) if b[1] > 0 else None
            return (a[0] + 1, m) if a[0] < m else None
        if r == (0, 0):
            return (b[0], m) if place == 0 else (0, a[1])
        return full
    if op == "ite":
        if place == 0:
            one, two = r_meet(r, b) is None, r_meet(r, c) is None
            return None if one and two else (0, 0) if one else (1, 1) if two else (0, 1)
        return r if a == ((1, 1) if place == 1 else (0, 0)) else full
    return full


def r_known(r, w):
    """The bits above the highest in which lo and hi differ."""
    if r is None:
        return None
    n = (r[0] ^ r[1]).bit_length()
    return [None] * n + bits_of(r[0], w)[n:]


def r_with_bit(r, w, i, v):
    k = r_known(r, w)
    if k is None:
        return None
    if k[i] is not None:
        return r if k[i] == v else None
    if i + 1 == w or k[i + 1] is not None:
        middle = r[1] >> i << i
        return (middle, r[1]) if v else (r[0], middle - 1)
    return r


# ---- both, normalised: None for an empty one, else (known, range)

def agrees(x, k):
    return all(b is None or x >> i & 1 == b for i, b in enumerate(k))


def least_from(k, lo, w):
    """The least number from lo on that has the known bits."""
    if w <= 8:
        found = [x for x in range(lo, 1 << w) if agrees(x, k)]
        return found[0] if found else None
    best = None
    if agrees(lo, k):
        return lo
    for i in range(w):
        if lo >> i & 1 == 0 and k[i] != 0 and all(k[j] is None or lo >> j & 1 == k[j]
                                                  for j in range(i + 1, w)):
            x = (lo >> i | 1) << i | sum(1 << j for j in range(i) if k[j] == 1)
            best = x if best is None or x < best else best
    return best


def most_to(k, hi, w):
    x = least_from(nots(k), ones(w) - hi, w)
    return None if x is None else ones(w) - x


def normal(k, r, w):
    if k is None or r is None:
        return None
    lo, hi = least_from(k, r[0], w), most_to(k, r[1], w)
    if lo is None or hi is None or lo > r[1] or hi < r[0]:
        return None
    return (k_meet(k, r_known((lo, hi), w)), (lo, hi))


def parts(p):
    return (None, None) if p is None else p


def split(ps):
    return [parts(p)[0] for p in ps], [parts(p)[1] for p in ps]


# ---- listed numbers: None for all numbers where they aren't listed, else a rising list

CAPACITY = 8
SELECTIONS = 64


def s_full(w):
    return list(range(1 << w)) if w <= 3 else None


def s_few(ss):
    """Whether the used operands list their numbers, and have few selections."""
    n = 1
    for s in ss:
        if s is None:
            return False
        n *= len(s)
    return n <= SELECTIONS


def selections(ss):
    """All selections of numbers, with 0 for an operand that isn't used."""
    a, b, c = ss + [[0]] * (3 - len(ss))
    return [(x, y, z) for x in a for y in b for z in c]


def s_forward(op, p, ws, ss):
    used, out = ss[:arity(op)], result_width(op, p, ws)
    if [] in used:
        return []
    if not s_few(used):
        return s_full(out)
    values = sorted(set(value(op, p, ws, list(xs)) for xs in selections(used)))
    return values if len(values) <= CAPACITY else s_full(out)


def s_backward(op, p, ws, ss, r, place):
    used = ss[:arity(op)]
    if r == [] or [] in used:
        return []
    if r is None or not s_few(used):
        return s_full(ws[place])
    return sorted(set(xs[place] for xs in selections(used) if value(op, p, ws, list(xs)) in r))


def s_meet(s, t):
    return t if s is None else s if t is None else [x for x in s if x in t]


def s_with_bit(s, i, v):
    return s if s is None else [x for x in s if x >> i & 1 == v]


# ---- all three: a pair and listed numbers, each as narrow as the other makes it

def reduced(pair, s, w):
    if s is None:
        return (None, []) if pair is None else (pair, None)
    xs = [] if pair is None else [x for x in s if agrees(x, pair[0]) and pair[1][0] <= x <= pair[1][1]]
    if not xs:
        return (None, [])
    bits = [b if all(x >> i & 1 == b for x in xs) else None for i, b in enumerate(bits_of(xs[0], w))]
    return ((bits, (xs[0], xs[-1])), xs)


def pairs(ts):
    return [t[0] for t in ts]


def lists(ts):
    return [t[1] for t in ts]


# ---- cases

def listed(s):
    xs = [] if s is None else s
    return "%d %s" % (CAPACITY + 1 if s is None else len(s), " ".join(map(str, xs + [0] * (CAPACITY - len(xs)))))


def show(domain, d, w):
    if domain == "known":
        return "%d %d %d %d" % ((w,) + known_words(d, w))
    if domain == "range":
        return "%d %d %d" % ((w,) + ((1, 0) if d is None else d))
    if domain == "sets":
        return "%d %s" % (w, listed(d))
    if domain == "triple":
        return "%s %s" % (show("pair", d[0], w), listed(d[1]))
    k, r = parts(d)
    return "%s %d %d" % (("%d %d %d" % ((w,) + known_words(k, w)[:2])), *((1, 0) if r is None else r))


def some_known(w, x=None):
    if random.random() < 0.06:
        return None
    share = random.choice([0.0, 0.3, 0.6, 0.9, 1.0])
    y = random.getrandbits(w) if x is None else x
    return [b if random.random() < share else None for b in bits_of(y, w)]


def some_range(w, x=None):
    if random.random() < 0.06:
        return None
    y = random.getrandbits(w) if x is None else x
    kind = random.randrange(5)
    if kind == 0:
        return (y, y)
    near = 1 << random.randrange(w)
    lo = max(0, y - random.randrange(near)) if kind < 4 else 0
    hi = min(ones(w), y + random.randrange(near)) if kind < 3 else ones(w)
    return (lo, hi)


def some_sets(w, x=None):
    kind = random.random()
    if kind < 0.06:
        return []
    if kind < 0.25:
        return s_full(w)
    xs = set() if x is None else {x}
    for _ in range(random.choice([1, 2, 2, 3, 4, 5, 8])):
        y = random.getrandbits(w)
        near = x is not None and random.random() < 0.5
        xs.add(x ^ 1 << random.randrange(w) if near else y)
    return sorted(xs)[:CAPACITY]


def some(domain, w, x=None):
    if domain == "sets":
        return some_sets(w, x)
    if domain == "triple":
        return reduced(some("pair", w, x), some_sets(w, x), w)
    if domain == "known":
        return some_known(w, x)
    if domain == "range":
        return some_range(w, x)
    return normal(some_known(w, x), some_range(w, x), w)


def forward(domain, op, p, ws, ds):
    if domain == "known":
        return k_forward(op, p, ws, ds)
    if domain == "range":
        return r_forward(op, p, ws, ds)
    if domain == "sets":
        return s_forward(op, p, ws, ds)
    if domain == "triple":
        return reduced(forward("pair", op, p, ws, pairs(ds)), s_forward(op, p, ws, lists(ds)),
                       result_width(op, p, ws))
    ks, rs = split(ds)
    return normal(k_forward(op, p, ws, ks), r_forward(op, p, ws, rs), result_width(op, p, ws))


def backward(domain, op, p, ws, ds, r, place):
    if domain == "known":
        return k_backward(op, p, ws, ds, r, place)
    if domain == "range":
        return r_backward(op, p, ws, ds, r, place)
    if domain == "sets":
        return s_backward(op, p, ws, ds, r, place)
    if domain == "triple":
        return reduced(backward("pair", op, p, ws, pairs(ds), r[0], place),
                       s_backward(op, p, ws, lists(ds), r[1], place), ws[place])
    ks, rs = split(ds)
    rk, rr = parts(r)
    return normal(k_backward(op, p, ws, ks, rk, place), r_backward(op, p, ws, rs, rr, place), ws[place])


def holds(domain, d, x):
    if domain == "sets":
        return d is None or x in d
    if domain == "triple":
        return holds("pair", d[0], x) and holds("sets", d[1], x)
    if d is None:
        return False
    if domain == "known":
        return agrees(x, d)
    if domain == "range":
        return d[0] <= x <= d[1]
    return agrees(x, d[0]) and d[1][0] <= x <= d[1][1]


def held(domain, d, w):
    return [x for x in range(1 << w) if holds(domain, d, x)]


def check(domain, op, p, ws, ds, r, place, answer):
    """No value that the operands can give is lost; tried at small widths."""
    n = arity(op)
    if sum(ws[:n]) > 12:
        return
    sets = [held(domain, d, w) for d, w in zip(ds[:n], ws[:n])] + [[0]] * (3 - n)
    for a in sets[0]:
        for b in sets[1]:
            for c in sets[2]:
                y = value(op, p, ws, [a, b, c])
                if place == 3:
                    assert holds(domain, answer, y), (domain, op, p, ws, ds, answer, y)
                elif holds(domain, r, y):
                    assert holds(domain, answer, (a, b, c)[place]), (domain, op, p, ws, ds, r, place)


def widths_for(op, w):
    if op == "ite":
        return [1, w, w]
    if op == "concat":
        a = max(1, w // 2)
        return [a, w - a if w > 1 else 1, 1]
    if op == "sext":
        return [max(1, w - w // 3), 1, 1]
    return [w, w, 1]


def params(op, w, ws):
    if op == "const":
        return [w, random.getrandbits(w)]
    if op == "slice":
        hi = random.choice([ws[0] - 1, random.randrange(ws[0])])
        return [hi, random.randrange(hi + 1)]
    if op == "sext":
        return [w, 0]
    if op in ("shl", "shr"):
        return [random.randrange(ws[0]), 0]
    return [0, 0]


def operands(domain, op, ws):
    """Three domains; where two operands are compared, they are often near one another."""
    x = random.getrandbits(max(ws))
    near = random.random() < 0.5
    return [some(domain, w, x % (1 << w) if near else None) for w in ws]


def line(domain, op, place, p, ws, ds, out, r):
    shown = [show(domain, d, w) for d, w in zip(ds, ws)] + [show(domain, r, out)]
    return "%s %s %d %d %d %s" % (domain, op, place, p[0], p[1], " ".join(shown))


NOTHING = {"known": None, "range": None, "pair": None, "sets": [], "triple": (None, [])}


def meet(domain, a, b, w):
    if domain == "known":
        return k_meet(a, b)
    if domain == "range":
        return r_meet(a, b)
    if domain == "sets":
        return s_meet(a, b)
    if domain == "triple":
        return reduced(meet("pair", a[0], b[0], w), s_meet(a[1], b[1]), w)
    return normal(k_meet(parts(a)[0], parts(b)[0]), r_meet(parts(a)[1], parts(b)[1]), w)


def with_bit(domain, a, w, i, v):
    one = [v if j == i else None for j in range(w)]
    if domain == "known":
        return k_meet(a, one)
    if domain == "range":
        return r_with_bit(a, w, i, v)
    if domain == "sets":
        return s_with_bit(a, i, v)
    if domain == "triple":
        return reduced(with_bit("pair", a[0], w, i, v), s_with_bit(a[1], i, v), w)
    return normal(k_meet(parts(a)[0], one), parts(a)[1], w)


def cases(domain):
    for w in (1, 4, 64, 127, 128):
        for op in OPS:
            for _ in range(4 if arity(op) else 1):
                ws = widths_for(op, w)
                p = params(op, w, ws)
                ds = operands(domain, op, ws)
                out = result_width(op, p, ws)
                f = forward(domain, op, p, ws, ds)
                check(domain, op, p, ws, ds, None, 3, f)
                yield line(domain, op, 3, p, ws, ds, out, NOTHING[domain]), show(domain, f, out)
                for place in range(arity(op)):
                    xs = [d for d in ds]
                    y = random.getrandbits(out)
                    if op in ("eq", "ltu"):
                        r = some(domain, 1, random.randrange(2))
                    else:
                        r = some(domain, out, y)
                    b = backward(domain, op, p, ws, xs, r, place)
                    check(domain, op, p, ws, xs, r, place, b)
                    yield line(domain, op, place, p, ws, xs, out, r), show(domain, b, ws[place])
        for _ in range(6):
            a, b = operands(domain, "meet", [w, w])
            met = meet(domain, a, b, w)
            yield line(domain, "meet", 0, [0, 0], [w, w, w], [a, b, b], w, b), show(domain, met, w)
            i, v = random.randrange(w), random.randrange(2)
            if random.random() < 0.5:
                i = w - 1
            got = with_bit(domain, a, w, i, v)
            yield line(domain, "with_bit", 0, [i, v], [w, w, w], [a, a, a], w, a), show(domain, got, w)


def tested_search():
    """The search bit by bit finds what trying all numbers finds."""
    for _ in range(3000):
        k = some_known(6) or [None] * 6
        lo = random.getrandbits(6)
        found = [x for x in range(lo, 64) if agrees(x, k)]
        assert least_from(k + [0] * 10, lo, 16) == (found[0] if found else None)


def main():
    tested_search()
    asked, wanted = [], []
    for domain in ("known", "range", "pair", "sets", "triple"):
        for a, b in cases(domain):
            asked.append(a)
            wanted.append(b)
    folder = sys.argv[1]
    open(folder + "/stdin", "w").write("\n".join(asked) + "\n")
    open(folder + "/stdout", "w").write("\n".join(wanted) + "\n")
    print(len(asked), "cases")


main()
