#!/usr/bin/env python3
"""An independent program for the cards: `reference.py < JOB` prints what `card` should print.

It shares no code with the product. It works a job out by plain loops over Python sets and dictionaries, finds
the duals by trying every code, and, where the inputs are few, holds the card against the gates' Boolean
tables at every input.
"""
import itertools
import sys

DEFAULT = {2: 7, 3: 11, 4: 25, 5: 37, 6: 67, 7: 131, 8: 283}
PLACES = {"and": 2, "or": 2, "xor": 2, "nand": 2, "nor": 2, "xnor": 2, "not": 1, "buf": 1, "zero": 0, "one": 0}
TABLE = {
    "and": lambda x, y: x & y, "or": lambda x, y: x | y, "xor": lambda x, y: x ^ y,
    "nand": lambda x, y: 1 - (x & y), "nor": lambda x, y: 1 - (x | y), "xnor": lambda x, y: 1 - (x ^ y),
    "not": lambda x: 1 - x, "buf": lambda x: x, "zero": lambda: 0, "one": lambda: 1,
}
TAIL = {
    "and": lambda x, y: [{x, y}], "xor": lambda x, y: [{x}, {y}], "or": lambda x, y: [{x}, {y}, {x, y}],
    "nand": lambda x, y: [set(), {x, y}], "xnor": lambda x, y: [set(), {x}, {y}],
    "nor": lambda x, y: [set(), {x}, {y}, {x, y}], "not": lambda x: [set(), {x}], "buf": lambda x: [{x}],
    "one": lambda: [set()], "zero": lambda: [],
}
ROWS = 512


class Refused(Exception):
    pass


def times(a, b):
    r = 0
    while b:
        r ^= a if b & 1 else 0
        a, b = a << 1, b >> 1
    return r


def modulo(a, p):
    while a.bit_length() >= p.bit_length():
        a ^= p << (a.bit_length() - p.bit_length())
    return a


class Field:
    def __init__(self, p):
        if p < 4 or p > 511:
            raise Refused("1 field 0")
        if any(modulo(p, d) == 0 for d in range(2, p)):
            raise Refused("2 field 0")
        self.p, self.k = p, p.bit_length() - 1

    def mul(self, a, b):
        return modulo(times(a, b), self.p)

    def power(self, a, e):
        r = 1
        for _ in range(e):
            r = self.mul(r, a)
        return r

    def trace(self, t):
        r = 0
        for j in range(self.k):
            r ^= self.power(t, 1 << j)
        return r

    def dual(self, i):
        fits = lambda d: all(self.trace(self.mul(d, 1 << j)) == int(i == j) for j in range(self.k))
        (d,) = [d for d in range(1 << self.k) if fits(d)]
        return d


def number(part):
    good = 1 <= len(part) <= 3 and all(c in b"0123456789" for c in part) and (len(part) == 1 or part[:1] != b"0")
    return int(part) if good else None


def cut(text, places):
    """the first line's name and numbers, and what follows; None where it is of wrong form"""
    end = text.find(b"\n")
    if end < 0:
        return None
    name, *parts = text[:end].split(b" ")
    values = [number(x) for x in parts]
    name = name.decode("latin1")
    if name not in places or len(values) != places[name] or None in values:
        return None
    return name, values, text[end + 1:]


def read(text, n, k):
    def line(place, places):
        if not text:
            raise Refused(f"15 reader {place}")
        found = cut(text, places)
        if found is None:
            raise Refused(f"10 reader {place}")
        return found

    _, (words, width), text = line(1, {"words": 2})
    if not (1 <= words <= 3 and 2 <= width <= 8):
        raise Refused("11 reader 1")
    if (words, width) != (n, k):
        raise Refused("12 reader 1")
    gates, place = [], 2
    while True:
        name, nets, text = line(place, {**PLACES, "out": k})
        driven = n * k + len(gates)
        if name != "out" and driven >= 256:
            raise Refused(f"14 reader {place}")
        if any(x >= driven for x in nets):
            raise Refused(f"13 reader {place}")
        place += 1
        if name != "out":
            gates.append((name, nets))
        elif text:
            raise Refused(f"16 reader {place}")
        else:
            return gates, nets


class Table:
    """terms by monomial; `terms` are in falling order of `rank`"""
    def __init__(self, rank, full):
        self.rank, self.full, self.codes = rank, full, {}

    def add(self, code, mono):
        if code == 0:
            return
        if mono not in self.codes and len(self.codes) >= ROWS:
            raise Refused(self.full)
        self.codes[mono] = self.codes.get(mono, 0) ^ code
        if self.codes[mono] == 0:
            del self.codes[mono]

    def terms(self):
        return sorted(self.codes.items(), key=lambda t: self.rank(t[0]), reverse=True)


def bit_form(n, k, gates, outs):
    table = Table(lambda s: sum(1 << g for g in s), "30 bits 0")
    for i, net in enumerate(outs):
        table.add(1 << i, frozenset([net]))
    while table.codes:
        lead = max(table.codes, key=table.rank)
        if max(lead, default=-1) < n * k:
            break
        code, g = table.codes.pop(lead), max(lead)
        name, nets = gates[g - n * k]
        for union in TAIL[name](*nets):
            table.add(code, (lead - {g}) | frozenset(union))
    if len(table.codes) > 256:
        raise Refused("31 bits 0")
    return table.terms()


def card(field, n, bits):
    k, top = field.k, (1 << field.k) - 1
    fold = lambda a, b: tuple(x + y - top if x + y > top else x + y for x, y in zip(a, b))
    row = lambda w, e: tuple(e if v == w else 0 for v in range(n))
    duals = [field.dual(i) for i in range(k)]
    sums = {w * k + i: [(field.power(duals[i], 1 << j), row(w, 1 << j)) for j in range(k)] for w in range(n) for i in range(k)}
    result = Table(lambda r: r, "41 card 0")
    for nets, code in bits:
        first = Table(lambda r: r, "40 card 0")
        first.add(code, (0,) * n)
        for net in sorted(nets):
            second = Table(lambda r: r, "40 card 0")
            for mono, c in first.terms():
                for d, e in sums[net]:
                    second.add(field.mul(c, d), fold(mono, e))
            first = second
        for mono, c in first.terms():
            result.add(c, mono)
    return result.terms()


def back(field, n, rows):
    """the bit form of a card, by the working from words to bits"""
    k = field.k
    rank = lambda s: sum(1 << g for g in s)
    result = Table(rank, "30 bits 0")
    for mono, code in rows:
        first = Table(rank, "30 bits 0")
        first.add(code, frozenset())
        for w, e in enumerate(mono):
            for s in (s for s in range(k) if e >> s & 1):
                second = Table(rank, "30 bits 0")
                for nets, c in first.terms():
                    for i in range(k):
                        second.add(field.mul(c, field.power(1 << i, 1 << s)), nets | {w * k + i})
                first = second
        for nets, c in first.terms():
            result.add(c, nets)
    return result.terms()


def check(field, n, gates, outs, rows):
    """the card has the Boolean tables' output at every input"""
    k = field.k
    for words in itertools.product(range(1 << k), repeat=n):
        nets = [words[i // k] >> i % k & 1 for i in range(n * k)]
        for name, reads in gates:
            nets.append(TABLE[name](*(nets[x] for x in reads)))
        want, got = sum(nets[x] << i for i, x in enumerate(outs)), 0
        for mono, code in rows:
            for x, e in zip(words, mono):
                code = field.mul(code, field.power(x, e))
            got ^= code
        assert got == want, (words, got, want)


def worked(job):
    """what each step of a job makes: the field, the number of words, the bit form and the card"""
    if len(job) > 16384:
        raise Refused("17 reader 0")
    text, p = job, None
    if job.startswith(b"field"):
        line = cut(job, {"field": 1})
        if line is None:
            raise Refused("10 reader 1")
        _, (p,), text = line
    sizes = cut(text, {"words": 2})
    n, k = sizes[1] if sizes else (1, 0)
    if p is None:
        if k not in DEFAULT:
            read(text, 1, 2)
        p = DEFAULT[k]
    field = Field(p)
    n = min(3, max(1, n))
    gates, outs = read(text, n, field.k)
    bits = bit_form(n, field.k, gates, outs)
    rows = card(field, n, bits)
    if n * field.k <= 10:
        check(field, n, gates, outs, rows)
    return field, n, bits, rows


def answer(job):
    try:
        field, n, _, rows = worked(job)
    except Refused as why:
        return f"refused {why}\n"
    degree = max((sum(mono) for mono, _ in rows), default=0)
    lines = [("card", n, field.k, field.p, len(rows), degree)] + [("term", code, *mono) for mono, code in rows]
    return "".join(" ".join(map(str, line)) + "\n" for line in lines)


def there_and_back(job):
    """the line that `trials` writes for a job that has a card"""
    try:
        field, n, bits, rows = worked(job)
    except Refused:
        return ""
    counts = f"{len(bits)} bit terms, {len(rows)} rows, {1 << n * field.k if n * field.k <= 8 else 0} inputs, right true"
    try:
        again = back(field, n, rows)
        return f"round: {counts}, same bits {str(again == bits).lower()}, same card {str(card(field, n, again) == rows).lower()}\n"
    except Refused:
        return f"round: full, {counts}\n"


if __name__ == "__main__":
    sys.stdout.write(answer(sys.stdin.buffer.read()))
