#!/usr/bin/env python3
"""Writes what the crate `tables` must print: tables of the fields, found by polynomials and pairs alone.

Published values are held against it here: the AES standard's worked products and inverses, and the powers of 2 modulo 285
as texts on Reed-Solomon codes have them.
"""
import pathlib

from reference import Field, Refused

ROOT = pathlib.Path(__file__).resolve().parent.parent
OUT = []


class Shift(Field):
    one = 1


class Normal:
    """four elements in a normal basis {w, w²}: code 1 is w, code 2 its square, and one is their sum, code 3"""
    k, one = 2, 3

    def mul(self, a, b):
        # w = 2 and w² = 3 in the shift field of 7
        base = Field(7)
        to = [0, 2, 3, 1]
        return to.index(base.mul(to[a], to[b]))


class Tower:
    def __init__(self, base, nu):
        q = 1 << base.k
        if base.k > 4:
            raise Refused("3 field 0")
        if nu >= q or any(base.mul(t, t) ^ t == nu for t in range(q)):
            raise Refused("4 field 0")
        self.base, self.nu, self.k, self.one = base, nu, 2 * base.k, base.one

    def mul(self, a, b):
        m, f = self.base.k, self.base.mul
        (u, v), (s, t) = (a % (1 << m), a >> m), (b % (1 << m), b >> m)
        return (f(u, s) ^ f(f(v, t), self.nu)) | (f(u, t) ^ f(v, s) ^ f(v, t)) << m


def row(name, values):
    OUT.append(name + "".join(f" {v}" for v in values))


def products(f):
    for a in range(1 << f.k):
        row("", [f.mul(a, b) for b in range(1 << f.k)])


def trace(f, t):
    r = 0
    for _ in range(f.k):
        r, t = r ^ t, f.mul(t, t)
    return r


def elements(f):
    q = range(1 << f.k)
    row("one", [f.one])
    inverses = [next((b for b in q if f.mul(a, b) == f.one), 0) for a in q]
    row("inverses", inverses)
    row("traces", [trace(f, a) for a in q])
    duals = []
    for i in range(f.k):
        (d,) = [d for d in q if all(trace(f, f.mul(d, 1 << j)) == (f.one if i == j else 0) for j in range(f.k))]
        duals.append(d)
    row("duals", duals + [0] * (8 - f.k))
    return inverses


def shift(p):
    try:
        f = Shift(p)
    except Refused as why:
        OUT.append(f"refused {why}")
        return
    OUT.append(f"== polynomials modulo {p}")
    products(f)
    elements(f)


def tower(base, nu, upper):
    OUT.append(f"== tower with constant {nu}")
    try:
        t = Tower(base, nu)
        products(t)
        elements(t)
        OUT.append(f"== tower over that with constant {upper}")
        elements(Tower(t, upper))
    except Refused as why:
        OUT.append(f"refused {why}")


for p in (3, 4, 5, 6, 7, 11, 13, 19, 25, 511, 512):
    shift(p)
OUT.append("== normal basis")
products(Normal())
elements(Normal())
for nu in range(5):
    tower(Shift(7), nu, 8)
OUT.append("== towers over the normal basis")
tower(Normal(), 1, 4)
OUT.append("== towers over the log field")
tower(Shift(285), 2, 2)
OUT.append("== AES")
aes = Shift(283)
inverses = elements(aes)
assert inverses[:16] == [0x00, 0x01, 0x8D, 0xF6, 0xCB, 0x52, 0x7B, 0xD1, 0xE8, 0x4F, 0x29, 0xC0, 0xB0, 0xE1, 0xE5, 0xC7]
assert inverses[0x53] == 0xCA and aes.mul(0x57, 0x83) == 0xC1 and aes.mul(0x57, 0x13) == 0xFE
OUT.append("57·83 = c1, 57·13 = fe")
OUT.append("== powers of 2 modulo 285")
rs, x, powers = Shift(285), 1, []
for _ in range(256):
    powers.append(x)
    x = rs.mul(x, 2)
assert powers[:16] == [1, 2, 4, 8, 16, 32, 64, 128, 29, 58, 116, 232, 205, 135, 19, 38] and powers[255] == 1
row("", powers)
row("", powers)
elements(rs)
(ROOT / "crates/tables/stdout").write_text("\n".join(OUT) + "\n", encoding="utf-8")
print(len(OUT), "lines")
