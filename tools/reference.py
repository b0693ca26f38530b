"""The range checker again, in exact rational arithmetic, written from docs/ alone.

It serves to make expected outputs for the executed cases, so it shares neither code nor layout with the crates: fractions in place
of scaled whole numbers, dictionaries over exponents in place of flat tables, recursion in place of loops.
"""
from fractions import Fraction
from itertools import product
from math import ceil, comb, floor

COUNTS = [(0, 255), (-128, 127), (0, 65535), (-32768, 32767), (0, 4095), (-2048, 2047), (0, 16383), (-8192, 8191)]


class Mapping:
    def __init__(self, degrees, coefficients, inputs=None, kind=0, shift=0):
        self.degrees = tuple(degrees) + (0,) * (3 - len(degrees))
        self.inputs = inputs or max(1, len(degrees))
        self.kind, self.shift = kind, shift
        self.table = dict(zip(product(*(range(n + 1) for n in self.degrees)), coefficients))
        assert len(self.table) == len(coefficients)

    @property
    def register(self):
        low, high = COUNTS[self.kind]
        return low << self.shift, high << self.shift

    def value(self, point):
        return sum(a * point[0] ** i * point[1] ** j * point[2] ** k for (i, j, k), a in self.table.items())

    def record(self):
        word = 1
        for field, width in ((self.inputs, 2), *((n, 3) for n in self.degrees), (self.kind, 3), (self.shift, 4), (0, 2)):
            word = word << width | field
        return word.to_bytes(3, "big") + b"".join(a.to_bytes(4, "big", signed=True) for a in self.table.values())


def parse(data):
    """The mapping of a record, or the number of the refusal."""
    if len(data) < 3:
        return 1
    bits = "".join(f"{byte:08b}" for byte in data[:3])
    cuts = (0, 4, 6, 9, 12, 15, 18, 22, 24)
    fmt, s, *rest = (int(bits[a:b], 2) for a, b in zip(cuts, cuts[1:]))
    degrees, (kind, shift, zeros) = rest[:3], rest[3:]
    count = (degrees[0] + 1) * (degrees[1] + 1) * (degrees[2] + 1)
    if fmt != 1:
        return 2
    if s == 0:
        return 3
    if any(degrees[s:]):
        return 4
    if zeros:
        return 5
    if count > 64:
        return 6
    if len(data) != 3 + 4 * count:
        return 7
    values = [int.from_bytes(data[3 + 4 * k : 7 + 4 * k], "big", signed=True) for k in range(count)]
    return Mapping(degrees, values, s, kind, shift)


def ranges(cell):
    """The three inputs of a cell, each from and to."""
    return [(Fraction(p, 2**d), Fraction(p + 1, 2**d)) for d, p in cell]


def horner(mapping, sides):
    """Low and high end of the nested form, for an input range on each side."""

    def work(prefix):
        v = len(prefix)
        if v == 3:
            return (mapping.table[prefix],) * 2
        low = high = None
        for exponent in range(mapping.degrees[v], -1, -1):
            a, b = work(prefix + (exponent,))
            if low is not None:
                low, high = floor(min(low * x for x in sides[v])), ceil(max(high * x for x in sides[v]))
                a, b = a + low, b + high
            low, high = a, b
        return low, high

    return work(())


def nested(mapping, cell):
    low, high = horner(mapping, ranges(cell))
    slack = 2 * (len(mapping.table) - 1)
    for v, (d, _) in enumerate(cell):
        slack += ceil(Fraction(sum(i[v] * abs(a) for i, a in mapping.table.items()), 2**d))
    return low, high, slack


def bernstein(mapping, cell):
    n = mapping.degrees
    exact = {
        j: sum(
            a * Fraction(comb(j[0], i[0]), comb(n[0], i[0])) * Fraction(comb(j[1], i[1]), comb(n[1], i[1])) * Fraction(comb(j[2], i[2]), comb(n[2], i[2]))
            for i, a in mapping.table.items()
            if all(x <= y for x, y in zip(i, j))
        )
        for j in mapping.table
    }

    def halved(row, digit, rounding):
        rows = [row]
        while len(rows[-1]) > 1:
            last = rows[-1]
            rows.append([rounding(Fraction(x + y, 2)) for x, y in zip(last, last[1:])])
        return [r[0] for r in rows] if digit == 0 else [r[-1] for r in reversed(rows)]

    def on_cell(rounding):
        table = {j: rounding(b) for j, b in exact.items()}
        for v, (d, p) in enumerate(cell):
            for digit in (p >> t & 1 for t in range(d - 1, -1, -1)):
                fresh = {}
                for j in table:
                    if j[v] == 0:
                        places = [j[:v] + (k,) + j[v + 1 :] for k in range(n[v] + 1)]
                        fresh.update(zip(places, halved([table[q] for q in places], digit, rounding)))
                table = fresh
        return table.values()

    slack = 1
    for v, (d, _) in enumerate(cell):
        if n[v]:
            bend = sum(abs(a) * i[v] * (i[v] - 1) for i, a in mapping.table.items())
            slack += ceil(Fraction(n[v] * d, 2)) + ceil(Fraction(bend, 2 * n[v] * 4**d))
    return min(on_cell(floor)), max(on_cell(ceil)), slack


def pair(mapping, cell):
    (a, b, s), (c, d, t) = bernstein(mapping, cell), nested(mapping, cell)
    return max(a, c), min(b, d), min(s, t)


def job(data):
    """The lines of a job."""
    if len(data) > 4096:
        return ["no 41"]
    if len(data) < 2 or len(data) < 2 + int.from_bytes(data[:2], "big"):
        return ["no 42"]
    end = 2 + int.from_bytes(data[:2], "big")
    mapping = parse(data[2:end])
    if isinstance(mapping, int):
        return [f"no {mapping}"]
    least, most = mapping.register
    box = ((0, 0),) * 3
    regions, hull, witness = [(box, *pair(mapping, box))], [], None

    def report():
        parts = [r[1:] for r in regions] + hull
        low, high, slack = min(p[0] for p in parts), max(p[1] for p in parts), max(p[2] for p in parts)
        word = "leaves" if witness else "fits" if least <= low and high <= most else "open"
        return low, high, slack, word

    lines = ["range %d %d %d %s" % report()]
    calls = data[end:]
    for at in range(0, len(calls), 3):
        call = calls[at : at + 3]
        if len(call) < 3 or chr(call[0]) not in "HCPR":
            lines.append("no 43")
            continue
        code, i, k = chr(call[0]), call[1], call[2]
        if code == "R":
            lines.append("range %d %d %d %s" % report())
        elif i >= len(regions):
            lines.append("no 21")
        elif code == "H":
            cell, low, high, _ = regions[i]
            if not 1 <= k <= mapping.inputs:
                lines.append("no 22")
            elif cell[k - 1][0] == 10:
                lines.append("no 23")
            elif len(regions) == 64:
                lines.append("no 24")
            else:
                halves = []
                for side in (0, 1):
                    d, p = cell[k - 1]
                    part = cell[: k - 1] + ((d + 1, 2 * p + side),) + cell[k:]
                    a, b, s = pair(mapping, part)
                    halves.append((part, max(a, low), min(b, high), s))
                regions[i] = halves[0]
                regions.append(halves[1])
                lines.append(f"halved {len(regions)}")
        elif code == "C":
            _, low, high, slack = regions[i]
            if not (least <= low and high <= most):
                lines.append("no 25")
            else:
                hull.append((low, high, slack))
                last = regions.pop()
                if i < len(regions):
                    regions[i] = last
                lines.append(f"cleared {len(regions)}")
        elif k >= 2**mapping.inputs:
            lines.append("no 26")
        else:
            corner = [(p + (k >> v & 1), d) for v, (d, p) in enumerate(regions[i][0])]
            low, high = horner(mapping, [(Fraction(u, 2**d),) * 2 for u, d in corner])
            if witness is None and (low > most or high < least):
                witness = corner
            lines.append(f"point {low} {high}")
    last = "verdict " + report()[3]
    if witness:
        last += "".join(f" {u}/{2**d}" for u, d in witness[: mapping.inputs])
    return lines + [last]


if __name__ == "__main__":
    hump = Mapping((2,), (0, 800, -800))
    ramp = Mapping((1,), (0, 300))
    dip = Mapping((2,), (0, -1, 0))
    twist = Mapping((1, 1), (0, 0, 0, 100))
    box, lower, upper = ((0, 0),) * 3, ((1, 0), (0, 0), (0, 0)), ((1, 1), (0, 0), (0, 0))
    assert bernstein(hump, box) == (0, 400, 401) and nested(hump, box) == (0, 800, 2404)
    assert bernstein(hump, lower) == (0, 200, 102) and nested(hump, upper) == (0, 400, 1204)
    assert bernstein(ramp, box) == (0, 300, 1) and horner(ramp, [(Fraction(1),) * 2] + [(Fraction(0),) * 2] * 2) == (300, 300)
    assert bernstein(dip, box) == (-1, 0, 1) and bernstein(dip, lower) == (-1, 0, 2)
    assert nested(twist, box) == (0, 100, 206) and nested(twist, upper) == (0, 100, 156)
    cubic, dish = Mapping((3,), (6, -5, -2, 1)), Mapping((2,), (1, -2, 4))
    assert nested(cubic, box)[:2] == (-1, 6) and bernstein(cubic, box)[:2] == (0, 6)
    assert nested(dish, box)[:2] == (-1, 3) and bernstein(dish, box)[:2] == (0, 3)
    skew = Mapping((2, 2), (0, -2, -2, -1, 3, -2, -1, 1, 1))
    assert bernstein(skew, ((0, 0), (1, 1), (0, 0)))[:2] == (-4, -1) and bernstein(skew, ((1, 0), (1, 1), (0, 0)))[:2] == (-4, 0)
    sample = "000F1500000000000000000320FFFFFCE0480001520000430000430000430000"
    print("\n".join(job(bytes.fromhex(sample))))
