#!/usr/bin/env python3
"""Makes the input and the expected output of the crate record_cases.

Each case is two length bytes and that many bytes of record. The answers come from the rules in docs/RECORDS.md alone:
a refusal is the first of the listed conditions that holds.

usage: tools/record_cases.py crates/record_cases
"""
import itertools
import random
import struct
import sys


def header(fmt=1, s=1, n=(0, 0, 0), kind=0, q=0, zeros=0):
    word = fmt
    for value, width in ((s, 2), (n[0], 3), (n[1], 3), (n[2], 3), (kind, 3), (q, 4), (zeros, 2)):
        word = word << width | value
    return word.to_bytes(3, "big")


def count(n):
    return (n[0] + 1) * (n[1] + 1) * (n[2] + 1)


def record(coefficients, **fields):
    return header(**fields) + b"".join(struct.pack(">i", a) for a in coefficients)


def conditions(data):
    """The numbers of all refusals whose condition holds, in their order."""
    if len(data) < 3:
        return [1]
    bits = int.from_bytes(data[:3], "big")
    fmt, s = bits >> 20, bits >> 18 & 3
    n = (bits >> 15 & 7, bits >> 12 & 7, bits >> 9 & 7)
    zeros = bits & 3
    found = []
    if fmt != 1:
        found.append(2)
    if s == 0:
        found.append(3)
    if any(n[v] for v in range(s, 3)):
        found.append(4)
    if zeros:
        found.append(5)
    if count(n) > 64:
        found.append(6)
    if len(data) != 3 + 4 * count(n):
        found.append(7)
    return found


def cases():
    largest, least = 2**31 - 1, -(2**31)
    yield record([0, 800, -800], n=(2, 0, 0))
    yield record([0] * 64, s=3, n=(3, 3, 3))
    yield header(s=3, n=(4, 3, 3)) + bytes(4 * 80)
    # lengths: none, one, two, one short, one long
    whole = record([5, -6], n=(1, 0, 0))
    for size in range(len(whole) + 1):
        yield whole[:size]
    yield whole + b"\0"
    # extreme coefficients and shapes
    yield record([least, largest], n=(1, 0, 0), kind=7, q=15)
    for n, s in (((7, 7, 0), 2), ((3, 3, 3), 3), ((7, 3, 1), 3), ((0, 0, 0), 3), ((7, 0, 7), 3), ((0, 7, 7), 3)):
        yield record([least if k % 2 else largest for k in range(count(n))], s=s, n=n, kind=3, q=1)
    # every refusal alone and every pair that can hold together
    for fmt, s, n, zeros, longer in itertools.product(
        (1, 0, 2, 15), (1, 0, 2), ((1, 0, 0), (1, 1, 0), (1, 0, 1), (7, 7, 1), (7, 3, 2)), (0, 1, 2, 3), (0, 1)
    ):
        yield header(fmt=fmt, s=s, n=n, zeros=zeros) + bytes(4 * count(n) + longer)
    # anything at all
    source = random.Random(20)
    for _ in range(300):
        n = tuple(source.randrange(8) for _ in range(3))
        fields = dict(fmt=source.choice((1, 1, 1, source.randrange(16))), s=source.randrange(4), n=n)
        fields.update(kind=source.randrange(8), q=source.randrange(16), zeros=source.choice((0, 0, source.randrange(4))))
        size = 4 * count(n) + source.choice((0, 0, 0, -1, 1, 4))
        yield header(**fields) + source.randbytes(max(0, min(size, 600)))


def main(folder):
    with open(folder + "/stdin", "wb") as data, open(folder + "/stdout", "w") as answers:
        for case in cases():
            data.write(struct.pack(">H", len(case)) + case)
            found = conditions(case)
            answers.write("no %d\n" % found[0] if found else "accepted %d same\n" % len(case))


main(sys.argv[1])
