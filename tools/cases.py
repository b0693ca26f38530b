#!/usr/bin/env python3
"""Makes the inputs and the expected outputs of the crates form_cases and job_cases. The answers come from reference.py.

usage: tools/cases.py crates
"""
import random
import struct
import sys

from reference import Mapping, bernstein, job, nested, pair

LEAST, LARGEST = -(2**31), 2**31 - 1
HUMP = Mapping((2,), (0, 800, -800))
RAMP = Mapping((1,), (0, 300))
DIP = Mapping((2,), (0, -1, 0))
TWIST = Mapping((1, 1), (0, 0, 0, 100))
SKEW = Mapping((2, 2), (0, -2, -2, -1, 3, -2, -1, 1, 1))
BOX = ((0, 0),) * 3


def extreme(degrees, source=None, **fields):
    count = 1
    for n in degrees:
        count *= n + 1
    values = [source.choice((LEAST, LARGEST, source.randint(-1000, 1000))) if source else (LEAST, LARGEST)[k % 2] for k in range(count)]
    return Mapping(degrees, values, **fields)


def form_cases():
    lower, upper = ((1, 0), (0, 0), (0, 0)), ((1, 1), (0, 0), (0, 0))
    for mapping in (HUMP, RAMP, DIP, TWIST, Mapping((3,), (6, -5, -2, 1)), Mapping((2,), (1, -2, 4))):
        for cell in (BOX, lower, upper):
            yield mapping, cell
    # a half that sticks out of its parent
    yield SKEW, ((0, 0), (1, 1), (0, 0))
    yield SKEW, ((1, 0), (1, 1), (0, 0))
    # the deepest cells, extreme coefficients, the widest shapes
    for degrees in ((3, 3, 3), (7, 7), (7, 3, 1), (1, 3, 7), (0, 7, 7), (7,), (3, 0, 3)):
        for cell in (BOX, ((10, 0),) * 3, ((10, 1023),) * 3, ((10, 341), (10, 682), (10, 512))):
            yield extreme(degrees), cell
    # present inputs of degree 0
    yield Mapping((0,), (7,)), BOX
    yield Mapping((0, 2, 0), (5, -9, 4), inputs=3), ((3, 5), (2, 1), (10, 9))
    source = random.Random(11)
    for _ in range(60):
        degrees = source.choice(((2,), (7,), (2, 3), (7, 7), (1, 1, 1), (3, 3, 3), (7, 3, 1), (0, 3, 0), (5, 0, 4)))
        depths = [source.randrange(11) for _ in range(3)]
        yield extreme(degrees, source), tuple((d, source.randrange(2**d)) for d in depths)


def calls(text):
    """Calls such as H:0,1 C:2 P:0,3 R as bytes: the code, then region and argument."""
    out = b""
    for word in text.split():
        numbers = [int(x) for x in word[2:].split(",")] if word[2:] else []
        out += bytes([ord(word[0])] + (numbers + [0, 0])[:2])
    return out


def spread(depths, count):
    """Halvings along input 1, of the shallowest region each, until so many regions are open."""
    text = ""
    while len(depths) < count:
        i = depths.index(min(depths))
        depths[i] += 1
        depths.append(depths[i])
        text += "H:%d,1 " % i
    return text


def whole(mapping, text):
    data = mapping.record()
    return struct.pack(">H", len(data)) + data + calls(text)


def job_cases():
    # the hump: open, halved, cleared twice, then nothing is left
    yield whole(HUMP, "H:0,1 R C:0 C:0 C:0")
    # length bytes cut short, length bytes alone, a record of length 0, a record cut short
    yield b""
    yield b"\0"
    yield b"\0\0"
    yield b"\0\x0f"
    yield whole(HUMP, "")[:-1]
    # the longest input, and one byte more; a record of the longest length
    yield (whole(HUMP, "") + b"R" * 4096)[:4096]
    yield (whole(HUMP, "") + b"R" * 4096)[:4097]
    yield b"\xff\xff" + bytes(200)
    # refusals of the record
    for first in (b"\x25\0\0", b"\x10\0\0", b"\x14\x10\0", b"\x14\0\1", b"\x1f\xfe\0", b"\x14\x80\0\0"):
        yield struct.pack(">H", len(first)) + first + calls("R")
    # calls: unknown codes, calls cut short, bytes that are not needed
    yield whole(HUMP, "X:0,0 h:0,1 R:7,9 C:0,200 R") + b"H"
    yield whole(HUMP, "R") + b"H\0"
    # each refusal alone and each pair in order
    yield whole(HUMP, "H:1,1 H:1,9 H:0,0 H:0,2 H:0,255 C:1 C:0 P:1,0 P:1,9 P:0,2 P:0,255 R")
    yield whole(HUMP, "H:0,1 " * 9 + "R H:0,1 H:0,1 H:0,2 H:11,1 R")
    # depth 10 with 64 open regions: 21, 22, 23 and 24 in their order
    deep = "H:0,1 " * 10 + spread([10, 1, 2, 3, 4, 5, 6, 7, 8, 9, 10], 64)
    yield whole(HUMP, deep + "H:0,1 H:5,1 H:5,2 H:0,2 H:64,1 H:64,2 R C:3 H:5,1 H:5,1 R")
    # the 64th region, a 65th, and after one clear it can
    yield whole(HUMP, spread([0], 63) + "R H:40,1 H:3,1 R C:0 H:3,1 H:3,1 R")
    # clear moves the last region into the gap
    yield whole(RAMP, "H:0,1 H:0,1 H:1,1 P:0,1 C:0 P:0,0 P:0,1 C:0 P:0,1 R")
    # a witness, after which fits can no longer come; a second one does not replace it
    yield whole(RAMP, "P:0,1 R H:0,1 C:0 P:0,1 H:0,1 P:1,1 R")
    yield whole(RAMP, "P:0,0 P:0,1 H:0,1 P:1,1 P:1,0 C:0 R")
    # ends that only touch the register are no witness
    yield whole(Mapping((1,), (0, 255)), "P:0,1 P:0,0 R C:0 R")
    yield whole(Mapping((1,), (0, 256)), "P:0,1 R")
    yield whole(Mapping((1,), (0, -1)), "P:0,1 R")
    # the lower half keeps the low end; a half that sticks out keeps its parent's end
    yield whole(DIP, "H:0,1 R P:0,0 P:1,1 R")
    yield whole(SKEW, "H:0,2 H:1,1 H:1,1 R P:1,3 R")
    # a witness of two inputs, and of three
    yield whole(Mapping((1, 1), (0, 0, 0, 300)), "H:0,1 H:0,2 P:1,0 P:1,3 P:1,2 R")
    yield whole(Mapping((1, 1, 1), (0,) * 7 + (70000,), kind=2, shift=0), "H:0,3 P:1,7 P:0,7 R")
    # inputs 0 and s + 1
    yield whole(TWIST, "H:0,0 H:0,3 H:0,1 H:0,2 P:0,4 P:0,3 R")
    # three inputs, all 64 regions
    cube = Mapping((3, 3, 3), [(-1) ** k * k * 1000 for k in range(64)], kind=3, shift=4)
    rounds = "".join("H:%d,%d " % (i, r % 3 + 1) for r in range(6) for i in range(2**r))
    yield whole(cube, rounds + "R H:0,1 P:63,7 C:5 R C:6 R H:1,2 R")
    # a present input of degree 0, registers with shifts, extreme coefficients
    yield whole(Mapping((0, 2, 0), (5, -9, 4), inputs=3, kind=1), "H:0,3 H:0,1 R C:0 C:0 C:0 R")
    yield whole(extreme((7, 7), kind=3, shift=15), "H:0,1 H:0,2 P:0,0 P:1,3 R C:0 R")
    source = random.Random(5)
    for _ in range(150):
        degrees = source.choice(((1,), (2,), (3,), (7,), (1, 1), (2, 2), (3, 1), (1, 1, 1), (2, 1, 2), (0, 2)))
        mapping = Mapping(degrees, [source.randint(-400, 400) for _ in range(len(extreme(degrees).table))], kind=source.randrange(8), shift=source.randrange(3))
        data = mapping.record()
        body = b"".join(bytes([source.choice(b"HHHHCCPPRX"), min(source.randrange(6), source.randrange(12)), source.randrange(5)]) for _ in range(source.randrange(25)))
        yield struct.pack(">H", len(data)) + data + body[: len(body) - source.choice((0, 0, 0, 1, 2))]


def main(folder):
    with open(folder + "/form_cases/stdin", "wb") as data, open(folder + "/form_cases/stdout", "w") as answers:
        for mapping, cell in form_cases():
            record = mapping.record()
            data.write(struct.pack(">H", len(record)) + record + bytes(d for d, _ in cell) + struct.pack(">HHH", *(p for _, p in cell)))
            for name, form in (("nested", nested), ("bernstein", bernstein), ("pair", pair)):
                answers.write("%s %d %d %d\n" % (name, *form(mapping, cell)))
    with open(folder + "/job_cases/stdin", "wb") as data, open(folder + "/job_cases/stdout", "w") as answers:
        for case in job_cases():
            data.write(struct.pack(">H", len(case)) + case)
            answers.write("".join(line + "\n" for line in job(case)) + ".\n")


main(sys.argv[1])
