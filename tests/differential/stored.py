#!/usr/bin/env python3
"""The lists that the gate replays: requests of one group, and the oracle's answers.

usage: stored.py ORACLE TESTFLOAT FOLDER [group ..]        (no group: all of them)

Writes FOLDER/GROUP.in and FOLDER/GROUP.out. TESTFLOAT is the file of TestFloat's cases (`n X floor ceil round narrow`,
`w X widened`): their answers are stored, and the oracle has to give the same. What the oracle calls `bad` has the word and the
reason of tests/reading; of the groups `read`, `repairs`, `store`, `story`, `book`, `before`, `ringing` and `sideways` it knows nothing, and all answers are tests/reading's. The seed is fixed: the same lines every time.
"""
import os
import random
import subprocess
import sys

from generate import *

sys.path.append(os.path.join(os.path.dirname(os.path.abspath(__file__)), "..", "reading"))
import lines as reading  # noqa: E402

SEED = 20261115


def testfloat(path):
    """Requests with SoftFloat's answers."""
    for line in open(path):
        word = line.split()
        if word and word[0] == "n":
            for name, answer in zip(("floor", "ceil", "round"), word[2:]):
                yield "%s %s" % (name, word[1]), answer
            yield "narrow %s" % word[1], "%s %d" % (word[5], int(word[5], 16) % 2**31 == 0x7F800000)
        elif word and word[0] == "w":
            yield "widen %s" % word[1], word[2]


def numbers(r):
    names = ("floor", "ceil", "round", "narrow")
    last = 2**52 - 1
    for x in (2.5, -2.5, -0.5):  # rows 13 and 14 of document 01's table
        yield "round %s" % hex64(x)
    for x in (1 + 2**-24, 1 + 3 * 2**-24):
        yield "narrow %s" % hex64(x)
    for e in range(2047):  # every exponent's first pattern, or its last
        f, sign = (0, last)[e // 4 % 2], e // 8 % 2
        yield "%s %016x" % (names[e % 4], sign << 63 | e << 52 | f)
    for e in range(1021, 1077):  # where roundings to whole numbers act
        half = 1 << max(0, 1074 - e)
        for f in (0, last, half & last, (half - 1) & last, (half + 1) & last):
            for name in names[:3]:
                yield "%s %016x" % (name, (e + f) % 2 << 63 | e << 52 | f)
    for e in list(range(870, 900)) + [1022, 1023, 1024, 1149, 1150, 1151, 1152]:  # where narrowing rounds, with its ties
        cut = min(29 + max(0, 897 - e), 52)
        for kept in (0, 1, 2):
            for low in (-1, 0, 1):
                f = ((kept << cut) + (1 << (cut - 1)) + low) & last
                yield "narrow %016x" % ((kept + low) % 2 << 63 | e << 52 | f)
        yield "narrow %016x" % (e << 52 | last)
    for x in CORNERS:
        for y in (x, -x):
            for name in ("abs",) + names:
                yield "%s %s" % (name, hex64(y))
    for b in NANS:
        for name in ("abs",) + names:
            yield "%s %016x" % (name, b)
    for e in range(256):
        yield "widen %08x" % (e % 2 << 31 | e << 23)
        yield "widen %08x" % (e // 2 % 2 << 31 | e << 23 | 0x7FFFFF)
    for k in range(23):
        yield "widen %08x" % (1 << k)
        yield "widen %08x" % (0x80000000 | (1 << k) + 1)
    for b in (0x7FC00000, 0xFFC00000, 0x7F800001, 0xFFC00001):
        yield "widen %08x" % b
    for _ in range(300):
        yield helper(r)
    yield from ("floor 3FF0000000000000", "floor 3ff000000000000", "floor", "floor 3ff0000000000000 0", "", "widen 3ff0000000000000", "flour 0",
                "round -", "narrow 00000000000000000", " floor 0000000000000000", "floor  0000000000000000", "floor 0000000000000000 ")


def alpha_group(r):
    for name, extra in (("mul8", True), ("div8in", False)):  # all pairs: a pixel has three colours of one alpha
        for block in range(0, 256, 32):
            list_of = []
            for a in range(block, block + 32):
                for c in range(0, 258, 3):
                    list_of += [c, min(c + 1, 255), min(c + 2, 255), a]
            yield "%s %s%s" % (name, joined(list_of), " %d" % len(list_of) if extra else "")
    for name in ("mul8", "div8"):
        for n in range(10):
            src = [r.randint(0, 255) for _ in range(n)]
            for lent_to in range(10):
                yield "%s %s %d" % (name, joined(src), lent_to)
            yield "%sin %s" % (name, joined(src))
    for name in ("mul8in", "div8"):  # some of the pairs the other way
        for block in range(0, 256, 128):
            list_of = [v for a in range(block, block + 128) for c in range(a, 254, 97) for v in (c, c + 1, c + 2, a)]
            yield "%s %s%s" % (name, joined(list_of), " %d" % len(list_of) if name == "div8" else "")
    for _ in range(60):
        yield alpha(r)
    yield from ("mul8 256,0,0,0 4", "mul8 1,2,3,-1 4", "mul8 1,2,,4 4", "mul8 1,2,3,4", "mul8in 1,2,3,4 4", "div8 - 0", "div8in -", "mul8  4", "mul8 1,2,3,4, 4",
                "div8 1 2,3,4 4", "mul9 1,2,3,4 4", "")


def alpha16_group(r):
    for a in (0, 1, 2, 3, 26, 255, 256, 257, 32767, 32768, 32769, 65534, 65535):
        colours = [0, 1, 2, 13, 255, 256, 32767, 32768, 32769, 65534, 65535] + [min(max(a // 2 + k, 0), 65535) for k in (-1, 0, 1)] + [r.randint(0, a) for _ in range(20)]
        pixels = three_by_three(colours + [0] * 2, a)
        yield "mul16 %s %d" % (joined(pixels), len(pixels))
        yield "div16in %s" % joined(pixels)
    for name in ("mul16", "div16"):
        for n in range(6):
            src = [r.randint(0, 65535) for _ in range(n)]
            for lent_to in range(6):
                yield "%s %s %d" % (name, joined(src), lent_to)
            yield "%sin %s" % (name, joined(src))
    for _ in range(60):
        yield alpha16(r)


def crop_group(r):
    for kind in FILTERS:
        for x in (0.0, 0.5, 1.0, 1.5, 2.0):
            near = (x, TINY) if x == 0 else (step(x, -1), x, step(x, 1))
            for y in near:
                yield "filter %s %s" % (kind, hex64(y))
                yield "filter %s %s" % (kind, hex64(-y))
        for x in (INF, -INF, NAN, 1e300, LEAST):
            yield "filter %s %s" % (kind, hex64(x))
        for _ in range(25):
            yield "filter %s %s" % (kind, hex64(argument(r)))
    for x in [argument(r) for _ in range(25)][:2]:  # as many drawn as for the others, so that the lines below stay as they are
        yield "filter mitchell %s" % hex64(x)
    one, zero = hex64(1.0), hex64(0.0)
    for text in ("1 1 %s %s %s %s" % tuple(map(hex64, n)) for n in (
            (-TINY, 0.0, 0.0, 0.0), (NAN, 0.0, 1.0, 1.0), (0.0, 0.0, NAN, 1.0), (-INF, 0.0, INF, 1.0), (0.0, 0.0, INF, 1.0), (0.0, 0.0, -INF, 1.0),
            (INF, 0.0, 0.0, 1.0), (0.0, 0.0, 1.0, 1.0), (-0.0, -0.0, -0.0, -0.0), (0.0, 0.0, -TINY, 1.0), (0.0, 0.0, 1.0, -TINY), (1.0, 0.0, 0.0, 1.0),
            (0.0, 1.0, 1.0, 0.0), (0.75, 0.0, 0.25, 1.0), (0.75, 0.0, 0.25 + 2.0**-54, 1.0), (0.75, 0.0, step(0.25, 2), 1.0), (step(1.0, -1), 0.0, 2.0**-53, 1.0),
            (-TINY, 0.0, 2.0, 1.0), (-TINY, 0.0, -TINY, 1.0), (2.0, 0.0, -1.0, 1.0), (0.0, -TINY, 1.0, 5.0), (0.0, 0.0, 1.0, step(1.0, 1)))):
        yield "crop " + text
    third = 1 / 3
    for start, extent in ((0.75, step(0.25, 1)), (step(0.25, 1), 0.75), (0.75, 0.25), (TINY, 1.0), (TINY, step(1.0, -1)), (-0.0, 1.0), (1 - third, third), (third, 1 - third)):
        yield "crop 1 1 %s %s %s %s" % (*map(hex64, (0.0, start, 1.0)), hex64(extent))  # the end, down; 1 - 1/3 and 1/3 is 1 x 1 fitted into 1 x 3
        yield "crop 1 1 %s %s %s %s" % (hex64(start), zero, hex64(extent), one)
    for n in (2, 3, 63, 4096, 8191, 8192):
        for first in (n / 3, 0.75 * n, 2.0**-40):
            for beside in (-1, 0, 1):
                for start, extent in ends_of(n, first, beside):
                    yield "crop %d %d %s %s %s %s" % (n, n, *map(hex64, (start, start, extent, float(n) - start)))
    for w, h in ((0, 1), (1, 0), (8192, 8192), (8193, 1), (1, 8193), (2**32 - 1, 2**32 - 1), (0, 0)):
        yield "crop %d %d %s %s %s %s" % (w, h, zero, zero, one, one)
        yield "crop %d %d %s %s %s %s" % (w, h, hex64(NAN), zero, one, one)
        yield "fit %d %d 1 1 none" % (w, h)
        yield "fit 1 1 %d %d %s %s" % (w, h, hex64(INF), zero)
    for c in (NAN, INF, -INF, -0.0, 0.0, 1.0, TINY, -TINY, step(1.0, 1), 0.25):
        yield "fit 2 1 1 1 %s %s" % (hex64(c), zero)
        yield "fit 1 2 1 1 %s %s" % (one, hex64(c))
        yield "fit 1 0 1 1 %s %s" % (one, hex64(c))
    yield from ("fit 1 1 1 3 %s %s" % (one, one), "fit 8192 8191 8191 8192 none", "fit 4 6 2 3 none", "fit 8192 1 1 8192 %s %s" % (one, zero), "fit 3 7 7 3 none")
    for _ in range(400):
        yield crop(r)
    for _ in range(250):
        yield fit(r)
    yield from ("filter lanczos3 0000000000000000", "filter box", "filter Box 0000000000000000", "crop 1 1 0 0 1 1", "fit 1 1 1 1", "fit 1 1 1 1 None",
                "fit 1 1 1 1 %s" % one, "crop 4294967296 1 %s %s %s %s" % (zero, zero, one, one), "crop -1 1 %s %s %s %s" % (zero, zero, one, one), "")


def built(kind, adapt, lines, out):
    """A set as the builder makes it, for the normalisers: whole side, plain sums."""
    scale = lines / out
    fs = max(scale, 1.0) if adapt else 1.0
    radius = SUPPORT[kind] * fs
    window = 2 * math.ceil(radius) + 1
    shape_of = {"box": lambda x: 1.0 if -0.5 < x <= 0.5 else 0.0, "bilinear": lambda x: max(0.0, 1 - abs(x)),
                "catmullrom": lambda x: 1.5 * abs(x)**3 - 2.5 * x * x + 1 if abs(x) < 1 else -0.5 * abs(x)**3 + 2.5 * x * x - 4 * abs(x) + 2 if abs(x) < 2 else 0.0}
    starts, sizes, slots = [], [], []
    for i in range(out):
        centre = (i + 0.5) * scale
        a, b = max(0, math.floor(centre - radius)), min(lines, math.ceil(centre + radius))
        ws = [shape_of[kind]((x + 0.5 - centre) / fs) for x in range(a, b)]
        while len(ws) > 1 and ws[0] == 0:
            ws, a = ws[1:], a + 1
        while len(ws) > 1 and ws[-1] == 0:
            ws = ws[:-1]
        total = sum(ws)
        starts.append(a)
        sizes.append(len(ws))
        slots += [w / total for w in ws] + [0.0] * (window - len(ws))
    return window, slots, starts, sizes


def normalizer(r):
    for v in range(-645, 646):
        yield "clip8 %d" % v
    for v in (-(2**31), 2**31 - 1, -(2**31) + 1, 1151, -1152, 65535, 2**30, -(2**30)):
        yield "clip8 %d" % v
    def norm(lines, window, slots, starts, sizes, lent_to=None, names=("norm16", "norm32"), places=None):
        for name in names:
            room = window * len(starts) if lent_to is None else lent_to
            yield "%s %d %d %s %s %s %d %d" % (name, lines, window, joined(slots, hex64), joined(starts), joined(sizes), room, len(starts) if places is None else places)
    third = double(0x3FD5555555555555)
    yield from norm(1, 1, [1.0], [0], [1])
    yield from norm(3, 3, [third] * 3, [0], [3])
    yield from norm(3, 3, [third] * 3, [0], [3], 8)
    for places in (0, 1, 2, 5):  # two windows; the second's weights total -1/4
        yield from norm(4, 3, [third, third, third, 0.5, -0.75, 9.0], [0, 1], [3, 2], None, ("norm16", "norm32"), places)
        yield from norm(4, 3, [NAN] * 6, [0, 9], [3, 2], 6, ("norm16", "norm32"), places)
    for one in ([-2.5, 1.0], [-3.0, 1.0], [1.0, -2.0], [-1.0, 1.0], [-2.0000000001, 1.0], [-1.99996948242187, 1.0], [0.0, 0.0], [-0.0, -1.0], [-1e-9, -1e300], [1e300, 1.0],
                [-1e308, 2.0**-30], [-1e308, 1.0], [TINY, -TINY], [NAN, 1.0], [INF, 1.0], [-INF, 1.0], [1.0, NAN], [2047.96875, 0.0], [2048.0, 0.0], [1023.9, 0.0],
                [1024.0, 0.0], [1023.984375, 0.0], [0.49999, 0.5], [double(0x7FEFFFFFFFFFFFFF), 0.0], [134217727.9, 0.0], [134217728.0, 0.0], [2.0**26, 0.0], [1.0, -1.0]):
        yield from norm(2, 2, one, [0], [2])
        yield from norm(2, 2, one, [0], [1])
    for k in (15, 16, 17, 18, 31, 33, 46):  # the step of the precision: 2^limit just reached, or not, after rounding
        for top in (2.0**15 - 0.5, 2.0**15 - 0.50001, 2.0**31 - 0.5, 2.0**31 - 0.75):
            yield from norm(1, 1, [top * 2.0**-k], [0], [1])
    yield from norm(4, 2, [0.5, 0.5, 0.9, 0.1], [0, 2], [2, 2])      # the second window has the largest
    yield from norm(4, 2, [0.5, 7.0, 0.5, 0.5], [0, 2], [1, 2])      # the largest is not in use
    yield from norm(4, 2, [0.5, NAN, 0.5, 0.5], [0, 2], [1, 2])
    yield from norm(4, 3, [0.25, 0.75, 9.0, -9.0, 1.0, 2.0], [0, 1], [2, 1], 9)
    for bad in ((0, 2, [1.0, 0.0], [0], [1]), (8193, 2, [1.0, 0.0], [0], [1]), (2, 0, [], [0], [1]), (2, 0, [1.0], [0], [1]), (2, 1, [], [], []), (2, 1, [1.0], [], []),
                (2, 32769, [1.0], [0], [1]), (2, 32770, [1.0], [0], [1]), (2, 2**32 - 1, [1.0], [0], [1]), (2, 2, [1.0], [0], [1]), (2, 2, [1.0] * 3, [0], [1]),
                (2, 2, [1.0] * 2, [0], [1, 1]), (2, 2, [1.0] * 4, [0, 0], [1]), (2, 2, [1.0] * 2, [0], [0]), (2, 2, [1.0] * 2, [0], [3]), (2, 2, [1.0] * 2, [1], [2]),
                (2, 2, [1.0] * 2, [2], [1]), (2, 2, [1.0] * 2, [2**32 - 1], [1]), (2, 2, [1.0] * 2, [0], [2**32 - 1]), (2, 2, [NAN] * 2, [0], [3]), (2, 2, [INF] * 2, [0], [2])):
        for room in (0, 1, 2, 5):
            yield from norm(*bad, lent_to=room, names=("norm16", "norm32") if room == 2 else (r.choice(("norm16", "norm32")),))
    for kind in FILTERS:
        for adapt, lines, out in ((1, 4, 2), (1, 3, 1), (0, 5, 2), (1, 2, 5), (1, 7, 3)):
            window, slots, starts, sizes = built(kind, adapt, lines, out)
            yield from norm(lines, window, slots, starts, sizes)
    for _ in range(170):
        yield normalize(r)
    yield from ("norm16 1 1 3ff0000000000000 0 1 1", "norm32 1 1 3ff000000000000 0 1 1 1", "norm16 1 1 3ff0000000000000, 0 1 1 1", "norm16 1 1 3ff0000000000000 -1 1 1 1",
                "norm16 1 1 3ff0000000000000 0 1 - 1", "norm16 1 1 3ff0000000000000 0 1 1 -1", "norm32 1 1 3ff0000000000000 0 1 1 1 1", "norm64 1 1 3ff0000000000000 0 1 1 1", "clip8", "clip8 -", "clip8 2147483648", "clip8 -2147483649", "clip8 -0", "clip8 1 1", "")


def build_group(r):
    def of(kind, adapt, axis, w, h, out, numbers, slots=None, starts=None, sizes=None):
        n = window_size(kind, adapt, numbers[axis], numbers[axis + 2], out) * out
        slots, starts, sizes = n if slots is None else slots, out if starts is None else starts, out if sizes is None else sizes
        return "build %s %d %d %d %d %d %s %d %d %d" % (kind, adapt, axis, w, h, out, " ".join(map(hex64, numbers)), slots, starts, sizes)
    edge_of = step(1.0, -1)
    for out in (1, 2, 5):
        for kind in FILTERS:
            yield of(kind, 1, 0, 1, 1, out, (edge_of, 0.0, 2.0**-53, 1.0))
    yield of("box", 0, 1, 1, 1, 1, (0.0, edge_of, 1.0, 2.0**-53), 9, 4, 3)
    yield of("box", 1, 0, 1, 1, 2, (1 - 2.0**-52, 0.0, 2.0**-52, 1.0))
    yield of("box", 1, 0, 8192, 1, 1, (8192 - 2.0**-40, 0.0, 2.0**-40, 1.0))
    yield of("catmullrom", 1, 0, 2, 2, 2, (0.0, 0.0, 2.0, 2.0))
    for kind in FILTERS:
        yield of(kind, 1, 0, 1, 1, 8, (0.0, 0.0, 5 * TINY, 1.0))
    whole = (0.0, 0.0, 4.0, 4.0)
    for out in (0, 1, 8192, 8193, 2**32 - 1):  # the output sides of 01's run rows, with little room
        yield of("box", 0, 0, 4, 4, out, whole, 3, 1, 1)
    for numbers in ((0.0, 0.0, TINY, 1.0), (0.5, 0.0, 2.0**-60, 1.0), (0.0, 0.0, -0.0, 1.0), (0.0, 0.0, 0.0, 1.0)):  # No. 6
        for out in (1, 2):
            yield of("bilinear", 1, 0, 1, 1, out, numbers, 6, 2, 2)
    for numbers in ((NAN, 0.0, 1.0, 1.0), (0.0, 0.0, -1.0, 1.0), (0.0, -TINY, 1.0, 1.0), (0.0, 0.0, 1.0, 2.0), (0.0, 0.0, 2.0, 1.0)):  # the crop's own, either axis
        for axis in (0, 1):
            for out in (0, 2):
                yield of("box", 1, axis, 1, 1, out, numbers, 6, 2, 2)
    for sides in ((0, 1), (8193, 1), (1, 8193)):
        yield of("box", 1, 0, *sides, 1, (0.0, 0.0, 1.0, 1.0), 3, 1, 1)
    for slots, starts, sizes in ((5, 2, 2), (6, 1, 2), (6, 2, 1), (0, 0, 0), (7, 2, 2), (6, 3, 2), (6, 2, 3), (6, 2, 2)):  # No. 7, and room to spare
        yield of("box", 1, 0, 4, 4, 2, whole, slots, starts, sizes)
        yield of("box", 1, 0, 1, 1, 2, (edge_of, 0.0, 2.0**-53, 1.0), slots, starts, sizes)
    for kind in FILTERS:
        for adapt in (0, 1):
            for axis in (0, 1):
                yield of(kind, adapt, axis, 7, 7, 3, (0.0, 0.0, 7.0, 7.0))
                yield of(kind, adapt, axis, 5, 6, 4, (0.75, 1.25, 3.5, 4.125))
                yield of(kind, adapt, axis, 9, 9, 2, (1e-300, 3.0, 2.0**-20, 6.0))
            yield of(kind, adapt, 0, 3, 3, 7, (0.0, 0.0, 3.0, 3.0))
            yield of(kind, adapt, 0, 4, 4, 4, (0.0, 0.0, 4.0, 4.0))
            yield of(kind, adapt, 0, 8192, 8192, 3, (8192 - 9.3, 0.0, 9.3 - 2.0**-30, 8192.0))
            yield of(kind, adapt, 1, 1, 8192, 2, (0.0, 4095.5, 1.0, 7.0))
    for kind in FILTERS:
        yield of(kind, 0, 0, 8192, 8192, 5, (0.0, 0.0, 8192.0, 8192.0))
    for _ in range(110):
        line = build(r)
        while len(line) > 400 or int(line.split()[-3]) > 60:
            line = build(r)
        yield line
    yield of("mitchell", 1, 0, 100, 1, 1, (0.0, 0.0, 100.0, 1.0))  # No. 16 of requests that are right, then before each of No. 1 to 8
    yield of("mitchell", 0, 1, 7, 7, 3, (0.0, 0.0, 7.0, 7.0))
    for sides, out, numbers, room in (((4, 4), 0, whole, (3, 1, 1)), ((0, 8193), 8193, whole, (0, 0, 0)), ((1, 1), 2, (NAN, 0.0, 1.0, 1.0), (6, 2, 2)), ((1, 1), 2, (0.0, 0.0, -1.0, 1.0), (6, 2, 2)), ((1, 1), 2, (0.0, -TINY, 1.0, 1.0), (6, 2, 2)),
                                      ((1, 1), 2, (0.0, 0.0, 2.0, 1.0), (6, 2, 2)), ((1, 1), 2, (0.0, 0.0, 0.0, 1.0), (6, 2, 2)), ((4, 4), 2, whole, (0, 0, 0)), ((4, 4), 2, whole, (18, 2, 1)), ((1, 1), 1, (edge_of, 0.0, 2.0**-53, 1.0), (5, 1, 1))):
        yield of("mitchell", 1, 0, *sides, out, numbers, *room)
    yield from ("build box 2 0 1 1 1 %s 3 1 1" % " ".join(map(hex64, (0.0, 0.0, 1.0, 1.0))), "build box 1 2 1 1 1 %s 3 1 1" % " ".join(map(hex64, (0.0, 0.0, 1.0, 1.0))),
                "build lanczos3 1 0 1 1 1 %s 3 1 1" % " ".join(map(hex64, (0.0, 0.0, 1.0, 1.0))), "build", "")


def right(window, precision, weights, sizes):
    """The excesses of a set; of one that does not fit, as far as it goes."""
    return [sum(weights[i * window:i * window + n]) - 2 ** min(precision, 62) for i, n in enumerate(sizes)]


def wrong_excesses(one):
    """A set of three windows with excess 1, 0 and -2: each excess one too much or too little, turned over or the first one's; slots not in use counted; one too few, one too many, none."""
    for found in ([1, 0, -2], [2, 0, -2], [0, 0, -2], [1, 1, -2], [1, -1, -2], [1, 0, -1], [1, 0, -3], [-1, 0, 2], [1, 1, 1], [1, 5, -2], [1, 0], [1, 0, -2, 0], [1, 0, -2, -16], [], [2**32 + 1, 0, -2], [-(2**63), 2**63 - 1, -2]):
        yield one(3, 1, 0, 1, 2, 4, [9, 8, 16, 5, -3, 17], [0, 2, 0], [2, 1, 2], (200, 100, 50), None, found)


def passes(r):
    def u16(lines, row, first, count, window, precision, weights, starts, sizes, samples, out=None, found=None):
        out = len(starts) * count if out is None else out
        found = right(window, precision, weights, sizes) if found is None else found
        return "u16pass %d %d %d %d %d %d %s %s %s %s %s %d" % (
            lines, row, first, count, window, precision, joined(weights), joined(starts), joined(sizes), joined(found), joined(samples), out)
    def f32(lines, row, first, count, window, weights, starts, sizes, samples, out=None):
        out = len(starts) * count if out is None else out
        return "f32pass %d %d %d %d %d %s %s %s %s %d" % (lines, row, first, count, window, joined(weights, hex64), joined(starts), joined(sizes),
                                                          joined(samples, lambda s: "%08x" % s), out)
    sharp = (3, 1, 0, 1, 3, 4, [-4, 24, -4], [0], [3])
    for samples in ((100, 200, 100), (65535, 0, 65535), (0, 65535, 0)):
        yield u16(*sharp, samples)
    for samples in ((1, 0), (0, 1), (1, 1)):
        yield u16(2, 1, 0, 1, 2, 4, [8, 8], [0], [2], samples)
    for row in (1, 15, 16, 17, 33):  # around the chunk
        for first, count in ((0, row), (0, 0), (row, 0), (row - 1, 1), (0, row - 1), (1 % row, row - 1 - 1 % row if row > 1 else 0)):
            samples = [r.randint(0, 65535) for _ in range(2 * row)]
            yield u16(2, row, first, count, 2, 14, [12000, 4384, -3000, 19384], [0, 0], [2, 2], samples)
            samples = [finite_single(r) for _ in range(2 * row)]
            yield f32(2, row, first, count, 2, [0.75, 0.25, -0.5, 1.5], [0, 0], [2, 2], samples)
    samples16 = [r.randint(0, 65535) for _ in range(15)]
    samples32 = [single_bits(r.uniform(-9, 9)) for _ in range(15)]
    for first in range(6):  # every offset of a small frame
        for count in range(6 - first):
            yield u16(3, 5, first, count, 2, 10, [500, 524, 1024, 7], [1, 0], [2, 1], samples16)
            yield f32(3, 5, first, count, 2, [0.3, 0.7, 1.0, NAN], [1, 0], [2, 1], samples32)
    top, low = 2**31 - 1, -(2**31)
    for precision in (4, 5, 14, 30, 31, 44, 45):  # the type's ends and the largest sums
        for weights in ([top] * 4, [low] * 4, [top, low, top, low], [1, 0, 0, 0], [-1, 0, 0, 0], [2**30, 2**30, -1, 0], [0, 0, 0, 0]):
            for samples in ([65535] * 4, [1, 2, 3, 65535]):
                yield u16(4, 1, 0, 1, 4, precision, weights, [0], [4], samples)
    for precision in (0, 3, 4, 45, 46, 2**32 - 1):
        yield u16(1, 1, 0, 1, 1, precision, [16], [0], [1], [9])
    for n in (300, 8192):  # a long window, and the longest: no sum of an accepted set is larger
        yield u16(n, 1, 0, 1, n, 45, [top] * n, [0], [n], [65535] * n)
        yield u16(n, 1, 0, 1, n, 4, [low] * n, [0], [n], [65535] * n)
    big, inf = 0x7F7FFFFF, 0x7F800000
    for weights, samples in (([1.0, 1.0], [big, big]), ([2.0**64, 2.0**64], [big, big]), ([-(2.0**64), 0.0], [big, big]), ([0.5, 0.0], [1, 0]), ([-0.5, 0.0], [1, 0]),
                             ([-0.25, 0.0], [1, 0]), ([-0.75, 0.0], [1, 0]), ([0.5, 0.0], [3, 0]), ([0.5, 0.0], [5, 0]), ([-0.0, -0.0], [0x3F800000] * 2),
                             ([1.0, -1.0], [0x3F800000] * 2), ([TINY, 0.0], [1, 1]), ([-TINY, 0.0], [big, 1]), ([1.0, 2.0**-24], [0x3F800000] * 2),
                             ([1.0, 3 * 2.0**-24], [0x3F800000] * 2), ([1.0, 2.0**-25], [big, 0x73800000]), ([1.0, 2.0**-25], [big, 0x737FFFFF]), ([1.0, 1.0], [0x80000000] * 2),
                             ([1e-10, -1e-10], [big, 1]), ([2.0**-126, 0.0], [0x3F800000] * 2), ([2.0**-149, 0.0], [0x3FC00000, 0]), ([2.0**-150, 0.0], [0x3F800001, 0]),
                             ([step(2.0**64, 1), 0.0], [1, 1]), ([0.0, -step(2.0**64, 1)], [1, 1]), ([INF, 0.0], [1, 1]), ([0.0, NAN], [1, 1]), ([1.0, 1.0], [inf, 0]),
                             ([1.0, 1.0], [0, 0xFF800000]), ([0.0, 1.0], [0x7FC00000, 0]), ([1e300, 0.0], [0, 0])):
        yield f32(2, 1, 0, 1, 2, weights, [0], [2], samples)
        yield f32(2, 1, 0, 1, 2, weights, [0], [1], samples)
        yield f32(2, 1, 0, 0, 2, weights, [0], [2], samples)
    yield f32(3, 1, 0, 1, 3, [1e16, 1.0, -1e16], [0], [3], [0x3F800000] * 3)   # line order
    yield f32(3, 1, 0, 1, 3, [-1e16, 1.0, 1e16], [0], [3], [0x3F800000] * 3)
    yield f32(2, 3, 1, 1, 1, [1.0], [0], [1], [inf, 0x3F800000, inf, inf, inf, inf])  # samples not in use
    good = (3, 2, 0, 2, 2, 14, [1] * 4, [0, 1], [2, 2], [7] * 6, 4)
    places = {0: (0, 8193, 2, 4), 1: (0, 32769, 1, 3), 2: (1, 2**32 - 1), 3: (1, 3, 2**32 - 1), 4: (0, 1, 3, 32769, 32770, 2**32 - 1), 6: ([1] * 3, [1] * 5, []),
              7: ([0], [], [0, 2], [0, 2**32 - 1]), 8: ([2], [], [2, 0], [2, 3], [2, 2**32 - 1], [2, 1]), 9: ([7] * 5, [7] * 7, []), 10: (0, 3, 5)}
    yield u16(*good)
    for place, values in places.items():
        for v in values:
            one = list(good)
            one[place] = v
            yield u16(*one)
            del one[5]
            one[5] = [float(k) for k in one[5]]
            yield f32(*one)
    yield from wrong_excesses(u16)
    for _ in range(50):
        yield u16pass(r)
        yield f32pass(r)
    yield from bytes_passes(random.Random(SEED + 8))
    yield from bright_passes()
    yield from ("u16pass 1 1 0 1 1 4 16 0 1 0 65536 1", "u16pass 1 1 0 1 1 4 2147483648 0 1 0 1 1", "u16pass 1 1 0 1 1 4 16 0 1 0 1", "u16pass 1 1 0 1 1 4 16 0 1 9223372036854775808 1 1",
                "u16pass 1 1 0 1 1 4 16 0 1 -9223372036854775809 1 1", "u16pass 1 1 0 1 1 4 16 0 1 -0 1 1", "u16pass 1 1 0 1 1 4 16 0 1 0x0 1 1", "f32pass 1 1 0 1 1 3ff0000000000000 0 1 3ff0000000000000 1",
                "f32pass 1 1 0 1 1 3ff0000000000000 0 1 3f800000 1 1", "u16pass 1 1 0 1 1 4 16 0 1 0 -1 1", "")


def bright_passes():
    """Samples that come out infinite: in the range and beside it, in the second window, past sixteen columns, of either sign; at the largest f32 and halfway past it."""
    largest, heavy, one, plus = 0x7F7FFFFF, hex64(2.0**64), hex64(1.0), 0x3F800000
    def bright(lines, row, first, count, weights, starts, sizes, samples):
        return "f32pass %d %d %d %d %d %s %s %s %s %d" % (lines, row, first, count, len(weights) // len(starts), ",".join(weights), joined(starts), joined(sizes), ",".join("%08x" % v for v in samples), len(starts) * count)
    for first, count in ((0, 2), (0, 1), (1, 1), (0, 0)):
        yield bright(1, 2, first, count, [heavy], [0], [1], [plus, largest])
    yield bright(2, 1, 0, 1, [one, heavy], [0, 1], [1, 1], [plus, largest])
    yield bright(2, 1, 0, 1, [heavy, one], [1, 0], [1, 1], [plus, largest])
    for n in (15, 16, 17, 33):
        for at in (0, n // 2, n - 1):
            yield bright(1, n, 0, n, [heavy], [0], [1], [(largest if k == at else plus) + (k % 2 << 31) for k in range(n)])
    yield bright(3, 20, 2, 17, [heavy] * 3, [2, 0, 1], [1, 1, 1], [(largest, plus)[(k * k // 7) % 3 > 0] + (k % 5 // 3 << 31) for k in range(60)])
    for tail in (0, 0x72FFFFFF, 0x73000000, 0xF3000000):  # the largest f32 and this
        yield bright(2, 1, 0, 1, [one, one], [0], [2], [largest, tail])
    yield bright(2, 1, 0, 1, [heavy, hex64(-(2.0**64))], [0], [2], [largest, largest])  # the sum is 0
    yield bright(2, 1, 0, 1, [heavy, hex64(2.0**64 * (1 + 2**-52))], [0], [2], [plus, largest])  # a weight above 2^64: refused


def bytes_passes(r):
    def u8(lines, row, first, count, window, precision, weights, starts, sizes, samples, out=None, found=None):
        out = len(starts) * count if out is None else out
        found = right(window, precision, weights, sizes) if found is None else found
        return "u8pass %d %d %d %d %d %d %s %s %s %s %s %d" % (
            lines, row, first, count, window, precision, joined(weights), joined(starts), joined(sizes), joined(found), joined(samples), out)
    for samples in ((100, 200, 100), (255, 0, 255), (0, 255, 0)):
        yield u8(3, 1, 0, 1, 3, 4, [-4, 24, -4], [0], [3], samples)
    for samples in ((1, 0), (0, 1), (1, 1)):
        yield u8(2, 1, 0, 1, 2, 4, [8, 8], [0], [2], samples)
    for row in (1, 31, 32, 33, 65):  # around the chunk
        for first, count in ((0, row), (0, 0), (row, 0), (row - 1, 1), (0, row - 1)):
            yield u8(2, row, first, count, 2, 14, [12000, 4384, -3000, 19384], [0, 0], [2, 2], [r.randint(0, 255) for _ in range(2 * row)])
    for n, precisions in ((256, (4, 16, 21)), (257, range(3, 23)), (258, (4, 15))):  # 257 weights of -32768 have room up to precision 15
        for weight in (-32768, 32767):
            for precision in precisions:
                yield u8(n, 1, 0, 1, n, precision, [weight] * n, [0], [n], [255] * n)
    for precision in (4, 15, 21):  # the last weight takes what is left, or one more
        left = (2**31 - 1 - 2 ** (precision - 1)) // 255
        for k in (0, 1):
            many = [32767] * (left // 32767) + [left % 32767 + k]
            yield u8(len(many), 1, 0, 1, len(many), precision, many, [0], [len(many)], [255] * len(many))
            many = [-w for w in many]
            yield u8(len(many), 1, 0, 1, len(many), precision, many, [0], [len(many)], [255] * len(many))
            yield u8(len(many), 1, 0, 1, len(many) + 1, precision, many + [-32768], [0], [len(many)], [0] * len(many))  # an idle weight
    heavy = [-32768] * 258
    yield u8(258, 1, 0, 1, 258, 4, [0] * 258 + heavy, [0, 0], [1, 258], [0] * 258)  # the second window
    yield u8(258, 1, 0, 1, 258, 22, heavy, [0], [258], [0] * 258)                   # 10 before 9
    yield u8(258, 1, 0, 1, 258, 4, heavy, [1], [258], [0] * 258)
    yield u8(258, 0, 0, 1, 258, 4, heavy, [0], [258], [0] * 258)                    # 1 before both
    good = (3, 2, 0, 2, 2, 14, [1] * 4, [0, 1], [2, 2], [7] * 6, 4)
    places = {0: (0, 8193, 2, 4), 1: (0, 32769, 1, 3), 2: (1, 2**32 - 1), 3: (1, 3), 4: (0, 1, 3, 32770), 5: (0, 3, 22, 45, 2**32 - 1), 6: ([1] * 3, [1] * 5, []),
              7: ([0], [], [0, 2]), 8: ([2], [], [2, 0], [2, 3]), 9: ([7] * 5, [7] * 7, []), 10: (0, 3, 5)}
    yield u8(*good)
    for place, values in places.items():
        for v in values:
            one = list(good)
            one[place] = v
            yield u8(*one)
    yield from wrong_excesses(u8)
    yield u8(258, 1, 0, 1, 258, 4, heavy, [0], [258], [0] * 258, None, [0])         # a wrong excess before 9
    for _ in range(60):
        line = u8pass(r)
        while len(line) > 1500:
            line = u8pass(r)
        yield line
    yield from ("u8pass 1 1 0 1 1 4 16 0 1 0 256 1", "u8pass 1 1 0 1 1 4 32768 0 1 0 1 1", "u8pass 1 1 0 1 1 4 16 0 1 0 1", "u8pass 1 1 0 1 1 4 16 0 1 0 -1 1", "u8pass 1 1 0 1 1 4 16 0 1 0, 1 1", "u8pass")


def sheet_group(r):
    def of(kind, lines, window, store, precision, weights, starts, sizes, room, found=None):
        found = right(window, precision, weights, sizes) if found is None else found
        return "sheet %s %d %d %d %d %s %s %s %s %d" % (kind, lines, window, store, precision, joined(weights), joined(starts), joined(sizes), joined(found), room)
    half = 2**30
    example = [half, half, 0, half, half, 0]
    for room in (0, 1, 108, 109, 110, 119, 120, 121, 140):
        yield of("box", 4, 3, 32, 31, example, [0, 2], [2, 2], room)
    for found in ([0, 1], [1, 0], [0], [0, 0, 0], [], [-1, 0], [2**31, 2**31]):
        yield of("box", 4, 3, 32, 31, example, [0, 2], [2, 2], 121, found)
    for kind in KINDS:
        yield of(kind, 1, 1, 16, 14, [16384], [0], [1], 90)
    for store, top in ((16, 2**15), (32, 2**31)):
        yield of("mitchell", 8192, 4, store, 21, [top - 1, -top, -1, 10], [8188], [4], 140)
        for precision in (0, 3, 4, 21, 22, 45, 46, 2**32 - 1):
            yield of("bilinear", 2, 2, store, precision, [9, -10], [0], [2], 100)
    many = 12
    yield of("catmullrom", 12, 1, 32, 30, list(range(many)), list(range(many)), [1] * many, 300)
    for bad in ((0, 2, [1, 2], [0], [2]), (8193, 2, [1, 2], [0], [2]), (2, 0, [], [0], [1]), (2, 32769, [1], [0], [1]), (2, 32770, [1], [0], [1]), (2, 2, [1], [0], [1]),
                (2, 2, [1, 2, 3], [0], [1]), (2, 2, [1, 2], [], []), (2, 2, [1, 2], [0], []), (2, 2, [1, 2], [0], [0]), (2, 2, [1, 2], [0], [3]), (2, 2, [1, 2], [1], [2]),
                (2, 2, [1, 2], [2**32 - 1], [1]), (2, 2, [1, 2], [0], [1, 1])):
        yield of("box", bad[0], bad[1], r.choice((16, 32)), 14, *bad[2:], 8)
    for _ in range(90):
        line = sheet(r)
        while len(line) > 300:
            line = sheet(r)
        yield line
    yield from ("sheet box 1 1 16 14 32768 0 1 0 99", "sheet box 1 1 64 14 1 0 1 0 99", "sheet lanczos3 1 1 16 14 1 0 1 0 99", "sheet box 1 1 16 14 1 0 1 0", "sheet box 1 1 16 14 -32769 0 1 0 9",
                "sheet box 1 1 16 14 1 0 1 9223372036854775808 9", "")


def read_group(r):
    """Every sheet of the group above, read back; then a text for each mistake that a reader has to see, and every beginning of one sheet."""
    for line in sheet_group(random.Random(SEED)):
        words = line.split(" ")
        no, length, text = (reading.answer(line) + "   ").split(" ")[:3]
        if words[0] == "sheet" and no == "0":
            windows = words[7].count(",") + 1
            for name in ("read", "read16"):
                yield "%s %s %d %d %d %d" % (name, text[:2 * int(length)], int(words[3]) * windows + 1, windows, windows + 1, windows + 2)
    good = texts.sheet_text("box", 4, 3, 32, 31, [2**30, 2**30, 0, -1, 2**31 - 1, 0], [0, 2], [2, 2], [0, -2])
    small = texts.sheet_text("mitchell", 9, 2, 16, 21, [-(2**15), 2**15 - 1], [7], [2], [-1 - 2**21])

    def of(old, new, text=good, room="6 2 2 2"):
        assert text.count(old) > 0
        return ["%s %s %s" % (name, text.replace(old, new, 1).hex() or "-", room) for name in ("read", "read16")]
    for old, new in (("in=4", "in=04"), ("in=4", "in=+4"), ("-1,", "-0,"), ("-1,", "-01,"), ("-1,", "--1,"), ("in=4", "in= 4"), ("in=4", "in=4 "), ("in=", " in="), ("\n", "\r\n"), ("\n", "\n\n"), ("=", "=\t"), ("in=4", "in=0"),
                     ("in=4", "in=8192"), ("in=4", "in=8193"), ("in=4", "in=9000"), ("in=4", "in=81920"), ("out=2", "out=0"), ("out=2", "out=1"), ("out=2", "out=3"), ("window=3", "window=0"), ("window=3", "window=1"),
                     ("window=3", "window=32769"), ("window=3", "window=32770"), ("store=32", "store=16"), ("store=32", "store=64"), ("store=32", "store=3"), ("=31", "=3"), ("=31", "=4"), ("=31", "=45"), ("=31", "=46"), ("=31", "=021"),
                     ("w1=2,2", "w1=3,2"), ("w1=2,2", "w1=2,3"), ("w1=2,2", "w1=2,0"), ("w1=2,2", "w1=4,1"), ("w1=", "w2="), ("w1=", "w01="), ("w0=0,2:", "w0=0,2,"), (",1073741824\n", "\n"), (",1073741824\n", ",1073741824,\n"), (",1073741824\n", ",1,1\n"),
                     ("2147483647", "2147483648"), ("-1,", "-2147483648,"), ("-1,", "-2147483649,"), ("2147483647", "9" * 1000), ("in=4", "in=" + "4" * 1000), ("kind=box", "kind=Box"), ("kind=box", "kind=bo"), ("kind=box", "kind=lanczos3"),
                     ("kind=box", "kind=bilinea"), ("kind", "king"), ("\n", "\0"), ("box", "box\0"), ("in=4", "\u00e9=4"),
                     ("excess=0,-2\n", ""), ("excess=0,-2\n", "excess=\n"), ("0,-2\n", "0\n"), ("0,-2\n", "0,-2,0\n"), ("0,-2\n", "0,-2,\n"), ("0,-2\n", "0,-2"), ("0,-2\n", "0, -2\n"), ("=0,-2", "=1,-2"), ("=0,-2", "=-1,-2"), ("=0,-2", "=00,-2"), ("=0,-2", "=-0,-2"),
                     ("=0,-2", "=0,2"), ("=0,-2", "=0,-1"), ("=0,-2", "=0,-20"), ("=0,-2", "=0,-02"), ("=0,-2", "=0,+2"), ("=0,-2", "=0;-2"), ("=0,-2", "=-2,0"), ("=0,-2", "=0,0"), ("=0,-2", "=" + "0" * 1000), ("excess", "Excess"), ("excess", "excesses"),
                     ("\nexcess", "\n\nexcess"), ("\nexcess", "\nw2=0,1:0\nexcess")):
        yield from of(old.encode(), new.encode())
    for end in (b"", b"\n", b"0", b"\0", b"\r\n", good):
        yield from of(good, good[:-1] + end if end != good else good + good)
        yield from of(good, good + end)
    for old, new in (("-32768", "-32769"), ("32767\n", "32768\n"), ("=21", "=22"), ("=21", "=4"), ("=16", "=32"), ("=7,2", "=8,2"), ("-2097153", "2097151"), ("-2097153", "-209715"), ("-2097153", "-2097152")):
        yield from of(old.encode(), new.encode(), small, "2 1 1 1")
    for room in ("5 2 2 2", "6 1 2 2", "6 2 1 2", "6 2 2 1", "6 2 2 0", "0 0 0 0", "7 3 3 3"):
        yield from of(b"w0", b"w0", good, room)
        yield from of(b"window=3\n", b"window=3", good, room)
        yield from of(b"store", b"shore", good, room)
    for at in range(len(small)):
        yield "read16 %s 2 1 1 1" % (small[:at].hex() or "-")
    for _ in range(120):
        line = read(r)
        while len(line) > 400:
            line = read(r)
        yield line
    yield from ("read - 1 1 1 1", "read16 - 0 0 0 0", "read 6 1 1 1 1", "read 6B 1 1 1 1", "read 6g 1 1 1 1", "read  1 1 1 1", "read 6b 1 1 1", "read 6b 1 1 1 1 1", "read 6b 131073 1 1 1", "read 6b 1 1 1 -1", "read16 zz 131073 1 1 1", "read", "read32 - 1 1 1 1", "")


def repairs_group(r):
    """Offers judged and made: good ones, each way to be refused and the order of the numbers, the type's ends, idle slots, the first line without an offer."""
    def judged(store, lines, window, precision, weights, starts, sizes, found, offered):
        return "accept %d %d %d %d %s %s %s %s %d %d %s %s %s" % (
            store, lines, window, precision, joined(weights), joined(starts), joined(sizes), joined(found), offered[0], offered[1], *map(joined, offered[2:]))
    def made(store, lines, window, precision, weights, starts, sizes, found, room):
        return "offer %d %d %d %d %s %s %s %s %d" % (store, lines, window, precision, joined(weights), joined(starts), joined(sizes), joined(found), room)
    third = [21845] * 3
    for store in (16, 32):
        for offered in ([21846, 21845, 21845], [21845, 21846, 21845], [21845, 21845, 21846], [21846, 21846, 21844], third, [21847, 21844, 21845], [21846, 21844, 21845],
                        [21846, 21845, 21846], [21846, 21845], [21846, 21845, 21845, 0], [21844, 21846, 21846], [21843, 21847, 21846]):
            yield judged(store, 3, 3, 16, third, [0], [3], [-1], (3, 16, [0], [3], offered))
        # two windows, one idle slot, excesses 1 and -1; a weight of the second cannot go up
        top = 2 ** (store - 1)
        fits = [store, 4, 3, store - 1, [1, top - 1, 1, top - 1, 0, 9], [0, 2], [3, 2], [1, -1]]
        right_offer = [3, store - 1, [0, 2], [3, 2], [0, top - 1, 1, top - 1, 1, 77]]
        for idle in (77, 9, 0, -top, top - 1):
            yield judged(*fits, right_offer[:4] + [right_offer[4][:5] + [idle]])
        for ws in ([1, top - 1, 0, top - 1, 1, 9], [1, top - 2, 1, top - 1, 1, 9], [0, top - 2, 2, top - 1, 1, 9], [0, top - 1, 1, top - 1, 0, 9], [1, top - 1, 1, top - 1, 1, 9], [0, top - 1, 1, top - 2, 2, 9]):
            yield judged(*fits, right_offer[:4] + [ws])
        for place, wrong in ((0, (2, 4, 0, 2**32 - 1)), (1, (store - 2, store, 0, 2**32 - 1)), (2, ([0, 1], [1, 2], [0], [], [0, 2, 2], [2, 0])), (3, ([3, 1], [2, 2], [3, 3], [3], [], [3, 2, 1], [2, 3])),
                             (4, (right_offer[4][:5], right_offer[4] + [0], [], right_offer[4][:3], right_offer[4] * 2))):
            for v in wrong:
                hurt = list(right_offer)
                hurt[place] = v
                yield judged(*fits, hurt)
        # every refusal of the stored set, for both, and which is first
        for place, wrong in ((1, (0, 3, 5, 8192, 8193, 2**32 - 1)), (2, (0, 1, 2, 4, 32769, 32770, 2**32 - 1)), (3, (0, 3, 4, 21, 22, 45, 46, 2**32 - 1)), (4, (fits[4][:5], fits[4] + [0], [])),
                             (5, ([0], [], [0, 3], [0, 2**32 - 1], [0, 2, 2])), (6, ([3], [], [3, 0], [3, 3], [4, 2], [3, 2, 1])), (7, ([1], [], [1, -1, 0], [0, -1], [1, 0], [-1, 1], [1, 8], [2**63 - 1, -(2**63)]))):
            for v in wrong:
                hurt = list(fits)
                hurt[place] = v
                if place == 3 and 4 <= v <= 45:
                    hurt[7] = right(3, v, fits[4], fits[6])
                yield judged(*hurt, right_offer)
                yield judged(*hurt, [right_offer[0]] + [right_offer[1] + 1] + right_offer[2:])
                for room in (5, 6):
                    yield made(*hurt, room)
        for room in range(9):
            yield made(*fits, room)
        for precision in (4, 21 if store == 16 else 45):  # the largest and smallest excesses
            for w in (top - 1, -top):
                yield made(store, 1, 1, precision, [w], [0], [1], [w - 2**precision], 1)
                yield made(store, 40, 40, precision, [w] * 40, [0], [40], [40 * w - 2**precision], 40)
        # the first line without an offer: none, each of three, and where several have none
        for k in range(8):
            windows = [[9, 9, 5] if k >> i & 1 == 0 else [top - 1, 20, 5] for i in range(3)]
            yield made(store, 2, 3, 4, sum(windows, []), [0] * 3, [2] * 3, [sum(w[:2]) - 16 for w in windows], 9)
            yield made(store, 3, 3, 4, sum(windows, []), [0] * 3, [3] * 3, [sum(w) - 16 for w in windows], 9)
        for n in (1, 2, 7):  # as many as the excess asks, one fewer, one more
            for over in range(-n - 1, n + 2):
                ws = [16 // n] * (n - 1) + [16 - 16 // n * (n - 1) + over]
                yield made(store, 8, 8, 4, ws + [1] * (8 - n), [0], [n], [over], 8)
    # sets as a normaliser leaves them, our own offer judged, and one weight of it changed
    for name, most in (("norm16", 15), ("norm32", 31)):
        for kind, lines, out in (("catmullrom", 6, 4), ("catmullrom", 5, 7), ("bilinear", 9, 4), ("bilinear", 7, 3), ("catmullrom", 3, 2), ("box", 7, 3)):
            window, slots, starts, sizes = built(kind, True, lines, out)
            _, precision, weights, found = reading.answer("%s %d %d %s %s %s %d %d" % (name, lines, window, joined(slots, hex64), joined(starts), joined(sizes), len(slots), out)).split(" ")
            one = "%d %d %d %s %s %s %s %s" % (most + 1, lines, window, precision, weights, joined(starts), joined(sizes), found)
            yield "offer %s %d" % (one, len(slots))
            no, _, own = reading.answer("offer %s %d" % (one, len(slots))).split(" ")
            yield "accept %s %d %s %s %s %s" % (one, window, precision, joined(starts), joined(sizes), own)
            for k in (0, 1, len(slots) - 1):
                changed = own.split(",")
                changed[k] = str(int(changed[k]) + 1)
                yield "accept %s %d %s %s %s %s" % (one, window, precision, joined(starts), joined(sizes), ",".join(changed))
    for of in (accept, offer):
        for _ in range(120):
            line = of(r)
            while len(line) > 260:
                line = of(r)
            yield line
    yield from ("accept", "offer", "accept 16", "offer 32", "accept 64 1 1 4 16 0 1 0 1 4 0 1 16", "offer 8 1 1 4 16 0 1 0 1", "offer  1 1 4 16 0 1 0 1", "offer 016 1 1 4 16 0 1 0 1", "offer -16 1 1 4 16 0 1 0 1",
                "accept 16 1 1 4 32768 0 1 0 1 4 0 1 16", "accept 16 1 1 4 16 0 1 0 1 4 0 1 32768", "accept 16 1 1 4 16 0 1 0 1 4 0 1 -32769", "accept 32 1 1 4 32768 0 1 0 1 4 0 1 32768", "accept 32 1 1 4 2147483648 0 1 0 1 4 0 1 1",
                "accept 32 1 1 4 16 0 1 9223372036854775808 1 4 0 1 16", "accept 32 1 1 4 16 0 1 0 1 4 0 1", "accept 32 1 1 4 16 0 1 0 1 4 0 1 16 0", "accept 32 1 1 4 16 0 1 0 1 4 0 -1 16", "accept 32 1 1 4 16 0 1 0 4294967296 4 0 1 16",
                "offer 16 1 1 4 32768 0 1 0 1", "offer 32 1 1 4 32768 0 1 32752 1", "offer 16 1 1 4 16 0 1 0", "offer 16 1 1 4 16 0 1 0 1 1", "offer 16 1 1 4 16 0 1 0 131073", "offer 16 1 1 4 16 0 1 0 -1", "offer 16 - 1 4 16 0 1 0 1",
                "offer 16 1 1 4 - - - - 0", "accept 16 1 1 4 - - - - 1 4 - - -", "Offer 16 1 1 4 16 0 1 0 1", "offer16 1 1 4 16 0 1 0 1", "")


def store_group(r):
    """One store for two clients: shares that fit and that do not, sets that fill a share, each refusal with the former set kept, a pass of each client; calls that are none."""
    def put(client, kind, side, out, left=0.0, width=None, adapt=0):
        return ":".join(["p", str(client), kind, str(adapt), "0", str(side), "1", str(out), *map(hex64, (left, 0.0, float(side) if width is None else width, 1.0))])
    def ran(client, samples, count, row=1, first=0, columns=1):
        return "u:%d:%d:%d:%d:%s:%d" % (client, row, first, columns, joined(samples), count)
    three, pass0, pass1 = put(0, "box", 3, 3), ran(0, [7, 8, 9], 3), ran(1, [7, 8, 9], 3)
    yield "store 30 " + "/".join(["r:9:21", three, pass0, pass1])
    for slots in (0, 8, 9, 17, 18, 19, 131072):  # the share to the slot, and the shares together
        for first, second in ((9, 9), (9, 8), (8, 9), (0, slots), (slots, 0), (slots + 1, 0), (2**32 - 1, 2**32 - 1), (2**32 - 1, slots + 1)):
            yield "store %d " % slots + "/".join(["r:%d:%d" % (first, second), three, put(1, "box", 3, 3), pass0, pass1])
    for refused in (put(0, "box", 1, 1, 1 - 2.0**-53, 2.0**-53), put(0, "box", 4, 4), put(0, "box", 3, 0), put(0, "box", 3, 3, NAN), put(0, "box", 3, 3, 0.0, -1.0), put(0, "box", 3, 3, 3.0), put(0, "box", 3, 3, 1.0),
                    put(0, "box", 3, 3, 1.0, 0.0), put(2, "box", 3, 3), put(2**32 - 1, "bilinear", 3, 3), put(1, "box", 3, 3), put(0, "bilinear", 5, 8), put(0, "catmullrom", 2, 2), "r:31:0", "r:30:1"):
        yield "store 30 " + "/".join(["r:9:21", three, refused, pass0, pass1])  # the former set stays
        yield "store 30 " + "/".join([three, refused, pass0, "r:9:21", refused, pass0, three, pass0])
    for kind in ("box", "bilinear", "catmullrom"):
        for adapt in (0, 1):
            for side, out in ((6, 4), (4, 6), (1, 3), (9, 2)):
                samples = [(7919 * i) % 65536 for i in range(2 * side)]
                yield "store 400 " + "/".join(["r:200:200", put(0, kind, side, out, adapt=adapt), put(1, "box", 2, 2), ran(0, samples, 2 * out, 2, 0, 2), ran(0, samples, out, 2, 1, 1), put(1, kind, side, out, adapt=adapt), ran(1, samples, 2 * out, 2, 0, 2)])
    for bad in (ran(0, [7, 8], 3), ran(0, [7, 8, 9], 2), ran(0, [7, 8, 9], 4), ran(0, [], 3), ran(0, [7, 8, 9], 0, 1, 1, 0), ran(0, [7, 8, 9], 3, 1, 1, 1), ran(0, [7, 8, 9], 3, 0), ran(0, [7, 8, 9], 3, 32769), ran(2, [7, 8, 9], 3)):
        yield "store 18 " + "/".join(["r:9:9", three, bad, pass0])
    yield "store 18 " + "/".join(["r:9:9", three, pass0, "r:9:9", pass0])  # a restart keeps no set
    for client in (0, 1, 2):  # a retired filter before everything else, and the former set stays
        yield "store 18 " + "/".join([put(client, "mitchell", 3, 0), "r:9:9", three, put(client, "mitchell", 3, 3), pass0])
    for _ in range(120):
        line = store(r)
        while len(line) > 1200:
            line = store(r)
        yield line
    yield from ("store", "store 1", "store 1 -", "store 1 r", "store 1 r:1", "store 1 r:1:1:1", "store 1 r:1:-1", "store 1 r:1:4294967296", "store 1 r:0:1/", "store 1 /r:0:1", "store 1 r:0:1//r:0:1", "store 131073 r:0:0", "store -1 r:0:0", "store 1 r:0:0 r:0:0",
                "store 1 x:0:0", "store 1 p:0:box", "store 9 " + three.replace("box", "hamming"), "store 9 " + three + ":0", "store 9 u:0:1:0:1:65536:1", "store 9 u:0:1:0:1:-:131073", "store 9 u:0:1:0:1:-", "store  r:0:0", "")


def story_group(r):
    """Every place and room of the small domain but for most lists of excesses; each refusal alone and before another; random places."""
    few = [line for line in every_story() if not line.endswith(" 0 0 3")]
    yield from few
    yield from ("story 3 1 2 4 9,8,16,5,-3,17 0,2,0 2,1,2 %s 200,100,50 0 0 200" % found for found in ("1,0,-2", "1,0,-1", "0,0,-2", "1,0", "1,0,-2,0", "-"))
    good = [3, 2, 2, 14, [1] * 4, [0, 1], [2, 2], [2 - 2**14] * 2, [7] * 6, 1, 1, 200]
    places = {0: (0, 8193, 2, 4), 1: (0, 32769, 1, 3), 2: (0, 1, 3, 32769, 32770), 3: (0, 3, 4, 45, 46, 2**32 - 1), 4: ([1] * 3, [1] * 5, []), 5: ([0], [], [0, 2], [0, 2**32 - 1]),
              6: ([2], [], [2, 0], [2, 3]), 7: ([0] * 2, [2 - 2**14]), 8: ([7] * 5, [7] * 7, []), 9: (0, 2, 2**32 - 1), 10: (0, 2, 2**32 - 1), 11: (0, 1, 67)}
    def of(words):
        return "story " + " ".join(joined(w) if isinstance(w, list) else str(w) for w in words)
    yield of(good)
    for place, values in places.items():
        for v in values:
            yield of(good[:place] + [v] + good[place + 1:])
    yield of([0] + good[1:9] + [9, 9, 0])   # 1 before 10
    yield of(good[:9] + [9, 9, 0])          # 10 before 11
    for _ in range(120):
        line = story(r)
        while len(line) > 600:
            line = story(r)
        yield line
    yield from ("story 2 1 2 4 8,8 0 2 0 1,0 0 0", "story 2 1 2 4 8,8 0 2 0 1,0 0 0 9 9", "story 2 1 2 4 8,8 0 2 0 1,65536 0 0 9", "story 2 1 2 4 8,2147483648 0 2 0 1,0 0 0 9", "story 2 1 2 4 8,8 0 2 0 1,0 -1 0 9",
                "story 2 1 2 4 8,8 0 2 0 1,0 0 4294967296 9", "story 2 1 2 4 8,8 0 2 0 1,0 0 0 524289", "story")


def book_group(r):
    """No sheet, one and several of both stores; windows about the flat premise and weights about 0; then each way to be bad, before, between and after good sheets."""
    box, catmull = texts.sheet_text("box", 4, 3, 32, 31, [2**30, 2**30, 0] * 2, [0, 2], [2, 2], [0, 0]), texts.sheet_text("catmullrom", 3, 3, 32, 4, [-4, 24, -4], [0], [3], [0])
    small, one = texts.sheet_text("mitchell", 9, 2, 16, 21, [-(2**15), 2**15 - 1], [7], [2], [-1 - 2**21]), texts.sheet_text("bilinear", 1, 1, 16, 14, [2**14], [0], [1], [0])
    ends = texts.sheet_text("box", 5, 5, 32, 45, [2**31 - 1] * 5 + [-(2**31)] * 5, [0, 0], [5, 5], [5 * (2**31 - 1) - 2**45, -5 * 2**31 - 2**45])

    def of(*sheets):
        return "book %s" % (b"".join(sheets).hex() or "-")
    yield from (of(), of(box), of(one), of(box, box), of(box, small), of(small, box), of(one, catmull, small, box), of(*BEFORE), of(ends), of(one, ends, one), of(*[one] * 40))
    for store, precision, edge in ((16, 4, 0), (16, 17, 1), (16, 18, 2), (32, 17, 1), (32, 31, 16384)):  # the largest excess that the flat premise takes, and one more
        for over in (edge, edge + 1, -edge, -edge - 1):
            top, whole = 2 ** (store - 1) - 1, 2**precision + over
            ws = [top] * (whole // top) + [whole % top]
            yield of(one, texts.sheet_text("box", len(ws), len(ws), store, precision, ws, [0], [len(ws)], [over]), catmull)
    for ws, n in (([16, -1], 1), ([16, -1], 2), ([0, 16], 2), ([-1, 17], 2), ([17, -1], 2), ([-1], 1), ([0], 1)):  # a negative weight in use; what a set has in idle slots is not in a sheet
        yield of(texts.sheet_text("box", 2, 2, 32, 4, ws + [0] * (2 - len(ws)), [0], [n], [sum(ws[:n]) - 16]))
    for bad in (one[:-1], one[1:], b"\n", b" ", b"k", b"kind=box\n", one.replace(b"=1\n", b"=01\n", 1), one.replace(b"16384", b"-0"), one.replace(b"excess=0", b"excess=1"), one.replace(b"excess=0\n", b""), one.replace(b"=16\n", b"=64\n"),
                one.replace(b"=14", b"=22"), one.replace(b"\n", b"\r\n"), one.replace(b"bilinear", b"lanczos3"), one.replace(b"w0=0,1", b"w0=1,1"), one.replace(b"in=1", b"in=9000"), one + b"\0", small.replace(b"32767", b"32768")):
        yield from (of(bad), of(box, bad), of(bad, box), of(small, catmull, bad, one))
    for at in range(len(one)):  # every beginning of a sheet after another
        yield of(catmull, one[:at])
    for _ in range(80):
        line = book(r)
        while len(line) > 1600:
            line = book(r)
        yield line
    yield from ("book", "book 6", "book 6B", "book  ", "book - -", "book kind", "Book -", "")


# What `./mirror sheet mitchell 9 1.25 6.5 4 fixed 16` and the same with `adapt 32` printed while sets were still built with that filter.
BEFORE = (
    b"kind=mitchell\nin=9\nout=4\nwindow=5\nstore=16\nprecision=15\nw0=0,4:-1024,15195,19784,-1188\nw1=2,4:-376,27075,6368,-300\nw2=3,4:-300,6368,27075,-376\nw3=5,4:-1188,19784,15195,-1024\nexcess=-1,-1,-1,-1\n",
    b"kind=mitchell\nin=9\nout=4\nwindow=9\nstore=32\nprecision=31\nw0=0,5:100872251,914646629,1005179277,172308751,-45523260\nw1=0,7:-619570,-44463503,363255134,1136678076,703436483,10998407,-21801379\n"
    b"w2=2,7:-21801379,10998407,703436483,1136678076,363255134,-44463503,-619570\nw3=4,5:-45523260,172308751,1005179277,914646629,100872251\nexcess=0,0,0,0\n",
)


def before_group(r):
    """Sheets of a retired filter: read, the set run through the passes, written back to the same bytes, explained and repaired."""
    for text in BEFORE:
        asked = "read %s 36 4 4 4" % text.hex()
        yield asked
        _, _, kind, lines, window, store, precision, _, slots, starts, sizes, excesses = reading.answer(asked).split(" ")
        slots = ",".join(slots.split(",")[:4 * int(window)])
        if store == "16":
            yield "read16 %s 20 4 4 4" % text.hex()
        for row, first, count, top in ((1, 0, 1, 65535), (3, 0, 3, 65535), (3, 1, 2, 65535), (2, 0, 2, 0)):
            samples = [r.choice((0, top, r.randint(0, top))) if top else 40000 for _ in range(9 * row)]
            yield "u16pass %s %d %d %d %s %s %s %s %s %s %s %d" % (lines, row, first, count, window, precision, slots, starts, sizes, excesses, joined(samples), 4 * count)
            if store == "16":
                yield "u8pass %s %d %d %d %s %s %s %s %s %s %s %d" % (lines, row, first, count, window, precision, slots, starts, sizes, excesses, joined([s >> 8 for s in samples]), 4 * count)
        yield "sheet %s %s %s %s %s %s %s %s %s %d" % (kind, lines, window, store, precision, slots, starts, sizes, excesses, len(text))
        # explained, repaired, and written back with its name
        whole, flat = "%s %s %s %s %s %s %s" % (lines, window, precision, slots, starts, sizes, excesses), joined([40000] * 9)
        yield "story %s 1 %s %s 1 0 400" % (lines, whole.split(" ", 1)[1], flat)
        asked = "offer %s %s %d" % (store, whole, 4 * int(window))
        yield asked
        own = reading.answer(asked).split(" ")[2]
        yield "accept %s %s %s %s %s %s %s" % (store, whole, window, precision, starts, sizes, own)
        yield "u16pass %s 1 0 1 %s %s %s %s %s 0,0,0,0 %s 4" % (lines, window, precision, own, starts, sizes, flat)
        yield "sheet %s %s %s %s %s %s %s %s 0,0,0,0 400" % (kind, lines, window, store, precision, own, starts, sizes)
    yield ""


# The CatmullRom set of 6 camera lines to 4 in both stores, whose first window rings (docs/PROMISES.md).
RINGING = (
    ("u16pass", "7 31 1407331517,844398910,-86872316,-17374463,0,0,0,-82216066,799140163,1331900272,187452631,-88793351,0,0,-88793351,187452631,1331900272,799140163,-82216066,0,0,-17374463,-86872316,844398910,1407331517,0,0,0 0,0,1,2 4,5,5,4 0,1,1,0"),
    ("u8pass", "7 15 21474,12885,-1326,-265,0,0,0,-1255,12194,20323,2860,-1355,0,0,-1355,2860,20323,12194,-1255,0,0,-265,-1326,12885,21474,0,0,0 0,0,1,2 4,5,5,4 0,-1,-1,0"),
)


def ringing_group(r):
    """A dark edge, a flat frame and a bright spot through them."""
    for name, held in RINGING:
        for samples in ("100,100,0,0,0,0", "100,100,100,100,100,100", "100,100,200,100,100,100"):
            yield "%s 6 1 0 1 %s %s 4" % (name, held, samples)


def sideways_group(r):
    """The pass along the rows: each number and the order of them, ranges of rows, strips of rows and those left over, one to four components."""
    yield from ("sideways 1 1 3 0 1 3 4 -4,24,-4 0 3 0 100,200,100 1", "sideways 2 1 4 0 1 2 4 8,8 0 2 0 1,0,0,7 2", "sideways 2 2 6 0 2 2 4 8,8,-4,20 0,1 2,2 0,0 1,2,30,40,500,600,7,8,90,100,1100,1200 8",
                "sideways 2 2 6 1 1 2 4 8,8,-4,20 0,1 2,2 0,0 1,2,30,40,500,600,7,8,90,100,1100,1200 4", "sideways 5 2 6 0 2 2 4 8,8,-4,20 0,1 2,2 0,0 1,2,30,40,500,600,7,8,90,100,1100,1200 8",
                "sideways 4 2 6 0 2 2 4 8,8,-4,20 0,1 2,2 0,0 1,2,30,40,500,600,7,8,90,100,1100,1200 8", "sideways 2 2 6 2 1 2 4 8,8,-4,20 0,1 2,2 0,0 1,2,30,40,500,600,7,8,90,100,1100,1200 4",
                "sideways 0 0 0 0 0 0 0 - - - - - 0", "sideways 4 8192 4 0 0 1 4 16 0 1 0 - 0", "sideways 4 8193 4 0 0 1 4 16 0 1 0 - 0", "sideways 1 32769 1 0 0 1 4 16 0 1 0 - 0",
                "sideways 4 4294967295 4 4294967295 4294967295 1 4 16 0 1 0 - 0", "sideways 2 1 4 0 1 2 4 8,8 0 2 0 1,0,0,65536 2", "sideways 2 1 4 0 1 2 4 8,8 0 2 0 1,0,0,7", "sideways")
    yield from r.sample(list(every_sideways()), 60)
    for _ in range(120):
        yield sideways(r)


GROUPS = {"numbers": numbers, "alpha": alpha_group, "alpha16": alpha16_group, "crop": crop_group, "normalizer": normalizer, "build": build_group, "passes": passes, "sheet": sheet_group, "read": read_group, "repairs": repairs_group, "store": store_group, "story": story_group, "book": book_group, "before": before_group, "ringing": ringing_group, "sideways": sideways_group}


def answers(oracle, lines):
    done = subprocess.run([oracle], input="".join(l + "\n" for l in lines).encode(), stdout=subprocess.PIPE, check=True)
    return done.stdout.decode().split("\n")[:-1]


def main():
    if len(sys.argv) < 4:
        sys.exit(__doc__)
    oracle, vectors, folder = sys.argv[1:4]
    for name in sys.argv[4:] or GROUPS:
        if name not in GROUPS:
            sys.exit("no group %s; there are %s" % (name, ", ".join(GROUPS)))
        lines = list(dict.fromkeys(GROUPS[name](random.Random(SEED))))
        stored = [reading.answer(q) for q in lines] if name in ("read", "repairs", "store", "story", "book", "before", "ringing", "sideways") else answers(oracle, lines)
        if name == "numbers":
            theirs = list(testfloat(vectors))
            ours = answers(oracle, [q for q, _ in theirs])
            wrong = [(q, a, b) for (q, a), b in zip(theirs, ours) if a != b]
            if wrong:
                sys.exit("the oracle differs from SoftFloat: %s" % wrong[:5])
            lines, stored = [q for q, _ in theirs] + lines, [a for _, a in theirs] + stored
        stored = [reading.answer(q) if a == "bad" else a for q, a in zip(lines, stored)]
        for ending, texts in (("in", lines), ("out", stored)):
            with open("%s/%s.%s" % (folder, name, ending), "w", newline="\n") as f:
                f.write("".join(t + "\n" for t in texts))
        size = sum(len(t.encode()) + 1 for t in lines + stored)
        print("group=%s requests=%d bytes=%d longest=%d" % (name, len(lines), size, max(map(len, lines))))


if __name__ == "__main__":
    main()
