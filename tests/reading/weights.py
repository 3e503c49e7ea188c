"""Filters, crop, fitting and the weight builder. Python's floats are binary64, and each operation is rounded once, in the Rust's order; where a crop ends is judged
by fractions, since W-204."""
from fractions import Fraction

from numbers_of_bits import ceil, double, finite, floor, pattern


def box(x):
    return 1.0 if -0.5 < x <= 0.5 else 0.0


def bilinear(x):
    x = abs(x)
    return 1.0 - x if x < 1.0 else 0.0


def catmullrom(x):
    a, x = -0.5, abs(x)
    if x < 1.0:
        return ((a + 2.0) * x - (a + 3.0)) * x * x + 1.0
    return (((x - 5.0) * x + 8.0) * x - 4.0) * a if x < 2.0 else 0.0


FILTERS = {"box": (box, 0.5), "bilinear": (bilinear, 1.0), "catmullrom": (catmullrom, 2.0)}
NAMES = (*FILTERS, "mitchell")  # of sheets and requests; no new set is built with the last, since W-211


def side(n):
    return 1 <= n <= 8192


def crop(width, height, patterns):
    if not (side(width) and side(height)):
        return 1
    if not all(map(finite, patterns)):
        return 2
    left, top, w, h = map(double, patterns)
    if w < 0 or h < 0:
        return 3
    if left < 0 or top < 0 or left >= width or top >= height:
        return 4
    return 5 if past(left, w, width) or past(top, h, height) else 0


def past(start, extent, side):
    """No. 5 for one axis: the sum is exact."""
    return Fraction(start) + Fraction(extent) > side


def fit(sw, sh, dw, dh, centring):
    """The number and the box; centring is None or two patterns."""
    none = (0.0, 0.0, 0.0, 0.0)
    if max(sw, sh, dw, dh) > 8192:
        return 1, none
    if centring and not all(map(finite, centring)):
        return 2, none
    width, height = float(sw), float(sh)
    if 0 in (sw, sh, dw, dh):
        return 0, (0.0, 0.0, width, height)
    across, down = (0.0 if c < 0.0 else 1.0 if c > 1.0 else c for c in map(double, centring)) if centring else (0.5, 0.5)
    image, asked = width / height, dw / dh
    if abs(image - asked) < 2.0**-52:
        w, h = width, height
    elif image >= asked:
        w, h = asked * height, height
    else:
        w, h = width, width / asked
    return 0, ((width - w) * across, (height - h) * down, w, h)


def window_of(near, scale, radius, scaled, weigh, lines, i):
    """Start, size and weights of display line i, or None where it is blank."""
    centre = near + (i + 0.5) * scale
    low, high = double(floor(pattern(centre - radius))), double(ceil(pattern(centre + radius)))
    first, last = int(max(low, 0.0)), int(min(high, float(lines)))
    start, end, made, total = first, last, [], 0.0
    for x in range(first, last):
        w = weigh((x - (centre - 0.5)) * (1.0 / scaled))
        if x == start and w == 0.0:
            start += 1
        else:
            made.append(w)
            total += w
    for w in reversed(made):
        if end <= start or w != 0.0:
            break
        end -= 1
    return None if total == 0.0 else (start, end - start, [w / total for w in made])


def build(kind, adapts, axis, width, height, output, patterns, slots, starts, sizes):
    """Writes the three lists (slots are patterns); the number, the blank line and the window size."""
    if kind not in FILTERS:
        return 16, 0, 0
    if not side(output):
        return 1, 0, 0
    no = crop(width, height, patterns)
    if no:
        return no, 0, 0
    near, extent = (double(patterns[axis]), double(patterns[axis + 2]))
    scale = ((near + extent) - near) / output
    if scale <= 0.0:
        return 6, 0, 0
    weigh, support = FILTERS[kind]
    scaled = max(scale, 1.0) if adapts else 1.0
    window = 2 * int(double(ceil(pattern(support * scaled)))) + 1
    if len(slots) < window * output or min(len(starts), len(sizes)) < output:
        return 7, 0, 0
    rows = []
    for i in range(output):
        row = window_of(near, scale, support * scaled, scaled, weigh, (width, height)[axis], i)
        if row is None:
            slots[: window * output], starts[:output], sizes[:output] = [0] * (window * output), [0] * output, [0] * output
            return 8, i, 0
        rows.append(row)
    slots[: window * output] = [pattern(w) for row in rows for w in row[2] + [0.0] * (window - len(row[2]))]
    starts[:output], sizes[:output] = [row[0] for row in rows], [row[1] for row in rows]
    return 0, 0, window
