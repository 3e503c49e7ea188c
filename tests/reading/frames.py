"""Sets, normalisers, passes, alpha and the sheet."""
from fractions import Fraction

from numbers_of_bits import double, finite, finite32, narrow, pattern, widen
from weights import side


def sides(lines, starts):
    return side(lines) and side(len(starts))


def fits(lines, window, slots, starts, sizes):
    """What No. 10 asks of a set."""
    return (1 <= window <= 32769 and len(starts) == len(sizes) and slots == len(starts) * window
            and all(0 < n <= window and s + n <= lines for s, n in zip(starts, sizes)))


def excesses_of(window, precision, weights, sizes):
    """Each window's excess: the total of its weights in use less 2^precision (W-207)."""
    return [sum(weights[i * window:i * window + n]) - 2**precision for i, n in enumerate(sizes)]


def stored(most, lines, window, precision, weights, starts, sizes, excesses):
    """What No. 10 asks of a stored set whose precision is at most `most`."""
    return fits(lines, window, len(weights), starts, sizes) and 4 <= precision <= most and excesses == excesses_of(window, precision, weights, sizes)


def scaled(weight, p):
    """weight x 2^p as binary64, then rounded half away from zero; an infinity is beyond every integer type."""
    x = weight * 2.0**p
    if x in (float("inf"), -float("inf")):
        return 2**99 if x > 0 else -(2**99)
    size = abs(Fraction(x))
    n = (2 * size.numerator + size.denominator) // (2 * size.denominator)
    return -n if x < 0 else n


def normalize(bits, limit, lines, window, patterns, starts, sizes, out, excesses):
    if not sides(lines, starts):
        return 1, 0
    if len(out) < len(starts) * window or len(excesses) < len(starts):
        return 7, 0
    if not fits(lines, window, len(patterns), starts, sizes):
        return 10, 0
    if not all(map(finite, patterns)):
        return 9, 0
    weights = [double(b) for b in patterns]
    largest = max(weights)
    p = next((p for p in range(bits) if scaled(largest, p + 1) >= 2**limit), bits - 1)
    made = [scaled(w, p) if k % window < sizes[k // window] else 0 for k, w in enumerate(weights)]
    if p < 4 or not all(-(2**limit) <= n < 2**limit for n in made):
        return 9, 0
    out[: len(made)] = made
    excesses[: len(starts)] = excesses_of(window, p, made, sizes)
    return 0, p


def shape(lines, row, first, count, window, slots, starts, sizes, samples, out):
    """The number of a pass, but for precision, excesses, No. 9 and No. 12."""
    if not (sides(lines, starts) and 1 <= row <= 32768):
        return 1
    good = samples == lines * row and out == len(starts) * count and first + count <= row and fits(lines, window, slots, starts, sizes)
    return 0 if good else 10


def used(row, first, count, window, starts, sizes):
    """For each window and column, the places of the weights and samples in line order."""
    for i, (s, n) in enumerate(zip(starts, sizes)):
        for c in range(first, first + count):
            yield [(i * window + k, (s + k) * row + c) for k in range(n)]


def u16_pass(lines, row, first, count, window, precision, weights, starts, sizes, excesses, samples, out):
    no = shape(lines, row, first, count, window, len(weights), starts, sizes, len(samples), len(out))
    if no or not stored(45, lines, window, precision, weights, starts, sizes, excesses):
        return no or 10
    half = 2 ** (precision - 1)
    for at, places in enumerate(used(row, first, count, window, starts, sizes)):
        out[at] = min(max(sum((weights[w] * samples[x] for w, x in places), half) // 2**precision, 0), 65535)
    return 0


def u8_pass(lines, row, first, count, window, precision, weights, starts, sizes, excesses, samples, out):
    no = shape(lines, row, first, count, window, len(weights), starts, sizes, len(samples), len(out))
    if no or not stored(21, lines, window, precision, weights, starts, sizes, excesses):
        return no or 10
    half = 2 ** (precision - 1)
    for i, n in enumerate(sizes):
        if 255 * sum(map(abs, weights[i * window:i * window + n])) + half > 2**31 - 1:
            return 9
    for at, places in enumerate(used(row, first, count, window, starts, sizes)):
        out[at] = min(max(sum((weights[w] * samples[x] for w, x in places), half) // 2**precision, 0), 255)
    return 0


def f32_pass(lines, row, first, count, window, weights, starts, sizes, samples, out):
    no = shape(lines, row, first, count, window, len(weights), starts, sizes, len(samples), len(out))
    if no:
        return no
    held = [weights[i * window + k] for i, n in enumerate(sizes) for k in range(n)]
    rows = list(used(row, first, count, window, starts, sizes))
    if not all(finite(w) and abs(double(w)) <= 2.0**64 for w in held) or not all(finite32(samples[x]) for places in rows for w, x in places):
        return 12
    for at, places in enumerate(rows):
        total = 0.0
        for w, x in places:
            total += double(widen(samples[x])) * double(weights[w])
        out[at] = narrow(pattern(total))
    return 0


def multiplied(colour, alpha):
    return (2 * colour * alpha + 255) // 510


def divided(colour, alpha):
    r = (2 * 65280 + alpha) // (2 * alpha) if alpha else 0
    return min(255, (colour * r + 128) // 256)


def multiplied16(colour, alpha):
    return (2 * colour * alpha + 65535) // 131070


def divided16(colour, alpha):
    r = (2 * 65535 * 2**33 + alpha) // (2 * alpha) if alpha else 0
    return min(65535, (colour * r + 2**32) // 2**33)


def pixels(one, source, out):
    if len(source) != len(out) or len(source) % 4:
        return 10
    out[:] = [v if k % 4 == 3 else one(v, source[k // 4 * 4 + 3]) for k, v in enumerate(source)]
    return 0


def sheet(kind, lines, window, store, precision, weights, starts, sizes, excesses, out):
    if not sides(lines, starts):
        return 1, 0
    if not stored(21 if store == 16 else 45, lines, window, precision, weights, starts, sizes, excesses):
        return 10, 0
    text = "kind=%s\nin=%d\nout=%d\nwindow=%d\nstore=%d\nprecision=%d\n" % (kind, lines, len(starts), window, store, precision)
    for i, (s, n) in enumerate(zip(starts, sizes)):
        text += "w%d=%d,%d:%s\n" % (i, s, n, ",".join(map(str, weights[i * window: i * window + n])))
    text += "excess=%s\n" % ",".join(map(str, excesses))
    if len(out) < len(text):
        return 11, 0
    out[: len(text)] = text.encode()
    return 0, len(text)
