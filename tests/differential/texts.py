"""Texts for the readers (W-203, W-207): sheets of sets that fit, and the same with a mistake that somebody could make, or with bytes changed by chance."""
import re

KEYS = (b"kind=", b"in=", b"out=", b"window=", b"store=", b"precision=", b"excess=")
NAMES = (b"box", b"bilinear", b"catmullrom", b"mitchell")
BYTES = b"0123456789-+,:= \t\r\n\0wkx\xc3\xff"


def sheet_text(kind, lines, window, store, precision, weights, starts, sizes, excesses):
    """The sheet of a set that fits."""
    rows = ["kind=%s" % kind, "in=%d" % lines, "out=%d" % len(starts), "window=%d" % window, "store=%d" % store, "precision=%d" % precision]
    for i, (start, size) in enumerate(zip(starts, sizes)):
        rows.append("w%d=%d,%d:%s" % (i, start, size, ",".join(map(str, weights[i * window:i * window + size]))))
    rows.append("excess=%s" % ",".join(map(str, excesses)))
    return ("\n".join(rows) + "\n").encode()


def numbers_in(text):
    """The places of the decimal numbers, with their signs."""
    return [m.span() for m in re.finditer(rb"-?[0-9]+", text)]


def other_number(r, text):
    """One number becomes another: at a limit, beside itself, far too long, or written as no writer writes it."""
    a, e = r.choice(numbers_in(text))
    n = int(text[a:e])
    limits = (0, 1, 4, 8192, 8193, 32769, 32770, 16, 32, 21, 22, 45, 46, 2**15 - 1, 2**15, -(2**15), -(2**15) - 1, 2**31 - 1, 2**31, -(2**31), -(2**31) - 1, 2**32, 2**64, 10**19, 10**20)
    new = r.choice((str(r.choice(limits)), str(n + r.choice((-1, 1))), "0%d" % n, "+%d" % n, "-0", "-%d" % abs(n), " %d" % n, "%d " % n, "%d.0" % n, "", "-", "9" * 1000, "%d" % n + "0" * r.randint(1, 30)))
    return text[:a] + new.encode() + text[e:]


def other_lines(r, text):
    """Lines left out, twice, exchanged, or ended in another way."""
    rows = text.split(b"\n")[:-1]
    i, j = r.randrange(len(rows)), r.randrange(len(rows))
    way = r.randrange(6)
    if way == 0:
        del rows[i]
    elif way == 1:
        rows.insert(i, rows[j])
    elif way == 2:
        rows[i], rows[j] = rows[j], rows[i]
    elif way == 3:
        return b"\r\n".join(rows) + b"\r\n"
    elif way == 4:
        rows[i] = rows[i] + r.choice((b" ", b",", b",0", b"\r", b"\t", b"\0"))
    else:
        rows[i] = rows[i].rpartition(b",")[0] if b"," in rows[i] else rows[i][:-1]
    return b"\n".join(rows) + b"\n"


def other_words(r, text):
    """A key or a name becomes another."""
    word = r.choice([w for w in KEYS + NAMES if w in text])
    return text.replace(word, r.choice((word.upper(), word[:-1], word + word[-1:], b" " + word, r.choice(KEYS + NAMES), b"lanczos3", b"")), 1)


def other_bytes(r, text):
    """Bytes by chance."""
    for _ in range(r.choice((1, 1, 1, 2, 5))):
        at = r.randint(0, len(text))
        b = bytes((r.choice(BYTES),))
        text = r.choice((text[:at], text[:at] + text[at + 1:], text[:at] + b + text[at:], text[:at] + b + text[at + 1:], text + b, text[:at] + text[at:at + 9] + text[at:]))
    return text


def hurt(r, text):
    """The text with one mistake; bytes by chance where it has nothing left for the mistake to be made in."""
    way = r.choice((other_number, other_number, other_lines, other_words, other_bytes, other_bytes))
    fits = {other_number: numbers_in(text), other_lines: b"\n" in text, other_words: any(w in text for w in KEYS + NAMES)}
    return (way if fits.get(way, True) else other_bytes)(r, text)
