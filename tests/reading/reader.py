"""The sheet read back (W-203, W-207): which texts are sheets, and where a text stops being the beginning of one.

A sheet is a row of pieces, each a finite choice of texts: fixed bytes, a name, or a number of a range with the byte that ends it. A choice of later pieces depends on what was
read, and every right beginning can be completed (a window `0,1:0` always fits), so the longest beginning of a sheet ends in the first piece that has no choice, at
the most bytes that it shares with one.
"""
from weights import NAMES


class Stop(Exception):
    """The place: how many bytes of the text begin a sheet."""


def shared(a, b):
    n = 0
    while n < min(len(a), len(b)) and a[n] == b[n]:
        n += 1
    return n


def one_of(text, at, choices):
    """The value of the choice that stands at a place, and the place after it."""
    for value, word in choices:
        if text.startswith(word, at):
            return value, at + len(word)
    raise Stop(at + max(shared(text[at:at + len(word)], word) for _, word in choices))


def begins(digits, low, high):
    """Whether some whole number of the range has a decimal that begins with these digits."""
    if digits == "" or digits == "0":
        return digits == "" or low == 0
    n = int(digits)
    return digits[0] != "0" and any(n * 10**more <= high and low <= n * 10**more + 10**more - 1 for more in range(len(str(high)) - len(digits) + 1))


def number(text, at, low, high, end):
    """A whole number of the range, not below 0, and the byte that ends it."""
    stop = at
    while stop < len(text) and text[stop:stop + 1].isdigit() and begins(text[at:stop + 1].decode(), low, high):
        stop += 1
    digits = text[at:stop].decode()
    if digits and low <= int(digits) <= high and text[stop:stop + 1] == end:
        return int(digits), stop + 1
    raise Stop(stop)


def signed(text, at, top, end):
    """A number from -top to top - 1; 0 has no minus sign."""
    if text[at:at + 1] == b"-":
        n, at = number(text, at + 1, 1, top, end)
        return -n, at
    return number(text, at, 0, top - 1, end)


def head(text, at):
    """Kind, lines, windows, window size, and the place after the kind line and the three size lines."""
    kind, at = one_of(text, at, [(k, b"kind=%s\n" % k.encode()) for k in NAMES])
    found = [kind]
    for key, high in ((b"in=", 8192), (b"out=", 8192), (b"window=", 32769)):
        _, at = one_of(text, at, [(None, key)])
        n, at = number(text, at, 1, high, b"\n")
        found.append(n)
    return (*found, at)


def rest(text, at, stores, lines, windows, window):
    """Store, precision and the windows: starts, sizes and rows of weights; the line of their excesses, which has one right text; and the place after the sheet."""
    store, at = one_of(text, at, [(s, b"store=%d\n" % s) for s in stores])
    _, at = one_of(text, at, [(None, b"precision=")])
    precision, at = number(text, at, 4, 21 if store == 16 else 45, b"\n")
    starts, sizes, rows = [], [], []
    for i in range(windows):
        _, at = one_of(text, at, [(None, b"w%d=" % i)])
        start, at = number(text, at, 0, lines - 1, b",")
        size, at = number(text, at, 1, min(window, lines - start), b":")
        row = []
        for k in range(size):
            w, at = signed(text, at, 2 ** (store - 1), b"\n" if k + 1 == size else b",")
            row.append(w)
        starts, sizes, rows = starts + [start], sizes + [size], rows + [row]
    found = [sum(row) - 2**precision for row in rows]
    _, at = one_of(text, at, [(None, b"excess=%s\n" % ",".join(map(str, found)).encode())])
    return (store, precision, starts, sizes, rows, found), at


def one(text, at, stores):
    """A sheet at a place of a text: its head, the rest, and the place after it."""
    kind, lines, windows, window, at = head(text, at)
    made, at = rest(text, at, stores, lines, windows, window)
    return (kind, lines, windows, window), made, at


def read(stores, text, slots, starts, sizes, excesses):
    """Writes the lists. Number, byte, and the head: kind, lines, window size, store, precision, windows."""
    nothing = ("-", 0, 0, 0, 0, 0)
    try:
        _, _, windows, window, _ = head(text, 0)
        if len(slots) < windows * window or min(map(len, (starts, sizes, excesses))) < windows:
            return 7, 0, nothing
        (kind, lines, _, _), (store, precision, first, count, rows, found), at = one(text, 0, stores)
        if at != len(text):
            raise Stop(at)
    except Stop as stop:
        return 13, stop.args[0], nothing
    slots[: windows * window] = [w for row in rows for w in row + [0] * (window - len(row))]
    starts[:windows], sizes[:windows], excesses[:windows] = first, count, found
    return 0, 0, (kind, lines, window, store, precision, windows)
