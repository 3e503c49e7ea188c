"""The protocol (docs/PROTOCOL.md): a request line in, its answer out; `bad`, the word and the reason for what is no request or past the program's buffers."""
import re

import book
import frames
import numbers_of_bits as numbers
import reader
import repairs
import sideways
import stores
import weights


class Bad(Exception):
    """Why a word is not of its kind; or its number, the request's own being 1, and why."""


def number(least, most, why):
    def read(word):
        if not re.fullmatch("-?[0-9]+" if least < 0 else "[0-9]+", word) or re.fullmatch("-0+", word) or len(word) > 4000 or not least <= int(word) <= most:
            raise Bad(why)
        return int(word)
    return read


def digits(n):
    def read(word):
        if not re.fullmatch("[0-9a-f]{%d}" % n, word):
            raise Bad("not %d hexadecimal digits" % n)
        return int(word, 16)
    return read


def one_of(why, *names):
    def read(word):
        if word not in names:
            raise Bad(why)
        return word
    return read


def listed(item):
    return lambda word: [] if word == "-" else [item(w) for w in word.split(",")]


def lent(most=131072, made=lambda v: v):
    return lambda word: [made((7 * i + 3) % 251) for i in range(number(0, most, "no length up to %d" % most)(word))]


def bytes_of(word):
    if word == "-":
        return b""
    if not re.fullmatch("([0-9a-f]{2})+", word):
        raise Bad("not bytes in hexadecimal")
    return bytes.fromhex(word)


u8, u16, u32 = number(0, 255, "not a u8"), number(0, 65535, "not a u16"), number(0, 2**32 - 1, "not a u32")
i16, i32, i64 = number(-(2**15), 2**15 - 1, "not an i16"), number(-(2**31), 2**31 - 1, "not an i32"), number(-(2**63), 2**63 - 1, "not an i64")
b32, b64, flag = digits(8), digits(16), lambda word: int(one_of("not 0 or 1", "0", "1")(word))
kind, store = lambda word: word, one_of("not 16 or 32", "16", "32")  # a filter's name is looked up when all other words are right


def show(values, form="%d"):
    return ",".join(form % v for v in values) or "-"


def doubles(n):
    return lent(made=lambda v: numbers.pattern(float(v)))(n)


def filtered(k, b):
    if k not in weights.FILTERS:
        raise Bad(2, "no filter")
    x = weights.FILTERS[k][0](numbers.double(b))
    return "%016x" % (numbers.NAN64 if x != x else numbers.pattern(x))


def fitted(*a):
    no, made = weights.fit(*a)
    return " ".join([str(no)] + ["%016x" % numbers.pattern(x) for x in made])


def built(k, adapts, axis, sw, sh, out, left, top, w, h, slots, starts, sizes):
    no, line, window = weights.build(k, adapts, axis, sw, sh, out, (left, top, w, h), slots, starts, sizes)
    return "%d %d %d %s %s %s" % (no, line, window, show(slots, "%016x"), show(starts), show(sizes))


def normalized(bits, limit):
    return lambda *a: "%d %d %s %s" % (*frames.normalize(bits, limit, *a), show(a[-2]), show(a[-1]))


def passed(of, form):
    return lambda *a: "%d %s" % (of(*a), show(a[-1], form))


def pixels(one):
    return lambda source, out=None: "%d %s" % (frames.pixels(one, source, source if out is None else out), show(source if out is None else out))


def sheet(*a):
    return "%d %d %s" % (*frames.sheet(*a), "".join("%02x" % v for v in a[-1]) or "-")


def was_read(stores):
    def answer(text, *lists):
        no, byte, head = reader.read(stores, text, *lists)
        return " ".join(map(str, (no, byte, *head))) + "".join(" " + show(l) for l in lists)
    return answer


def accepted(*a):
    return "%d %s %s" % (repairs.accept(*a), show(a[4]), show(a[7]))


def offered(*a):
    return "%d %d %s" % (*repairs.offer(*a), show(a[-1]))


def infinite32(b):
    return b % 2**31 == 0x7F800000


def narrowed(b):
    made = numbers.narrow(b)
    return "%08x %d" % (made, infinite32(made))


def counted(*a):
    no = frames.f32_pass(*a)
    return "%d %d %s" % (no, sum(map(infinite32, a[-1])) if no == 0 else 0, show(a[-1], "%08x"))


def story(count, row, window, precision, ws, starts, sizes, excesses, samples, line, column, out):
    windows = len(starts)
    no = frames.shape(count, row, 0, 0, window, len(ws), starts, sizes, len(samples), 0)
    if no == 0 and not (frames.stored(45, count, window, precision, ws, starts, sizes, excesses) and line < windows and column < row):
        no = 10
    text = ""
    if no == 0:
        total, half = 0, 2 ** (precision - 1)
        for k in range(sizes[line]):
            n, w = starts[line] + k, ws[line * window + k]
            s = samples[n * row + column]
            total += w * s
            text += "line=%d,%d,%d,%d\n" % (n, w, s, w * s)
        shifted = (total + half) // 2**precision
        text += "total=%d\nhalf=%d\nshifted=%d\nclip=%s\nfinal=%d\n" % (
            total, half, shifted, "low" if shifted < 0 else "high" if shifted > 65535 else "none", min(max(shifted, 0), 65535))
        no = 11 if len(out) < len(text) else 0
    if no == 0:
        out[: len(text)] = text.encode()
    return "%d %d %s" % (no, len(text) if no == 0 else 0, "".join("%02x" % v for v in out) or "-")


def pattern_of(of, form):
    return lambda b: form % of(b)


SET, LISTS, EXCESSES = (u32, u32), (listed(u32), listed(u32)), (listed(i64),)
REQUESTS = {name: ((b64,), pattern_of(of, "%016x")) for name, of in
            (("abs", numbers.absolute), ("floor", numbers.floor), ("ceil", numbers.ceil), ("round", numbers.half_away))}
REQUESTS |= {
    "widen": ((b32,), pattern_of(numbers.widen, "%016x")), "narrow": ((b64,), narrowed),
    "clip8": ((i32,), lambda n: str(min(max(n, 0), 255))), "filter": ((kind, b64), filtered),
    "crop": ((u32, u32) + (b64,) * 4, lambda w, h, *box: str(weights.crop(w, h, box))),
    "build": ((kind, flag, flag, u32, u32, u32) + (b64,) * 4 + (doubles, lent(), lent()), built),
    "norm16": (SET + (listed(b64),) + LISTS + (lent(), lent()), normalized(22, 15)), "norm32": (SET + (listed(b64),) + LISTS + (lent(), lent()), normalized(46, 31)),
    "u16pass": ((u32,) * 6 + (listed(i32),) + LISTS + EXCESSES + (listed(u16), lent()), passed(frames.u16_pass, "%d")),
    "sideways": ((u32,) * 7 + (listed(i32),) + LISTS + EXCESSES + (listed(u16), lent()), passed(sideways.sideways, "%d")),
    "u8pass": ((u32,) * 6 + (listed(i16),) + LISTS + EXCESSES + (listed(u8), lent()), passed(frames.u8_pass, "%d")),
    "f32pass": ((u32,) * 5 + (listed(b64),) + LISTS + (listed(b32), lent(made=lambda v: numbers.narrow(numbers.pattern(float(v))))), counted),
    "mul8": ((listed(u8), lent()), pixels(frames.multiplied)), "div8": ((listed(u8), lent()), pixels(frames.divided)),
    "mul8in": ((listed(u8),), pixels(frames.multiplied)), "div8in": ((listed(u8),), pixels(frames.divided)),
    "mul16": ((listed(u16), lent()), pixels(frames.multiplied16)), "div16": ((listed(u16), lent()), pixels(frames.divided16)),
    "mul16in": ((listed(u16),), pixels(frames.multiplied16)), "div16in": ((listed(u16),), pixels(frames.divided16)),
    "story": ((u32,) * 4 + (listed(i32),) + LISTS + EXCESSES + (listed(u16), u32, u32, lent(524288)), story),
    "book": ((bytes_of,), lambda text: book.lines(text).hex()),
    "read": ((bytes_of,) + (lent(),) * 4, was_read((16, 32))), "read16": ((bytes_of,) + (lent(),) * 4, was_read((16,))),
}


def values(words, reads):
    """The words as their kinds read them, in their order; the first that is none, is missing or is one too many is bad."""
    made = []
    for at, read in enumerate(reads, 1):
        if at >= len(words):
            raise Bad(at + 1, "a word too few")
        try:
            made.append(read(words[at]))
        except Bad as bad:
            raise Bad(at + 1, *bad.args)
    if len(words) > len(reads) + 1:
        raise Bad(len(reads) + 2, "a word too many")
    if kind in reads and made[0] not in weights.NAMES:
        raise Bad(2, "no filter")
    return made


def by_store(fields, of):
    """A request whose second word is the store; weights of the 16-bit store are an i16 list."""
    def answer(words):
        if words[1:2] not in (["16"], ["32"]):
            values(words[:2], (store,))
        bits = int(words[1])
        return of(*values(words, (lambda word: bits,) + fields(listed(i16 if bits == 16 else i32))))
    return answer


def stored(weight):
    return (u32, u32, u32, weight) + LISTS + EXCESSES


def put_in(held, *a):
    return "%d:%d:%d" % held.put(*a)


def ran(held, *a):
    return "%d:%s" % (held.run(*a), show(a[-1]))


# the calls of a store: what each reads, and what it says
CALLS = {
    "r": ((u32, u32), lambda held, *a: str(held.restart(*a))),
    "p": ((u32, one_of("no filter", *weights.NAMES), flag, flag, u32, u32, u32) + (b64,) * 4, put_in),
    "u": ((u32, u32, u32, u32, listed(u16), lent()), ran),
}


def called(words):
    """All calls are read before the first is made."""
    slots, calls = values(words, (number(0, 131072, "no length up to 131072"), str))
    read = []
    for call in calls.split("/"):
        name, *fields = call.split(":")
        try:
            read.append((CALLS[name][1], values([name] + fields, CALLS[name][0])))
        except (KeyError, Bad):
            raise Bad(3, "no calls of a store")
    held = stores.Store(slots)
    return "/".join(of(held, *made) for of, made in read)


# requests that read their words themselves
WHOLE = {
    "accept": by_store(lambda weight: stored(weight) + (u32, u32) + LISTS + (weight,), accepted),
    "offer": by_store(lambda weight: stored(weight) + (lent(),), offered),
    "store": called,
}


def request(words):
    if words[0] == "fit":
        none = words[5:6] == ["none"]
        made = values(words, (u32,) * 4 + ((str,) if none else (b64, b64)))
        return fitted(*made[:4], None if none else tuple(made[4:]))
    if words[0] == "sheet":
        if words[4:5] not in (["16"], ["32"]):
            values(words[:5], (str, u32, u32, store))
        bits = int(words[4])
        reads = (kind, u32, u32, lambda word: bits, u32, listed(i16 if bits == 16 else i32)) + LISTS + EXCESSES + (lent(524288),)
        return sheet(*values(words, reads))
    if words[0] in WHOLE:
        return WHOLE[words[0]](words)
    if words[0] not in REQUESTS:
        raise Bad(1, "no request")
    reads, of = REQUESTS[words[0]]
    return of(*values(words, reads))


def answer(line):
    if line == "":
        return ""
    try:
        if len(line) > 262143:
            raise Bad(0, "a line too long")
        if line.endswith("\r"):
            raise Bad(0, "a carriage return")
        return request(line.split(" "))
    except Bad as bad:
        return "bad %d %s" % bad.args
