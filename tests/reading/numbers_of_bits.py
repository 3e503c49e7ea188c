"""Number helpers on bit patterns, in exact integers. A pattern is an int; `double` and `pattern` go between it and Python's float."""
import struct

NAN64, NAN32 = 0x7FF8000000000000, 0x7FC00000


def double(b):
    return struct.unpack("<d", struct.pack("<Q", b))[0]


def pattern(x):
    return struct.unpack("<Q", struct.pack("<d", x))[0]


def finite(b):
    return b >> 52 & 0x7FF != 0x7FF


def finite32(b):
    return b >> 23 & 0xFF != 0xFF


def parts(b):
    """Sign, size and exponent: the value is size x 2^exponent. For finite patterns."""
    e, f = b >> 52 & 0x7FF, b % 2**52
    return b >> 63, f | (2**52 if e else 0), max(e, 1) - 1075


def whole(b, up):
    """A pattern rounded to a whole number: `up` says, from sign, rest and divisor, whether the size goes up. A zero keeps its sign."""
    if not finite(b):
        return NAN64 if b % 2**52 else b
    sign, size, e = parts(b)
    if e >= 0:
        return b
    q, r = divmod(size, 2**-e)
    return sign << 63 | pattern(float(q + (1 if up(sign, r, 2**-e) else 0)))


def absolute(b):
    return b % 2**63


def floor(b):
    return whole(b, lambda sign, r, d: sign and r)


def ceil(b):
    return whole(b, lambda sign, r, d: not sign and r)


def half_away(b):
    return whole(b, lambda sign, r, d: 2 * r >= d)


def widen(b):
    sign, e, f = b >> 31, b >> 23 & 0xFF, b % 2**23
    if e == 0xFF:
        return NAN64 if f else sign << 63 | 0x7FF0000000000000
    return sign << 63 | pattern((f | (2**23 if e else 0)) * 2.0 ** (max(e, 1) - 150))


def narrow(b):
    """The nearest f32, a tie to the even one, infinity where too large."""
    if not finite(b):
        return NAN32 if b % 2**52 else b >> 63 << 31 | 0x7F800000
    sign, size, e = parts(b)
    if size == 0:
        return sign << 31
    last = max(-149, size.bit_length() + e - 24)  # the exponent of the result's last place
    if last <= e:
        n = size << e - last
    else:
        d = 2 ** (last - e)
        n, r = divmod(size, d)
        n += 2 * r > d or (2 * r == d and n % 2)
    if n == 2**24:
        n, last = 2**23, last + 1
    if n < 2**23:
        return sign << 31 | n
    return sign << 31 | (0x7F800000 if last + 150 >= 255 else last + 150 << 23 | n - 2**23)
