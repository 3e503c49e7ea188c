"""Passes over raw files, read a second time: a sheet's text and a frame's bytes in, the bytes that a pass writes out. The rules themselves are those of tests/reading."""
import os
import struct
import sys
from importlib.machinery import SourceFileLoader

TESTS = os.path.join(os.path.dirname(os.path.abspath(__file__)), "..")
sys.path.insert(0, os.path.join(TESTS, "reading"))
import frames  # noqa: E402
import reader  # noqa: E402

command = SourceFileLoader("differential", os.path.join(TESTS, "differential", "run")).load_module().command


def samples_of(raw, wide):
    return list(struct.unpack("<%dH" % (len(raw) // 2), raw)) if wide else list(raw)


def bytes_of(samples, wide):
    return struct.pack("<%dH" % len(samples), *samples) if wide else bytes(samples)


def sheet(text, wide):
    """Lines, window size and the stored set; the u8 pass takes sheets of the 16-bit store alone."""
    (_, lines, windows, window), (_, precision, starts, sizes, rows, excesses), at = reader.one(text, 0, (16, 32) if wide else (16,))
    assert at == len(text)
    weights = [w for row in rows for w in row + [0] * (window - len(row))]
    return lines, window, precision, weights, starts, sizes, excesses


def resampled(text, raw, first=0, count=None, wide=True):
    """The number of the pass over the columns asked for, all where none are, and the bytes that it writes."""
    lines, window, precision, weights, starts, sizes, excesses = sheet(text, wide)
    samples = samples_of(raw, wide)
    row = len(samples) // lines
    count = row if count is None else count
    out = [0] * (len(starts) * count)
    one = frames.u16_pass if wide else frames.u8_pass
    number = one(lines, row, first, count, window, precision, weights, starts, sizes, excesses, samples, out)
    return number, bytes_of(out, wide)


def compared(a, b, row, wide=True):
    """How many samples differ, and the first one's line, column and values."""
    pairs = list(zip(samples_of(a, wide), samples_of(b, wide)))
    places = [k for k, (x, y) in enumerate(pairs) if x != y]
    return (len(places), places[0] // row, places[0] % row, *pairs[places[0]]) if places else (0,)


def picture(lines, row):
    """The frame of the demo: a ramp, bars, a ramp across and noise, side by side, with a grain."""
    seed, out = 20210, []
    for i in range(lines):
        for j in range(row):
            seed = (seed * 1103515245 + 12345) % 2**31
            noise = seed // 2**15
            plain = (i * 65535 // lines, 62000 if i // 12 % 2 else 3000, (i * 31 + j * 97) % 65536, noise)[j * 4 // row]
            out.append((plain * 63 + noise) // 64)
    return bytes_of(out, True)
