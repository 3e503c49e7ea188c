"""The pass along the rows (W-214): the u16 pass on the frame with rows and columns exchanged, for 1 to 4 components a pixel.

Written from document 02, the decisions on its open points and the protocol alone."""
import frames


def sideways(components, rows, row, first, count, window, precision, ws, starts, sizes, excesses, samples, out):
    if not 1 <= components <= 4 or row % components:
        return 1
    pixels, windows = row // components, len(starts)
    no = frames.shape(pixels, rows * components, first * components, count * components, window, len(ws), starts, sizes, len(samples), len(out))
    if no or not frames.stored(45, pixels, window, precision, ws, starts, sizes, excesses):
        return no or 10
    half = 2 ** (precision - 1)
    for y in range(count):
        for i in range(windows):
            for k in range(components):
                total = sum(ws[i * window + n] * samples[(first + y) * row + (starts[i] + n) * components + k] for n in range(sizes[i]))
                out[(y * windows + i) * components + k] = min(max((total + half) // 2**precision, 0), 65535)
    return 0
