/* Frames of random pixels through mirror_horizontal_u16, and the same frame with rows and columns exchanged through mirror_vertical_u16: each output is the other one exchanged.
 * Beside it a random range of rows, which has to be those rows of the whole, and a random run of the windows, which has to be those columns. Prints its counts; the status is 1 where
 * something differs, or a byte before or behind an output was touched. */
#include <stdint.h>
#include <stdio.h>
#include <stdlib.h>
#include <string.h>
#include "mirror.h"

enum { PIXELS = 48, ROWS = 40, WINDOWS = 24, TAPS = 40, GUARD = 16, SAMPLES = PIXELS * ROWS * 4, PLACES = WINDOWS * ROWS * 4 };

static uint64_t state = 88172645463325252u;

static uint32_t below(uint32_t n)
{
    state ^= state << 13;
    state ^= state >> 7;
    state ^= state << 17;
    return (uint32_t)((state >> 11) % n);
}

static uint16_t guarded[PLACES + 2 * GUARD];

/* An output of n places between guards. */
static uint16_t *lent(size_t n)
{
    memset(guarded, 0xa5, sizeof guarded);
    memset(guarded + GUARD, 0x11, n * sizeof *guarded);
    return guarded + GUARD;
}

static int touched(size_t n)
{
    for (size_t i = 0; i < GUARD; i++)
        if (guarded[i] != 0xa5a5 || guarded[GUARD + n + i] != 0xa5a5)
            return 1;
    return 0;
}

int main(int argc, char **argv)
{
    long frames = argc > 1 ? atol(argv[1]) : 10000, differ = 0, samples = 0, ranges = 0, runs = 0;
    static uint16_t frame[SAMPLES], turned[SAMPLES], whole[PLACES], down[PLACES];
    static int32_t weights[WINDOWS * TAPS];
    static uint32_t starts[WINDOWS], sizes[WINDOWS];
    static int64_t excesses[WINDOWS];
    for (long f = 0; f < frames; f++) {
        uint32_t components = 1 + below(4), pixels = 1 + below(PIXELS), rows = 1 + below(ROWS), windows = 1 + below(WINDOWS);
        uint32_t window = 1 + below(below(4) ? 12 : TAPS), precision = 4 + below(42), top = below(4) ? 65536 : 1 + below(65536), row = pixels * components;
        for (uint32_t i = 0; i < rows * row; i++)
            frame[i] = (uint16_t)below(top);
        for (uint32_t i = 0; i < windows; i++) {
            sizes[i] = 1 + below(window < pixels ? window : pixels);
            starts[i] = below(pixels - sizes[i] + 1);
            excesses[i] = -(INT64_C(1) << precision);
            for (uint32_t k = 0; k < window; k++) {
                int32_t w = (int32_t)(uint32_t)(state >> 17) >> below(32);
                below(2);
                weights[i * window + k] = w;
                if (k < sizes[i])
                    excesses[i] += w;
            }
        }
        for (uint32_t y = 0; y < rows; y++)
            for (uint32_t x = 0; x < pixels; x++)
                for (uint32_t k = 0; k < components; k++)
                    turned[(x * rows + y) * components + k] = frame[y * row + x * components + k];
        size_t all = (size_t)rows * windows * components;
        uint16_t *out = lent(all);
        uint32_t no = mirror_horizontal_u16(frame, rows * row, components, rows, row, 0, rows, weights, windows * window, starts, windows, sizes, windows, excesses, windows,
                                            window, precision, out, all);
        differ += no != MIRROR_DONE || touched(all);
        memcpy(whole, out, all * sizeof *out);
        no = mirror_vertical_u16(turned, rows * row, pixels, rows * components, 0, rows * components, weights, windows * window, starts, windows, sizes, windows, excesses, windows,
                                 window, precision, down, all);
        differ += no != MIRROR_DONE;
        int wrong = 0;
        for (uint32_t y = 0; y < rows; y++)
            for (uint32_t i = 0; i < windows; i++)
                for (uint32_t k = 0; k < components; k++)
                    wrong |= whole[((size_t)y * windows + i) * components + k] != down[((size_t)i * rows + y) * components + k];
        samples += (long)all;
        uint32_t first = below(rows + 1), count = below(rows - first + 1), across = windows * components;
        size_t part = (size_t)count * across;
        out = lent(part);
        no = mirror_horizontal_u16(frame, rows * row, components, rows, row, first, count, weights, windows * window, starts, windows, sizes, windows, excesses, windows, window,
                                   precision, out, part);
        wrong |= no != MIRROR_DONE || touched(part) || memcmp(out, whole + (size_t)first * across, part * sizeof *out);
        ranges++;
        uint32_t a = below(windows), n = 1 + below(windows - a);
        size_t some = (size_t)rows * n * components;
        out = lent(some);
        no = mirror_horizontal_u16(frame, rows * row, components, rows, row, 0, rows, weights + a * window, n * window, starts + a, n, sizes + a, n, excesses + a, n, window,
                                   precision, out, some);
        wrong |= no != MIRROR_DONE || touched(some);
        for (uint32_t y = 0; y < rows; y++)
            wrong |= memcmp(out + (size_t)y * n * components, whole + (size_t)y * across + a * components, n * components * sizeof *out) != 0;
        runs++;
        differ += wrong;
    }
    printf("frames=%ld samples=%ld ranges=%ld runs=%ld differ=%ld\n", frames, samples, ranges, runs, differ);
    return differ != 0;
}
