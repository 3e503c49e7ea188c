/* Functions over frames: the two passes and alpha. */
#include <math.h>

#include "check.h"

static const uint32_t nought[] = {0}, ones[] = {1}, twos[] = {2}, threes[] = {3};
static const int64_t even[] = {0, 0}, odd[] = {1}; /* the excess of every window here but the heavy ones is 0 */

/* One column of a window with precision 4. */
static int column16(const int32_t *weights, const uint32_t *size, const uint16_t *samples)
{
    LENT(uint16_t, out, 1);
    uint32_t n = *size, no = mirror_vertical_u16(samples, n, n, 1, 0, 1, weights, n, nought, 1, size, 1, even, 1, n, 4, LIST(out));
    CHECK(no == MIRROR_DONE && KEPT_FROM(out, 1));
    return out.at[0];
}

static void check_u16(void)
{
    static const int32_t sharp[] = {-4, 24, -4}, halves[] = {8, 8};
    static const uint16_t edge[] = {100, 200, 100}, low[] = {65535, 0, 65535}, high[] = {0, 65535, 0}, left[] = {1, 0}, right[] = {0, 1}, both[] = {1, 1};
    static const uint16_t frame[] = {1, 2, 3, 5, 6, 7};
    /* rows 10, 11 and 12 */
    CHECK(column16(sharp, threes, edge) == 250);
    CHECK(column16(sharp, threes, low) == 0 && column16(sharp, threes, high) == 65535);
    CHECK(column16(halves, twos, left) == 1 && column16(halves, twos, right) == 1 && column16(halves, twos, both) == 1);
    /* a range of columns gives those columns of the whole */
    LENT(uint16_t, whole, 3);
    LENT(uint16_t, part, 2);
    CHECK(mirror_vertical_u16(frame, 6, 2, 3, 0, 3, halves, 2, nought, 1, twos, 1, even, 1, 2, 4, LIST(whole)) == MIRROR_DONE);
    CHECK(mirror_vertical_u16(frame, 6, 2, 3, 1, 2, halves, 2, nought, 1, twos, 1, even, 1, 2, 4, LIST(part)) == MIRROR_DONE);
    CHECK(whole.at[0] == 3 && whole.at[1] == 4 && whole.at[2] == 5 && part.at[0] == 4 && part.at[1] == 5 && KEPT_FROM(whole, 3) && KEPT_FROM(part, 2));
    memset(&part, FILL, sizeof part);
#define REFUSED16(number, src, lines, row, first, count, slots, starts, sizes, window, precision, room)                                            \
    CHECK(mirror_vertical_u16(frame, src, lines, row, first, count, halves, slots, starts, 1, sizes, 1, even, 1, window, precision, part.at, room) == (number) && \
          UNCHANGED(part))
    REFUSED16(MIRROR_DONE, 6, 2, 3, 3, 0, 2, nought, twos, 2, 4, 0);
    REFUSED16(MIRROR_BAD_SIDE, 6, 0, 3, 0, 2, 2, nought, twos, 2, 4, 2);
    REFUSED16(MIRROR_BAD_SIDE, 6, 2, 32769, 0, 2, 2, nought, twos, 2, 4, 2);
    REFUSED16(MIRROR_DOES_NOT_FIT, 5, 2, 3, 0, 2, 2, nought, twos, 2, 4, 2);
    REFUSED16(MIRROR_DOES_NOT_FIT, 6, 2, 3, 2, 2, 2, nought, twos, 2, 4, 2);
    REFUSED16(MIRROR_DOES_NOT_FIT, 6, 2, 3, UINT32_MAX, 2, 2, nought, twos, 2, 4, 2);
    REFUSED16(MIRROR_DOES_NOT_FIT, 6, 2, 3, 0, 2, 2, nought, twos, 2, 4, 1);
    REFUSED16(MIRROR_DOES_NOT_FIT, 6, 2, 3, 0, 2, 2, ones, twos, 2, 4, 2);
    REFUSED16(MIRROR_DOES_NOT_FIT, 6, 2, 3, 0, 2, 2, nought, threes, 2, 4, 2);
    REFUSED16(MIRROR_DOES_NOT_FIT, 6, 2, 3, 0, 2, 1, nought, twos, 2, 4, 2);
    REFUSED16(MIRROR_DOES_NOT_FIT, 6, 2, 3, 0, 2, 2, nought, twos, 2, 3, 2);
    REFUSED16(MIRROR_DOES_NOT_FIT, 6, 2, 3, 0, 2, 2, nought, twos, 2, 46, 2);
    /* a wrong excess, none, and one too many */
#define EXCESS16(excesses, n) mirror_vertical_u16(frame, 6, 2, 3, 0, 2, halves, 2, nought, 1, twos, 1, excesses, n, 2, 4, LIST(part))
    CHECK(EXCESS16(odd, 1) == MIRROR_DOES_NOT_FIT && EXCESS16(even, 0) == MIRROR_DOES_NOT_FIT && EXCESS16(even, 2) == MIRROR_DOES_NOT_FIT && UNCHANGED(part));
}

static void check_sideways(void)
{
    static const int32_t weights[] = {8, 8, -4, 20};
    static const uint32_t starts[] = {0, 1}, sizes[] = {2, 2};
    static const uint16_t frame[] = {1, 2, 30, 40, 500, 600, 7, 8, 90, 100, 1100, 1200}, first[] = {16, 21, 618, 740}, second[] = {49, 54, 1353, 1475};
    LENT(uint16_t, whole, 8);
    LENT(uint16_t, part, 4);
#define SIDEWAYS(src, components, rows, row, first, count, slots, excesses, n, precision, ...) \
    mirror_horizontal_u16(frame, src, components, rows, row, first, count, weights, slots, starts, 2, sizes, 2, excesses, n, 2, precision, __VA_ARGS__)
    /* row by row, pixel by pixel; a range of rows gives those rows of the whole */
    CHECK(SIDEWAYS(12, 2, 2, 6, 0, 2, 4, even, 2, 4, LIST(whole)) == MIRROR_DONE && KEPT_FROM(whole, 8));
    CHECK(memcmp(whole.at, first, sizeof first) == 0 && memcmp(whole.at + 4, second, sizeof second) == 0);
    CHECK(SIDEWAYS(12, 2, 2, 6, 1, 1, 4, even, 2, 4, LIST(part)) == MIRROR_DONE && memcmp(part.at, second, sizeof second) == 0 && KEPT_FROM(part, 4));
    memset(&part, FILL, sizeof part);
#define REFUSED_SIDEWAYS(number, src, components, rows, row, first, count, slots, precision, room) \
    CHECK(SIDEWAYS(src, components, rows, row, first, count, slots, even, 2, precision, part.at, room) == (number) && UNCHANGED(part))
    REFUSED_SIDEWAYS(MIRROR_DONE, 12, 2, 2, 6, 2, 0, 4, 4, 0);
    REFUSED_SIDEWAYS(MIRROR_BAD_SIDE, 12, 0, 2, 6, 1, 1, 4, 4, 4);
    REFUSED_SIDEWAYS(MIRROR_BAD_SIDE, 12, 5, 2, 6, 1, 1, 4, 4, 4);
    REFUSED_SIDEWAYS(MIRROR_BAD_SIDE, 12, 4, 2, 6, 1, 1, 4, 4, 4);
    REFUSED_SIDEWAYS(MIRROR_BAD_SIDE, 12, 2, 0, 6, 1, 1, 4, 4, 4);
    REFUSED_SIDEWAYS(MIRROR_BAD_SIDE, 12, 2, 16385, 6, 1, 1, 4, 4, 4);
    REFUSED_SIDEWAYS(MIRROR_BAD_SIDE, 12, 2, UINT32_MAX, 6, 1, 1, 4, 4, 4);
    REFUSED_SIDEWAYS(MIRROR_DOES_NOT_FIT, 11, 2, 2, 6, 1, 1, 4, 4, 4);
    REFUSED_SIDEWAYS(MIRROR_DOES_NOT_FIT, 12, 2, 2, 6, 2, 1, 4, 4, 4);
    REFUSED_SIDEWAYS(MIRROR_DOES_NOT_FIT, 12, 2, 2, 6, UINT32_MAX, 1, 4, 4, 4);
    REFUSED_SIDEWAYS(MIRROR_DOES_NOT_FIT, 12, 2, 2, 6, 0, UINT32_MAX, 4, 4, 4);
    REFUSED_SIDEWAYS(MIRROR_DOES_NOT_FIT, 12, 2, 2, 6, 1, 1, 3, 4, 4);
    REFUSED_SIDEWAYS(MIRROR_DOES_NOT_FIT, 12, 2, 2, 6, 1, 1, 4, 46, 4);
    REFUSED_SIDEWAYS(MIRROR_DOES_NOT_FIT, 12, 2, 2, 6, 1, 1, 4, 4, 3);
    CHECK(SIDEWAYS(12, 2, 2, 6, 1, 1, 4, even, 1, 4, LIST(part)) == MIRROR_DOES_NOT_FIT && UNCHANGED(part));
}

static void check_u8(void)
{
    static const int16_t sharp[] = {-4, 24, -4}, halves[] = {8, 8};
    static const uint8_t edge[] = {100, 200, 100}, low[] = {255, 0, 255}, high[] = {0, 255, 0}, frame[] = {1, 2, 3, 5, 6, 7};
    LENT(uint8_t, out, 1);
#define COLUMN8(samples) (mirror_vertical_u8(samples, 3, 3, 1, 0, 1, sharp, 3, nought, 1, threes, 1, even, 1, 3, 4, LIST(out)) == MIRROR_DONE ? out.at[0] : -1)
    CHECK(COLUMN8(edge) == 250 && COLUMN8(low) == 0 && COLUMN8(high) == 255 && KEPT_FROM(out, 1));
    /* a range of columns gives those columns of the whole */
    LENT(uint8_t, whole, 3);
    LENT(uint8_t, part, 2);
    CHECK(mirror_vertical_u8(frame, 6, 2, 3, 0, 3, halves, 2, nought, 1, twos, 1, even, 1, 2, 4, LIST(whole)) == MIRROR_DONE);
    CHECK(mirror_vertical_u8(frame, 6, 2, 3, 1, 2, halves, 2, nought, 1, twos, 1, even, 1, 2, 4, LIST(part)) == MIRROR_DONE);
    CHECK(whole.at[0] == 3 && whole.at[1] == 4 && whole.at[2] == 5 && part.at[0] == 4 && part.at[1] == 5 && KEPT_FROM(whole, 3) && KEPT_FROM(part, 2));
    memset(&part, FILL, sizeof part);
#define REFUSED8(number, src, lines, first, slots, precision, room) \
    CHECK(mirror_vertical_u8(frame, src, lines, 3, first, 2, halves, slots, nought, 1, twos, 1, even, 1, 2, precision, part.at, room) == (number) && UNCHANGED(part))
    REFUSED8(MIRROR_BAD_SIDE, 6, 0, 0, 2, 4, 2);
    REFUSED8(MIRROR_DOES_NOT_FIT, 5, 2, 0, 2, 4, 2);
    REFUSED8(MIRROR_DOES_NOT_FIT, 6, 2, 2, 2, 4, 2);
    REFUSED8(MIRROR_DOES_NOT_FIT, 6, 2, 0, 1, 4, 2);
    REFUSED8(MIRROR_DOES_NOT_FIT, 6, 2, 0, 2, 3, 2);
    REFUSED8(MIRROR_DOES_NOT_FIT, 6, 2, 0, 2, 22, 2);
    REFUSED8(MIRROR_DOES_NOT_FIT, 6, 2, 0, 2, 4, 1);
#define EXCESS8(excesses, n) mirror_vertical_u8(frame, 6, 2, 3, 0, 2, halves, 2, nought, 1, twos, 1, excesses, n, 2, 4, LIST(part))
    CHECK(EXCESS8(odd, 1) == MIRROR_DOES_NOT_FIT && EXCESS8(even, 0) == MIRROR_DOES_NOT_FIT && EXCESS8(even, 2) == MIRROR_DOES_NOT_FIT && UNCHANGED(part));
    /* 257 weights of -32768: 255 x 257 x 32768 is 2^31 - 32768; both ends of i32; 10 before 9 */
    static int16_t heavy[257];
    static uint8_t bright[257];
    uint32_t n = 257;
    for (int i = 0; i < 257; i++)
        heavy[i] = -32768, bright[i] = 255;
    for (uint32_t p = 3; p <= 22; p++) {
        LENT(uint8_t, one, 1);
        int64_t over = -32768 * 257 - (1 << p), beside = over + 1;
        uint32_t no = mirror_vertical_u8(bright, n, n, 1, 0, 1, heavy, n, nought, 1, &n, 1, &over, 1, n, p, LIST(one));
        CHECK(no == (p < 4 || p > 21 ? MIRROR_DOES_NOT_FIT : p > 15 ? MIRROR_WEIGHT_OUTSIDE : MIRROR_DONE));
        CHECK(no == MIRROR_DONE ? one.at[0] == 0 && KEPT_FROM(one, 1) : UNCHANGED(one));
        CHECK(mirror_vertical_u8(bright, n, n, 1, 0, 1, heavy, n, nought, 1, &n, 1, &beside, 1, n, p, LIST(one)) == MIRROR_DOES_NOT_FIT);
    }
    for (int i = 0; i < 257; i++)
        heavy[i] = 32767;
    int64_t over = 32767 * 257 - (1 << 15);
    CHECK(mirror_vertical_u8(bright, n, n, 1, 0, 1, heavy, n, nought, 1, &n, 1, &over, 1, n, 15, LIST(out)) == MIRROR_DONE && out.at[0] == 255);
}

static void check_f32(void)
{
    static const double halves[] = {0.5, 0.5}, heavy[] = {0x1p65, 0}, largest[] = {0x1p64, 0}, broken[] = {0.5, NAN};
    static const float frame[] = {1, 2, 3, 4}, spoilt[] = {1, INFINITY, 3, 4}, bright[] = {0x1p64f, -0x1p127f, 3, 4};
    LENT(float, out, 2);
    uint32_t infinite = 7;
#define F32(src, src_len, lines, row, first, count, weights, sizes, room) \
    mirror_vertical_f32(src, src_len, lines, row, first, count, weights, 2, nought, 1, sizes, 1, 2, out.at, room, &infinite)
    CHECK(F32(frame, 4, 2, 2, 0, 2, halves, twos, 2) == MIRROR_DONE && out.at[0] == 2 && out.at[1] == 3 && infinite == 0 && KEPT_FROM(out, 2));
    /* what is not in use is not looked at: column 1, and the second slot */
    CHECK(F32(spoilt, 4, 2, 2, 0, 1, halves, twos, 1) == MIRROR_DONE && out.at[0] == 2 && KEPT_FROM(out, 2) == 1);
    CHECK(F32(frame, 4, 2, 2, 0, 2, broken, ones, 2) == MIRROR_DONE && out.at[0] == 0.5f && out.at[1] == 1);
    CHECK(F32(frame, 4, 2, 2, 0, 2, largest, twos, 2) == MIRROR_DONE && out.at[0] == 0x1p64f);
    /* how many of the written samples are infinite: of the range alone, of either sign; a refusal writes none */
    CHECK(F32(bright, 4, 2, 2, 0, 2, largest, twos, 2) == MIRROR_DONE && out.at[0] == INFINITY && out.at[1] == -INFINITY && infinite == 2);
    CHECK(F32(bright, 4, 2, 2, 1, 1, largest, twos, 1) == MIRROR_DONE && out.at[0] == -INFINITY && infinite == 1);
    CHECK(F32(bright, 4, 2, 2, 0, 2, heavy, twos, 2) == MIRROR_SAMPLE_OUTSIDE && infinite == 0);
    memset(&out, FILL, sizeof out);
    CHECK(F32(frame, 4, 8193, 2, 0, 2, halves, twos, 2) == MIRROR_BAD_SIDE && UNCHANGED(out));
    CHECK(F32(frame, 4, 2, 0, 0, 0, halves, twos, 0) == MIRROR_BAD_SIDE && UNCHANGED(out));
    CHECK(F32(frame, 3, 2, 2, 0, 2, broken, twos, 2) == MIRROR_DOES_NOT_FIT && UNCHANGED(out));
    CHECK(F32(spoilt, 4, 2, 2, 0, 2, halves, twos, 2) == MIRROR_SAMPLE_OUTSIDE && UNCHANGED(out));
    CHECK(F32(frame, 4, 2, 2, 0, 2, broken, twos, 2) == MIRROR_SAMPLE_OUTSIDE && UNCHANGED(out));
    CHECK(F32(frame, 4, 2, 2, 0, 2, heavy, twos, 2) == MIRROR_SAMPLE_OUTSIDE && UNCHANGED(out));
    /* a refused output keeps the bits of the NaNs in it; so does what lies past an output */
    float many[9];
    FILL_NANS(many, 9);
#define NANS32(lines, weights, room) mirror_vertical_f32(frame, 4, lines, 2, 0, 2, weights, 2, nought, 1, twos, 1, 2, many, room, &infinite)
    CHECK(NANS32(0, halves, 9) == MIRROR_BAD_SIDE && NANS32(2, halves, 9) == MIRROR_DOES_NOT_FIT && STILL_NANS(many, 9));
    CHECK(NANS32(2, broken, 2) == MIRROR_SAMPLE_OUTSIDE && STILL_NANS(many, 9));
    CHECK(NANS32(2, halves, 2) == MIRROR_DONE && many[0] == 2 && many[1] == 3);
    FILL_NANS(many, 2);
    CHECK(STILL_NANS(many, 9));
}

void check_passes(void)
{
    check_u16();
    check_sideways();
    check_u8();
    check_f32();
}

/* A colour with an alpha, by both forms of the function. */
static int applied(uint32_t (*two)(const uint8_t *, size_t, uint8_t *, size_t), uint32_t (*in_place)(uint8_t *, size_t), uint8_t colour, uint8_t alpha)
{
    const uint8_t src[] = {colour, 0, colour, alpha};
    LENT(uint8_t, dst, 4);
    CHECK(two(src, 4, LIST(dst)) == MIRROR_DONE && dst.at[1] == 0 && dst.at[2] == dst.at[0] && dst.at[3] == alpha && KEPT_FROM(dst, 4));
    LENT(uint8_t, own, 4);
    memcpy(own.at, src, 4);
    CHECK(in_place(LIST(own)) == MIRROR_DONE && memcmp(own.at, dst.at, 4) == 0 && KEPT_FROM(own, 4));
    return dst.at[0];
}

/* The same, 16 bits. */
static int applied16(uint32_t (*two)(const uint16_t *, size_t, uint16_t *, size_t), uint32_t (*in_place)(uint16_t *, size_t), uint16_t colour, uint16_t alpha)
{
    const uint16_t src[] = {colour, 0, colour, alpha};
    LENT(uint16_t, dst, 4);
    CHECK(two(src, 4, LIST(dst)) == MIRROR_DONE && dst.at[1] == 0 && dst.at[2] == dst.at[0] && dst.at[3] == alpha && KEPT_FROM(dst, 4));
    LENT(uint16_t, own, 4);
    memcpy(own.at, src, 8);
    CHECK(in_place(LIST(own)) == MIRROR_DONE && memcmp(own.at, dst.at, 8) == 0 && KEPT_FROM(own, 4));
    return dst.at[0];
}

static void check_alpha16(void)
{
#define MULTIPLIED16(colour, alpha) applied16(mirror_multiply_u16x4, mirror_multiply_u16x4_inplace, colour, alpha)
#define DIVIDED16(colour, alpha) applied16(mirror_divide_u16x4, mirror_divide_u16x4_inplace, colour, alpha)
    CHECK(MULTIPLIED16(32768, 32768) == 16384 && MULTIPLIED16(65535, 65535) == 65535 && MULTIPLIED16(65535, 0) == 0);
    /* the halves go either way; the Rust's one wrong pair; an opaque pixel keeps its colours */
    CHECK(DIVIDED16(1, 2) == 32768 && DIVIDED16(13, 26) == 32767 && DIVIDED16(32769, 1) == 65535 && DIVIDED16(200, 0) == 0 && DIVIDED16(12345, 65535) == 12345);
    const uint16_t src[8] = {1, 2, 3, 4, 5, 6, 7, 8};
    LENT(uint16_t, dst, 8);
    CHECK(mirror_multiply_u16x4(src, 4, dst.at, 8) == MIRROR_DOES_NOT_FIT && mirror_divide_u16x4(src, 8, dst.at, 4) == MIRROR_DOES_NOT_FIT && UNCHANGED(dst));
    CHECK(mirror_multiply_u16x4(src, 7, dst.at, 7) == MIRROR_DOES_NOT_FIT && mirror_divide_u16x4(src, 7, dst.at, 7) == MIRROR_DOES_NOT_FIT && UNCHANGED(dst));
    CHECK(mirror_multiply_u16x4_inplace(dst.at, 6) == MIRROR_DOES_NOT_FIT && mirror_divide_u16x4_inplace(dst.at, 5) == MIRROR_DOES_NOT_FIT && UNCHANGED(dst));
    CHECK(mirror_multiply_u16x4(src, 0, dst.at, 0) == MIRROR_DONE && mirror_divide_u16x4_inplace(dst.at, 0) == MIRROR_DONE && UNCHANGED(dst));
}

void check_alpha(void)
{
#define MULTIPLIED(colour, alpha) applied(mirror_multiply_u8x4, mirror_multiply_u8x4_inplace, colour, alpha)
#define DIVIDED(colour, alpha) applied(mirror_divide_u8x4, mirror_divide_u8x4_inplace, colour, alpha)
    /* rows 1 to 6 */
    CHECK(MULTIPLIED(128, 128) == 64 && MULTIPLIED(193, 253) == 191 && DIVIDED(191, 253) == 192 && MULTIPLIED(192, 253) == 190);
    CHECK(DIVIDED(200, 0) == 0 && DIVIDED(200, 100) == 255 && DIVIDED(50, 100) == 128);
    const uint8_t src[8] = {1, 2, 3, 4, 5, 6, 7, 8};
    LENT(uint8_t, dst, 8);
    CHECK(mirror_multiply_u8x4(src, 4, dst.at, 8) == MIRROR_DOES_NOT_FIT && mirror_divide_u8x4(src, 8, dst.at, 4) == MIRROR_DOES_NOT_FIT && UNCHANGED(dst));
    CHECK(mirror_multiply_u8x4(src, 7, dst.at, 7) == MIRROR_DOES_NOT_FIT && mirror_divide_u8x4(src, 7, dst.at, 7) == MIRROR_DOES_NOT_FIT && UNCHANGED(dst));
    CHECK(mirror_multiply_u8x4_inplace(dst.at, 6) == MIRROR_DOES_NOT_FIT && mirror_divide_u8x4_inplace(dst.at, 5) == MIRROR_DOES_NOT_FIT && UNCHANGED(dst));
    CHECK(mirror_multiply_u8x4(src, 0, dst.at, 0) == MIRROR_DONE && mirror_divide_u8x4_inplace(dst.at, 0) == MIRROR_DONE && UNCHANGED(dst));
    check_alpha16();
}
