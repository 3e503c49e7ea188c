/* Functions of numbers: the helpers, the clip, the filters, the crop and the fitting. */
#include <math.h>

#include "check.h"

#define QUIET 0x7ff8000000000000u

static uint64_t rounded(double x)
{
    return mirror_round(to_bits(x));
}

/* the narrowed pattern, and 2^32 more where it is said to be infinite */
static uint64_t narrowed(uint64_t x)
{
    uint32_t infinite = 7, value = mirror_narrow(x, &infinite);
    return (uint64_t)infinite << 32 | value;
}

static void check_helpers(void)
{
    /* row 13: 3, -3, -1 */
    CHECK(rounded(2.5) == to_bits(3) && rounded(-2.5) == to_bits(-3) && rounded(-0.5) == to_bits(-1));
    /* row 14: ties to even */
    CHECK(narrowed(0x3ff0000010000000u) == 0x3f800000 && narrowed(0x3ff0000030000000u) == 0x3f800002);
    CHECK(mirror_floor(to_bits(-0.5)) == to_bits(-1) && mirror_ceil(to_bits(-0.5)) == to_bits(-0.0));
    CHECK(mirror_abs(0xfff0000000000001u) == 0x7ff0000000000001u);
    CHECK(mirror_widen(0x3f800000) == to_bits(1) && mirror_widen(1) == 0x36a0000000000000u);
    /* infinities stay, every NaN is the quiet one, a zero keeps its sign */
    CHECK(mirror_floor(to_bits(INFINITY)) == to_bits(INFINITY) && narrowed(to_bits(1e300)) == 0x17f800000u);
    /* what is infinite: too large from halfway past the largest f32 on, and an infinity handed in */
    CHECK(narrowed(0x47efffffefffffffu) == 0x7f7fffff && narrowed(0x47effffff0000000u) == 0x17f800000u && narrowed(to_bits(-INFINITY)) == 0x1ff800000u);
    CHECK(mirror_floor(0xfff8000000000001u) == QUIET && mirror_ceil(0x7ff0000000000001u) == QUIET && mirror_round(QUIET + 5) == QUIET);
    CHECK(mirror_widen(0xffc00001) == QUIET && narrowed(0xfff8000000000001u) == 0x7fc00000);
    CHECK(mirror_round(to_bits(-0.0)) == to_bits(-0.0) && mirror_round(to_bits(0.0)) == 0);
}

static void check_clip(void)
{
    for (int v = -640; v < 640; v++)
        if (mirror_clip8(v) != (v < 0 ? 0 : v > 255 ? 255 : v))
            CHECK(!"the table's rule");
    CHECK(mirror_clip8(INT32_MIN) == 0 && mirror_clip8(INT32_MAX) == 255);
}

static void check_filters(void)
{
    double w = -1;
    CHECK(mirror_filter(MIRROR_BOX, -0.5, &w) == 0 && w == 0);
    CHECK(mirror_filter(MIRROR_BOX, 0.5, &w) == 0 && w == 1);
    CHECK(mirror_filter(MIRROR_BILINEAR, -0.25, &w) == 0 && w == 0.75);
    CHECK(mirror_filter(MIRROR_CATMULLROM, 1.5, &w) == 0 && w == -0.0625);
    /* no filter reaches an infinity or a NaN: +0 */
    for (uint32_t filter = MIRROR_BOX; filter <= MIRROR_CATMULLROM; filter++) {
        w = -1;
        CHECK(mirror_filter(filter, NAN, &w) == 0 && to_bits(w) == 0);
        w = -1;
        CHECK(mirror_filter(filter, -INFINITY, &w) == 0 && to_bits(w) == 0);
    }
    w = -1;
    CHECK(mirror_filter(MIRROR_MITCHELL, 0, &w) == MIRROR_RETIRED_FILTER && to_bits(w) == 0);
    w = -1;
    CHECK(mirror_filter(MIRROR_MITCHELL, NAN, &w) == MIRROR_RETIRED_FILTER && to_bits(w) == 0);
    w = -1;
    CHECK(mirror_filter(4, 0, &w) == MIRROR_BAD_CODE && to_bits(w) == 0);
    w = -1;
    CHECK(mirror_filter(UINT32_MAX, NAN, &w) == MIRROR_BAD_CODE && to_bits(w) == 0);
}

static void check_crop(void)
{
    CHECK(mirror_crop(10, 20, 0, 0, 10, 20) == MIRROR_DONE && mirror_crop(10, 20, -0.0, 5, 0, -0.0) == MIRROR_DONE);
    CHECK(mirror_crop(8192, 1, 0, 0, 8192, 1) == MIRROR_DONE);
    CHECK(mirror_crop(8193, 1, NAN, 0, 1, 1) == MIRROR_BAD_SIDE && mirror_crop(1, 0, 0, 0, 1, 1) == MIRROR_BAD_SIDE);
    CHECK(mirror_crop(10, 20, 0, 0, INFINITY, -1) == MIRROR_NOT_FINITE && mirror_crop(10, 20, NAN, 0, 1, 1) == MIRROR_NOT_FINITE);
    CHECK(mirror_crop(10, 20, -1, 0, -1e-300, 1) == MIRROR_NEGATIVE_EXTENT && mirror_crop(10, 20, 0, 0, 1, -1) == MIRROR_NEGATIVE_EXTENT);
    CHECK(mirror_crop(10, 20, -1, 0, 100, 1) == MIRROR_START_OUTSIDE && mirror_crop(10, 20, 0, 20, 1, 0) == MIRROR_START_OUTSIDE);
    CHECK(mirror_crop(10, 20, 1, 0, 9.5, 1) == MIRROR_END_OUTSIDE && mirror_crop(10, 20, 0, 19, 1, 2) == MIRROR_END_OUTSIDE);
    CHECK(mirror_crop(1, 1, 0.75, 0, 0.25, 1) == MIRROR_DONE && mirror_crop(1, 1, 0, 0.75, 1, 0.25) == MIRROR_DONE);
    CHECK(mirror_crop(1, 1, 0.75, 0, 0x1.0000000000001p-2, 1) == MIRROR_END_OUTSIDE && mirror_crop(1, 1, 0, 0.75, 1, 0x1.0000000000001p-2) == MIRROR_END_OUTSIDE);
}

static void check_fit(void)
{
    double l, t, w, h;
#define FIT(a, b, c, d, code, x, y) (l = t = w = h = -1, mirror_fit(a, b, c, d, code, x, y, &l, &t, &w, &h))
#define BOX(a, b, c, d) (l == (a) && t == (b) && w == (c) && h == (d))
    CHECK(FIT(200, 100, 100, 100, 0, NAN, NAN) == MIRROR_DONE && BOX(50, 0, 100, 100));
    CHECK(FIT(200, 100, 100, 100, 1, 2, 0) == MIRROR_DONE && BOX(100, 0, 100, 100));
    CHECK(FIT(100, 200, 100, 100, 1, 0, 1) == MIRROR_DONE && BOX(0, 100, 100, 100));
    CHECK(FIT(7, 0, 100, 100, 1, 0, 1) == MIRROR_DONE && BOX(0, 0, 7, 0));
    CHECK(FIT(8193, 0, 1, 1, 1, NAN, 0) == MIRROR_BAD_SIDE && BOX(0, 0, 0, 0));
    CHECK(FIT(1, 0, 1, 1, 1, INFINITY, 0) == MIRROR_NOT_FINITE && BOX(0, 0, 0, 0));
    CHECK(FIT(8193, 1, 1, 1, 2, 0, 0) == MIRROR_BAD_CODE && BOX(0, 0, 0, 0));
}

void check_numbers(void)
{
    check_helpers();
    check_clip();
    check_filters();
}

void check_crops(void)
{
    check_crop();
    check_fit();
}
