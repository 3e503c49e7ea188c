/* Functions that make weight sets: the builder and the normalisers. */
#include <math.h>

#include "check.h"

/* The builder on an image of side x 1 and a crop of its width. */
static uint32_t built(uint32_t side, double left, double width, uint32_t out, uint32_t filter, double *weights, size_t slots, uint32_t *starts,
                      size_t starts_len, uint32_t *sizes, size_t sizes_len, uint32_t *window, uint32_t *line)
{
    *window = *line = 77;
    return mirror_weights(side, 1, left, 0, width, 1, MIRROR_HORIZONTAL, out, filter, 1, weights, slots, starts, starts_len, sizes, sizes_len,
                          window, line);
}

/* Side 4, crop 0 to 4, output 2, Box, adapting: the set of 01's sheet. */
static void check_example(void)
{
    LENT(double, weights, 8);
    LENT(uint32_t, starts, 3);
    LENT(uint32_t, sizes, 3);
    uint32_t window, line;
    CHECK(built(4, 0, 4, 2, MIRROR_BOX, LIST(weights), LIST(starts), LIST(sizes), &window, &line) == MIRROR_DONE && window == 3 && line == 0);
    CHECK(weights.at[0] == 0.5 && weights.at[1] == 0.5 && weights.at[2] == 0 && weights.at[3] == 0.5 && weights.at[4] == 0.5 && weights.at[5] == 0);
    CHECK(starts.at[0] == 0 && starts.at[1] == 2 && sizes.at[0] == 2 && sizes.at[1] == 2);
    CHECK(KEPT_FROM(weights, 6) && KEPT_FROM(starts, 2) && KEPT_FROM(sizes, 2));
}

/* Side 1, left 1 - 2^-53, width 2^-53: a blank window for Box, none for Bilinear. */
static void check_blank(void)
{
    LENT(double, weights, 4);
    LENT(uint32_t, starts, 2);
    LENT(uint32_t, sizes, 2);
    uint32_t window, line;
    double left = 1 - 0x1p-53, width = 0x1p-53;
    CHECK(built(1, left, width, 1, MIRROR_BOX, LIST(weights), LIST(starts), LIST(sizes), &window, &line) == MIRROR_BLANK_WINDOW);
    CHECK(window == 0 && line == 0 && starts.at[0] == 0 && sizes.at[0] == 0);
    CHECK(to_bits(weights.at[0]) == 0 && to_bits(weights.at[1]) == 0 && to_bits(weights.at[2]) == 0);
    CHECK(KEPT_FROM(weights, 3) && KEPT_FROM(starts, 1) && KEPT_FROM(sizes, 1));
    CHECK(built(1, left, width, 1, MIRROR_BILINEAR, LIST(weights), LIST(starts), LIST(sizes), &window, &line) == MIRROR_DONE && window == 3);
    CHECK(KEPT_FROM(weights, 3) && KEPT_FROM(starts, 1) && KEPT_FROM(sizes, 1));
}

/* A request that is right but for its filter. */
static void check_retired(void)
{
    LENT(double, weights, 10);
    LENT(uint32_t, starts, 2);
    LENT(uint32_t, sizes, 2);
    uint32_t window, line;
    CHECK(built(2, 0, 2, 2, MIRROR_MITCHELL, LIST(weights), LIST(starts), LIST(sizes), &window, &line) == MIRROR_RETIRED_FILTER);
    CHECK(window == 0 && line == 0 && UNCHANGED(weights) && UNCHANGED(starts) && UNCHANGED(sizes));
    CHECK(built(2, 0, 2, 2, MIRROR_CATMULLROM, LIST(weights), LIST(starts), LIST(sizes), &window, &line) == MIRROR_DONE && window == 5);
}

static void check_refusals(void)
{
    LENT(double, weights, 6);
    LENT(uint32_t, starts, 2);
    LENT(uint32_t, sizes, 2);
    uint32_t window, line;
#define REFUSED(number, side, left, width, out, slots, first, second)                                                                    \
    CHECK(built(side, left, width, out, MIRROR_BOX, weights.at, slots, starts.at, first, sizes.at, second, &window, &line) == (number) && \
          window == 0 && line == 0 && UNCHANGED(weights) && UNCHANGED(starts) && UNCHANGED(sizes))
    REFUSED(MIRROR_BAD_SIDE, 4, NAN, 4, 0, 6, 2, 2);
    REFUSED(MIRROR_BAD_SIDE, 4, 0, 4, 8193, 6, 2, 2);
    REFUSED(MIRROR_BAD_SIDE, 8193, 0, 4, 2, 6, 2, 2);
    REFUSED(MIRROR_NOT_FINITE, 4, NAN, 4, 2, 6, 2, 2);
    REFUSED(MIRROR_NEGATIVE_EXTENT, 4, 0, -1, 2, 6, 2, 2);
    REFUSED(MIRROR_START_OUTSIDE, 4, 4, 0, 2, 6, 2, 2);
    REFUSED(MIRROR_END_OUTSIDE, 4, 1, 4, 2, 6, 2, 2);
    REFUSED(MIRROR_NO_SCALE, 4, 1, 0, 2, 0, 0, 0);
    REFUSED(MIRROR_TOO_FEW_SLOTS, 4, 0, 4, 2, 5, 2, 2);
    REFUSED(MIRROR_TOO_FEW_SLOTS, 4, 0, 4, 2, 6, 1, 2);
    REFUSED(MIRROR_TOO_FEW_SLOTS, 4, 0, 4, 2, 6, 2, 1);
    REFUSED(MIRROR_TOO_FEW_SLOTS, 4, 0, 4, 8192, 6, 2, 2);
#define CODES(number, axis, filter, adapts)                                                                                                    \
    window = line = 77;                                                                                                                        \
    CHECK(mirror_weights(0, 0, NAN, 0, 0, 0, axis, 0, filter, adapts, LIST(weights), LIST(starts), LIST(sizes), &window, &line) ==            \
              (number) && window == 0 && line == 0 && UNCHANGED(weights) && UNCHANGED(starts) && UNCHANGED(sizes))
    CODES(MIRROR_BAD_CODE, 2, 0, 0);
    CODES(MIRROR_BAD_CODE, 0, 4, 0);
    CODES(MIRROR_BAD_CODE, 1, 2, 2);
    CODES(MIRROR_BAD_CODE, UINT32_MAX, UINT32_MAX, UINT32_MAX);
    /* the retired filter before everything else, codes that name nothing included */
    CODES(MIRROR_RETIRED_FILTER, 0, MIRROR_MITCHELL, 0);
    CODES(MIRROR_RETIRED_FILTER, 2, MIRROR_MITCHELL, UINT32_MAX);
}

/* Down the image, and the kernel that does not adapt. */
static void check_choices(void)
{
    LENT(double, weights, 3);
    LENT(uint32_t, starts, 1);
    LENT(uint32_t, sizes, 1);
    uint32_t window, line;
    CHECK(mirror_weights(1, 4, 0, 0, 1, 4, MIRROR_VERTICAL, 1, MIRROR_BOX, 0, LIST(weights), LIST(starts), LIST(sizes), &window, &line) == MIRROR_DONE);
    CHECK(window == 3 && starts.at[0] == 2 && sizes.at[0] == 1 && weights.at[0] == 1 && KEPT_FROM(weights, 3));
}

/* Slots that are not written keep the bits of the NaNs in them: past those asked for, and all of them on a refusal. */
static void check_nans(void)
{
    double weights[20];
    uint32_t starts[2], sizes[2], window, line;
    FILL_NANS(weights, 20);
    CHECK(built(4, 0, 4, 2, MIRROR_BOX, weights, 5, starts, 2, sizes, 2, &window, &line) == MIRROR_TOO_FEW_SLOTS && STILL_NANS(weights, 20));
    CHECK(built(4, NAN, 4, 2, MIRROR_BOX, weights, 20, starts, 2, sizes, 2, &window, &line) == MIRROR_NOT_FINITE && STILL_NANS(weights, 20));
    CHECK(mirror_weights(4, 1, 0, 0, 4, 1, 2, 2, 0, 1, weights, 20, starts, 2, sizes, 2, &window, &line) == MIRROR_BAD_CODE && STILL_NANS(weights, 20));
    CHECK(built(4, 0, 4, 2, MIRROR_BOX, weights, 20, starts, 2, sizes, 2, &window, &line) == MIRROR_DONE && window == 3 && weights[5] == 0);
    FILL_NANS(weights, 6);
    CHECK(STILL_NANS(weights, 20));
    CHECK(built(1, 1 - 0x1p-53, 0x1p-53, 1, MIRROR_BOX, weights, 20, starts, 2, sizes, 2, &window, &line) == MIRROR_BLANK_WINDOW && to_bits(weights[2]) == 0);
    FILL_NANS(weights, 3);
    CHECK(STILL_NANS(weights, 20));
}

void check_weights(void)
{
    check_example();
    check_blank();
    check_retired();
    check_refusals();
    check_choices();
    check_nans();
}

static const double third[] = {1.0 / 3, 1.0 / 3, 1.0 / 3}, one[] = {1}, large[] = {1e10}, none[] = {NAN};
static const uint32_t nought[] = {0}, ones[] = {1}, threes[] = {3};

void check_normalizers(void)
{
    LENT(int16_t, out16, 4);
    LENT(int32_t, out32, 2);
    LENT(int64_t, over, 2);
    uint32_t precision = 77;
    /* rows 7, 8 and 9; three weights of 1/3 total 65535 at precision 16 */
    CHECK(mirror_normalize16(1, 1, one, 1, nought, 1, ones, 1, LIST(out16), LIST(over), &precision) == MIRROR_DONE && precision == 14);
    CHECK(out16.at[0] == 16384 && KEPT_FROM(out16, 1) && over.at[0] == 0 && KEPT_FROM(over, 1));
    CHECK(mirror_normalize16(3, 3, third, 3, nought, 1, threes, 1, LIST(out16), LIST(over), &precision) == MIRROR_DONE && precision == 16);
    CHECK(out16.at[0] == 21845 && out16.at[1] == 21845 && out16.at[2] == 21845 && KEPT_FROM(out16, 3) && over.at[0] == -1 && KEPT_FROM(over, 1));
    CHECK(mirror_normalize32(1, 1, one, 1, nought, 1, ones, 1, LIST(out32), LIST(over), &precision) == MIRROR_DONE && precision == 30);
    CHECK(out32.at[0] == 1073741824 && KEPT_FROM(out32, 1) && over.at[0] == 0 && KEPT_FROM(over, 1));
    memset(&out16, FILL, sizeof out16);
    memset(&out32, FILL, sizeof out32);
    memset(&over, FILL, sizeof over);
#define NEITHER(number, lines, window, weights, slots, starts, first, sizes, second, room, places)                                                        \
    precision = 77;                                                                                                                                       \
    CHECK(mirror_normalize16(lines, window, weights, slots, starts, first, sizes, second, out16.at, room, over.at, places, &precision) == (number) &&    \
          precision == 0 && UNCHANGED(out16) && UNCHANGED(over));                                                                                         \
    precision = 77;                                                                                                                                       \
    CHECK(mirror_normalize32(lines, window, weights, slots, starts, first, sizes, second, out32.at, room, over.at, places, &precision) == (number) &&    \
          precision == 0 && UNCHANGED(out32) && UNCHANGED(over))
    NEITHER(MIRROR_BAD_SIDE, 0, 1, one, 1, nought, 1, ones, 1, 1, 1);
    NEITHER(MIRROR_BAD_SIDE, 1, 1, one, 0, nought, 0, ones, 0, 0, 0);
    NEITHER(MIRROR_TOO_FEW_SLOTS, 1, 1, none, 1, nought, 1, ones, 1, 0, 1);
    NEITHER(MIRROR_TOO_FEW_SLOTS, 1, 1, one, 1, nought, 1, ones, 1, 1, 0);
    NEITHER(MIRROR_DOES_NOT_FIT, 1, 1, none, 1, nought, 1, threes, 1, 1, 1);
    NEITHER(MIRROR_DOES_NOT_FIT, 1, 1, one, 1, ones, 1, ones, 1, 1, 1);
    NEITHER(MIRROR_DOES_NOT_FIT, 1, 1, one, 0, nought, 1, ones, 1, 1, 1);
    NEITHER(MIRROR_DOES_NOT_FIT, 1, 0, one, 0, nought, 1, ones, 1, 1, 1);
    NEITHER(MIRROR_WEIGHT_OUTSIDE, 1, 1, none, 1, nought, 1, ones, 1, 1, 1);
    NEITHER(MIRROR_WEIGHT_OUTSIDE, 1, 1, large, 1, nought, 1, ones, 1, 1, 2);
}
