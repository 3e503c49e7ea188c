/* Stories of random places through the C interface. Of each: the camera lines are the window's, in order, with its weights and the column's samples; the products
 * are theirs and add up to the total; half, shifted value and clip are the formula's; and the final number is the one that mirror_vertical_u16 writes, for the whole
 * row and for a random range of columns that has the column. */
#include <inttypes.h>
#include <stdio.h>
#include <stdlib.h>
#include <string.h>

#include "mirror.h"

enum { LINES = 40, ROW = 40, WINDOWS = 4, SLOTS = 40 };

static uint64_t state = 20261116;

static uint64_t any(void)
{
    state ^= state << 13;
    state ^= state >> 7;
    state ^= state << 17;
    return state;
}

/* from 0 to most */
static uint32_t up_to(uint32_t most)
{
    return (uint32_t)((any() >> 11) % ((uint64_t)most + 1));
}

static int32_t weight(uint32_t precision)
{
    int64_t one = INT64_C(1) << precision, w;
    switch (up_to(3)) {
    case 0:
        w = (int64_t)(any() >> 33) * (up_to(1) ? 1 : -1) >> up_to(31);
        break;
    case 1:
        w = up_to(1) ? INT32_MAX : INT32_MIN;
        break;
    default:
        w = one / 3 - (int64_t)((any() >> 20) % (uint64_t)one) / 4;
    }
    return w > INT32_MAX ? INT32_MAX : w < INT32_MIN ? INT32_MIN : (int32_t)w;
}

/* One line of the text against what it has to be; the text behind it. */
static const char *line(const char *at, const char *expected)
{
    size_t n = strlen(expected);
    return at && strncmp(at, expected, n) == 0 ? at + n : NULL;
}

static unsigned long low, high;

/* Whether the story of one random place is right. */
static int place(void)
{
    static uint16_t src[LINES * ROW], whole[WINDOWS * ROW], part[WINDOWS * ROW];
    static int32_t weights[WINDOWS * SLOTS];
    static uint8_t text[SLOTS * 64 + 256];
    uint32_t starts[WINDOWS], sizes[WINDOWS];
    int64_t excesses[WINDOWS], total = 0;
    char expected[128];
    uint32_t lines = 1 + up_to(up_to(3) ? 7 : LINES - 1), row = 1 + up_to(ROW - 1), windows = 1 + up_to(WINDOWS - 1), precision = 4 + up_to(41);
    uint32_t slots = 1 + up_to(lines - 1);
    for (uint32_t k = 0; k < lines * row; k++)
        src[k] = (uint16_t)(up_to(3) ? up_to(65535) : up_to(1) * 65535);
    for (uint32_t i = 0; i < windows; i++) {
        sizes[i] = 1 + up_to(slots - 1);
        starts[i] = up_to(lines - sizes[i]);
        excesses[i] = -(INT64_C(1) << precision);
        for (uint32_t k = 0; k < slots; k++) {
            weights[i * slots + k] = weight(precision);
            if (k < sizes[i])
                excesses[i] += weights[i * slots + k];
        }
    }
    uint32_t i = up_to(windows - 1), column = up_to(row - 1), first = up_to(column), count = column - first + 1 + up_to(row - column - 1);
    if (mirror_vertical_u16(src, lines * row, lines, row, 0, row, weights, windows * slots, starts, windows, sizes, windows, excesses, windows, slots, precision, whole, windows * row) != 0)
        return 0;
    if (mirror_vertical_u16(src, lines * row, lines, row, first, count, weights, windows * slots, starts, windows, sizes, windows, excesses, windows, slots, precision, part, windows * count) != 0)
        return 0;
    uint64_t written;
    if (mirror_story(src, lines * row, lines, row, weights, windows * slots, starts, windows, sizes, windows, excesses, windows, slots, precision, i, column, text, sizeof text - 1, &written) != 0)
        return 0;
    text[written] = 0;
    const char *at = (const char *)text;
    for (uint32_t k = 0; k < sizes[i]; k++) {
        int64_t w = weights[i * slots + k], s = src[(starts[i] + k) * row + column];
        total += w * s;
        snprintf(expected, sizeof expected, "line=%" PRIu32 ",%" PRId64 ",%" PRId64 ",%" PRId64 "\n", starts[i] + k, w, s, w * s);
        at = line(at, expected);
    }
    int64_t half = INT64_C(1) << (precision - 1), moved = total + half, one = INT64_C(1) << precision, shifted = moved / one - (moved % one < 0);
    snprintf(expected, sizeof expected, "total=%" PRId64 "\nhalf=%" PRId64 "\nshifted=%" PRId64 "\nclip=%s\nfinal=%" PRIu16 "\n", total, half, shifted,
             shifted < 0 ? "low" : shifted > 65535 ? "high" : "none", whole[i * row + column]);
    at = line(at, expected);
    low += shifted < 0;
    high += shifted > 65535;
    return at != NULL && *at == 0 && part[i * count + (column - first)] == whole[i * row + column];
}

int main(int argc, char **argv)
{
    unsigned long places = argc > 1 ? strtoul(argv[1], NULL, 10) : 100000, wrong = 0;
    for (unsigned long n = 0; n < places; n++)
        wrong += !place();
    printf("places=%lu wrong=%lu low=%lu high=%lu none=%lu\n", places, wrong, low, high, places - low - high);
    return wrong != 0;
}
