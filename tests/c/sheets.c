/* The sheet of either store. */
#include "check.h"

/* 01's sheet: side 4, crop 0 to 4, output 2, Box, adapting, 32-bit; and the same windows in the 16-bit store. */
static const char sheet[] =
    "kind=box\nin=4\nout=2\nwindow=3\nstore=32\nprecision=31\nw0=0,2:1073741824,1073741824\nw1=2,2:1073741824,1073741824\nexcess=0,0\n";
static const char sheet_16[] =
    "kind=mitchell\nin=4\nout=2\nwindow=3\nstore=16\nprecision=15\nw0=0,2:16384,16384\nw1=2,2:-1,16384\nexcess=0,-16385\n";

void check_sheets(void)
{
    static const int32_t weights[] = {1073741824, 1073741824, 0, 1073741824, 1073741824, 0};
    static const int16_t weights_16[] = {16384, 16384, 0, -1, 16384, 0};
    static const uint32_t starts[] = {0, 2}, sizes[] = {2, 2}, empty[] = {2, 0};
    static const int64_t over[] = {0, 0, 0}, over_16[] = {0, -16385};
    const size_t length = sizeof sheet - 1, length_16 = sizeof sheet_16 - 1;
    LENT(uint8_t, text, 160);
    uint64_t written = 77;
    CHECK(mirror_sheet32(MIRROR_BOX, 4, 3, 31, weights, 6, starts, 2, sizes, 2, over, 2, LIST(text), &written) == MIRROR_DONE && written == length);
    CHECK(memcmp(text.at, sheet, length) == 0 && KEPT_FROM(text, length));
    memset(&text, FILL, sizeof text);
    CHECK(mirror_sheet16(MIRROR_MITCHELL, 4, 3, 15, weights_16, 6, starts, 2, sizes, 2, over_16, 2, text.at, length_16, &written) == MIRROR_DONE && written == length_16);
    CHECK(memcmp(text.at, sheet_16, length_16) == 0 && KEPT_FROM(text, length_16));
    memset(&text, FILL, sizeof text);
#define REFUSED_SHEET(number, filter, lines, window, precision, starts_len, sizes, room)                                                           \
    written = 77;                                                                                                                                  \
    CHECK(mirror_sheet32(filter, lines, window, precision, weights, 6, starts, starts_len, sizes, 2, over, 2, text.at, room, &written) == (number) && \
          written == 0 && UNCHANGED(text));                                                                                                        \
    written = 77;                                                                                                                                  \
    CHECK(mirror_sheet16(filter, lines, window, precision, weights_16, 6, starts, starts_len, sizes, 2, over_16, 2, text.at, room, &written) == (number) && \
          written == 0 && UNCHANGED(text))
    REFUSED_SHEET(MIRROR_BAD_SIDE, 0, 0, 3, 15, 2, sizes, 0);
    REFUSED_SHEET(MIRROR_BAD_SIDE, 0, 4, 3, 15, 0, sizes, 0);
    REFUSED_SHEET(MIRROR_DOES_NOT_FIT, 0, 4, 2, 15, 2, sizes, 0);
    REFUSED_SHEET(MIRROR_DOES_NOT_FIT, 0, 4, 3, 3, 2, sizes, 128);
    REFUSED_SHEET(MIRROR_DOES_NOT_FIT, 0, 4, 3, 46, 2, sizes, 128);
    REFUSED_SHEET(MIRROR_DOES_NOT_FIT, 0, 4, 3, 15, 1, sizes, 128);
    REFUSED_SHEET(MIRROR_DOES_NOT_FIT, 0, 4, 3, 15, 2, empty, 128);
    REFUSED_SHEET(MIRROR_BAD_CODE, 4, 0, 3, 15, 2, sizes, 0);
    written = 77;
    CHECK(mirror_sheet32(0, 4, 3, 31, weights, 6, starts, 2, sizes, 2, over, 2, text.at, length - 1, &written) == MIRROR_NO_ROOM && written == 0 && UNCHANGED(text));
    written = 77;
    CHECK(mirror_sheet16(0, 4, 3, 15, weights_16, 6, starts, 2, sizes, 2, over_16, 2, text.at, length_16 - 10, &written) == MIRROR_NO_ROOM && written == 0 && UNCHANGED(text));
    written = 77;
    CHECK(mirror_sheet16(0, 4, 3, 22, weights_16, 6, starts, 2, sizes, 2, over_16, 2, LIST(text), &written) == MIRROR_DOES_NOT_FIT && written == 0 && UNCHANGED(text));
    /* a wrong excess, one too few, one too many */
    CHECK(mirror_sheet16(0, 4, 3, 15, weights_16, 6, starts, 2, sizes, 2, over, 2, LIST(text), &written) == MIRROR_DOES_NOT_FIT && UNCHANGED(text));
    CHECK(mirror_sheet32(0, 4, 3, 31, weights, 6, starts, 2, sizes, 2, over, 1, LIST(text), &written) == MIRROR_DOES_NOT_FIT && UNCHANGED(text));
    CHECK(mirror_sheet32(0, 4, 3, 31, weights, 6, starts, 2, sizes, 2, over, 3, LIST(text), &written) == MIRROR_DOES_NOT_FIT && UNCHANGED(text));
}
