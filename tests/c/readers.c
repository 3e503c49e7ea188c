/* The readers: sheets of either store read back and written again, and what is no sheet. */
#include "check.h"

static const char sheet[] =
    "kind=box\nin=4\nout=2\nwindow=3\nstore=32\nprecision=31\nw0=0,2:1073741824,1073741824\nw1=2,2:1073741824,1073741824\nexcess=0,0\n";
static const char sheet_16[] =
    "kind=mitchell\nin=4\nout=2\nwindow=3\nstore=16\nprecision=15\nw0=0,2:16384,16384\nw1=2,2:-1,16384\nexcess=0,-16385\n";

/* What stands beside an answer. */
static struct {
    uint32_t filter, lines, windows, window, store, precision;
    uint64_t byte;
} said;

#define SAID &said.filter, &said.lines, &said.windows, &said.window, &said.store, &said.precision, &said.byte
#define TEXT(text) (const uint8_t *)(text), sizeof(text) - 1

static int head_is(uint32_t filter, uint32_t lines, uint32_t windows, uint32_t window, uint32_t store, uint32_t precision)
{
    int good = said.filter == filter && said.lines == lines && said.windows == windows && said.window == window && said.store == store &&
               said.precision == precision;
    memset(&said, FILL, sizeof said);
    return good;
}

void check_readers(void)
{
    static const int32_t weights[] = {1073741824, 1073741824, 0, 1073741824, 1073741824, 0};
    static const int16_t weights_16[] = {16384, 16384, 0, -1, 16384, 0};
    static const uint32_t windows[] = {0, 2}, counts[] = {2, 2};
    LENT(int32_t, slots, 7);
    LENT(int16_t, slots_16, 7);
    LENT(uint32_t, starts, 3);
    LENT(uint32_t, sizes, 3);
    LENT(int64_t, over, 3);
    LENT(uint8_t, text, 160);
    uint64_t written;
    memset(&said, FILL, sizeof said);
    CHECK(mirror_read_sheet(TEXT(sheet), LIST(slots), LIST(starts), LIST(sizes), LIST(over), SAID) == MIRROR_DONE && said.byte == 0);
    CHECK(head_is(MIRROR_BOX, 4, 2, 3, 32, 31));
    CHECK(memcmp(slots.at, weights, sizeof weights) == 0 && KEPT_FROM(slots, 6));
    CHECK(memcmp(starts.at, windows, sizeof windows) == 0 && KEPT_FROM(starts, 2) && memcmp(sizes.at, counts, sizeof counts) == 0 && KEPT_FROM(sizes, 2));
    CHECK(over.at[0] == 0 && over.at[1] == 0 && KEPT_FROM(over, 2));
    CHECK(mirror_sheet32(MIRROR_BOX, 4, 3, 31, slots.at, 6, starts.at, 2, sizes.at, 2, over.at, 2, LIST(text), &written) == MIRROR_DONE);
    CHECK(written == sizeof sheet - 1 && memcmp(text.at, sheet, written) == 0);
    memset(&slots, FILL, sizeof slots);
    CHECK(mirror_read_sheet(TEXT(sheet_16), LIST(slots), LIST(starts), LIST(sizes), LIST(over), SAID) == MIRROR_DONE && said.byte == 0);
    CHECK(head_is(MIRROR_MITCHELL, 4, 2, 3, 16, 15) && slots.at[3] == -1 && slots.at[5] == 0 && KEPT_FROM(slots, 6));
    CHECK(mirror_read_sheet16(TEXT(sheet_16), LIST(slots_16), LIST(starts), LIST(sizes), LIST(over), SAID) == MIRROR_DONE && said.byte == 0);
    CHECK(head_is(MIRROR_MITCHELL, 4, 2, 3, 16, 15) && memcmp(slots_16.at, weights_16, sizeof weights_16) == 0 && KEPT_FROM(slots_16, 6));
    CHECK(over.at[0] == 0 && over.at[1] == -16385 && KEPT_FROM(over, 2));
    memset(&slots, FILL, sizeof slots);
    memset(&slots_16, FILL, sizeof slots_16);
    memset(&starts, FILL, sizeof starts);
    memset(&sizes, FILL, sizeof sizes);
    memset(&over, FILL, sizeof over);
#define REFUSED_TEXT(number, place, text, n, k, m, x)                                                                                        \
    CHECK(mirror_read_sheet(TEXT(text), slots.at, n, starts.at, k, sizes.at, m, over.at, x, SAID) == (number) && said.byte == (place));       \
    CHECK(head_is(0, 0, 0, 0, 0, 0) && UNCHANGED(slots) && UNCHANGED(starts) && UNCHANGED(sizes) && UNCHANGED(over));                         \
    CHECK(mirror_read_sheet16(TEXT(text), slots_16.at, n, starts.at, k, sizes.at, m, over.at, x, SAID) == (number) && said.byte == (place));  \
    CHECK(head_is(0, 0, 0, 0, 0, 0) && UNCHANGED(slots_16) && UNCHANGED(starts) && UNCHANGED(sizes) && UNCHANGED(over))
#define ONE "kind=bilinear\nin=1\nout=1\nwindow=1\nstore=16\nprecision=4\nw0=0,1:"
    REFUSED_TEXT(MIRROR_NOT_A_SHEET, 0, "", 7, 3, 3, 3);
    REFUSED_TEXT(MIRROR_NOT_A_SHEET, 12, "kind=box\nin=04\n", 7, 3, 3, 3);
    REFUSED_TEXT(MIRROR_NOT_A_SHEET, 15, "kind=box\nin=9000\n", 7, 3, 3, 3);
    REFUSED_TEXT(MIRROR_NOT_A_SHEET, 13, "kind=box\nin=4\r\n", 7, 3, 3, 3);
    REFUSED_TEXT(MIRROR_NOT_A_SHEET, 28, "kind=box\nin=4\nout=2\nwindow=3", 0, 0, 0, 0);
    REFUSED_TEXT(MIRROR_TOO_FEW_SLOTS, 0, "kind=box\nin=4\nout=2\nwindow=3\nshore", 5, 2, 2, 2);
    REFUSED_TEXT(MIRROR_TOO_FEW_SLOTS, 0, "kind=box\nin=4\nout=2\nwindow=3\nshore", 6, 1, 2, 2);
    REFUSED_TEXT(MIRROR_TOO_FEW_SLOTS, 0, "kind=box\nin=4\nout=2\nwindow=3\nshore", 6, 2, 1, 2);
    REFUSED_TEXT(MIRROR_TOO_FEW_SLOTS, 0, "kind=box\nin=4\nout=2\nwindow=3\nshore", 6, 2, 2, 1);
    REFUSED_TEXT(MIRROR_NOT_A_SHEET, 30, "kind=box\nin=4\nout=2\nwindow=3\nshore", 6, 2, 2, 2);
    REFUSED_TEXT(MIRROR_NOT_A_SHEET, 63, ONE "-0\n", 1, 1, 1, 1);
    REFUSED_TEXT(MIRROR_NOT_A_SHEET, 66, ONE "32768\n", 1, 1, 1, 1);
    /* no line of excesses; a wrong one, from its first digit on or after it; one too many; a byte after the sheet */
    REFUSED_TEXT(MIRROR_NOT_A_SHEET, 64, ONE "7\n", 1, 1, 1, 1);
    REFUSED_TEXT(MIRROR_NOT_A_SHEET, 71, ONE "7\nexcess=9\n", 1, 1, 1, 1);
    REFUSED_TEXT(MIRROR_NOT_A_SHEET, 73, ONE "7\nexcess=-9,0\n", 1, 1, 1, 1);
    REFUSED_TEXT(MIRROR_NOT_A_SHEET, 74, ONE "7\nexcess=-9\n\n", 1, 1, 1, 1);
    CHECK(mirror_read_sheet16(TEXT(sheet), LIST(slots_16), LIST(starts), LIST(sizes), LIST(over), SAID) == MIRROR_NOT_A_SHEET && said.byte == 35);
    CHECK(head_is(0, 0, 0, 0, 0, 0) && UNCHANGED(slots_16) && UNCHANGED(starts) && UNCHANGED(sizes) && UNCHANGED(over));
}
