/* The numbers of a release book, and their lines. */
#include "check.h"

#define BOX "kind=box\nin=4\nout=2\nwindow=3\nstore=32\nprecision=31\nw0=0,2:1073741824,1073741824\nw1=2,2:1073741824,1073741824\nexcess=0,0\n"
#define THIRDS "kind=box\nin=3\nout=1\nwindow=3\nstore=16\nprecision=16\nw0=0,3:21845,21845,21845\nexcess=-1\n"
#define SHARP "kind=catmullrom\nin=3\nout=1\nwindow=3\nstore=32\nprecision=17\nw0=0,3:-4,131077,0\nexcess=1\n"
#define KEPT "kind=mitchell\nin=1\nout=1\nwindow=2\nstore=16\nprecision=4\nw0=0,1:-32768\nexcess=-32784\n"

/* Numbers that no report has, so that each place is seen to be written. */
static uint64_t sheets, windows, notflat, negative, byte;
static int64_t least, most;

static uint32_t book(const char *text, size_t length)
{
    sheets = windows = notflat = negative = byte = 77;
    least = most = -77;
    return mirror_book((const uint8_t *)text, length, &sheets, &windows, &least, &most, &notflat, &negative, &byte);
}

static int are(uint64_t s, uint64_t w, int64_t l, int64_t m, uint64_t f, uint64_t n, uint64_t b)
{
    return sheets == s && windows == w && least == l && most == m && notflat == f && negative == n && byte == b;
}

#define BOOK(text) book(text, sizeof(text) - 1)

static void check_lines(void)
{
    static const char empty[] = "sheets=0\nwindows=0\nleast=0\nmost=0\nnotflat=0\nnegative=0\nstopped=0\n";
    static const char some[] = "sheets=1\nwindows=2\nleast=-3\nmost=4\nnotflat=5\nnegative=6\nstopped=13\n";
    static const char longest[] = "sheets=18446744073709551615\nwindows=18446744073709551615\nleast=-9223372036854775808\nmost=-9223372036854775808\n"
                                  "notflat=18446744073709551615\nnegative=18446744073709551615\nstopped=4294967295\n";
    LENT(uint8_t, out, 188);
    uint64_t written = 77;
    CHECK(mirror_book_lines(0, 0, 0, 0, 0, 0, 0, LIST(out), &written) == MIRROR_DONE && written == sizeof empty - 1);
    CHECK(memcmp(out.at, empty, written) == 0 && KEPT_FROM(out, sizeof empty - 1));
    memset(&out, FILL, sizeof out);
    CHECK(mirror_book_lines(1, 2, -3, 4, 5, 6, 13, out.at, sizeof some - 1, &written) == MIRROR_DONE && written == sizeof some - 1);
    CHECK(memcmp(out.at, some, written) == 0 && KEPT_FROM(out, sizeof some - 1));
    memset(&out, FILL, sizeof out);
    CHECK(mirror_book_lines(1, 2, -3, 4, 5, 6, 13, out.at, sizeof some - 2, &written) == MIRROR_NO_ROOM && written == 0 && UNCHANGED(out));
    written = 77;
    CHECK(mirror_book_lines(0, 0, 0, 0, 0, 0, 0, out.at, 0, &written) == MIRROR_NO_ROOM && written == 0 && UNCHANGED(out));
    CHECK(mirror_book_lines(UINT64_MAX, UINT64_MAX, INT64_MIN, INT64_MIN, UINT64_MAX, UINT64_MAX, UINT32_MAX, LIST(out), &written) == MIRROR_DONE && written == 188);
    CHECK(memcmp(out.at, longest, written) == 0 && KEPT_FROM(out, 188));
}

void check_book(void)
{
    CHECK(BOOK("") == MIRROR_DONE && are(0, 0, 0, 0, 0, 0, 0));
    CHECK(BOOK(BOX) == MIRROR_DONE && are(1, 2, 0, 0, 0, 0, sizeof BOX - 1));
    CHECK(BOOK(THIRDS) == MIRROR_DONE && are(1, 1, -1, -1, 1, 0, sizeof THIRDS - 1));
    /* 131070 is below 2^17: an excess of 1 keeps flat frames. */
    CHECK(BOOK(SHARP) == MIRROR_DONE && are(1, 1, 1, 1, 0, 1, sizeof SHARP - 1));
    CHECK(BOOK(KEPT) == MIRROR_DONE && are(1, 1, -32784, -32784, 1, 1, sizeof KEPT - 1));
    CHECK(BOOK(SHARP BOX THIRDS BOX) == MIRROR_DONE && are(4, 6, -1, 1, 1, 1, sizeof SHARP BOX THIRDS BOX - 1));
    CHECK(BOOK(KEPT SHARP) == MIRROR_DONE && are(2, 2, -32784, 1, 1, 2, sizeof KEPT SHARP - 1));
    /* The first bad sheet ends it, and nothing after counts. */
    CHECK(BOOK("kind") == MIRROR_NOT_A_SHEET && are(0, 0, 0, 0, 0, 0, 4));
    CHECK(BOOK(" " BOX) == MIRROR_NOT_A_SHEET && are(0, 0, 0, 0, 0, 0, 0));
    CHECK(BOOK(BOX "\n" THIRDS) == MIRROR_NOT_A_SHEET && are(1, 2, 0, 0, 0, 0, sizeof BOX - 1));
    CHECK(BOOK(BOX "kind=bicubic\n") == MIRROR_NOT_A_SHEET && are(1, 2, 0, 0, 0, 0, sizeof BOX - 1 + 7));
    CHECK(book(BOX THIRDS, sizeof BOX THIRDS - 2) == MIRROR_NOT_A_SHEET && are(1, 2, 0, 0, 0, 0, sizeof BOX THIRDS - 2));
    CHECK(BOOK("kind=box\nin=1\nout=1\nwindow=1\nstore=16\nprecision=4\nw0=0,1:-9\nexcess=0\n" BOX) == MIRROR_NOT_A_SHEET && are(0, 0, 0, 0, 0, 0, 67));
    check_lines();
}
