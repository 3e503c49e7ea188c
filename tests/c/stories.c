/* The story of a pixel. */
#include "check.h"

static const char story[] = "line=0,8,1,8\nline=1,8,0,0\ntotal=8\nhalf=8\nshifted=1\nclip=none\nfinal=1\n";
/* -4, 24, -4 over camera lines 1 to 3, at the second of two columns. */
static const char high[] = "line=1,-4,0,0\nline=2,24,65535,1572840\nline=3,-4,0,0\ntotal=1572840\nhalf=8\nshifted=98303\nclip=high\nfinal=65535\n";
static const char low[] = "line=1,-4,65535,-262140\nline=2,24,0,0\nline=3,-4,65535,-262140\ntotal=-524280\nhalf=8\nshifted=-32767\nclip=low\nfinal=0\n";

void check_stories(void)
{
    static const int32_t halves[] = {8, 8}, sharp[] = {-4, 24, -4};
    static const uint32_t nought[] = {0}, one[] = {1}, two[] = {2}, three[] = {3};
    static const int64_t even[] = {0, 0}, odd[] = {1};
    static const uint16_t samples[] = {1, 0}, bright[] = {9, 9, 9, 0, 9, 65535, 9, 0}, dark[] = {9, 9, 9, 65535, 9, 0, 9, 65535};
    const size_t length = sizeof story - 1;
    LENT(uint8_t, text, 160);
    uint64_t written = 77;
    CHECK(mirror_story(samples, 2, 2, 1, halves, 2, nought, 1, two, 1, even, 1, 2, 4, 0, 0, LIST(text), &written) == MIRROR_DONE && written == length);
    CHECK(memcmp(text.at, story, length) == 0 && KEPT_FROM(text, length));
    memset(&text, FILL, sizeof text);
    CHECK(mirror_story(samples, 2, 2, 1, halves, 2, nought, 1, two, 1, even, 1, 2, 4, 0, 0, text.at, length, &written) == MIRROR_DONE && written == length);
    CHECK(memcmp(text.at, story, length) == 0 && KEPT_FROM(text, length));
#define SHARP(frame, expected)                                                                                                                                \
    memset(&text, FILL, sizeof text);                                                                                                                         \
    CHECK(mirror_story(frame, 8, 4, 2, sharp, 3, one, 1, three, 1, even, 1, 3, 4, 0, 1, LIST(text), &written) == MIRROR_DONE && written == sizeof expected - 1 && \
          memcmp(text.at, expected, written) == 0 && KEPT_FROM(text, sizeof expected - 1))
    SHARP(bright, high);
    SHARP(dark, low);
    memset(&text, FILL, sizeof text);
#define REFUSED_STORY(number, src_len, lines, row, starts, starts_len, excesses, excesses_len, precision, line, column, room)                                 \
    written = 77;                                                                                                                                             \
    CHECK(mirror_story(samples, src_len, lines, row, halves, 2, starts, starts_len, two, 1, excesses, excesses_len, 2, precision, line, column, text.at, room, \
                       &written) == (number) && written == 0 && UNCHANGED(text))
    REFUSED_STORY(MIRROR_BAD_SIDE, 2, 0, 1, nought, 1, even, 1, 4, 9, 9, 0);
    REFUSED_STORY(MIRROR_BAD_SIDE, 2, 2, 1, nought, 0, even, 1, 4, 9, 9, 0);
    REFUSED_STORY(MIRROR_BAD_SIDE, 0, 2, 0, nought, 1, even, 1, 4, 0, 0, 0);
    REFUSED_STORY(MIRROR_BAD_SIDE, 0, 2, 32769, nought, 1, even, 1, 4, 0, 0, 0);
    REFUSED_STORY(MIRROR_DOES_NOT_FIT, 1, 2, 1, nought, 1, even, 1, 4, 0, 0, 160);
    REFUSED_STORY(MIRROR_DOES_NOT_FIT, 2, 2, 1, one, 1, even, 1, 4, 0, 0, 160);
    REFUSED_STORY(MIRROR_DOES_NOT_FIT, 2, 2, 1, nought, 1, odd, 1, 4, 0, 0, 160);
    REFUSED_STORY(MIRROR_DOES_NOT_FIT, 2, 2, 1, nought, 1, even, 2, 4, 0, 0, 160);
    REFUSED_STORY(MIRROR_DOES_NOT_FIT, 2, 2, 1, nought, 1, even, 1, 3, 0, 0, 160);
    REFUSED_STORY(MIRROR_DOES_NOT_FIT, 2, 2, 1, nought, 1, even, 1, 46, 0, 0, 160);
    REFUSED_STORY(MIRROR_DOES_NOT_FIT, 2, 2, 1, nought, 1, even, 1, 4, 1, 0, 0);
    REFUSED_STORY(MIRROR_DOES_NOT_FIT, 2, 2, 1, nought, 1, even, 1, 4, 0, 1, 0);
    REFUSED_STORY(MIRROR_DOES_NOT_FIT, 2, 2, 1, nought, 1, even, 1, 4, UINT32_MAX, UINT32_MAX, 160);
    REFUSED_STORY(MIRROR_NO_ROOM, 2, 2, 1, nought, 1, even, 1, 4, 0, 0, length - 1);
    REFUSED_STORY(MIRROR_NO_ROOM, 2, 2, 1, nought, 1, even, 1, 4, 0, 0, 0);
}
