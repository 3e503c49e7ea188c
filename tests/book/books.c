/* Texts of sheets, a line each in hexadecimal digits (`-`: no byte), through the C interface. Answers a line: the answer, the seven numbers beside it and the lines of the report,
 * or what went wrong: a text that was written to, a list past its end, or a room that is too small by one and not refused. An argument says how often each text is read. */
#include <inttypes.h>
#include <stdio.h>
#include <stdlib.h>
#include <string.h>

#include "mirror.h"

enum { GUARD = 64, FILL = 0xa5, ROOM = 188 };

/* n bytes between guards. */
static uint8_t *fresh(size_t n)
{
    uint8_t *whole = malloc(n + 2 * GUARD);
    if (!whole)
        abort();
    memset(whole, FILL, n + 2 * GUARD);
    return whole + GUARD;
}

static int filled(const uint8_t *from, size_t n)
{
    for (size_t i = 0; i < n; i++)
        if (from[i] != FILL)
            return 0;
    return 1;
}

static uint8_t digit(char c)
{
    return (uint8_t)(c <= '9' ? c - '0' : c - 'a' + 10);
}

static void answer(const char *line, size_t length, int calls)
{
    size_t n = line[0] == '-' ? 0 : length / 2;
    uint8_t *text = fresh(n), *was = fresh(n), *out = fresh(ROOM);
    uint64_t sheets = 77, windows = 77, notflat = 77, negative = 77, byte = 77, written = 77, none = 77;
    int64_t least = 77, most = 77;
    uint32_t no = 77;
    for (size_t i = 0; i < n; i++)
        text[i] = was[i] = (uint8_t)(digit(line[2 * i]) * 16 + digit(line[2 * i + 1]));
    for (int i = 0; i < calls; i++)
        no = mirror_book(text, n, &sheets, &windows, &least, &most, &notflat, &negative, &byte);
    printf("%" PRIu32 " %" PRIu64 " %" PRIu64 " %" PRId64 " %" PRId64 " %" PRIu64 " %" PRIu64 " %" PRIu64 " ", no, sheets, windows, least, most, notflat, negative, byte);
    if (mirror_book_lines(sheets, windows, least, most, notflat, negative, no, out, ROOM, &written) != MIRROR_DONE || written > ROOM || !filled(out + written, ROOM - written + GUARD))
        printf("long ");
    for (size_t i = 0; i < written && i < ROOM; i++)
        printf("%02x", out[i]);
    memset(out, FILL, ROOM);
    if (mirror_book_lines(sheets, windows, least, most, notflat, negative, no, out, written - 1, &none) != MIRROR_NO_ROOM || none != 0 || !filled(out - GUARD, ROOM + 2 * GUARD))
        printf(" room");
    if (memcmp(text, was, n) != 0 || !filled(text - GUARD, GUARD) || !filled(text + n, GUARD))
        printf(" touched");
    putchar('\n');
    free(text - GUARD);
    free(was - GUARD);
    free(out - GUARD);
}

int main(int argc, char **argv)
{
    char *line = NULL;
    size_t room = 0;
    ssize_t length;
    int calls = argc > 1 ? atoi(argv[1]) : 1;
    while ((length = getline(&line, &room, stdin)) > 0)
        answer(line, (size_t)length - 1, calls);
    free(line);
    return 0;
}
