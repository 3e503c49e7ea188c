/* The C interface (include/mirror.h) behind the lines of the protocol, so that `run --ask` compares it with the oracle as it
 * compares the program `ask`. Every list, lent or handed in, stands between guard bytes, which are looked at after each call; a
 * list that is handed in to be read is compared with what it was. A byte that was touched is answered by `touched`. */
#include <inttypes.h>
#include <stdio.h>
#include <stdlib.h>
#include <string.h>

#include "mirror.h"

enum { WORDS = 16, LONGEST = 262143, GUARD = 64, LISTS = 12 };
#define LARGEST 1048576u

/* A list between guards; `was` is a copy of one that is only read. */
struct list {
    uint8_t *whole, *was;
    size_t count, width;
};

static struct list lists[LISTS];
static int used;

static void *at(const struct list *l)
{
    return l->whole + GUARD;
}

static struct list *fresh(size_t count, size_t width)
{
    struct list *l = &lists[used++];
    l->count = count;
    l->width = width;
    l->was = NULL;
    l->whole = malloc(count * width + 2 * GUARD);
    if (!l->whole)
        abort();
    memset(l->whole, 0xa5, GUARD);
    memset(l->whole + GUARD + count * width, 0x5a, GUARD);
    return l;
}

static int untouched(void)
{
    int good = 1;
    for (int i = 0; i < used; i++) {
        const struct list *l = &lists[i];
        size_t bytes = l->count * l->width;
        for (int k = 0; k < GUARD; k++)
            good &= l->whole[k] == 0xa5 && l->whole[GUARD + bytes + k] == 0x5a;
        if (l->was)
            good &= memcmp(l->was, at(l), bytes) == 0;
    }
    return good;
}

static void forget_from(int first)
{
    while (used > first) {
        used--;
        free(lists[used].whole);
        free(lists[used].was);
    }
}

/* Fields. Each answers whether the word is one. */
static int number(const char *w, uint64_t most, uint64_t *n)
{
    *n = 0;
    if (!*w)
        return 0;
    for (; *w; w++) {
        if (*w < '0' || *w > '9' || *n > (UINT64_MAX - 9) / 10)
            return 0;
        *n = *n * 10 + (uint64_t)(*w - '0');
        if (*n > most)
            return 0;
    }
    return 1;
}

static int u32_of(const char *w, uint32_t *n)
{
    uint64_t x;
    int good = number(w, UINT32_MAX, &x);
    *n = (uint32_t)x;
    return good;
}

static int integer(const char *w, int64_t least, int64_t most, int64_t *n)
{
    uint64_t x;
    int minus = *w == '-', good = number(w + minus, minus ? -(uint64_t)least : (uint64_t)most, &x);
    *n = (int64_t)(minus ? -x : x);
    return good && !(minus && x == 0);
}

static int hex(const char *w, int digits, uint64_t *n)
{
    *n = 0;
    for (int i = 0; i < digits; i++) {
        char c = w[i];
        if (c >= '0' && c <= '9')
            *n = *n * 16 + (uint64_t)(c - '0');
        else if (c >= 'a' && c <= 'f')
            *n = *n * 16 + (uint64_t)(c - 'a' + 10);
        else
            return 0;
    }
    return w[digits] == 0;
}

static int f64_of(const char *w, double *x)
{
    uint64_t b;
    int good = hex(w, 16, &b);
    memcpy(x, &b, 8);
    return good;
}

/* One element of a list: c bytes, h, i and q signed of 16, 32 and 64 bits, w and u unsigned of 16 and 32 bits, d and f floats. */
static int element(char type, const char *w, void *to)
{
    uint64_t u = 0;
    int64_t i = 0;
    int good = 0;
    switch (type) {
    case 'c': good = number(w, 255, &u); *(uint8_t *)to = (uint8_t)u; break;
    case 'w': good = number(w, 65535, &u); *(uint16_t *)to = (uint16_t)u; break;
    case 'u': good = number(w, UINT32_MAX, &u); *(uint32_t *)to = (uint32_t)u; break;
    case 'h': good = integer(w, INT16_MIN, INT16_MAX, &i); *(int16_t *)to = (int16_t)i; break;
    case 'i': good = integer(w, INT32_MIN, INT32_MAX, &i); *(int32_t *)to = (int32_t)i; break;
    case 'q': good = integer(w, INT64_MIN, INT64_MAX, &i); *(int64_t *)to = i; break;
    case 'd': good = hex(w, 16, &u); memcpy(to, &u, 8); break;
    case 'f': good = hex(w, 8, &u); u = (uint32_t)u; memcpy(to, &u, 4); break;
    }
    return good;
}

static size_t width_of(char type)
{
    return type == 'c' ? 1 : type == 'w' || type == 'h' ? 2 : type == 'd' || type == 'q' ? 8 : 4;
}

static struct list *read_list(char type, char *w, int kept)
{
    size_t count = strcmp(w, "-") != 0;
    for (char *c = w; *c; c++)
        count += *c == ',';
    struct list *l = fresh(count, width_of(type));
    for (size_t i = 0; i < count; i++) {
        char *end = strchr(w, ',');
        if (end)
            *end = 0;
        if (!element(type, w, (uint8_t *)at(l) + i * l->width))
            return NULL;
        w = end ? end + 1 : w;
    }
    if (kept) {
        l->was = malloc(count * l->width + 1);
        memcpy(l->was, at(l), count * l->width);
    }
    return l;
}

static struct list *lend(char type, const char *w)
{
    uint64_t n;
    if (!number(w, LARGEST, &n))
        return NULL;
    struct list *l = fresh(n, width_of(type));
    for (size_t i = 0; i < n; i++) {
        unsigned v = (unsigned)((7 * i + 3) % 251);
        void *to = (uint8_t *)at(l) + i * l->width;
        if (type == 'd')
            *(double *)to = v;
        else if (type == 'f')
            *(float *)to = (float)v;
        else if (type == 'q')
            *(int64_t *)to = v;
        else if (l->width == 1)
            *(uint8_t *)to = (uint8_t)v;
        else if (l->width == 2)
            *(uint16_t *)to = (uint16_t)v;
        else
            *(uint32_t *)to = v;
    }
    return l;
}

/* Shown after a space: x is bytes as hex. */
static void show_items(char type, const struct list *l)
{
    if (l->count == 0)
        putchar('-');
    for (size_t i = 0; i < l->count; i++) {
        const void *from = (const uint8_t *)at(l) + i * l->width;
        uint64_t bits = 0;
        if (i > 0 && type != 'x')
            putchar(',');
        memcpy(&bits, from, l->width);
        switch (type) {
        case 'd': printf("%016" PRIx64, bits); break;
        case 'f': printf("%08" PRIx64, bits); break;
        case 'x': printf("%02" PRIx64, bits); break;
        case 'h': printf("%d", *(const int16_t *)from); break;
        case 'i': printf("%" PRId32, *(const int32_t *)from); break;
        case 'q': printf("%" PRId64, *(const int64_t *)from); break;
        default: printf("%" PRIu64, bits); break;
        }
    }
}

static void show(char type, const struct list *l)
{
    putchar(' ');
    show_items(type, l);
}

static int kind_of(const char *w, uint32_t *kind)
{
    static const char *const names[] = {"box", "bilinear", "catmullrom", "mitchell"};
    for (*kind = 0; *kind < 4; ++*kind)
        if (strcmp(w, names[*kind]) == 0)
            return 1;
    return 0;
}

static uint64_t bits(double x)
{
    uint64_t b;
    memcpy(&b, &x, 8);
    return x != x ? 0x7ff8000000000000u : b;
}

#define OR_BAD(test) if (!(test)) return 0

static int helper(char **w)
{
    uint64_t x;
    uint32_t infinite;
    if (strcmp(w[0], "widen") == 0) {
        OR_BAD(hex(w[1], 8, &x));
        return printf("%016" PRIx64, mirror_widen((uint32_t)x));
    }
    OR_BAD(hex(w[1], 16, &x));
    if (strcmp(w[0], "narrow") == 0)
        return printf("%08" PRIx32, mirror_narrow(x, &infinite)) + printf(" %" PRIu32, infinite);
    return printf("%016" PRIx64, w[0][0] == 'a' ? mirror_abs(x) : w[0][0] == 'f' ? mirror_floor(x) : w[0][0] == 'c' ? mirror_ceil(x) : mirror_round(x));
}

static int clip8(char **w)
{
    int64_t v;
    OR_BAD(integer(w[1], INT32_MIN, INT32_MAX, &v));
    return printf("%u", mirror_clip8((int32_t)v));
}

static int filter(char **w)
{
    uint32_t kind;
    double x, weight = 0;
    OR_BAD(kind_of(w[1], &kind) && f64_of(w[2], &x));
    OR_BAD(mirror_filter(kind, x, &weight) == 0);
    return printf("%016" PRIx64, bits(weight));
}

static int crop(char **w)
{
    uint32_t a, b;
    double l, t, wide, high;
    OR_BAD(u32_of(w[1], &a) && u32_of(w[2], &b) && f64_of(w[3], &l) && f64_of(w[4], &t) && f64_of(w[5], &wide) && f64_of(w[6], &high));
    return printf("%" PRIu32, mirror_crop(a, b, l, t, wide, high));
}

static int fit(char **w, int words)
{
    uint32_t s[4], centred = words == 7;
    double x = 0, y = 0, l = -1, t = -1, wide = -1, high = -1;
    for (int i = 0; i < 4; i++)
        OR_BAD(u32_of(w[i + 1], &s[i]));
    OR_BAD(centred ? f64_of(w[5], &x) && f64_of(w[6], &y) : strcmp(w[5], "none") == 0);
    uint32_t no = mirror_fit(s[0], s[1], s[2], s[3], centred, x, y, &l, &t, &wide, &high);
    return printf("%" PRIu32 " %016" PRIx64 " %016" PRIx64 " %016" PRIx64 " %016" PRIx64, no, bits(l), bits(t), bits(wide), bits(high));
}

static int build(char **w)
{
    uint32_t kind, adapts, axis, a, b, out, window = 77, line = 77;
    double n[4];
    OR_BAD(kind_of(w[1], &kind) && u32_of(w[2], &adapts) && adapts <= 1 && u32_of(w[3], &axis) && axis <= 1);
    OR_BAD(u32_of(w[4], &a) && u32_of(w[5], &b) && u32_of(w[6], &out));
    for (int i = 0; i < 4; i++)
        OR_BAD(f64_of(w[7 + i], &n[i]));
    struct list *slots = lend('d', w[11]), *starts = slots ? lend('u', w[12]) : NULL, *sizes = starts ? lend('u', w[13]) : NULL;
    OR_BAD(sizes);
    uint32_t no = mirror_weights(a, b, n[0], n[1], n[2], n[3], axis, out, kind, adapts, at(slots), slots->count, at(starts), starts->count,
                                 at(sizes), sizes->count, &window, &line);
    printf("%" PRIu32 " %" PRIu32 " %" PRIu32, no, line, window);
    show('d', slots);
    show('u', starts);
    show('u', sizes);
    return 1;
}

static int normalize(char **w)
{
    uint32_t lines, window, precision = 77, no;
    int wide = w[0][4] == '3';
    OR_BAD(u32_of(w[1], &lines) && u32_of(w[2], &window));
    struct list *slots = read_list('d', w[3], 1), *starts = slots ? read_list('u', w[4], 1) : NULL, *sizes = starts ? read_list('u', w[5], 1) : NULL;
    struct list *out = sizes ? lend(wide ? 'i' : 'h', w[6]) : NULL, *over = out ? lend('q', w[7]) : NULL;
    OR_BAD(over);
    if (wide)
        no = mirror_normalize32(lines, window, at(slots), slots->count, at(starts), starts->count, at(sizes), sizes->count, at(out), out->count,
                                at(over), over->count, &precision);
    else
        no = mirror_normalize16(lines, window, at(slots), slots->count, at(starts), starts->count, at(sizes), sizes->count, at(out), out->count,
                                at(over), over->count, &precision);
    printf("%" PRIu32 " %" PRIu32, no, precision);
    show(wide ? 'i' : 'h', out);
    show('q', over);
    return 1;
}

static int pass(char **w, int floats)
{
    uint32_t n[6], no, infinite;
    for (int i = 0; i < 6 - floats; i++)
        OR_BAD(u32_of(w[i + 1], &n[i]));
    w += 7 - floats;
    struct list *ws = read_list(floats ? 'd' : 'i', w[0], 1), *starts = ws ? read_list('u', w[1], 1) : NULL, *sizes = starts ? read_list('u', w[2], 1) : NULL;
    struct list *over = sizes && !floats ? read_list('q', w[3], 1) : NULL;
    OR_BAD(floats ? sizes != NULL : over != NULL);
    w += 4 - floats;
    struct list *src = read_list(floats ? 'f' : 'w', w[0], 1), *out = src ? lend(floats ? 'f' : 'w', w[1]) : NULL;
    OR_BAD(out);
    if (floats)
        no = mirror_vertical_f32(at(src), src->count, n[0], n[1], n[2], n[3], at(ws), ws->count, at(starts), starts->count, at(sizes), sizes->count,
                                 n[4], at(out), out->count, &infinite);
    else
        no = mirror_vertical_u16(at(src), src->count, n[0], n[1], n[2], n[3], at(ws), ws->count, at(starts), starts->count, at(sizes), sizes->count,
                                 at(over), over->count, n[4], n[5], at(out), out->count);
    printf("%" PRIu32, no);
    if (floats)
        printf(" %" PRIu32, infinite);
    show(floats ? 'f' : 'w', out);
    return 1;
}

static int pass8(char **w)
{
    uint32_t n[6];
    for (int i = 0; i < 6; i++)
        OR_BAD(u32_of(w[i + 1], &n[i]));
    struct list *ws = read_list('h', w[7], 1), *starts = ws ? read_list('u', w[8], 1) : NULL, *sizes = starts ? read_list('u', w[9], 1) : NULL;
    struct list *over = sizes ? read_list('q', w[10], 1) : NULL, *src = over ? read_list('c', w[11], 1) : NULL, *out = src ? lend('c', w[12]) : NULL;
    OR_BAD(out);
    printf("%" PRIu32, mirror_vertical_u8(at(src), src->count, n[0], n[1], n[2], n[3], at(ws), ws->count, at(starts), starts->count, at(sizes),
                                          sizes->count, at(over), over->count, n[4], n[5], at(out), out->count));
    show('c', out);
    return 1;
}

static int sideways(char **w)
{
    uint32_t n[7];
    for (int i = 0; i < 7; i++)
        OR_BAD(u32_of(w[i + 1], &n[i]));
    struct list *ws = read_list('i', w[8], 1), *starts = ws ? read_list('u', w[9], 1) : NULL, *sizes = starts ? read_list('u', w[10], 1) : NULL;
    struct list *over = sizes ? read_list('q', w[11], 1) : NULL, *src = over ? read_list('w', w[12], 1) : NULL, *out = src ? lend('w', w[13]) : NULL;
    OR_BAD(out);
    printf("%" PRIu32, mirror_horizontal_u16(at(src), src->count, n[0], n[1], n[2], n[3], n[4], at(ws), ws->count, at(starts), starts->count, at(sizes),
                                             sizes->count, at(over), over->count, n[5], n[6], at(out), out->count));
    show('w', out);
    return 1;
}

static int alpha(char **w, int words)
{
    int divide = w[0][0] == 'd', in_place = words == 2;
    struct list *src = read_list('c', w[1], !in_place), *out = in_place ? src : src ? lend('c', w[2]) : NULL;
    uint32_t no;
    OR_BAD(out);
    if (in_place)
        no = (divide ? mirror_divide_u8x4_inplace : mirror_multiply_u8x4_inplace)(at(src), src->count);
    else
        no = (divide ? mirror_divide_u8x4 : mirror_multiply_u8x4)(at(src), src->count, at(out), out->count);
    printf("%" PRIu32, no);
    show('c', out);
    return 1;
}

static int alpha16(char **w, int words)
{
    int divide = w[0][0] == 'd', in_place = words == 2;
    struct list *src = read_list('w', w[1], !in_place), *out = in_place ? src : src ? lend('w', w[2]) : NULL;
    uint32_t no;
    OR_BAD(out);
    if (in_place)
        no = (divide ? mirror_divide_u16x4_inplace : mirror_multiply_u16x4_inplace)(at(src), src->count);
    else
        no = (divide ? mirror_divide_u16x4 : mirror_multiply_u16x4)(at(src), src->count, at(out), out->count);
    printf("%" PRIu32, no);
    show('w', out);
    return 1;
}

static int sheet(char **w)
{
    uint32_t kind, lines, window, precision, no;
    uint64_t written = 77;
    int wide = strcmp(w[4], "32") == 0;
    OR_BAD(kind_of(w[1], &kind) && u32_of(w[2], &lines) && u32_of(w[3], &window) && (wide || strcmp(w[4], "16") == 0) && u32_of(w[5], &precision));
    struct list *ws = read_list(wide ? 'i' : 'h', w[6], 1), *starts = ws ? read_list('u', w[7], 1) : NULL, *sizes = starts ? read_list('u', w[8], 1) : NULL;
    struct list *over = sizes ? read_list('q', w[9], 1) : NULL, *text = over ? lend('c', w[10]) : NULL;
    OR_BAD(text);
    if (wide)
        no = mirror_sheet32(kind, lines, window, precision, at(ws), ws->count, at(starts), starts->count, at(sizes), sizes->count, at(over), over->count,
                            at(text), text->count, &written);
    else
        no = mirror_sheet16(kind, lines, window, precision, at(ws), ws->count, at(starts), starts->count, at(sizes), sizes->count, at(over), over->count,
                            at(text), text->count, &written);
    printf("%" PRIu32 " %" PRIu64, no, written);
    show('x', text);
    return 1;
}

static int story(char **w)
{
    uint32_t n[4], line, column, no;
    uint64_t written = 77;
    for (int i = 0; i < 4; i++)
        OR_BAD(u32_of(w[i + 1], &n[i]));
    struct list *ws = read_list('i', w[5], 1), *starts = ws ? read_list('u', w[6], 1) : NULL, *sizes = starts ? read_list('u', w[7], 1) : NULL;
    struct list *over = sizes ? read_list('q', w[8], 1) : NULL, *src = over ? read_list('w', w[9], 1) : NULL;
    OR_BAD(src && u32_of(w[10], &line) && u32_of(w[11], &column));
    struct list *text = lend('c', w[12]);
    OR_BAD(text);
    no = mirror_story(at(src), src->count, n[0], n[1], at(ws), ws->count, at(starts), starts->count, at(sizes), sizes->count, at(over), over->count,
                      n[2], n[3], line, column, at(text), text->count, &written);
    printf("%" PRIu32 " %" PRIu64, no, written);
    show('x', text);
    return 1;
}

/* A text: two lowercase hexadecimal digits a byte. */
static struct list *read_text(const char *w)
{
    size_t length = strlen(w), count = strcmp(w, "-") == 0 ? 0 : length / 2;
    if (length == 0 || (count && length % 2) || (!count && strcmp(w, "-") != 0) || (count && strspn(w, "0123456789abcdef") != length))
        return NULL;
    struct list *l = fresh(count, 1);
    for (size_t i = 0; i < count; i++) {
        char pair[3] = {w[2 * i], w[2 * i + 1], 0};
        ((uint8_t *)at(l))[i] = (uint8_t)strtoul(pair, NULL, 16);
    }
    l->was = malloc(count + 1);
    memcpy(l->was, at(l), count);
    return l;
}

static int read_sheet(char **w)
{
    static const char *const names[] = {"box", "bilinear", "catmullrom", "mitchell"};
    uint32_t kind = 77, lines = 77, windows = 77, window = 77, store = 77, precision = 77, no;
    uint64_t byte = 77;
    int wide = strcmp(w[0], "read") == 0;
    struct list *text = read_text(w[1]), *ws = text ? lend(wide ? 'i' : 'h', w[2]) : NULL, *starts = ws ? lend('u', w[3]) : NULL, *sizes = starts ? lend('u', w[4]) : NULL;
    struct list *over = sizes ? lend('q', w[5]) : NULL;
    OR_BAD(over);
    if (wide)
        no = mirror_read_sheet(at(text), text->count, at(ws), ws->count, at(starts), starts->count, at(sizes), sizes->count, at(over), over->count, &kind, &lines, &windows, &window, &store, &precision, &byte);
    else
        no = mirror_read_sheet16(at(text), text->count, at(ws), ws->count, at(starts), starts->count, at(sizes), sizes->count, at(over), over->count, &kind, &lines, &windows, &window, &store, &precision, &byte);
    if (kind > 3)
        return 0;
    printf("%" PRIu32 " %" PRIu64 " %s %" PRIu32 " %" PRIu32 " %" PRIu32 " %" PRIu32 " %" PRIu32, no, byte, no ? "-" : names[kind], lines, window, store, precision, windows);
    show(wide ? 'i' : 'h', ws);
    show('u', starts);
    show('u', sizes);
    show('q', over);
    return 1;
}

/* The stored set of words 2 to 8 after the store in word 1; `kept` where the call may not change weights and excesses. */
struct stored {
    int wide;
    uint32_t n[3];
    struct list *ws, *starts, *sizes, *over;
};

static int read_stored(char **w, struct stored *s, int kept)
{
    s->wide = strcmp(w[1], "32") == 0;
    OR_BAD(s->wide || strcmp(w[1], "16") == 0);
    for (int i = 0; i < 3; i++)
        OR_BAD(u32_of(w[i + 2], &s->n[i]));
    s->ws = read_list(s->wide ? 'i' : 'h', w[5], kept);
    s->starts = s->ws ? read_list('u', w[6], 1) : NULL;
    s->sizes = s->starts ? read_list('u', w[7], 1) : NULL;
    s->over = s->sizes ? read_list('q', w[8], kept) : NULL;
    return s->over != NULL;
}

#define STORED(s) (s).n[0], (s).n[1], (s).n[2], at((s).ws), (s).ws->count, at((s).starts), (s).starts->count, at((s).sizes), (s).sizes->count, at((s).over), (s).over->count

static int accept(char **w)
{
    struct stored s;
    uint32_t window, precision, no;
    OR_BAD(read_stored(w, &s, 0) && u32_of(w[9], &window) && u32_of(w[10], &precision));
    struct list *starts = read_list('u', w[11], 1), *sizes = starts ? read_list('u', w[12], 1) : NULL, *ws = sizes ? read_list(s.wide ? 'i' : 'h', w[13], 1) : NULL;
    OR_BAD(ws);
    if (s.wide)
        no = mirror_accept32(STORED(s), window, precision, at(starts), starts->count, at(sizes), sizes->count, at(ws), ws->count);
    else
        no = mirror_accept16(STORED(s), window, precision, at(starts), starts->count, at(sizes), sizes->count, at(ws), ws->count);
    printf("%" PRIu32, no);
    show(s.wide ? 'i' : 'h', s.ws);
    show('q', s.over);
    return 1;
}

static int offer(char **w)
{
    struct stored s;
    uint32_t line = 77, no;
    OR_BAD(read_stored(w, &s, 1));
    struct list *out = lend(s.wide ? 'i' : 'h', w[9]);
    OR_BAD(out);
    if (s.wide)
        no = mirror_offer32(STORED(s), at(out), out->count, &line);
    else
        no = mirror_offer16(STORED(s), at(out), out->count, &line);
    printf("%" PRIu32 " %" PRIu32, no, line);
    show(s.wide ? 'i' : 'h', out);
    return 1;
}

/* The lists of a store of so many slots, and of a put's room; all zeros. */
struct shared {
    struct list *numbers, *slots, *starts, *sizes, *over, *doubles, *firsts, *counts;
};

#define STORE(s) at((s)->numbers), (s)->numbers->count, at((s)->slots), (s)->slots->count, at((s)->starts), (s)->starts->count, at((s)->sizes), (s)->sizes->count, at((s)->over), (s)->over->count
#define WORK(s) at((s)->doubles), (s)->doubles->count, at((s)->firsts), (s)->firsts->count, at((s)->counts), (s)->counts->count

static struct list *zeros(size_t count, size_t width)
{
    struct list *l = fresh(count, width);
    memset(at(l), 0, count * width);
    return l;
}

static int put_in(char **f, struct shared *s)
{
    uint32_t client, kind, n[5], window = 77, line = 77; /* adapts, axis, both sides, output */
    double x[4];
    OR_BAD(u32_of(f[1], &client) && kind_of(f[2], &kind));
    for (int i = 0; i < 5; i++)
        OR_BAD(u32_of(f[3 + i], &n[i]));
    for (int i = 0; i < 4; i++)
        OR_BAD(f64_of(f[8 + i], &x[i]));
    OR_BAD(n[0] <= 1 && n[1] <= 1 && strlen(f[3]) == 1 && strlen(f[4]) == 1);
    if (s) {
        uint32_t no = mirror_store_put(STORE(s), client, n[2], n[3], x[0], x[1], x[2], x[3], n[1], n[4], kind, n[0], WORK(s), &window, &line);
        printf("%" PRIu32 ":%" PRIu32 ":%" PRIu32, no, line, window);
    }
    return 1;
}

static int ran(char **f, struct shared *s)
{
    uint32_t n[4];
    for (int i = 0; i < 4; i++)
        OR_BAD(u32_of(f[1 + i], &n[i]));
    uint64_t room;
    struct list *src = read_list('w', f[5], 1), *out = src && number(f[6], 131072, &room) ? lend('w', f[6]) : NULL;
    OR_BAD(out);
    if (s) {
        printf("%" PRIu32 ":", mirror_store_u16(STORE(s), n[0], at(src), src->count, n[1], n[2], n[3], at(out), out->count));
        show_items('w', out);
    }
    return 1;
}

/* One call, made where there is a store; else only read. */
static int call_of(char *text, struct shared *s)
{
    char *f[14];
    int n = 0;
    uint32_t a, b;
    f[n++] = text;
    for (char *p = text; n < 14 && (p = strchr(p, ':')); f[n++] = p)
        *p++ = 0;
    if (strcmp(f[0], "p") == 0)
        return n == 12 && put_in(f, s);
    if (strcmp(f[0], "u") == 0)
        return n == 7 && ran(f, s);
    OR_BAD(strcmp(f[0], "r") == 0 && n == 3 && u32_of(f[1], &a) && u32_of(f[2], &b));
    if (s)
        printf("%" PRIu32, mirror_store_restart(STORE(s), a, b));
    return 1;
}

/* All calls, each from a copy of its text; the lists of a call are looked at and forgotten after it. */
static int calls_of(const char *text, struct shared *s)
{
    int kept = used, good = 1;
    for (const char *end; good; text = end + 1) {
        end = strchr(text, '/');
        size_t n = end ? (size_t)(end - text) : strlen(text);
        char *copy = malloc(n + 1);
        memcpy(copy, text, n);
        copy[n] = 0;
        good = call_of(copy, s);
        free(copy);
        if (s && !untouched())
            printf(" touched");
        forget_from(kept);
        if (!end)
            break;
        if (good && s)
            putchar('/');
    }
    return good;
}

static int store(char **w)
{
    uint64_t slots;
    struct shared s;
    OR_BAD(number(w[1], 131072, &slots) && calls_of(w[2], NULL));
    s.numbers = zeros(MIRROR_STORE_NUMBERS, 4);
    s.slots = zeros(slots, 4);
    s.starts = zeros(MIRROR_STORE_LINES, 4);
    s.sizes = zeros(MIRROR_STORE_LINES, 4);
    s.over = zeros(MIRROR_STORE_LINES, 8);
    s.doubles = zeros(slots, 8);
    s.firsts = zeros(MIRROR_STORE_LINES / 2, 4);
    s.counts = zeros(MIRROR_STORE_LINES / 2, 4);
    return calls_of(w[2], &s);
}

static int book(char **w)
{
    uint64_t sheets = 77, windows = 77, notflat = 77, negative = 77, byte = 77, written = 77;
    int64_t least = 77, most = 77;
    struct list *text = read_text(w[1]), *out = text ? lend('c', "188") : NULL;
    OR_BAD(out);
    uint32_t stopped = mirror_book(at(text), text->count, &sheets, &windows, &least, &most, &notflat, &negative, &byte);
    mirror_book_lines(sheets, windows, least, most, notflat, negative, stopped, at(out), out->count, &written);
    for (uint64_t i = 0; i < written; i++)
        printf("%02x", ((const uint8_t *)at(out))[i]);
    return 1;
}

static int one_of(const char *w, const char *names)
{
    size_t n = strlen(w);
    for (const char *p = names; n && (p = strstr(p, w)); p += n)
        if ((p == names || p[-1] == ' ') && (p[n] == ' ' || p[n] == 0))
            return 1;
    return 0;
}

/* Whether the line was a request. */
static int answer(char **w, int words)
{
    if (words == 2 && one_of(w[0], "abs floor ceil round narrow widen"))
        return helper(w);
    if (words == 2 && strcmp(w[0], "clip8") == 0)
        return clip8(w);
    if (words == 3 && strcmp(w[0], "filter") == 0)
        return filter(w);
    if (words == 7 && strcmp(w[0], "crop") == 0)
        return crop(w);
    if ((words == 6 || words == 7) && strcmp(w[0], "fit") == 0)
        return fit(w, words);
    if (words == 14 && strcmp(w[0], "build") == 0)
        return build(w);
    if (words == 8 && one_of(w[0], "norm16 norm32"))
        return normalize(w);
    if (words == 13 && strcmp(w[0], "u16pass") == 0)
        return pass(w, 0);
    if (words == 13 && strcmp(w[0], "u8pass") == 0)
        return pass8(w);
    if (words == 14 && strcmp(w[0], "sideways") == 0)
        return sideways(w);
    if (words == 11 && strcmp(w[0], "f32pass") == 0)
        return pass(w, 1);
    if ((words == 3 && one_of(w[0], "mul8 div8")) || (words == 2 && one_of(w[0], "mul8in div8in")))
        return alpha(w, words);
    if ((words == 3 && one_of(w[0], "mul16 div16")) || (words == 2 && one_of(w[0], "mul16in div16in")))
        return alpha16(w, words);
    if (words == 11 && strcmp(w[0], "sheet") == 0)
        return sheet(w);
    if (words == 13 && strcmp(w[0], "story") == 0)
        return story(w);
    if (words == 6 && one_of(w[0], "read read16"))
        return read_sheet(w);
    if (words == 14 && strcmp(w[0], "accept") == 0)
        return accept(w);
    if (words == 10 && strcmp(w[0], "offer") == 0)
        return offer(w);
    if (words == 3 && strcmp(w[0], "store") == 0)
        return store(w);
    if (words == 2 && strcmp(w[0], "book") == 0)
        return book(w);
    return 0;
}

int main(void)
{
    char *line = NULL;
    size_t room = 0;
    ssize_t length;
    static char buffer[1 << 20];
    setvbuf(stdout, buffer, _IOFBF, sizeof buffer);
    while ((length = getline(&line, &room, stdin)) >= 0) {
        char *words[WORDS + 1];
        int n = 0;
        if (length > 0 && line[length - 1] == '\n')
            line[--length] = 0;
        if (length > 0 && (length > LONGEST || strlen(line) != (size_t)length)) {
            puts("bad");
            continue;
        }
        words[n++] = line;
        for (char *p = line; n <= WORDS && (p = strchr(p, ' ')); words[n++] = p)
            *p++ = 0;
        if (length > 0 && !answer(words, n))
            printf("bad");
        if (!untouched())
            printf(" touched");
        forget_from(0);
        putchar('\n');
    }
    free(line);
    return 0;
}
