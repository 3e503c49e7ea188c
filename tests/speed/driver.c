/* driver CASE SIDE RUNS: runs one function RUNS times on inputs that depend on the case alone, and says what it wrote.
 * SIDE is `rust` (the given Rust, given.rs) or `port` (the static library, mirror.h). A function that the library does not have
 * is answered by `missing`. Cases: multiply, multiply_in, divide, divide_in, the same with 16; u16_N, u8_N or f32_N for windows of N lines, u16_N_C for frames of C columns; build, norm16,
 * norm32. The Rust of u8_N is ours, written as the given u16 pass is. */
#include <inttypes.h>
#include <stdio.h>
#include <stdlib.h>
#include <string.h>

#include "mirror.h"

#pragma weak mirror_weights
#pragma weak mirror_normalize16
#pragma weak mirror_normalize32
#pragma weak mirror_vertical_u16
#pragma weak mirror_vertical_u8
#pragma weak mirror_vertical_f32
#pragma weak mirror_multiply_u8x4
#pragma weak mirror_multiply_u8x4_inplace
#pragma weak mirror_divide_u8x4
#pragma weak mirror_divide_u8x4_inplace
#pragma weak mirror_multiply_u16x4
#pragma weak mirror_multiply_u16x4_inplace
#pragma weak mirror_divide_u16x4
#pragma weak mirror_divide_u16x4_inplace

struct job;
extern void given_run(struct job *);
extern size_t given_written(const struct job *, uint8_t *);
extern struct job *given_alpha(uint32_t divide, uint32_t in_place, const uint8_t *, size_t);
extern struct job *given_alpha16(uint32_t divide, uint32_t in_place, const uint16_t *, size_t);
extern struct job *given_u16(uint32_t kind, uint32_t side, uint32_t out, uint32_t row, const uint16_t *);
extern struct job *given_u8(uint32_t side, uint32_t out, uint32_t row, const uint8_t *, uint32_t window, uint32_t precision, const int16_t *, const uint32_t *,
                            const uint32_t *);
extern struct job *given_f32(uint32_t kind, uint32_t side, uint32_t out, uint32_t row, const float *);
extern struct job *given_build(uint32_t kind, uint32_t side, uint32_t out, uint32_t runs);
extern struct job *given_normalize(uint32_t bits, uint32_t kind, uint32_t side, uint32_t out, uint32_t runs);
extern uint32_t given_set(uint32_t kind, uint32_t side, uint32_t out, double *, uint32_t *, uint32_t *);
extern uint32_t given_integers(uint32_t kind, uint32_t side, uint32_t out, int32_t *);

enum { COLUMNS = 1920, PIXELS = 65536, SLOTS = 1 << 20, ROOM = 1 << 24 };

static _Alignas(16) uint8_t written[ROOM];
static double slots[SLOTS];
static double made_slots[SLOTS];
static uint32_t starts[8192], sizes[8192], made_starts[8192], made_sizes[8192];
static int32_t weights[SLOTS];
static int16_t made16[SLOTS];
static int32_t made32[SLOTS];
static int64_t over[8192]; /* each window's excess, which the Rust does not have */
static uint64_t seed = 88172645463325252u;

static uint32_t next(void)
{
    seed ^= seed << 13;
    seed ^= seed >> 7;
    seed ^= seed << 17;
    return (uint32_t)(seed >> 32);
}

static void end(size_t length, size_t items, uint32_t answer)
{
    uint64_t sum = 14695981039346656037u;
    for (size_t i = 0; i < length; i++)
        sum = (sum ^ written[i]) * 1099511628211u;
    printf("answer=%" PRIu32 " items=%zu bytes=%zu sum=%016" PRIx64 "\n", answer, items, length, sum);
    exit(0);
}

static void given(struct job *job, int runs, size_t items)
{
    for (int i = 0; i < runs; i++)
        given_run(job);
    end(given_written(job, written), items, 0);
}

static void missing_if(int it_is)
{
    if (it_is) {
        printf("missing\n");
        exit(0);
    }
}

static void alpha(const char *name, int port, int runs)
{
    int divide = name[0] == 'd', in_place = strstr(name, "_in") != NULL;
    size_t length = 4 * (size_t)PIXELS;
    uint8_t *src = malloc(length);
    for (size_t i = 0; i < length; i++)
        src[i] = (uint8_t)next();
    if (!port)
        given(given_alpha(divide, in_place, src, length), runs, PIXELS);
    missing_if(divide ? (in_place ? !mirror_divide_u8x4_inplace : !mirror_divide_u8x4)
                      : (in_place ? !mirror_multiply_u8x4_inplace : !mirror_multiply_u8x4));
    uint32_t no = 0;
    memcpy(written, src, in_place ? length : 0);
    for (int i = 0; i < runs; i++) {
        if (divide)
            no = in_place ? mirror_divide_u8x4_inplace(written, length) : mirror_divide_u8x4(src, length, written, length);
        else
            no = in_place ? mirror_multiply_u8x4_inplace(written, length) : mirror_multiply_u8x4(src, length, written, length);
    }
    end(length, PIXELS, no);
}

/* Colours within their alpha, as a multiplied frame has them; the given product wraps at one pair above it. Every eighth pixel is opaque. */
static void alpha16(const char *name, int port, int runs)
{
    int divide = name[0] == 'd', in_place = strstr(name, "_in") != NULL;
    size_t length = 4 * (size_t)PIXELS;
    uint16_t *src = malloc(2 * length), *made = (uint16_t *)written;
    for (size_t i = 0; i < length; i += 4) {
        src[i + 3] = i % 32 == 0 ? 65535 : (uint16_t)next();
        for (size_t k = i; k < i + 3; k++)
            src[k] = (uint16_t)(next() % (src[i + 3] + 1u));
    }
    if (!port)
        given(given_alpha16(divide, in_place, src, length), runs, PIXELS);
    missing_if(divide ? (in_place ? !mirror_divide_u16x4_inplace : !mirror_divide_u16x4)
                      : (in_place ? !mirror_multiply_u16x4_inplace : !mirror_multiply_u16x4));
    uint32_t no = 0;
    memcpy(made, src, in_place ? 2 * length : 0);
    for (int i = 0; i < runs; i++) {
        if (divide)
            no = in_place ? mirror_divide_u16x4_inplace(made, length) : mirror_divide_u16x4(src, length, made, length);
        else
            no = in_place ? mirror_multiply_u16x4_inplace(made, length) : mirror_multiply_u16x4(src, length, made, length);
    }
    end(2 * length, PIXELS, no);
}

/* A whole side, adapting, by filter and sides: windows of so many lines. */
static void shape(int taps, uint32_t *kind, uint32_t *side, uint32_t *out)
{
    static const struct { int taps; uint32_t kind, side, out; } shapes[] = {
        {2, MIRROR_BILINEAR, 64, 128},     {4, MIRROR_BILINEAR, 128, 64},     {8, MIRROR_CATMULLROM, 128, 64},    {16, MIRROR_CATMULLROM, 128, 32},
        {32, MIRROR_CATMULLROM, 512, 64},  {33, MIRROR_CATMULLROM, 528, 64},  {64, MIRROR_CATMULLROM, 1024, 64},
    };
    for (size_t i = 0; i < sizeof shapes / sizeof *shapes; i++)
        if (shapes[i].taps == taps) {
            *kind = shapes[i].kind, *side = shapes[i].side, *out = shapes[i].out;
            return;
        }
    exit(2);
}

static void pass(int floats, int taps, uint32_t row, int port, int runs)
{
    uint32_t kind, side, out, infinite, no = 0;
    shape(taps, &kind, &side, &out);
    size_t samples = (size_t)side * row, items = (size_t)out * row;
    uint16_t *whole = malloc(samples * 2);
    float *real = malloc(samples * 4);
    for (size_t i = 0; i < samples; i++) {
        whole[i] = (uint16_t)next();
        real[i] = (float)whole[i] / 65535.0f;
    }
    if (!port)
        given(floats ? given_f32(kind, side, out, row, real) : given_u16(kind, side, out, row, whole), runs, items);
    missing_if(floats ? !mirror_vertical_f32 : !mirror_vertical_u16);
    uint32_t window = given_set(kind, side, out, slots, starts, sizes);
    uint32_t precision = given_integers(kind, side, out, weights);
    size_t count = (size_t)window * out;
    for (size_t i = 0; i < out; i++) {
        over[i] = -((int64_t)1 << precision);
        for (size_t k = 0; k < sizes[i]; k++)
            over[i] += weights[i * window + k];
    }
    for (int i = 0; i < runs; i++) {
        if (floats)
            no = mirror_vertical_f32(real, samples, side, row, 0, row, slots, count, starts, out, sizes, out, window, (float *)written, items, &infinite);
        else
            no = mirror_vertical_u16(whole, samples, side, row, 0, row, weights, count, starts, out, sizes, out, over, out, window, precision,
                                     (uint16_t *)written, items);
    }
    end(items * (floats ? 4 : 2), items, no);
}

static void bytes(int taps, uint32_t row, int port, int runs)
{
    uint32_t kind, side, out, precision, no = 0;
    shape(taps, &kind, &side, &out);
    size_t samples = (size_t)side * row, items = (size_t)out * row;
    uint8_t *whole = malloc(samples);
    for (size_t i = 0; i < samples; i++)
        whole[i] = (uint8_t)next();
    missing_if(!mirror_vertical_u8 || !mirror_normalize16);
    uint32_t window = given_set(kind, side, out, slots, starts, sizes);
    size_t count = (size_t)window * out;
    if (mirror_normalize16(side, window, slots, count, starts, out, sizes, out, made16, count, over, out, &precision) != MIRROR_DONE)
        exit(2);
    if (!port)
        given(given_u8(side, out, row, whole, window, precision, made16, starts, sizes), runs, items);
    for (int i = 0; i < runs; i++)
        no = mirror_vertical_u8(whole, samples, side, row, 0, row, made16, count, starts, out, sizes, out, over, out, window, precision, written, items);
    end(items, items, no);
}

static void build(uint32_t kind, uint32_t side, uint32_t out, int port, int runs)
{
    uint32_t window = given_set(kind, side, out, slots, starts, sizes), line, no = 0;
    size_t count = (size_t)window * out;
    if (!port)
        given(given_build(kind, side, out, (uint32_t)runs), runs, count);
    missing_if(!mirror_weights);
    for (int i = 0; i < runs; i++)
        no = mirror_weights(side, 1, 0, 0, side, 1, MIRROR_HORIZONTAL, out, kind, 1, made_slots, count, made_starts, out, made_sizes, out,
                            &window, &line);
    memcpy(written, made_slots, count * 8);
    memcpy(written + count * 8, made_starts, out * 4);
    memcpy(written + count * 8 + out * 4, made_sizes, out * 4);
    end(count * 8 + out * 8, count, no);
}

static void normalize(int bits, uint32_t kind, uint32_t side, uint32_t out, int port, int runs)
{
    uint32_t window = given_set(kind, side, out, slots, starts, sizes), precision = 0, no = 0;
    size_t count = (size_t)window * out, width = bits / 8;
    if (!port)
        given(given_normalize(bits, kind, side, out, (uint32_t)runs), runs, count);
    missing_if(bits == 16 ? !mirror_normalize16 : !mirror_normalize32);
    for (int i = 0; i < runs; i++) {
        if (bits == 16)
            no = mirror_normalize16(side, window, slots, count, starts, out, sizes, out, made16, count, over, out, &precision);
        else
            no = mirror_normalize32(side, window, slots, count, starts, out, sizes, out, made32, count, over, out, &precision);
    }
    memcpy(written, bits == 16 ? (void *)made16 : (void *)made32, count * width);
    memcpy(written + count * width, &precision, 4);
    end(count * width + 4, count, no);
}

int main(int argc, char **argv)
{
    if (argc != 4)
        return 2;
    const char *name = argv[1];
    int port = strcmp(argv[2], "port") == 0, runs = atoi(argv[3]), taps, columns = COLUMNS;
    if (strncmp(name, "multiply16", 10) == 0 || strncmp(name, "divide16", 8) == 0)
        alpha16(name, port, runs);
    if (strncmp(name, "multiply", 8) == 0 || strncmp(name, "divide", 6) == 0)
        alpha(name, port, runs);
    if (sscanf(name, "u16_%d_%d", &taps, &columns) >= 1)
        pass(0, taps, (uint32_t)columns, port, runs);
    if (sscanf(name, "u8_%d_%d", &taps, &columns) >= 1)
        bytes(taps, columns, port, runs);
    if (sscanf(name, "f32_%d_%d", &taps, &columns) >= 1)
        pass(1, taps, (uint32_t)columns, port, runs);
    if (strcmp(name, "build_box") == 0)
        build(MIRROR_BOX, 1080, 270, port, runs);
    if (strcmp(name, "build_catmullrom") == 0)
        build(MIRROR_CATMULLROM, 1080, 720, port, runs);
    if (strcmp(name, "norm16") == 0)
        normalize(16, MIRROR_CATMULLROM, 1080, 720, port, runs);
    if (strcmp(name, "norm32") == 0)
        normalize(32, MIRROR_CATMULLROM, 1080, 720, port, runs);
    return 2;
}
