/* What one client of a store gets back does not depend on the other: two runs, in which client c makes the same calls with the same lists and has the same share, and the other
 * client's calls, share and frames differ, give c the same answers and outputs byte for byte. Guards stand around every list. Prints how many calls were made and compared. */
#include <stdio.h>
#include <stdlib.h>
#include <string.h>

#include "mirror.h"

enum { MOST = 400, GUARD = 32, FILL = 0x5c, LINES = MIRROR_STORE_LINES, ROOM = 4096 };

struct store {
    uint8_t g0[GUARD];
    uint32_t numbers[MIRROR_STORE_NUMBERS];
    uint8_t g1[GUARD];
    int32_t slots[MOST];
    uint8_t g2[GUARD];
    uint32_t starts[LINES];
    uint8_t g3[GUARD];
    uint32_t sizes[LINES];
    uint8_t g4[GUARD];
    int64_t excesses[LINES];
    uint8_t g5[GUARD];
    double doubles[MOST];
    uint8_t g6[GUARD];
    uint32_t firsts[LINES / 2];
    uint8_t g7[GUARD];
    uint32_t counts[LINES / 2];
    uint8_t g8[GUARD];
    uint16_t out[ROOM];
    uint8_t g9[GUARD];
};

static struct store runs[2];
static long calls, compared, sets, passes;

static uint64_t seed[3];
static uint32_t any(int k, uint32_t n) /* below n, from stream k */
{
    seed[k] ^= seed[k] << 13, seed[k] ^= seed[k] >> 7, seed[k] ^= seed[k] << 17;
    return (uint32_t)((seed[k] >> 20) % n);
}

static int guarded(const struct store *s)
{
    const uint8_t *all[] = { s->g0, s->g1, s->g2, s->g3, s->g4, s->g5, s->g6, s->g7, s->g8, s->g9 };
    for (size_t k = 0; k < sizeof all / sizeof *all; k++)
        for (int i = 0; i < GUARD; i++)
            if (all[k][i] != FILL)
                return 0;
    return 1;
}

#define STORE(s) (s)->numbers, MIRROR_STORE_NUMBERS, (s)->slots, slots, (s)->starts, LINES, (s)->sizes, LINES, (s)->excesses, LINES

struct call {
    int pass;
    uint32_t side, out, filter, adapts, row, first, count, room;
    double left, width;
    uint16_t src[ROOM];
};

/* A call of either kind: small sides, so that many fit the share and some do not; some are refused. */
static void draw(int k, struct call *c)
{
    c->pass = any(k, 2);
    c->side = any(k, 20) + (any(k, 12) != 0);
    c->out = any(k, 20) + (any(k, 12) != 0);
    c->filter = any(k, 3);
    c->adapts = any(k, 2);
    c->left = any(k, 4) ? 0 : any(k, 40) / 2.0;
    c->width = any(k, 4) ? c->side : any(k, 60) / 3.0;
    c->row = any(k, 12);
    c->first = any(k, 4) ? 0 : any(k, 12);
    c->count = any(k, 3) ? c->row - (c->first < c->row ? c->first : 0) : any(k, 12);
    c->room = any(k, 6) ? c->out * c->count : any(k, 300);
    for (int i = 0; i < 240; i++)
        c->src[i] = (uint16_t)any(k, 65536);
}

/* Makes the call for the client in the store s; the answer's numbers in `said`, and of a pass its output in s->out. */
static void make(struct store *s, uint32_t slots, uint32_t client, const struct call *c, uint32_t *said, uint32_t lines, uint32_t windows)
{
    memset(said, 0, 3 * sizeof *said);
    for (int i = 0; i < 300; i++)
        s->out[i] = (uint16_t)(7 * i + 3);
    if (c->pass) { /* mostly a frame and an output that fit the set */
        uint32_t room = windows ? windows * c->count : c->room, samples = lines * c->row;
        if (room > 300 || samples > 240)
            room = c->room % 300, samples = samples % 240;
        said[0] = mirror_store_u16(STORE(s), client, c->src, samples, c->row, c->first, c->count, s->out, room);
        passes += said[0] == 0;
    } else {
        said[0] = mirror_store_put(STORE(s), client, c->side, 1, c->left, 0, c->width, 1, MIRROR_HORIZONTAL, c->out, c->filter, c->adapts,
                                   s->doubles, slots, s->firsts, LINES / 2, s->counts, LINES / 2, said + 1, said + 2);
        sets += said[0] == 0;
    }
    calls++;
}

static int fail(const char *what, long run)
{
    printf("failed=%s run=%ld\n", what, run);
    return 1;
}

/* One client's numbers, slots, starts, sizes and excesses in both runs. */
static int same_part(uint32_t slots, uint32_t c, uint32_t share)
{
    const struct store *a = runs, *b = runs + 1;
    uint32_t from[2] = { c ? a->numbers[0] : 0, c ? b->numbers[0] : 0 }, w = a->numbers[c * 5 + 2], n = w * a->numbers[c * 5 + 3];
    (void)slots;
    return memcmp(a->numbers + c * 5, b->numbers + c * 5, 20) == 0 && n <= share && memcmp(a->slots + from[0], b->slots + from[1], n * sizeof *a->slots) == 0 &&
           memcmp(a->starts + c * 8192, b->starts + c * 8192, w * sizeof *a->starts) == 0 && memcmp(a->sizes + c * 8192, b->sizes + c * 8192, w * sizeof *a->sizes) == 0 &&
           memcmp(a->excesses + c * 8192, b->excesses + c * 8192, w * sizeof *a->excesses) == 0;
}

int main(int argc, char **argv)
{
    long wanted = argc > 1 ? atol(argv[1]) : 1000000, run = 0;
    static struct call own, other;
    seed[0] = 0x9e3779b97f4a7c15u, seed[1] = 0xd1b54a32d192ed03u, seed[2] = 0x2545f4914f6cdd1du;
    memset(runs, FILL, sizeof runs);
    for (; calls < wanted; run++) {
        uint32_t c = any(0, 2), share = any(0, 200), slots[2];
        for (int k = 0; k < 2; k++) { /* the other's share differs, and with it where client 1 begins; what the lists held before differs too */
            uint32_t rest = any(1 + k, 200);
            slots[k] = share + rest + any(1 + k, 2);
            for (uint32_t i = 0; i < MOST; i++)
                runs[k].slots[i] = (int32_t)any(1 + k, 1000);
            if (mirror_store_restart(runs[k].numbers, MIRROR_STORE_NUMBERS, runs[k].slots, slots[k], runs[k].starts, LINES, runs[k].sizes, LINES, runs[k].excesses, LINES, c ? rest : share, c ? share : rest) != 0)
                return fail("restart", run);
        }
        for (int step = 0; step < 20; step++) {
            uint32_t said[2][3], lines = runs[0].numbers[c * 5 + 1], windows = runs[0].numbers[c * 5 + 2];
            for (int k = 0; k < 2; k++) /* any number of calls of the other client, different in each run */
                for (uint32_t n = any(1 + k, 3); n > 0; n--) {
                    uint32_t unused[3];
                    draw(1 + k, &other);
                    make(runs + k, slots[k], 1 - c, &other, unused, runs[k].numbers[(1 - c) * 5 + 1], runs[k].numbers[(1 - c) * 5 + 2]);
                }
            draw(0, &own);
            for (int k = 0; k < 2; k++)
                make(runs + k, slots[k], c, &own, said[k], lines, windows);
            if (memcmp(said[0], said[1], sizeof said[0]) != 0)
                return fail("answer", run);
            if (memcmp(runs[0].out, runs[1].out, 300 * sizeof *runs[0].out) != 0)
                return fail("output", run);
            if (!same_part(slots[0], c, share))
                return fail("set", run);
            if (!guarded(runs) || !guarded(runs + 1))
                return fail("guard", run);
            compared++;
        }
    }
    printf("runs=%ld calls=%ld compared=%ld sets=%ld passes=%ld differ=0\n", 2 * run, calls, compared, sets, passes);
    return sets == 0 || passes == 0;
}
