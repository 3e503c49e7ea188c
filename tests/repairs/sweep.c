/* sweep: CatmullRom sets of all small sizes, repaired. An offer of our own is asked for, looked over here (each weight within 1, as many moved as the excess asks and no more,
 * all the same way, totals of 2^precision), judged by the library and taken over; flat frames then have to keep their value. Each frame is a row of
 * sixteen columns and one more, since sixteen are computed together. Before the repair the same frames are counted where they do not keep their value. One
 * line for each store, and status 1 where something is not as it has to be. */
#include <inttypes.h>
#include <stdio.h>
#include <stdlib.h>

#include "mirror.h"

enum { MOST = 64, SLOTS = 7 * MOST, ROW = 17, GREYS = 5 };
static const uint16_t greys[GREYS] = {0, 1, 32767, 32768, 65535};
static const uint8_t bytes[GREYS] = {0, 1, 127, 128, 255};

/* What a store's sets gave. */
static struct {
    const char *name;
    unsigned sets, windows, uneven, moved, frames, changed, bytes_changed, differ;
} told[2] = {{.name = "16"}, {.name = "32"}};

static uint32_t side, output, window, precision, starts[MOST], sizes[MOST];
static double slots[SLOTS];
static int16_t narrow[SLOTS], narrow_offer[SLOTS];
static int32_t wide[SLOTS], wide_offer[SLOTS], before[SLOTS];
static int64_t excesses[MOST], was[MOST];

static void differs(int store, const char *what)
{
    if (told[store].differ++ < 20)
        printf("differs: store %s, %" PRIu32 " lines to %" PRIu32 ": %s\n", told[store].name, side, output, what);
}

/* How many flat frames of 16 bits, and of bytes, do not keep their value; `wide` has the weights of either store. */
static unsigned changed_u16(int store)
{
    static uint16_t frame[MOST * ROW], out[MOST * ROW];
    unsigned changed = 0;
    for (int g = 0; g < GREYS; g++) {
        int kept = 1;
        for (uint32_t i = 0; i < side * ROW; i++)
            frame[i] = greys[g];
        if (mirror_vertical_u16(frame, side * ROW, side, ROW, 0, ROW, wide, window * output, starts, output, sizes, output, excesses, output, window, precision,
                                out, output * ROW) != MIRROR_DONE)
            differs(store, "the u16 pass refuses the set");
        for (uint32_t i = 0; i < output * ROW; i++)
            kept &= out[i] == greys[g];
        changed += !kept;
    }
    return changed;
}

static unsigned changed_u8(void)
{
    static uint8_t frame[MOST * ROW], out[MOST * ROW];
    unsigned changed = 0;
    for (int g = 0; g < GREYS; g++) {
        int kept = 1;
        for (uint32_t i = 0; i < side * ROW; i++)
            frame[i] = bytes[g];
        if (mirror_vertical_u8(frame, side * ROW, side, ROW, 0, ROW, narrow, window * output, starts, output, sizes, output, excesses, output, window, precision,
                               out, output * ROW) != MIRROR_DONE)
            differs(0, "the u8 pass refuses the set");
        for (uint32_t i = 0; i < output * ROW; i++)
            kept &= out[i] == bytes[g];
        changed += !kept;
    }
    return changed;
}

/* What was taken over, beside what was stored: in each window the first weights moved, as many as the excess asked, one way; the total is right and the excess 0. No
 * weight of these sets stands at an end of its type, so the first are the first of all. */
static void look_over(int store)
{
    for (uint32_t i = 0; i < output; i++) {
        int64_t total = 0, left = was[i] < 0 ? -was[i] : was[i];
        told[store].windows++;
        told[store].uneven += was[i] != 0;
        for (uint32_t k = 0; k < window; k++) {
            int32_t now = wide[i * window + k], then = before[i * window + k];
            int64_t by = k < sizes[i] && left > 0 ? (was[i] > 0 ? -1 : 1) : 0;
            if (now - (int64_t)then != by)
                differs(store, "a weight moved that should not, or did not");
            told[store].moved += by != 0;
            left -= by != 0;
            total += k < sizes[i] ? now : 0;
        }
        if (left || total != INT64_C(1) << precision || excesses[i])
            differs(store, "a window's total is not 2^precision, or its excess not 0");
    }
}

static void repair(int store)
{
    uint32_t n = window * output, no, line = 77;
    if (store == 0)
        no = mirror_normalize16(side, window, slots, n, starts, output, sizes, output, narrow, n, excesses, output, &precision);
    else
        no = mirror_normalize32(side, window, slots, n, starts, output, sizes, output, wide, n, excesses, output, &precision);
    if (no != MIRROR_DONE) {
        differs(store, "the normaliser refuses the set");
        return;
    }
    told[store].sets++;
    for (uint32_t k = 0; k < n; k++)
        before[k] = wide[k] = store == 0 ? narrow[k] : wide[k];
    for (uint32_t i = 0; i < output; i++)
        was[i] = excesses[i];
    told[store].changed += changed_u16(store);
    if (store == 0)
        told[store].bytes_changed += changed_u8();
    if (store == 0)
        no = mirror_offer16(side, window, precision, narrow, n, starts, output, sizes, output, excesses, output, narrow_offer, n, &line);
    else
        no = mirror_offer32(side, window, precision, wide, n, starts, output, sizes, output, excesses, output, wide_offer, n, &line);
    if (no != MIRROR_DONE || line != 0)
        differs(store, "there is no offer");
    if (store == 0)
        no = mirror_accept16(side, window, precision, narrow, n, starts, output, sizes, output, excesses, output, window, precision, starts, output, sizes, output,
                             narrow_offer, n);
    else
        no = mirror_accept32(side, window, precision, wide, n, starts, output, sizes, output, excesses, output, window, precision, starts, output, sizes, output,
                             wide_offer, n);
    if (no != MIRROR_DONE)
        differs(store, "our own offer is not accepted");
    for (uint32_t k = 0; store == 0 && k < n; k++)
        wide[k] = narrow[k];
    look_over(store);
    told[store].frames += store == 0 ? 2 * GREYS : GREYS;
    if (changed_u16(store))
        differs(store, "a flat frame of 16 bits changed");
    if (store == 0 && changed_u8())
        differs(store, "a flat frame of bytes changed");
}

int main(void)
{
    int failed = 0;
    for (side = 1; side <= MOST; side++)
        for (output = 1; output <= MOST; output++)
            for (uint32_t adapts = 0; adapts < 2; adapts++) {
                uint32_t line;
                if (mirror_weights(1, side, 0, 0, 1, side, MIRROR_VERTICAL, output, MIRROR_CATMULLROM, adapts, slots, SLOTS, starts, output, sizes, output, &window,
                                   &line) != MIRROR_DONE) {
                    differs(0, "the builder refuses the request");
                    continue;
                }
                repair(0);
                repair(1);
            }
    for (int s = 0; s < 2; s++) {
        printf("store=%s sets=%u windows=%u uneven=%u moved=%u frames-changed-before=%u bytes-changed-before=%u frames=%u differ=%u\n", told[s].name, told[s].sets,
               told[s].windows, told[s].uneven, told[s].moved, told[s].changed, told[s].bytes_changed, told[s].frames, told[s].differ);
        failed |= told[s].differ != 0 || told[s].sets != 2 * MOST * MOST || told[s].moved == 0;
    }
    return failed;
}
