/* Offered repairs, in both stores: an offer judged and taken over, an offer of our own, and each way to be refused. */
#include "check.h"

static const uint32_t starts[] = {0, 2, 2}, sizes[] = {3, 2, 1}, other[] = {2, 2}, empty[] = {3, 0};

/* Four camera lines, two windows of three slots, the last slot idle; the excesses are 1 and -1, and the fourth weight cannot go up. */
#define REPAIRS(bits, type, top, accept, offer)                                                                                               \
    static void repairs_##bits(void)                                                                                                          \
    {                                                                                                                                         \
        static const type stored[] = {1, (top), 1, (top), 0, 9}, good[] = {1, (top) - 1, 1, (top), 1, -9, 7}, own[] = {0, (top), 1, (top), 1, 0}; \
        static const type far[] = {1, (top), 0, (top) - 1, 2, 9}, uneven[] = {1, (top), 0, (top), 0, 9}, full[] = {1, (top), 1, (top), (top), 9}; \
        static const int64_t over[] = {1, -1, 0}, wrong[] = {1, 0}, much[] = {1, (int64_t)(top) - 1};                                         \
        const uint32_t p = (bits) - 1;                                                                                                        \
        LENT(type, weights, 7);                                                                                                               \
        LENT(int64_t, excesses, 3);                                                                                                           \
        LENT(type, out, 8);                                                                                                                   \
        uint32_t line = 77;                                                                                                                   \
        memcpy(weights.at, stored, sizeof stored);                                                                                            \
        memcpy(excesses.at, over, 2 * sizeof over[0]);                                                                                        \
        NOT_TAKEN(accept, MIRROR_NO_OFFER, 4, 3, p, 6, 2, sizes, 2, 2, 2, p, starts, 2, sizes, 2, good, 6);                                   \
        NOT_TAKEN(accept, MIRROR_NO_OFFER, 4, 3, p, 6, 2, sizes, 2, 2, 3, p + 1, starts, 2, sizes, 2, good, 6);                               \
        NOT_TAKEN(accept, MIRROR_NO_OFFER, 4, 3, p, 6, 2, sizes, 2, 2, 3, p, starts, 1, sizes, 2, good, 6);                                   \
        NOT_TAKEN(accept, MIRROR_NO_OFFER, 4, 3, p, 6, 2, sizes, 2, 2, 3, p, starts, 3, sizes, 2, good, 6);                                   \
        NOT_TAKEN(accept, MIRROR_NO_OFFER, 4, 3, p, 6, 2, sizes, 2, 2, 3, p, other, 2, sizes, 2, good, 6);                                    \
        NOT_TAKEN(accept, MIRROR_NO_OFFER, 4, 3, p, 6, 2, sizes, 2, 2, 3, p, starts, 2, sizes, 3, good, 6);                                   \
        NOT_TAKEN(accept, MIRROR_NO_OFFER, 4, 3, p, 6, 2, sizes, 2, 2, 3, p, starts, 2, other, 2, good, 6);                                   \
        NOT_TAKEN(accept, MIRROR_NO_OFFER, 4, 3, p, 6, 2, sizes, 2, 2, 3, p, starts, 2, sizes, 2, good, 5);                                   \
        NOT_TAKEN(accept, MIRROR_NO_OFFER, 4, 3, p, 6, 2, sizes, 2, 2, 3, p, starts, 2, sizes, 2, good, 7);                                   \
        NOT_TAKEN(accept, MIRROR_NO_OFFER, 4, 3, p, 6, 2, sizes, 2, 2, 3, p, starts, 2, sizes, 2, far, 6);                                    \
        NOT_TAKEN(accept, MIRROR_NO_OFFER, 4, 3, p, 6, 2, sizes, 2, 2, 3, p, starts, 2, sizes, 2, uneven, 6);                                 \
        NOT_TAKEN(accept, MIRROR_BAD_SIDE, 0, 3, p, 6, 2, sizes, 2, 2, 3, p, starts, 2, sizes, 2, good, 6);                                   \
        NOT_TAKEN(accept, MIRROR_BAD_SIDE, 4, 3, p, 6, 0, sizes, 2, 2, 3, p, starts, 2, sizes, 2, good, 6);                                   \
        NOT_TAKEN(accept, MIRROR_DOES_NOT_FIT, 4, 2, p, 6, 2, sizes, 2, 2, 3, p, starts, 2, sizes, 2, good, 5);                               \
        NOT_TAKEN(accept, MIRROR_DOES_NOT_FIT, 4, 3, 3, 6, 2, sizes, 2, 2, 3, p, starts, 2, sizes, 2, good, 6);                               \
        NOT_TAKEN(accept, MIRROR_DOES_NOT_FIT, 3, 3, p, 6, 2, sizes, 2, 2, 3, p, starts, 2, sizes, 2, good, 6);                               \
        NOT_TAKEN(accept, MIRROR_DOES_NOT_FIT, 4, 3, p, 5, 2, sizes, 2, 2, 3, p, starts, 2, sizes, 2, good, 6);                               \
        NOT_TAKEN(accept, MIRROR_DOES_NOT_FIT, 4, 3, p, 6, 2, empty, 2, 2, 3, p, starts, 2, sizes, 2, good, 6);                               \
        NOT_TAKEN(accept, MIRROR_DOES_NOT_FIT, 4, 3, p, 6, 2, sizes, 1, 2, 3, p, starts, 2, sizes, 2, good, 6);                               \
        NOT_TAKEN(accept, MIRROR_DOES_NOT_FIT, 4, 3, p, 6, 2, sizes, 2, 1, 3, p, starts, 2, sizes, 2, good, 6);                               \
        NOT_MADE(offer, MIRROR_BAD_SIDE, 0, 8193, 3, p, stored, 6, starts, 2, sizes, 2, over, 2, 5);                                          \
        NOT_MADE(offer, MIRROR_BAD_SIDE, 0, 4, 3, p, stored, 6, starts, 0, sizes, 2, over, 2, 6);                                             \
        NOT_MADE(offer, MIRROR_TOO_FEW_SLOTS, 0, 4, 3, p, stored, 6, starts, 2, sizes, 2, wrong, 2, 5);                                       \
        NOT_MADE(offer, MIRROR_DOES_NOT_FIT, 0, 4, 3, p, stored, 6, starts, 2, sizes, 2, wrong, 2, 6);                                        \
        NOT_MADE(offer, MIRROR_DOES_NOT_FIT, 0, 4, 3, p, stored, 6, starts, 2, sizes, 2, over, 3, 6);                                         \
        NOT_MADE(offer, MIRROR_DOES_NOT_FIT, 0, 4, 3, p, stored, 6, other, 2, sizes, 2, over, 2, 6);                                          \
        NOT_MADE(offer, MIRROR_DOES_NOT_FIT, 0, 4, 3, (bits) == 16 ? 22 : 46, stored, 6, starts, 2, sizes, 2, over, 2, 6);                    \
        NOT_MADE(offer, MIRROR_NO_OFFER, 1, 4, 3, p, full, 6, starts, 2, sizes, 2, much, 2, 8);                                               \
        CHECK(offer(4, 3, p, stored, 6, starts, 2, sizes, 2, over, 2, LIST(out), &line) == MIRROR_DONE && line == 0);                         \
        CHECK(memcmp(out.at, own, sizeof own) == 0 && KEPT_FROM(out, 6));                                                                     \
        /* the offer of somebody else; then our own, for what is stored now: nothing is left to move */                                       \
        CHECK(accept(4, 3, p, weights.at, 6, starts, 2, sizes, 2, excesses.at, 2, 3, p, starts, 2, sizes, 2, good, 6) == MIRROR_DONE);        \
        CHECK(memcmp(weights.at, good, 5 * sizeof good[0]) == 0 && weights.at[5] == 9 && KEPT_FROM(weights, 6));                              \
        CHECK(excesses.at[0] == 0 && excesses.at[1] == 0 && KEPT_FROM(excesses, 2));                                                          \
        CHECK(offer(4, 3, p, weights.at, 6, starts, 2, sizes, 2, excesses.at, 2, out.at, 6, &line) == MIRROR_DONE && line == 0);              \
        CHECK(memcmp(out.at, good, 5 * sizeof good[0]) == 0 && out.at[5] == 0 && KEPT_FROM(out, 6));                                          \
    }

/* Refused: weights and excesses are as they were. */
#define NOT_TAKEN(accept, number, lines, window, p, slots, k, sizes, m, x, window2, p2, starts2, k2, sizes2, m2, offered, slots2)             \
    CHECK(accept(lines, window, p, weights.at, slots, starts, k, sizes, m, excesses.at, x, window2, p2, starts2, k2, sizes2, m2,              \
                              offered, slots2) == (number));                                                                                  \
    CHECK(memcmp(weights.at, stored, sizeof stored) == 0 && KEPT_FROM(weights, 6) && memcmp(excesses.at, over, 2 * sizeof over[0]) == 0 &&    \
          KEPT_FROM(excesses, 2))

#define NOT_MADE(offer, number, first, lines, window, p, ws, slots, starts, k, sizes, m, over, x, room)                                       \
    line = 77;                                                                                                                                \
    CHECK(offer(lines, window, p, ws, slots, starts, k, sizes, m, over, x, out.at, room, &line) == (number));                                 \
    CHECK(line == (first) && UNCHANGED(out))

REPAIRS(16, int16_t, INT16_MAX, mirror_accept16, mirror_offer16)
REPAIRS(32, int32_t, INT32_MAX, mirror_accept32, mirror_offer32)

void check_repairs(void)
{
    repairs_16();
    repairs_32();
}
