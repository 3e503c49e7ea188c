/* One store for two clients: document 02's refusals, what is kept after them, and that a call touches its own client's parts alone. */
#include "check.h"

enum { SLOTS = 30 };

/* A store of 30 slots between guards, and the room that a put works in. */
struct store {
    uint8_t before[GUARD];
    uint32_t numbers[MIRROR_STORE_NUMBERS];
    uint8_t guard1[GUARD];
    int32_t slots[SLOTS];
    uint8_t guard2[GUARD];
    uint32_t starts[MIRROR_STORE_LINES];
    uint8_t guard3[GUARD];
    uint32_t sizes[MIRROR_STORE_LINES];
    uint8_t guard4[GUARD];
    int64_t excesses[MIRROR_STORE_LINES];
    uint8_t after[GUARD];
};

static struct store held, kept;
static double doubles[SLOTS];
static uint32_t firsts[MIRROR_STORE_LINES / 2], counts[MIRROR_STORE_LINES / 2], window, line;

#define STORE(s) (s).numbers, MIRROR_STORE_NUMBERS, (s).slots, SLOTS, (s).starts, MIRROR_STORE_LINES, (s).sizes, MIRROR_STORE_LINES, (s).excesses, MIRROR_STORE_LINES
#define WORK doubles, SLOTS, firsts, MIRROR_STORE_LINES / 2, counts, MIRROR_STORE_LINES / 2

/* Guards and lists, all of them. */
static int same(void)
{
    return memcmp(&held, &kept, sizeof held) == 0;
}

static uint32_t restart(uint32_t first, uint32_t second)
{
    kept = held;
    return mirror_store_restart(STORE(held), first, second);
}

/* A set of `side` camera lines to as many display lines, and the client's answer. */
static uint32_t put(uint32_t client, uint32_t side, double left, double width, uint32_t out, uint32_t filter)
{
    kept = held;
    window = line = 77;
    return mirror_store_put(STORE(held), client, side, 1, left, 0, width, 1, MIRROR_HORIZONTAL, out, filter, 0, WORK, &window, &line);
}

static uint32_t pass(uint32_t client, uint16_t *out, size_t room)
{
    static const uint16_t src[] = { 7, 8, 9 };
    return mirror_store_u16(STORE(held), client, src, 3, 1, 0, 1, out, room);
}

static void check_lists(void)
{
    uint16_t out[3] = { 1, 2, 3 };
    kept = held;
    CHECK(mirror_store_restart(held.numbers, 9, held.slots, SLOTS, held.starts, MIRROR_STORE_LINES, held.sizes, MIRROR_STORE_LINES, held.excesses, MIRROR_STORE_LINES, 0, 0) == MIRROR_DOES_NOT_FIT);
    CHECK(mirror_store_restart(held.numbers, 10, held.slots, SLOTS, held.starts, 16383, held.sizes, MIRROR_STORE_LINES, held.excesses, MIRROR_STORE_LINES, 40, 0) == MIRROR_DOES_NOT_FIT);
    CHECK(mirror_store_u16(held.numbers, 10, held.slots, SLOTS, held.starts, MIRROR_STORE_LINES, held.sizes, 0, held.excesses, MIRROR_STORE_LINES, 0, out, 3, 1, 0, 1, out, 3) == MIRROR_DOES_NOT_FIT);
    window = line = 77;
    CHECK(mirror_store_put(STORE(held), 0, 3, 1, 0, 0, 3, 1, MIRROR_HORIZONTAL, 3, MIRROR_BOX, 0, doubles, 8, firsts, 8192, counts, 8192, &window, &line) == MIRROR_DOES_NOT_FIT);
    CHECK(window == 0 && line == 0 && same());
    CHECK(mirror_store_put(STORE(held), 0, 3, 1, 0, 0, 3, 1, MIRROR_HORIZONTAL, 3, MIRROR_BOX, 0, doubles, SLOTS, firsts, 8191, counts, 8192, &window, &line) == MIRROR_DOES_NOT_FIT && same());
}

void check_stores(void)
{
    uint16_t out[3] = { 1, 2, 3 };
    memset(&held, FILL, sizeof held);
    memset(held.numbers, 0, sizeof held.numbers);
    CHECK(pass(0, out, 3) == MIRROR_DOES_NOT_FIT);
    CHECK(put(0, 3, 0, 3, 3, MIRROR_BOX) == MIRROR_TOO_FEW_SLOTS && same());
    CHECK(restart(16, 15) == MIRROR_SHARES_DO_NOT_FIT && same());
    CHECK(restart(UINT32_MAX, UINT32_MAX) == MIRROR_SHARES_DO_NOT_FIT && same());
    CHECK(restart(9, 21) == MIRROR_DONE && held.numbers[0] == 9 && held.numbers[5] == 21);
    check_lists();
    CHECK(put(2, 0, 0, 3, 3, MIRROR_BOX) == MIRROR_DOES_NOT_FIT && window == 0 && same());
    CHECK(put(0, 3, 0, 3, 3, MIRROR_BOX) == MIRROR_DONE && window == 3 && line == 0);
    CHECK(memcmp(held.slots + 9, kept.slots + 9, 21 * sizeof *held.slots) == 0 && memcmp(held.numbers + 5, kept.numbers + 5, 20) == 0);
    CHECK(held.starts[2] == 2 && held.sizes[2] == 1 && held.excesses[2] == 0 && memcmp(held.starts + 3, kept.starts + 3, sizeof held.starts - 12) == 0);
    CHECK(pass(0, out, 3) == MIRROR_DONE && out[0] == 7 && out[1] == 8 && out[2] == 9);
    out[0] = 1;
    CHECK(pass(1, out, 3) == MIRROR_DOES_NOT_FIT && pass(0, out, 2) == MIRROR_DOES_NOT_FIT && pass(2, out, 3) == MIRROR_DOES_NOT_FIT && out[0] == 1);
    CHECK(put(0, 4, 0, 4, 4, MIRROR_BOX) == MIRROR_TOO_FEW_SLOTS && same());
    CHECK(put(1, 4, 0, 4, 4, MIRROR_BOX) == MIRROR_DONE && memcmp(held.slots, kept.slots, 9 * sizeof *held.slots) == 0 && memcmp(held.numbers, kept.numbers, 20) == 0);
    CHECK(put(0, 1, 1 - 0x1p-53, 0x1p-53, 1, MIRROR_BOX) == MIRROR_BLANK_WINDOW && window == 0 && line == 0 && same());
    CHECK(pass(0, out, 3) == MIRROR_DONE && out[0] == 7);
    CHECK(put(0, 3, 0, 3, 3, 4) == MIRROR_BAD_CODE && window == 0 && same());
    held.numbers[0] = 22; /* shares that are together more than the slots */
    CHECK(pass(0, out, 3) == MIRROR_DOES_NOT_FIT && put(1, 3, 0, 3, 3, MIRROR_BOX) == MIRROR_DOES_NOT_FIT && same());
    held.numbers[0] = 8; /* a set that is not inside its share */
    CHECK(pass(0, out, 3) == MIRROR_DOES_NOT_FIT);
    CHECK(restart(0, 30) == MIRROR_DONE && pass(0, out, 3) == MIRROR_DOES_NOT_FIT && pass(1, out, 3) == MIRROR_DOES_NOT_FIT);
}
