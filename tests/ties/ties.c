/* ties SAMPLES: mirror_vertical_u16 beside document 01's formula, worked out in 64-bit integers. Windows of up to 32 lines are summed in doubles by the library,
 * longer ones in integers; both have to be the formula's value at every column. One line for each kind of sums, and one for all; status 1 where a sample differs. */
#include <inttypes.h>
#include <stdio.h>
#include <stdlib.h>

#include "mirror.h"

enum { LINES = 40, COLUMNS = 70, KINDS = 4 };
static const char *const kinds[KINDS] = {"random", "largest", "small", "ties"};
static uint64_t seed = 88172645463325252u;

static uint32_t next(void)
{
    seed ^= seed << 13;
    seed ^= seed >> 7;
    seed ^= seed << 17;
    return (uint32_t)(seed >> 32);
}

static uint32_t below(uint32_t n)
{
    return next() % n;
}

static int64_t sum(const int32_t *weights, uint32_t lines, const uint16_t *frame, uint32_t row, uint32_t column)
{
    int64_t s = 0;
    for (uint32_t k = 0; k < lines; k++)
        s += (int64_t)weights[k] * frame[k * row + column];
    return s;
}

/* The sum plus 2^(p-1), divided by 2^p rounding down, and clipped. */
static uint16_t formula(int64_t s, uint32_t p)
{
    int64_t d = INT64_C(1) << p, t = s + d / 2, q = t / d - (t % d < 0);
    return q < 0 ? 0 : q > 65535 ? 65535 : (uint16_t)q;
}

/* Three lines of the weights 1, 2^16 and 2^30 reach every number below 2^46: a column's sum is brought to a tie, or up to two beside it. */
static void near_tie(const int32_t *weights, uint32_t lines, uint16_t *frame, uint32_t row, uint32_t column, uint32_t p)
{
    frame[column] = frame[row + column] = frame[2 * row + column] = 0;
    int64_t d = INT64_C(1) << p, t = d / 2 + (int64_t)below(5) - 2 - sum(weights, lines, frame, row, column);
    uint64_t more = (uint64_t)(t % d + (t % d < 0 ? d : 0));
    frame[column] = (uint16_t)more;
    frame[row + column] = (uint16_t)((more & 0x3fffffff) >> 16);
    frame[2 * row + column] = (uint16_t)(more >> 30);
}

int main(int argc, char **argv)
{
    static const uint32_t nought[] = {0};
    static uint16_t frame[LINES * (COLUMNS + 2)], out[COLUMNS];
    int32_t weights[LINES];
    uint64_t wanted = argc > 1 ? strtoull(argv[1], NULL, 10) : 12000000, done = 0, wrong = 0, count[KINDS] = {0}, differ[KINDS] = {0};
    for (uint32_t turn = 0; done < wanted; turn++) {
        uint32_t kind = turn % KINDS, p = 4 + below(42), few = p < 30 ? p : 30, columns = 1 + below(COLUMNS), first = below(3), row = columns + first;
        uint32_t least = kind == 3 ? 3 : 1, lines = least + below(LINES + 1 - least), signs = below(3), large = below(3);
        for (uint32_t k = 0; k < lines; k++) {
            uint32_t most = (signs == 2 ? below(2) : signs) ? (uint32_t)INT32_MAX : (uint32_t)INT32_MIN;
            weights[k] = (int32_t)(kind == 1 || (kind == 3 && large == 2) ? most : next());
            if (kind == 2 || (kind == 3 && large == 0))
                weights[k] = (int32_t)below(1u << few) - (1 << (few - 2));
        }
        for (uint32_t i = 0; i < lines * row; i++)
            frame[i] = (uint16_t)(kind == 1 ? 65535 - below(2) : next());
        if (kind == 3) {
            weights[0] = 1, weights[1] = 1 << 16, weights[2] = 1 << 30;
            for (uint32_t j = 0; j < row; j++)
                near_tie(weights, lines, frame, row, j, p);
        }
        int64_t over = -((int64_t)1 << p);
        for (uint32_t i = 0; i < lines; i++)
            over += weights[i];
        uint32_t no = mirror_vertical_u16(frame, lines * row, lines, row, first, columns, weights, lines, nought, 1, &lines, 1, &over, 1, lines, p, out, columns);
        for (uint32_t j = 0; j < columns; j++)
            if (no != MIRROR_DONE || out[j] != formula(sum(weights, lines, frame, row, first + j), p)) {
                if (wrong++ < 10)
                    printf("kind=%s lines=%" PRIu32 " precision=%" PRIu32 " column=%" PRIu32 " answer=%" PRIu32 " written=%u formula=%u\n", kinds[kind], lines, p, j, no,
                           (unsigned)out[j], (unsigned)formula(sum(weights, lines, frame, row, first + j), p));
                differ[kind]++;
            }
        count[kind] += columns;
        done += columns;
    }
    for (int k = 0; k < KINDS; k++)
        printf("sums=%s samples=%" PRIu64 " differ=%" PRIu64 "\n", kinds[k], count[k], differ[k]);
    printf("ties: samples=%" PRIu64 " differ=%" PRIu64 "\n", done, wrong);
    return wrong != 0;
}
