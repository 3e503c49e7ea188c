/* Runs the checks and says how many held. */
#include "check.h"

static int checks, failures;

void check(int good, const char *what, const char *file, int line)
{
    checks++;
    if (good)
        return;
    failures++;
    printf("failed=%s:%d %s\n", file, line, what);
}

int filled(const uint8_t *from, size_t bytes)
{
    for (size_t i = 0; i < bytes; i++)
        if (from[i] != FILL)
            return 0;
    return 1;
}

/* The k-th NaN of a width: signalling, quiet, each with either sign, the payload k + 1. */
static uint64_t nan_of(size_t k, size_t width)
{
    uint64_t top = width == 8 ? 0x7ff0000000000000u : 0x7f800000u, quiet = width == 8 ? 0x0008000000000000u : 0x00400000u;
    uint64_t sign = width == 8 ? 0x8000000000000000u : 0x80000000u;
    return top + (k % 2 ? quiet : 0) + (k / 2 % 2 ? sign : 0) + k + 1;
}

/* Bytes are copied, little end first; no float is made of them. */
void fill_nans(void *list, size_t n, size_t width)
{
    for (size_t k = 0; k < n; k++) {
        uint64_t bits = nan_of(k, width);
        memcpy((uint8_t *)list + k * width, &bits, width);
    }
}

int still_nans(const void *list, size_t n, size_t width)
{
    for (size_t k = 0; k < n; k++) {
        uint64_t bits = nan_of(k, width);
        if (memcmp((const uint8_t *)list + k * width, &bits, width) != 0)
            return 0;
    }
    return 1;
}

double of_bits(uint64_t bits)
{
    double x;
    memcpy(&x, &bits, sizeof x);
    return x;
}

uint64_t to_bits(double x)
{
    uint64_t bits;
    memcpy(&bits, &x, sizeof bits);
    return bits;
}

int main(void)
{
    check_numbers();
    check_crops();
    check_weights();
    check_normalizers();
    check_passes();
    check_alpha();
    check_sheets();
    check_readers();
    check_repairs();
    check_stores();
    check_stories();
    check_book();
    printf("checks=%d failures=%d\n", checks, failures);
    return failures != 0;
}
