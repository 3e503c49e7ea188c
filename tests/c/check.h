/* Checks, and lists between guard bytes. */
#ifndef CHECK_H
#define CHECK_H
#include <stdio.h>
#include <string.h>

#include "mirror.h"

enum { GUARD = 64, FILL = 0xa5 };

/* A list of n elements between guards; all of it, guards too, is first filled with one byte. */
#define LENT(type, name, n)        \
    struct {                       \
        uint8_t before[GUARD];     \
        type at[n];                \
        uint8_t after[GUARD];      \
    } name;                        \
    memset(&name, FILL, sizeof name)

#define COUNT(name) (sizeof name.at / sizeof name.at[0])
#define LIST(name) name.at, COUNT(name)

/* The guards are as they were, and with them the elements from the k-th on. */
#define KEPT_FROM(name, k) (filled(name.before, GUARD) && filled((const uint8_t *)&name.at[k], sizeof name - GUARD - (k) * sizeof name.at[0]))
#define UNCHANGED(name) filled((const uint8_t *)&name, sizeof name)

#define CHECK(test) check(test, #test, __FILE__, __LINE__)

/* A list of n doubles or floats filled with NaNs, signalling and quiet, of both signs, with payloads; and whether it still is, bit by bit. */
#define FILL_NANS(list, n) fill_nans(list, n, sizeof(list)[0])
#define STILL_NANS(list, n) still_nans(list, n, sizeof(list)[0])

void check(int good, const char *what, const char *file, int line);
int filled(const uint8_t *from, size_t bytes);
void fill_nans(void *list, size_t n, size_t width);
int still_nans(const void *list, size_t n, size_t width);
double of_bits(uint64_t bits);
uint64_t to_bits(double x);

void check_numbers(void);
void check_crops(void);
void check_weights(void);
void check_normalizers(void);
void check_passes(void);
void check_alpha(void);
void check_sheets(void);
void check_readers(void);
void check_repairs(void);
void check_stores(void);
void check_stories(void);
void check_book(void);
#endif
