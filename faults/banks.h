/* A live bank held in several ways at once, and the same call made on each of them:
 *
 * - by the functions that the library exports, on memory that ends, and on a copy that begins, beside what is
 *   inaccessible;
 * - by the header's own functions;
 * - its four arrays apart, by the exported functions that take them one by one: each array ending, and in a copy
 *   each beginning, beside what is inaccessible;
 * - with GUIDE (the script `guide`), by the library's code compiled otherwise. */
#ifndef BANKS_H
#define BANKS_H

#include "asked.h"
#include "pages.h"

#define ENDING 0 /* the one that the others are held to */
#define BEGINNING 1
#define HEADER 2
#define APART_ENDING 3
#define APART_BEGINNING 4
#define GUIDED 5
#ifdef GUIDE
#define HOLDERS 6
#else
#define HOLDERS 5
#endif

#define BESIDE ((size_t)64) /* bytes next to what a call writes that are looked at as well */

struct arrays {
    float *floats;
    double *bends;
    uint64_t *counts;
    uint32_t *codes;
};

struct read_arrays {
    const float *floats;
    const double *bends;
    const uint64_t *counts;
    const uint32_t *codes;
};

/* The memory of one way: a bank, or where is_apart its arrays. */
struct holder {
    enum side side;
    worfelli_bank *to;
    const worfelli_bank *from; /* the same memory, only to be read */
    struct arrays to_arrays;
    struct read_arrays from_arrays;
    struct pages out;
    /* What an output holds before a block: bytes that are others in each holder's, so that one of them tells a
     * byte that was not written from one that was. */
    uint8_t out_before[MOST_LEVELS * sizeof(float)];
};

extern struct holder holders[HOLDERS];

void make_holders(void);

int is_apart(size_t holder);

/* What stands in a holder's bank. Arrays apart have no version: theirs is the first holder's. */
void look_at(size_t holder, worfelli_bank *content);

/* The same bank for every holder. */
void put_content(const worfelli_bank *content);

/* Whether two banks have the same numbers, whatever their versions. A NaN is a NaN whatever its bits: how those
 * go through a sum is the compiler's choice. */
int same_banks(const worfelli_bank *a, const worfelli_bank *b);
int same_floats(const float *a, const float *b, size_t count);

#endif
