/* A call of a live bank, made on one of its holders. */
#ifndef CALLS_H
#define CALLS_H

#include "banks.h"

/* The answer, and what the call wrote by its pointers. */
struct told {
    uint32_t refusal;
    float numbers[11];
    uint32_t named[3];
    uint32_t word; /* a stage, or whether idle */
    float level;
    uint64_t frames;
};

/* What can be read of one voice without a refusal. */
struct reading {
    uint32_t stage, idle;
    float level;
    uint64_t tail, lead;
};

size_t voices_of(size_t holder);
size_t stride_of(size_t holder);

/* Makes a call in a floating-point mode, with `cut` a block in two, and a chord as a shorter one and single
 * triggers. Sees that nothing beside what it may write
 * was written, and nothing at all if it is refused, the bank apart. What it did not write is as before in
 * what it told. */
struct told make_call(size_t holder, const struct asked *asked, unsigned mode, int cut);

/* The output of the holder's last block of so many levels. */
const float *block_of(size_t holder, size_t levels);

/* Reads so many voices of a holder's bank. */
void read_voices(size_t holder, unsigned mode, size_t voices, struct reading *readings);

#endif
