/* One call of a live bank: how an input's bytes are read as it, and what refuses it, by include/worfelli.h
 * alone. */
#ifndef ASKED_H
#define ASKED_H

#include "../include/worfelli.h"

#define MOST_LEVELS ((size_t)1 << 16) /* of a block */
#define MOST_ENTRIES ((size_t)300)    /* of a chord: more than a bank has voices, and than a byte counts */

enum ask {
    ASK_OPEN,
    ASK_SET_PARAMS,
    ASK_SET_ALL_PARAMS,
    ASK_SET_TIMING,
    ASK_TRIGGER,
    ASK_RELEASE,
    ASK_RESET,
    ASK_JOIN,
    ASK_CHORD,
    ASK_PROCESS,
    ASK_PARAMS, /* from here on, what changes no bank */
    ASK_STAGE,
    ASK_LEVEL,
    ASK_IS_IDLE,
    ASK_TAIL,
    ASK_LEAD,
    PUT_BYTES, /* no call: the host overwrites some of the bank's bytes, or all of them */
    PUT_ALL
};

/* What a call takes; what its kind does not have is not looked at. */
struct asked {
    enum ask kind;
    size_t voice; /* of an opening, the number of voices */
    size_t from;
    uint32_t trigger;
    worfelli_params params;
    worfelli_timing timing;
    size_t levels;
    size_t entries; /* of a chord, and its voices */
    size_t chord[MOST_ENTRIES];
    size_t cut; /* levels before which a block may be cut in two, whole frames; entries of a chord likewise */
};

/* The bytes of an input that are left. */
struct bytes {
    const uint8_t *at;
    size_t left;
};

/* The next number of so many bytes, lowest first; 0 in place of what is not there. */
uint64_t take(struct bytes *bytes, size_t len);

/* The next call, for a bank of so many voices. With `any_content`, the bank's bytes may be put. */
struct asked next_asked(struct bytes *bytes, size_t voices, int any_content);

/* An opening. */
struct asked next_opening(struct bytes *bytes);

/* A whole bank: of any bits, of numbers as banks have them, of one byte throughout, or of the input's own
 * bytes. */
void next_content(struct bytes *bytes, worfelli_bank *content);

/* The number that refuses a call on a bank of so many voices, or 0. */
uint32_t refusal_of(const struct asked *asked, size_t voices);

#endif
