/* The check of an event list, written from docs/FORMAT.md alone, to hold the player's against. */
#ifndef CHECK_H
#define CHECK_H

#include <stddef.h>
#include <stdint.h>

enum tag { OPEN = 1, SETTINGS, SETTINGS_FOR_ALL, TIMING, TRIGGER, RELEASE, RESET, JOIN, FRAMES, TAGS };

#define HEAD ((size_t)3) /* bytes of a tag and a length */

struct verdict {
    int refusal;      /* its number, 0 if the list is accepted */
    size_t at;        /* the refused record's first byte, else the list's length */
    unsigned voices;  /* of the open record */
    uint64_t frames;  /* of the records before `at` */
};

/* The length of a tag's body, 0 if there is no such tag. */
size_t body_length(unsigned tag);

uint32_t u32_at(const uint8_t *bytes);

/* Levels in a frame. */
size_t stride_of(unsigned voices);

struct verdict check_list(const uint8_t *list, size_t len, size_t out_len);

#endif
