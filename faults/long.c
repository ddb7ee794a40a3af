/* Plays one list of millions of frames, then the same take with its frames cut into many records, and
 * compares every byte. 64 voices with stages of up to minutes, and events between.
 *
 *     long [FRAMES [VOICES]]
 *
 * 4,000,000 frames of 64 voices unless given, which take two outputs of 1 GB each; from 16,777,217 frames
 * on an output is larger than 32 bits can count. One line; status 1 if anything is not as promised. */
#include <inttypes.h>
#include <stdio.h>
#include <stdlib.h>
#include <string.h>

#include "../include/worfelli.h"
#include "check.h"

#define MOST_LIST ((size_t)1 << 26)
#define SPANS 500 /* of frames between events, about */

struct list {
    uint8_t *bytes;
    size_t len;
};

static uint32_t state = 1;

static uint32_t below(uint32_t n)
{
    state = state * 1664525 + 1013904223;
    return (uint32_t)((uint64_t)state * n >> 32);
}

static void failed(const char *what)
{
    printf("long: %s\n", what);
    exit(1);
}

static void put(struct list *list, unsigned tag, const uint8_t *body)
{
    size_t length = body_length(tag);
    if (list->len + HEAD + length > MOST_LIST)
        failed("the list is too long");
    list->bytes[list->len] = (uint8_t)tag;
    list->bytes[list->len + 1] = (uint8_t)length;
    list->bytes[list->len + 2] = 0;
    memcpy(list->bytes + list->len + HEAD, body, length);
    list->len += HEAD + length;
}

static void put_frames(struct list *list, uint32_t count)
{
    uint8_t body[4] = {(uint8_t)count, (uint8_t)(count >> 8), (uint8_t)(count >> 16), (uint8_t)(count >> 24)};
    put(list, FRAMES, body);
}

/* Settings: times of up to two minutes, short ones more often; levels and curves from 0 to 1. */
static void make_settings(uint8_t *settings)
{
    settings[0] = 0;
    for (size_t field = 0; field < 11; field++) {
        int is_time = field < 4 || field == 5;
        float number = is_time ? (float)below(1u << below(18)) : (float)below(1001) / 1000;
        memcpy(settings + 1 + 4 * field, &number, sizeof number);
    }
    settings[45] = (uint8_t)below(2);
    settings[46] = (uint8_t)below(2);
}

static void make_timing(uint8_t *timing)
{
    double numbers[3] = {below(2) == 0 ? 48000 : 44100, 120, 0.5 + below(16) / 8.0};
    memcpy(timing, numbers, sizeof numbers);
}

static void put_open(struct list *list, unsigned voices)
{
    uint8_t body[72];
    body[0] = (uint8_t)voices;
    make_timing(body + 1);
    make_settings(body + 25);
    put(list, OPEN, body);
}

static void put_event(struct list *list, unsigned voices)
{
    static const unsigned tags[] = {TRIGGER, TRIGGER, TRIGGER, TRIGGER, RELEASE, RELEASE, SETTINGS, SETTINGS,
                                    JOIN, RESET};
    unsigned tag = below(200) == 0 ? SETTINGS_FOR_ALL : below(100) == 0 ? TIMING : tags[below(10)];
    uint8_t body[72] = {0};
    if (tag == TIMING)
        make_timing(body);
    else if (tag == SETTINGS_FOR_ALL)
        make_settings(body);
    else
        body[0] = (uint8_t)below(voices);
    if (tag == SETTINGS)
        make_settings(body + 1);
    if (tag == TRIGGER)
        body[1] = (uint8_t)below(3);
    if (tag == JOIN)
        body[1] = (uint8_t)below(voices);
    put(list, tag, body);
}

/* The same frames in many records: long, short and empty ones. */
static void put_cut(struct list *cut, uint32_t count)
{
    while (count > 0) {
        uint32_t part = below(1u << below(14));
        part = part < count ? part : count;
        put_frames(cut, part);
        count -= part;
    }
}

static uint8_t *played(const struct list *list, size_t out_len, uint64_t frames)
{
    uint8_t *out = malloc(out_len);
    if (out == NULL)
        failed("no memory for the output");
    if (worfelli_play(list->bytes, list->len, out, out_len) != (int64_t)frames)
        failed("the player did not answer the number of frames");
    if (worfelli_refused_at(list->bytes, list->len, out_len) != list->len)
        failed("the place is not the list's length");
    return out;
}

int main(int argc, char **argv)
{
    uint32_t frames = argc > 1 ? (uint32_t)strtoul(argv[1], NULL, 10) : 4000000, left = frames;
    unsigned voices = argc > 2 ? (unsigned)strtoul(argv[2], NULL, 10) : WORFELLI_MAX_VOICES;
    struct list list = {malloc(MOST_LIST), 0}, cut = {malloc(MOST_LIST), 0};
    size_t events = 0, out_len, records = 0, stride = stride_of(voices);
    uint8_t *out, *cut_out;
    float lowest = 0, highest = 0;
    if (list.bytes == NULL || cut.bytes == NULL || frames == 0 || voices == 0 || voices > WORFELLI_MAX_VOICES)
        failed("usage: long [FRAMES [VOICES]], and 128 MB for the lists");
    put_open(&list, voices);
    memcpy(cut.bytes, list.bytes, list.len);
    cut.len = list.len;
    while (left > 0) {
        uint32_t span = 1 + below(2 * (frames / SPANS) + 1);
        span = span < left ? span : left;
        for (uint32_t i = 1 + below(2 * voices); i > 0; i--, events++) {
            size_t at = list.len;
            put_event(&list, voices);
            put(&cut, list.bytes[at], list.bytes + at + HEAD);
        }
        put_frames(&list, span);
        put_cut(&cut, span);
        left -= span;
    }
    out_len = WORFELLI_OUTPUT_BYTES(voices, frames);
    if (check_list(list.bytes, list.len, out_len).frames != frames ||
        check_list(cut.bytes, cut.len, out_len).frames != frames)
        failed("this program made a list that is refused");
    out = played(&list, out_len, frames);
    cut_out = played(&cut, out_len, frames);
    if (memcmp(out, cut_out, out_len) != 0)
        failed("with its frames cut, the list gives other levels");
    for (size_t i = 0; i < out_len / 4; i++) {
        uint32_t bits = u32_at(out + 4 * i);
        float level;
        memcpy(&level, &bits, sizeof level);
        if (i % stride >= voices ? bits != 0 : !(level > -1 && level < 2))
            failed("a level that is far from 0 to 1, or a spare lane that is not +0");
        lowest = level < lowest ? level : lowest;
        highest = level > highest ? level : highest;
    }
    for (size_t at = 0; at < cut.len; at += HEAD + body_length(cut.bytes[at]))
        records += cut.bytes[at] == FRAMES;
    printf("long: %" PRIu32 " frames of %u voices, %zu bytes, %zu events; the same in %zu records of frames; ", frames,
           voices, out_len, events, records);
    printf("levels from %.9g to %.9g\n", (double)lowest, (double)highest);
    free(list.bytes);
    free(cut.bytes);
    free(out);
    free(cut_out);
    return 0;
}
