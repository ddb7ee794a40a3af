#include "check.h"

#include <string.h>

#define MOST_VOICES 64
#define LIMIT 1048576.0

size_t body_length(unsigned tag)
{
    static const size_t lengths[TAGS] = {0, 72, 48, 47, 24, 2, 1, 1, 2, 4};
    return tag < TAGS ? lengths[tag] : 0;
}

uint32_t u32_at(const uint8_t *bytes)
{
    return bytes[0] | (uint32_t)bytes[1] << 8 | (uint32_t)bytes[2] << 16 | (uint32_t)bytes[3] << 24;
}

size_t stride_of(unsigned voices)
{
    return voices <= 16 ? 16 : voices <= 32 ? 32 : voices <= 48 ? 48 : 64;
}

/* A NaN is over nothing, as C's comparison has it. */
static int rate_over(const uint8_t *timing)
{
    uint64_t bits = u32_at(timing) | (uint64_t)u32_at(timing + 4) << 32;
    double rate;
    memcpy(&rate, &bits, sizeof rate);
    return rate > LIMIT;
}

static int time_over(const uint8_t *settings)
{
    static const size_t times[] = {1, 5, 9, 13, 21};
    for (size_t i = 0; i < sizeof times / sizeof *times; i++) {
        uint32_t bits = u32_at(settings + times[i]);
        float time;
        memcpy(&time, &bits, sizeof time);
        if (time > LIMIT)
            return 1;
    }
    return 0;
}

/* What refuses the record that begins at `at`, by the first ten rows of the page's table; 11 needs the
 * counts before. */
static int refusal_of(const uint8_t *list, size_t len, size_t at, unsigned voices)
{
    const uint8_t *body, *settings = NULL, *timing = NULL;
    size_t length;
    unsigned tag;
    if (len - at < HEAD)
        return 6;
    tag = list[at];
    length = (size_t)list[at + 1] | (size_t)list[at + 2] << 8;
    if (len - at - HEAD < length)
        return 6;
    if (body_length(tag) == 0)
        return 7;
    if (length != body_length(tag))
        return 8;
    if ((tag == OPEN) != (at == 0))
        return 9;
    body = list + at + HEAD;
    switch (tag) {
    case OPEN: timing = body + 1; settings = body + 25; break;
    case SETTINGS: settings = body + 1; break;
    case SETTINGS_FOR_ALL: settings = body; break;
    case TIMING: timing = body; break;
    }
    if (settings != NULL && (settings[0] > 1 || settings[45] > 1 || settings[46] > 1))
        return 10;
    if (tag == TRIGGER && body[1] > 2)
        return 10;
    if (tag == OPEN && body[0] > MOST_VOICES)
        return 1;
    if ((tag == SETTINGS || (tag >= TRIGGER && tag <= JOIN)) && body[0] >= voices)
        return 2;
    if (tag == JOIN && body[1] >= voices)
        return 2;
    if (timing != NULL && rate_over(timing))
        return 4;
    if (settings != NULL && time_over(settings))
        return 3;
    return 0;
}

struct verdict check_list(const uint8_t *list, size_t len, size_t out_len)
{
    struct verdict v = {0, 0, 0, 0};
    if (len == 0)
        v.refusal = 9;
    while (v.refusal == 0 && v.at < len) {
        uint64_t frames = v.frames;
        v.refusal = refusal_of(list, len, v.at, v.voices);
        if (v.refusal != 0)
            break;
        if (list[v.at] == OPEN)
            v.voices = list[v.at + HEAD];
        if (list[v.at] == FRAMES)
            frames += u32_at(list + v.at + HEAD);
        /* No product here can wrap: counts of 32 bits, and fewer than 2^24 of them in memory at hand. */
        if (list[v.at] == FRAMES && frames * stride_of(v.voices) > out_len / 4)
            v.refusal = 11;
        else {
            v.frames = frames;
            v.at += HEAD + body_length(list[v.at]);
        }
    }
    return v;
}
