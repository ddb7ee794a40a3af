/* A fuzz target: holds the player to what include/worfelli.h and docs/FORMAT.md promise, on any bytes.
 *
 * An input is two bytes that choose the output's length, then the list. The list and the output stand
 * at the end of their pages, then at the beginning, with inaccessible pages on both sides, and the player
 * runs on the stack that the header grants (pages.h): so what the player reads or writes elsewhere is caught
 * though it is not instrumented itself. On a broken promise it prints one line and aborts.
 *
 * With GUIDE (the script `guide`), the player's own code is linked a second time, compiled otherwise and
 * instrumented. It shows the fuzzer the way, and has to write the same bytes. */
#include <inttypes.h>
#include <stdio.h>
#include <stdlib.h>
#include <string.h>

#include "../include/worfelli.h"
#include "check.h"
#include "pages.h"

#define MOST_LIST ((size_t)1 << 15)  /* of an input; with its frames cut, it can be twice as long */
#define MOST_OUT ((size_t)1 << 21)   /* 32,768 frames of up to 16 voices: a stage over 16,384 has two segments */
#define BESIDE ((size_t)64)          /* bytes next to an output that are looked at as well */

#ifdef GUIDE
int64_t guide_play(const uint8_t *list, size_t list_len, uint8_t *out, size_t out_len);
uint64_t guide_refused_at(const uint8_t *list, size_t list_len, size_t out_len);
uint32_t guide_list_info(const uint8_t *list, size_t list_len, size_t *voices, uint64_t *frames);
#endif

typedef int64_t player(const uint8_t *list, size_t list_len, uint8_t *out, size_t out_len);
typedef uint64_t place(const uint8_t *list, size_t list_len, size_t out_len);
typedef uint32_t info(const uint8_t *list, size_t list_len, size_t *voices, uint64_t *frames);

static struct pages list_pages, out_pages;

/* What an output holds before: two patterns that differ in each byte, so that one of them tells a byte
 * that was not written from one that was. */
static uint8_t patterns[2][MOST_OUT];

/* What the first play wrote. */
static uint8_t played[MOST_OUT];

struct range {
    float lowest, highest;
};

/* For the line at the end: levels in the usual floating-point mode, and in others. */
static struct {
    uint64_t lists, accepted, frames;
    struct range usual, other;
} seen;

static void tell(void)
{
    fprintf(stderr, "%" PRIu64 " lists, %" PRIu64 " of them accepted with %" PRIu64 " frames, ", seen.lists,
            seen.accepted, seen.frames);
    fprintf(stderr, "levels from %.9g to %.9g, in other modes from %.9g to %.9g\n", (double)seen.usual.lowest,
            (double)seen.usual.highest, (double)seen.other.lowest, (double)seen.other.highest);
}

static void set_up(void)
{
    list_pages = fenced("the list", 2 * MOST_LIST);
    out_pages = fenced("the output", MOST_OUT + BESIDE);
    for (size_t i = 0; i < MOST_OUT; i++) {
        patterns[0][i] = (uint8_t)(i % 251);
        patterns[1][i] = (uint8_t)~patterns[0][i];
    }
    atexit(tell);
}

static struct {
    player *play;
    const uint8_t *list;
    uint8_t *out;
    size_t list_len, out_len;
    int64_t result;
} call;

static void make_call(void *with)
{
    (void)with;
    call.result = call.play(call.list, call.list_len, call.out, call.out_len);
}

/* The levels of frames: +0 in the spare lanes, and in the voices' a number around 0 to 1. How little
 * they leave that range, nobody promises; what is tested here is not little. */
static void see_levels(const uint8_t *out, const struct verdict *v, struct range *range)
{
    size_t stride = stride_of(v->voices);
    for (uint64_t frame = 0; frame < v->frames; frame++) {
        for (size_t lane = 0; lane < stride; lane++) {
            uint32_t bits = u32_at(out + 4 * (frame * stride + lane));
            float level;
            memcpy(&level, &bits, sizeof level);
            if (lane >= v->voices && bits != 0)
                broken("spare lane %zu of frame %" PRIu64 " is %08" PRIx32 ", not +0", lane, frame, bits);
            if (level != level)
                broken("level %zu of frame %" PRIu64 " is a NaN, %08" PRIx32, lane, frame, bits);
            if (!(level > -1 && level < 2))
                broken("level %zu of frame %" PRIu64 " is %g, far from 0 to 1", lane, frame, (double)level);
            range->lowest = level < range->lowest ? level : range->lowest;
            range->highest = level > range->highest ? level : range->highest;
        }
    }
}

/* Plays a list on one side of its pages into an output on the same side of its own, and sees that the
 * player answers and writes as the verdict has it, and nothing else. Answers the output. */
static const uint8_t *played_by(player *play, unsigned mode, enum side side, const uint8_t *list, size_t len,
                                size_t out_len, const struct verdict *v)
{
    uint8_t *list_part = part(&list_pages, side, len), *out = part(&out_pages, side, out_len);
    uint8_t *beside = side == AT_END ? out - BESIDE : out + out_len;
    size_t written = v->refusal == 0 ? (size_t)v->frames * stride_of(v->voices) * 4 : 0;
    int64_t expected = v->refusal == 0 ? (int64_t)v->frames : -v->refusal;
    memcpy(list_part, list, len);
    memcpy(out, patterns[side], out_len);
    memset(beside, 0xa5, BESIDE);
    call.play = play;
    call.list = shown(&list_pages, list_part);
    call.list_len = len;
    call.out = out;
    call.out_len = out_len;
    if (play == worfelli_play)
        run_on_small_stack(mode, make_call, NULL);
    else
        run_here(mode, make_call, NULL);
    if (call.result != expected)
        broken("result %" PRId64 ", not %" PRId64, call.result, expected);
    for (size_t i = 0; i < BESIDE; i++)
        if (beside[i] != 0xa5)
            broken("a byte beside the output was written");
    if (memcmp(out + written, patterns[side] + written, out_len - written) != 0)
        broken("a byte of the output past its %zu bytes of levels was written", written);
    return out;
}

/* The output's length: what the list needs, more than that, a few bytes around it, or any. */
static size_t chosen_length(const uint8_t *list, size_t len, unsigned choice)
{
    struct verdict v = check_list(list, len, SIZE_MAX);
    uint64_t needed = v.frames * stride_of(v.voices) * 4;
    size_t more = choice >> 2;
    switch (choice & 3) {
    case 1: needed += more; break;
    case 2: needed = needed + more % 16 < 8 ? 0 : needed + more % 16 - 8; break;
    case 3: needed = more * 16 + more % 16; break;
    }
    return needed < MOST_OUT ? (size_t)needed : MOST_OUT;
}

static uint8_t *put_frames(uint8_t *to, uint32_t count)
{
    const uint8_t record[] = {FRAMES, 4, 0, (uint8_t)count, (uint8_t)(count >> 8), (uint8_t)(count >> 16),
                              (uint8_t)(count >> 24)};
    memcpy(to, record, sizeof record);
    return to + sizeof record;
}

/* An accepted list with each of its frames records cut in two. Answers the length. */
static size_t cut_frames(const uint8_t *list, size_t len, uint32_t seed, uint8_t *cut)
{
    uint8_t *to = cut;
    for (size_t at = 0, next; at < len; at = next) {
        next = at + HEAD + body_length(list[at]);
        if (list[at] == FRAMES) {
            uint32_t count = u32_at(list + at + HEAD), first;
            seed = seed * 1664525 + 1013904223;
            first = count == UINT32_MAX ? seed : (seed >> 8) % (count + 1);
            to = put_frames(put_frames(to, first), count - first);
        } else {
            memcpy(to, list + at, next - at);
            to += next - at;
        }
    }
    return (size_t)(to - cut);
}

static void see_place(const char *name, place *refused_at, const uint8_t *list, size_t len, size_t out_len)
{
    uint64_t at = refused_at(list, len, out_len), expected = check_list(list, len, out_len).at;
    if (at != expected)
        broken("%s, for an output of %zu: %" PRIu64 ", not %" PRIu64, name, out_len, at, expected);
}

/* What a list holds is told as the check has it, or nothing is. */
static void see_info(const char *name, info *list_info, const uint8_t *list, size_t len)
{
    const struct verdict v = check_list(list, len, SIZE_MAX);
    size_t voices = SIZE_MAX;
    uint64_t frames = UINT64_MAX;
    if (list_info(list, len, &voices, &frames) != (uint32_t)v.refusal)
        broken("%s is not refused by %d", name, v.refusal);
    if (v.refusal == 0 ? voices != v.voices || frames != v.frames : voices != SIZE_MAX || frames != UINT64_MAX)
        broken("%s: %zu voices and %" PRIu64 " frames", name, voices, frames);
}

int LLVMFuzzerTestOneInput(const uint8_t *data, size_t size)
{
    static uint8_t cut[2 * MOST_LIST];
    const uint8_t *list, *out;
    size_t len, out_len, written;
    unsigned choice;
    struct verdict v;
    if (size < 2 || size - 2 > MOST_LIST)
        return 0;
    if (list_pages.first == NULL)
        set_up();
    choice = data[0] | (unsigned)data[1] << 8;
    list = data + 2;
    len = size - 2;
    out_len = chosen_length(list, len, choice);
    v = check_list(list, len, out_len);
    written = v.refusal == 0 ? (size_t)v.frames * stride_of(v.voices) * 4 : 0;

    out = played_by(worfelli_play, USUAL, AT_END, list, len, out_len, &v);
    memcpy(played, out, written);
    seen.lists++;
    if (v.refusal == 0) {
        seen.accepted++;
        seen.frames += v.frames;
        see_levels(out, &v, &seen.usual);
    }
    see_place("the refused place", worfelli_refused_at, call.list, len, out_len);
    see_place("the refused place", worfelli_refused_at, call.list, len, SIZE_MAX);
    see_info("what the list holds", worfelli_list_info, call.list, len);
    out = played_by(worfelli_play, USUAL, AT_BEGINNING, list, len, out_len, &v);
    if (memcmp(out, played, written) != 0)
        broken("played again, the list gives other levels");
#ifdef GUIDE
    out = played_by(guide_play, USUAL, AT_END, list, len, out_len, &v);
    if (memcmp(out, played, written) != 0)
        broken("compiled otherwise, the player gives other levels");
    see_place("the refused place, compiled otherwise", guide_refused_at, list, len, out_len);
    see_info("what the list holds, compiled otherwise", guide_list_info, list, len);
#endif
    out = played_by(worfelli_play, other_mode(choice), AT_BEGINNING, list, len, out_len, &v);
    if (v.refusal == 0) {
        see_levels(out, &v, &seen.other);
        out = played_by(worfelli_play, USUAL, AT_END, cut, cut_frames(list, len, choice, cut), out_len, &v);
        if (memcmp(out, played, written) != 0)
            broken("with its frames cut in two, the list gives other levels");
    }
    return 0;
}
