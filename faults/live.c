/* A fuzz target: holds a live bank to what include/worfelli.h promises, on any calls and any content.
 *
 * An input's first byte chooses the floating-point mode and how the bank begins: fresh, or of any bytes.
 * The rest is read as calls (asked.c), each made on every holder of the bank (banks.h): in pieces of memory
 * between inaccessible pages, on the stack that the header grants, so that what is read or written elsewhere
 * is caught. After each call the holders have to agree, though the second one's blocks are cut in two, and its
 * chords in a shorter one and single triggers. On a broken promise it prints one line and aborts. */
#include <inttypes.h>
#include <stdio.h>
#include <stdlib.h>
#include <string.h>

#include "calls.h"

#define MOST_INPUT ((size_t)1 << 15)
#define MOST_PLAYED ((size_t)1 << 20) /* levels of one input, so that each ends soon */

struct range {
    float lowest, highest;
};

/* For the line at the end: levels of banks that were opened, in the usual floating-point mode and in others;
 * and how many levels were a NaN, all of banks with other content. */
static struct {
    uint64_t inputs, calls, accepted, over_any, levels, nans;
    struct range usual, other;
} seen;

/* The input that is being run: its mode, whether the bank is one that was opened and changed by calls alone,
 * its voices as they read, and read before the last call, and the levels so far. */
static struct {
    unsigned mode;
    int opened;
    size_t voices, played;
    struct reading readings[WORFELLI_MAX_VOICES], readings_before[WORFELLI_MAX_VOICES];
} now;

static worfelli_bank before[HOLDERS], after[HOLDERS];

static void tell(void)
{
    fprintf(stderr, "%" PRIu64 " inputs, %" PRIu64 " calls, %" PRIu64 " of them accepted, ", seen.inputs, seen.calls,
            seen.accepted);
    fprintf(stderr, "%" PRIu64 " on banks of any content; %" PRIu64 " levels, ", seen.over_any, seen.levels);
    fprintf(stderr, "from %.9g to %.9g, in other modes from %.9g to %.9g; of any content %" PRIu64 " NaNs\n",
            (double)seen.usual.lowest, (double)seen.usual.highest, (double)seen.other.lowest,
            (double)seen.other.highest, seen.nans);
}

static void see_level(float level)
{
    struct range *range = now.mode == USUAL ? &seen.usual : &seen.other;
    if (!now.opened) {
        seen.nans += level != level;
        return;
    }
    /* How little levels leave 0 to 1, nobody promises; what is tested here is not little. */
    if (!(level > -1 && level < 2))
        broken("a level is %g, far from 0 to 1", (double)level);
    range->lowest = level < range->lowest ? level : range->lowest;
    range->highest = level > range->highest ? level : range->highest;
}

/* The first holder's block: +0 in the spare lanes, and in its first frame what the voices' readings said. */
static void see_block(const struct asked *asked)
{
    const float *block = block_of(ENDING, asked->levels);
    const size_t stride = WORFELLI_STRIDE(now.voices);
    for (size_t i = 0; i < asked->levels; i++) {
        if (i % stride < now.voices)
            see_level(block[i]);
        else if (memcmp(&block[i], &(float){0.0f}, sizeof *block) != 0)
            broken("spare lane %zu is %g, not +0", i % stride, (double)block[i]);
    }
    for (size_t v = 0; v < now.voices && asked->levels > 0 && now.mode == USUAL; v++)
        if (!same_floats(&now.readings[v].level, &block[v], 1))
            broken("voice %zu hands out %.9g, its reading was %.9g", v, (double)block[v],
                   (double)now.readings[v].level);
    seen.levels += asked->levels;
    now.played += asked->levels;
}

/* The voices' readings agree with each other. */
static void see_voices(void)
{
    memcpy(now.readings_before, now.readings, sizeof now.readings);
    now.voices = voices_of(ENDING);
    if (now.voices > WORFELLI_MAX_VOICES)
        broken("%zu voices", now.voices);
    for (size_t i = 0; i < HOLDERS; i++)
        if (voices_of(i) != now.voices || stride_of(i) != (size_t)WORFELLI_STRIDE(now.voices))
            broken("%zu voices and a stride of %zu, not %zu voices", voices_of(i), stride_of(i), now.voices);
    read_voices(ENDING, now.mode, now.voices, now.readings);
    for (size_t v = 0; v < now.voices; v++) {
        const struct reading *r = &now.readings[v];
        if (r->stage > WORFELLI_RELEASE)
            broken("voice %zu is in stage %" PRIu32, v, r->stage);
        if (r->idle != (r->stage == WORFELLI_IDLE))
            broken("voice %zu is in stage %" PRIu32 ", its idle is %" PRIu32, v, r->stage, r->idle);
        if (r->stage == WORFELLI_IDLE && r->tail != 0)
            broken("voice %zu is idle and has a tail of %" PRIu64, v, r->tail);
        if ((r->stage == WORFELLI_IDLE || r->stage >= WORFELLI_SUSTAIN) && r->lead != 0)
            broken("voice %zu is in stage %" PRIu32 " and has a lead of %" PRIu64, v, r->stage, r->lead);
        if (now.opened)
            see_level(r->level);
    }
}

static struct told settings_of(size_t voice)
{
    const struct asked asked = {.kind = ASK_PARAMS, .voice = voice};
    return make_call(ENDING, &asked, now.mode, 0);
}

/* A voice has the settings that it was given: the codes, and each number that is within its limits. */
static void see_settings(size_t voice, const worfelli_params *given)
{
    const struct told told = settings_of(voice);
    const float numbers[11] = WORFELLI_NUMBERS(given);
    const uint32_t named[3] = WORFELLI_NAMED(given);
    if (memcmp(told.named, named, sizeof named) != 0)
        broken("voice %zu has other codes than it was given", voice);
    for (size_t i = 0; i < 11; i++) {
        const float most = i < 4 || i == 5 ? 1048576.0f : 1.0f;
        if (numbers[i] > 0 && numbers[i] <= most && numbers[i] != told.numbers[i])
            broken("number %zu of voice %zu is %.9g, it was given %.9g", i, voice, (double)told.numbers[i],
                   (double)numbers[i]);
    }
}

/* A voice that was reset is idle, at its end level. */
static void see_reset(size_t voice)
{
    const float end = settings_of(voice).numbers[10], limited = end > 1 ? 1 : end > 0 ? end : 0;
    const struct reading *r = &now.readings[voice];
    if (r->stage != WORFELLI_IDLE || (now.mode == USUAL && r->level != limited))
        broken("voice %zu after a reset: stage %" PRIu32 ", level %.9g, not %.9g", voice, r->stage, (double)r->level,
               (double)limited);
}

static int same_readings(const struct reading *a, const struct reading *b)
{
    return a->stage == b->stage && a->idle == b->idle && a->tail == b->tail && a->lead == b->lead &&
           same_floats(&a->level, &b->level, 1);
}

static int names(const struct asked *asked, size_t voice)
{
    int named = asked->kind != ASK_CHORD && asked->voice == voice;
    for (size_t i = 0; i < asked->entries; i++)
        named |= asked->chord[i] == voice;
    return named;
}

/* A call of some voices leaves the others as they were. */
static void see_others(const struct asked *asked)
{
    for (size_t v = 0; v < now.voices; v++)
        if (!names(asked, v) && !same_readings(&now.readings[v], &now.readings_before[v]))
            broken("call %d changed voice %zu, which it does not name", (int)asked->kind, v);
}

static void see_join(size_t voice, size_t from)
{
    const struct told one = settings_of(voice), other = settings_of(from);
    if (!same_readings(&now.readings[voice], &now.readings_before[from]))
        broken("voice %zu is no copy of voice %zu", voice, from);
    if (!same_floats(one.numbers, other.numbers, 11) || memcmp(one.named, other.named, sizeof one.named) != 0)
        broken("voice %zu has other settings than voice %zu", voice, from);
}

/* What stood in the memory before an opening changes no level: the same calls on the bank's copy, and on one
 * that was opened over other bytes. */
static void see_fresh(const struct asked *asked)
{
    static worfelli_bank copy, other;
    static float levels[2][4 * WORFELLI_MAX_VOICES];
    const size_t block = 4 * (size_t)WORFELLI_STRIDE(asked->voice);
    uint8_t *bytes = (uint8_t *)&other;
    copy = after[HEADER];
    for (size_t i = 0; i < sizeof other; i++)
        bytes[i] = (uint8_t)~((const uint8_t *)&before[HEADER])[i];
    if (worfelli_bank_open(&other, asked->voice, &asked->params, &asked->timing) != 0 ||
        other.version != WORFELLI_VERSION)
        broken("opened over other bytes, the bank is refused or has another version");
    if (asked->voice > 0)
        worfelli_bank_trigger(&copy, 0, WORFELLI_NEW);
    if (asked->voice > 0)
        worfelli_bank_trigger(&other, 0, WORFELLI_NEW);
    if (worfelli_bank_process(&copy, levels[0], block) != 0 || worfelli_bank_process(&other, levels[1], block) != 0)
        broken("a fresh bank's block is refused");
    if (!same_floats(levels[0], levels[1], block))
        broken("opened over other bytes, the bank gives other levels");
}

/* What a call that was accepted promises by itself. */
static void see_accepted(const struct asked *asked)
{
    if (asked->kind == ASK_SET_PARAMS || (asked->kind >= ASK_TRIGGER && asked->kind <= ASK_CHORD))
        see_others(asked);
    switch (asked->kind) {
    case ASK_OPEN:
        if (now.voices != asked->voice)
            broken("opened with %zu voices, the bank has %zu", asked->voice, now.voices);
        if (now.mode == USUAL)
            see_fresh(asked);
        break;
    case ASK_SET_PARAMS: see_settings(asked->voice, &asked->params); break;
    case ASK_SET_ALL_PARAMS:
        for (size_t v = 0; v < now.voices; v++)
            see_settings(v, &asked->params);
        break;
    case ASK_RELEASE:
        if (now.readings[asked->voice].stage != WORFELLI_IDLE && now.readings[asked->voice].stage != WORFELLI_RELEASE)
            broken("a voice whose note has ended is in stage %" PRIu32, now.readings[asked->voice].stage);
        break;
    case ASK_RESET: see_reset(asked->voice); break;
    case ASK_JOIN: see_join(asked->voice, asked->from); break;
    default: break;
    }
}

/* A reading of a voice says what the readings of all said. */
static void see_reading(const struct asked *asked, const struct told *told)
{
    const struct reading *r = &now.readings[asked->voice];
    const int same = asked->kind == ASK_STAGE     ? told->word == r->stage
                     : asked->kind == ASK_IS_IDLE ? told->word == r->idle
                     : asked->kind == ASK_LEVEL   ? same_floats(&told->level, &r->level, 1)
                     : asked->kind == ASK_TAIL    ? told->frames == r->tail
                     : asked->kind == ASK_LEAD    ? told->frames == r->lead
                                                  : told->named[0] < 2 && told->named[1] < 2 && told->named[2] < 2;
    if (!same)
        broken("a reading of voice %zu, number %d, is another than before", asked->voice, (int)asked->kind);
}

/* The holders agree. By other code, that of arrays apart or compiled otherwise, only in the mode that the library
 * needs. */
static void see_holders(const struct asked *asked, const struct told *told)
{
    for (size_t i = 1; i < HOLDERS; i++) {
        const char *how = i == GUIDED   ? "compiled otherwise"
                          : is_apart(i) ? "on arrays apart"
                          : i == HEADER ? "by the header's functions"
                                        : "elsewhere";
        if (i > HEADER && now.mode != USUAL)
            continue;
        if (!same_banks(&after[ENDING], &after[i]))
            broken("call %d, %s: another bank", (int)asked->kind, how);
        if (!same_floats(told[0].numbers, told[i].numbers, 11) || !same_floats(&told[0].level, &told[i].level, 1) ||
            memcmp(told[0].named, told[i].named, sizeof told[0].named) != 0 || told[0].word != told[i].word ||
            told[0].frames != told[i].frames)
            broken("call %d, %s: another reading", (int)asked->kind, how);
        if (asked->kind == ASK_PROCESS && told[0].refusal == 0 &&
            !same_floats(block_of(ENDING, asked->levels), block_of(i, asked->levels), asked->levels))
            broken("a block, %s%s: other levels", how, i == BEGINNING ? " and cut in two" : "");
    }
}

/* What a call must leave is left. */
static void see_kept(const struct asked *asked, uint32_t refusal)
{
    for (size_t i = 0; i < HOLDERS; i++) {
        const int opened = i == HEADER && asked->kind == ASK_OPEN;
        if (after[i].version != (opened ? WORFELLI_VERSION : before[i].version))
            broken("call %d: the bank's version is %" PRIu32, (int)asked->kind, after[i].version);
    }
    if (asked->kind < ASK_PARAMS && (refusal == 0 || asked->kind == ASK_OPEN))
        return;
    for (size_t i = 0; i < HOLDERS; i++)
        if (memcmp(&before[i], &after[i], sizeof before[i]) != 0)
            broken("call %d, refused by %" PRIu32 ", changed the bank", (int)asked->kind, refusal);
}

/* Whether a call is cut. Of any content other codes can stand for the same voice: a legato note by itself puts
 * them in order, and a chord leaves them where the note changes nothing. */
static int is_cut(size_t holder, const struct asked *asked, uint32_t refusal)
{
    const int leaves = asked->kind == ASK_CHORD && asked->trigger == WORFELLI_LEGATO && !now.opened;
    return holder == BEGINNING && refusal == 0 && now.mode == USUAL && !leaves;
}

static void step(const struct asked *asked)
{
    const uint32_t refusal = refusal_of(asked, now.voices);
    const size_t voices = asked->kind != ASK_OPEN ? now.voices : refusal == 0 ? asked->voice : 0;
    struct told told[HOLDERS];
    for (size_t i = 0; i < HOLDERS; i++) {
        look_at(i, &before[i]);
        told[i] = make_call(i, asked, now.mode, is_cut(i, asked, refusal));
        if (told[i].refusal != refusal)
            broken("call %d is answered %" PRIu32 ", not %" PRIu32, (int)asked->kind, told[i].refusal, refusal);
    }
    for (size_t i = 0; i < HOLDERS; i++)
        look_at(i, &after[i]);
    seen.calls++;
    seen.accepted += refusal == 0;
    seen.over_any += !now.opened;
    see_kept(asked, refusal);
    see_holders(asked, told);
    if (asked->kind == ASK_PROCESS && refusal == 0)
        see_block(asked);
    if (asked->kind >= ASK_PARAMS && refusal == 0)
        see_reading(asked, &told[0]);
    now.opened |= asked->kind == ASK_OPEN;
    see_voices();
    if (now.voices != voices)
        broken("call %d: %zu voices, not %zu", (int)asked->kind, now.voices, voices);
    if (refusal == 0)
        see_accepted(asked);
}

/* The host puts bytes of its own in the bank. */
static void put(struct bytes *bytes, int all)
{
    static worfelli_bank content;
    look_at(ENDING, &content);
    if (all)
        next_content(bytes, &content);
    else {
        size_t at = take(bytes, 2) % sizeof content;
        for (size_t i = take(bytes, 1) % 16 + 1; i > 0 && at < sizeof content; i--, at++)
            ((uint8_t *)&content)[at] = (uint8_t)take(bytes, 1);
    }
    put_content(&content);
    now.opened = 0;
    see_voices();
}

/* A bank that was not opened yet, then an opening; or one of any content. */
static void begin(struct bytes *bytes, int all)
{
    static worfelli_bank unopened;
    memset(&unopened, 0x5a, sizeof unopened);
    put_content(&unopened);
    now.opened = 0;
    now.played = 0;
    if (all)
        put(bytes, 1);
    else {
        const struct asked opening = next_opening(bytes);
        see_voices();
        step(&opening);
    }
}

int LLVMFuzzerTestOneInput(const uint8_t *data, size_t size)
{
    struct bytes bytes = {data, size};
    struct asked asked;
    unsigned choice;
    if (size == 0 || size > MOST_INPUT)
        return 0;
    if (seen.inputs++ == 0) {
        if (!worfelli_agrees())
            broken("header and library do not agree");
        make_holders();
        atexit(tell);
    }
    choice = (unsigned)take(&bytes, 1);
    now.mode = choice % 16 < 11 ? USUAL : other_mode(choice % 16 - 11);
    begin(&bytes, choice >> 4 & 1);
    while (bytes.left > 0 && now.played < MOST_PLAYED) {
        asked = next_asked(&bytes, now.voices, choice >> 5 & 1);
        if (asked.kind >= PUT_BYTES)
            put(&bytes, asked.kind == PUT_ALL);
        else
            step(&asked);
    }
    /* One frame more, so that the last readings are held to it. */
    asked = (struct asked){.kind = ASK_PROCESS, .levels = WORFELLI_STRIDE(now.voices)};
    step(&asked);
    return 0;
}
