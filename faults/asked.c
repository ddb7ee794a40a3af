#include "asked.h"

#include <math.h>
#include <string.h>

#define LIMIT 1048576.0
#define COUNT(array) (sizeof(array) / sizeof *(array))

uint64_t take(struct bytes *bytes, size_t len)
{
    uint64_t number = 0;
    for (size_t i = 0; i < len && bytes->left > 0; i++, bytes->at++, bytes->left--)
        number |= (uint64_t)*bytes->at << 8 * i;
    return number;
}

static float float_of(uint32_t bits)
{
    float number;
    memcpy(&number, &bits, sizeof number);
    return number;
}

static double double_of(uint64_t bits)
{
    double number;
    memcpy(&number, &bits, sizeof number);
    return number;
}

#define OTHERS ((size_t)12)

/* A number that few banks have a voice of. */
static size_t other_voice(size_t choice, size_t voices)
{
    const size_t others[OTHERS] = {voices, voices + 1, 63, 64, 65, 255, (size_t)1 << 32, SIZE_MAX / 14 + 1,
                                   SIZE_MAX / 5 + 1, (size_t)1 << 63, SIZE_MAX - 1, SIZE_MAX};
    return others[choice % OTHERS];
}

/* A voice that the bank has, seldom another. */
static size_t take_voice(struct bytes *bytes, size_t voices)
{
    const size_t choice = take(bytes, 1);
    if (choice >= 256 - OTHERS)
        return other_voice(choice - (256 - OTHERS), voices);
    return voices > 0 ? choice % voices : choice;
}

/* A code below `named`, seldom one that names nothing. */
static uint32_t take_code(struct bytes *bytes, uint32_t named)
{
    static const uint32_t others[10] = {2, 3, 4, 7, 255, 256, 65536, 0x7fffffff, 0x80000000, 0xffffffff};
    const size_t choice = take(bytes, 1);
    return choice >= 256 - COUNT(others) ? others[choice - (256 - COUNT(others))] : (uint32_t)choice % named;
}

/* Of 32 bits: any number at all, one at which something happens, or one as hosts have them. */
static float number_of(uint32_t bits, int any, int is_time)
{
    static const float edges[] = {0, 0.25f, 0.5f, 0.75f, 1, 0.1f, 0.666f, 2, 5, 16, 300, 0.50001f, -0.0f, 1e-30f,
                                  4e-45f, 1048576, -1, NAN, INFINITY, -INFINITY, 1048576.125f, 3.5e-7f};
    if (any)
        return float_of(bits);
    if (bits % 4 == 0)
        return edges[(bits >> 2) % (is_time && bits >> 28 != 0 ? 15 : COUNT(edges))];
    if (is_time)
        return (float)((bits >> 8) % 65536) / (bits % 4 == 1 ? 65536.0f : 256.0f);
    return (float)(bits >> 8) / 16777216.0f;
}

static worfelli_params take_params(struct bytes *bytes)
{
    const uint32_t style = (uint32_t)take(bytes, 1), any = (uint32_t)take(bytes, 2);
    float n[11];
    uint32_t c[3];
    for (size_t i = 0; i < 11; i++)
        n[i] = number_of((uint32_t)take(bytes, 4), style >= 160 && (any >> i & 1) != 0, i < 4 || i == 5);
    for (size_t i = 0; i < 3; i++)
        c[i] = take_code(bytes, 2);
    return (worfelli_params){c[0], n[0], n[1], n[2], n[3], n[4], n[5], n[6], n[7], n[8], n[9], n[10], c[1], c[2]};
}

static double take_double(struct bytes *bytes, int any, const double *edges, size_t count)
{
    const uint64_t bits = take(bytes, 8);
    return any ? double_of(bits) : edges[bits % count];
}

static worfelli_timing take_timing(struct bytes *bytes)
{
    static const double rates[] = {48000, 44100, 1000, 96000, 100, 1, 3, 1048576, 0, 0.37, 1e-300, -1, NAN,
                                   -INFINITY, 1048576.0000000002, INFINITY};
    static const double others[] = {1, 120, 0.1, 10, 60, 0.37, 3, 1e-300, 1e300, 0, -1, NAN, INFINITY};
    const uint32_t any = (uint32_t)take(bytes, 1);
    worfelli_timing timing;
    timing.sample_rate = take_double(bytes, any >= 224, rates, any < 160 ? 8 : COUNT(rates));
    timing.tempo = take_double(bytes, any >= 192 && any % 2 != 0, others, COUNT(others));
    timing.scale = take_double(bytes, any >= 192 && any % 3 != 0, others, COUNT(others));
    return timing;
}

/* A block of whole frames, short ones more often, seldom of another length or of none. */
static void take_block(struct bytes *bytes, size_t voices, struct asked *asked)
{
    const size_t stride = WORFELLI_STRIDE(voices), style = take(bytes, 1), number = take(bytes, 2);
    const size_t frames = number >> (style >> 4 == 0 ? style & 7 : 8 + (style & 7));
    const size_t most = MOST_LEVELS / stride;
    asked->levels = (frames < most ? frames : most) * stride;
    if (style >> 4 == 15)
        asked->levels = number % MOST_LEVELS;
    if (style >> 4 == 14 && asked->levels < MOST_LEVELS)
        asked->levels += 1 + number % (stride - 1);
    asked->cut = take(bytes, 2) % (asked->levels / stride + 1) * stride;
}

/* 0 and the numbers after it. */
static void count_up(size_t *numbers, size_t count)
{
    for (size_t i = 0; i < count; i++)
        numbers[i] = i;
}

/* Each of a chord's entries is exchanged for one of those from it on, of so many. */
static void take_order(struct bytes *bytes, size_t count, struct asked *asked)
{
    for (size_t i = 0; i < asked->entries; i++) {
        const size_t other = i + take(bytes, 1) % (count - i), voice = asked->chord[other];
        asked->chord[other] = asked->chord[i];
        asked->chord[i] = voice;
    }
}

/* In up to three places stands what stands in another one, or a number that few banks have. */
static void spoil_chord(struct bytes *bytes, size_t voices, struct asked *asked)
{
    for (size_t left = 1 + take(bytes, 1) % 3; left > 0; left--) {
        const size_t at = take(bytes, 1) % asked->entries, choice = take(bytes, 1);
        asked->chord[at] = choice < 128 ? asked->chord[choice % asked->entries] : other_voice(choice, voices);
    }
}

/* Voices that the bank has, each once, in any order. Seldom as many as a bank can have, or more; seldom one twice,
 * or one that the bank does not have. */
static void take_chord(struct bytes *bytes, size_t voices, struct asked *asked)
{
    const size_t style = take(bytes, 1), number = take(bytes, 1);
    const size_t long_one = style % 16 == 0 ? MOST_ENTRIES - number : style % 16 == 8 ? 63 + number % 4 : 0;
    const size_t count = long_one > voices ? long_one : voices;
    asked->entries = long_one > 0 ? long_one : number % (voices + 1);
    count_up(asked->chord, count);
    take_order(bytes, count, asked);
    if (style >= 192 && asked->entries > 0)
        spoil_chord(bytes, voices, asked);
    asked->cut = take(bytes, 1) % (asked->entries + 1);
    asked->trigger = take_code(bytes, 3);
}

struct asked next_opening(struct bytes *bytes)
{
    struct asked asked = {.kind = ASK_OPEN};
    const size_t choice = take(bytes, 1);
    asked.voice = choice < 248 ? choice % 65 : take(bytes, 8);
    asked.params = take_params(bytes);
    asked.timing = take_timing(bytes);
    return asked;
}

static enum ask take_kind(struct bytes *bytes, int any_content)
{
    static const enum ask kinds[32] = {
        ASK_PROCESS, ASK_PROCESS, ASK_PROCESS, ASK_PROCESS, ASK_PROCESS, ASK_PROCESS, ASK_TRIGGER, ASK_TRIGGER,
        ASK_TRIGGER, ASK_CHORD, ASK_CHORD, ASK_RELEASE, ASK_RELEASE, ASK_RELEASE, ASK_SET_PARAMS, ASK_SET_PARAMS,
        ASK_SET_PARAMS, ASK_SET_TIMING, ASK_SET_TIMING, ASK_JOIN, ASK_JOIN, ASK_RESET, ASK_SET_ALL_PARAMS, ASK_OPEN,
        ASK_PARAMS, ASK_STAGE, ASK_LEVEL, ASK_IS_IDLE, ASK_TAIL, ASK_LEAD, PUT_BYTES, PUT_ALL};
    const enum ask kind = kinds[take(bytes, 1) % 32];
    return kind >= PUT_BYTES && !any_content ? ASK_TRIGGER : kind;
}

struct asked next_asked(struct bytes *bytes, size_t voices, int any_content)
{
    struct asked asked = {.kind = take_kind(bytes, any_content)};
    switch (asked.kind) {
    case ASK_OPEN: return next_opening(bytes);
    case ASK_SET_PARAMS: asked.voice = take_voice(bytes, voices); /* fall through */
    case ASK_SET_ALL_PARAMS: asked.params = take_params(bytes); break;
    case ASK_SET_TIMING: asked.timing = take_timing(bytes); break;
    case ASK_TRIGGER: asked.voice = take_voice(bytes, voices); asked.trigger = take_code(bytes, 3); break;
    case ASK_JOIN: asked.voice = take_voice(bytes, voices); asked.from = take_voice(bytes, voices); break;
    case ASK_CHORD: take_chord(bytes, voices, &asked); break;
    case ASK_PROCESS: take_block(bytes, voices, &asked); break;
    case PUT_BYTES: case PUT_ALL: break;
    default: asked.voice = take_voice(bytes, voices); break;
    }
    return asked;
}

static uint32_t random32(uint64_t *state)
{
    *state = *state * 6364136223846793005u + 1442695040888963407u;
    return (uint32_t)(*state >> 33) ^ (uint32_t)(*state >> 13);
}

/* Numbers of about the sizes that a bank has. */
static void usual_content(uint64_t state, worfelli_bank *content)
{
    for (size_t i = 0; i < WORFELLI_BANK_BENDS; i++)
        content->bends[i] = (double)(int32_t)random32(&state) / (1 << 28);
    for (size_t i = 0; i < WORFELLI_BANK_COUNTS; i++)
        content->counts[i] = random32(&state) >> (random32(&state) & 31);
    for (size_t i = 0; i < WORFELLI_BANK_FLOATS; i++)
        content->floats[i] = number_of(random32(&state), random32(&state) % 64 == 0, i % 2 == 0);
    for (size_t i = 0; i < WORFELLI_BANK_CODES; i++)
        content->codes[i] = random32(&state) >> (random32(&state) & 31);
}

void next_content(struct bytes *bytes, worfelli_bank *content)
{
    const uint32_t style = (uint32_t)take(bytes, 1);
    uint64_t state = take(bytes, 4);
    uint8_t *to = (uint8_t *)content;
    content->version = (uint32_t)state;
    switch (style % 8) {
    case 0: memset(content, (int)(state & 255), sizeof *content); break;
    case 1: case 2:
        for (size_t i = 0; i < sizeof *content; i++)
            to[i] = (uint8_t)take(bytes, 1);
        break;
    case 3: case 4:
        for (size_t i = 0; i < sizeof *content; i++)
            to[i] = (uint8_t)random32(&state);
        break;
    default: usual_content(state, content); break;
    }
}

/* ---- what refuses a call ---- */

static int has_settings(enum ask kind)
{
    return kind == ASK_OPEN || kind == ASK_SET_PARAMS || kind == ASK_SET_ALL_PARAMS;
}

static int has_voice(enum ask kind)
{
    return kind != ASK_OPEN && kind != ASK_SET_ALL_PARAMS && kind != ASK_SET_TIMING && kind != ASK_CHORD &&
           kind != ASK_PROCESS;
}

static int unnamed(const worfelli_params *p)
{
    return p->unit > 1 || p->legato_inverted > 1 || p->steal_restart > 1;
}

/* A NaN is over nothing, as C's comparison has it. */
static int time_over(const worfelli_params *p)
{
    return p->delay > LIMIT || p->attack > LIMIT || p->hold > LIMIT || p->decay > LIMIT || p->release > LIMIT;
}

/* The numbers alone are looked at, whether or not the bank has such voices. */
static int names_twice(const struct asked *asked)
{
    int twice = 0;
    for (size_t i = 0; i < asked->entries; i++)
        for (size_t j = 0; j < i; j++)
            twice |= asked->chord[i] == asked->chord[j];
    return twice;
}

static int names_missing(const struct asked *asked, size_t voices)
{
    int missing = 0;
    for (size_t i = 0; i < asked->entries; i++)
        missing |= asked->chord[i] >= voices;
    return missing;
}

uint32_t refusal_of(const struct asked *asked, size_t voices)
{
    if (has_settings(asked->kind) && unnamed(&asked->params))
        return 10;
    if ((asked->kind == ASK_TRIGGER || asked->kind == ASK_CHORD) && asked->trigger > 2)
        return 10;
    if (asked->kind == ASK_CHORD && (asked->entries > 64 || names_twice(asked)))
        return 12;
    if (asked->kind == ASK_OPEN && asked->voice > 64)
        return 1;
    if (has_voice(asked->kind) && asked->voice >= voices)
        return 2;
    if (asked->kind == ASK_JOIN && asked->from >= voices)
        return 2;
    if (asked->kind == ASK_CHORD && names_missing(asked, voices))
        return 2;
    if ((asked->kind == ASK_OPEN || asked->kind == ASK_SET_TIMING) && asked->timing.sample_rate > LIMIT)
        return 4;
    if (has_settings(asked->kind) && time_over(&asked->params))
        return 3;
    if (asked->kind == ASK_PROCESS && asked->levels % WORFELLI_STRIDE(voices) != 0)
        return 5;
    return 0;
}
