/* Live banks with one fault each, to see that the fuzz target notices it. WRONG, 1 to 52, chooses the fault;
 * the linker puts these in place of the library's functions (--wrap). */
#include <math.h>
#include <string.h>
#include <xmmintrin.h>

#include "../include/worfelli.h"

#define REAL(name) \
    __typeof__(worfelli_struct_##name) __real_worfelli_struct_##name, __wrap_worfelli_struct_##name; \
    __typeof__(worfelli_live_##name) __wrap_worfelli_live_##name
REAL(open);
REAL(set_params);
REAL(trigger);
REAL(chord);
REAL(release);
REAL(reset);
REAL(join);
REAL(process);
REAL(voices);
REAL(stride);
REAL(params);
REAL(stage);
REAL(level);
REAL(is_idle);
REAL(tail);
REAL(lead);
__typeof__(worfelli_apart_chord) __wrap_worfelli_apart_chord;

uint32_t __wrap_worfelli_struct_open(worfelli_bank *bank, size_t voices, const float *numbers, const uint32_t *named,
                                     double rate, double tempo, double scale)
{
    const float attack = bank->floats[341];
    uint32_t refusal = __real_worfelli_struct_open(bank, voices, numbers, named, rate, tempo, scale);
    if (WRONG == 1 && refusal == 4 && numbers[0] > 1048576) /* a time is tested before the rate */
        refusal = 3;
    if (WRONG == 2 && refusal == 0) /* keeps voice 0's attack of what stood there before */
        bank->floats[341] = attack;
    if (WRONG == 3 && refusal == 1) /* opens a bank of 64 voices where more are asked for */
        __real_worfelli_struct_open(bank, 64, numbers, named, rate, tempo, scale);
    return refusal;
}

uint32_t __wrap_worfelli_struct_set_params(worfelli_bank *bank, size_t voice, const float *numbers,
                                           const uint32_t *named)
{
    float swapped[11];
    if (WRONG == 4 && voice >= __real_worfelli_struct_voices(bank)) /* a voice is tested before the codes */
        return 2;
    memcpy(swapped, numbers, sizeof swapped);
    if (WRONG == 5) { /* start and end exchanged */
        swapped[9] = numbers[10];
        swapped[10] = numbers[9];
    }
    if (WRONG == 6) /* reads past the numbers */
        swapped[0] += 0 * ((volatile const float *)numbers)[11];
    return __real_worfelli_struct_set_params(bank, voice, swapped, named);
}

uint32_t __wrap_worfelli_struct_trigger(worfelli_bank *bank, size_t voice, uint32_t kind)
{
    /* 7: a kind that names nothing is legato. */
    return __real_worfelli_struct_trigger(bank, voice, WRONG == 7 && kind > 2 ? 2 : kind);
}

/* The first refusal of so many triggers one by one. */
static uint32_t one_by_one(worfelli_bank *bank, const size_t *voices, size_t count, uint32_t kind)
{
    uint32_t refusal = 0;
    for (size_t i = 0; i < count && refusal == 0; i++)
        refusal = __real_worfelli_struct_trigger(bank, voices[i], kind);
    return refusal;
}

/* Only the low halves of a chord's numbers are looked at. */
static uint32_t by_halves(worfelli_bank *bank, const size_t *voices, size_t count, uint32_t kind)
{
    size_t halves[WORFELLI_MAX_VOICES];
    for (size_t i = 0; i < count && count <= WORFELLI_MAX_VOICES; i++)
        halves[i] = (uint32_t)voices[i];
    return __real_worfelli_struct_chord(bank, count <= WORFELLI_MAX_VOICES ? halves : voices, count, kind);
}

/* What refuses a chord, but for 2 in place of 12 where a voice is missing. */
static uint32_t missing_first(const worfelli_bank *bank, const size_t *voices, size_t count, uint32_t refusal)
{
    const size_t there = __real_worfelli_struct_voices(bank);
    for (size_t i = 0; i < count && refusal == 12; i++)
        refusal = voices[i] >= there ? 2 : 12;
    return refusal;
}

/* The chord, or with 35 to 39 another one. */
static uint32_t some_chord(worfelli_bank *bank, const size_t *voices, size_t count, uint32_t kind)
{
    switch (WRONG) {
    case 35: return by_halves(bank, voices, count, kind);
    case 36: /* only the low byte of the count is looked at */
        return __real_worfelli_struct_chord(bank, voices, count % 256, kind);
    case 37: /* a kind that names nothing is new */
        return __real_worfelli_struct_chord(bank, voices, count, kind > 2 ? 0 : kind);
    case 38: /* all kinds are new */
        return __real_worfelli_struct_chord(bank, voices, count, kind > 2 ? kind : 0);
    case 39: /* leaves the last voice out */
        return __real_worfelli_struct_chord(bank, voices, count > 1 ? count - 1 : count, kind);
    default: return __real_worfelli_struct_chord(bank, voices, count, kind);
    }
}

uint32_t __wrap_worfelli_struct_chord(worfelli_bank *bank, const size_t *voices, size_t count, uint32_t kind)
{
    const uint32_t refusal = some_chord(bank, voices, count, kind);
    const int any = refusal == 0 && count > 0;
    const volatile size_t *entries = voices;
    if (WRONG == 40) /* tests 2 before 12 */
        return missing_first(bank, voices, count, refusal);
    if (WRONG == 41 && refusal == 12 && count <= 64) /* triggers a voice twice that is named twice */
        return one_by_one(bank, voices, count, kind);
    if (WRONG == 42 && any && count == 64) /* refuses a chord of 64 voices */
        return 12;
    if (WRONG == 43 && refusal == 2) /* starts the notes before the voice that is missing */
        one_by_one(bank, voices, count, kind);
    if (WRONG == 44 && any) /* starts a note that is not asked for */
        __real_worfelli_struct_trigger(bank, (voices[0] + 1) % __real_worfelli_struct_voices(bank), kind);
    if (WRONG == 45) /* reads past the list */
        (void)entries[count];
    if (WRONG == 46) /* reads before the list */
        (void)entries[-1];
    if (WRONG == 47 && any) /* writes to the list */
        *(volatile size_t *)(uintptr_t)voices = voices[0];
    return refusal;
}

uint32_t __wrap_worfelli_live_chord(worfelli_bank *bank, const size_t *voices, size_t count, uint32_t kind)
{
    /* 52: by this name leaves the last voice out. */
    return __wrap_worfelli_struct_chord(bank, voices, WRONG == 52 && count > 1 ? count - 1 : count, kind);
}

uint32_t __wrap_worfelli_struct_release(worfelli_bank *bank, size_t voice)
{
    const uint32_t refusal = __real_worfelli_struct_release(bank, voice);
    if (WRONG == 8 && refusal != 0) /* touches the bank that it refuses */
        bank->codes[0] ^= 1;
    if (WRONG == 9 && refusal == 0) /* writes past the bank */
        ((volatile uint32_t *)(bank + 1))[0] = 0;
    if (WRONG == 10 && refusal == 0) /* writes before the bank */
        ((volatile uint64_t *)bank)[-1] = 0;
    if (WRONG == 34 && refusal == 0) /* writes the version */
        bank->version = ~bank->version;
    return refusal;
}

uint32_t __wrap_worfelli_struct_reset(worfelli_bank *bank, size_t voice)
{
    /* 11: does nothing. */
    return WRONG == 11 && voice < __real_worfelli_struct_voices(bank)
               ? 0
               : __real_worfelli_struct_reset(bank, voice);
}

uint32_t __wrap_worfelli_struct_join(worfelli_bank *bank, size_t voice, size_t from)
{
    /* 12: the wrong way round. */
    return WRONG == 12 ? __real_worfelli_struct_join(bank, from, voice)
                       : __real_worfelli_struct_join(bank, voice, from);
}

uint32_t __wrap_worfelli_struct_process(worfelli_bank *bank, float *out, size_t levels)
{
    static uint32_t calls;
    const size_t voices = __real_worfelli_struct_voices(bank), stride = __real_worfelli_struct_stride(bank);
    const uint32_t refusal = __real_worfelli_struct_process(bank, out, levels);
    const int any = refusal == 0 && levels > 0 && voices > 0;
    uint32_t changed = 0;
    (void)calls;
    switch (WRONG) {
    case 13: /* writes one level too many */
        if (any)
            out[levels] = 0;
        break;
    case 14: /* writes one level before the output */
        if (any)
            out[-1] = 0;
        break;
    case 15: /* touches the output that it refuses */
        if (refusal != 0 && levels > 0)
            out[0] = 0;
        break;
    case 16: /* -0 in a spare lane */
        if (any && voices < stride)
            out[stride - 1] = -0.0f;
        break;
    case 17: /* a NaN for each level of 1 of voice 0, as its reading has it too */
        for (size_t i = 0; any && i < levels; i += stride)
            out[i] = out[i] == 1 ? NAN : out[i];
        break;
    case 18: /* other levels where a block has one frame */
        changed = levels == stride && bank->counts[2] % 4 == 1;
        break;
    case 19: /* keeps something between calls */
        changed = ++calls % 64 == 0;
        break;
    case 20: /* looks at where the bank is */
        changed = (uintptr_t)bank % 4096 == 0;
        break;
    case 21: { /* takes 16 KiB of stack */
        volatile uint8_t deep[16 << 10];
        for (size_t i = 0; i < sizeof deep; i++)
            deep[i] = 0;
        break;
    }
    case 22: /* leaves another floating-point mode */
        _mm_setcsr(_mm_getcsr() | 0x8000);
        break;
    case 23: /* never ends, on a content that no opening makes */
        while (((volatile worfelli_bank *)bank)->codes[73] > 1000000)
            ;
        break;
    case 24: /* leaves the last level of a block unwritten */
        if (any && voices == stride)
            memset(&out[levels - 1], 0xa5, sizeof *out);
        break;
    default:
        break;
    }
    if (any && changed != 0)
        out[0] += 0.25f;
    return refusal;
}

size_t __wrap_worfelli_struct_voices(const worfelli_bank *bank)
{
    /* 25: as many as the bytes say. */
    return WRONG == 25 && bank->codes[388] > 1000 ? bank->codes[388] : __real_worfelli_struct_voices(bank);
}

size_t __wrap_worfelli_struct_stride(const worfelli_bank *bank)
{
    const size_t stride = __real_worfelli_struct_stride(bank);
    return WRONG == 26 && stride == 48 ? 64 : stride; /* 26: no stride of 48 */
}

uint32_t __wrap_worfelli_struct_params(const worfelli_bank *bank, size_t voice, float *numbers, uint32_t *named)
{
    if (WRONG == 27) /* writes to a bank that it only reads */
        *(volatile uint32_t *)(uintptr_t)bank->codes = bank->codes[0];
    return __real_worfelli_struct_params(bank, voice, numbers, named);
}

uint32_t __wrap_worfelli_struct_stage(const worfelli_bank *bank, size_t voice, uint32_t *stage)
{
    const uint32_t refusal = __real_worfelli_struct_stage(bank, voice, stage);
    if (WRONG == 28 && refusal == 0 && bank->codes[73 + 5 * voice] > 6) /* the code as it stands */
        *stage = bank->codes[73 + 5 * voice];
    return refusal;
}

uint32_t __wrap_worfelli_struct_level(const worfelli_bank *bank, size_t voice, float *level)
{
    const uint32_t refusal = __real_worfelli_struct_level(bank, voice, level);
    if (WRONG == 17 && refusal == 0 && voice == 0 && *level == 1)
        *level = NAN;
    if (WRONG == 29 && refusal != 0) /* writes a reading that it refuses */
        *level = 0;
    if (WRONG == 30 && refusal == 0 && *level > 0.5f) /* a level that is off by one bit */
        *level = nextafterf(*level, 0);
    return refusal;
}

uint32_t __wrap_worfelli_struct_is_idle(const worfelli_bank *bank, size_t voice, uint32_t *idle)
{
    const uint32_t refusal = __real_worfelli_struct_is_idle(bank, voice, idle);
    if (WRONG == 31 && refusal == 0 && bank->codes[73 + 5 * voice] == 6) /* a voice that releases is idle */
        *idle = 1;
    return refusal;
}

uint32_t __wrap_worfelli_struct_tail(const worfelli_bank *bank, size_t voice, uint64_t *frames)
{
    const uint32_t refusal = __real_worfelli_struct_tail(bank, voice, frames);
    if (WRONG == 32 && refusal == 0 && *frames == 0) /* an idle voice has a tail */
        *frames = 1;
    return refusal;
}

uint32_t __wrap_worfelli_struct_lead(const worfelli_bank *bank, size_t voice, uint64_t *frames)
{
    const uint32_t refusal = __real_worfelli_struct_lead(bank, voice, frames);
    if (WRONG == 33 && refusal == 0 && bank->codes[73 + 5 * voice] == 5) /* a voice that sustains has a lead */
        *frames = 1;
    return refusal;
}

/* On four arrays: the same faults, in a bank that is put together of them and taken apart again, and some of its
 * own. */
#define TO float *f, double *k, uint64_t *n, uint32_t *c
#define FROM const float *f, const double *k, const uint64_t *n, const uint32_t *c

/* A bank beside which a fault may write. */
static worfelli_bank banks[3], *const together = &banks[1];

static void put_together(FROM)
{
    memcpy(together->floats, f, sizeof together->floats);
    memcpy(together->bends, k, sizeof together->bends);
    memcpy(together->counts, n, sizeof together->counts);
    memcpy(together->codes, c, sizeof together->codes);
}

static void take_apart(TO)
{
    memcpy(f, together->floats, sizeof together->floats);
    memcpy(k, together->bends, sizeof together->bends);
    memcpy(n, together->counts, sizeof together->counts);
    if (WRONG != 48) /* 48: the codes are not put back */
        memcpy(c, together->codes, sizeof together->codes);
    if (WRONG == 49) /* writes past the floats */
        ((volatile float *)f)[WORFELLI_BANK_FLOATS] = 0;
    if (WRONG == 50) /* writes before the counts */
        ((volatile uint64_t *)n)[-1] = 0;
}

#define CALL(by, name, given, arguments) \
    uint32_t __wrap_worfelli_##by##_##name given \
    { \
        uint32_t refusal; \
        put_together(f, k, n, c); \
        refusal = __wrap_worfelli_struct_##name arguments; \
        take_apart(f, k, n, c); \
        return refusal; \
    }
#define READING(type, name, given, arguments) \
    type __wrap_worfelli_live_##name given \
    { \
        put_together(f, k, n, c); \
        if (WRONG == 51) /* writes to arrays that it only reads */ \
            *(volatile uint32_t *)(uintptr_t)c = c[0]; \
        return __wrap_worfelli_struct_##name arguments; \
    }
CALL(live, open,
     (TO, size_t voices, const float *numbers, const uint32_t *named, double rate, double tempo, double scale),
     (together, voices, numbers, named, rate, tempo, scale))
CALL(live, set_params, (TO, size_t voice, const float *numbers, const uint32_t *named),
     (together, voice, numbers, named))
CALL(live, trigger, (TO, size_t voice, uint32_t kind), (together, voice, kind))
CALL(apart, chord, (TO, const size_t *voices, size_t count, uint32_t kind), (together, voices, count, kind))
CALL(live, release, (TO, size_t voice), (together, voice))
CALL(live, reset, (TO, size_t voice), (together, voice))
CALL(live, join, (TO, size_t voice, size_t from), (together, voice, from))
CALL(live, process, (TO, float *out, size_t levels), (together, out, levels))
READING(size_t, voices, (FROM), (together))
READING(size_t, stride, (FROM), (together))
READING(uint32_t, params, (FROM, size_t voice, float *numbers, uint32_t *named), (together, voice, numbers, named))
READING(uint32_t, stage, (FROM, size_t voice, uint32_t *stage), (together, voice, stage))
READING(uint32_t, level, (FROM, size_t voice, float *level), (together, voice, level))
READING(uint32_t, is_idle, (FROM, size_t voice, uint32_t *idle), (together, voice, idle))
READING(uint32_t, tail, (FROM, size_t voice, uint64_t *frames), (together, voice, frames))
READING(uint32_t, lead, (FROM, size_t voice, uint64_t *frames), (together, voice, frames))
