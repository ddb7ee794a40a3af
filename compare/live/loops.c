/* What the measurements ask of a live bank, over and over: in loops of a C host's own, so that a call
 * costs here what it costs there. */
#include <string.h>

#include "../../include/worfelli.h"

/* What calls are made with, and what those are made with that change it. */
typedef struct compare_sound {
    worfelli_params params;
    worfelli_params other_params;
    worfelli_timing timing;
    worfelli_timing other_timing;
} compare_sound;

/* The kinds of calls and of readings, by the numbers of compare/src/measured/asked.rs. */
enum {
    TRIGGER,
    RELEASE,
    SETTINGS,
    OTHER_SETTINGS,
    RESET,
    RETRIGGER,
    LEGATO,
    JOIN,
    ALL_SETTINGS,
    ALL_OTHER_SETTINGS,
    TIMING,
    OTHER_TIMING
};
enum { READ_PARAMS, READ_STAGE, READ_LEVEL, READ_IDLE, READ_TAIL, READ_LEAD, READ_VOICES, READ_STRIDE };

static size_t after(size_t voice, size_t voices)
{
    return voice + 1 < voices ? voice + 1 : 0;
}

static uint32_t call(worfelli_bank *bank, const compare_sound *sound, uint32_t kind, size_t voice, size_t voices)
{
    switch (kind) {
    case TRIGGER:
        return worfelli_bank_trigger(bank, voice, WORFELLI_NEW);
    case RELEASE:
        return worfelli_bank_trigger(bank, voice, WORFELLI_NEW) | worfelli_bank_release(bank, voice);
    case SETTINGS:
        return worfelli_bank_set_params(bank, voice, &sound->params);
    case OTHER_SETTINGS:
        return worfelli_bank_set_params(bank, voice, &sound->other_params) |
               worfelli_bank_set_params(bank, voice, &sound->params);
    case RESET:
        return worfelli_bank_reset(bank, voice);
    case RETRIGGER:
        return worfelli_bank_trigger(bank, voice, WORFELLI_RETRIGGER);
    case LEGATO:
        return worfelli_bank_trigger(bank, voice, WORFELLI_LEGATO);
    case JOIN:
        return worfelli_bank_join(bank, voice, after(voice, voices));
    case ALL_SETTINGS:
        return worfelli_bank_set_all_params(bank, &sound->params);
    case ALL_OTHER_SETTINGS:
        return worfelli_bank_set_all_params(bank, &sound->other_params) |
               worfelli_bank_set_all_params(bank, &sound->params);
    case TIMING:
        return worfelli_bank_set_timing(bank, &sound->timing);
    case OTHER_TIMING:
        return worfelli_bank_set_timing(bank, &sound->other_timing) |
               worfelli_bank_set_timing(bank, &sound->timing);
    default:
        return WORFELLI_UNNAMED_CODE;
    }
}

/* So many calls of a kind on the voices in turn. Every function answers 0 if nothing was refused. */
uint32_t compare_calls(worfelli_bank *bank, const compare_sound *sound, uint32_t kind, uint32_t calls)
{
    const size_t voices = worfelli_bank_voices(bank);
    uint32_t refusals = 0;
    size_t voice = 0;
    for (uint32_t made = 0; made < calls; made++) {
        refusals |= call(bank, sound, kind, voice, voices);
        voice = after(voice, voices);
    }
    return refusals;
}

/* So many chords by a kind of trigger, each of the next `size` of all voices in turn. */
uint32_t compare_chords(worfelli_bank *bank, const size_t *turn, size_t size, uint32_t trigger, uint32_t chords)
{
    const size_t voices = worfelli_bank_voices(bank);
    uint32_t refusals = 0;
    size_t first = 0;
    for (uint32_t made = 0; made < chords; made++) {
        refusals |= worfelli_bank_chord(bank, turn + first, size, trigger);
        first = first + 2 * size <= voices ? first + size : 0;
    }
    return refusals;
}

/* So many openings. */
uint32_t compare_opens(worfelli_bank *bank, size_t voices, const compare_sound *sound, uint32_t times)
{
    uint32_t refusals = 0;
    for (uint32_t made = 0; made < times; made++)
        refusals |= worfelli_bank_open(bank, voices, &sound->params, &sound->timing);
    return refusals;
}

/* So many blocks of so many levels, into the same output. */
uint32_t compare_blocks(worfelli_bank *bank, float *out, size_t levels, uint32_t blocks)
{
    uint32_t refusals = 0;
    for (uint32_t drawn = 0; drawn < blocks; drawn++)
        refusals |= worfelli_bank_process(bank, out, levels);
    return refusals;
}

static uint64_t bits(float number)
{
    uint32_t word;
    memcpy(&word, &number, sizeof word);
    return word;
}

/* A reading as a number: of settings the bits of their decay, of a level its own. */
static uint64_t reading(const worfelli_bank *bank, uint32_t kind, size_t voice)
{
    worfelli_params params = WORFELLI_AMP;
    uint32_t code = 0;
    float level = 0.0f;
    uint64_t frames = 0;
    switch (kind) {
    case READ_PARAMS:
        return worfelli_bank_params(bank, voice, &params) == 0 ? bits(params.decay) : 0;
    case READ_STAGE:
        return worfelli_bank_stage(bank, voice, &code) == 0 ? code : 0;
    case READ_LEVEL:
        return worfelli_bank_level(bank, voice, &level) == 0 ? bits(level) : 0;
    case READ_IDLE:
        return worfelli_bank_is_idle(bank, voice, &code) == 0 ? code : 0;
    case READ_TAIL:
        return worfelli_bank_tail(bank, voice, &frames) == 0 ? frames : 0;
    case READ_LEAD:
        return worfelli_bank_lead(bank, voice, &frames) == 0 ? frames : 0;
    case READ_VOICES:
        return worfelli_bank_voices(bank);
    case READ_STRIDE:
        return worfelli_bank_stride(bank);
    default:
        return 0;
    }
}

/* The sum of so many readings of the voices in turn, modulo 2^64. */
uint64_t compare_readings(const worfelli_bank *bank, uint32_t kind, uint32_t times)
{
    const size_t voices = worfelli_bank_voices(bank);
    uint64_t sum = 0;
    size_t voice = 0;
    for (uint32_t read = 0; read < times; read++) {
        sum += reading(bank, kind, voice);
        voice = after(voice, voices);
    }
    return sum;
}
