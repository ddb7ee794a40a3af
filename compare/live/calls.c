/* The functions of include/worfelli.h under names of their own, so that what is compared and measured is
 * what a C compiler makes of the header: its inline functions are seen by no linker. */
#include "../../include/worfelli.h"

int compare_agrees(void)
{
    return worfelli_agrees();
}

uint32_t compare_bank_open(worfelli_bank *bank, size_t voices, const worfelli_params *params,
                           const worfelli_timing *timing)
{
    return worfelli_bank_open(bank, voices, params, timing);
}

uint32_t compare_bank_set_params(worfelli_bank *bank, size_t voice, const worfelli_params *params)
{
    return worfelli_bank_set_params(bank, voice, params);
}

uint32_t compare_bank_set_all_params(worfelli_bank *bank, const worfelli_params *params)
{
    return worfelli_bank_set_all_params(bank, params);
}

uint32_t compare_bank_set_timing(worfelli_bank *bank, const worfelli_timing *timing)
{
    return worfelli_bank_set_timing(bank, timing);
}

uint32_t compare_bank_trigger(worfelli_bank *bank, size_t voice, uint32_t kind)
{
    return worfelli_bank_trigger(bank, voice, kind);
}

uint32_t compare_bank_chord(worfelli_bank *bank, const size_t *voices, size_t count, uint32_t kind)
{
    return worfelli_bank_chord(bank, voices, count, kind);
}

/* By the other name that takes a pointer. */
uint32_t compare_live_chord(worfelli_bank *bank, const size_t *voices, size_t count, uint32_t kind)
{
    return worfelli_live_chord(bank, voices, count, kind);
}

uint32_t compare_bank_release(worfelli_bank *bank, size_t voice)
{
    return worfelli_bank_release(bank, voice);
}

uint32_t compare_bank_reset(worfelli_bank *bank, size_t voice)
{
    return worfelli_bank_reset(bank, voice);
}

uint32_t compare_bank_join(worfelli_bank *bank, size_t voice, size_t from)
{
    return worfelli_bank_join(bank, voice, from);
}

uint32_t compare_bank_process(worfelli_bank *bank, float *out, size_t levels)
{
    return worfelli_bank_process(bank, out, levels);
}

size_t compare_bank_voices(const worfelli_bank *bank)
{
    return worfelli_bank_voices(bank);
}

size_t compare_bank_stride(const worfelli_bank *bank)
{
    return worfelli_bank_stride(bank);
}

uint32_t compare_bank_params(const worfelli_bank *bank, size_t voice, worfelli_params *params)
{
    return worfelli_bank_params(bank, voice, params);
}

uint32_t compare_bank_stage(const worfelli_bank *bank, size_t voice, uint32_t *stage)
{
    return worfelli_bank_stage(bank, voice, stage);
}

uint32_t compare_bank_level(const worfelli_bank *bank, size_t voice, float *level)
{
    return worfelli_bank_level(bank, voice, level);
}

uint32_t compare_bank_is_idle(const worfelli_bank *bank, size_t voice, uint32_t *idle)
{
    return worfelli_bank_is_idle(bank, voice, idle);
}

uint32_t compare_bank_tail(const worfelli_bank *bank, size_t voice, uint64_t *frames)
{
    return worfelli_bank_tail(bank, voice, frames);
}

uint32_t compare_bank_lead(const worfelli_bank *bank, size_t voice, uint64_t *frames)
{
    return worfelli_bank_lead(bank, voice, frames);
}
