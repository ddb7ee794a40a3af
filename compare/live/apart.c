/* The exported functions that take a bank's four arrays one by one, under names of their own and with the
 * header's settings and timings, so that what is compared is a bank whose arrays lie apart. */
#include "../../include/worfelli.h"

typedef struct compare_arrays {
    double *bends;
    uint64_t *counts;
    float *floats;
    uint32_t *codes;
} compare_arrays;

#define ARRAYS(a) (a)->floats, (a)->bends, (a)->counts, (a)->codes

uint32_t compare_apart_open(compare_arrays *arrays, size_t voices, const worfelli_params *params,
                            const worfelli_timing *timing)
{
    const float numbers[11] = WORFELLI_NUMBERS(params);
    const uint32_t named[3] = WORFELLI_NAMED(params);
    return worfelli_live_open(ARRAYS(arrays), voices, numbers, named, timing->sample_rate, timing->tempo,
                              timing->scale);
}

uint32_t compare_apart_set_params(compare_arrays *arrays, size_t voice, const worfelli_params *params)
{
    const float numbers[11] = WORFELLI_NUMBERS(params);
    const uint32_t named[3] = WORFELLI_NAMED(params);
    return worfelli_live_set_params(ARRAYS(arrays), voice, numbers, named);
}

uint32_t compare_apart_set_all_params(compare_arrays *arrays, const worfelli_params *params)
{
    const float numbers[11] = WORFELLI_NUMBERS(params);
    const uint32_t named[3] = WORFELLI_NAMED(params);
    return worfelli_live_set_all_params(ARRAYS(arrays), numbers, named);
}

uint32_t compare_apart_set_timing(compare_arrays *arrays, const worfelli_timing *timing)
{
    return worfelli_live_set_timing(ARRAYS(arrays), timing->sample_rate, timing->tempo, timing->scale);
}

uint32_t compare_apart_trigger(compare_arrays *arrays, size_t voice, uint32_t kind)
{
    return worfelli_live_trigger(ARRAYS(arrays), voice, kind);
}

uint32_t compare_apart_chord(compare_arrays *arrays, const size_t *voices, size_t count, uint32_t kind)
{
    return worfelli_apart_chord(ARRAYS(arrays), voices, count, kind);
}

uint32_t compare_apart_release(compare_arrays *arrays, size_t voice)
{
    return worfelli_live_release(ARRAYS(arrays), voice);
}

uint32_t compare_apart_reset(compare_arrays *arrays, size_t voice)
{
    return worfelli_live_reset(ARRAYS(arrays), voice);
}

uint32_t compare_apart_join(compare_arrays *arrays, size_t voice, size_t from)
{
    return worfelli_live_join(ARRAYS(arrays), voice, from);
}

uint32_t compare_apart_process(compare_arrays *arrays, float *out, size_t levels)
{
    return worfelli_live_process(ARRAYS(arrays), out, levels);
}

size_t compare_apart_voices(const compare_arrays *arrays)
{
    return worfelli_live_voices(ARRAYS(arrays));
}

size_t compare_apart_stride(const compare_arrays *arrays)
{
    return worfelli_live_stride(ARRAYS(arrays));
}

uint32_t compare_apart_params(const compare_arrays *arrays, size_t voice, worfelli_params *params)
{
    float numbers[11] = { 0.0f };
    uint32_t named[3] = { 0 };
    const uint32_t refusal = worfelli_live_params(ARRAYS(arrays), voice, numbers, named);
    if (refusal == 0) {
        const worfelli_params read = { named[0],   numbers[0], numbers[1], numbers[2], numbers[3],
                                       numbers[4], numbers[5], numbers[6], numbers[7], numbers[8],
                                       numbers[9], numbers[10], named[1],  named[2] };
        *params = read;
    }
    return refusal;
}

uint32_t compare_apart_stage(const compare_arrays *arrays, size_t voice, uint32_t *stage)
{
    return worfelli_live_stage(ARRAYS(arrays), voice, stage);
}

uint32_t compare_apart_level(const compare_arrays *arrays, size_t voice, float *level)
{
    return worfelli_live_level(ARRAYS(arrays), voice, level);
}

uint32_t compare_apart_is_idle(const compare_arrays *arrays, size_t voice, uint32_t *idle)
{
    return worfelli_live_is_idle(ARRAYS(arrays), voice, idle);
}

uint32_t compare_apart_tail(const compare_arrays *arrays, size_t voice, uint64_t *frames)
{
    return worfelli_live_tail(ARRAYS(arrays), voice, frames);
}

uint32_t compare_apart_lead(const compare_arrays *arrays, size_t voice, uint64_t *frames)
{
    return worfelli_live_lead(ARRAYS(arrays), voice, frames);
}
