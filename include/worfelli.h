/* Worfelli's envelopes for C hosts: a live bank, called key by key and block by block, and whole event
 * lists, played by one call (docs/FORMAT.md).
 *
 *     (cd crates/worfelli && rt lib --cpu x86-64)
 *     gcc -std=c99 -O2 -Iinclude host.c crates/worfelli/out/libworfelli.a
 *
 * x86-64 Linux, System V calling convention. hosts/c/live.c is a live host, hosts/c/host.c plays lists.
 *
 * SPDX-License-Identifier: MIT OR Apache-2.0
 * The texts are LICENSE-MIT and LICENSE-APACHE; NOTICE says where the design comes from.
 *
 * Threads. The functions keep nothing but what stands in the host's memory, use no heap, take no lock
 * and make no system call, so that an audio thread may call them. One bank is for one thread at a time;
 * different banks and different buffers do not know of each other. The functions need less than 16 KiB
 * of stack, and of the C library memcpy, memmove and memset alone.
 *
 * Pointers. None may be null, not even with a length of 0. What a call writes must overlap nothing else
 * that it is given.
 *
 * Floating point. The functions need IEEE 754's default mode: rounding to nearest, subnormals kept,
 * exceptions masked. With other rounding, or with subnormals flushed, nothing fails, but other bits are
 * written. A host that sets flush-to-zero or denormals-are-zero on its audio thread, or is linked with
 * -ffast-math, which sets both at the start, has to clear them around the calls (xmmintrin.h):
 *
 *     unsigned int mode = _mm_getcsr();
 *     _mm_setcsr(0x1f80);
 *     worfelli_bank_process(&bank, out, levels);
 *     _mm_setcsr(mode);
 */
#ifndef WORFELLI_H
#define WORFELLI_H

#include <stddef.h>
#include <stdint.h>

#ifdef __cplusplus
extern "C" {
#endif

/* The version of this header's types and functions. A library of another version may take other parameters
 * or lay a bank out in another way; worfelli_agrees() tells. There was a version 2, whose functions
 * worfelli_live_... took a pointer to a bank, as worfelli_struct_... do here; worfelli_live_chord, which came
 * while it stood, takes it still. A new function alone makes no new version, since linking fails with a
 * library that lacks it. */
#define WORFELLI_VERSION 1u

/* The first and the last version whose banks lie as this one's: a stored bank of any version from the one to
 * the other goes on as it would have. */
#define WORFELLI_BANK_SINCE 1u
#define WORFELLI_BANK_UNTIL 2u

/* What a call or a list is refused by; 0 is accepted. */
enum {
    WORFELLI_TOO_MANY_VOICES = 1,   /* more than WORFELLI_MAX_VOICES */
    WORFELLI_NO_SUCH_VOICE = 2,     /* a voice number that the bank does not have */
    WORFELLI_TIME_OVER = 3,         /* a time over 1,048,576 milliseconds or beats */
    WORFELLI_RATE_OVER = 4,         /* a sample rate over 1,048,576 */
    WORFELLI_NOT_WHOLE_FRAMES = 5,  /* an output that is not a whole number of frames; never of a list */
    WORFELLI_CUT_SHORT = 6,         /* the bytes end before the record does; 6 to 9 and 11 only of a list */
    WORFELLI_UNKNOWN_TAG = 7,       /* a tag other than 1 to 9 */
    WORFELLI_WRONG_LENGTH = 8,      /* a length other than the tag's */
    WORFELLI_MISPLACED_OPEN = 9,    /* the first record is not open, or a later one is; an empty list */
    WORFELLI_UNNAMED_CODE = 10,     /* a unit, kind of trigger, legato or restart with no meaning */
    WORFELLI_OUTPUT_TOO_SHORT = 11, /* more levels than the output holds */
    WORFELLI_NOT_A_CHORD = 12       /* a chord that names a voice twice or has over 64 entries; never of a list */
};

#define WORFELLI_MAX_VOICES 64

/* Levels in a frame: the voice count rounded up to a multiple of 16, at least 16. */
#define WORFELLI_STRIDE(voices) ((voices) <= 16 ? 16 : ((voices) + 15) / 16 * 16)

/* ---- settings ---- */

/* What the five times count. */
enum { WORFELLI_MILLISECONDS = 0, WORFELLI_BEATS = 1 };

/* Where a sounding voice restarts: at the level that it has, or at its start level. */
enum { WORFELLI_CURRENT_LEVEL = 0, WORFELLI_START_LEVEL = 1 };

/* How a note starts. */
enum { WORFELLI_NEW = 0, WORFELLI_RETRIGGER = 1, WORFELLI_LEGATO = 2 };

/* Where a voice is. */
enum {
    WORFELLI_IDLE = 0,
    WORFELLI_DELAY = 1,
    WORFELLI_ATTACK = 2,
    WORFELLI_HOLD = 3,
    WORFELLI_DECAY = 4,
    WORFELLI_SUSTAIN = 5,
    WORFELLI_RELEASE = 6
};

/* A voice's settings. Times run from 0 to 1,048,576; over that they are refused, and below 0 or NaN they
 * are 0. Levels and curves are limited to 0 to 1, NaN being 0. A curve of 0.5 is straight; with more, the
 * level moves fast first and slowly into its target, with less the other way round. */
typedef struct worfelli_params {
    uint32_t unit;            /* WORFELLI_MILLISECONDS or WORFELLI_BEATS */
    float delay;              /* time at the level with which the note begins */
    float attack;             /* time of the rise to 1 */
    float hold;               /* time at 1 */
    float decay;              /* time of the fall to the sustain level */
    float sustain;            /* level until the note's end */
    float release;            /* time from the level at the note's end to the end level */
    float attack_curve;
    float decay_curve;
    float release_curve;
    float start;              /* level with which a new note begins */
    float end;                /* level at which the release ends, and of an idle voice */
    uint32_t legato_inverted; /* 1: a legato trigger restarts a sounding voice; else 0 */
    uint32_t steal_restart;   /* WORFELLI_CURRENT_LEVEL or WORFELLI_START_LEVEL */
} worfelli_params;

/* What turns a bank's times into frames. */
typedef struct worfelli_timing {
    double sample_rate; /* frames a second, up to 1,048,576; 0 if below 0 or NaN */
    double tempo;       /* beats a minute; 1 if below 1 or NaN */
    double scale;       /* what each time is multiplied by, limited to 0.1 to 10; NaN: all times are 0 */
} worfelli_timing;

/* The usual settings of a volume, and so many frames a second at 120 beats a minute:
 *
 *     worfelli_params params = WORFELLI_AMP;
 *     worfelli_timing timing = WORFELLI_TIMING(48000.0);
 */
#define WORFELLI_AMP \
    { WORFELLI_MILLISECONDS, 0.0f, 1.0f, 0.0f, 1000.0f, 1.0f, 15.0f, 0.5f, 0.666f, 0.666f, 0.0f, 0.0f, 0, \
      WORFELLI_CURRENT_LEVEL }
#define WORFELLI_TIMING(sample_rate) { (sample_rate), 120.0, 1.0 }

/* ---- a live bank ---- */

/* A bank of up to 64 voices, in the host's memory. It is plain data with no pointer and no gap in it: a
 * host may copy, store or send it, and a copy goes on as the bank would have. Its numbers are the library's
 * own; read and change them by the functions below alone. Whatever bytes stand in it are some bank, so that
 * no call can fail on them, but only worfelli_bank_open makes a fresh one. That leaves the memory of voices
 * that the bank does not have as it was: two banks that are the same may differ there in their bytes, and a
 * bank that is to be stored or sent is better zeroed before it is opened, as a static variable is. */
#define WORFELLI_BANK_BENDS 131
#define WORFELLI_BANK_COUNTS 192
#define WORFELLI_BANK_FLOATS 1236
#define WORFELLI_BANK_CODES 389
typedef struct worfelli_bank {
    double bends[WORFELLI_BANK_BENDS];
    uint64_t counts[WORFELLI_BANK_COUNTS];
    float floats[WORFELLI_BANK_FLOATS];
    uint32_t codes[WORFELLI_BANK_CODES];
    uint32_t version; /* WORFELLI_VERSION since worfelli_bank_open: for a bank that was stored or sent */
} worfelli_bank;

/* What the library was built as: WORFELLI_VERSION, and sizeof(worfelli_bank). */
uint32_t worfelli_version(void);
size_t worfelli_bank_size(void);

/* Whether header and library agree. Ask it once, before the first bank. */
static inline int worfelli_agrees(void)
{
    return worfelli_version() == WORFELLI_VERSION && worfelli_bank_size() == sizeof(worfelli_bank);
}

/* What the library exports for the calls below: settings are passed as their 11 floats in order and the
 * codes unit, legato_inverted and steal_restart. None of them reads or writes the bank's version. For other
 * languages; in C, use the functions below. */
uint32_t worfelli_struct_open(worfelli_bank *bank, size_t voices, const float *numbers, const uint32_t *named,
                              double sample_rate, double tempo, double scale);
uint32_t worfelli_struct_set_params(worfelli_bank *bank, size_t voice, const float *numbers,
                                    const uint32_t *named);
uint32_t worfelli_struct_set_all_params(worfelli_bank *bank, const float *numbers, const uint32_t *named);
uint32_t worfelli_struct_set_timing(worfelli_bank *bank, double sample_rate, double tempo, double scale);
uint32_t worfelli_struct_trigger(worfelli_bank *bank, size_t voice, uint32_t kind);
uint32_t worfelli_struct_chord(worfelli_bank *bank, const size_t *voices, size_t count, uint32_t kind);
uint32_t worfelli_struct_release(worfelli_bank *bank, size_t voice);
uint32_t worfelli_struct_reset(worfelli_bank *bank, size_t voice);
uint32_t worfelli_struct_join(worfelli_bank *bank, size_t voice, size_t from);
uint32_t worfelli_struct_process(worfelli_bank *bank, float *out, size_t levels);
size_t worfelli_struct_voices(const worfelli_bank *bank);
size_t worfelli_struct_stride(const worfelli_bank *bank);
uint32_t worfelli_struct_params(const worfelli_bank *bank, size_t voice, float *numbers, uint32_t *named);
uint32_t worfelli_struct_stage(const worfelli_bank *bank, size_t voice, uint32_t *stage);
uint32_t worfelli_struct_level(const worfelli_bank *bank, size_t voice, float *level);
uint32_t worfelli_struct_is_idle(const worfelli_bank *bank, size_t voice, uint32_t *idle);
uint32_t worfelli_struct_tail(const worfelli_bank *bank, size_t voice, uint64_t *frames);
uint32_t worfelli_struct_lead(const worfelli_bank *bank, size_t voice, uint64_t *frames);

/* worfelli_struct_chord by the name that it came with. */
uint32_t worfelli_live_chord(worfelli_bank *bank, const size_t *voices, size_t count, uint32_t kind);

/* The same calls on a bank's four arrays one by one, a chord by worfelli_apart_chord: for a host whose arrays
 * lie apart, and for what was compiled with the first header, whose functions worfelli_bank_... call these. Each
 * copies the arrays into a bank of its own, 9,084 bytes, and a call that is accepted, and is no reading, copies
 * them back; so in C, use the functions below. */
uint32_t worfelli_live_open(float *floats, double *bends, uint64_t *counts, uint32_t *codes, size_t voices,
                            const float *numbers, const uint32_t *named, double sample_rate, double tempo,
                            double scale);
uint32_t worfelli_live_set_params(float *floats, double *bends, uint64_t *counts, uint32_t *codes, size_t voice,
                                  const float *numbers, const uint32_t *named);
uint32_t worfelli_live_set_all_params(float *floats, double *bends, uint64_t *counts, uint32_t *codes,
                                      const float *numbers, const uint32_t *named);
uint32_t worfelli_live_set_timing(float *floats, double *bends, uint64_t *counts, uint32_t *codes,
                                  double sample_rate, double tempo, double scale);
uint32_t worfelli_live_trigger(float *floats, double *bends, uint64_t *counts, uint32_t *codes, size_t voice,
                               uint32_t kind);
uint32_t worfelli_apart_chord(float *floats, double *bends, uint64_t *counts, uint32_t *codes,
                              const size_t *voices, size_t count, uint32_t kind);
uint32_t worfelli_live_release(float *floats, double *bends, uint64_t *counts, uint32_t *codes, size_t voice);
uint32_t worfelli_live_reset(float *floats, double *bends, uint64_t *counts, uint32_t *codes, size_t voice);
uint32_t worfelli_live_join(float *floats, double *bends, uint64_t *counts, uint32_t *codes, size_t voice,
                            size_t from);
uint32_t worfelli_live_process(float *floats, double *bends, uint64_t *counts, uint32_t *codes, float *out,
                               size_t levels);
size_t worfelli_live_voices(const float *floats, const double *bends, const uint64_t *counts,
                            const uint32_t *codes);
size_t worfelli_live_stride(const float *floats, const double *bends, const uint64_t *counts,
                            const uint32_t *codes);
uint32_t worfelli_live_params(const float *floats, const double *bends, const uint64_t *counts,
                              const uint32_t *codes, size_t voice, float *numbers, uint32_t *named);
uint32_t worfelli_live_stage(const float *floats, const double *bends, const uint64_t *counts,
                             const uint32_t *codes, size_t voice, uint32_t *stage);
uint32_t worfelli_live_level(const float *floats, const double *bends, const uint64_t *counts,
                             const uint32_t *codes, size_t voice, float *level);
uint32_t worfelli_live_is_idle(const float *floats, const double *bends, const uint64_t *counts,
                               const uint32_t *codes, size_t voice, uint32_t *idle);
uint32_t worfelli_live_tail(const float *floats, const double *bends, const uint64_t *counts,
                            const uint32_t *codes, size_t voice, uint64_t *frames);
uint32_t worfelli_live_lead(const float *floats, const double *bends, const uint64_t *counts,
                            const uint32_t *codes, size_t voice, uint64_t *frames);

/* Every call below answers 0, or the number that it is refused by; a refused one changes nothing behind
 * any pointer, but for worfelli_bank_open, which then leaves a bank of no voices. An unnamed code, 10, is
 * tested before a call's other numbers. Voices are counted from 0.
 *
 * Settings go in and come out by two arrays. */
#define WORFELLI_NUMBERS(p) \
    { (p)->delay, (p)->attack, (p)->hold, (p)->decay, (p)->sustain, (p)->release, (p)->attack_curve, \
      (p)->decay_curve, (p)->release_curve, (p)->start, (p)->end }
#define WORFELLI_NAMED(p) { (p)->unit, (p)->legato_inverted, (p)->steal_restart }

/* Makes a bank of `voices` idle voices. Refused by 10, 1, 4 and 3, tested in this order: the bank then
 * has no voices. */
static inline uint32_t worfelli_bank_open(worfelli_bank *bank, size_t voices, const worfelli_params *params,
                                          const worfelli_timing *timing)
{
    const float numbers[11] = WORFELLI_NUMBERS(params);
    const uint32_t named[3] = WORFELLI_NAMED(params);
    bank->version = WORFELLI_VERSION;
    return worfelli_struct_open(bank, voices, numbers, named, timing->sample_rate, timing->tempo,
                                timing->scale);
}

/* New settings for a voice, from the next frame on. Refused by 10, 2 and 3. */
static inline uint32_t worfelli_bank_set_params(worfelli_bank *bank, size_t voice, const worfelli_params *params)
{
    const float numbers[11] = WORFELLI_NUMBERS(params);
    const uint32_t named[3] = WORFELLI_NAMED(params);
    return worfelli_struct_set_params(bank, voice, numbers, named);
}

/* New settings for every voice. Refused by 10 and 3. */
static inline uint32_t worfelli_bank_set_all_params(worfelli_bank *bank, const worfelli_params *params)
{
    const float numbers[11] = WORFELLI_NUMBERS(params);
    const uint32_t named[3] = WORFELLI_NAMED(params);
    return worfelli_struct_set_all_params(bank, numbers, named);
}

/* Another sample rate, tempo or scale for every voice. Refused by 4. */
static inline uint32_t worfelli_bank_set_timing(worfelli_bank *bank, const worfelli_timing *timing)
{
    return worfelli_struct_set_timing(bank, timing->sample_rate, timing->tempo, timing->scale);
}

/* A note starts on a voice: WORFELLI_NEW, WORFELLI_RETRIGGER or WORFELLI_LEGATO. Refused by 10 and 2. */
static inline uint32_t worfelli_bank_trigger(worfelli_bank *bank, size_t voice, uint32_t kind)
{
    return worfelli_struct_trigger(bank, voice, kind);
}

/* A note starts on each of `count` voices, all of one kind: as by so many calls of worfelli_bank_trigger in the
 * order of the list. Refused by 10, 12 and 2, tested in this order, and then no note starts; 12 is a voice named
 * twice, be it there or not, or a count over 64. A count of 0 is accepted. */
static inline uint32_t worfelli_bank_chord(worfelli_bank *bank, const size_t *voices, size_t count,
                                           uint32_t kind)
{
    return worfelli_struct_chord(bank, voices, count, kind);
}

/* The note of a voice ends. Refused by 2, as the two calls below. */
static inline uint32_t worfelli_bank_release(worfelli_bank *bank, size_t voice)
{
    return worfelli_struct_release(bank, voice);
}

/* A voice is idle at once, at its end level. */
static inline uint32_t worfelli_bank_reset(worfelli_bank *bank, size_t voice)
{
    return worfelli_struct_reset(bank, voice);
}

/* A voice becomes a copy of `from` as that stands now, settings included. */
static inline uint32_t worfelli_bank_join(worfelli_bank *bank, size_t voice, size_t from)
{
    return worfelli_struct_join(bank, voice, from);
}

/* Writes the next levels / stride frames of every voice, frame after frame: the voices in their order,
 * then +0 up to the stride. Refused by 5. A length of 0 is accepted. Where blocks are cut changes no
 * level. */
static inline uint32_t worfelli_bank_process(worfelli_bank *bank, float *out, size_t levels)
{
    return worfelli_struct_process(bank, out, levels);
}

/* How many voices there are, and levels in a frame. */
static inline size_t worfelli_bank_voices(const worfelli_bank *bank)
{
    return worfelli_struct_voices(bank);
}

static inline size_t worfelli_bank_stride(const worfelli_bank *bank)
{
    return worfelli_struct_stride(bank);
}

/* A voice's settings. Refused by 2, as the readings below. */
static inline uint32_t worfelli_bank_params(const worfelli_bank *bank, size_t voice, worfelli_params *params)
{
    float numbers[11] = { 0.0f };
    uint32_t named[3] = { 0 };
    const uint32_t refusal = worfelli_struct_params(bank, voice, numbers, named);
    if (refusal == 0) {
        const worfelli_params read = { named[0],   numbers[0], numbers[1], numbers[2], numbers[3],
                                       numbers[4], numbers[5], numbers[6], numbers[7], numbers[8],
                                       numbers[9], numbers[10], named[1],  named[2] };
        *params = read;
    }
    return refusal;
}

/* Where a voice is, WORFELLI_IDLE to WORFELLI_RELEASE. */
static inline uint32_t worfelli_bank_stage(const worfelli_bank *bank, size_t voice, uint32_t *stage)
{
    return worfelli_struct_stage(bank, voice, stage);
}

/* The level that a voice hands out next. */
static inline uint32_t worfelli_bank_level(const worfelli_bank *bank, size_t voice, float *level)
{
    return worfelli_struct_level(bank, voice, level);
}

/* 1 if a voice is idle, else 0. */
static inline uint32_t worfelli_bank_is_idle(const worfelli_bank *bank, size_t voice, uint32_t *idle)
{
    return worfelli_struct_is_idle(bank, voice, idle);
}

/* 0 when a voice is idle, else its release's count of frames. */
static inline uint32_t worfelli_bank_tail(const worfelli_bank *bank, size_t voice, uint64_t *frames)
{
    return worfelli_struct_tail(bank, voice, frames);
}

/* The frames until a voice's sustain, were only frames to follow; 0 when it is idle, sustains or
 * releases. */
static inline uint32_t worfelli_bank_lead(const worfelli_bank *bank, size_t voice, uint64_t *frames)
{
    return worfelli_struct_lead(bank, voice, frames);
}

/* ---- whole lists ---- */

/* A list is a whole take. Nothing is kept between calls: each begins with a fresh bank. Lists and outputs
 * of bytes need no alignment. */

/* Bytes that so many frames take. */
#define WORFELLI_OUTPUT_BYTES(voices, frames) ((size_t)(frames) * (size_t)WORFELLI_STRIDE(voices) * 4)

/* The voices and the frames of a list, so that a host can make room for it: an output of
 * WORFELLI_OUTPUT_BYTES(*voices, *frames) holds it, and no shorter one does. Answers 0, or the number that
 * refuses the list however long the output is; *voices and *frames are then as they were. A list that needs
 * more bytes than a size_t counts is 11, so that WORFELLI_OUTPUT_BYTES of an accepted one never overflows. */
uint32_t worfelli_list_info(const uint8_t *list, size_t list_len, size_t *voices, uint64_t *frames);

/* Plays a list. Returns the frames written, 0 or more, or minus the refusal's number.
 *
 * The whole list is checked first. On a refusal, the output is untouched. Else frame after frame is
 * written from the output's first byte on, WORFELLI_STRIDE levels each: the voices in their order, then
 * +0 in the spare lanes. A level is a binary32, four bytes, lowest first, so on x86-64 an output that
 * is aligned for it can be read as an array of float. Bytes past the frames are untouched.
 *
 * out_len is in bytes; the output holds out_len / 4 levels, and its last out_len % 4 bytes are unused. */
int64_t worfelli_play(const uint8_t *list, size_t list_len, uint8_t *out, size_t out_len);

/* Where worfelli_play with the same list and out_len (in bytes) refuses it: the first byte of the
 * refused record, or list_len if nothing is refused. It only checks, so it also tells beforehand
 * whether a list will be played; but of an empty list, which is refused, it answers 0 as well. */
uint64_t worfelli_refused_at(const uint8_t *list, size_t list_len, size_t out_len);

#ifdef __cplusplus
}
#endif

#endif
