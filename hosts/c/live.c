/* A live host: key events come in, blocks of levels go out.
 *
 *     live [BLOCK] <KEYS >LEVELS
 *
 * KEYS is a script of key events (keys.h); a key is a voice. Keys that go down together are a chord, which one
 * call triggers anew; an up releases each of its keys. LEVELS are binary32 numbers, lowest byte first, 16 a
 * frame. A block is at most BLOCK frames (64) and is cut at an event, so that each event is exact to the frame;
 * how long blocks are changes no level.
 *
 * Exit status: 0 played, 2 anything else. What went wrong is one line on standard error; the levels
 * before it have been written. */
#include <errno.h>
#include <stdint.h>
#include <stdio.h>
#include <string.h>

#include "../../include/worfelli.h"
#include "keys.h"
#include "reasons.h"

#define STRIDE WORFELLI_STRIDE(KEYS)
#define USUAL_BLOCK 64
#define LONGEST_BLOCK 4096

enum { PLAYED = 0, FAILED = 2 };

static int failed(const char *what, const char *why)
{
    fprintf(stderr, "live: %s: %s\n", what, why);
    return FAILED;
}

static int answered(uint32_t refusal)
{
    if (refusal == 0)
        return PLAYED;
    fprintf(stderr, "live: refused %lu: %s\n", (unsigned long)refusal, reason(refusal));
    return FAILED;
}

static int open_bank(worfelli_bank *bank)
{
    const worfelli_timing timing = WORFELLI_TIMING(48000.0);
    worfelli_params params = WORFELLI_AMP;
    params.attack = 10.0f;
    params.decay = 200.0f;
    params.sustain = 0.6f;
    params.release = 120.0f;
    return answered(worfelli_bank_open(bank, KEYS, &params, &timing));
}

static uint32_t release_keys(worfelli_bank *bank, const struct key_event *event)
{
    uint32_t refusal = 0;
    size_t i;
    for (i = 0; i < event->count && refusal == 0; i++)
        refusal = worfelli_bank_release(bank, event->keys[i]);
    return refusal;
}

static int send_event(worfelli_bank *bank, const struct key_event *event)
{
    switch (event->action) {
    case KEY_DOWN: return answered(worfelli_bank_chord(bank, event->keys, event->count, WORFELLI_NEW));
    case KEY_UP: return answered(release_keys(bank, event));
    default: return PLAYED;
    }
}

/* The block loop. Where a sound card asks for blocks, its callback calls worfelli_bank_process and turns
 * the levels into sound. */
static int run_blocks(worfelli_bank *bank, uint64_t frames, size_t block)
{
    static float levels[LONGEST_BLOCK * STRIDE];
    while (frames > 0) {
        const size_t now = frames < block ? (size_t)frames : block;
        const int status = answered(worfelli_bank_process(bank, levels, now * STRIDE));
        if (status != PLAYED)
            return status;
        /* On x86-64 a float's lowest byte is the first. */
        if (fwrite(levels, STRIDE * sizeof(float), now, stdout) != now)
            return failed("standard output", strerror(errno));
        frames -= now;
    }
    return PLAYED;
}

/* Each event in its turn, after the frames before it. */
static int play(worfelli_bank *bank, size_t block)
{
    struct script script = { 0, 0 };
    struct key_event event;
    uint64_t frame = 0;
    int status = PLAYED;
    do {
        if (!next_event(&script, &event))
            return FAILED;
        status = run_blocks(bank, event.frame - frame, block);
        if (status == PLAYED)
            status = send_event(bank, &event);
        frame = event.frame;
    } while (status == PLAYED && event.action != KEYS_END);
    return status == PLAYED && !script_ends(&script) ? FAILED : status;
}

int main(int argc, char **argv)
{
    static worfelli_bank bank;
    uint64_t block = USUAL_BLOCK;
    int status;
    if (argc > 2 || (argc == 2 && !parse_number(argv[1], LONGEST_BLOCK, &block)) || block == 0) {
        fputs("usage: live [BLOCK] <KEYS >LEVELS, BLOCK from 1 to 4096 frames (64)\n", stderr);
        return FAILED;
    }
    if (!worfelli_agrees())
        return failed("worfelli.h", "the library is of another version");
    /* Each block goes out as soon as it is there; stdio then needs no memory of its own for them. */
    setvbuf(stdout, NULL, _IONBF, 0);
    /* A program starts in the floating-point mode that the bank needs. */
    status = open_bank(&bank);
    return status == PLAYED ? play(&bank, (size_t)block) : status;
}
