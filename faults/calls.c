#include "calls.h"

#include <string.h>

#define BEFORE 0xa5 /* what stands in out-parameters before, and beside what may be written */

/* The library's functions, or the same code's compiled otherwise. */
struct functions {
    __typeof__(worfelli_struct_open) *open;
    __typeof__(worfelli_struct_set_params) *set_params;
    __typeof__(worfelli_struct_set_all_params) *set_all_params;
    __typeof__(worfelli_struct_set_timing) *set_timing;
    __typeof__(worfelli_struct_trigger) *trigger;
    __typeof__(worfelli_struct_chord) *chord;
    __typeof__(worfelli_struct_release) *release, *reset;
    __typeof__(worfelli_struct_join) *join;
    __typeof__(worfelli_struct_process) *process;
    __typeof__(worfelli_struct_voices) *voices, *stride;
    __typeof__(worfelli_struct_params) *params;
    __typeof__(worfelli_struct_stage) *stage, *is_idle;
    __typeof__(worfelli_struct_level) *level;
    __typeof__(worfelli_struct_tail) *tail, *lead;
};

#define FUNCTIONS(of) \
    { of##_open, of##_set_params, of##_set_all_params, of##_set_timing, of##_trigger, of##_chord, of##_release, \
      of##_reset, of##_join, of##_process, of##_voices, of##_stride, of##_params, of##_stage, of##_is_idle, \
      of##_level, of##_tail, of##_lead }

static const struct functions library = FUNCTIONS(worfelli_struct);
#ifdef GUIDE
extern __typeof__(worfelli_struct_open) guide_struct_open;
extern __typeof__(worfelli_struct_set_params) guide_struct_set_params;
extern __typeof__(worfelli_struct_set_all_params) guide_struct_set_all_params;
extern __typeof__(worfelli_struct_set_timing) guide_struct_set_timing;
extern __typeof__(worfelli_struct_trigger) guide_struct_trigger;
extern __typeof__(worfelli_struct_chord) guide_struct_chord;
extern __typeof__(worfelli_struct_release) guide_struct_release, guide_struct_reset;
extern __typeof__(worfelli_struct_join) guide_struct_join;
extern __typeof__(worfelli_struct_process) guide_struct_process;
extern __typeof__(worfelli_struct_voices) guide_struct_voices, guide_struct_stride;
extern __typeof__(worfelli_struct_params) guide_struct_params;
extern __typeof__(worfelli_struct_stage) guide_struct_stage, guide_struct_is_idle;
extern __typeof__(worfelli_struct_level) guide_struct_level;
extern __typeof__(worfelli_struct_tail) guide_struct_tail, guide_struct_lead;
static const struct functions guide = FUNCTIONS(guide_struct);
#endif

static const struct functions *functions_of(size_t holder)
{
#ifdef GUIDE
    if (holder == GUIDED)
        return &guide;
#endif
    (void)holder;
    return &library;
}

/* The call that is being made: its holder, and where what it is given and what it writes stand. */
static struct {
    size_t holder;
    const struct asked *asked;
    const float *numbers;
    const uint32_t *named;
    const size_t *chord;
    float *told_numbers, *out, *level;
    uint32_t *told_named, *word;
    uint64_t *frames;
    worfelli_params read; /* what the header's function wrote */
    size_t levels, entries;
    uint32_t refusal;
} call;

static struct pages numbers, named, chord, told_long, told_short;

#define TOLD_LONG (11 * sizeof(float) + BESIDE)
#define TOLD_SHORT (3 * sizeof(uint32_t) + BESIDE)

/* Where settings and a chord's voices come from, and readings go to. */
static void set_pointers(enum side side)
{
    const struct asked *a = call.asked;
    const float n[11] = WORFELLI_NUMBERS(&a->params);
    const uint32_t c[3] = WORFELLI_NAMED(&a->params);
    const size_t chord_len = a->entries * sizeof *a->chord;
    if (numbers.first == NULL) {
        numbers = fenced("the settings' numbers", sizeof n);
        named = fenced("the settings' codes", sizeof c);
        chord = fenced("the chord's voices", sizeof a->chord);
        told_long = fenced("what a reading writes", TOLD_LONG);
        told_short = fenced("what a reading writes", TOLD_SHORT);
    }
    memcpy(part(&numbers, side, sizeof n), n, sizeof n);
    memcpy(part(&named, side, sizeof c), c, sizeof c);
    memcpy(part(&chord, side, chord_len), a->chord, chord_len);
    call.numbers = shown(&numbers, part(&numbers, side, sizeof n));
    call.named = shown(&named, part(&named, side, sizeof c));
    call.chord = shown(&chord, part(&chord, side, chord_len));
    call.told_numbers = (float *)(void *)part(&told_long, side, sizeof n);
    call.frames = (uint64_t *)(void *)part(&told_long, side, sizeof(uint64_t));
    call.told_named = (uint32_t *)(void *)part(&told_short, side, sizeof c);
    call.word = (uint32_t *)(void *)part(&told_short, side, sizeof(uint32_t));
    call.level = (float *)(void *)part(&told_short, side, sizeof(float));
    memset(part(&told_long, side, TOLD_LONG), BEFORE, TOLD_LONG);
    memset(part(&told_short, side, TOLD_SHORT), BEFORE, TOLD_SHORT);
    memset(&call.read, BEFORE, sizeof call.read);
}

static uint32_t by_exports(void)
{
    const struct functions *by = functions_of(call.holder);
    const struct holder *h = &holders[call.holder];
    const struct asked *a = call.asked;
    switch (a->kind) {
    case ASK_OPEN:
        return by->open(h->to, a->voice, call.numbers, call.named, a->timing.sample_rate, a->timing.tempo,
                        a->timing.scale);
    case ASK_SET_PARAMS: return by->set_params(h->to, a->voice, call.numbers, call.named);
    case ASK_SET_ALL_PARAMS: return by->set_all_params(h->to, call.numbers, call.named);
    case ASK_SET_TIMING: return by->set_timing(h->to, a->timing.sample_rate, a->timing.tempo, a->timing.scale);
    case ASK_TRIGGER: return by->trigger(h->to, a->voice, a->trigger);
    case ASK_RELEASE: return by->release(h->to, a->voice);
    case ASK_RESET: return by->reset(h->to, a->voice);
    case ASK_JOIN: return by->join(h->to, a->voice, a->from);
    case ASK_CHORD: /* by its other name on the copy */
        return (call.holder == BEGINNING ? worfelli_live_chord : by->chord)(h->to, call.chord, call.entries,
                                                                            a->trigger);
    case ASK_PROCESS: return by->process(h->to, call.out, call.levels);
    case ASK_PARAMS: return by->params(h->from, a->voice, call.told_numbers, call.told_named);
    case ASK_STAGE: return by->stage(h->from, a->voice, call.word);
    case ASK_LEVEL: return by->level(h->from, a->voice, call.level);
    case ASK_IS_IDLE: return by->is_idle(h->from, a->voice, call.word);
    case ASK_TAIL: return by->tail(h->from, a->voice, call.frames);
    case ASK_LEAD: return by->lead(h->from, a->voice, call.frames);
    default: broken("this program made no call");
    }
}

#define TO h->to_arrays.floats, h->to_arrays.bends, h->to_arrays.counts, h->to_arrays.codes
#define FROM h->from_arrays.floats, h->from_arrays.bends, h->from_arrays.counts, h->from_arrays.codes

static uint32_t by_arrays(void)
{
    const struct holder *h = &holders[call.holder];
    const struct asked *a = call.asked;
    switch (a->kind) {
    case ASK_OPEN:
        return worfelli_live_open(TO, a->voice, call.numbers, call.named, a->timing.sample_rate, a->timing.tempo,
                                  a->timing.scale);
    case ASK_SET_PARAMS: return worfelli_live_set_params(TO, a->voice, call.numbers, call.named);
    case ASK_SET_ALL_PARAMS: return worfelli_live_set_all_params(TO, call.numbers, call.named);
    case ASK_SET_TIMING:
        return worfelli_live_set_timing(TO, a->timing.sample_rate, a->timing.tempo, a->timing.scale);
    case ASK_TRIGGER: return worfelli_live_trigger(TO, a->voice, a->trigger);
    case ASK_RELEASE: return worfelli_live_release(TO, a->voice);
    case ASK_RESET: return worfelli_live_reset(TO, a->voice);
    case ASK_JOIN: return worfelli_live_join(TO, a->voice, a->from);
    case ASK_CHORD: return worfelli_apart_chord(TO, call.chord, call.entries, a->trigger);
    case ASK_PROCESS: return worfelli_live_process(TO, call.out, call.levels);
    case ASK_PARAMS: return worfelli_live_params(FROM, a->voice, call.told_numbers, call.told_named);
    case ASK_STAGE: return worfelli_live_stage(FROM, a->voice, call.word);
    case ASK_LEVEL: return worfelli_live_level(FROM, a->voice, call.level);
    case ASK_IS_IDLE: return worfelli_live_is_idle(FROM, a->voice, call.word);
    case ASK_TAIL: return worfelli_live_tail(FROM, a->voice, call.frames);
    case ASK_LEAD: return worfelli_live_lead(FROM, a->voice, call.frames);
    default: broken("this program made no call");
    }
}

static uint32_t by_header(void)
{
    worfelli_bank *to = holders[call.holder].to;
    const worfelli_bank *from = holders[call.holder].from;
    const struct asked *a = call.asked;
    switch (a->kind) {
    case ASK_OPEN: return worfelli_bank_open(to, a->voice, &a->params, &a->timing);
    case ASK_SET_PARAMS: return worfelli_bank_set_params(to, a->voice, &a->params);
    case ASK_SET_ALL_PARAMS: return worfelli_bank_set_all_params(to, &a->params);
    case ASK_SET_TIMING: return worfelli_bank_set_timing(to, &a->timing);
    case ASK_TRIGGER: return worfelli_bank_trigger(to, a->voice, a->trigger);
    case ASK_RELEASE: return worfelli_bank_release(to, a->voice);
    case ASK_RESET: return worfelli_bank_reset(to, a->voice);
    case ASK_JOIN: return worfelli_bank_join(to, a->voice, a->from);
    case ASK_CHORD: return worfelli_bank_chord(to, call.chord, call.entries, a->trigger);
    case ASK_PROCESS: return worfelli_bank_process(to, call.out, call.levels);
    case ASK_PARAMS: return worfelli_bank_params(from, a->voice, &call.read);
    case ASK_STAGE: return worfelli_bank_stage(from, a->voice, call.word);
    case ASK_LEVEL: return worfelli_bank_level(from, a->voice, call.level);
    case ASK_IS_IDLE: return worfelli_bank_is_idle(from, a->voice, call.word);
    case ASK_TAIL: return worfelli_bank_tail(from, a->voice, call.frames);
    case ASK_LEAD: return worfelli_bank_lead(from, a->voice, call.frames);
    default: broken("this program made no call");
    }
}

static void make(void *with)
{
    (void)with;
    call.refusal = call.holder == HEADER ? by_header() : is_apart(call.holder) ? by_arrays() : by_exports();
}

/* The other compiler's code takes more stack than the header grants. */
static void run(unsigned mode, void (*what)(void *), void *with)
{
    if (call.holder == GUIDED)
        run_here(mode, what, with);
    else
        run_on_small_stack(mode, what, with);
}

size_t voices_of(size_t holder)
{
    const struct holder *h = &holders[holder];
    return holder == HEADER   ? worfelli_bank_voices(h->from)
           : is_apart(holder) ? worfelli_live_voices(FROM)
                              : functions_of(holder)->voices(h->from);
}

size_t stride_of(size_t holder)
{
    const struct holder *h = &holders[holder];
    return holder == HEADER   ? worfelli_bank_stride(h->from)
           : is_apart(holder) ? worfelli_live_stride(FROM)
                              : functions_of(holder)->stride(h->from);
}

/* HEADER's is aligned for a float and no more; the others' end or begin beside what is inaccessible. */
static float *out_of(size_t holder, size_t levels)
{
    const struct holder *h = &holders[holder];
    uint8_t *at = part(&h->out, h->side, levels * sizeof(float));
    return (float *)(void *)(holder == HEADER ? h->out.first + BESIDE + sizeof(float) : at);
}

const float *block_of(size_t holder, size_t levels)
{
    return out_of(holder, levels);
}

/* The bytes beside an output, as far as they are in its pages. */
static void beside(uint8_t **first, uint8_t **end)
{
    const struct pages *pages = &holders[call.holder].out;
    uint8_t *out = (uint8_t *)call.out, *out_end = out + call.asked->levels * sizeof(float);
    *first = out - BESIDE < pages->first ? pages->first : out - BESIDE;
    *end = out_end + BESIDE > pages->first + pages->size ? pages->first + pages->size : out_end + BESIDE;
}

static void fill_output(void)
{
    uint8_t *first, *end, *out = (uint8_t *)call.out;
    const size_t len = call.asked->levels * sizeof(float);
    beside(&first, &end);
    memset(first, BEFORE, (size_t)(out - first));
    memset(out + len, BEFORE, (size_t)(end - (out + len)));
    memcpy(out, holders[call.holder].out_before, len);
}

static void see_output(void)
{
    uint8_t *first, *end, *out = (uint8_t *)call.out;
    const size_t len = call.asked->levels * sizeof(float);
    beside(&first, &end);
    for (uint8_t *at = first; at < end; at = at + 1 == out ? out + len : at + 1)
        if ((at < out || at >= out + len) && *at != BEFORE)
            broken("a byte beside the output was written");
    if (call.refusal != 0 && memcmp(out, holders[call.holder].out_before, len) != 0)
        broken("refused by %u, a block was written", (unsigned)call.refusal);
}

static void process(unsigned mode, int cut)
{
    const size_t levels = call.asked->levels, first = cut ? call.asked->cut : levels;
    call.out = out_of(call.holder, levels);
    call.levels = first;
    fill_output();
    run(mode, make, NULL);
    if (cut && call.refusal == 0) {
        call.out += first;
        call.levels = levels - first;
        run(mode, make, NULL);
        call.out -= first;
    }
    see_output();
}

/* A note for each entry that a chord was cut before. */
static void trigger_rest(void *with)
{
    const struct functions *by = functions_of(call.holder);
    (void)with;
    for (size_t i = call.entries; i < call.asked->entries; i++)
        call.refusal |= by->trigger(holders[call.holder].to, call.chord[i], call.asked->trigger);
}

static void start_chord(unsigned mode, int cut)
{
    call.entries = cut ? call.asked->cut : call.asked->entries;
    run(mode, make, NULL);
    if (cut && call.refusal == 0)
        run(mode, trigger_rest, NULL);
}

/* Moves what a call told to `to`, and puts what was before in its place. */
static void move(void *to, void *from, size_t len)
{
    memcpy(to, from, len);
    memset(from, BEFORE, len);
}

static void collect(struct told *told)
{
    switch (call.asked->kind) {
    case ASK_PARAMS:
        if (call.holder == HEADER) {
            const float n[11] = WORFELLI_NUMBERS(&call.read);
            const uint32_t c[3] = WORFELLI_NAMED(&call.read);
            memcpy(told->numbers, n, sizeof n);
            memcpy(told->named, c, sizeof c);
        } else {
            move(told->numbers, call.told_numbers, sizeof told->numbers);
            move(told->named, call.told_named, sizeof told->named);
        }
        break;
    case ASK_STAGE: case ASK_IS_IDLE: move(&told->word, call.word, sizeof told->word); break;
    case ASK_LEVEL: move(&told->level, call.level, sizeof told->level); break;
    case ASK_TAIL: case ASK_LEAD: move(&told->frames, call.frames, sizeof told->frames); break;
    default: break;
    }
}

static void see_untouched(const uint8_t *bytes, size_t len)
{
    for (size_t i = 0; i < len; i++)
        if (bytes[i] != BEFORE)
            broken(call.refusal != 0 ? "a refused reading was written" : "a byte beside a reading was written");
}

struct told make_call(size_t holder, const struct asked *asked, unsigned mode, int cut)
{
    const enum side side = holders[holder].side;
    struct told told;
    memset(&told, BEFORE, sizeof told);
    call.holder = holder;
    call.asked = asked;
    set_pointers(side);
    if (asked->kind == ASK_PROCESS)
        process(mode, cut);
    else if (asked->kind == ASK_CHORD)
        start_chord(mode, cut);
    else
        run(mode, make, NULL);
    told.refusal = call.refusal;
    if (call.refusal == 0)
        collect(&told);
    else
        see_untouched((const uint8_t *)&call.read, sizeof call.read);
    see_untouched(part(&told_long, side, TOLD_LONG), TOLD_LONG);
    see_untouched(part(&told_short, side, TOLD_SHORT), TOLD_SHORT);
    return told;
}

static struct {
    size_t voices;
    struct reading *readings;
    uint32_t refusals;
} wanted;

static void read_all(void *with)
{
    const struct functions *by = functions_of(call.holder);
    const struct holder *h = &holders[call.holder];
    (void)with;
    for (size_t v = 0; v < wanted.voices; v++) {
        struct reading *r = &wanted.readings[v];
        wanted.refusals |= by->stage(h->from, v, &r->stage) | by->is_idle(h->from, v, &r->idle) |
                           by->level(h->from, v, &r->level) | by->tail(h->from, v, &r->tail) |
                           by->lead(h->from, v, &r->lead);
    }
}

void read_voices(size_t holder, unsigned mode, size_t voices, struct reading *readings)
{
    call.holder = holder;
    wanted.voices = voices;
    wanted.readings = readings;
    wanted.refusals = 0;
    run(mode, read_all, NULL);
    if (wanted.refusals != 0)
        broken("a reading of one of %zu voices is refused", voices);
}
