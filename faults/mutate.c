/* Changes an input of the fuzz target record by record, so that most lists stay whole and are played: a
 * record is put in, taken out, copied, or one of its fields gets a number at which something happens.
 * For libFuzzer, whose own changes of single bytes make up half; with AFL, a library for afl-fuzz. */
#include <math.h>
#include <string.h>

#include "check.h"

#define CHOICE ((size_t)2) /* bytes before the list */
#define MOST_RECORDS 8192

static uint32_t state;

static uint32_t below(uint32_t n)
{
    state = state * 1664525 + 1013904223;
    return (uint32_t)((uint64_t)state * n >> 32);
}

static void put_single(uint8_t *at)
{
    static const float numbers[] = {0, 0.25f, 0.5f, 0.75f, 1, 0.0f, 0.1f, 0.666f, 2, 3, 5, 16, 40, 300, 0.50001f,
                                    -0.0f, 1e-30f, 4e-45f, 1048576, -1, NAN, INFINITY};
    float number = numbers[below(sizeof numbers / sizeof *numbers)];
    memcpy(at, &number, sizeof number);
}

static void put_double(uint8_t *at)
{
    static const double numbers[] = {1000, 1, 0.1, 10, 120, 60, 3, 48000, 1048576, 0.37, 0, 1e-300, -1, NAN,
                                     INFINITY};
    double number = numbers[below(sizeof numbers / sizeof *numbers)];
    memcpy(at, &number, sizeof number);
}

static void put_setting(uint8_t *settings, uint32_t field)
{
    if (field < 11)
        put_single(settings + 1 + 4 * field);
    else
        settings[field == 11 ? 0 : field == 12 ? 45 : 46] = (uint8_t)below(2);
}

/* A voice of the list, seldom one that it does not have. */
static uint8_t some_voice(unsigned voices)
{
    return (uint8_t)(voices == 0 || below(64) == 0 ? below(256) : below(voices));
}

/* Changes one field of a record. */
static void change(uint8_t *record, unsigned voices)
{
    uint8_t *body = record + HEAD;
    switch (record[0]) {
    case OPEN:
        if (below(8) == 0)
            body[0] = (uint8_t)below(66);
        else if (below(4) == 0)
            put_double(body + 1 + 8 * below(3));
        else
            put_setting(body + 25, below(14));
        break;
    case SETTINGS:
        if (below(8) == 0)
            body[0] = some_voice(voices);
        else
            put_setting(body + 1, below(14));
        break;
    case SETTINGS_FOR_ALL: put_setting(body, below(14)); break;
    case TIMING: put_double(body + 8 * below(3)); break;
    case TRIGGER: body[below(2)] = some_voice(voices < 3 ? voices : 3); break;
    case RELEASE: case RESET: body[0] = some_voice(voices); break;
    case JOIN: body[below(2)] = some_voice(voices); break;
    case FRAMES: {
        uint32_t count = below(1u << below(below(16) == 0 ? 16 : 12));
        memcpy(body, &count, sizeof count);
        break;
    }
    }
}

/* A new record. Answers its length. */
static size_t make(uint8_t *record, unsigned voices)
{
    unsigned tag = SETTINGS + below(TAGS - SETTINGS);
    size_t length = body_length(tag);
    memset(record, 0, HEAD + length);
    record[0] = (uint8_t)tag;
    record[1] = (uint8_t)length;
    for (size_t i = 0; i < length; i++)
        change(record, voices);
    /* The voice of every kind that has one, so that it is seldom out of range. */
    if (tag == SETTINGS || (tag >= TRIGGER && tag <= JOIN))
        record[HEAD] = some_voice(voices);
    if (tag == TRIGGER)
        record[HEAD + 1] = (uint8_t)below(3);
    return HEAD + length;
}

static size_t mutate(uint8_t *data, size_t size, size_t most)
{
    static size_t starts[MOST_RECORDS + 1];
    uint8_t *list = data + CHOICE, fresh[HEAD + 72];
    size_t len = size < CHOICE ? 0 : size - CHOICE, at = 0, count = 0, record, to, length;
    unsigned voices;
    if (len < HEAD)
        return size;
    while (count < MOST_RECORDS && len - at >= HEAD && body_length(list[at]) > 0 &&
           len - at >= HEAD + body_length(list[at])) {
        starts[count++] = at;
        at += HEAD + body_length(list[at]);
    }
    starts[count] = at;
    if (count == 0)
        return size;
    voices = list[HEAD];
    record = starts[below((uint32_t)count)];
    to = starts[1 + below((uint32_t)count)];
    length = HEAD + body_length(list[record]);
    switch (below(8)) {
    case 0: /* taken out */
        if (record == 0)
            return size;
        memmove(list + record, list + record + length, len - record - length);
        return size - length;
    case 1: /* copied */
        if (record == 0 || size + length > most)
            return size;
        memcpy(fresh, list + record, length);
        break;
    case 2: case 3: /* put in */
        length = make(fresh, voices);
        if (size + length > most)
            return size;
        break;
    case 4: /* another output */
        data[0] = (uint8_t)below(256);
        data[1] = (uint8_t)below(256);
        return size;
    default:
        change(list + record, voices);
        return size;
    }
    memmove(list + to + length, list + to, len - to);
    memcpy(list + to, fresh, length);
    return size + length;
}

#ifdef AFL
void *afl_custom_init(void *fuzzer, unsigned seed)
{
    (void)fuzzer;
    state = seed;
    return &state;
}

size_t afl_custom_fuzz(void *own, uint8_t *data, size_t size, uint8_t **changed, uint8_t *other, size_t other_size,
                       size_t most)
{
    static uint8_t buffer[1 << 20];
    (void)own;
    (void)other;
    (void)other_size;
    most = most < sizeof buffer ? most : sizeof buffer;
    size = size < most ? size : most;
    memcpy(buffer, data, size);
    *changed = buffer;
    for (uint32_t times = 1 + below(4); times > 0; times--)
        size = mutate(buffer, size, most);
    return size;
}

void afl_custom_deinit(void *own)
{
    (void)own;
}
#else
size_t LLVMFuzzerMutate(uint8_t *data, size_t size, size_t most);

size_t LLVMFuzzerCustomMutator(uint8_t *data, size_t size, size_t most, unsigned seed)
{
    state = seed;
    if (below(2) == 0)
        return LLVMFuzzerMutate(data, size, most);
    for (uint32_t times = 1 + below(4); times > 0; times--)
        size = mutate(data, size, most);
    return size;
}
#endif
