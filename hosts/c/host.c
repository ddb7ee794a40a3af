/* Plays an event list (docs/FORMAT.md) from a file and writes its levels as worfelli_play does: frame
 * after frame, four bytes a level. Exit status: 0 played, 1 refused, 2 anything else. */
#include <errno.h>
#include <stdint.h>
#include <stdio.h>
#include <stdlib.h>
#include <string.h>

#include "../../include/worfelli.h"
#include "reasons.h"

/* What is first made room for, in bytes; most lists are shorter. */
#define FIRST_ROOM ((size_t)1 << 16)

/* The most levels whose bytes a size_t counts. */
#define LONGEST (SIZE_MAX / 4)

enum { PLAYED = 0, REFUSED = 1, FAILED = 2 };

struct list {
    const char *name;
    uint8_t *bytes;
    size_t len;
    size_t room;
};

static int failed(const char *what, const char *why)
{
    fprintf(stderr, "host: %s: %s\n", what, why);
    return FAILED;
}

static int parse_levels(const char *text, size_t *levels)
{
    unsigned long long n;
    if (*text == '\0' || text[strspn(text, "0123456789")] != '\0')
        return 0;
    n = strtoull(text, NULL, 10);
    *levels = (size_t)n;
    return n <= LONGEST;
}

/* Twice the room, which fits a size_t: memory of half its range is never given. False if there is none. */
static int grow(struct list *list)
{
    const size_t room = list->room == 0 ? FIRST_ROOM : 2 * list->room;
    uint8_t *bytes = realloc(list->bytes, room);
    if (bytes == NULL)
        return 0;
    list->bytes = bytes;
    list->room = room;
    return 1;
}

static int read_list(struct list *list)
{
    int status = PLAYED;
    size_t got = 1;
    FILE *file = fopen(list->name, "rb");
    if (file == NULL)
        return failed(list->name, strerror(errno));
    while (got > 0) {
        if (list->len == list->room && !grow(list)) {
            status = failed(list->name, "no memory for so long a list");
            break;
        }
        got = fread(list->bytes + list->len, 1, list->room - list->len, file);
        list->len += got;
    }
    if (ferror(file))
        status = failed(list->name, strerror(errno));
    fclose(file);
    return status;
}

/* How many levels the list needs. Answers 0, or what refuses it however long the output is; 11 if a size_t
 * cannot count the bytes. */
static uint32_t measure(const struct list *list, size_t *levels)
{
    size_t voices = 0;
    uint64_t frames = 0;
    const uint32_t refusal = worfelli_list_info(list->bytes, list->len, &voices, &frames);
    *levels = WORFELLI_OUTPUT_BYTES(voices, frames) / 4;
    return refusal;
}

/* Says what refuses the list when its output holds so many levels. */
static int refused(const struct list *list, uint32_t refusal, size_t levels)
{
    size_t needed;
    fprintf(stderr, "host: %s: refused %lu at byte %llu: %s", list->name, (unsigned long)refusal,
            (unsigned long long)worfelli_refused_at(list->bytes, list->len, 4 * levels), reason(refusal));
    /* With another fault after this one, no number of levels would do. */
    if (refusal == WORFELLI_OUTPUT_TOO_SHORT && measure(list, &needed) == 0)
        fprintf(stderr, ": %zu are needed, LEVELS is %zu", needed, levels);
    fputc('\n', stderr);
    return REFUSED;
}

/* The output's size where LEVELS is not given. */
static int choose_levels(const struct list *list, size_t *levels)
{
    const uint32_t refusal = measure(list, levels);
    return refusal == 0 ? PLAYED : refused(list, refusal, LONGEST);
}

static int write_levels(const char *name, const uint8_t *out, size_t len)
{
    int wrote, closed;
    FILE *file = strcmp(name, "-") == 0 ? stdout : fopen(name, "wb");
    if (file == NULL)
        return failed(name, strerror(errno));
    wrote = fwrite(out, 1, len, file) == len;
    /* What was buffered can still fail to reach the file. */
    closed = fclose(file) == 0;
    return wrote && closed ? PLAYED : failed(name, strerror(errno));
}

static int play(const struct list *list, const char *to, size_t levels)
{
    int status;
    int64_t frames;
    /* The player wants a pointer for an output of 0 levels too. */
    uint8_t *out = malloc(levels > 0 ? 4 * levels : 1);
    if (out == NULL) {
        fprintf(stderr, "host: %s: no memory for the levels: %zu bytes are needed\n", list->name, 4 * levels);
        return FAILED;
    }
    /* A program starts in the floating-point mode that the player needs. */
    frames = worfelli_play(list->bytes, list->len, out, 4 * levels);
    if (frames < 0)
        status = refused(list, (uint32_t)-frames, levels);
    else /* An accepted list begins with its open record, whose fourth byte is the voice count. */
        status = write_levels(to, out, WORFELLI_OUTPUT_BYTES(list->bytes[3], frames));
    free(out);
    return status;
}

int main(int argc, char **argv)
{
    struct list list = { NULL, NULL, 0, 0 };
    size_t levels = 0;
    int status;
    if (argc < 3 || argc > 4) {
        fputs("usage: host LIST OUT [LEVELS], OUT - for standard output, LEVELS the output's size (what LIST "
              "needs)\n", stderr);
        return FAILED;
    }
    if (argc == 4 && !parse_levels(argv[3], &levels)) {
        fprintf(stderr, "host: %s: expected LEVELS, a number up to %zu\n", argv[3], LONGEST);
        return FAILED;
    }
    list.name = argv[1];
    status = read_list(&list);
    if (status == PLAYED && argc == 3)
        status = choose_levels(&list, &levels);
    if (status == PLAYED)
        status = play(&list, argv[2], levels);
    free(list.bytes);
    return status;
}
