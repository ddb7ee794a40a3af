/* The live host's script: key events from standard input, one a line.
 *
 *     FRAME down KEY..
 *     FRAME up KEY..
 *     FRAME end
 *
 * FRAME counts from 0 and never falls from line to line; KEY is 0 to 15, and 1 to 16 of them go down or up
 * together; end is the last event. Empty lines, and lines that begin with #, are skipped. What is wrong is
 * said in one line on standard error. */
#ifndef KEYS_H
#define KEYS_H

#include <errno.h>
#include <stdint.h>
#include <stdio.h>
#include <stdlib.h>
#include <string.h>

#define KEYS 16
#define LONGEST_LINE 254
/* Frame, action and keys, and one more that tells a line with too many. */
#define MOST_WORDS (2 + KEYS + 1)

enum key_action { KEY_DOWN, KEY_UP, KEYS_END };

struct key_event {
    uint64_t frame;
    enum key_action action;
    size_t count; /* of its keys */
    size_t keys[KEYS];
};

/* How far the script was read: its lines, and the last event's frame. */
struct script {
    unsigned long line;
    uint64_t frame;
};

/* Says what was expected in the last line. Always false, for the functions below. */
static int expected(const struct script *script, const char *what)
{
    fprintf(stderr, "live: line %lu: expected %s\n", script->line, what);
    return 0;
}

/* A number up to `most`, of digits alone. */
static int parse_number(const char *text, uint64_t most, uint64_t *number)
{
    if (*text == '\0' || text[strspn(text, "0123456789")] != '\0')
        return 0;
    errno = 0;
    *number = strtoull(text, NULL, 10);
    return errno == 0 && *number <= most;
}

/* The next line without its end. At the input's end, *more is false. */
static int read_line(struct script *script, char *line, int *more)
{
    size_t len = 0;
    int c;
    script->line++;
    while ((c = getchar()) != EOF && c != '\n') {
        if (len == LONGEST_LINE || c == '\0')
            return expected(script, "at most 254 characters of text");
        line[len++] = (char)c;
    }
    line[len] = '\0';
    *more = c != EOF || len > 0;
    if (ferror(stdin)) {
        fprintf(stderr, "live: standard input: %s\n", strerror(errno));
        return 0;
    }
    return 1;
}

/* The words of the next line that is neither empty nor skipped; none at the input's end. */
static int read_words(struct script *script, char *line, char **words, int *count)
{
    int more = 1;
    *count = 0;
    while (more && *count == 0) {
        char *word;
        if (!read_line(script, line, &more))
            return 0;
        word = line[0] == '#' ? NULL : strtok(line, " \t\r\f");
        for (; word != NULL && *count < MOST_WORDS; word = strtok(NULL, " \t\r\f"))
            words[(*count)++] = word;
    }
    return 1;
}

/* The keys of an event. */
static int parse_keys(const struct script *script, char **words, int count, struct key_event *event)
{
    uint64_t key = 0;
    int right = count >= 1 && count <= KEYS;
    for (event->count = 0; right && event->count < (size_t)count; event->count++) {
        right = parse_number(words[event->count], KEYS - 1, &key);
        event->keys[event->count] = (size_t)key;
    }
    return right || expected(script, "1 to 16 keys, each from 0 to 15");
}

/* What stands after the frame. */
static int parse_action(const struct script *script, char **words, int count, struct key_event *event)
{
    if (count > 1 && strcmp(words[1], "end") == 0) {
        event->action = KEYS_END;
        return count == 2 || expected(script, "nothing after end");
    }
    if (count > 1 && strcmp(words[1], "down") == 0)
        event->action = KEY_DOWN;
    else if (count > 1 && strcmp(words[1], "up") == 0)
        event->action = KEY_UP;
    else
        return expected(script, "down, up or end after the frame");
    return parse_keys(script, words + 2, count - 2, event);
}

/* The next event. False if there is none, which has been said. */
static int next_event(struct script *script, struct key_event *event)
{
    char line[LONGEST_LINE + 1], *words[MOST_WORDS];
    int count;
    if (!read_words(script, line, words, &count))
        return 0;
    if (count == 0)
        return expected(script, "FRAME end before the input ends");
    if (!parse_number(words[0], UINT64_MAX, &event->frame))
        return expected(script, "FRAME, a number, then down, up or end");
    if (event->frame < script->frame) {
        fprintf(stderr, "live: line %lu: expected a frame from %llu on\n", script->line,
                (unsigned long long)script->frame);
        return 0;
    }
    script->frame = event->frame;
    return parse_action(script, words, count, event);
}

/* Whether nothing follows the last event; if something does, it has been said. */
static int script_ends(struct script *script)
{
    char line[LONGEST_LINE + 1], *words[MOST_WORDS];
    int count;
    if (!read_words(script, line, words, &count))
        return 0;
    return count == 0 || expected(script, "nothing after FRAME end");
}

#endif
