/* Runs the fuzz target of live banks without a fuzzer, on random inputs, each of a seed of its own.
 *
 *     contents SECONDS SEED [usual]
 *
 * SEED is the first one's, the next ones count up; with 0 seconds a few are run. With `usual`, all are in the
 * usual floating-point mode. Status 1 if a promise broke, after the target's line, or if an input takes over 10
 * seconds, after a line about it; the last line is the input's seed. */
#define _GNU_SOURCE
#include <inttypes.h>
#include <signal.h>
#include <stdio.h>
#include <stdlib.h>
#include <string.h>
#include <time.h>
#include <unistd.h>

#define MOST_BYTES 4096
#define LONGEST 10 /* seconds of an input */

int LLVMFuzzerTestOneInput(const uint8_t *data, size_t size);

static uint64_t seed;

static uint32_t below(uint64_t *state, uint32_t n)
{
    *state = *state * 6364136223846793005u + 1442695040888963407u;
    return (uint32_t)((*state >> 32) * n >> 32);
}

static void on_alarm(int signal)
{
    static const char line[] = "BROKEN: an input takes over 10 seconds\n";
    (void)signal;
    if (write(STDERR_FILENO, line, sizeof line - 1) < 0)
        _exit(3);
    abort();
}

/* After the target's own line. */
static void on_abort(int signal)
{
    (void)signal;
    fprintf(stderr, "contents: the input's seed is %" PRIu64 "\n", seed);
    _exit(1);
}

static void run_random(int usual)
{
    static uint8_t input[MOST_BYTES];
    uint64_t state = seed * 0x9e3779b97f4a7c15u;
    const size_t size = 1 + below(&state, 1u << (4 + below(&state, 9)));
    for (size_t i = 0; i < size; i++)
        input[i] = (uint8_t)below(&state, 256);
    if (usual)
        input[0] &= 0xf0;
    alarm(LONGEST);
    LLVMFuzzerTestOneInput(input, size);
    alarm(0);
}

static int is_number(const char *text)
{
    return *text != '\0' && text[strspn(text, "0123456789")] == '\0';
}

static void handle(int signal, void (*handler)(int))
{
    struct sigaction action;
    memset(&action, 0, sizeof action);
    action.sa_handler = handler;
    sigaction(signal, &action, NULL);
}

int main(int argc, char **argv)
{
    const time_t start = time(NULL);
    const int usual = argc == 4 && strcmp(argv[3], "usual") == 0;
    if (argc != 3 + usual || !is_number(argv[1]) || !is_number(argv[2])) {
        fputs("usage: contents SECONDS SEED [usual]\n", stderr);
        return 2;
    }
    handle(SIGALRM, on_alarm);
    handle(SIGABRT, on_abort);
    for (seed = strtoull(argv[2], NULL, 10); time(NULL) - start <= (time_t)strtoull(argv[1], NULL, 10); seed++)
        run_random(usual);
    return 0;
}
