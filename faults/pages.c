#define _GNU_SOURCE
#include "pages.h"

#include <signal.h>
#include <stdarg.h>
#include <stdio.h>
#include <stdlib.h>
#include <string.h>
#include <sys/mman.h>
#include <ucontext.h>
#include <unistd.h>
#include <xmmintrin.h>

#define PAGE ((size_t)4096)
#define FENCE ((size_t)1 << 20)
#define MOST 40              /* of fenced pages in a target */
#define CONTROL (~0x3fu)     /* of MXCSR: a function may set its status, and keeps the rest */

static struct pages all[MOST];
static size_t count;

void broken(const char *format, ...)
{
    va_list arguments;
    va_start(arguments, format);
    fputs("BROKEN: ", stderr);
    vfprintf(stderr, format, arguments);
    fputc('\n', stderr);
    va_end(arguments);
    abort();
}

static int within(const uint8_t *first, size_t size, const uint8_t *at, size_t around)
{
    return at >= first - around && at < first + size + around;
}

/* A page that must not be touched was touched. */
static void on_fault(int signal, siginfo_t *info, void *context)
{
    const uint8_t *at = info->si_addr;
    (void)signal;
    (void)context;
    for (size_t i = 0; i < count; i++) {
        if (within(all[i].shown, all[i].size, at, 0))
            broken("a write to %s, only to be read here", all[i].name);
        if (within(all[i].first, all[i].size, at, FENCE) || within(all[i].shown, all[i].size, at, FENCE))
            broken("a read or write outside %s", all[i].name);
    }
    broken("a read or write at %p", (const void *)at);
}

static void must(int done, const char *what)
{
    if (!done) {
        perror(what);
        exit(2);
    }
}

/* A fuzzer's handler needs more than the small stack, on which its signal may come. */
static void move_handler(int signal)
{
    struct sigaction action;
    must(sigaction(signal, NULL, &action) == 0, "no handler");
    action.sa_flags |= SA_ONSTACK;
    must(sigaction(signal, &action, NULL) == 0, "no handler");
}

static void catch_faults(void)
{
    static uint8_t handlers_stack[1 << 20];
    stack_t stack = {.ss_sp = handlers_stack, .ss_size = sizeof handlers_stack};
    struct sigaction action;
    memset(&action, 0, sizeof action);
    action.sa_sigaction = on_fault;
    action.sa_flags = SA_SIGINFO | SA_ONSTACK;
    must(sigaltstack(&stack, NULL) == 0 && sigaction(SIGSEGV, &action, NULL) == 0 &&
             sigaction(SIGBUS, &action, NULL) == 0,
         "no handler");
    move_handler(SIGALRM);
    move_handler(SIGABRT);
}

static uint8_t *mapped(int file, size_t size, int access)
{
    uint8_t *whole = mmap(NULL, size + 2 * FENCE, PROT_NONE, MAP_PRIVATE | MAP_ANONYMOUS | MAP_NORESERVE, -1, 0);
    must(whole != MAP_FAILED, "no pages");
    must(mmap(whole + FENCE, size, access, MAP_SHARED | MAP_FIXED, file, 0) != MAP_FAILED, "no pages");
    return whole + FENCE;
}

struct pages fenced(const char *name, size_t size)
{
    const size_t whole = (size + PAGE - 1) / PAGE * PAGE;
    const int file = memfd_create(name, 0);
    struct pages pages = {name, NULL, NULL, whole};
    must(file >= 0 && ftruncate(file, (off_t)whole) == 0, "no pages");
    must(count < MOST, "more pages than MOST");
    if (count == 0)
        catch_faults();
    pages.first = mapped(file, whole, PROT_READ | PROT_WRITE);
    pages.shown = mapped(file, whole, PROT_READ);
    close(file);
    all[count++] = pages;
    return pages;
}

uint8_t *part(const struct pages *pages, enum side side, size_t len)
{
    return side == AT_END ? pages->first + pages->size - len : pages->first;
}

const void *shown(const struct pages *pages, const void *at)
{
    return pages->shown + ((const uint8_t *)at - pages->first);
}

unsigned other_mode(unsigned choice)
{
    static const unsigned modes[5] = {0x9fc0, 0x3f80, 0x5f80, 0x7f80, 0xffc0};
    return modes[choice % 5];
}

/* The mode is set and looked at on the stack that the function runs on, since a change of stacks restores
 * it. Answers whether the function kept it. */
static int run_in(unsigned mode, void (*run)(void *), void *with)
{
    const unsigned before = _mm_getcsr();
    unsigned after;
    _mm_setcsr(mode);
    run(with);
    after = _mm_getcsr();
    _mm_setcsr(before);
    return (after & CONTROL) == mode;
}

static void see_kept(int kept)
{
    if (!kept)
        broken("the floating-point mode is another after the call");
}

void run_here(unsigned mode, void (*run)(void *), void *with)
{
    see_kept(run_in(mode, run, with));
}

static struct {
    unsigned mode;
    void (*run)(void *);
    void *with;
    int kept;
} there;

static void run_there(void)
{
    there.kept = run_in(there.mode, there.run, there.with);
}

/* What is broken is told on the stack that this is called on: the small one has no room for it. */
void run_on_small_stack(unsigned mode, void (*run)(void *), void *with)
{
    static struct pages stack;
    static ucontext_t back, forth;
    if (stack.first == NULL)
        stack = fenced("the stack that the header grants", STACK);
    there.mode = mode;
    there.run = run;
    there.with = with;
    if (getcontext(&forth) != 0)
        broken("no context");
    forth.uc_stack.ss_sp = stack.first;
    forth.uc_stack.ss_size = stack.size;
    forth.uc_link = &back;
    makecontext(&forth, run_there, 0);
    if (swapcontext(&back, &forth) != 0)
        broken("no context");
    see_kept(there.kept);
}
