/* What the fuzz targets stand on: memory between inaccessible pages, the stack that the header grants, the
 * floating-point mode, and one line when a promise is broken. */
#ifndef PAGES_H
#define PAGES_H

#include <stddef.h>
#include <stdint.h>

#define STACK ((size_t)16 << 10)
#define USUAL 0x1f80u /* the floating-point mode that the functions need */

/* Pages between inaccessible ones, and the same memory once more, to be read only. */
struct pages {
    const char *name;
    uint8_t *first;
    const uint8_t *shown;
    size_t size;
};

/* Where in its pages something stands: it ends or begins beside what is inaccessible. */
enum side { AT_END, AT_BEGINNING };

/* Prints one line and aborts. */
void broken(const char *format, ...) __attribute__((format(printf, 1, 2), noreturn));

/* At least so many bytes. A read or write next to them ends the program with a line that has the name. */
struct pages fenced(const char *name, size_t size);

/* So many bytes of the pages, on one side of them. */
uint8_t *part(const struct pages *pages, enum side side, size_t len);

/* The place in the memory that can only be read. */
const void *shown(const struct pages *pages, const void *at);

/* Another mode, for an input's choice: subnormals flushed; rounding down, up and to zero; to zero with
 * subnormals flushed. In these, other levels are written, and nothing fails. */
unsigned other_mode(unsigned choice);

/* Runs a function in a floating-point mode, which it has to keep: on this stack, or on one of STACK bytes. */
void run_here(unsigned mode, void (*run)(void *), void *with);
void run_on_small_stack(unsigned mode, void (*run)(void *), void *with);

#endif
