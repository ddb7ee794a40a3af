#include "banks.h"

#include <string.h>

struct holder holders[HOLDERS];

/* A bank in pages of its own. */
static void make_bank(struct holder *h)
{
    const struct pages pages = fenced("a bank", sizeof(worfelli_bank));
    h->to = (worfelli_bank *)(void *)part(&pages, h->side, sizeof(worfelli_bank));
    h->from = shown(&pages, h->to);
}

/* An array in pages of its own. */
static void *apart(const char *name, enum side side, size_t size, const void **read)
{
    const struct pages pages = fenced(name, size);
    void *at = part(&pages, side, size);
    *read = shown(&pages, at);
    return at;
}

static void make_arrays(struct holder *h)
{
    const void *read;
    h->to_arrays.floats = apart("a bank's floats", h->side, WORFELLI_BANK_FLOATS * sizeof(float), &read);
    h->from_arrays.floats = read;
    h->to_arrays.bends = apart("a bank's bends", h->side, WORFELLI_BANK_BENDS * sizeof(double), &read);
    h->from_arrays.bends = read;
    h->to_arrays.counts = apart("a bank's counts", h->side, WORFELLI_BANK_COUNTS * sizeof(uint64_t), &read);
    h->from_arrays.counts = read;
    h->to_arrays.codes = apart("a bank's codes", h->side, WORFELLI_BANK_CODES * sizeof(uint32_t), &read);
    h->from_arrays.codes = read;
}

int is_apart(size_t holder)
{
    return holder == APART_ENDING || holder == APART_BEGINNING;
}

void make_holders(void)
{
    for (size_t i = 0; i < HOLDERS; i++) {
        holders[i].side = i == BEGINNING || i == APART_BEGINNING ? AT_BEGINNING : AT_END;
        holders[i].out = fenced("the output", MOST_LEVELS * sizeof(float) + 2 * BESIDE);
        if (is_apart(i))
            make_arrays(&holders[i]);
        else
            make_bank(&holders[i]);
        for (size_t byte = 0; byte < sizeof holders[i].out_before; byte++)
            holders[i].out_before[byte] = (uint8_t)(byte % 251 + 7 * i);
    }
}

void look_at(size_t holder, worfelli_bank *content)
{
    const struct arrays *from = &holders[holder].to_arrays;
    if (is_apart(holder)) {
        memcpy(content->floats, from->floats, sizeof content->floats);
        memcpy(content->bends, from->bends, sizeof content->bends);
        memcpy(content->counts, from->counts, sizeof content->counts);
        memcpy(content->codes, from->codes, sizeof content->codes);
        content->version = holders[ENDING].to->version;
    } else
        *content = *holders[holder].to;
}

static void put_apart(const struct arrays *to, const worfelli_bank *content)
{
    memcpy(to->floats, content->floats, sizeof content->floats);
    memcpy(to->bends, content->bends, sizeof content->bends);
    memcpy(to->counts, content->counts, sizeof content->counts);
    memcpy(to->codes, content->codes, sizeof content->codes);
}

void put_content(const worfelli_bank *content)
{
    for (size_t i = 0; i < HOLDERS; i++) {
        if (is_apart(i))
            put_apart(&holders[i].to_arrays, content);
        else
            *holders[i].to = *content;
    }
}

int same_floats(const float *a, const float *b, size_t count)
{
    if (memcmp(a, b, count * sizeof *a) == 0)
        return 1;
    for (size_t i = 0; i < count; i++)
        if (memcmp(&a[i], &b[i], sizeof *a) != 0 && (a[i] == a[i] || b[i] == b[i]))
            return 0;
    return 1;
}

static int same_doubles(const double *a, const double *b, size_t count)
{
    for (size_t i = 0; i < count; i++)
        if (memcmp(&a[i], &b[i], sizeof *a) != 0 && (a[i] == a[i] || b[i] == b[i]))
            return 0;
    return 1;
}

int same_banks(const worfelli_bank *a, const worfelli_bank *b)
{
    return memcmp(a, b, sizeof *a) == 0 ||
           (memcmp(a->counts, b->counts, sizeof a->counts) == 0 && memcmp(a->codes, b->codes, sizeof a->codes) == 0 &&
            same_floats(a->floats, b->floats, WORFELLI_BANK_FLOATS) &&
            same_doubles(a->bends, b->bends, WORFELLI_BANK_BENDS));
}
