/* Lists of maps, n bytes each, and their meets. */
#ifndef BASELINE_LISTS_H
#define BASELINE_LISTS_H

#include "algebra.h"

/* For the block of b in each row, the first element with each name in a. A row is
 * cleared when its block begins. */
struct meeting {
    uint8_t firsts[SIZE * SIZE];
    uint8_t row[SIZE];
};

/* The meet of a and b; out may be a. */
static void meet(struct meeting *m, uint8_t *out, const uint8_t *a, const uint8_t *b, unsigned n)
{
    unsigned rows = 0;
    for (unsigned x = 0; x < n; x++) {
        const uint8_t name = b[x];
        if (name == x) {
            memset(m->firsts + SIZE * rows, SIZE, SIZE);
            m->row[x] = (uint8_t)rows++;
        }
        const size_t at = m->row[name] * (size_t)SIZE + a[x];
        const uint8_t first = m->firsts[at] < SIZE ? m->firsts[at] : (uint8_t)x;
        m->firsts[at] = first;
        out[x] = first;
    }
}

/* Whether the meet of a and b is the identity; a pair that both hold ends it. */
static int meet_in_identity(struct meeting *m, const uint8_t *a, const uint8_t *b, unsigned n)
{
    unsigned rows = 0;
    for (unsigned x = 0; x < n; x++) {
        const uint8_t name = b[x];
        if (name == x) {
            memset(m->firsts + SIZE * rows, SIZE, SIZE);
            m->row[x] = (uint8_t)rows++;
        }
        uint8_t *at = m->firsts + m->row[name] * (size_t)SIZE + a[x];
        if (*at < SIZE) {
            return 0;
        }
        *at = (uint8_t)x;
    }
    return 1;
}

/* after[i] is the meet of the members from place i on; of none it is all. */
static void meets_after(struct meeting *m, uint8_t after[][SIZE], const uint8_t *list, unsigned count, unsigned n)
{
    memset(after[count], 0, n);
    for (unsigned i = count; i-- > 0;) {
        meet(m, after[i], after[i + 1], list + i * n, n);
    }
}

#endif
