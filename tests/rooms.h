/* What the two loops of random calls share: slices against pages that cannot be
 * touched, algebras, and the lowest of reasons 1 to 6. */
#ifndef ROOMS_H
#define ROOMS_H

#include <stdint.h>
#include <stdio.h>
#include <stdlib.h>
#include <sys/mman.h>
#include <unistd.h>

#include "../include/congruence.h"

static uint64_t state;

static uint64_t next(void)
{
    uint64_t z = state += 0x9E3779B97F4A7C15u;
    z = (z ^ (z >> 30)) * 0xBF58476D1CE4E5B9u;
    z = (z ^ (z >> 27)) * 0x94D049BB133111EBu;
    return z ^ (z >> 31);
}

static size_t below(size_t end)
{
    return (size_t)(next() % end);
}

static int once_in(size_t times)
{
    return below(times) == 0;
}

/* ---- slices at the edge of what may be touched ---------------------------- */

enum { PAGES = 33 };

static size_t page;

struct room {
    uint8_t *begin, *end; /* the pages that may be touched */
    uint8_t *slice;
    size_t len;
};

static struct room open_room(void)
{
    struct room r;
    uint8_t *all = mmap(NULL, (PAGES + 2) * page, PROT_READ | PROT_WRITE,
                        MAP_PRIVATE | MAP_ANONYMOUS, -1, 0);
    if (all == MAP_FAILED || mprotect(all, page, PROT_NONE) ||
        mprotect(all + (PAGES + 1) * page, page, PROT_NONE)) {
        perror("fuzz: pages");
        exit(2);
    }
    r.begin = all + page;
    r.end = all + (PAGES + 1) * page;
    r.slice = r.begin;
    r.len = 0;
    return r;
}

/* Places a slice of this length at one of the two edges. */
static void place(struct room *r, size_t len)
{
    r->len = len;
    r->slice = once_in(2) ? r->begin : r->end - len;
    if (len == 0 && once_in(2)) {
        r->slice = NULL;
    }
}

static void fill(struct room *r, size_t below_this)
{
    for (size_t i = 0; i < r->len; i++) {
        r->slice[i] = (uint8_t)below(below_this);
    }
}

/* ---- reasons 1 to 6 -------------------------------------------------------- */

static size_t power(size_t n, unsigned s)
{
    return s == 0 ? 1 : n * power(n, s - 1);
}

static uint32_t algebra_reason(size_t n, const struct room *arities, const struct room *cells)
{
    size_t sum = 0;
    if (n < 1 || n > 64) {
        return CONGRUENCE_SIZE;
    }
    if (arities->len > 16) {
        return CONGRUENCE_OPERATIONS;
    }
    for (size_t i = 0; i < arities->len; i++) {
        if (arities->slice[i] > 3) {
            return CONGRUENCE_ARITY;
        }
        sum += power(n, arities->slice[i]);
    }
    if (sum > 32768) {
        return CONGRUENCE_CELLS;
    }
    if (sum != cells->len) {
        return CONGRUENCE_LENGTH;
    }
    for (size_t i = 0; i < cells->len; i++) {
        if (cells->slice[i] >= n) {
            return CONGRUENCE_CELL;
        }
    }
    return CONGRUENCE_OK;
}

/* ---- algebras -------------------------------------------------------------- */

/* Mostly accepted and small. */
static void make_algebra(size_t *size, struct room *arities, struct room *cells)
{
    static const size_t wild[] = {0, 65, 128, 255, 256, 257, 320, 65536, (size_t)1 << 32, SIZE_MAX};
    size_t sum = 0;
    const size_t limit = once_in(40) ? 32768 : 700;
    *size = once_in(30) ? wild[below(10)] : once_in(12) ? 1 + below(64) : 1 + below(9);
    const size_t n = *size >= 1 && *size <= 64 ? *size : 3;
    place(arities, once_in(60) ? 17 + below(40) : below(4));
    for (size_t i = 0; i < arities->len; i++) {
        unsigned s = (unsigned)below(4);
        while (s > 0 && sum + power(n, s) > limit && !once_in(100)) {
            s--;
        }
        sum += power(n, s);
        arities->slice[i] = (uint8_t)s;
    }
    if (arities->len > 0 && once_in(40)) {
        arities->slice[below(arities->len)] = (uint8_t)next();
    }
    size_t len = sum;
    if (once_in(40)) {
        len += 1 + below(3);
    } else if (len > 0 && once_in(40)) {
        len -= 1 + below(len);
    }
    place(cells, len < PAGES * page ? len : PAGES * page);
    switch (below(4)) {
    case 0: /* few values */
        fill(cells, 1 + below(n));
        break;
    case 1: /* near the identity of the last argument */
        for (size_t i = 0; i < cells->len; i++) {
            cells->slice[i] = (uint8_t)(once_in(8) ? below(n) : i % n);
        }
        break;
    case 2: /* near a sum */
        for (size_t i = 0; i < cells->len; i++) {
            cells->slice[i] = (uint8_t)(once_in(200) ? below(n) : (i % n + i / n + i / n / n) % n);
        }
        break;
    default:
        fill(cells, n);
    }
    if (cells->len > 0 && once_in(40)) {
        cells->slice[below(cells->len)] = (uint8_t)next();
    }
}

static void print_bytes(const char *name, const uint8_t *bytes, size_t len)
{
    printf("  %s (%zu):", name, len);
    for (size_t i = 0; i < len; i++) {
        printf(" %u", (unsigned)bytes[i]);
    }
    printf("\n");
}

#endif
