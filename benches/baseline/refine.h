/* Refinement: the greatest congruence inside a map, where another congruence,
 * whose names are listed, is known to be inside. The listed elements are enough
 * as fixed arguments, and the other listed ones (no names of the map so far) are
 * those to be looked at, each beside its name. */
#ifndef BASELINE_REFINE_H
#define BASELINE_REFINE_H

#include "algebra.h"

struct refining {
    uint8_t map[SIZE];
    uint8_t all[SIZE];
    uint8_t others[SIZE];
    unsigned n, all_count, others_count;
    int later; /* not the first round */
};

static void drop_names(struct refining *r)
{
    unsigned kept = 0;
    for (unsigned k = 0; k < r->others_count; k++) {
        const uint8_t x = r->others[k];
        r->others[kept] = x;
        kept += r->map[x] != x;
    }
    r->others_count = kept;
}

/* Splits one block by where the translation x -> t[x * step] leads its members. */
static void split_block(struct refining *r, uint8_t name, const uint8_t *t, size_t step)
{
    uint8_t first[SIZE], next[SIZE];
    const uint8_t *restrict map = r->map;
    memset(first, SIZE, SIZE);
    for (unsigned x = 0; x < r->n; x++) {
        uint8_t now = map[x];
        if (now == name) {
            const unsigned image = map[t[x * step]];
            if (first[image] < SIZE) {
                now = first[image];
            } else {
                now = first[image] = (uint8_t)x;
            }
        }
        next[x] = now;
    }
    memcpy(r->map, next, r->n);
}

/* Splits all blocks: the meet of the map with that of the images' names. */
static void split_all(struct refining *r, const uint8_t *t, size_t step)
{
    uint8_t firsts[SIZE * SIZE], row[SIZE], next[SIZE];
    const uint8_t *restrict map = r->map;
    unsigned rows = 0;
    for (unsigned x = 0; x < r->n; x++) {
        if (map[x] == x) {
            memset(firsts + SIZE * rows, SIZE, SIZE);
            row[x] = (uint8_t)rows++;
        }
        const size_t at = row[map[x]] * (size_t)SIZE + map[t[x * step]];
        const uint8_t first = firsts[at] < SIZE ? firsts[at] : (uint8_t)x;
        firsts[at] = first;
        next[x] = first;
    }
    memcpy(r->map, next, r->n);
}

/* One translation. In the first round most blocks are broken, so that all are
 * split at once; later the broken ones, one by one. 1 if any was. */
INLINE int split_by(struct refining *r, const uint8_t *t, size_t step)
{
    int any = 0;
    for (unsigned k = 0; k < r->others_count; k++) {
        const unsigned x = r->others[k], name = r->map[x];
        if (r->map[t[x * step]] == r->map[t[name * step]]) {
            continue;
        }
        any = 1;
        if (!r->later) {
            split_all(r, t, step);
            break;
        }
        split_block(r, (uint8_t)name, t, step);
    }
    return any;
}

INLINE void refine_by(struct refining *r, const uint8_t *t, size_t step)
{
    if (split_by(r, t, step)) {
        drop_names(r);
    }
}

/* The first listed context in which x and its name have images apart, of the
 * translations x -> t[x * step + e]; both rows lie in one stretch. */
INLINE unsigned first_break(const struct refining *r, unsigned x, const uint8_t *t, size_t step)
{
    const uint8_t *row = t + x * step, *row_of_name = t + r->map[x] * step;
    unsigned k = 0;
    while (k < r->all_count && r->map[row[r->all[k]]] == r->map[row_of_name[r->all[k]]]) {
        k++;
    }
    return k;
}

/* Element by element over one row of contexts. At a break the map is split along
 * that context, and the element is looked at again: its name has risen. */
static void refine_rows(struct refining *r, const uint8_t *t, size_t step)
{
    int any = 0;
    for (unsigned i = 0; i < r->others_count; i++) {
        const unsigned x = r->others[i];
        while (r->map[x] != x) {
            const unsigned k = first_break(r, x, t, step);
            if (k == r->all_count) {
                break;
            }
            any = 1;
            if (!r->later) {
                split_all(r, t + r->all[k], step);
            } else {
                while (split_by(r, t + r->all[k], step)) {
                }
            }
        }
    }
    if (any) {
        drop_names(r);
    }
}

static int is_name(const struct refining *r, unsigned x)
{
    return r->map[x] == x;
}

/* Arguments before the varied one need be names of the map so far only, once
 * they have been varied themselves; those after it are all listed ones. */
static void refine_binary(struct refining *r, const uint8_t *t, size_t n)
{
    refine_rows(r, t, n);
    for (unsigned k = 0; k < r->all_count && r->others_count; k++) {
        if (is_name(r, r->all[k])) {
            refine_by(r, t + r->all[k] * n, 1);
        }
    }
}

static void refine_ternary(struct refining *r, const uint8_t *t, size_t n)
{
    const size_t area = n * n;
    for (unsigned k = 0; k < r->all_count && r->others_count; k++) {
        refine_rows(r, t + r->all[k] * n, area);
    }
    for (unsigned k = 0; k < r->all_count && r->others_count; k++) {
        if (is_name(r, r->all[k])) {
            refine_rows(r, t + r->all[k] * area, n);
        }
    }
    for (unsigned k = 0; k < r->all_count && r->others_count; k++) {
        for (unsigned l = 0; l < r->all_count && r->others_count && is_name(r, r->all[k]); l++) {
            if (is_name(r, r->all[l])) {
                refine_by(r, t + r->all[k] * area + r->all[l] * n, 1);
            }
        }
    }
}

static void refine_by_all(struct refining *r, const struct algebra *al)
{
    for (unsigned i = 0; i < al->count && r->others_count; i++) {
        const uint8_t *t = al->operation[i].table;
        switch (al->operation[i].arity) {
        case 1:
            refine_by(r, t, 1);
            break;
        case 2:
            refine_binary(r, t, al->n);
            break;
        default:
            refine_ternary(r, t, al->n);
        }
    }
}

/* A split that follows from a later one comes in the next round: the list is
 * turned round, so that a row of such splits takes one round and not one each. */
static void turn_round(struct refining *r)
{
    for (unsigned k = 0; k < r->others_count / 2; k++) {
        const uint8_t x = r->others[k];
        r->others[k] = r->others[r->others_count - 1 - k];
        r->others[r->others_count - 1 - k] = x;
    }
}

/* The map becomes the greatest congruence inside it; the listed elements are the
 * names of a congruence inside it. */
static void refine(const struct algebra *al, uint8_t *map, const uint8_t *names, unsigned count)
{
    struct refining r;
    unsigned before;
    if (al->count == 0 || block_count(map, al->n) == 1) {
        return;
    }
    memcpy(r.map, map, al->n);
    memcpy(r.all, names, count);
    memcpy(r.others, names, count);
    r.n = al->n;
    r.all_count = r.others_count = count;
    /* Of one unary operation few blocks are broken even at first. */
    r.later = al->count == 1 && al->operation[0].arity == 1;
    drop_names(&r);
    do {
        before = r.others_count;
        refine_by_all(&r, al);
        turn_round(&r);
        r.later = 1;
    } while (r.others_count && r.others_count < before);
    memcpy(map, r.map, al->n);
}

#endif
