/* Decompose's list before the dropping: congruences that hold the first pair
 * apart that all before them hold, until there is none. */
#ifndef BASELINE_GATHER_H
#define BASELINE_GATHER_H

#include "kept.h"
#include "lists.h"

/* The list so far, its meet, and the pair that was looked at last. */
struct gathering {
    uint8_t list[SIZE * SIZE];
    uint8_t common[SIZE];
    unsigned count, v, w;
    struct meeting meeting;
};

/* The first pair that the meet joins; the meet is not the identity. */
static void choose_pair(struct gathering *g, unsigned n)
{
    unsigned at = 0;
    for (unsigned y = 1; y < n; y++) {
        if (g->common[y] != y && (at == 0 || g->common[y] < g->common[at])) {
            at = y;
        }
    }
    g->v = g->common[at];
    g->w = at;
}

/* Adds a congruence. 0 if it is the identity: then the algebra is irreducible,
 * and v and w are joined by every other congruence. */
static int add(struct gathering *g, unsigned n, const uint8_t *up)
{
    memcpy(g->list + g->count * n, up, n);
    g->count++;
    if (is_identity(up, n)) {
        return 0;
    }
    meet(&g->meeting, g->common, g->common, up, n);
    return 1;
}

static __attribute__((noinline)) int gather_kept(struct gathering *g, const struct algebra *al)
{
    struct kept kept;
    uint8_t up[SIZE];
    keep_nothing(&kept);
    while (!is_identity(g->common, al->n)) {
        choose_pair(g, al->n);
        separate_kept(&kept, al, g->v, g->w, up);
        if (!add(g, al->n, up)) {
            return 0;
        }
    }
    return 1;
}

/* So many trials for each congruence make it worth while to keep what pairs give.
 * Of unary operations alone a trial is cheap. */
static unsigned many_trials(const struct algebra *al)
{
    for (unsigned i = 0; i < al->count; i++) {
        if (al->operation[i].arity > 1) {
            return al->n;
        }
    }
    return 3 * al->n;
}

/* 1 and the list, or 0 and the pair. Where the first congruences have cut off
 * little more than a block each, after many trials, many are to come: from then
 * on what pairs give is kept. */
static int gather(struct gathering *g, const struct algebra *al)
{
    const unsigned many = many_trials(al);
    unsigned trials = 0;
    uint8_t up[SIZE];
    memset(g->common, 0, SIZE);
    g->count = 0;
    while (!is_identity(g->common, al->n)) {
        if (g->count >= 2 && block_count(g->common, al->n) < 2 * g->count && 4 * trials >= many * g->count) {
            return gather_kept(g, al);
        }
        choose_pair(g, al->n);
        trials += separate(al, g->v, g->w, up);
        if (!add(g, al->n, up)) {
            return 0;
        }
    }
    return 1;
}

#endif
