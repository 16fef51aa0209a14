/* Separate: the earliest congruence that holds v and w apart. Pairs of names are
 * tried in order, each joined if that leaves v and w apart.
 *
 * Between rows the search is bounded: every congruence above the one so far that
 * holds v and w apart lies inside the map `up`. Pairs that `up` holds apart are
 * refused without a trial; once `up` holds v and w apart, it is the answer. */
#ifndef BASELINE_SEPARATE_H
#define BASELINE_SEPARATE_H

#include "closure.h"
#include "refine.h"

/* The meet of up with "the block of x in the map, and the rest". */
static void cut(uint8_t *restrict up, const uint8_t *restrict map, unsigned n, uint8_t x)
{
    uint8_t next[SIZE], first[2][SIZE];
    memset(first, SIZE, sizeof first);
    for (unsigned y = 0; y < n; y++) {
        uint8_t *at = &first[map[y] == x][up[y]];
        next[y] = *at = *at < SIZE ? *at : (uint8_t)y;
    }
    memcpy(up, next, n);
}

/* After the row of x: the pairs of the row that are not joined were refused, so
 * the block of x is what it is now in each congruence that is left. Where up has
 * no more blocks than the congruence inside, it is that one. */
static void bound(const struct algebra *al, uint8_t *up, const uint8_t *map, unsigned x, const uint8_t *names,
                  unsigned count)
{
    cut(up, map, al->n, (uint8_t)x);
    if (block_count(up, al->n) != count) {
        refine(al, up, names, count);
    }
}

/* Writes the answer to up. How many pairs were tried. A bound costs a refinement:
 * each is made after twice as many trials as the one before, and after the row
 * of v or w, which ends the search. */
static unsigned separate(const struct algebra *al, unsigned v, unsigned w, uint8_t *restrict up)
{
    const unsigned n = al->n;
    uint8_t map[SIZE], trial[SIZE], queue[SIZE], refused[SIZE * SIZE] = {0};
    struct used names, used;
    unsigned count = n, trials = 0, next_bound = 1;
    identity(map);
    use_all(&names);
    memset(up, 0, n);
    /* Between trials the copies are what they are copied from. */
    memcpy(trial, map, SIZE);
    used = names;
    for (unsigned x = 0;; x++) {
        if (map[x] != x) {
            continue;
        }
        for (unsigned y = x + 1; y < n; y++) {
            if (map[y] != y || up[x] != up[y]) {
                continue;
            }
            const struct ends ends = {count - 1, v, w, refused};
            trials++;
            unsigned len = join(trial, queue, 0, (uint8_t)x, (uint8_t)y);
            len = close_queue(al, trial, queue, len, ends, &used, count);
            if (trial[v] == trial[w]) {
                refused[x * SIZE + y] = 1;
                memcpy(trial, map, SIZE);
                used = names;
            } else {
                memcpy(map, trial, SIZE);
                names = used;
                count -= len;
            }
        }
        if (map[v] == x || map[w] == x || trials >= next_bound) {
            next_bound = 2 * trials;
            bound(al, up, map, x, names.live, count);
            if (up[v] != up[w]) {
                return trials;
            }
        }
    }
}

#endif
