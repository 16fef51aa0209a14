/* Closure: merges are queued, and each merged pair is taken once through all
 * translations.
 *
 * A merge keeps the smaller name. The queue lists the names that were lost; the
 * number of merges is its length. */
#ifndef BASELINE_CLOSURE_H
#define BASELINE_CLOSURE_H

#include "algebra.h"

/* What ends a closure early: so many merges, or v and w joined, unless these are
 * one element. A pair of names that was refused once, in the row of the smaller
 * one, is not joined: that would join v and w, so they are joined at once. */
struct ends {
    unsigned merges;
    unsigned v, w;
    const uint8_t *refused;
};

/* The elements that are still used as fixed arguments, and where each stands
 * among them. */
struct used {
    uint8_t live[SIZE];
    uint8_t at[SIZE];
};

static void use_all(struct used *u)
{
    identity(u->live);
    identity(u->at);
}

/* Once a pair has gone through all translations, the larger of the two need not
 * be a fixed argument any more. The last one of so many takes its place. */
INLINE void retire(struct used *u, unsigned count, uint8_t x)
{
    const uint8_t place = u->at[x], last = u->live[count - 1];
    u->live[place] = last;
    u->at[last] = place;
}

INLINE void rename_block(uint8_t *map, uint8_t old, uint8_t new)
{
    for (unsigned x = 0; x < SIZE; x++) {
        map[x] = map[x] == old ? new : map[x];
    }
}

/* Joins the blocks of x and y. The new length of the queue. */
INLINE unsigned join(uint8_t *restrict map, uint8_t *restrict queue, unsigned len, uint8_t x, uint8_t y)
{
    const uint8_t p = map[x], q = map[y];
    if (p == q) {
        return len;
    }
    const uint8_t old = p < q ? q : p;
    rename_block(map, old, p < q ? p : q);
    queue[len] = old;
    return len + 1;
}

INLINE unsigned join_or_end(uint8_t *restrict map, uint8_t *restrict queue, unsigned len, struct ends e, uint8_t x,
                            uint8_t y)
{
    if (e.v != e.w) {
        const unsigned p = map[x], q = map[y];
        if (e.refused[p < q ? p * SIZE + q : q * SIZE + p]) {
            return join(map, queue, len, (uint8_t)e.v, (uint8_t)e.w);
        }
    }
    return join(map, queue, len, x, y);
}

INLINE int is_over(const uint8_t *map, unsigned len, struct ends e)
{
    return e.merges <= len || (e.v != e.w && map[e.v] == map[e.w]);
}

/* The images of a pair under the translations of one line: p and q are where the
 * two stand, the other argument is each live element in turn, `step` cells apart.
 * Two are looked at together, since most are joined already. */
INLINE unsigned sweep_line(uint8_t *restrict map, uint8_t *restrict queue, unsigned len, struct ends e,
                           const uint8_t *restrict live, unsigned count, const uint8_t *p, const uint8_t *q,
                           size_t step)
{
    for (unsigned i = 0; i < count;) {
        for (; i + 1 < count; i += 2) {
            const size_t s = live[i] * step, t = live[i + 1] * step;
            if ((map[p[s]] ^ map[q[s]]) | (map[p[t]] ^ map[q[t]])) {
                break;
            }
        }
        for (const unsigned end = i + 2 < count ? i + 2 : count; i < end; i++) {
            const size_t s = live[i] * step;
            if (map[p[s]] != map[q[s]]) {
                len = join_or_end(map, queue, len, e, p[s], q[s]);
                if (is_over(map, len, e)) {
                    return len;
                }
            }
        }
    }
    return len;
}

/* The same with two other arguments; lines are `row` cells apart. */
INLINE unsigned sweep_plane(uint8_t *restrict map, uint8_t *restrict queue, unsigned len, struct ends e,
                            const uint8_t *restrict live, unsigned count, const uint8_t *p, const uint8_t *q,
                            size_t row, size_t step)
{
    for (unsigned i = 0; i < count && !is_over(map, len, e); i++) {
        const size_t shift = live[i] * row;
        len = sweep_line(map, queue, len, e, live, count, p + shift, q + shift, step);
    }
    return len;
}

/* The images of x and y under all translations with live elements as fixed
 * arguments are joined. The new length of the queue. */
static unsigned sweep(const struct algebra *al, uint8_t *restrict map, uint8_t *restrict queue, unsigned len,
                      struct ends e, const uint8_t *restrict live, unsigned count, size_t x, size_t y)
{
    const size_t n = al->n, area = n * n;
    for (unsigned i = 0; i < al->count && !is_over(map, len, e); i++) {
        const uint8_t *t = al->operation[i].table;
        switch (al->operation[i].arity) {
        case 1:
            len = join_or_end(map, queue, len, e, t[x], t[y]);
            break;
        case 2:
            len = sweep_line(map, queue, len, e, live, count, t + x, t + y, n);
            if (!is_over(map, len, e)) {
                len = sweep_line(map, queue, len, e, live, count, t + x * n, t + y * n, 1);
            }
            break;
        default:
            len = sweep_plane(map, queue, len, e, live, count, t + x, t + y, area, n);
            len = sweep_plane(map, queue, len, e, live, count, t + x * n, t + y * n, area, 1);
            len = sweep_plane(map, queue, len, e, live, count, t + x * area, t + y * area, n, 1);
        }
    }
    return len;
}

/* Takes each queued element with its name through all translations, until the
 * queue or the closure ends. The number of merges. */
static unsigned close_queue(const struct algebra *al, uint8_t *restrict map, uint8_t *restrict queue, unsigned len,
                            struct ends e, struct used *restrict u, unsigned count)
{
    for (unsigned at = 0; at < len && !is_over(map, len, e); at++) {
        const uint8_t x = queue[at];
        len = sweep(al, map, queue, len, e, u->live, count, map[x], x);
        retire(u, count--, x);
    }
    return len;
}

#endif
