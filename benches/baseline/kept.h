/* Separate for many pairs of one algebra: what a pair gives is kept.
 *
 * For a pair there is a map that joins the two and their images under all
 * translations, and lies inside every congruence that joins them: one sweep. It
 * may grow to the congruence of the pair; then it is whole. */
#ifndef BASELINE_KEPT_H
#define BASELINE_KEPT_H

#include "closure.h"
#include "separate.h"

enum { PAIRS = SIZE * (SIZE - 1) / 2 };

struct kept {
    uint8_t map[PAIRS][SIZE];
    uint8_t lost[PAIRS];  /* how many elements are no names in it; 0 where nothing is kept */
    uint8_t start[PAIRS]; /* the first of these */
    uint8_t whole[PAIRS];
};

static void keep_nothing(struct kept *k)
{
    memset(k->lost, 0, sizeof k->lost);
    memset(k->whole, 0, sizeof k->whole);
}

/* x < y; the rows one after another. */
static unsigned place_of(unsigned x, unsigned y)
{
    return x * (2 * SIZE - 1 - x) / 2 + y - x - 1;
}

/* Each element that is no name in what is kept at a place, as z. */
#define EACH_LOST(k, place, z)                                                       \
    for (unsigned z = (k)->start[place], left_ = (k)->lost[place]; left_ > 0; z++) \
        if ((k)->map[place][z] != z && left_--)

/* Joins what is kept at the place to the map. */
static void join_kept(uint8_t *restrict map, const struct kept *k, unsigned place)
{
    EACH_LOST(k, place, z) {
        const uint8_t p = map[z], q = map[k->map[place][z]];
        if (p != q) {
            rename_block(map, p < q ? q : p, p < q ? p : q);
        }
    }
}

/* The same; the names that were lost go to the queue. */
static unsigned queue_kept(uint8_t *restrict map, uint8_t *restrict queue, unsigned len, const struct kept *k,
                           unsigned place)
{
    EACH_LOST(k, place, z) {
        len = join(map, queue, len, (uint8_t)z, k->map[place][z]);
    }
    return len;
}

static int is_inside(const struct kept *k, unsigned place, const uint8_t *map)
{
    EACH_LOST(k, place, z) {
        if (map[z] != map[k->map[place][z]]) {
            return 0;
        }
    }
    return 1;
}

static void keep(struct kept *k, unsigned place, const uint8_t *map, unsigned n, int whole)
{
    const unsigned blocks = block_count(map, n);
    unsigned start = 0;
    while (map[start] == start) {
        start++;
    }
    memcpy(k->map[place], map, SIZE);
    k->lost[place] = (uint8_t)(n - blocks);
    k->start[place] = (uint8_t)start;
    k->whole[place] = (uint8_t)(whole || blocks == 1);
}

/* The place of x < y; a sweep if nothing is kept there yet. */
static unsigned kept_pair(struct kept *k, const struct algebra *al, unsigned x, unsigned y)
{
    const unsigned place = place_of(x, y);
    if (k->lost[place] == 0) {
        const struct ends ends = {al->n - 1, 0, 0, NULL};
        uint8_t map[SIZE], queue[SIZE], live[SIZE];
        identity(map);
        identity(live);
        const unsigned len = join(map, queue, 0, (uint8_t)x, (uint8_t)y);
        sweep(al, map, queue, len, ends, live, al->n, x, y);
        keep(k, place, map, al->n, 0);
    }
    return place;
}

/* The same, grown to the congruence of x and y unless it joins v and w already.
 * Each element that is no name is taken once, with its name: what is kept for the
 * two is joined. That is not needed where `sure`, a congruence inside the map,
 * joins them. What is whole comes first. */
static unsigned kept_congruence(struct kept *k, const struct algebra *al, unsigned x, unsigned y, unsigned v,
                                unsigned w)
{
    const unsigned place = kept_pair(k, al, x, y);
    uint8_t map[SIZE], sure[SIZE], queue[SIZE];
    unsigned len = 0;
    memcpy(map, k->map[place], SIZE);
    if (k->whole[place] || map[v] == map[w]) {
        return place;
    }
    identity(sure);
    for (unsigned z = 0; z < al->n; z++) {
        if (map[z] != z) {
            queue[len++] = (uint8_t)z;
        }
    }
    for (unsigned z = al->n; z-- > 0;) {
        const unsigned name = map[z];
        if (name != z && sure[name] != sure[z] && k->whole[place_of(name, z)]) {
            len = queue_kept(map, queue, len, k, place_of(name, z));
            join_kept(sure, k, place_of(name, z));
        }
    }
    while (len > 0) {
        const unsigned z = queue[--len], name = map[z];
        if (sure[name] == sure[z] || (name == x && z == y)) {
            continue;
        }
        const unsigned other = kept_pair(k, al, name, z);
        len = queue_kept(map, queue, len, k, other);
        if (k->whole[other]) {
            join_kept(sure, k, other);
        }
    }
    keep(k, place, map, al->n, 1);
    return place;
}

/* Whether up, which holds a congruence with these names, is seen to be one: what
 * is kept for neighbouring names in each block lies inside. */
static int is_seen(struct kept *k, const struct algebra *al, const uint8_t *up, const uint8_t *names, unsigned count)
{
    uint8_t last[SIZE];
    memset(last, SIZE, SIZE);
    for (unsigned i = 0; i < count; i++) {
        const uint8_t y = names[i], x = last[up[y]];
        if (x < SIZE && !is_inside(k, kept_pair(k, al, x, y), up)) {
            return 0;
        }
        last[up[y]] = y;
    }
    return 1;
}

static int holds_apart(const struct kept *k, unsigned place, unsigned v, unsigned w)
{
    return k->map[place][v] != k->map[place][w];
}

/* The map joined with all congruences of pairs of the row that hold v and w
 * apart, into `all`; those that are whole already come first. 0 where it joins
 * v and w. */
static int join_row(struct kept *k, const struct algebra *al, const uint8_t *map, unsigned x, unsigned v, unsigned w,
                    uint8_t *all)
{
    memcpy(all, map, SIZE);
    for (unsigned y = al->n - 1; y > x && all[v] != all[w]; y--) {
        const unsigned place = place_of(x, y);
        if (k->whole[place] && holds_apart(k, place, v, w) && map[y] == y && all[y] != all[x]) {
            join_kept(all, k, place);
        }
    }
    for (unsigned y = x + 1; y < al->n && all[v] != all[w]; y++) {
        if (map[y] == y && all[y] != all[x]) {
            const unsigned place = kept_congruence(k, al, x, y, v, w);
            if (holds_apart(k, place, v, w)) {
                join_kept(all, k, place);
            }
        }
    }
    return all[v] != all[w];
}

/* The pairs of the row one by one. */
static void try_row(struct kept *k, const struct algebra *al, uint8_t *map, unsigned x, unsigned v, unsigned w)
{
    for (unsigned y = x + 1; y < al->n; y++) {
        if (map[y] == y) {
            const unsigned place = kept_congruence(k, al, x, y, v, w);
            if (holds_apart(k, place, v, w)) {
                uint8_t trial[SIZE];
                memcpy(trial, map, SIZE);
                join_kept(trial, k, place);
                if (trial[v] != trial[w]) {
                    memcpy(map, trial, SIZE);
                }
            }
        }
    }
}

/* What separate answers. A row is tried whole: where that holds v and w apart, it
 * is what its pairs give one by one. */
static void separate_kept(struct kept *k, const struct algebra *al, unsigned v, unsigned w, uint8_t *restrict up)
{
    uint8_t map[SIZE], all[SIZE], names[SIZE + 1];
    unsigned x = 0;
    identity(map);
    for (;; x++) {
        if (map[x] != x) {
            continue;
        }
        if (join_row(k, al, map, x, v, w, all)) {
            memcpy(map, all, SIZE);
        } else {
            try_row(k, al, map, x, v, w);
        }
        if (map[v] == x || map[w] == x) {
            break;
        }
    }
    const unsigned count = list_names(map, al->n, names);
    memset(up, 0, al->n);
    cut(up, map, al->n, (uint8_t)x);
    if (count > 2 && !is_seen(k, al, up, names, count)) {
        refine(al, up, names, count);
    }
}

#endif
