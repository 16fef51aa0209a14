/* The optimized implementation of the services (see baseline.h), written for
 * speed. What it rests on stands in baseline/, in this order: algebra.h,
 * closure.h, refine.h, separate.h, lists.h, kept.h, gather.h, quotient.h. */
#include "baseline.h"

#include "baseline/algebra.h"
#include "baseline/closure.h"
#include "baseline/gather.h"
#include "baseline/lists.h"
#include "baseline/quotient.h"
#include "baseline/refine.h"
#include "baseline/separate.h"

uint32_t baseline_accept(struct algebra *a, size_t n, const uint8_t *arities, size_t arities_len,
                         const uint8_t *cells, size_t cells_len)
{
    if (n == 0 || n > SIZE) {
        return 1;
    }
    if (arities_len > MAX_OPERATIONS) {
        return 2;
    }
    if (greatest(arities, arities_len) > MAX_ARITY) {
        return 3;
    }
    const size_t power[] = {1, n, n * n, n * n * n};
    size_t sum = 0;
    a->n = (unsigned)n;
    a->count = 0;
    for (size_t i = 0; i < arities_len; i++) {
        if (arities[i] != 0 && sum < cells_len) {
            a->operation[a->count].table = cells + sum;
            a->operation[a->count].arity = arities[i];
            a->count++;
        }
        sum += power[arities[i]];
    }
    if (sum > MAX_CELLS) {
        return 4;
    }
    if (cells_len != sum) {
        return 5;
    }
    if (greatest(cells, cells_len) >= n) {
        return 6;
    }
    return 0;
}

/* ---- Generate --------------------------------------------------------- */

uint32_t baseline_generate(size_t n, const uint8_t *arities, size_t arities_len,
                           const uint8_t *cells, size_t cells_len,
                           const uint8_t *pairs, size_t pairs_len,
                           uint8_t *out, size_t out_len)
{
    struct algebra al;
    struct used used;
    uint8_t map[SIZE], queue[SIZE];
    unsigned len = 0;
    const uint32_t reason = baseline_accept(&al, n, arities, arities_len, cells, cells_len);
    if (reason) {
        return reason;
    }
    if (pairs_len % 2 != 0 || greatest(pairs, pairs_len) >= n) {
        return 7;
    }
    if (out_len < n) {
        return 9;
    }
    identity(map);
    use_all(&used);
    for (size_t i = 0; i < pairs_len; i += 2) {
        len = join(map, queue, len, pairs[i], pairs[i + 1]);
    }
    const struct ends ends = {al.n - 1, 0, 0, NULL};
    len = close_queue(&al, map, queue, len, ends, &used, al.n);
    memcpy(out, map, n);
    return 256 * len;
}

unsigned baseline_extend(const struct algebra *al, uint8_t *map, unsigned x, unsigned y)
{
    struct used used;
    uint8_t closed[SIZE], queue[SIZE];
    unsigned len = 0;
    identity(closed);
    use_all(&used);
    /* What the map holds: each element that is no name with its name. */
    for (unsigned z = 0; z < al->n; z++) {
        closed[z] = map[z];
        queue[len] = (uint8_t)z;
        len += map[z] != z;
    }
    const unsigned before = len;
    const struct ends ends = {al->n - 1, 0, 0, NULL};
    len = join(closed, queue, len, (uint8_t)x, (uint8_t)y);
    len = close_queue(al, closed, queue, len, ends, &used, al->n);
    memcpy(map, closed, al->n);
    return len - before;
}

/* ---- Contained -------------------------------------------------------- */

uint32_t baseline_contained(size_t n, const uint8_t *arities, size_t arities_len,
                            const uint8_t *cells, size_t cells_len,
                            const uint8_t *map, size_t map_len,
                            uint8_t *out, size_t out_len)
{
    struct algebra al;
    uint8_t inside[SIZE], all[SIZE];
    const uint32_t reason = baseline_accept(&al, n, arities, arities_len, cells, cells_len);
    if (reason) {
        return reason;
    }
    if (map_len != n || !is_map(map, n)) {
        return 8;
    }
    if (out_len < n) {
        return 9;
    }
    memcpy(inside, map, n);
    identity(all);
    refine(&al, inside, all, al.n);
    memcpy(out, inside, n);
    return 0;
}

/* ---- Separate --------------------------------------------------------- */

uint32_t baseline_separate(size_t n, const uint8_t *arities, size_t arities_len,
                           const uint8_t *cells, size_t cells_len,
                           size_t v, size_t w,
                           uint8_t *out, size_t out_len)
{
    struct algebra al;
    uint8_t up[SIZE];
    const uint32_t reason = baseline_accept(&al, n, arities, arities_len, cells, cells_len);
    if (reason) {
        return reason;
    }
    if (v >= n || w >= n) {
        return 7;
    }
    if (out_len < n) {
        return 9;
    }
    if (v == w) {
        return 10;
    }
    separate(&al, (unsigned)v, (unsigned)w, up);
    memcpy(out, up, n);
    return 0;
}

/* ---- Decompose -------------------------------------------------------- */

/* Drops from first to last what the rest can spare: a member is met with those
 * kept before it and all after it. Lists the places of the kept ones and counts
 * them. */
static unsigned keep_needed(struct gathering *g, unsigned n, uint8_t *kept)
{
    uint8_t after[SIZE][SIZE], before[SIZE] = {0};
    unsigned kept_count = 0;
    meets_after(&g->meeting, after, g->list, g->count, n);
    for (unsigned i = 0; i < g->count; i++) {
        if (!meet_in_identity(&g->meeting, before, after[i + 1], n)) {
            kept[kept_count++] = (uint8_t)i;
            meet(&g->meeting, before, before, g->list + i * n, n);
        }
    }
    return kept_count;
}

uint32_t baseline_decompose(size_t n, const uint8_t *arities, size_t arities_len,
                            const uint8_t *cells, size_t cells_len,
                            uint8_t *out, size_t out_len)
{
    struct algebra al;
    struct gathering g;
    uint8_t kept[SIZE];
    const uint32_t reason = baseline_accept(&al, n, arities, arities_len, cells, cells_len);
    if (reason) {
        return reason;
    }
    if (n == 1) {
        return 11;
    }
    if (!gather(&g, &al)) {
        return 11 + 65536 * g.v + 16777216 * g.w;
    }
    const unsigned count = keep_needed(&g, al.n, kept);
    /* Nothing is written before this is tested. */
    if (out_len < count * n) {
        return 9;
    }
    for (unsigned i = 0; i < count; i++) {
        memcpy(out + i * n, g.list + kept[i] * n, n);
    }
    return 256 * count;
}

/* ---- Quotient --------------------------------------------------------- */

uint32_t baseline_quotient(size_t n, const uint8_t *arities, size_t arities_len,
                           const uint8_t *cells, size_t cells_len,
                           const uint8_t *map, size_t map_len,
                           uint8_t *out, size_t out_len)
{
    struct algebra al;
    struct blocks b;
    const uint32_t reason = baseline_accept(&al, n, arities, arities_len, cells, cells_len);
    if (reason) {
        return reason;
    }
    if (map_len != n || !is_map(map, n)) {
        return 8;
    }
    number_blocks(&b, map, al.n);
    const size_t m = b.count, power_of_n[] = {1, n, n * n, n * n * n}, power[] = {1, m, m * m, m * m * m};
    size_t wanted = 0;
    for (size_t i = 0; i < arities_len; i++) {
        wanted += power[arities[i]];
    }
    if (out_len < wanted) {
        return 9;
    }
    if (!is_congruence(&al, map)) {
        return 12;
    }
    for (size_t i = 0; i < arities_len; i++) {
        out = divide(out, cells, arities[i], n, &b);
        cells += power_of_n[arities[i]];
    }
    return 256 * b.count;
}

/* ---- Certify ---------------------------------------------------------- */

/* Whether the maps meet in the identity and each is needed for that. */
static int is_irredundant(const uint8_t *maps, unsigned count, unsigned n)
{
    struct meeting m;
    uint8_t after[SIZE][SIZE], before[SIZE] = {0};
    meets_after(&m, after, maps, count, n);
    if (!is_identity(after[0], n)) {
        return 0;
    }
    for (unsigned i = 0; i < count; i++) {
        if (meet_in_identity(&m, before, after[i + 1], n)) {
            return 0;
        }
        meet(&m, before, before, maps + i * n, n);
    }
    return 1;
}

uint32_t baseline_certify(size_t n, const uint8_t *arities, size_t arities_len,
                          const uint8_t *cells, size_t cells_len,
                          const uint8_t *maps, size_t maps_len)
{
    struct algebra al;
    const uint32_t reason = baseline_accept(&al, n, arities, arities_len, cells, cells_len);
    if (reason) {
        return reason;
    }
    if (maps_len % n != 0 || maps_len / n >= SIZE) {
        return 8;
    }
    const unsigned count = (unsigned)(maps_len / n);
    for (unsigned i = 0; i < count; i++) {
        if (!is_map(maps + i * n, n)) {
            return 8;
        }
    }
    if (!is_irredundant(maps, count, al.n)) {
        return 0;
    }
    for (unsigned i = 0; i < count; i++) {
        if (!is_congruence(&al, maps + i * n)) {
            return 0;
        }
    }
    for (unsigned i = 0; i < count; i++) {
        if (!is_maximal(&al, maps + i * n)) {
            return 0;
        }
    }
    return 256;
}
