/* Compares six services with the optimized baseline: the four functions of
 * include/congruence.h, and Certify and Quotient of the probe.
 *
 *   alike ALGEBRAS SEED
 *
 * The algebras are those of benches/workloads.h, most of them with smaller n too,
 * and so many more: random tables, and workloads whose elements are renamed or some
 * of whose cells are changed. Of each answer the number and every lent byte are
 * compared. The reference would take too long for so many; the baseline itself is
 * compared with it (src/compare.rs, src/hard.rs). The last line is `N passed, M
 * failed`, counting algebras. */
#include <stdio.h>
#include <stdlib.h>
#include <string.h>

#include "../benches/baseline.h"
#include "../benches/workloads.h"
#include "../include/congruence.h"

uint32_t probe_certify(size_t n, const uint8_t *arities, size_t arities_len, const uint8_t *cells, size_t cells_len,
                       const uint8_t *maps, size_t maps_len);
uint32_t probe_quotient(size_t n, const uint8_t *arities, size_t arities_len, const uint8_t *cells, size_t cells_len,
                        const uint8_t *map, size_t map_len, uint8_t *out, size_t out_len);

/* It ends after so many algebras that are not alike. */
enum { ROOM = MAX_CELLS_OF_ALL + 64, ENOUGH = 5 };

static unsigned long calls;

/* ---- one call on both sides -------------------------------------------------- */

/* What is lent, the same bytes to both. */
static uint8_t lent[2][ROOM];

static void lend(size_t len)
{
    for (size_t i = 0; i < len; i++) {
        lent[0][i] = lent[1][i] = (uint8_t)any_number();
    }
}

/* 0, and the call is printed, if the two differ. */
static int same(const char *service, const struct tables *t, uint32_t product, uint32_t baseline, size_t len)
{
    calls++;
    if (product == baseline && memcmp(lent[0], lent[1], len) == 0) {
        return 1;
    }
    printf("  %s, n = %zu, %zu operations: %u, the baseline %u\n", service, t->n, t->operations, product, baseline);
    return 0;
}

#define ALGEBRA(t) (t)->n, (t)->arities, (t)->operations, (t)->cells, (t)->cells_len

static int generate(const struct tables *t, const uint8_t *pairs, size_t pairs_len)
{
    const size_t len = t->n + any_below(3);
    lend(len);
    return same("generate", t, congruence_generate(ALGEBRA(t), pairs, pairs_len, lent[0], len),
                baseline_generate(ALGEBRA(t), pairs, pairs_len, lent[1], len), len);
}

static int contained(const struct tables *t, const uint8_t *map)
{
    const size_t len = t->n + any_below(3);
    lend(len);
    return same("contained", t, congruence_contained(ALGEBRA(t), map, t->n, lent[0], len),
                baseline_contained(ALGEBRA(t), map, t->n, lent[1], len), len);
}

static int separate(const struct tables *t, unsigned v, unsigned w)
{
    const size_t len = t->n + any_below(3);
    lend(len);
    return same("separate", t, congruence_separate(ALGEBRA(t), v, w, lent[0], len),
                baseline_separate(ALGEBRA(t), v, w, lent[1], len), len);
}

static int decompose(const struct tables *t, size_t len)
{
    lend(len);
    return same("decompose", t, congruence_decompose(ALGEBRA(t), lent[0], len),
                baseline_decompose(ALGEBRA(t), lent[1], len), len);
}

static int certify(const struct tables *t, const uint8_t *maps, size_t maps_len)
{
    return same("certify", t, probe_certify(ALGEBRA(t), maps, maps_len),
                baseline_certify(ALGEBRA(t), maps, maps_len), 0);
}

static int quotient(const struct tables *t, const uint8_t *map)
{
    const size_t len = any_below(8) ? ROOM : any_below((unsigned)t->cells_len + 1);
    lend(len < t->cells_len + 64 ? len : t->cells_len + 64);
    return same("quotient", t, probe_quotient(ALGEBRA(t), map, t->n, lent[0], len),
                baseline_quotient(ALGEBRA(t), map, t->n, lent[1], len), len);
}

/* ---- all calls about an algebra ------------------------------------------------ */

static void any_map(uint8_t *map, unsigned n, unsigned kinds)
{
    uint8_t first[64];
    memset(first, 64, 64);
    for (unsigned x = 0; x < n; x++) {
        uint8_t *at = &first[any_below(kinds)];
        map[x] = *at = *at < 64 ? *at : (uint8_t)x;
    }
}

/* Decompose's list, or the identity alone; and lists that are near it. */
static int certify_lists(const struct tables *t)
{
    static uint8_t list[64 * 64 + 64];
    const size_t n = t->n;
    const uint32_t number = baseline_decompose(ALGEBRA(t), list, sizeof list);
    size_t len = CONGRUENCE_COUNT(number) * n;
    if (CONGRUENCE_REASON(number)) {
        len = n;
        for (unsigned x = 0; x < n; x++) {
            list[x] = (uint8_t)x;
        }
    }
    int good = decompose(t, len) && decompose(t, len - any_below(2)) && certify(t, list, len);
    /* One fewer, one more, one that is finer or coarser. */
    uint8_t *one = list + any_below((unsigned)(len / n)) * n;
    const unsigned v = any_below((unsigned)n), w = any_below((unsigned)n);
    const uint8_t pair[] = {(uint8_t)v, (uint8_t)w};
    good = good && certify(t, list, len - n);
    if (v != w) {
        baseline_separate(ALGEBRA(t), v, w, list + len, n);
        good = good && certify(t, list, len + n) && certify(t, list + len, n);
    }
    switch (any_below(3)) {
    case 0:
        baseline_generate(ALGEBRA(t), pair, 2, one, n);
        break;
    case 1:
        any_map(one, (unsigned)n, 2);
        baseline_contained(ALGEBRA(t), one, n, one, n);
        break;
    default:
        any_map(one, (unsigned)n, 2);
    }
    good = good && certify(t, list, len);
    for (unsigned x = 0; x < n; x++) {
        list[x] = (uint8_t)x;
    }
    return good && certify(t, list, n);
}

static int all_calls(const struct tables *t, unsigned times)
{
    const unsigned n = (unsigned)t->n;
    int good = 1;
    for (unsigned i = 0; good && i < times; i++) {
        uint8_t map[64], pairs[6];
        const unsigned v = any_below(n), w = any_below(3) ? any_below(n) : (v + 1) % n;
        pairs[0] = (uint8_t)v;
        pairs[1] = (uint8_t)w;
        for (unsigned k = 2; k < 6; k++) {
            pairs[k] = (uint8_t)any_below(n);
        }
        any_map(map, n, 1 + any_below(any_below(2) ? 3 : n));
        good = generate(t, pairs, any_below(4) ? 2 : 6) && contained(t, map) && separate(t, v, w) && quotient(t, map);
        baseline_generate(ALGEBRA(t), pairs, 2, map, n);
        good = good && quotient(t, map) && contained(t, map);
        if (good && v != w) {
            baseline_separate(ALGEBRA(t), v, w, map, n);
            good = quotient(t, map);
        }
    }
    return good && certify_lists(t);
}

/* ---- algebras ------------------------------------------------------------------ */

/* Tables of random arities: any cells, few values, near a projection or a sum. */
static void any_tables(struct tables *t)
{
    const size_t limit = any_below(20) ? 1500 : MAX_CELLS_OF_ALL;
    const unsigned n = any_below(8) ? 1 + any_below(12) : 1 + any_below(64), wanted = any_below(5);
    const unsigned kind = any_below(4), values = 1 + any_below(n);
    t->n = n;
    t->operations = t->cells_len = 0;
    for (unsigned i = 0; i < wanted; i++) {
        const unsigned s = any_below(4);
        if (t->cells_len + tables_power(n, s) > limit) {
            continue;
        }
        t->arities[t->operations++] = (uint8_t)s;
        for (size_t at = 0; at < tables_power(n, s); at++) {
            const unsigned near = (unsigned)(kind == 2 ? at % n : (at % n + at / n + at / n / n) % n);
            const unsigned cell = any_below(kind == 1 ? values : n);
            t->cells[t->cells_len++] = (uint8_t)(kind < 2 || any_below(kind == 2 ? 8 : 100) == 0 ? cell : near);
        }
    }
}

/* A workload, renamed or with some cells changed; mostly a small one. */
static void near_workload(struct tables *t)
{
    const struct workload *w;
    const int large = any_below(20) == 0;
    do {
        w = &workloads[any_below(WORKLOADS)];
    } while (!large && !w->any_size);
    make_tables(t, w->make, w->any_size ? 1 + any_below(large ? w->n : 14) : w->n);
    if (any_below(2)) {
        rename_elements(t);
    }
    for (unsigned k = any_below(4); k > 0 && t->cells_len > 0; k--) {
        t->cells[any_below((unsigned)t->cells_len)] = (uint8_t)any_below((unsigned)t->n);
    }
}

/* All up to 16, some beyond, and the largest; 0 behind it. */
static unsigned next_size(unsigned n, unsigned most)
{
    const unsigned next = n < 16 ? n + 1 : n + n / 4;
    return n == most ? 0 : next < most ? next : most;
}

int main(int argc, char **argv)
{
    static struct tables t;
    const unsigned long algebras = argc > 1 ? strtoul(argv[1], NULL, 10) : 10000;
    const unsigned long seed = argc > 2 ? strtoul(argv[2], NULL, 10) : 1;
    unsigned long passed = 0, failed = 0;
    workload_state = seed;
    printf("seed %lu, %lu algebras beside the workloads\n", seed, algebras);
    for (unsigned i = 0; i < WORKLOADS && failed < ENOUGH; i++) {
        for (unsigned n = workloads[i].any_size ? 1 : workloads[i].n; n > 0 && failed < ENOUGH;
             n = next_size(n, workloads[i].n)) {
            make_tables(&t, workloads[i].make, n);
            if (all_calls(&t, 3)) {
                passed++;
            } else {
                failed++;
                printf("MISMATCH: %s, made for %u elements\n", workloads[i].name, n);
            }
        }
    }
    for (unsigned long i = 0; i < algebras && failed < ENOUGH; i++) {
        const uint64_t state = workload_state;
        if (any_below(2)) {
            any_tables(&t);
        } else {
            near_workload(&t);
        }
        if (all_calls(&t, 2)) {
            passed++;
        } else {
            failed++;
            printf("MISMATCH: the algebra made from state %llu\n", (unsigned long long)state);
        }
    }
    printf("%lu calls\n%lu passed, %lu failed\n", calls, passed, failed);
    return failed != 0 || passed == 0;
}
