/* Calls the four functions of include/congruence.h with random lengths and
 * contents, as a C program would:
 *
 *   fuzz CALLS SEED
 *
 * Each slice lies against a page that cannot be touched, at its end or at its
 * start, so that one byte too far stops the program. Of each answer it is
 * checked that the reason is the lowest that applies, that only the promised
 * bytes are written, that the maps have the promised properties, and that the
 * optimized baseline gives the same. Whether Decompose must answer 9 says a
 * second call, which lends enough. The last line is `N passed, M failed`,
 * counting calls. */
#define _DEFAULT_SOURCE
#include <string.h>

#include "../benches/baseline.h"
#include "rooms.h"

/* ---- what must hold -------------------------------------------------------- */

static int is_map(size_t n, const uint8_t *m)
{
    for (size_t x = 0; x < n; x++) {
        if (m[x] > x || m[m[x]] != m[x]) {
            return 0;
        }
    }
    return 1;
}

static size_t blocks(size_t n, const uint8_t *m)
{
    size_t count = 0;
    for (size_t x = 0; x < n; x++) {
        count += m[x] == x;
    }
    return count;
}

static int is_congruence(size_t n, const struct room *arities, const struct room *cells, const uint8_t *m)
{
    const uint8_t *t = cells->slice;
    for (size_t i = 0; i < arities->len; i++) {
        const unsigned s = arities->slice[i];
        for (size_t step = 1; s > 0 && step < power(n, s); step *= n) {
            for (size_t at = 0; at < power(n, s); at++) {
                const size_t x = at / step % n;
                if (m[t[at]] != m[t[at - (x - m[x]) * step]]) {
                    return 0;
                }
            }
        }
        t += power(n, s);
    }
    return 1;
}

static int meets_in_identity(size_t n, const uint8_t *maps, size_t count)
{
    for (size_t x = 0; x < n; x++) {
        for (size_t y = x + 1; y < n; y++) {
            int joined = 1;
            for (size_t i = 0; i < count; i++) {
                joined &= maps[i * n + x] == maps[i * n + y];
            }
            if (joined) {
                return 0;
            }
        }
    }
    return 1;
}

/* ---- one call --------------------------------------------------------------- */

enum service { GENERATE, CONTAINED, SEPARATE, DECOMPOSE };

struct call {
    enum service service;
    size_t n, v, w;
    struct room arities, cells, slice, out;
};

static void make_rest(struct call *c)
{
    const size_t n = c->n >= 1 && c->n <= 64 ? c->n : 3;
    size_t wanted = n;
    c->service = (enum service)below(4);
    place(&c->slice, 0);
    switch (c->service) {
    case GENERATE:
        place(&c->slice, once_in(30) ? below(3000) : once_in(30) ? below(9) : 2 * below(4));
        fill(&c->slice, once_in(30) ? 256 : n);
        break;
    case CONTAINED: {
        const size_t kinds = 1 + below(n);
        size_t first[64];
        place(&c->slice, once_in(30) ? below(200) : n);
        for (size_t k = 0; k < 64; k++) {
            first[k] = 64;
        }
        for (size_t x = 0; x < c->slice.len; x++) {
            const size_t k = below(kinds);
            first[k] = first[k] == 64 ? x : first[k];
            c->slice.slice[x] = (uint8_t)first[k];
        }
        if (c->slice.len > 0 && once_in(30)) {
            c->slice.slice[below(c->slice.len)] = (uint8_t)(once_in(2) ? next() : below(n));
        }
        break;
    }
    case SEPARATE:
        c->v = once_in(40) ? (size_t)next() : below(n);
        c->w = once_in(40) ? c->n : below(n);
        break;
    case DECOMPOSE:
        /* So many maps, from none to the most that there can be; or nearly. */
        wanted = n * (once_in(3) ? n - 1 : below(n));
        wanted -= wanted > 0 && once_in(4);
        break;
    }
    place(&c->out, once_in(20) ? below(wanted + 1) : once_in(2) ? wanted : wanted + below(100));
    fill(&c->out, 256);
}

/* The reason of Decompose for an accepted algebra, by what it answers where
 * there is room for any list. */
static uint32_t factors_reason(const struct call *c)
{
    static uint8_t room[64 * 63];
    const uint32_t number = congruence_decompose(c->n, c->arities.slice, c->arities.len, c->cells.slice,
                                                 c->cells.len, room, sizeof room);
    if (CONGRUENCE_REASON(number) == CONGRUENCE_IRREDUCIBLE) {
        return CONGRUENCE_IRREDUCIBLE;
    }
    return c->out.len < CONGRUENCE_COUNT(number) * c->n ? CONGRUENCE_SPACE : CONGRUENCE_OK;
}

static uint32_t wanted_reason(const struct call *c)
{
    const uint32_t reason = algebra_reason(c->n, &c->arities, &c->cells);
    if (reason) {
        return reason;
    }
    if (c->service == GENERATE) {
        if (c->slice.len % 2) {
            return CONGRUENCE_ELEMENT;
        }
        for (size_t i = 0; i < c->slice.len; i++) {
            if (c->slice.slice[i] >= c->n) {
                return CONGRUENCE_ELEMENT;
            }
        }
    }
    if (c->service == SEPARATE && (c->v >= c->n || c->w >= c->n)) {
        return CONGRUENCE_ELEMENT;
    }
    if (c->service == CONTAINED && (c->slice.len != c->n || !is_map(c->n, c->slice.slice))) {
        return CONGRUENCE_MAP;
    }
    if (c->service == DECOMPOSE) {
        return factors_reason(c);
    }
    if (c->out.len < c->n) {
        return CONGRUENCE_SPACE;
    }
    if (c->service == SEPARATE && c->v == c->w) {
        return CONGRUENCE_EQUAL;
    }
    return CONGRUENCE_OK;
}

static uint32_t make(const struct call *c, int baseline, uint8_t *out)
{
    const uint8_t *a = c->arities.slice, *t = c->cells.slice, *s = c->slice.slice;
    const size_t al = c->arities.len, tl = c->cells.len, sl = c->slice.len, ol = c->out.len;
    switch (c->service) {
    case GENERATE:
        return (baseline ? baseline_generate : congruence_generate)(c->n, a, al, t, tl, s, sl, out, ol);
    case CONTAINED:
        return (baseline ? baseline_contained : congruence_contained)(c->n, a, al, t, tl, s, sl, out, ol);
    case SEPARATE:
        return (baseline ? baseline_separate : congruence_separate)(c->n, a, al, t, tl, c->v, c->w, out, ol);
    default:
        return (baseline ? baseline_decompose : congruence_decompose)(c->n, a, al, t, tl, out, ol);
    }
}

/* Why the answer is wrong, or NULL. */
static const char *fault(const struct call *c, uint32_t number, const uint8_t *before)
{
    const uint8_t *out = c->out.slice;
    const size_t n = c->n;
    const uint32_t reason = CONGRUENCE_REASON(number), count = CONGRUENCE_COUNT(number);
    size_t written = c->service == DECOMPOSE ? count * n : n;
    if (reason != wanted_reason(c)) {
        return "another reason";
    }
    if (reason) {
        if (number != reason && reason != CONGRUENCE_IRREDUCIBLE) {
            return "a refusal with other fields";
        }
        if (reason == CONGRUENCE_IRREDUCIBLE && n > 1 &&
            !(CONGRUENCE_FIRST(number) < CONGRUENCE_SECOND(number) && CONGRUENCE_SECOND(number) < n)) {
            return "11 with no pair";
        }
        written = 0;
    }
    if (c->out.len > written && memcmp(out + written, before + written, c->out.len - written) != 0) {
        return "a byte written that should keep its value";
    }
    if (reason) {
        return NULL;
    }
    for (size_t i = 0; i < written; i += n) {
        if (!is_map(n, out + i) || !is_congruence(n, &c->arities, &c->cells, out + i)) {
            return "no congruence";
        }
    }
    switch (c->service) {
    case GENERATE:
        for (size_t i = 0; i < c->slice.len; i += 2) {
            if (out[c->slice.slice[i]] != out[c->slice.slice[i + 1]]) {
                return "a pair is not held";
            }
        }
        return number == 256 * (n - blocks(n, out)) ? NULL : "another number of merges";
    case CONTAINED:
        for (size_t x = 0; x < n; x++) {
            if (c->slice.slice[x] != c->slice.slice[out[x]]) {
                return "not inside the map";
            }
        }
        return number == 0 ? NULL : "another number";
    case SEPARATE:
        return number == 0 && out[c->v] != out[c->w] ? NULL : "not held apart";
    default:
        if (count < 2 || count >= n) {
            return "another number of factors";
        }
        return meets_in_identity(n, out, count) ? NULL : "the factors do not meet in the identity";
    }
}

static void print_call(const struct call *c, const char *why, uint32_t number, uint32_t other,
                       const uint8_t *before, const uint8_t *expected)
{
    static const char *const names[] = {"generate", "contained", "separate", "decompose"};
    printf("MISMATCH: %s, %s, n = %zu, v = %zu, w = %zu: %u, the baseline %u\n", why, names[c->service], c->n,
           c->v, c->w, number, other);
    print_bytes("arities", c->arities.slice, c->arities.len);
    print_bytes("cells", c->cells.slice, c->cells.len);
    print_bytes("pairs or map", c->slice.slice, c->slice.len);
    print_bytes("out before", before, c->out.len);
    print_bytes("out after", c->out.slice, c->out.len);
    print_bytes("out of the baseline", expected, c->out.len);
}

int main(int argc, char **argv)
{
    const unsigned long calls = argc > 1 ? strtoul(argv[1], NULL, 10) : 100000;
    const unsigned long seed = argc > 2 ? strtoul(argv[2], NULL, 10) : 1;
    unsigned long passed = 0, failed = 0, seen[16] = {0};
    static uint8_t before[8192], expected[8192];
    struct call c = {0};
    state = seed;
    page = (size_t)sysconf(_SC_PAGESIZE);
    c.arities = open_room();
    c.cells = open_room();
    c.slice = open_room();
    c.out = open_room();
    printf("seed %lu, %lu calls\n", seed, calls);
    for (unsigned long i = 0; i < calls; i++) {
        make_algebra(&c.n, &c.arities, &c.cells);
        make_rest(&c);
        if (c.out.len > 0) {
            memcpy(before, c.out.slice, c.out.len);
            memcpy(expected, c.out.slice, c.out.len);
        }
        const uint32_t number = make(&c, 0, c.out.slice);
        const uint32_t other = make(&c, 1, expected);
        const char *why = fault(&c, number, before);
        if (!why && (number != other || (c.out.len > 0 && memcmp(expected, c.out.slice, c.out.len) != 0))) {
            why = "not what the baseline gives";
        }
        seen[CONGRUENCE_REASON(number) % 16]++;
        if (!why) {
            passed++;
        } else if (failed++ < 3) {
            print_call(&c, why, number, other, before, expected);
        }
    }
    printf("answers by reason:");
    for (unsigned reason = 0; reason <= 11; reason++) {
        printf(" %u: %lu", reason, seen[reason]);
        if (seen[reason] == 0 && calls >= 10000) {
            printf(" (no case)");
            failed++;
        }
    }
    printf("\n%lu passed, %lu failed\n", passed, failed);
    return failed != 0 || passed == 0;
}
