/* The optimized bench (see classwork_baseline.h).
 *
 * Every call tests up to 72 maps, which takes most of its time. */
#include "classwork_baseline.h"

#include <string.h>

#include "baseline.h"

enum { MAX_SIZE = 64 };

#define INLINE static inline __attribute__((always_inline))

#define EIGHT(of, x) of(x), of(x + 1), of(x + 2), of(x + 3), of(x + 4), of(x + 5), of(x + 6), of(x + 7)
#define ALL(of)                                                                                             \
    {                                                                                                       \
        EIGHT(of, 0), EIGHT(of, 8), EIGHT(of, 16), EIGHT(of, 24), EIGHT(of, 32), EIGHT(of, 40),             \
            EIGHT(of, 48), EIGHT(of, 56)                                                                    \
    }
#define ITSELF(x) (x)
#define BIT(x) ((uint64_t)1 << (x))

static const uint8_t identity[MAX_SIZE] = ALL(ITSELF);
static const uint64_t bit[MAX_SIZE] = ALL(BIT);

/* ---- tests ------------------------------------------------------------------ */

static int is_size(size_t n)
{
    return n != 0 && n <= MAX_SIZE;
}

/* The elements that name themselves are among those that are named, so the two
 * sets are one if there are as many of each. That spares looking up the name of
 * each name. The comparisons take many bytes at once. */
INLINE int is_map(const uint8_t *map, size_t n)
{
    uint8_t above = 0, selves = 0;
    uint64_t named[4] = {0, 0, 0, 0};
    for (size_t x = 0; x < n; x++) {
        above |= map[x] > identity[x];
        selves = (uint8_t)(selves + (map[x] == identity[x]));
    }
    if (above) {
        return 0;
    }
    size_t x = 0;
    for (; x + 4 <= n; x += 4) {
        named[0] |= bit[map[x]];
        named[1] |= bit[map[x + 1]];
        named[2] |= bit[map[x + 2]];
        named[3] |= bit[map[x + 3]];
    }
    for (; x < n; x++) {
        named[0] |= bit[map[x]];
    }
    return __builtin_popcountll(named[0] | named[1] | named[2] | named[3]) == selves;
}

static int names_differ(const struct sheet *s)
{
    for (size_t i = 1; i < s->count; i++) {
        for (size_t j = 0; j < i; j++) {
            if (s->points[i].name == s->points[j].name) {
                return 0;
            }
        }
    }
    return 1;
}

INLINE int is_faultless_sheet(const struct sheet *s, size_t n)
{
    if (s->count > PLACES || !is_map(s->map, n)) {
        return 0;
    }
    for (size_t i = 0; i < s->count; i++) {
        if (!is_map(s->points[i].map, n)) {
            return 0;
        }
    }
    return names_differ(s);
}

INLINE int are_faultless(const struct sheet *sheets, size_t n)
{
    for (size_t k = 0; k < SHEETS; k++) {
        if (!is_faultless_sheet(&sheets[k], n)) {
            return 0;
        }
    }
    return 1;
}

/* Reason 8 denied, whichever sheet the call names. Of 64 elements the compiler
 * makes code of its own. */
static int is_faultless(const struct bench *b, size_t n)
{
    return b->n == n && (n == MAX_SIZE ? are_faultless(b->sheets, MAX_SIZE) : are_faultless(b->sheets, n));
}

/* Reasons 1, 7 and 8, which Clear and the calls of points have in common. */
static uint32_t test(const struct bench *b, size_t sheet)
{
    if (!is_size(b->n)) {
        return 1;
    }
    if (sheet >= SHEETS) {
        return 7;
    }
    return is_faultless(b, b->n) ? 0 : 8;
}

/* ---- calls ------------------------------------------------------------------ */

uint32_t classwork_start(struct bench *b, size_t n)
{
    memset(b, 0, sizeof *b);
    if (!is_size(n)) {
        return 1;
    }
    b->n = n;
    for (size_t k = 0; k < SHEETS; k++) {
        memcpy(b->sheets[k].map, identity, n);
    }
    return 0;
}

uint32_t classwork_add(struct bench *b, size_t n, const uint8_t *arities, size_t arities_len,
                       const uint8_t *cells, size_t cells_len, size_t sheet, size_t x, size_t y)
{
    struct algebra al;
    uint8_t map[SHEET_BYTES];
    const uint32_t reason = baseline_accept(&al, n, arities, arities_len, cells, cells_len);
    if (reason) {
        return reason;
    }
    if (sheet >= SHEETS || x >= n || y >= n) {
        return 7;
    }
    if (!is_faultless(b, n)) {
        return 8;
    }
    struct sheet *s = &b->sheets[sheet];
    memcpy(map, s->map, SHEET_BYTES);
    const unsigned lost = baseline_extend(&al, map, (unsigned)x, (unsigned)y);
    if (lost > UINT64_MAX - s->tally) {
        return 13;
    }
    s->tally += lost;
    memcpy(s->map, map, SHEET_BYTES);
    return 0;
}

uint32_t classwork_clear(struct bench *b, size_t sheet)
{
    const uint32_t reason = test(b, sheet);
    if (reason) {
        return reason;
    }
    memcpy(b->sheets[sheet].map, identity, b->n);
    return 0;
}

/* The place that holds the name, or `count`. */
static size_t place_of(const struct sheet *s, uint64_t name)
{
    size_t place = 0;
    while (place < s->count && s->points[place].name != name) {
        place++;
    }
    return place;
}

uint32_t classwork_set(struct bench *b, size_t sheet, uint64_t name)
{
    const uint32_t reason = test(b, sheet);
    if (reason) {
        return reason;
    }
    struct sheet *s = &b->sheets[sheet];
    const size_t place = place_of(s, name);
    if (place == PLACES) {
        return 16;
    }
    s->points[place].name = name;
    memcpy(s->points[place].map, s->map, SHEET_BYTES);
    s->count += place == s->count;
    return 0;
}

uint32_t classwork_return(struct bench *b, size_t sheet, uint64_t name)
{
    const uint32_t reason = test(b, sheet);
    if (reason) {
        return reason;
    }
    struct sheet *s = &b->sheets[sheet];
    const size_t place = place_of(s, name);
    if (place == s->count) {
        return 15;
    }
    memcpy(s->map, s->points[place].map, b->n);
    return 0;
}

uint32_t classwork_forget(struct bench *b, size_t sheet, uint64_t name)
{
    const uint32_t reason = test(b, sheet);
    if (reason) {
        return reason;
    }
    struct sheet *s = &b->sheets[sheet];
    const size_t place = place_of(s, name);
    if (place == s->count) {
        return 15;
    }
    s->count--;
    if (place != s->count) {
        s->points[place] = s->points[s->count];
    }
    return 0;
}
