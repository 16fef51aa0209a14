/* The optimized writer and reader of algebra texts (see text_baseline.h).
 *
 * The writer makes one pass over the cells for reason 6 and the text's length,
 * and one that writes. The reader goes through the text once and keeps the cells
 * in an array of its own until the whole text is accepted. Rows are read by the
 * quickest way that fits them, and by the plain way where none does: it alone
 * says what is faulty. */
#include "text_baseline.h"

#include <string.h>

enum { MAX_SIZE = 64, MAX_OPERATIONS = 16, MAX_ARITY = 3, MAX_CELLS = 32768, HEAD = 2 + MAX_OPERATIONS, NO_HEAD = 255 };

#define INLINE static inline __attribute__((always_inline))

/* ---- the writer --------------------------------------------------------- */

/* Each number below 64 with the space behind it, and how many bytes these are. */
#define ONE(d) {'0' + d, ' ', 0, 2}
#define TWO(t, d) {'0' + t, '0' + d, ' ', 3}
#define FIVE(t, d) TWO(t, d), TWO(t, d + 1), TWO(t, d + 2), TWO(t, d + 3), TWO(t, d + 4)
#define TEN(t) FIVE(t, 0), FIVE(t, 5)
static const uint8_t item[MAX_SIZE + 6][4] = {
    ONE(0), ONE(1), ONE(2), ONE(3), ONE(4), ONE(5), ONE(6), ONE(7), ONE(8), ONE(9),
    TEN(1), TEN(2), TEN(3), TEN(4), TEN(5), TEN(6),
};

static uint8_t *put(uint8_t *p, const char *bytes, size_t count)
{
    memcpy(p, bytes, count);
    return p + count;
}

static uint8_t *put_number(uint8_t *p, size_t value)
{
    if (value >= 10) {
        *p++ = (uint8_t)('0' + value / 10);
    }
    *p++ = (uint8_t)('0' + value % 10);
    return p;
}

/* Four bytes are stored for each item, of which the next one overwrites what it
 * does not need. Behind the last there still are a bracket and "]\n". */
static uint8_t *put_row(uint8_t *p, const uint8_t *cells, size_t n)
{
    *p++ = '[';
    for (size_t i = 0; i < n; i++) {
        const uint8_t *next = item[cells[i]];
        memcpy(p, next, 4);
        p += next[3];
    }
    p[-1] = ']';
    return p;
}

/* All cells below 10. */
static uint8_t *put_short_row(uint8_t *restrict p, const uint8_t *restrict cells, size_t n)
{
    *p++ = '[';
    for (size_t i = 0; i < n; i++) {
        p[2 * i] = (uint8_t)('0' + cells[i]);
        p[2 * i + 1] = ' ';
    }
    p += 2 * n;
    p[-1] = ']';
    return p;
}

/* A table of arity 1 or more. `step` is the number of cells of the tables in it. */
static uint8_t *put_table(uint8_t *p, const uint8_t *cells, size_t n, unsigned arity, size_t step, int is_short)
{
    if (arity == 1) {
        return is_short ? put_short_row(p, cells, n) : put_row(p, cells, n);
    }
    *p++ = '[';
    for (size_t i = 0; i < n; i++) {
        p = put_table(p, cells + i * step, n, arity - 1, step / n, is_short);
        *p++ = ' ';
    }
    p[-1] = ']';
    return p;
}

uint64_t text_baseline_write(size_t n, const uint8_t *arities, size_t arities_len,
                             const uint8_t *cells, size_t cells_len,
                             uint8_t *out, size_t out_len)
{
    if (n == 0 || n > MAX_SIZE) {
        return 1;
    }
    if (arities_len > MAX_OPERATIONS) {
        return 2;
    }
    const size_t power[] = {1, n, n * n, n * n * n};
    /* Brackets and spaces of a table. */
    const size_t around[] = {0, n + 1, (n + 1) * (n + 1), (n + 1) * (n * n + n + 1)};
    size_t sum = 0, length = 8 + (n < 10 ? 1 : 2);
    for (size_t i = 0; i < arities_len; i++) {
        if (arities[i] > MAX_ARITY) {
            return 3;
        }
        sum += power[arities[i]];
        length += 8 + around[arities[i]];
    }
    if (sum > MAX_CELLS) {
        return 4;
    }
    if (cells_len != sum) {
        return 5;
    }
    uint8_t top = 0;
    uint16_t wide = 0; /* at most 32,768 */
    for (size_t i = 0; i < sum; i++) {
        top = cells[i] > top ? cells[i] : top;
        wide = (uint16_t)(wide + (cells[i] >= 10));
    }
    if (sum > 0 && top >= n) {
        return 6;
    }
    length += sum + wide;
    if (out_len < length) {
        return 9;
    }
    uint8_t *p = put(out, "[size ", 6);
    p = put_number(p, n);
    p = put(p, "]\n", 2);
    for (size_t i = 0; i < arities_len; i++) {
        p = put(p, "[op ", 4);
        *p++ = (uint8_t)('0' + arities[i]);
        *p++ = ' ';
        if (arities[i] == 0) {
            p = put_number(p, *cells);
        } else {
            p = put_table(p, cells, n, arities[i], power[arities[i] - 1], wide == 0);
        }
        p = put(p, "]\n", 2);
        cells += power[arities[i]];
    }
    return (uint64_t)length << 8;
}

/* ---- the reader --------------------------------------------------------- */

struct reading {
    const uint8_t *at, *end;
    uint8_t *cell; /* where the next one goes */
    size_t n;
};

static int take(struct reading *r, const char *bytes, size_t count)
{
    if ((size_t)(r->end - r->at) < count || memcmp(r->at, bytes, count) != 0) {
        return 0;
    }
    r->at += count;
    return 1;
}

static int take_byte(struct reading *r, uint8_t byte)
{
    if (r->at == r->end || *r->at != byte) {
        return 0;
    }
    r->at++;
    return 1;
}

/* A number, or 256 where there is none. */
static unsigned take_number(struct reading *r)
{
    const uint8_t *p = r->at;
    unsigned value = 0;
    while (p < r->end && *p >= '0' && *p <= '9' && p - r->at < 3) {
        value = 10 * value + *p++ - '0';
    }
    if (p == r->at || (*r->at == '0' && p - r->at > 1) || value > 255) {
        return 256;
    }
    r->at = p;
    return value;
}

static int take_plain_row(struct reading *r)
{
    if (!take_byte(r, '[')) {
        return 0;
    }
    for (size_t i = 0; i < r->n; i++) {
        const unsigned value = take_number(r);
        if (value > 255 || !take_byte(r, i + 1 < r->n ? ' ' : ']')) {
            return 0;
        }
        *r->cell++ = (uint8_t)value;
    }
    return 1;
}

/* A row of numbers below 10 is 2n + 1 bytes long; only the last ends it. */
static int take_short_row(struct reading *r)
{
    const uint8_t *restrict p = r->at + 1;
    uint8_t *restrict cell = r->cell;
    const size_t n = r->n;
    uint8_t bad = 0;
    for (size_t i = 0; i + 1 < n; i++) {
        const uint8_t d = (uint8_t)(p[2 * i] - '0');
        cell[i] = d;
        bad |= (uint8_t)((d > 9) | (p[2 * i + 1] ^ ' '));
    }
    const uint8_t d = (uint8_t)(p[2 * n - 2] - '0');
    cell[n - 1] = d;
    if (bad | (d > 9)) {
        return 0;
    }
    r->at += 2 * n + 1;
    r->cell += n;
    return 1;
}

/* Eight bytes, the first one lowest. */
INLINE uint64_t eight_bytes(const uint8_t *p)
{
    uint64_t w;
    memcpy(&w, p, 8);
#if defined(__BYTE_ORDER__) && __BYTE_ORDER__ == __ORDER_BIG_ENDIAN__
    w = __builtin_bswap64(w);
#endif
    return w;
}

/* A row of numbers from 10 to 99 is 3n + 1 bytes long. Two numbers, each with a
 * space behind it, are taken at a time: ten times a digit goes to the next byte.
 * The text has 3n + 8 bytes more at least. */
static int take_long_row(struct reading *r)
{
    const uint8_t *p = r->at + 1;
    uint8_t *cell = r->cell, *const last = cell + r->n - 1;
    uint64_t bad = 0;
    for (; cell < last; cell += 2, p += 6) {
        const uint64_t w = eight_bytes(p), d = w & 0x0F0F000F0Fu, v = d * (1 + (10 << 8));
        cell[0] = (uint8_t)(v >> 8);
        cell[1] = (uint8_t)(v >> 32);
        /* A last pair has a bracket behind it: which was seen before. */
        const uint64_t form = cell + 1 < last ? 0xFFF0F0FFF0F0u : 0x00F0F0FFF0F0u;
        bad |= (w ^ 0x203030203030u) & form;
        bad |= (d + 0x0606000606u) & 0x1010001010u;
        bad |= ~(d + 0x0F00000Fu) & 0x10000010u;
    }
    if (cell == last) {
        const unsigned t = p[0] - (unsigned)'1', one = p[1] - (unsigned)'0';
        *cell = (uint8_t)(10 * t + 10 + one);
        bad |= (t > 8) | (one > 9);
    }
    if (bad) {
        return 0;
    }
    r->at += 3 * r->n + 1;
    r->cell += r->n;
    return 1;
}

/* What a byte is worth as the last digit of a number, and as the one before;
 * where that is a space, there is none before. NO for every other byte. */
enum { NO = 128 };
#define NO8 NO, NO, NO, NO, NO, NO, NO, NO
#define NO32 NO8, NO8, NO8, NO8
#define NO48 NO32, NO8, NO8
static const uint8_t ones[256] = {
    NO48, 0, 1, 2, 3, 4, 5, 6, 7, 8, 9, NO, NO, NO, NO, NO, NO, NO32, NO32, NO32, NO32, NO32, NO32,
};
static const uint8_t tens[256] = {
    NO32, 0, NO, NO, NO, NO, NO, NO, NO, NO8,
    NO, 10, 20, 30, 40, 50, 60, 70, 80, 90, NO, NO, NO, NO, NO, NO,
    NO32, NO32, NO32, NO32, NO32, NO32,
};

/* Bit i tells whether byte i is a space, of eight. */
INLINE uint64_t spaces_of_eight(const uint8_t *p)
{
    const uint64_t seven = 0x7F7F7F7F7F7F7F7Fu;
    uint64_t w = eight_bytes(p) ^ 0x2020202020202020u;
    w = ~(((w & seven) + seven) | w | seven);
    return (w >> 7) * 0x0102040810204080u >> 56;
}

INLINE uint64_t spaces_of_64(const uint8_t *p)
{
    uint64_t mask = 0;
    for (unsigned i = 0; i < 8; i++) {
        mask |= spaces_of_eight(p + 8 * i) << (8 * i);
    }
    return mask;
}

/* Numbers on their way: what was seen of their bytes, and what of their lengths. */
struct numbers {
    unsigned seen;
    size_t far;
};

/* The number between a byte and the next one or two bytes on, which is `end`;
 * without a branch, since either length may come. Gives where it ends. */
INLINE const uint8_t *take_edge(struct numbers *s, const uint8_t *before, uint8_t end, uint8_t *cell)
{
    const size_t two = before[2] != end;
    const unsigned one = ones[before[1 + two]], ten = tens[two ? before[1] : ' '];
    *cell = (uint8_t)(one + ten);
    s->seen |= one | ten | ones[before[1]];
    s->far |= before[2 + two] ^ end;
    return before + 2 + two;
}

/* A row of two or more numbers below 100: where the spaces are is found for 64
 * bytes at a time, so that no number waits for the one before it. The text has
 * 3n + 128 bytes more at least. */
static int take_mixed_row(struct reading *r)
{
    struct numbers s = {0, 0};
    uint8_t *cell = r->cell, *const last = cell + r->n - 1;
    const uint8_t *before = take_edge(&s, r->at, ' ', cell++), *block = before + 1;
    while (cell < last && (size_t)(block - r->at) <= 3 * r->n) {
        for (uint64_t mask = spaces_of_64(block); mask != 0 && cell < last; mask &= mask - 1) {
            const uint8_t *space = block + __builtin_ctzll(mask);
            const unsigned one = ones[space[-1]], ten = tens[space[-2]];
            *cell++ = (uint8_t)(one + ten);
            s.seen |= one | ten;
            s.far |= (size_t)(space - before - 2) >> 1; /* 0 for one digit or two */
            before = space;
        }
        block += 64;
    }
    if (cell < last) {
        return 0;
    }
    before = take_edge(&s, before, ']', cell);
    if (s.far || (s.seen & NO)) {
        return 0;
    }
    r->cell = cell + 1;
    r->at = before + 1;
    return 1;
}

/* The bracket at its end tells how long a row is, and so which way fits it. */
static int take_row(struct reading *r)
{
    const size_t n = r->n, left = (size_t)(r->end - r->at);
    if (left > 3 * n && r->at[0] == '[') {
        if (r->at[2 * n] == ']' && take_short_row(r)) {
            return 1;
        }
        if (left >= 3 * n + 8 && r->at[3 * n] == ']' && take_long_row(r)) {
            return 1;
        }
        if (n > 1 && left > 3 * n + 128 && take_mixed_row(r)) {
            return 1;
        }
    }
    return take_plain_row(r);
}

static int take_table(struct reading *r, unsigned arity)
{
    if (arity == 1) {
        return take_row(r);
    }
    if (!take_byte(r, '[')) {
        return 0;
    }
    for (size_t i = 0; i < r->n; i++) {
        if (!take_table(r, arity - 1) || !take_byte(r, i + 1 < r->n ? ' ' : ']')) {
            return 0;
        }
    }
    return 1;
}

static int take_constant(struct reading *r)
{
    const unsigned value = take_number(r);
    *r->cell++ = (uint8_t)value;
    return value < 256;
}

static uint8_t greatest(const uint8_t *bytes, size_t count)
{
    uint8_t top = 0;
    for (size_t i = 0; i < count; i++) {
        top = bytes[i] > top ? bytes[i] : top;
    }
    return top;
}

/* One operation line: its reason, or 0. */
static uint64_t take_operation(struct reading *r, uint8_t *own, uint8_t *head)
{
    const size_t power[] = {1, r->n, r->n * r->n, r->n * r->n * r->n};
    unsigned arity;
    if (!take(r, "[op ", 4) || (arity = take_number(r)) > 255 || !take_byte(r, ' ')) {
        return 14;
    }
    if (head[1] == MAX_OPERATIONS) {
        return 2;
    }
    if (arity > MAX_ARITY) {
        return 3;
    }
    if ((size_t)(r->cell - own) + power[arity] > MAX_CELLS) {
        return 4;
    }
    const uint8_t *table = r->cell;
    if (!(arity == 0 ? take_constant(r) : take_table(r, arity)) || !take(r, "]\n", 2)) {
        return 14;
    }
    if (greatest(table, power[arity]) >= r->n) {
        return 6;
    }
    head[2 + head[1]++] = (uint8_t)arity;
    return 0;
}

static uint64_t take_algebra(struct reading *r, uint8_t *own, uint8_t *head)
{
    unsigned n;
    if (!take(r, "[size ", 6) || (n = take_number(r)) > 255 || !take(r, "]\n", 2)) {
        return 14;
    }
    if (n == 0 || n > MAX_SIZE) {
        return 1;
    }
    r->n = n;
    head[0] = (uint8_t)n;
    while (r->at < r->end) {
        const uint64_t reason = take_operation(r, own, head);
        if (reason) {
            return reason;
        }
    }
    return 0;
}

uint64_t text_baseline_read(const uint8_t *text, size_t text_len,
                            uint8_t *cells, size_t cells_len,
                            uint8_t *head, size_t head_len)
{
    uint8_t own[MAX_CELLS], found[HEAD] = {0};
    if (head_len != HEAD) {
        return NO_HEAD;
    }
    memset(head, 0, HEAD);
    if (cells_len < MAX_CELLS) {
        return 9;
    }
    struct reading r = {text, text + text_len, own, 0};
    const uint64_t reason = take_algebra(&r, own, found);
    if (reason) {
        return reason;
    }
    const size_t count = (size_t)(r.cell - own);
    memcpy(cells, own, count);
    memcpy(head, found, HEAD);
    return (uint64_t)count << 8;
}
