/* Quotients, and what they tell: a congruence is maximal for some pair if, and
 * only if, its quotient is irreducible. */
#ifndef BASELINE_QUOTIENT_H
#define BASELINE_QUOTIENT_H

#include "gather.h"

/* The blocks of a map in order: their names, and the number of each element's. */
struct blocks {
    uint8_t name[SIZE + 1];
    uint8_t number[SIZE];
    unsigned count;
};

static void number_blocks(struct blocks *b, const uint8_t *map, unsigned n)
{
    b->count = list_names(map, n, b->name);
    for (unsigned i = 0; i < b->count; i++) {
        b->number[b->name[i]] = (uint8_t)i;
    }
    for (unsigned x = 0; x < n; x++) {
        b->number[x] = b->number[map[x]];
    }
}

/* What a test of a map goes by: its names, the elements that are no names, and
 * whether an element is in a block with others. */
struct members {
    const uint8_t *map;
    uint8_t names[SIZE + 1];
    uint8_t others[SIZE];
    uint8_t shared[SIZE];
    unsigned names_count, count;
};

static void list_members(struct members *m, const uint8_t *map, unsigned n)
{
    m->map = map;
    m->names_count = list_names(map, n, m->names);
    m->count = 0;
    memset(m->shared, 0, SIZE);
    for (unsigned x = 0; x < n; x++) {
        if (map[x] != x) {
            m->others[m->count++] = (uint8_t)x;
            m->shared[x] = m->shared[map[x]] = 1;
        }
    }
}

/* Eight cells at a time: their names are written, or compared with what is. */
INLINE void write_names(const uint8_t *map, const uint8_t *t, size_t count, uint8_t *restrict named)
{
    size_t i = 0;
    for (; i + 8 <= count; i += 8) {
        for (unsigned k = 0; k < 8; k++) {
            named[i + k] = map[t[i + k]];
        }
    }
    for (; i < count; i++) {
        named[i] = map[t[i]];
    }
}

INLINE unsigned differ_from(const uint8_t *map, const uint8_t *t, size_t count, const uint8_t *named)
{
    unsigned differ = 0;
    size_t i = 0;
    for (; i + 8 <= count; i += 8) {
        for (unsigned k = 0; k < 8; k++) {
            differ |= map[t[i + k]] ^ named[i + k];
        }
    }
    for (; i < count; i++) {
        differ |= map[t[i]] ^ named[i];
    }
    return differ;
}

/* The first argument, with all others behind it: for each element in a block with
 * others, its part of the table beside that of its name. There is room for the
 * table. */
static int respects_first(const struct members *m, const uint8_t *t, unsigned n, size_t part, uint8_t *named)
{
    for (unsigned x = 0; x < n; x++) {
        const unsigned name = m->map[x];
        if (!m->shared[x]) {
            continue;
        }
        if (name == x) {
            write_names(m->map, t + x * part, part, named + x * part);
        } else if (differ_from(m->map, t + x * part, part, named + name * part)) {
            return 0;
        }
    }
    return 1;
}

static int respects_unary(const struct members *m, const uint8_t *t)
{
    const uint8_t *map = m->map;
    unsigned differ = 0;
    for (unsigned i = 0; i < m->count; i++) {
        const unsigned x = m->others[i];
        differ |= map[t[x]] ^ map[t[map[x]]];
    }
    return !differ;
}

/* Arguments before the varied one are names: they were varied first. */
static int respects_binary(const struct members *m, const uint8_t *t, size_t n)
{
    uint8_t named[SIZE * SIZE];
    int good = respects_first(m, t, (unsigned)n, n, named);
    for (unsigned k = 0; k < m->names_count && good; k++) {
        good = respects_unary(m, t + m->names[k] * n);
    }
    return good;
}

static int respects_ternary(const struct members *m, const uint8_t *t, size_t n)
{
    uint8_t named[MAX_CELLS];
    int good = respects_first(m, t, (unsigned)n, n * n, named);
    for (unsigned k = 0; k < m->names_count && good; k++) {
        good = respects_binary(m, t + m->names[k] * n * n, n);
    }
    return good;
}

/* The identity and one block always are. */
static int is_congruence(const struct algebra *al, const uint8_t *map)
{
    struct members m;
    int good = 1;
    if (al->count == 0) {
        return 1;
    }
    list_members(&m, map, al->n);
    if (m.count == 0 || m.names_count == 1) {
        return 1;
    }
    for (unsigned i = 0; i < al->count && good; i++) {
        const uint8_t *t = al->operation[i].table;
        switch (al->operation[i].arity) {
        case 1:
            good = respects_unary(&m, t);
            break;
        case 2:
            good = respects_binary(&m, t, al->n);
            break;
        default:
            good = respects_ternary(&m, t, al->n);
        }
    }
    return good;
}

/* One line of a quotient's table, at the names. */
INLINE uint8_t *divide_line(uint8_t *out, const uint8_t *t, const struct blocks *b)
{
    for (unsigned z = 0; z < b->count; z++) {
        *out++ = b->number[t[b->name[z]]];
    }
    return out;
}

/* The table of the quotient, by the identity the table itself. Where it ends. */
static uint8_t *divide(uint8_t *out, const uint8_t *t, unsigned arity, size_t n, const struct blocks *b)
{
    if (b->count == n) {
        const size_t power[] = {1, n, n * n, n * n * n};
        memcpy(out, t, power[arity]);
        return out + power[arity];
    }
    switch (arity) {
    case 0:
        *out++ = b->number[*t];
        break;
    case 1:
        out = divide_line(out, t, b);
        break;
    case 2:
        for (unsigned x = 0; x < b->count; x++) {
            out = divide_line(out, t + b->name[x] * n, b);
        }
        break;
    default:
        for (unsigned x = 0; x < b->count; x++) {
            for (unsigned y = 0; y < b->count; y++) {
                out = divide_line(out, t + (b->name[x] * n + b->name[y]) * n, b);
            }
        }
    }
    return out;
}

/* Whether the congruence is maximal for some pair. Of two blocks the quotient is
 * irreducible, of one it is not. */
static int is_maximal(const struct algebra *al, const uint8_t *map)
{
    const unsigned count = block_count(map, al->n);
    uint8_t cells[MAX_CELLS], *end = cells;
    struct blocks b;
    struct gathering g;
    struct algebra quotient;
    if (count <= 2) {
        return count == 2;
    }
    number_blocks(&b, map, al->n);
    quotient.n = b.count;
    quotient.count = al->count;
    for (unsigned i = 0; i < al->count; i++) {
        quotient.operation[i].table = end;
        quotient.operation[i].arity = al->operation[i].arity;
        end = divide(end, al->operation[i].table, al->operation[i].arity, al->n, &b);
    }
    return !gather(&g, &quotient);
}

#endif
