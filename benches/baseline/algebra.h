/* Algebras and maps: what all parts of the baseline use. A map has 64 bytes
 * inside; those past n name themselves, so that loops over a map run over a
 * constant 64. A name is the first member of its block. */
#ifndef BASELINE_ALGEBRA_H
#define BASELINE_ALGEBRA_H

#include <string.h>

#include "../baseline.h"

enum { SIZE = 64, MAX_ARITY = 3, MAX_CELLS = 32768 };

#define INLINE static inline __attribute__((always_inline))

/* 64 bytes at a time, so that no step waits for the one before it. */
static uint8_t greatest(const uint8_t *bytes, size_t count)
{
    uint8_t top = 0;
    if (count >= SIZE) {
        uint8_t tops[SIZE] = {0};
        for (; count >= SIZE; count -= SIZE, bytes += SIZE) {
            for (unsigned k = 0; k < SIZE; k++) {
                tops[k] = bytes[k] > tops[k] ? bytes[k] : tops[k];
            }
        }
        for (unsigned k = 0; k < SIZE; k++) {
            top = tops[k] > top ? tops[k] : top;
        }
    }
    for (size_t i = 0; i < count; i++) {
        top = bytes[i] > top ? bytes[i] : top;
    }
    return top;
}

static int is_map(const uint8_t *map, size_t n)
{
    for (size_t x = 0; x < n; x++) {
        if (map[x] > x || map[map[x]] != map[x]) {
            return 0;
        }
    }
    return 1;
}

static void identity(uint8_t *map)
{
    for (unsigned x = 0; x < SIZE; x++) {
        map[x] = (uint8_t)x;
    }
}

static int is_identity(const uint8_t *map, unsigned n)
{
    unsigned differ = 0;
    for (unsigned x = 0; x < n; x++) {
        differ |= map[x] ^ x;
    }
    return differ == 0;
}

static unsigned block_count(const uint8_t *map, unsigned n)
{
    uint8_t count = 0;
    for (uint8_t x = 0; x < n; x++) {
        count = (uint8_t)(count + (map[x] == x));
    }
    return count;
}

/* Lists the names, rising, and counts them. The list has a byte to spare. */
static unsigned list_names(const uint8_t *map, unsigned n, uint8_t *list)
{
    unsigned count = 0;
    for (unsigned x = 0; x < n; x++) {
        list[count] = (uint8_t)x;
        count += map[x] == x;
    }
    return count;
}

#endif
