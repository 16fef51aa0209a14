/* The optimized implementation that the proved library is compared with: the
 * same four services as include/congruence.h, and the two of tests/PROBE.md that
 * have no function there, parameter for parameter, under names of its own so
 * that both can be linked into one program. */
#ifndef BASELINE_H
#define BASELINE_H

#include <stddef.h>
#include <stdint.h>

uint32_t baseline_generate(size_t n, const uint8_t *arities, size_t arities_len,
                           const uint8_t *cells, size_t cells_len,
                           const uint8_t *pairs, size_t pairs_len,
                           uint8_t *out, size_t out_len);

uint32_t baseline_contained(size_t n, const uint8_t *arities, size_t arities_len,
                            const uint8_t *cells, size_t cells_len,
                            const uint8_t *map, size_t map_len,
                            uint8_t *out, size_t out_len);

uint32_t baseline_separate(size_t n, const uint8_t *arities, size_t arities_len,
                           const uint8_t *cells, size_t cells_len,
                           size_t v, size_t w,
                           uint8_t *out, size_t out_len);

uint32_t baseline_decompose(size_t n, const uint8_t *arities, size_t arities_len,
                            const uint8_t *cells, size_t cells_len,
                            uint8_t *out, size_t out_len);

/* The tables of the quotient by a congruence: R + 256 blocks. */
uint32_t baseline_quotient(size_t n, const uint8_t *arities, size_t arities_len,
                           const uint8_t *cells, size_t cells_len,
                           const uint8_t *map, size_t map_len,
                           uint8_t *out, size_t out_len);

/* Whether the maps are an irredundant list of factors: 256 for yes, 0 for no,
 * else R. */
uint32_t baseline_certify(size_t n, const uint8_t *arities, size_t arities_len,
                          const uint8_t *cells, size_t cells_len,
                          const uint8_t *maps, size_t maps_len);

/* What a bench needs of them (see classwork_baseline.h). */

enum { MAX_OPERATIONS = 16 };

/* The operations of arity 1 to 3; nullary ones impose nothing. */
struct algebra {
    unsigned n;
    unsigned count;
    struct {
        const uint8_t *table;
        unsigned arity;
    } operation[MAX_OPERATIONS];
};

/* Reasons 1 to 6, or 0 and the algebra. */
uint32_t baseline_accept(struct algebra *a, size_t n, const uint8_t *arities, size_t arities_len,
                         const uint8_t *cells, size_t cells_len);

/* The map becomes the least congruence that holds what it held, and x and y. How
 * many blocks that cost. */
unsigned baseline_extend(const struct algebra *al, uint8_t *map, unsigned x, unsigned y);

#endif
