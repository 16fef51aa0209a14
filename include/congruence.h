/* Congruences and subdirect factors of a finite algebra.
 *
 * Link with libworksheet.a. The functions allocate nothing, keep no state
 * between calls and may be called from several threads at once. None takes
 * more than 256 KiB of stack.
 *
 * The algebra. Every function first takes an algebra with the elements
 * 0 .. n - 1, where n is 1 to 64:
 *
 *   arities, arities_len   one byte per operation, each 0 to 3; at most 16
 *   cells, cells_len       the operations' tables, one after the other, one
 *                          byte below n per cell. An operation of arity s has
 *                          n^s cells; its value at (a1, .., as) is at place
 *                          a1 * n^(s-1) + .. + as of its table. Together at
 *                          most 32,768 cells
 *
 * Maps. An equivalence over n elements is written as n bytes: the byte of an
 * element is the smallest member of its block. 0 1 0 1 has the blocks {0, 2}
 * and {1, 3}. A congruence is an equivalence that the operations respect.
 *
 * Slices. Each slice is a pointer and a length in bytes. It is lent for the
 * time of the call only. The input slices are read and never written. Of `out`
 * just the bytes that a function says it writes are written, from the first
 * one on; every byte after them keeps its value, and on refusal all do. Slices
 * of one call must not overlap. The pointer of a slice of length 0 is not
 * looked at.
 *
 * The number that comes back packs four fields:
 *
 *   CONGRUENCE_REASON   0 if the call was answered, else why it was declined
 *   CONGRUENCE_COUNT    merges (generate) or factors (decompose), else 0
 *   CONGRUENCE_FIRST    } the pair that reason 11 carries, else 0
 *   CONGRUENCE_SECOND   }
 *
 * Every value of every number and of every byte may be passed. The lowest
 * reason that applies is given.
 */
#ifndef CONGRUENCE_H
#define CONGRUENCE_H

#include <stddef.h>
#include <stdint.h>

#ifdef __cplusplus
extern "C" {
#endif

/* The fields of a number that came back. */
#define CONGRUENCE_REASON(r) ((uint32_t)(r) & 255u)
#define CONGRUENCE_COUNT(r) (((uint32_t)(r) >> 8) & 255u)
#define CONGRUENCE_FIRST(r) (((uint32_t)(r) >> 16) & 255u)
#define CONGRUENCE_SECOND(r) (((uint32_t)(r) >> 24) & 255u)

/* The reasons that these four functions give. */
#define CONGRUENCE_OK 0u          /* answered */
#define CONGRUENCE_SIZE 1u        /* n is 0 or above 64 */
#define CONGRUENCE_OPERATIONS 2u  /* above 16 operations */
#define CONGRUENCE_ARITY 3u       /* an arity above 3 */
#define CONGRUENCE_CELLS 4u       /* the arities ask for above 32,768 cells */
#define CONGRUENCE_LENGTH 5u      /* cells_len is not what the arities ask for */
#define CONGRUENCE_CELL 6u        /* a cell is not below n */
#define CONGRUENCE_ELEMENT 7u     /* an element not below n, or an odd pair list */
#define CONGRUENCE_MAP 8u         /* not a map over n elements */
#define CONGRUENCE_SPACE 9u       /* out_len is too small */
#define CONGRUENCE_EQUAL 10u      /* separate with v = w */
#define CONGRUENCE_IRREDUCIBLE 11u /* decompose: nothing to split */

/* The least congruence that holds every pair of `pairs`, which lists the two
 * elements of each pair one after the other: pairs_len is twice the number of
 * pairs, 0 included. Pairs may be equal, repeated, and in either order.
 * Writes the map, n bytes; wants out_len >= n. The count is the number of
 * merges, n minus the number of blocks.
 * Reasons: 1 to 7, 9. */
uint32_t congruence_generate(size_t n,
                             const uint8_t *arities, size_t arities_len,
                             const uint8_t *cells, size_t cells_len,
                             const uint8_t *pairs, size_t pairs_len,
                             uint8_t *out, size_t out_len);

/* The greatest congruence inside the equivalence `map`, of map_len = n bytes.
 * Writes the map, n bytes; wants out_len >= n. The count is 0.
 * Reasons: 1 to 6, 8, 9. */
uint32_t congruence_contained(size_t n,
                              const uint8_t *arities, size_t arities_len,
                              const uint8_t *cells, size_t cells_len,
                              const uint8_t *map, size_t map_len,
                              uint8_t *out, size_t out_len);

/* The earliest congruence that holds v and w apart. Pairs (x, y) with x < y
 * are ordered by x, then y; of two congruences the earlier is the one that
 * holds the first pair that just one of them holds.
 * Writes the map, n bytes; wants out_len >= n. The count is 0.
 * Reasons: 1 to 7, 9, 10. */
uint32_t congruence_separate(size_t n,
                             const uint8_t *arities, size_t arities_len,
                             const uint8_t *cells, size_t cells_len,
                             size_t v, size_t w,
                             uint8_t *out, size_t out_len);

/* A subdirect decomposition: congruences that meet in the identity, none of
 * them superfluous, each with a subdirectly irreducible quotient.
 * Writes count * n bytes and wants out_len >= count * n: factor i is the map in
 * the n bytes from out + i * n. The count is not known before the call, and
 * reason 9 does not tell it; (n - 1) * n bytes are always enough.
 * A subdirectly irreducible algebra needs no space: it is reason 11 with the
 * first pair that all its congruences but the identity hold, or with 0 0 for
 * n = 1. So a call with out null and out_len 0 says whether there are factors:
 * 9 if there are, 11 if not.
 * Reasons: 1 to 6, 9, 11. */
uint32_t congruence_decompose(size_t n,
                              const uint8_t *arities, size_t arities_len,
                              const uint8_t *cells, size_t cells_len,
                              uint8_t *out, size_t out_len);

#ifdef __cplusplus
}
#endif

#endif
