/* The optimized bench that the proved one is compared with: the calls of
 * crates/bench on a bench in place. Each makes the same tests in the same order,
 * gives the number of the reason, or 0, and where it gives a reason it leaves the
 * bench as it was; but a Start that is refused leaves a bench of zeros. */
#ifndef CLASSWORK_BASELINE_H
#define CLASSWORK_BASELINE_H

#include <stddef.h>
#include <stdint.h>

enum { SHEETS = 8, PLACES = 8, SHEET_BYTES = 64 };

/* A name is eight bytes; as a word they are compared at once. */
struct point {
    uint64_t name;
    uint8_t map[SHEET_BYTES];
};

/* The tally counts the blocks that this sheet lost. The first `count` places hold
 * the points. */
struct sheet {
    uint8_t map[SHEET_BYTES];
    uint64_t tally;
    size_t count;
    struct point points[PLACES];
};

/* `earlier` is the total of an older bench that this one was converted from: no call
 * but Start alters it. */
struct bench {
    size_t n;
    uint64_t earlier;
    struct sheet sheets[SHEETS];
};

uint32_t classwork_start(struct bench *b, size_t n);

uint32_t classwork_add(struct bench *b, size_t n, const uint8_t *arities, size_t arities_len,
                       const uint8_t *cells, size_t cells_len, size_t sheet, size_t x, size_t y);

uint32_t classwork_clear(struct bench *b, size_t sheet);

uint32_t classwork_set(struct bench *b, size_t sheet, uint64_t name);

uint32_t classwork_return(struct bench *b, size_t sheet, uint64_t name);

uint32_t classwork_forget(struct bench *b, size_t sheet, uint64_t name);

#endif
