/* The optimized implementation that the writer and the reader of algebra texts
 * are compared with: probe_write and probe_read of tests/PROBE.md, parameter for
 * parameter, under names of its own so that both can be linked into one program. */
#ifndef TEXT_BASELINE_H
#define TEXT_BASELINE_H

#include <stddef.h>
#include <stdint.h>

uint64_t text_baseline_write(size_t n, const uint8_t *arities, size_t arities_len,
                             const uint8_t *cells, size_t cells_len,
                             uint8_t *out, size_t out_len);

uint64_t text_baseline_read(const uint8_t *text, size_t text_len,
                            uint8_t *cells, size_t cells_len,
                            uint8_t *head, size_t head_len);

#endif
