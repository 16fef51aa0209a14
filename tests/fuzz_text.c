/* Calls the writer and the reader of algebra texts (PROBE.md) with random lengths
 * and contents, as fuzz.c does the services:
 *
 *   fuzz_text CALLS SEED
 *
 * Half of the calls write an algebra, the others read a text, mostly a damaged
 * one. Each slice lies against a page that cannot be touched. Of each answer it
 * is checked that a refusal writes nothing, that the writer's reason is the
 * lowest that applies, and that the optimized baseline gives the same. The last
 * line is `N passed, M failed`, counting calls. */
#define _DEFAULT_SOURCE
#include <string.h>

#include "../benches/text_baseline.h"
#include "rooms.h"

enum { ROOM = PAGES * 4096 /* no page is smaller */, WANTED = 32768, HEAD = 18, NO_HEAD = 255 };

uint64_t probe_write(size_t n, const uint8_t *arities, size_t arities_len, const uint8_t *cells, size_t cells_len,
                     uint8_t *out, size_t out_len);
uint64_t probe_read(const uint8_t *text, size_t text_len, uint8_t *cells, size_t cells_len, uint8_t *head,
                    size_t head_len);

struct call {
    size_t n;
    struct room arities, cells, text, lent, head;
};

/* ---- texts ------------------------------------------------------------------- */

static size_t digits(size_t value)
{
    return value < 10 ? 1 : 2;
}

/* The length of an accepted algebra's text: a bracket and the spaces in it take n + 1
 * bytes, and a table of arity s has n^0 + .. + n^(s-1) brackets. */
static size_t text_length(const struct call *c)
{
    size_t length = 8 + digits(c->n);
    for (size_t i = 0; i < c->arities.len; i++) {
        length += 8;
        for (unsigned s = 0; s < c->arities.slice[i]; s++) {
            length += (c->n + 1) * power(c->n, s);
        }
    }
    for (size_t i = 0; i < c->cells.len; i++) {
        length += digits(c->cells.slice[i]);
    }
    return length;
}

static uint8_t bytes[ROOM + 64]; /* the text before it is placed */
static size_t bytes_len;

/* Takes away, puts in or changes bytes. */
static void splice(size_t at, size_t away, const char *in, size_t in_len)
{
    memmove(bytes + at + in_len, bytes + at + away, bytes_len - at - away);
    memcpy(bytes + at, in, in_len);
    bytes_len = bytes_len - away + in_len;
}

static void damage(void)
{
    static const char *const lines[] = {
        "[decompose]\n", "[quotient 0]\n", "[generate]\n", "[size 2]\n", "[op 0 0]\n", "[op 0 255]\n", "[op 0 256]\n",
        "[op 4 ", "[op 3 ", "[op 3 [[[0]]]]\n", "[op 2 [", "\n", "[op 0 0]", "[op 255 ", "x",
    };
    static const char some[] = " []\n0123456789opsize\0\xFF";
    const size_t at = below(bytes_len + 1), left = bytes_len - at;
    char one = some[below(sizeof some)];
    switch (below(8)) {
    case 0:
        bytes_len = at;
        return;
    case 1:
        splice(at, left > 0, &one, 1);
        return;
    case 2:
        splice(at, 0, &one, 1);
        return;
    case 3:
        splice(at, left > 0, "", 0);
        return;
    case 4: {
        const char *line = lines[below(sizeof lines / sizeof *lines)];
        splice(bytes_len, 0, line, strlen(line));
        return;
    }
    case 5:
        for (unsigned i = 0; i < 17 && bytes_len + 64 < ROOM; i++) {
            splice(bytes_len, 0, "[op 0 0]\n", 9);
        }
        return;
    case 6: /* another size */
        if (bytes_len > 8) {
            const char *size = once_in(2) ? "[size 65" : "[size 64";
            splice(0, 7, size, once_in(4) ? 7 : 8);
        }
        return;
    default:
        one = (char)next();
        splice(at, left > 0, &one, 1);
    }
}

static void make_text(struct call *c)
{
    const uint64_t written = text_baseline_write(c->n, c->arities.slice, c->arities.len, c->cells.slice,
                                                 c->cells.len, bytes, ROOM);
    bytes_len = (size_t)(written >> 8);
    if (!once_in(3)) {
        damage();
    }
    if (once_in(4)) {
        damage();
    }
    place(&c->text, bytes_len);
    if (bytes_len > 0) {
        memcpy(c->text.slice, bytes, bytes_len);
    }
}

/* ---- one call ------------------------------------------------------------------ */

static uint8_t before[ROOM], expected[ROOM];

static void lend(struct room *r, size_t len)
{
    place(r, len);
    if (len > 0) {
        memset(r->slice, (int)below(256), len);
        r->slice[below(len)]++;
        memcpy(before, r->slice, len);
        memcpy(expected, r->slice, len);
    }
}

static int same(const struct room *r, const uint8_t *other)
{
    return r->len == 0 || memcmp(r->slice, other, r->len) == 0;
}

/* Why the answer is wrong, or NULL. */
static const char *write_fault(struct call *c, uint64_t *number)
{
    uint32_t reason = algebra_reason(c->n, &c->arities, &c->cells);
    const size_t length = reason ? 0 : text_length(c);
    const size_t lengths[] = {0, length - (length > 0), length, length, length + 1, length + below(300),
                              below(length + 1)};
    lend(&c->lent, lengths[below(7)]);
    if (!reason && c->lent.len < length) {
        reason = CONGRUENCE_SPACE;
    }
    const uint64_t wanted = reason ? reason : 256 * (uint64_t)length;
    const uint8_t *a = c->arities.slice, *t = c->cells.slice;
    const size_t al = c->arities.len, tl = c->cells.len, ol = c->lent.len;
    *number = probe_write(c->n, a, al, t, tl, c->lent.slice, ol);
    if (*number != wanted) {
        return "another number";
    }
    if (reason && !same(&c->lent, before)) {
        return "a byte written that should keep its value";
    }
    if (text_baseline_write(c->n, a, al, t, tl, expected, ol) != wanted || !same(&c->lent, expected)) {
        return "not what the baseline gives";
    }
    return NULL;
}

static const char *read_fault(struct call *c, uint64_t *number)
{
    static const size_t lengths[] = {WANTED, WANTED, WANTED, WANTED + 1, WANTED + 5000, WANTED - 1, 4, 0};
    static const uint8_t zeros[HEAD];
    uint8_t head[64], old_head[64];
    make_text(c);
    lend(&c->lent, lengths[below(once_in(8) ? 8 : 5)]);
    place(&c->head, once_in(200) ? below(40) : HEAD);
    fill(&c->head, 256);
    if (c->head.len > 0) {
        memcpy(head, c->head.slice, c->head.len);
        memcpy(old_head, c->head.slice, c->head.len);
    }
    *number = probe_read(c->text.slice, c->text.len, c->lent.slice, c->lent.len, c->head.slice, c->head.len);
    if (*number != text_baseline_read(c->text.slice, c->text.len, expected, c->lent.len, head, c->head.len) ||
        !same(&c->lent, expected) || !same(&c->head, head)) {
        return "not what the baseline gives";
    }
    if ((*number & 255) != 0 && (*number > 255 || !same(&c->lent, before))) {
        return "a refusal with more than its reason";
    }
    if ((*number & 255) != 0 && !same(&c->head, *number == NO_HEAD ? old_head : zeros)) {
        return "a refusal with a head";
    }
    return NULL;
}

static void print_call(const struct call *c, int reads, const char *why, uint64_t number)
{
    printf("MISMATCH: %s, %s: reason %u and %zu, lent %zu\n", why, reads ? "read" : "write", (unsigned)(number & 255),
           (size_t)(number >> 8), c->lent.len);
    if (reads) {
        print_bytes("text", c->text.slice, c->text.len);
        print_bytes("head", c->head.slice, c->head.len);
    } else {
        printf("  n = %zu\n", c->n);
        print_bytes("arities", c->arities.slice, c->arities.len);
        print_bytes("cells", c->cells.slice, c->cells.len);
    }
    for (size_t i = 0; i < c->lent.len; i++) {
        if (c->lent.slice[i] != expected[i]) {
            printf("  byte %zu is %u, was %u, the baseline has %u\n", i, c->lent.slice[i], before[i], expected[i]);
        }
    }
}

int main(int argc, char **argv)
{
    const unsigned long calls = argc > 1 ? strtoul(argv[1], NULL, 10) : 100000;
    const unsigned long seed = argc > 2 ? strtoul(argv[2], NULL, 10) : 1;
    static const unsigned reasons[2][9] = {{0, 1, 2, 3, 4, 5, 6, 9}, {0, 1, 2, 3, 4, 6, 9, 14, NO_HEAD}};
    static const unsigned counts[2] = {8, 9};
    unsigned long passed = 0, failed = 0, seen[2][256] = {{0}};
    struct call c = {0};
    state = seed;
    page = (size_t)sysconf(_SC_PAGESIZE);
    c.arities = open_room();
    c.cells = open_room();
    c.text = open_room();
    c.lent = open_room();
    c.head = open_room();
    printf("seed %lu, %lu calls\n", seed, calls);
    for (unsigned long i = 0; i < calls; i++) {
        const int reads = i % 2;
        uint64_t number;
        if (!reads) {
            make_algebra(&c.n, &c.arities, &c.cells);
        }
        const char *why = reads ? read_fault(&c, &number) : write_fault(&c, &number);
        seen[reads][number & 255]++;
        if (!why) {
            passed++;
        } else if (failed++ < 3) {
            print_call(&c, reads, why, number);
        }
    }
    for (int reads = 0; reads < 2; reads++) {
        printf("%s by reason:", reads ? "\nreader's answers" : "writer's answers");
        for (unsigned i = 0; i < counts[reads]; i++) {
            const unsigned reason = reasons[reads][i];
            printf(" %u: %lu", reason, seen[reads][reason]);
            if (seen[reads][reason] == 0 && calls >= 10000) {
                printf(" (no case)");
                failed++;
            }
        }
    }
    printf("\n%lu passed, %lu failed\n", passed, failed);
    return failed != 0 || passed == 0;
}
