/* Times the writer and the reader of algebra texts on 32,768 cells, the proved
 * ones and the optimized baseline in turn on the same inputs.
 *
 *   text_bench [ROUNDS]
 *
 * Compiled with PROVED defined it links libprobe.a; without, it prints the
 * baseline's own times. A time is the median over the rounds of one call, tests
 * of the input included. */
#define _POSIX_C_SOURCE 200809L
#include <math.h>
#include <stdio.h>
#include <stdlib.h>
#include <string.h>
#include <time.h>

#include "median.h"
#include "text_baseline.h"

enum {
    MAX_CELLS = 32768,
    LENT_CELLS = MAX_CELLS + 64,
    LENT_TEXT = 102738 + 64, /* the longest text, and more */
    HEAD = 18,
    MAX_WORKLOADS = 12,
    MAX_ROUNDS = 999,
    TIMES = 8 /* calls in a round */
};

/* ---- workloads ------------------------------------------------------------- */

struct workload {
    char name[64];
    size_t n, operations, cells_len, text_len;
    uint8_t arities[16];
    uint8_t cells[MAX_CELLS];
    uint8_t text[LENT_TEXT];
};

static struct workload list[MAX_WORKLOADS];
static unsigned list_count;

static uint64_t state = 2025;

static unsigned below(unsigned end)
{
    uint64_t z = state += 0x9E3779B97F4A7C15u;
    z = (z ^ (z >> 30)) * 0xBF58476D1CE4E5B9u;
    z = (z ^ (z >> 27)) * 0x94D049BB133111EBu;
    return (unsigned)((z ^ (z >> 31)) % end);
}

/* Random cells from `from` on and below `to`. The baseline writes the text. */
static void make(const char *shape, size_t n, unsigned arity, unsigned operations, const char *kind, unsigned from,
                 unsigned to)
{
    struct workload *w = &list[list_count++];
    snprintf(w->name, sizeof w->name, "%s, cells %s", shape, kind);
    w->n = n;
    w->operations = operations;
    memset(w->arities, (int)arity, operations);
    w->cells_len = MAX_CELLS;
    for (size_t i = 0; i < MAX_CELLS; i++) {
        w->cells[i] = (uint8_t)(from + below(to - from));
    }
    const uint64_t written = text_baseline_write(n, w->arities, operations, w->cells, MAX_CELLS, w->text, LENT_TEXT);
    w->text_len = (size_t)(written >> 8);
    if ((written & 255) != 0) {
        printf("NO TEXT: %s, reason %u\n", w->name, (unsigned)(written & 255));
        exit(1);
    }
}

static void make_shape(const char *shape, size_t n, unsigned arity, unsigned operations)
{
    make(shape, n, arity, operations, "below 10", 0, 10);
    make(shape, n, arity, operations, "of two digits", 10, (unsigned)n);
    make(shape, n, arity, operations, "of both", 0, (unsigned)n);
}

static void make_workloads(void)
{
    make_shape("8 binary tables of 64", 64, 2, 8);
    make_shape("ternary table of 32", 32, 3, 1);
    make_shape("8 ternary tables of 16", 16, 3, 8);
}

/* ---- calls ------------------------------------------------------------------- */

struct library {
    uint64_t (*write)(size_t, const uint8_t *, size_t, const uint8_t *, size_t, uint8_t *, size_t);
    uint64_t (*read)(const uint8_t *, size_t, uint8_t *, size_t, uint8_t *, size_t);
};

static const struct library baseline = {text_baseline_write, text_baseline_read};

/* What a call leaves. */
struct lent {
    uint8_t text[LENT_TEXT], cells[LENT_CELLS], head[HEAD];
};

enum { WRITE, READ, CALLS };

static uint64_t call(const struct library *l, const struct workload *w, unsigned which, struct lent *to)
{
    return which == WRITE ? l->write(w->n, w->arities, w->operations, w->cells, w->cells_len, to->text, LENT_TEXT)
                          : l->read(w->text, w->text_len, to->cells, LENT_CELLS, to->head, HEAD);
}

/* Processor time, so that other programs on the machine do not count. */
static double now(void)
{
    struct timespec t;
    clock_gettime(CLOCK_PROCESS_CPUTIME_ID, &t);
    return (double)t.tv_sec * 1e6 + (double)t.tv_nsec / 1e3;
}

/* Microseconds a call. */
static double once(const struct library *l, const struct workload *w, unsigned which)
{
    static struct lent to;
    static volatile uint64_t sink;
    const double start = now();
    for (unsigned k = 0; k < TIMES; k++) {
        sink = sink + call(l, w, which, &to);
    }
    return (now() - start) / TIMES;
}

/* Whether what the baseline wrote, read by it, is the algebra. */
static int comes_back(const struct workload *w)
{
    static struct lent to;
    return call(&baseline, w, READ, &to) >> 8 == w->cells_len && memcmp(to.cells, w->cells, w->cells_len) == 0 &&
           to.head[0] == w->n && to.head[1] == w->operations && memcmp(to.head + 2, w->arities, 16) == 0;
}

#ifdef PROVED
uint64_t probe_write(size_t n, const uint8_t *arities, size_t arities_len, const uint8_t *cells, size_t cells_len,
                     uint8_t *out, size_t out_len);
uint64_t probe_read(const uint8_t *text, size_t text_len, uint8_t *cells, size_t cells_len, uint8_t *head,
                    size_t head_len);

static const struct library proved = {probe_write, probe_read};

/* Whether both answer alike, to the last lent byte. */
static int alike(const struct workload *w, unsigned which)
{
    static struct lent a, b;
    memset(&a, 77, sizeof a);
    memset(&b, 77, sizeof b);
    return call(&baseline, w, which, &a) == call(&proved, w, which, &b) && memcmp(&a, &b, sizeof a) == 0;
}
#endif

int main(int argc, char **argv)
{
    static const char *const calls[] = {"write", "read"};
    static double first[MAX_ROUNDS];
    unsigned rounds = argc > 1 ? (unsigned)atoi(argv[1]) : 100, wrong = 0;
    rounds = rounds < 1 ? 1 : rounds > MAX_ROUNDS ? MAX_ROUNDS : rounds;
    make_workloads();
#ifdef PROVED
    static double second[MAX_ROUNDS];
    double logs[CALLS] = {0, 0}, worst = 0;
    printf("%-46s %-6s %8s %10s %12s %7s\n", "32,768 cells", "call", "bytes", "proved us", "baseline us", "ratio");
#else
    printf("The proved library is not linked: the baseline alone.\n");
    printf("%-46s %-6s %8s %12s\n", "32,768 cells", "call", "bytes", "baseline us");
#endif
    for (unsigned which = 0; which < CALLS; which++) {
        for (unsigned i = 0; i < list_count; i++) {
            const struct workload *w = &list[i];
            int right = comes_back(w);
#ifdef PROVED
            right = right && alike(w, which);
            for (unsigned r = 0; r < rounds; r++) {
                second[r] = once(&proved, w, which);
                first[r] = once(&baseline, w, which);
            }
            const double theirs = median(first, rounds), ours = median(second, rounds), ratio = ours / theirs;
            printf("%-46s %-6s %8zu %10.1f %12.1f %7.2f\n", w->name, calls[which], w->text_len, ours, theirs, ratio);
            logs[which] += log(ratio);
            worst = ratio > worst ? ratio : worst;
#else
            for (unsigned r = 0; r < rounds; r++) {
                first[r] = once(&baseline, w, which);
            }
            printf("%-46s %-6s %8zu %12.1f\n", w->name, calls[which], w->text_len, median(first, rounds));
#endif
            if (!right) {
                printf("DIFFERENT ANSWERS: %s, %s\n", w->name, calls[which]);
                wrong++;
            }
            fflush(stdout);
        }
    }
#ifdef PROVED
    printf("geometric mean: writing %.3f, reading %.3f, both %.3f; the largest: %.2f\n", exp(logs[WRITE] / list_count),
           exp(logs[READ] / list_count), exp((logs[WRITE] + logs[READ]) / list_count / CALLS), worst);
#endif
    return wrong != 0;
}
