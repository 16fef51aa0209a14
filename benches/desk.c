/* Times the desk program as it is used: a process of its own that is given a
 * text on standard input, and whose standard output is read to its end.
 *
 *   desk_bench PROGRAM [ROUNDS]
 *
 * Each text is run beside a size line alone, which asks for nothing: its time is
 * that of starting the process. A round takes every text in turn, and a time is
 * the median over the rounds. The services are timed in this process, by calls of
 * libworksheet.a on the same algebra. Every answer is compared with what the
 * library answers. */
#define _DEFAULT_SOURCE
#include <stdarg.h>
#include <stdio.h>
#include <stdlib.h>
#include <string.h>

#include "../include/congruence.h"
#include "median.h"
#include "process.h"

enum {
    N = 64,
    MAX_CELLS = 32768,
    LONGEST = 65536, /* bytes that the program takes */
    ROOM = 2 * LONGEST,
    MAX_OUT = N * N,
    MAX_TEXTS = 24,
    MAX_ROUNDS = 999,
    MAX_ANSWER = 1 << 23
};

struct string {
    size_t len;
    char bytes[ROOM];
};

enum service { NONE, GENERATE, CONTAINED, SEPARATE, DECOMPOSE, QUOTIENT };
enum shown { TIME, BYTES_IN, BYTES_OUT };

/* A text, and what it should be answered: `line`, `requests` times. A quotient's
 * answer has several lines. */
struct text {
    const char *heading; /* printed before this row, or null */
    const char *name;
    enum shown shown;
    size_t n, operations, cells_len;
    uint8_t arities[16], cells[MAX_CELLS];
    enum service service;
    const uint8_t *map; /* for a quotient */
    unsigned requests;
    struct string input, line;
    int file;
    double wall[MAX_ROUNDS], processor[MAX_ROUNDS], above[MAX_ROUNDS], call[MAX_ROUNDS];
};

static struct text list[MAX_TEXTS];
static unsigned list_count;

/* The size line alone. */
static const struct text *const idle = &list[0];

/* ---- texts ------------------------------------------------------------------- */

static uint64_t state = 2025;

static unsigned below(unsigned end)
{
    uint64_t z = state += 0x9E3779B97F4A7C15u;
    z = (z ^ (z >> 30)) * 0xBF58476D1CE4E5B9u;
    z = (z ^ (z >> 27)) * 0x94D049BB133111EBu;
    return (unsigned)((z ^ (z >> 31)) % end);
}

static void put(struct string *s, const char *format, ...)
{
    va_list items;
    va_start(items, format);
    s->len += (size_t)vsnprintf(s->bytes + s->len, ROOM - s->len, format, items);
    va_end(items);
    if (s->len >= ROOM) {
        fail("no room for a text", "put");
    }
}

static void put_map(struct string *s, const uint8_t *map, size_t n)
{
    for (size_t i = 0; i < n; i++) {
        put(s, i > 0 ? " %u" : "%u", map[i]);
    }
}

/* Gives the cell after the table. */
static const uint8_t *put_table(struct string *s, size_t n, unsigned arity, const uint8_t *cell)
{
    if (arity == 0) {
        put(s, "%u", *cell);
        return cell + 1;
    }
    put(s, "[");
    for (size_t i = 0; i < n; i++) {
        put(s, "%s", i > 0 ? " " : "");
        cell = put_table(s, n, arity - 1, cell);
    }
    put(s, "]");
    return cell;
}

static void put_lines(struct string *s, size_t n, const struct text *t, const uint8_t *cell)
{
    s->len = 0;
    put(s, "[size %zu]\n", n);
    for (size_t k = 0; k < t->operations; k++) {
        put(s, "[op %u ", t->arities[k]);
        cell = put_table(s, n, t->arities[k], cell);
        put(s, "]\n");
    }
}

static void put_algebra(struct text *t)
{
    put_lines(&t->input, t->n, t, t->cells);
}

static struct text *begin(const char *heading, const char *name, enum shown shown, size_t n)
{
    if (list_count == MAX_TEXTS) {
        fail("no room for a text", name);
    }
    struct text *t = &list[list_count++];
    t->heading = heading;
    t->name = name;
    t->shown = shown;
    t->n = n;
    return t;
}

static void add_operation(struct text *t, unsigned arity)
{
    size_t cells = 1;
    for (unsigned i = 0; i < arity; i++) {
        cells *= t->n;
    }
    t->arities[t->operations++] = (uint8_t)arity;
    t->cells_len += cells;
}

/* Random cells, so many of one digit and all others of two, in random order. */
static void fill(struct text *t, size_t short_cells)
{
    for (size_t i = 0; i < t->cells_len; i++) {
        const size_t is_short = below((unsigned)(t->cells_len - i)) < short_cells;
        short_cells -= is_short;
        t->cells[i] = (uint8_t)(is_short ? below(10) : 10 + below((unsigned)t->n - 10));
    }
}

/* Tables alone. The count of cells of one digit is chosen so that the text is as
 * long as the program takes, to the byte. */
static void longest(const char *heading, const char *name, size_t n, unsigned arity, unsigned operations)
{
    struct text *t = begin(heading, name, BYTES_IN, n);
    while (operations-- > 0) {
        add_operation(t, arity);
    }
    fill(t, 0);
    put_algebra(t);
    fill(t, t->input.len - LONGEST);
    put_algebra(t);
}

typedef unsigned binary(unsigned x, unsigned y);

static unsigned exclusive(unsigned x, unsigned y) { return x ^ y; }
static unsigned least(unsigned x, unsigned y) { return x < y ? x : y; }

static void add_binary(struct text *t, binary *f)
{
    add_operation(t, 2);
    for (unsigned x = 0; x < N; x++) {
        for (unsigned y = 0; y < N; y++) {
            t->cells[N * x + y] = (uint8_t)f(x, y);
        }
    }
}

/* ---- requests and their answers -------------------------------------------------- */

/* What is asked of an algebra of N elements: the least congruence that joins the
 * pair, the greatest inside the map, the earliest that holds the pair apart, the
 * quotient by the identity or by eight blocks of neighbours. */
static const uint8_t pair[2] = {0, N - 1};
static uint8_t three_blocks[N], identity[N], eight_blocks[N];

static void put_request(struct text *t)
{
    struct string *s = &t->input;
    switch (t->service) {
    case NONE:
        return;
    case GENERATE:
        put(s, "[generate [%u %u]]\n", pair[0], pair[1]);
        return;
    case CONTAINED:
        put(s, "[contained ");
        put_map(s, three_blocks, N);
        put(s, "]\n");
        return;
    case SEPARATE:
        put(s, "[separate %u %u]\n", pair[0], pair[1]);
        return;
    case DECOMPOSE:
        put(s, "[decompose]\n");
        return;
    case QUOTIENT:
        put(s, "[quotient ");
        put_map(s, t->map, t->n);
        put(s, "]\n");
        return;
    }
}

static uint32_t call(const struct text *t, uint8_t *out)
{
    const uint8_t *a = t->arities, *c = t->cells;
    switch (t->service) {
    case GENERATE:
        return congruence_generate(t->n, a, t->operations, c, t->cells_len, pair, 2, out, MAX_OUT);
    case CONTAINED:
        return congruence_contained(t->n, a, t->operations, c, t->cells_len, three_blocks, N, out, MAX_OUT);
    case SEPARATE:
        return congruence_separate(t->n, a, t->operations, c, t->cells_len, pair[0], pair[1], out, MAX_OUT);
    case DECOMPOSE:
        return congruence_decompose(t->n, a, t->operations, c, t->cells_len, out, MAX_OUT);
    default:
        return 0;
    }
}

static void put_factors(struct string *s, const uint8_t *maps, unsigned count, size_t n)
{
    put(s, "[factors");
    for (unsigned i = 0; i < count; i++) {
        put(s, " [");
        put_map(s, maps + i * n, n);
        put(s, "]");
    }
    put(s, "]\n");
}

/* The quotient of binary tables. The library for C has no such call, so it is made
 * here: the blocks' numbers at the smallest members. */
static void put_quotient(struct text *t)
{
    static uint8_t cells[MAX_CELLS];
    uint8_t number[N], first[N];
    size_t b = 0, count = 0;
    for (size_t x = 0; x < t->n; x++) {
        if (t->map[x] == x) {
            first[b] = (uint8_t)x;
            number[x] = (uint8_t)b++;
        } else {
            number[x] = number[t->map[x]];
        }
    }
    for (size_t k = 0; k < t->operations; k++) {
        const uint8_t *table = t->cells + k * t->n * t->n;
        for (size_t place = 0; place < b * b; place++) {
            cells[count++] = number[table[first[place / b] * t->n + first[place % b]]];
        }
    }
    put_lines(&t->line, b, t, cells);
}

/* The lines for what the library answers. */
static void put_answer(struct text *t)
{
    static uint8_t out[MAX_OUT];
    struct string *s = &t->line;
    if (t->service == QUOTIENT) {
        put_quotient(t);
        return;
    }
    const uint32_t answered = call(t, out);
    if (CONGRUENCE_REASON(answered) != CONGRUENCE_OK) {
        fail("the library refuses it", t->name);
    }
    if (t->service == DECOMPOSE) {
        put_factors(s, out, CONGRUENCE_COUNT(answered), t->n);
    } else if (t->service == GENERATE) {
        put(s, "[generated %u [", CONGRUENCE_COUNT(answered));
        put_map(s, out, t->n);
        put(s, "]]\n");
    } else {
        put(s, "[map ");
        put_map(s, out, t->n);
        put(s, "]\n");
    }
}

static void ask(struct text *t, enum service service, unsigned requests)
{
    t->service = service;
    t->requests = requests;
    put_algebra(t);
    for (unsigned i = 0; i < requests; i++) {
        put_request(t);
    }
    put_answer(t);
}

static void one_request(const char *heading, const char *name, binary *f, enum service service)
{
    struct text *t = begin(heading, name, TIME, N);
    add_binary(t, f);
    ask(t, service, 1);
}

/* The projection to the first argument respects every map. */
static unsigned left(unsigned x, unsigned y) { (void)y; return x; }

static void quotients(const char *heading, const char *name, unsigned tables, binary *f, const uint8_t *map)
{
    struct text *t = begin(heading, name, TIME, N);
    add_binary(t, f);
    while (--tables > 0) {
        memcpy(t->cells + t->cells_len, t->cells, N * N);
        add_operation(t, 2);
    }
    t->map = map;
    ask(t, QUOTIENT, 1);
}

static void make_texts(void)
{
    for (unsigned z = 0; z < N; z++) {
        three_blocks[z] = (uint8_t)(z % 3);
        identity[z] = (uint8_t)z;
        eight_blocks[z] = (uint8_t)(z / 8 * 8);
    }
    put_algebra(begin("starting", "size line alone", TIME, N));
    struct text *empty = begin(NULL, "empty input", TIME, 0);
    put(&empty->line, "[refused 14]\n");
    empty->requests = 1;

    longest("reading; MB/s in", "6 binary tables of 64", N, 2, 6);
    longest(NULL, "7 binary tables of 64", N, 2, 7);
    longest(NULL, "ternary table of 28", 28, 3, 1);

    const char *group = "one table and one request: elementary abelian group 64";
    one_request(group, "generate", exclusive, GENERATE);
    one_request(NULL, "contained", exclusive, CONTAINED);
    one_request(NULL, "separate", exclusive, SEPARATE);
    one_request(NULL, "decompose", exclusive, DECOMPOSE);
    one_request("one table and one request: chain 64, meet", "generate", least, GENERATE);
    one_request(NULL, "contained", least, CONTAINED);
    one_request(NULL, "separate", least, SEPARATE);
    one_request(NULL, "decompose", least, DECOMPOSE);

    const char *asked = "tables and one quotient";
    quotients(asked, "group, 8 blocks", 1, exclusive, eight_blocks);
    quotients(NULL, "group, identity", 1, exclusive, identity);
    quotients(NULL, "5 projections, identity", 5, left, identity);

    const char *many = "writing: 64 elements, no operations, many requests; MB/s out";
    ask(begin(many, "3600 times generate", BYTES_OUT, N), GENERATE, 3600);
    ask(begin(NULL, "400 times decompose", BYTES_OUT, N), DECOMPOSE, 400);
}

/* ---- runs ------------------------------------------------------------------------ */

static char answer[MAX_ANSWER];

static void save_text(struct text *t)
{
    if (t->input.len > LONGEST) {
        fail("the text is too long", t->name);
    }
    t->file = save(t->name, t->input.bytes, t->input.len);
}

static void check(const struct text *t, size_t len)
{
    int right = len == t->requests * t->line.len;
    for (size_t i = 0; right && i < t->requests; i++) {
        right = memcmp(answer + i * t->line.len, t->line.bytes, t->line.len) == 0;
    }
    if (!right) {
        fail("DIFFERENT ANSWERS", t->name);
    }
}

static struct run run(const char *program, const struct text *t)
{
    const struct run r = run_on(program, t->file, answer, MAX_ANSWER);
    check(t, r.bytes);
    return r;
}

/* Whether the text asks for a service that the library for C has. */
static int is_called(const struct text *t)
{
    return t->service != NONE && t->service != QUOTIENT;
}

/* Microseconds of processor time a call: as many calls as the text has requests,
 * and for a millisecond at least. */
static double call_time(const struct text *t)
{
    static uint8_t out[MAX_OUT];
    static volatile uint32_t sink;
    const double from = now(CLOCK_PROCESS_CPUTIME_ID);
    double spent = 0;
    unsigned calls = 0;
    while (spent < 1000) {
        for (unsigned i = 0; i < t->requests; i++) {
            sink = sink + call(t, out);
        }
        calls += t->requests;
        spent = now(CLOCK_PROCESS_CPUTIME_ID) - from;
    }
    return spent / calls;
}

/* One run each before those that count sets the caches, which the text before left
 * in another state. */
static void run_round(const char *program, unsigned round)
{
    for (unsigned i = 0; i < list_count; i++) {
        struct text *t = &list[i];
        t->call[round] = is_called(t) ? call_time(t) : 0;
        run(program, t);
        run(program, idle);
        const struct run all = run(program, t), nothing = run(program, idle);
        t->wall[round] = all.wall;
        t->processor[round] = all.processor;
        t->above[round] = all.processor - nothing.processor;
    }
}

/* ---- the table ------------------------------------------------------------------- */

/* `above` is the processor time less that of the size line beside it. Where there
 * are many requests, the service is no longer taken off: it is most of the time, and
 * the program's copy of it and the library's differ by more than what is left. */
static void print_row(struct text *t, unsigned rounds)
{
    const double above = median(t->above, rounds), service = t->requests * median(t->call, rounds);
    const size_t out = t->requests * t->line.len;
    if (t->heading != NULL) {
        printf("%s\n", t->heading);
    }
    printf("  %-22s %8zu %8zu %8.0f %8.0f %8.0f", t->name, t->input.len, out, median(t->wall, rounds),
           median(t->processor, rounds), above);
    if (is_called(t)) {
        printf(" %8.0f", service);
    }
    if (is_called(t) && t->shown == TIME) {
        printf(" %8.0f", above - service);
    }
    if (t->shown == BYTES_IN) {
        printf(" %26.0f", (double)t->input.len / above);
    }
    if (t->shown == BYTES_OUT) {
        printf(" %17.0f", (double)out / above);
    }
    printf("\n");
}

static void print_table(unsigned rounds)
{
    printf("%-24s %8s %8s %8s %8s %8s %8s %8s %8s\n", "", "bytes in", "out", "wall us", "cpu us", "above", "service",
           "rest", "MB/s");
    for (unsigned i = 0; i < list_count; i++) {
        print_row(&list[i], rounds);
    }
}

int main(int argc, char **argv)
{
    if (argc < 2) {
        fail("PROGRAM [ROUNDS]", "usage");
    }
    unsigned rounds = argc > 2 ? (unsigned)atoi(argv[2]) : 40;
    rounds = rounds < 1 ? 1 : rounds > MAX_ROUNDS ? MAX_ROUNDS : rounds;
    make_texts();
    for (unsigned i = 0; i < list_count; i++) {
        save_text(&list[i]);
    }
    for (unsigned round = 0; round < rounds; round++) {
        run_round(argv[1], round);
    }
    print_table(rounds);
    return 0;
}
