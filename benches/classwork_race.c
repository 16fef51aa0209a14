/* The program of crates/bench_race over the optimized bench: the same bytes on
 * standard input, the same line on standard output, function for function. */
#define _POSIX_C_SOURCE 200809L
#include <inttypes.h>
#include <stdio.h>
#include <string.h>
#include <unistd.h>

#include "classwork_baseline.h"

enum { N = 64 };

static uint8_t cells[N * N];

static void fill_cells(void)
{
    for (unsigned x = 0; x < N; x++) {
        for (unsigned y = 0; y < N; y++) {
            cells[N * x + y] = (uint8_t)(x ^ y);
        }
    }
}

static uint64_t name_of(size_t place)
{
    const uint8_t bytes[8] = {'p', 'o', 'i', 'n', 't', ' ', ' ', (uint8_t)place};
    uint64_t name;
    memcpy(&name, bytes, sizeof name);
    return name;
}

/* One of six elements that generate the group. */
static size_t generator(size_t number)
{
    static const uint8_t generators[6] = {1, 2, 4, 8, 16, 32};
    return generators[number % 6];
}

static uint32_t add(struct bench *b, size_t sheet, size_t number)
{
    static const uint8_t arities[] = {2};
    return classwork_add(b, N, arities, sizeof arities, cells, sizeof cells, sheet, 0, generator(number));
}

static void put_point(struct bench *b, size_t sheet, size_t place)
{
    if (place % 4 == 0) {
        classwork_clear(b, sheet);
    }
    classwork_set(b, sheet, name_of(place));
    add(b, sheet, sheet + place);
}

static void put_points(struct bench *b)
{
    for (size_t k = 0; k < SHEETS * PLACES; k++) {
        put_point(b, k / PLACES, k % PLACES);
    }
}

static uint32_t turn(struct bench *b, uint8_t workload, size_t number)
{
    const size_t sheet = number % SHEETS, place = number / SHEETS % PLACES;
    const uint64_t name = name_of(place);
    uint32_t reason;
    switch (workload) {
    case 'h':
        return add(b, sheet, sheet + 4);
    case 'a':
        reason = classwork_return(b, sheet, name);
        return reason ? reason : add(b, sheet, sheet + place);
    case 'c':
        return classwork_clear(b, sheet);
    case 's':
        return classwork_set(b, sheet, name);
    case 'r':
        return classwork_return(b, sheet, name);
    case 'f':
        reason = classwork_forget(b, sheet, name);
        return reason ? reason : classwork_set(b, sheet, name);
    default:
        return 0;
    }
}

static size_t play(struct bench *b, uint8_t workload, size_t turns)
{
    size_t number = 0;
    while (number < turns && turn(b, workload, number) == 0) {
        number++;
    }
    return number;
}

struct sum {
    uint64_t low, high;
};

static void add_number(struct sum *s, uint64_t number)
{
    s->low += number;
    s->high += s->low;
}

static void add_bytes(struct sum *s, const void *bytes, size_t count)
{
    for (size_t i = 0; i < count; i++) {
        add_number(s, ((const uint8_t *)bytes)[i]);
    }
}

static struct sum sum_of(const struct bench *b)
{
    struct sum s = {0, 0};
    for (size_t k = 0; k < SHEETS; k++) {
        const struct sheet *sheet = &b->sheets[k];
        add_bytes(&s, sheet->map, SHEET_BYTES);
        add_number(&s, sheet->tally);
        add_number(&s, sheet->count);
        for (size_t i = 0; i < PLACES; i++) {
            add_bytes(&s, &sheet->points[i].name, sizeof sheet->points[i].name);
            add_bytes(&s, sheet->points[i].map, SHEET_BYTES);
        }
    }
    return s;
}

static void print_tallies(const struct bench *b)
{
    printf(", earlier %" PRIu64 ", tallies", b->earlier);
    for (size_t k = 0; k < SHEETS; k++) {
        printf(" %" PRIu64, b->sheets[k].tally);
    }
}

static void print_played(const struct bench *b, size_t turns)
{
    const struct sum s = sum_of(b);
    printf("turns %zu", turns);
    print_tallies(b);
    printf(", sums %" PRIu64 " %" PRIu64 "\n", s.low, s.high);
}

int main(void)
{
    uint8_t input[4] = {0, 0, 0, 0};
    static struct bench b;
    if (read(STDIN_FILENO, input, sizeof input) < 0) {
        return 1;
    }
    fill_cells();
    classwork_start(&b, N);
    put_points(&b);
    print_played(&b, play(&b, input[0], input[1] + 256u * input[2] + 65536u * input[3]));
    return 0;
}
