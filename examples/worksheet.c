/* A worksheet: one algebra, four questions, and what is declined.
 *
 *   cc -I include examples/worksheet.c crates/worksheet/out/libworksheet.a -o worksheet
 *
 * It prints what examples/worksheet.out holds. */
#include <stdio.h>

#include "congruence.h"

enum { SIZE = 4 };

/* One unary operation, which exchanges 0 with 1 and 2 with 3. */
static const uint8_t arities[] = {1};
static const uint8_t cells[] = {1, 0, 3, 2};

static void print_map(const uint8_t *map)
{
    for (size_t x = 0; x < SIZE; x++) {
        printf(" %u", (unsigned)map[x]);
    }
}

/* One answered map, or the refusal. */
static void report(const char *question, uint32_t answer, const uint8_t *map)
{
    printf("%s:", question);
    if (CONGRUENCE_REASON(answer) != CONGRUENCE_OK) {
        printf(" refused, reason %u", (unsigned)CONGRUENCE_REASON(answer));
    } else {
        print_map(map);
    }
    printf("\n");
}

/* The factors of an algebra with one unary operation, however many there are.
 * The first call lends nothing: 9 says that there are factors, SIZE - 1 at most;
 * any other reason is all there is to say. */
static void report_factors(const char *name, const uint8_t *table)
{
    uint8_t factors[(SIZE - 1) * SIZE];
    uint32_t answer = congruence_decompose(SIZE, arities, sizeof arities, table, SIZE, NULL, 0);
    if (CONGRUENCE_REASON(answer) != CONGRUENCE_SPACE) {
        printf("%s: reason %u, pair %u %u\n", name, (unsigned)CONGRUENCE_REASON(answer),
               (unsigned)CONGRUENCE_FIRST(answer), (unsigned)CONGRUENCE_SECOND(answer));
        return;
    }
    answer = congruence_decompose(SIZE, arities, sizeof arities, table, SIZE, factors, sizeof factors);
    printf("%s: %u factors\n", name, (unsigned)CONGRUENCE_COUNT(answer));
    for (size_t i = 0; i < CONGRUENCE_COUNT(answer); i++) {
        printf("factor %zu:", i);
        print_map(factors + i * SIZE);
        printf("\n");
    }
}

int main(void)
{
    uint8_t map[SIZE];

    const uint8_t pairs[] = {0, 2};
    uint32_t answer = congruence_generate(SIZE, arities, sizeof arities, cells, sizeof cells,
                                          pairs, sizeof pairs, map, sizeof map);
    report("generate (0, 2)", answer, map);
    printf("merges: %u\n", (unsigned)CONGRUENCE_COUNT(answer));

    const uint8_t given[] = {0, 0, 0, 3};
    answer = congruence_contained(SIZE, arities, sizeof arities, cells, sizeof cells,
                                  given, sizeof given, map, sizeof map);
    report("contained in 0 0 0 3", answer, map);

    answer = congruence_separate(SIZE, arities, sizeof arities, cells, sizeof cells,
                                 0, 2, map, sizeof map);
    report("separate 0 and 2", answer, map);

    report_factors("the exchange", cells);

    /* A cycle of four elements is irreducible: 11 carries the pair 0, 2. */
    const uint8_t cycle[] = {1, 2, 3, 0};
    report_factors("the cycle", cycle);

    /* Where it is known that there are two factors, just their bytes are lent. */
    uint8_t two[2 * SIZE];
    answer = congruence_decompose(SIZE, arities, sizeof arities, cells, sizeof cells, two, sizeof two);
    printf("decompose into 8 bytes: %u factors\n", (unsigned)CONGRUENCE_COUNT(answer));
    answer = congruence_decompose(SIZE, arities, sizeof arities, cells, sizeof cells, two, sizeof two - 1);
    report("decompose into 7 bytes", answer, two);

    /* Three bytes are too few for a map over four elements. */
    answer = congruence_generate(SIZE, arities, sizeof arities, cells, sizeof cells,
                                 pairs, sizeof pairs, map, SIZE - 1);
    report("generate into 3 bytes", answer, map);

    /* No operations and no pairs: slices of length 0. */
    answer = congruence_generate(SIZE, NULL, 0, NULL, 0, NULL, 0, map, sizeof map);
    report("no operations, no pairs", answer, map);
    return 0;
}
