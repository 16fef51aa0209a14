/* Times the calls of a bench over 64 elements that holds 64 points, eight on each
 * sheet: the programs of crates/bench_race and classwork_race.c in turn, each as a
 * process that makes the calls again and again.
 *
 *   classwork_bench ROUNDS BASELINE [PROVED]
 *
 * Without the proved program it prints the baseline's own times. What a turn takes
 * is the processor time of many turns less that of few, over the difference in
 * number, so that starting and putting the points there is not counted; the median
 * over the rounds. */
#define _DEFAULT_SOURCE
#include <math.h>
#include <string.h>

#include "median.h"
#include "process.h"

enum { FEW = 100, MANY = 4100, MAX_ANSWER = 512, MAX_ROUNDS = 999, BASELINE = 0, PROVED = 1 };

/* The calls of a turn, by the letter that the programs know them by. */
static const struct workload {
    char letter;
    const char *calls;
} list[] = {
    {'h', "add, of a pair that is held"},
    {'a', "return and add, half of the blocks"},
    {'c', "clear"},
    {'s', "set"},
    {'r', "return"},
    {'f', "forget and set"},
};

enum { WORKLOADS = sizeof list / sizeof *list };

static const char *programs[2];
static unsigned program_count;
static char answers[2][MAX_ANSWER];

/* What the programs read: the letter and the number of turns. */
static int input(char letter, unsigned turns)
{
    const unsigned char bytes[] = {(unsigned char)letter, (unsigned char)turns, (unsigned char)(turns >> 8),
                                   (unsigned char)(turns >> 16)};
    return save("classwork", bytes, sizeof bytes);
}

/* Microseconds of each program, on the same input. */
static void run_both(const struct workload *w, int file, double *processor)
{
    size_t bytes[2];
    for (unsigned k = program_count; k-- > 0;) {
        const struct run r = run_on(programs[k], file, answers[k], MAX_ANSWER);
        processor[k] = r.processor;
        bytes[k] = r.bytes;
    }
    if (program_count == 2 && (bytes[BASELINE] != bytes[PROVED] || memcmp(answers[0], answers[1], bytes[0]) != 0)) {
        fail("DIFFERENT ANSWERS", w->calls);
    }
}

/* The medians over the rounds of what a turn takes. */
static void race(const struct workload *w, unsigned rounds, double *taken)
{
    static double turn[2][MAX_ROUNDS];
    const int few = input(w->letter, FEW), many = input(w->letter, MANY);
    for (unsigned r = 0; r < rounds; r++) {
        double less[2], more[2];
        run_both(w, few, less);
        run_both(w, many, more);
        for (unsigned k = 0; k < program_count; k++) {
            turn[k][r] = (more[k] - less[k]) / (MANY - FEW);
        }
    }
    close(few);
    close(many);
    for (unsigned k = 0; k < program_count; k++) {
        taken[k] = median(turn[k], rounds);
    }
}

static void race_all(unsigned rounds)
{
    double logs = 0, worst = 0;
    printf("%-36s %10s %12s %7s\n", "calls, 64 points held", "proved us", "baseline us", "ratio");
    for (unsigned i = 0; i < WORKLOADS; i++) {
        double taken[2];
        race(&list[i], rounds, taken);
        const double ratio = taken[PROVED] / taken[BASELINE];
        printf("%-36s %10.2f %12.2f %7.2f\n", list[i].calls, taken[PROVED], taken[BASELINE], ratio);
        fflush(stdout);
        logs += log(ratio);
        worst = ratio > worst ? ratio : worst;
    }
    printf("geometric mean: %.3f; the largest: %.2f\n", exp(logs / WORKLOADS), worst);
}

static void time_baseline(unsigned rounds)
{
    printf("The proved program is not there: the baseline alone.\n");
    printf("%-36s %12s\n", "calls, 64 points held", "baseline us");
    for (unsigned i = 0; i < WORKLOADS; i++) {
        double taken[2];
        race(&list[i], rounds, taken);
        printf("%-36s %12.2f\n", list[i].calls, taken[BASELINE]);
        fflush(stdout);
    }
}

int main(int count, char **words)
{
    const unsigned rounds = count >= 3 ? (unsigned)atoi(words[1]) : 0;
    if (rounds == 0 || rounds > MAX_ROUNDS || count > 4) {
        fprintf(stderr, "classwork_bench ROUNDS BASELINE [PROVED], at most %d rounds\n", MAX_ROUNDS);
        return 2;
    }
    program_count = (unsigned)count - 2;
    programs[BASELINE] = words[2];
    programs[PROVED] = words[3];
    if (program_count == 2) {
        race_all(rounds);
    } else {
        time_baseline(rounds);
    }
    return 0;
}
