/* Races two builds of the desk program: each text is given to both in turn, as a
 * process of its own, and the times from before the start to after the end are
 * compared.
 *
 *   versions EARLIER LATER ROUNDS
 *
 * Most of a short text's time is the start of the process, so that storage which
 * a program touches when it starts shows here and nowhere else. */
#define _GNU_SOURCE
#include <math.h>
#include <stdio.h>
#include <stdlib.h>
#include <string.h>

#include "median.h"
#include "process.h"

enum { MAX_TEXT = 65536, MAX_OUT = 1 << 22, MAX_ROUNDS = 2000 };

/* ---- texts ----------------------------------------------------------------- */

static char text[MAX_TEXT + 1];
static size_t length;

static void put(const char *format, int a, int b)
{
    length += (size_t)snprintf(text + length, sizeof text - length, format, a, b);
}

static void size_line(int n)
{
    length = 0;
    put("[size %d]\n", n, 0);
}

static void requests(const char *line, int count)
{
    for (int i = 0; i < count; i++) {
        put(line, 0, 0);
    }
}

static int of_sum(int i, int j, int n) { return (i + j) % n; }
static int of_difference(int i, int j, int n) { return (i ^ j) % n; }
static int of_least(int i, int j, int n) { return (i < j ? i : j) % n; }

static void binary(int n, int (*f)(int, int, int))
{
    put("[op 2 [", 0, 0);
    for (int i = 0; i < n; i++) {
        put(i ? " [" : "[", 0, 0);
        for (int j = 0; j < n; j++) {
            put(j ? " %d" : "%d", f(i, j, n), 0);
        }
        put("]", 0, 0);
    }
    put("]]\n", 0, 0);
}

static void identity(int n)
{
    put("[op 1 [", 0, 0);
    for (int i = 0; i < n; i++) {
        put(i ? " %d" : "%d", i, 0);
    }
    put("]]\n", 0, 0);
}

/* ---- runs ------------------------------------------------------------------ */

static char answers[2][MAX_OUT];

static char *programs[2];
static unsigned rounds;
static double logs;
static unsigned raced;

static void race(const char *name)
{
    static double times[2][MAX_ROUNDS];
    struct run r[2];
    const int file = save(name, text, length);
    for (unsigned i = 0; i < rounds; i++) {
        for (unsigned k = 0; k < 2; k++) {
            r[k] = run_on(programs[k], file, answers[k], MAX_OUT);
            times[k][i] = r[k].wall;
        }
    }
    close(file);
    if (r[0].bytes != r[1].bytes || memcmp(answers[0], answers[1], r[0].bytes) != 0) {
        printf("DIFFERENT ANSWERS: %s\n", name);
        exit(1);
    }
    const double earlier = median(times[0], rounds), later = median(times[1], rounds);
    printf("%-42s %7zu %8zu %9.0f %8.0f %7.3f\n", name, length, r[0].bytes, earlier, later, later / earlier);
    logs += log(later / earlier);
    raced++;
}

int main(int count, char **words)
{
    rounds = count == 4 ? (unsigned)atoi(words[3]) : 0;
    if (rounds == 0 || rounds > MAX_ROUNDS) {
        fprintf(stderr, "versions EARLIER LATER ROUNDS, at most %d\n", MAX_ROUNDS);
        return 2;
    }
    programs[0] = words[1];
    programs[1] = words[2];
    printf("%-42s %7s %8s %9s %8s %7s\n", "text", "bytes", "answer", "earlier", "later us", "ratio");
    size_line(4);
    race("size line alone");
    identity(4);
    requests("[decompose]\n", 1);
    race("4 elements, one request");
    size_line(8);
    identity(8);
    requests("[generate [0 1] [2 3]]\n", 600);
    race("8 elements, 600 times generate");
    size_line(32);
    binary(32, of_difference);
    requests("[decompose]\n", 2);
    race("32 elements, a table, twice decompose");
    size_line(64);
    identity(64);
    requests("[generate [0 1] [2 3]]\n", 300);
    race("64 elements, 300 times generate");
    size_line(64);
    identity(64);
    requests("[decompose]\n", 5);
    race("64 elements, 5 times decompose");
    size_line(64);
    identity(64);
    requests("[separate 0 1]\n", 1000);
    race("64 elements, 1000 times separate");
    size_line(64);
    binary(64, of_difference);
    requests("[decompose]\n", 1);
    race("64 elements, a table, decompose");
    requests("[decompose]\n", 19);
    race("64 elements, a table, 20 times decompose");
    size_line(64);
    binary(64, of_least);
    requests("[decompose]\n", 2);
    race("64 elements, a chain, twice decompose");
    size_line(64);
    binary(64, of_difference);
    binary(64, of_least);
    requests("[generate [0 1]]\n", 1);
    race("64 elements, 2 tables, generate");
    size_line(64);
    for (int i = 0; i < 3; i++) {
        binary(64, of_sum);
    }
    requests("[generate [0 1]]\n", 1);
    race("64 elements, 3 tables, generate");
    binary(64, of_sum);
    race("64 elements, a table behind a request");
    size_line(64);
    for (int i = 0; i < 5; i++) {
        binary(64, of_sum);
    }
    requests("[generate [0 1]]\n", 1);
    race("64 elements, 5 tables, generate");
    printf("geometric mean of %u ratios: %.3f\n", raced, exp(logs / raced));
    return 0;
}
