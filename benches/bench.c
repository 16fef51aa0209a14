/* Times the services on the workloads, the proved library and the optimized
 * baseline in turn on the same inputs.
 *
 *   bench [ROUNDS]
 *
 * Compiled with PROVED defined it links libworksheet.a, with PROBE libprobe.a too,
 * which has Certify and Quotient; without, it prints the baseline's own times. A
 * time is the median over the rounds of the mean over a fixed set of inputs, tests
 * of the input included. Behind the table: the ratios by service, the longest calls
 * on the hard workloads, and how Decompose grows with n. */
#define _POSIX_C_SOURCE 200809L
#include <math.h>
#include <stdio.h>
#include <stdlib.h>
#include <string.h>
#include <time.h>

#include "../include/congruence.h"
#include "baseline.h"
#include "median.h"
#include "workloads.h"

enum { INPUTS = 16, MAX_OUT = MAX_CELLS_OF_ALL, MAX_ROUNDS = 999 };
enum service { GENERATE, CONTAINED, SEPARATE, DECOMPOSE, CERTIFY, QUOTIENT, SERVICES };

static const char *const services[] = {"generate", "contained", "separate", "decompose", "certify", "quotient"};

/* What is aimed at: the geometric mean of a service, each ratio, and milliseconds
 * of the longest call on the hard workloads. */
static const double mean_aim = 1.0, ratio_aim = 1.1;
static const double call_aim[] = {[SEPARATE] = 4, [DECOMPOSE] = 40, [CERTIFY] = 40};

/* ---- the two sides ----------------------------------------------------------- */

typedef uint32_t with_slice(size_t, const uint8_t *, size_t, const uint8_t *, size_t, const uint8_t *, size_t,
                            uint8_t *, size_t);
typedef uint32_t with_elements(size_t, const uint8_t *, size_t, const uint8_t *, size_t, size_t, size_t, uint8_t *,
                               size_t);
typedef uint32_t with_output(size_t, const uint8_t *, size_t, const uint8_t *, size_t, uint8_t *, size_t);
typedef uint32_t with_maps(size_t, const uint8_t *, size_t, const uint8_t *, size_t, const uint8_t *, size_t);

struct library {
    with_slice *generate, *contained;
    with_elements *separate;
    with_output *decompose;
    with_maps *certify;
    with_slice *quotient;
};

#ifdef PROBE
with_maps probe_certify;
with_slice probe_quotient;
#endif

static const struct library sides[] = {
    {baseline_generate, baseline_contained, baseline_separate, baseline_decompose, baseline_certify,
     baseline_quotient},
#if defined PROVED && defined PROBE
    {congruence_generate, congruence_contained, congruence_separate, congruence_decompose, probe_certify,
     probe_quotient},
#elif defined PROVED
    {congruence_generate, congruence_contained, congruence_separate, congruence_decompose, NULL, NULL},
#endif
};

enum { SIDES = sizeof sides / sizeof *sides, BASELINE = 0, OURS = SIDES - 1 };

/* ---- workloads ------------------------------------------------------------- */

/* The inputs of the calls about a workload. */
struct inputs {
    struct tables t;
    uint8_t pair[INPUTS][2];
    uint8_t map[INPUTS][64];     /* for Contained */
    uint8_t divisor[INPUTS][64]; /* for Quotient */
    uint8_t factors[64 * 64];    /* for Certify */
    size_t factors_len;
};

static struct inputs inputs[WORKLOADS];

/* Pairs: neighbours and far ones. Maps: all, two random blocks, four, blocks of
 * neighbours, and the congruence of a pair, which is kept whole. */
static void choose_maps(struct inputs *w)
{
    const struct tables *t = &w->t;
    const unsigned n = (unsigned)t->n;
    for (unsigned i = 0; i < INPUTS; i++) {
        const unsigned x = i % 4 == 0 ? i / 4 : any_below(n);
        unsigned y = i % 4 == 0 ? n - 1 - i / 4 : any_below(n);
        y = x == y ? (y + 1) % n : y;
        w->pair[i][0] = (uint8_t)x;
        w->pair[i][1] = (uint8_t)y;
        if (i % 4 == 3) {
            baseline_generate(n, t->arities, t->operations, t->cells, t->cells_len, w->pair[i], 2, w->map[i], 64);
            continue;
        }
        unsigned first[4] = {n, n, n, n};
        for (unsigned z = 0; z < n; z++) {
            const unsigned k = i % 4 == 0 ? z * (i / 4 + 1) / n : any_below(i % 4 == 1 ? 2 : 4);
            first[k] = first[k] == n ? z : first[k];
            w->map[i][z] = (uint8_t)first[k];
        }
    }
}

/* Quotients: by the congruence of a pair, and by what holds a pair apart. The list
 * for Certify is Decompose's, or the identity alone where there is none. */
static void choose_congruences(struct inputs *w)
{
    const struct tables *t = &w->t;
    for (unsigned i = 0; i < INPUTS; i++) {
        const uint8_t *p = w->pair[i];
        if (i % 2) {
            baseline_separate(t->n, t->arities, t->operations, t->cells, t->cells_len, p[0], p[1], w->divisor[i], 64);
        } else {
            baseline_generate(t->n, t->arities, t->operations, t->cells, t->cells_len, p, 2, w->divisor[i], 64);
        }
    }
    const uint32_t number = baseline_decompose(t->n, t->arities, t->operations, t->cells, t->cells_len, w->factors,
                                               sizeof w->factors);
    w->factors_len = CONGRUENCE_COUNT(number) * t->n;
    if (CONGRUENCE_REASON(number)) {
        w->factors_len = t->n;
        for (unsigned x = 0; x < t->n; x++) {
            w->factors[x] = (uint8_t)x;
        }
    }
}

static void choose_inputs(void)
{
    for (unsigned i = 0; i < WORKLOADS; i++) {
        make_tables(&inputs[i].t, workloads[i].make, workloads[i].n);
        choose_maps(&inputs[i]);
        choose_congruences(&inputs[i]);
    }
}

/* ---- calls ------------------------------------------------------------------- */

static uint32_t separate(const struct library *l, const struct tables *t, unsigned v, unsigned w, uint8_t *out)
{
    return l->separate(t->n, t->arities, t->operations, t->cells, t->cells_len, v, w, out, MAX_OUT);
}

static uint32_t decompose(const struct library *l, const struct tables *t, uint8_t *out)
{
    return l->decompose(t->n, t->arities, t->operations, t->cells, t->cells_len, out, MAX_OUT);
}

static uint32_t call(const struct library *l, const struct inputs *w, enum service service, unsigned i, uint8_t *out)
{
    const struct tables *t = &w->t;
    switch (service) {
    case GENERATE:
        return l->generate(t->n, t->arities, t->operations, t->cells, t->cells_len, w->pair[i], 2, out, MAX_OUT);
    case CONTAINED:
        return l->contained(t->n, t->arities, t->operations, t->cells, t->cells_len, w->map[i], t->n, out, MAX_OUT);
    case SEPARATE:
        return separate(l, t, w->pair[i][0], w->pair[i][1], out);
    case DECOMPOSE:
        return decompose(l, t, out);
    case CERTIFY:
        return l->certify(t->n, t->arities, t->operations, t->cells, t->cells_len, w->factors, w->factors_len);
    default:
        return l->quotient(t->n, t->arities, t->operations, t->cells, t->cells_len, w->divisor[i], t->n, out, MAX_OUT);
    }
}

static int is_there(enum service service)
{
    return service < CERTIFY || sides[OURS].certify != NULL;
}

static unsigned inputs_of(enum service service)
{
    return service == DECOMPOSE || service == CERTIFY ? 1 : INPUTS;
}

/* Processor time, so that other programs on the machine do not count. */
static double now(void)
{
    struct timespec t;
    clock_gettime(CLOCK_PROCESS_CPUTIME_ID, &t);
    return (double)t.tv_sec * 1e9 + (double)t.tv_nsec;
}

/* Nanoseconds a call, all inputs `times` times. */
static double once(const struct library *l, const struct inputs *w, enum service service, unsigned times)
{
    static uint8_t out[MAX_OUT];
    static volatile uint32_t sink;
    const unsigned count = inputs_of(service);
    const double start = now();
    for (unsigned k = 0; k < times; k++) {
        for (unsigned i = 0; i < count; i++) {
            sink = sink + call(l, w, service, i, out);
        }
    }
    return (now() - start) / times / count;
}

/* Whether both sides answer alike on every input. */
static int alike(unsigned workload, enum service service)
{
    static uint8_t a[MAX_OUT], b[MAX_OUT];
    const struct inputs *w = &inputs[workload];
    for (unsigned i = 0; i < inputs_of(service); i++) {
        memset(a, 77, MAX_OUT);
        memset(b, 77, MAX_OUT);
        if (call(&sides[BASELINE], w, service, i, a) != call(&sides[OURS], w, service, i, b) ||
            memcmp(a, b, MAX_OUT)) {
            printf("DIFFERENT ANSWERS: %s, %s, input %u\n", workloads[workload].name, services[service], i);
            return 0;
        }
    }
    return 1;
}

/* ---- the table ----------------------------------------------------------------- */

/* Nanoseconds of each side, by workload and service. */
static double taken[WORKLOADS][SERVICES][2];

static double ratio_of(unsigned i, enum service service)
{
    return taken[i][service][OURS] / taken[i][service][BASELINE];
}

/* A round takes the baseline some 200 microseconds at least, and all rounds of a row
 * a second at most, but for three. */
static void race(unsigned i, enum service service, unsigned rounds)
{
    static double values[2][MAX_ROUNDS];
    const struct inputs *w = &inputs[i];
    const double guess = once(&sides[BASELINE], w, service, 1) * inputs_of(service);
    const unsigned times = guess > 2e5 ? 1 : 1 + (unsigned)(2e5 / (guess + 1));
    if (guess * rounds > 1e9) {
        rounds = guess * 3 > 1e9 ? 3 : (unsigned)(1e9 / guess);
    }
    for (unsigned r = 0; r < rounds; r++) {
        for (unsigned side = 0; side < SIDES; side++) {
            values[side][r] = once(&sides[side], w, service, times);
        }
    }
    for (unsigned side = 0; side < SIDES; side++) {
        taken[i][service][side] = median(values[side], rounds);
    }
}

static void print_row(unsigned i, enum service service)
{
    const double *t = taken[i][service];
    printf("%-30s %-10s", workloads[i].name, services[service]);
    if (SIDES == 2) {
        printf(" %12.0f %12.0f %7.2f\n", t[OURS], t[BASELINE], ratio_of(i, service));
    } else {
        printf(" %12.0f\n", t[BASELINE]);
    }
    fflush(stdout);
}

static void print_mean(unsigned i)
{
    double logs = 0;
    unsigned count = 0;
    for (enum service s = 0; s < SERVICES; s++) {
        if (is_there(s)) {
            logs += log(ratio_of(i, s));
            count++;
        }
    }
    printf("%-30s %-10s %33.2f\n", workloads[i].name, "mean", exp(logs / count));
}

/* How many answers differ. */
static unsigned print_table(unsigned rounds)
{
    unsigned wrong = 0;
    if (SIDES == 2) {
        printf("%-30s %-10s %12s %12s %7s\n", "workload", "service", "proved ns", "baseline ns", "ratio");
    } else {
        printf("%-30s %-10s %12s\n", "workload", "service", "baseline ns");
    }
    for (unsigned i = 0; i < WORKLOADS; i++) {
        for (enum service s = 0; s < SERVICES; s++) {
            if (is_there(s)) {
                wrong += SIDES == 2 && !alike(i, s);
                race(i, s, rounds);
                print_row(i, s);
            }
        }
        if (SIDES == 2) {
            print_mean(i);
        }
    }
    return wrong;
}

/* ---- behind the table ---------------------------------------------------------- */

static void print_services(void)
{
    unsigned above = 0, all = 0;
    double logs_of_all = 0;
    printf("\n%-10s %15s %8s  %-30s %s %.1f\n", "service", "geometric mean", "largest", "on", "above", ratio_aim);
    for (enum service s = 0; s < SERVICES; s++) {
        double logs = 0;
        unsigned worst = 0, far = 0;
        if (!is_there(s)) {
            continue;
        }
        for (unsigned i = 0; i < WORKLOADS; i++) {
            logs += log(ratio_of(i, s));
            worst = ratio_of(i, s) > ratio_of(worst, s) ? i : worst;
            far += ratio_of(i, s) > ratio_aim;
        }
        const double mean = exp(logs / WORKLOADS);
        printf("%-10s %15.3f %8.2f  %-30s %u of %u%s\n", services[s], mean, ratio_of(worst, s), workloads[worst].name,
               far, (unsigned)WORKLOADS, mean > mean_aim ? ", mean above the aim" : "");
        above += far;
        all += WORKLOADS;
        logs_of_all += logs;
    }
    printf("geometric mean of %u ratios: %.3f; above %.1f: %u\n", all, exp(logs_of_all / all), ratio_aim, above);
}

/* The longest call in milliseconds, and on which workload. */
struct longest {
    double ms;
    const char *on;
};

static void keep_longest(struct longest *l, double ns, const char *on)
{
    if (ns / 1e6 > l->ms) {
        l->ms = ns / 1e6;
        l->on = on;
    }
}

/* The shortest of three calls, so that a first touch of storage does not count; of
 * fewer where there are fewer rounds. */
static double separate_time(const struct library *l, const struct tables *t, unsigned v, unsigned w, unsigned rounds)
{
    static uint8_t out[MAX_OUT];
    double best = 0;
    for (unsigned r = 0; r < 3 && r < rounds; r++) {
        const double start = now();
        separate(l, t, v, w, out);
        const double ns = now() - start;
        best = r == 0 || ns < best ? ns : best;
    }
    return best;
}

/* Separate of neighbours, and of each element with the first and the last one. */
static void longest_separate(struct longest *l, unsigned side, unsigned workload, unsigned rounds)
{
    const struct library *library = &sides[side];
    const struct tables *t = &inputs[workload].t;
    const char *name = workloads[workload].name;
    const unsigned n = (unsigned)t->n;
    for (unsigned x = 1; x < n; x++) {
        keep_longest(l, separate_time(library, t, x - 1, x, rounds), name);
        keep_longest(l, separate_time(library, t, 0, x, rounds), name);
        keep_longest(l, x + 1 < n ? separate_time(library, t, x, n - 1, rounds) : 0, name);
    }
}

static void print_longest(unsigned rounds)
{
    printf("\nlongest calls, hard workloads\n%-10s %-10s %9s %9s  on\n", "service", "side", "ms", "aim");
    for (enum service s = SEPARATE; s <= CERTIFY; s++) {
        for (unsigned side = SIDES; side-- > 0;) {
            struct longest l = {0, ""};
            if (!is_there(s)) {
                continue;
            }
            for (unsigned i = 0; i < WORKLOADS; i++) {
                if (workloads[i].hard && s == SEPARATE) {
                    longest_separate(&l, side, i, rounds);
                } else if (workloads[i].hard) {
                    keep_longest(&l, taken[i][s][side], workloads[i].name);
                }
            }
            printf("%-10s %-10s %9.3f %9.0f  %s%s\n", services[s], side == BASELINE ? "baseline" : "proved", l.ms,
                   call_aim[s], l.on, l.ms > call_aim[s] ? ", above the aim" : "");
        }
    }
}

static double decompose_time(const struct library *l, const struct tables *t, unsigned rounds)
{
    static double values[MAX_ROUNDS];
    static uint8_t out[MAX_OUT];
    for (unsigned r = 0; r < rounds; r++) {
        const double start = now();
        for (unsigned k = 0; k < 4; k++) {
            decompose(l, t, out);
        }
        values[r] = (now() - start) / 4;
    }
    return median(values, rounds);
}

/* The exponent: from 32 to 64 elements the time is multiplied by 2 to that power. */
static void print_growth(unsigned rounds)
{
    static const unsigned sizes[] = {8, 16, 32, 64};
    static const struct {
        const char *name;
        void (*make)(struct tables *);
    } grown[] = {{"no operations", make_none},
                 {"chain, meet and join", make_chain},
                 {"8 binary projections", make_projections},
                 {"saturated sum", make_saturated}};
    static struct tables t;
    printf("\ngrowth of decompose, us        side      %8u %10u %10u %10u   exponent\n", 8, 16, 32, 64);
    for (unsigned f = 0; f < sizeof grown / sizeof *grown; f++) {
        for (unsigned side = SIDES; side-- > 0;) {
            double us[4];
            printf("%-30s %-8s", grown[f].name, side == BASELINE ? "baseline" : "proved");
            for (unsigned i = 0; i < 4; i++) {
                make_tables(&t, grown[f].make, sizes[i]);
                us[i] = decompose_time(&sides[side], &t, rounds < 40 ? rounds : 40) / 1e3;
                printf(" %10.2f", us[i]);
            }
            printf(" %10.1f\n", log2(us[3] / us[2]));
        }
    }
}

int main(int argc, char **argv)
{
    unsigned rounds = argc > 1 ? (unsigned)atoi(argv[1]) : 25;
    rounds = rounds < 1 ? 1 : rounds > MAX_ROUNDS ? MAX_ROUNDS : rounds;
    choose_inputs();
    if (SIDES == 1) {
        printf("The proved library is not linked: the baseline alone.\n");
    }
    if (!is_there(CERTIFY)) {
        printf("The probe is not linked: certify and quotient are left out.\n");
    }
    const unsigned wrong = print_table(rounds);
    if (SIDES == 2) {
        print_services();
    }
    print_longest(rounds);
    print_growth(rounds);
    return wrong != 0;
}
