/* The algebras of the race: groups, lattices, ternary, unary and random operations,
 * none; and those that are hard for the search of congruences. tests/alike.c takes
 * most of them with fewer elements too. */
#ifndef WORKLOADS_H
#define WORKLOADS_H

#include <stddef.h>
#include <stdint.h>
#include <string.h>

enum { MAX_CELLS_OF_ALL = 32768 };

struct tables {
    size_t n, operations, cells_len;
    uint8_t arities[16];
    uint8_t cells[MAX_CELLS_OF_ALL];
};

/* ---- random numbers -------------------------------------------------------- */

static uint64_t workload_state = 2025;

static uint64_t any_number(void)
{
    uint64_t z = workload_state += 0x9E3779B97F4A7C15u;
    z = (z ^ (z >> 30)) * 0xBF58476D1CE4E5B9u;
    z = (z ^ (z >> 27)) * 0x94D049BB133111EBu;
    return z ^ (z >> 31);
}

static unsigned any_below(unsigned end)
{
    return (unsigned)(any_number() % end);
}

/* ---- tables ---------------------------------------------------------------- */

static size_t tables_power(size_t n, unsigned s)
{
    return s == 0 ? 1 : n * tables_power(n, s - 1);
}

/* The same algebra with its elements renamed at random. */
static void rename_elements(struct tables *t)
{
    static uint8_t cells[MAX_CELLS_OF_ALL];
    uint8_t to[64];
    const size_t n = t->n;
    const uint8_t *old = t->cells;
    uint8_t *new = cells;
    for (unsigned x = 0; x < n; x++) {
        const unsigned y = any_below(x + 1);
        to[x] = to[y];
        to[y] = (uint8_t)x;
    }
    for (unsigned i = 0; i < t->operations; i++) {
        const size_t size = tables_power(n, t->arities[i]);
        for (size_t at = 0; at < size; at++) {
            size_t place = 0;
            for (size_t step = 1; step < size; step *= n) {
                place += to[at / step % n] * step;
            }
            new[place] = to[old[at]];
        }
        old += size;
        new += size;
    }
    memcpy(t->cells, cells, t->cells_len);
}

/* ---- operations ------------------------------------------------------------ */

/* Of n elements; k tells operations of one kind apart. */
typedef unsigned unary(unsigned x, unsigned n, unsigned k);
typedef unsigned binary(unsigned x, unsigned y, unsigned n, unsigned k);
typedef unsigned ternary(unsigned x, unsigned y, unsigned z, unsigned n);

static void add_unary(struct tables *t, unary *f, unsigned k)
{
    const unsigned n = (unsigned)t->n;
    t->arities[t->operations++] = 1;
    for (unsigned x = 0; x < n; x++) {
        t->cells[t->cells_len++] = (uint8_t)f(x, n, k);
    }
}

static void add_binary(struct tables *t, binary *f, unsigned k)
{
    const unsigned n = (unsigned)t->n;
    t->arities[t->operations++] = 2;
    for (unsigned x = 0; x < n; x++) {
        for (unsigned y = 0; y < n; y++) {
            t->cells[t->cells_len++] = (uint8_t)f(x, y, n, k);
        }
    }
}

static void add_ternary(struct tables *t, ternary *f)
{
    const unsigned n = (unsigned)t->n;
    t->arities[t->operations++] = 3;
    for (unsigned x = 0; x < n; x++) {
        for (unsigned y = 0; y < n; y++) {
            for (unsigned z = 0; z < n; z++) {
                t->cells[t->cells_len++] = (uint8_t)f(x, y, z, n);
            }
        }
    }
}

#define OF1(name) static unsigned name(unsigned x, unsigned n, unsigned k)
#define OF2(name) static unsigned name(unsigned x, unsigned y, unsigned n, unsigned k)
#define OF3(name) static unsigned name(unsigned x, unsigned y, unsigned z, unsigned n)
#define UNUSED(a, b) ((void)(a), (void)(b))

static unsigned lesser(unsigned x, unsigned y) { return x < y ? x : y; }
static unsigned larger(unsigned x, unsigned y) { return x < y ? y : x; }

OF1(any1) { UNUSED(x, k); return any_below(n); }
OF1(up) { (void)k; return lesser(x + 1, n - 1); }

OF2(exclusive) { UNUSED(n, k); return x ^ y; }
OF2(sum) { (void)k; return (x + y) % n; }
OF2(least) { UNUSED(n, k); return lesser(x, y); }
OF2(most) { UNUSED(n, k); return larger(x, y); }
OF2(both) { UNUSED(n, k); return x & y; }
OF2(either) { UNUSED(n, k); return x | y; }
OF2(any2) { UNUSED(x, y); (void)k; return any_below(n); }
OF2(argument) { (void)n; return k % 2 ? y : x; }
OF2(saturated) { return lesser(x + y + k, n - 1); }
OF2(implication) { (void)k; return x <= y ? n - 1 : y; }
OF2(next_if_equal) { (void)k; return x == y ? (x + 1) % n : x; }
OF2(up_if_equal) { return x == y ? lesser(x + 1 + k, n - 1) : x; }

/* The lattice of atoms between bottom and top: simple where there are three. */
OF2(meet_of_atoms) { (void)k; return x == y || y == n - 1 ? x : x == n - 1 ? y : 0; }
OF2(join_of_atoms) { (void)k; return x == y || y == 0 ? x : x == 0 ? y : n - 1; }

/* r^i s^j of the dihedral group of order 2m is i + j m. */
static unsigned dihedral_of(unsigned x, unsigned y, unsigned m)
{
    const unsigned i = x % m, k = y % m, s = x / m, t = y / m;
    return (s ? i + m - k : i + k) % m + m * (s ^ t);
}

OF2(dihedral) { (void)k; return dihedral_of(x, y, n / 2); }
OF2(two_dihedral) { UNUSED(n, k); return 8 * dihedral_of(x / 8, y / 8, 4) + dihedral_of(x % 8, y % 8, 4); }

/* Eight operations of a product of two algebras of eight elements. */
OF2(of_product) { (void)n; return (x / 8 * (k + 1) + y / 8) % 8 * 8 + (x + y * (2 * k + 1)) % 8; }

OF3(sum_of_three) { return (x + y + z) % n; }
OF3(saturated_of_three) { return lesser(x + y + z, n - 1); }
OF3(median_of_three) { (void)n; return larger(lesser(x, y), lesser(larger(x, y), z)); }
OF3(middle) { UNUSED(x, z); (void)n; return y; }
OF3(up_if_all_equal) { return x == y && y == z ? lesser(x + 1, n - 1) : x; }
OF3(discriminator) { (void)n; return x == y ? z : x; }
OF3(any3) { UNUSED(x, y); (void)z; return any_below(n); }

/* ---- monoliths ------------------------------------------------------------- */

/* Classes of elements: so many pairs {2j, 2j + 1}, then single elements. */
static unsigned class_of(unsigned x, unsigned pairs) { return x < 2 * pairs ? x / 2 : x - pairs; }
static unsigned first_of(unsigned class, unsigned pairs) { return class < pairs ? 2 * class : class + pairs; }

/* To the first member of the next class. */
OF1(next_class) { return first_of((class_of(x, k) + 1) % (n - k), k); }

/* k is 64 o and the number of pairs. For y in a pair: its first member if x is in
 * class o, else its second; for another y the first member of the class o
 * behind. */
OF2(mark_pair)
{
    const unsigned o = k / 64, pairs = k % 64, classes = n - pairs;
    if (y < 2 * pairs) {
        return y / 2 * 2 + (class_of(x, pairs) != o);
    }
    return first_of((class_of(y, pairs) + o) % classes, pairs);
}

/* Each pair alone is joined by a least congruence; joining elements of two classes
 * joins all. There is room for seven marks. */
static void monoliths(struct tables *t, unsigned pairs)
{
    add_unary(t, next_class, pairs);
    for (unsigned o = 0; o < 7; o++) {
        add_binary(t, mark_pair, 64 * o + pairs);
    }
}

/* The same renamed, in a way of which a search takes long. */
static void renamed_monoliths(struct tables *t, unsigned pairs)
{
    const uint64_t state = workload_state;
    monoliths(t, pairs);
    workload_state = 336;
    rename_elements(t);
    workload_state = state;
}

/* ---- workloads ------------------------------------------------------------- */

static void many_binary(struct tables *t, binary *f, unsigned count)
{
    for (unsigned k = 0; k < count; k++) {
        add_binary(t, f, k);
    }
}

static void many_unary(struct tables *t, unary *f, unsigned count)
{
    for (unsigned k = 0; k < count; k++) {
        add_unary(t, f, k);
    }
}

static void two_binary(struct tables *t, binary *f, binary *g)
{
    add_binary(t, f, 0);
    add_binary(t, g, 0);
}

static void least_with_up(struct tables *t)
{
    add_binary(t, least, 0);
    add_unary(t, up, 0);
}

#define MAKES(name, body) static void name(struct tables *t) { body; }

MAKES(make_elementary, add_binary(t, exclusive, 0))
MAKES(make_cyclic, add_binary(t, sum, 0))
MAKES(make_dihedral, add_binary(t, dihedral, 0))
MAKES(make_two_dihedral, add_binary(t, two_dihedral, 0))
MAKES(make_chain, two_binary(t, least, most))
MAKES(make_boolean, two_binary(t, both, either))
MAKES(make_ternary_sum, add_ternary(t, sum_of_three))
MAKES(make_median, add_ternary(t, median_of_three))
MAKES(make_middle, add_ternary(t, middle))
MAKES(make_any_ternary, add_ternary(t, any3))
MAKES(make_one_unary, many_unary(t, any1, 1))
MAKES(make_many_unary, many_unary(t, any1, 16))
MAKES(make_none, (void)t)
MAKES(make_product, many_binary(t, of_product, 8))
MAKES(make_projections, many_binary(t, argument, 8))
MAKES(make_many_binary, many_binary(t, any2, 8))
MAKES(make_two_monoliths, monoliths(t, (unsigned)t->n / 32))
MAKES(make_some_monoliths, monoliths(t, (unsigned)t->n / 4))
MAKES(make_most_monoliths, monoliths(t, (unsigned)t->n / 2))
MAKES(make_renamed_monoliths, renamed_monoliths(t, (unsigned)t->n / 2))
MAKES(make_next, add_binary(t, next_if_equal, 0))
MAKES(make_up, add_binary(t, up_if_equal, 0))
MAKES(make_many_up, many_binary(t, up_if_equal, 8))
MAKES(make_ternary_up, add_ternary(t, up_if_all_equal))
MAKES(make_least_up, least_with_up(t))
MAKES(make_saturated, add_binary(t, saturated, 0))
MAKES(make_many_saturated, many_binary(t, saturated, 8))
MAKES(make_implication, add_binary(t, implication, 0))
MAKES(make_atoms, two_binary(t, meet_of_atoms, join_of_atoms))
MAKES(make_binary, add_binary(t, any2, 0))
MAKES(make_ternary_saturated, add_ternary(t, saturated_of_three))
MAKES(make_discriminator, add_ternary(t, discriminator))

/* An algebra of so many elements; whether it is made for fewer too, and whether it
 * is a hard one. */
struct workload {
    const char *name;
    unsigned n;
    int any_size, hard;
    void (*make)(struct tables *);
};

static const struct workload workloads[] = {
    {"elementary abelian group 64", 64, 0, 0, make_elementary},
    {"cyclic group 64", 64, 1, 0, make_cyclic},
    {"dihedral group 64", 64, 0, 0, make_dihedral},
    {"dihedral 8 x dihedral 8", 64, 0, 0, make_two_dihedral},
    {"chain 64, meet and join", 64, 1, 0, make_chain},
    {"Boolean lattice 64", 64, 0, 0, make_boolean},
    {"32, ternary sum", 32, 1, 0, make_ternary_sum},
    {"32, median", 32, 1, 0, make_median},
    {"32, ternary projection", 32, 1, 0, make_middle},
    {"32, ternary random", 32, 1, 0, make_any_ternary},
    {"64, 1 unary", 64, 1, 0, make_one_unary},
    {"64, 16 unary", 64, 1, 0, make_many_unary},
    {"64, no operations", 64, 1, 0, make_none},
    {"64, 8 binary of a product", 64, 0, 0, make_product},
    {"64, 8 binary projections", 64, 1, 0, make_projections},
    {"64, 8 binary random", 64, 1, 0, make_many_binary},
    {"64, monoliths(2)", 64, 0, 1, make_two_monoliths},
    {"64, monoliths(16)", 64, 1, 1, make_some_monoliths},
    {"64, monoliths(32)", 64, 1, 1, make_most_monoliths},
    {"64, monoliths(32), renamed", 64, 1, 1, make_renamed_monoliths},
    {"64, x + 1 if x = y", 64, 1, 1, make_next},
    {"64, the same, saturated", 64, 1, 1, make_up},
    {"64, 8 of it, x + 1 to x + 8", 64, 1, 1, make_many_up},
    {"32, x + 1 if x = y = z", 32, 1, 1, make_ternary_up},
    {"64, minimum with up", 64, 1, 1, make_least_up},
    {"64, saturated sum", 64, 1, 1, make_saturated},
    {"64, 8 saturated sums", 64, 1, 1, make_many_saturated},
    {"64, implication", 64, 1, 1, make_implication},
    {"64, lattice of atoms, simple", 64, 1, 1, make_atoms},
    {"64, binary random, simple", 64, 1, 1, make_binary},
    {"32, ternary saturated sum", 32, 1, 1, make_ternary_saturated},
    {"32, discriminator, simple", 32, 1, 1, make_discriminator},
};

enum { WORKLOADS = sizeof workloads / sizeof *workloads };

static void make_tables(struct tables *t, void (*make)(struct tables *), unsigned n)
{
    t->n = n;
    t->operations = t->cells_len = 0;
    make(t);
}

#endif
