/* Stands in for the proved static libraries while they are not there, and shows
 * that the comparisons can fail.
 *
 * The four services of include/congruence.h go to the optimized baseline; the
 * fifteen functions of tests/PROBE.md are written out plainly here, but that the
 * baseline says whether a quotient is irreducible. The environment variable
 * STANDIN_FAULT names one fault of the list below; without it there is none. */
#include <stdlib.h>
#include <string.h>

#include "../benches/baseline.h"
#include "../include/congruence.h"

enum { SHEETS = 8, STRIDE = 64, NO_PLACE = 65535 };

/* ---- faults ------------------------------------------------------------- */

static const char *const faults[] = {
    "",
    "closes-once",          /* generate: operations applied to the given pairs only */
    "first-argument",       /* generate: only the first argument is varied */
    "one-round",            /* contained: one splitting round */
    "last-member",          /* generate: blocks named by their last member */
    "reducible-too-early",  /* decompose: the list before the dropping */
    "always-irreducible",   /* decompose: 11 before looking */
    "identities",           /* decompose: the first factor, then identities */
    "fixed-identity",       /* every map is the identity */
    "fixed-all",            /* every map is all */
    "refuses",              /* everything is refused with 9 */
    "merges",               /* the merge count is one too high */
    "scratch",              /* decompose writes past count * n */
    "before",               /* the byte before the output is written */
    "after",                /* the byte after the output is written */
    "input",                /* a cell is written */
    "truncates",            /* n is cut to one byte */
    "order",                /* 9 is tested before 7 and 8 */
    "pair",                 /* 11 carries its pair turned */
    "prefix",               /* the first n bytes of a longer map count */
    "separate-turned",      /* separate takes the latest congruence's pairs first */
    "space-irreducible",    /* decompose: an irreducible algebra wants n bytes */
    "space-early",          /* decompose: a byte more is wanted than the factors take */
    "space-late",           /* decompose: a byte less is enough */
    "space-old",            /* decompose: (n - 1) * n bytes are wanted */
    "space-listed",         /* decompose: what the list takes before the dropping is wanted */
    "space-scratch",        /* decompose: the lent bytes are written before 9 is said */
    "space-count",          /* decompose: 9 carries the count */
    "space-first",          /* decompose: 9 is tested before 1 to 6 */
    "bound-stops",          /* separate: the search ends after the first row, with what is joined so far */
    "bound-in-row",         /* separate: a pair that is refused bounds the row before its end */
    "bound-other",          /* separate: the bound cuts off the block of v, not that of the row */
    "bound-unrefined",      /* separate: the bound is no congruence, and it is answered */
    "kept-open",            /* decompose: from the third congruence on, what a pair gives is closed once only */
    "meet", "join", "prefer", "quotient",
    "certify",              /* a factor may have any quotient */
    "certify-two",          /* a quotient of two factors counts as irreducible */
    "certify-three",        /* a quotient of three blocks counts as irreducible */
    "place-next",           /* the place of the pair behind it */
    "place-128",            /* a row's start is x * (128 - x) / 2 */
    "place-halved",         /* halved before it is multiplied */
    "place-narrow",         /* multiplied in one byte */
    "place-same",           /* two equal elements have a place */
    "place-turned",         /* pairs come in either order */
    "place-beyond",         /* 64 is an element too */
    "start",                /* the last tally does not begin at 0 */
    "start-tallies",        /* the tallies keep what was lent */
    "start-earlier",        /* `earlier` keeps what was lent */
    "start-unwritten",      /* refused, nothing is written */
    "other-sheet",          /* add writes another sheet */
    "add-joins",            /* add joins what the next sheet's map joins */
    "add-forgets",          /* add drops the next sheet's last point */
    "add-stays",            /* add changes nothing where the next sheet is full of points */
    "clear-tally",          /* clear lowers the sheet's tally */
    "clear-high",           /* clear drops the tally's four high bytes */
    "clear-earlier",        /* clear drops what was earlier */
    "clear-settles",        /* clear moves the sheet's tally to `earlier` */
    "start-points",         /* the points keep what was lent */
    "add-points",           /* add gives the sheet's first point the new map */
    "clear-points",         /* clear drops the sheet's points */
    "set-identity",         /* set stores the identity */
    "set-bytes",            /* set stores n bytes */
    "set-full",             /* 16 where eight are held though the name is one of them */
    "set-ninth",            /* a ninth name takes the first place */
    "set-again",            /* a name that is held gets a second place */
    "set-last",             /* a name that is held goes to the last place */
    "set-sheet",            /* set writes another sheet's point */
    "set-tally",            /* set drops the sheet's tally */
    "set-earlier",          /* set drops what was earlier */
    "return-tally",         /* return raises the tally by the blocks lost */
    "return-drops",         /* return drops the sheet's tally */
    "return-earlier",       /* return drops what was earlier */
    "return-bytes",         /* return copies 64 bytes */
    "return-first",         /* return takes the first point, whatever its name */
    "return-forgets",       /* return drops the point if it is the last */
    "return-joins",         /* return gives no smaller map than the sheet's */
    "forget-last",          /* forget drops the last point */
    "forget-shifts",        /* the points behind the freed place move up */
    "forget-zeros",         /* the place that was the last is set to zeros */
    "forget-name",          /* the last point's name moves and its map does not */
    "forget-stays",         /* the point is dropped only where it is the last */
    "forget-tally",         /* forget drops the sheet's tally */
    "forget-earlier",       /* forget drops what was earlier */
    "point-map",            /* 8 does not look at the points' maps */
    "point-eighth",         /* 8 does not look at the map in the eighth place */
    "point-free",           /* 8 looks at the maps in free places too */
    "point-free-names",     /* 8 looks at the names in free places too */
    "point-past",           /* 8 looks at bytes past n of a point */
    "point-count",          /* a count above eight is taken for eight */
    "point-nine",           /* a count of nine is taken for eight */
    "point-twins",          /* two points of one name are no fault */
    "point-neighbours",     /* only points next to each other must differ in name */
    "point-sheets",         /* points of two sheets must differ in name too */
    "point-one-sheet",      /* 8 looks at the first sheet's points only */
    "point-seven-sheets",   /* 8 does not look at the last sheet's points */
    "point-seven-bytes",    /* names are compared by seven bytes */
    "point-text",           /* names are compared up to a byte 0 */
    "point-zeros",          /* zeros are no name */
    "point-anywhere",       /* an unknown name is looked for on all sheets */
    "point-exchanged",      /* 15 and 16 are exchanged */
    "point-eight-first",    /* 8 is tested before 7 */
    "point-fifteen-first",  /* 15 and 16 are tested before 8 */
    "point-narrow",         /* the sheet is cut to 32 bits */
    "point-top",            /* 13 at the top of the tally */
    "point-name-length",    /* a longer name is taken */
    "bench-length",         /* a longer image is taken */
    "tally",                /* 13 is never said */
    "tally-old",            /* 13 at the top of 32 bits */
    "tally-signed",         /* 13 at the top of 63 bits */
    "tally-early",          /* 13 where the top would be met */
    "tally-zero",           /* 13 at the top though nothing is lost */
    "tally-wraps",          /* 13 only where the sum has wrapped to 0 */
    "tally-stays",          /* the tally stops at the top, and 0 is said */
    "tally-four",           /* only four bytes of the tally are written */
    "tally-neighbour",      /* another sheet's tally is raised */
    "tally-both",           /* another sheet's tally is raised too */
    "tally-all",            /* all eight are raised */
    "tally-one",            /* the first sheet's is raised, whichever the sheet */
    "tally-earlier",        /* `earlier` is raised */
    "tally-earlier-too",    /* `earlier` is raised too */
    "tally-sum-eight",      /* 13 by the sum of the eight */
    "tally-sum-nine",       /* 13 by the sum of the nine */
    "tally-looks-first",    /* 13 looks at the first sheet's */
    "tally-looks-next",     /* 13 looks at another sheet's too */
    "tally-looks-all",      /* 13 looks at all eight */
    "tally-looks-earlier",  /* 13 looks at `earlier` too */
    "tally-refused",        /* with 13 the tally goes to the top */
    "tally-turned",         /* the last sheet's tally comes first */
    "tally-high-first",     /* a tally's highest byte comes first */
    "tally-behind",         /* `earlier` comes before the tallies */
    "convert-high",         /* the two high bytes of the old tally are dropped */
    "convert-signed",       /* the old tally's highest bit is a sign */
    "convert-behind",       /* the four high bytes of the tally keep what was lent */
    "convert-sheet",        /* the last sheet is dropped */
    "convert-past",         /* bytes past n become 0 */
    "convert-all-bytes",    /* 8 looks at bytes past n too */
    "convert-one-sheet",    /* 8 looks at the first sheet only */
    "convert-seven-sheets", /* 8 does not look at the last sheet */
    "convert-last",         /* 8 does not look at a map's last byte */
    "convert-rising",       /* a byte at most its index is enough for a map */
    "convert-eight-first",  /* 8 is tested before 1 */
    "convert-untested",     /* n is not tested */
    "convert-old",          /* refused, the old bench is given */
    "convert-unwritten",    /* refused, nothing is written */
    "convert-input",        /* the old image is written */
    "convert-after",        /* the byte after the new image is written */
    "convert-length",       /* a longer old image is taken */
    "convert-new-length",   /* a longer new image is lent and taken */
    "convert-across",       /* the first kind is converted to the third */
    "convert-copy",         /* the second kind is converted to itself */
    "convert-point",        /* each sheet gets a point */
    "convert-points",       /* the points keep what was lent */
    /* The same of the third kind alone. */
    "third-high", "third-signed", "third-behind", "third-sheet", "third-past", "third-all-bytes",
    "third-one-sheet", "third-seven-sheets", "third-last", "third-rising", "third-eight-first", "third-untested",
    "third-old", "third-unwritten", "third-input", "third-after", "third-length", "third-new-length",
    "third-across",         /* the second kind is converted to the fourth */
    "third-copy",           /* the third kind is converted to itself */
    "third-today",          /* the fourth kind is converted to itself */
    "third-back",           /* the fourth kind is converted to the third */
    "third-spread",         /* the total is spread over the sheets */
    "third-first",          /* the total goes to the first sheet */
    "third-too",            /* the last sheet's tally is the total too */
    "third-drops",          /* the total is dropped */
    "third-tallies",        /* the tallies keep what was lent */
    "third-short",          /* refused, only as many zeros as the old image has are written */
    "third-behind-all",     /* the tallies come behind the points */
    "third-points",         /* the points are dropped */
    "third-last-points",    /* the last sheet's points are dropped */
    "third-free",           /* free places become zeros */
    "third-point-past",     /* a point's bytes past n become 0 */
    "third-point-names",    /* the points' last name byte is dropped */
    "third-untested-points",/* 8 does not look at the points */
    "third-one-points",     /* 8 looks at the first sheet's points only */
    "third-seven-points",   /* 8 does not look at the last sheet's points */
    "third-free-tested",    /* 8 looks at the maps in free places too */
    "third-past-tested",    /* 8 looks at bytes past n of a point */
    "third-count",          /* a count above eight is taken for eight */
    "third-twins",          /* two points of one name are no fault */
    "write-length",         /* the length is one too high */
    "write-nine-early",     /* a byte more is wanted than the text has */
    "write-nine-late",      /* a byte less is enough */
    "write-first",          /* a byte is written before 9 is said */
    "write-behind",         /* the text is ended by a byte 0 */
    "write-round",          /* 9 by a round figure and not by the text's length */
    "write-order",          /* 9 is tested before 6 */
    "write-last",           /* a row is of one digit where all but its last number are */
    "read-nine-early",      /* 32,768 bytes are too few */
    "read-nine-late",       /* 32,767 bytes are enough */
    "read-exact",           /* as many bytes as there are cells are enough */
    "read-text-first",      /* the text is looked at before the lent length */
    "read-early-cells",     /* cells are written while the text is judged */
    "read-skips-request",   /* a request line is passed over */
    "read-limit",           /* above 65,536 bytes are 14 */
    "read-behind",          /* zeros are written behind the cells */
    "read-arities",         /* the arities behind the count are not 0 */
    "read-head",            /* a refusal leaves the size read so far */
    "read-second-size",     /* a second size line is passed over */
    "read-late-six",        /* 6 is tested at the end of the text */
    "read-early-six",       /* 6 is tested before the form of the whole line */
    "read-late-four",       /* 2, 3 and 4 are tested behind the line's form */
    "read-unended",         /* the last line may lack its end */
    "read-zeros",           /* numbers may begin with 0 */
    "read-last-gap",        /* any byte may part the last two numbers of a long row */
};

static int fault(const char *name)
{
    static int chosen = -1;
    const int count = (int)(sizeof faults / sizeof *faults);
    if (chosen < 0) {
        const char *wanted = getenv("STANDIN_FAULT");
        chosen = 0;
        for (int i = 0; wanted && i < count; i++) {
            if (strcmp(wanted, faults[i]) == 0) {
                chosen = i;
            }
        }
        if (wanted && *wanted && chosen == 0) {
            abort();
        }
    }
    return chosen != 0 && strcmp(name, faults[chosen]) == 0;
}

/* ---- maps and tables ------------------------------------------------------ */

static int is_map(size_t n, const uint8_t *m, size_t len)
{
    if (len != n) {
        return 0;
    }
    for (size_t x = 0; x < n; x++) {
        if (m[x] > x || m[m[x]] != m[x]) {
            return 0;
        }
    }
    return 1;
}

static size_t blocks(size_t n, const uint8_t *m)
{
    size_t count = 0;
    for (size_t x = 0; x < n; x++) {
        count += m[x] == x;
    }
    return count;
}

static int join_pair(size_t n, uint8_t *m, uint8_t x, uint8_t y)
{
    const uint8_t a = m[x] < m[y] ? m[x] : m[y], b = m[x] < m[y] ? m[y] : m[x];
    for (size_t z = 0; z < n; z++) {
        m[z] = m[z] == b ? a : m[z];
    }
    return a != b;
}

static void meet(size_t n, uint8_t *out, const uint8_t *a, const uint8_t *b)
{
    for (size_t x = 0; x < n; x++) {
        size_t first = 0;
        while (a[first] != a[x] || b[first] != b[x]) {
            first++;
        }
        out[x] = (uint8_t)first;
    }
}

static size_t power(size_t n, unsigned s)
{
    return s == 0 ? 1 : n * power(n, s - 1);
}

/* Reasons 1 to 6, asked of the baseline with nothing else to refuse. */
static uint32_t algebra_reason(size_t n, const uint8_t *arities, size_t arities_len,
                               const uint8_t *cells, size_t cells_len)
{
    uint8_t map[STRIDE];
    return baseline_generate(n, arities, arities_len, cells, cells_len, NULL, 0, map, STRIDE) & 255;
}

/* One pass over all translations: joins, or tells, where the map is not
 * respected. `positions` limits the arguments that are varied. */
static int pass(size_t n, const uint8_t *arities, size_t arities_len, const uint8_t *cells,
                uint8_t *m, int join, unsigned positions)
{
    int found = 0;
    for (size_t i = 0; i < arities_len; i++) {
        const size_t size = power(n, arities[i]);
        for (unsigned k = 0; k < arities[i] && k < positions; k++) {
            const size_t step = power(n, arities[i] - 1 - k);
            for (size_t place = 0; place < size; place++) {
                const size_t x = place / step % n;
                const uint8_t p = cells[place], q = cells[place - x * step + m[x] * step];
                if (m[p] != m[q]) {
                    found = 1;
                    if (join) {
                        join_pair(n, m, p, q);
                    }
                }
            }
        }
        cells += size;
    }
    return found;
}

/* ---- the four services ---------------------------------------------------- */

static uint32_t spoil(uint32_t number, size_t n, uint8_t *out, size_t out_len)
{
    if (fault("refuses")) {
        return 9;
    }
    if ((number & 255) == 0 && out_len > 0) {
        for (size_t x = 0; x < n && (fault("fixed-identity") || fault("fixed-all")); x++) {
            out[x] = (uint8_t)(fault("fixed-all") ? 0 : x);
        }
        if (fault("before")) {
            out[-1]++;
        }
        if (fault("after")) {
            out[out_len]++;
        }
    }
    return number;
}

uint32_t congruence_generate(size_t n, const uint8_t *arities, size_t arities_len,
                             const uint8_t *cells, size_t cells_len,
                             const uint8_t *pairs, size_t pairs_len, uint8_t *out, size_t out_len)
{
    if (fault("truncates")) {
        n = (uint8_t)n;
    }
    uint32_t number = baseline_generate(n, arities, arities_len, cells, cells_len, pairs, pairs_len,
                                        out, out_len);
    if (number == 7 && out_len < n && fault("order")) {
        return 9;
    }
    if ((number & 255) == 0 && (fault("closes-once") || fault("first-argument"))) {
        uint8_t m[STRIDE];
        baseline_generate(n, NULL, 0, NULL, 0, pairs, pairs_len, m, STRIDE);
        if (fault("closes-once")) {
            pass(n, arities, arities_len, cells, m, 1, 3);
        }
        while (fault("first-argument") && pass(n, arities, arities_len, cells, m, 1, 1)) {
        }
        memcpy(out, m, n);
        number = 256 * (uint32_t)(n - blocks(n, m));
    }
    if ((number & 255) == 0 && fault("last-member")) {
        uint8_t last[STRIDE];
        for (size_t x = 0; x < n; x++) {
            last[out[x]] = (uint8_t)x;
        }
        for (size_t x = 0; x < n; x++) {
            out[x] = last[out[x]];
        }
    }
    if ((number & 255) == 0 && fault("merges")) {
        number += 256;
    }
    if (cells_len > 0 && fault("input")) {
        ((uint8_t *)cells)[0] ^= 1;
    }
    return spoil(number, n, out, out_len);
}

uint32_t congruence_contained(size_t n, const uint8_t *arities, size_t arities_len,
                              const uint8_t *cells, size_t cells_len,
                              const uint8_t *map, size_t map_len, uint8_t *out, size_t out_len)
{
    if (map_len > n && fault("prefix")) {
        map_len = n;
    }
    uint32_t number = baseline_contained(n, arities, arities_len, cells, cells_len, map, map_len,
                                         out, out_len);
    if ((number & 255) == 0 && fault("one-round")) {
        /* Only against the first member, by the blocks as they were given. */
        uint8_t kept[STRIDE];
        memcpy(kept, map, n);
        for (size_t x = 0; x < n; x++) {
            const uint8_t *t = cells;
            for (size_t i = 0; i < arities_len; i++) {
                if (arities[i] == 1 && map[t[x]] != map[t[map[x]]]) {
                    kept[x] = (uint8_t)x;
                }
                t += power(n, arities[i]);
            }
        }
        for (size_t x = 0; x < n; x++) {
            out[x] = kept[x];
        }
    }
    return spoil(number, n, out, out_len);
}

/* The least congruence above the map that joins x and y. */
static void joined(size_t n, const uint8_t *arities, size_t arities_len, const uint8_t *cells, size_t cells_len,
                   const uint8_t *map, size_t x, size_t y, uint8_t *out)
{
    uint8_t pairs[2 * STRIDE + 2];
    for (size_t z = 0; z < n; z++) {
        pairs[2 * z] = (uint8_t)z;
        pairs[2 * z + 1] = map[z];
    }
    pairs[2 * n] = (uint8_t)x;
    pairs[2 * n + 1] = (uint8_t)y;
    baseline_generate(n, arities, arities_len, cells, cells_len, pairs, 2 * n + 2, out, STRIDE);
}

/* Separate by rows, with a bound after each: what is inside `up` and holds the block of x together or apart
 * from the rest. Without a fault it answers what the baseline does. */
static void separate_bounded(size_t n, const uint8_t *arities, size_t arities_len, const uint8_t *cells,
                             size_t cells_len, size_t v, size_t w, uint8_t *up)
{
    uint8_t map[STRIDE], next[STRIDE], cut[STRIDE];
    baseline_generate(n, NULL, 0, NULL, 0, NULL, 0, map, STRIDE);
    memset(up, 0, n);
    for (size_t x = 0; up[v] == up[w]; x++) {
        int refused = 0;
        if (map[x] != x) {
            continue;
        }
        for (size_t y = x + 1; y < n && !(refused && fault("bound-in-row")); y++) {
            if (map[y] == y && up[x] == up[y]) {
                joined(n, arities, arities_len, cells, cells_len, map, x, y, next);
                refused |= next[v] == next[w];
                if (next[v] != next[w]) {
                    memcpy(map, next, n);
                }
            }
        }
        if (fault("bound-stops")) {
            memcpy(up, map, n);
            return;
        }
        const uint8_t alone = fault("bound-other") ? map[v] : (uint8_t)x;
        size_t first[2] = {n, n};
        for (size_t y = 0; y < n; y++) {
            size_t *at = &first[map[y] == alone];
            *at = *at == n ? y : *at;
            cut[y] = (uint8_t)*at;
        }
        meet(n, next, up, cut);
        if (fault("bound-unrefined")) {
            memcpy(up, next, n);
        } else {
            baseline_contained(n, arities, arities_len, cells, cells_len, next, n, up, STRIDE);
        }
    }
}

uint32_t congruence_separate(size_t n, const uint8_t *arities, size_t arities_len,
                             const uint8_t *cells, size_t cells_len,
                             size_t v, size_t w, uint8_t *out, size_t out_len)
{
    uint32_t number = baseline_separate(n, arities, arities_len, cells, cells_len, v, w, out, out_len);
    if (number == 0 && (fault("bound-stops") || fault("bound-in-row") || fault("bound-other") ||
                        fault("bound-unrefined"))) {
        separate_bounded(n, arities, arities_len, cells, cells_len, v, w, out);
    }
    if (number == 0 && fault("separate-turned")) {
        uint8_t now[STRIDE], next[STRIDE];
        baseline_generate(n, arities, arities_len, cells, cells_len, NULL, 0, now, STRIDE);
        for (size_t x = n; x-- > 0;) {
            for (size_t y = n; y-- > x + 1;) {
                joined(n, arities, arities_len, cells, cells_len, now, x, y, next);
                if (next[v] != next[w]) {
                    memcpy(now, next, n);
                }
            }
        }
        memcpy(out, now, n);
    }
    return spoil(number, n, out, out_len);
}

/* Whether the maps, one of them left out, meet in the identity. */
static int meets_in_identity(size_t n, const uint8_t *maps, size_t count, size_t without)
{
    uint8_t now[STRIDE] = {0};
    for (size_t i = 0; i < count; i++) {
        if (i != without) {
            uint8_t next[STRIDE];
            meet(n, next, now, maps + i * n);
            memcpy(now, next, n);
        }
    }
    return blocks(n, now) == n;
}

/* Separate by joining what is kept for each pair: all congruences of pairs, or what one step of closing
 * makes of a pair. */
static void separate_kept(size_t n, const uint8_t *arities, size_t arities_len, const uint8_t *cells, size_t v, size_t w,
                          int open, uint8_t *now)
{
    baseline_generate(n, NULL, 0, NULL, 0, NULL, 0, now, STRIDE);
    for (size_t x = 0; x < n; x++) {
        for (size_t y = x + 1; y < n; y++) {
            uint8_t kept[STRIDE], next[STRIDE];
            if (now[x] == now[y]) {
                continue;
            }
            baseline_generate(n, NULL, 0, NULL, 0, NULL, 0, kept, STRIDE);
            join_pair(n, kept, (uint8_t)x, (uint8_t)y);
            while (pass(n, arities, arities_len, cells, kept, 1, 3) && !open) {
            }
            memcpy(next, now, n);
            for (size_t z = 0; z < n; z++) {
                join_pair(n, next, (uint8_t)z, kept[z]);
            }
            if (next[v] != next[w]) {
                memcpy(now, next, n);
            }
        }
    }
}

/* Decompose with pairs that are closed once only, from the third congruence on. */
static uint32_t decompose_open(size_t n, const uint8_t *arities, size_t arities_len, const uint8_t *cells,
                               uint8_t *maps)
{
    uint8_t now[STRIDE] = {0};
    size_t count = 0;
    for (size_t v = 0; v < n; v++) {
        for (size_t w = v + 1; w < n; w++) {
            if (now[v] == now[w]) {
                uint8_t next[STRIDE];
                separate_kept(n, arities, arities_len, cells, v, w, count >= 2, maps + count * n);
                meet(n, next, now, maps + count * n);
                memcpy(now, next, n);
                count++;
            }
        }
    }
    for (size_t i = 0; i < count;) {
        if (meets_in_identity(n, maps, count, i)) {
            count--;
            memmove(maps + i * n, maps + (i + 1) * n, (count - i) * n);
        } else {
            i++;
        }
    }
    return 256 * (uint32_t)count;
}

/* How many congruences Decompose lists before the dropping. */
static size_t listed(size_t n, const uint8_t *arities, size_t arities_len, const uint8_t *cells, size_t cells_len)
{
    uint8_t now[STRIDE] = {0};
    size_t count = 0;
    for (size_t v = 0; v < n; v++) {
        for (size_t w = v + 1; w < n; w++) {
            if (now[v] == now[w]) {
                uint8_t map[STRIDE], next[STRIDE];
                baseline_separate(n, arities, arities_len, cells, cells_len, v, w, map, STRIDE);
                meet(n, next, now, map);
                memcpy(now, next, n);
                count++;
            }
        }
    }
    return count;
}

/* The bytes that an accepted algebra with this answer wants lent. */
static size_t wanted_space(uint32_t number, size_t n, const uint8_t *arities, size_t arities_len,
                           const uint8_t *cells, size_t cells_len)
{
    if (fault("space-old")) {
        return (n - 1) * n;
    }
    if ((number & 255) == 11) {
        return fault("space-irreducible") ? n : 0;
    }
    if (fault("space-listed")) {
        return listed(n, arities, arities_len, cells, cells_len) * n;
    }
    return (number >> 8) * n + fault("space-early") - fault("space-late");
}

/* The maps that were found are written, or 9 is said. */
static uint32_t hand_over(uint32_t number, size_t n, size_t wanted, const uint8_t *maps, uint8_t *out,
                          size_t out_len)
{
    const uint32_t count = number >> 8 & 255;
    const size_t space = count * n;
    if (out_len < wanted) {
        if (out_len > 0 && fault("space-scratch")) {
            memcpy(out, maps, out_len);
        }
        return fault("space-count") ? 9 + 256 * count : 9;
    }
    if (space > 0) {
        memcpy(out, maps, out_len < space ? out_len : space);
    }
    return number;
}

uint32_t congruence_decompose(size_t n, const uint8_t *arities, size_t arities_len,
                              const uint8_t *cells, size_t cells_len, uint8_t *out, size_t out_len)
{
    uint8_t maps[STRIDE * STRIDE];
    uint32_t number = baseline_decompose(n, arities, arities_len, cells, cells_len, maps, sizeof maps);
    if (number >= 1 && number <= 6) {
        return out_len < n && fault("space-first") ? 9 : number;
    }
    if ((number & 255) == 0 && fault("always-irreducible")) {
        return 11 + (1 << 24);
    }
    if ((number & 255) == 0 && number >> 8 > 2 && n <= 16 && fault("kept-open")) {
        number = decompose_open(n, arities, arities_len, cells, maps);
    }
    const size_t wanted = wanted_space(number, n, arities, arities_len, cells, cells_len);
    number = hand_over(number, n, wanted, maps, out, out_len);
    const uint32_t reason = number & 255, count = number >> 8 & 255;
    if (reason == 11 && fault("pair")) {
        number = 11 + (number >> 24 << 16) + ((number >> 16 & 255) << 24);
    }
    if (reason == 11 && n > 1 && fault("reducible-too-early")) {
        if (baseline_separate(n, arities, arities_len, cells, cells_len, 0, 1, out, out_len) == 0) {
            return 256;
        }
    }
    if (reason == 0) {
        for (size_t k = n; k < count * n && fault("identities"); k++) {
            out[k] = (uint8_t)(k % n);
        }
        if (count * n < out_len && fault("scratch")) {
            out[count * n]++;
        }
    }
    if (reason == 0 && fault("refuses")) {
        return 9;
    }
    return number;
}

/* ---- the probe ------------------------------------------------------------ */

static uint32_t maps_reason(size_t n, const uint8_t *a, size_t a_len, const uint8_t *b, size_t b_len,
                            size_t out_len)
{
    if (n == 0 || n > STRIDE) {
        return 1;
    }
    if (!is_map(n, a, a_len) || !is_map(n, b, b_len)) {
        return 8;
    }
    return out_len < n ? 9 : 0;
}

uint32_t probe_meet(size_t n, const uint8_t *a, size_t a_len, const uint8_t *b, size_t b_len,
                    uint8_t *out, size_t out_len)
{
    const uint32_t reason = maps_reason(n, a, a_len, b, b_len, out_len);
    if (reason == 0) {
        meet(n, out, a, fault("meet") ? a : b);
    }
    return reason;
}

uint32_t probe_join(size_t n, const uint8_t *a, size_t a_len, const uint8_t *b, size_t b_len,
                    uint8_t *out, size_t out_len)
{
    const uint32_t reason = maps_reason(n, a, a_len, b, b_len, out_len);
    if (reason == 0) {
        memcpy(out, a, n);
        for (size_t x = 0; x < n; x++) {
            if (fault("join")) {
                out[x] = out[b[x]]; /* blocks that b brings together stay apart elsewhere */
            } else {
                join_pair(n, out, (uint8_t)x, b[x]);
            }
        }
    }
    return reason;
}

size_t probe_prefer(size_t n, const uint8_t *a, size_t a_len, const uint8_t *b, size_t b_len,
                    uint8_t *out, size_t out_len)
{
    const uint8_t *best = a;
    if (maps_reason(n, a, a_len, b, b_len, n) != 0 || out_len < n) {
        return 0;
    }
    for (size_t x = 0, found = 0; x < n && !found; x++) {
        for (size_t y = x + 1; y < n && !found; y++) {
            found = (a[x] == a[y]) != (b[x] == b[y]);
            if (found) {
                best = (a[x] == a[y]) != fault("prefer") ? a : b;
            }
        }
    }
    memcpy(out, best, n);
    return n;
}

/* The pairs in the rows before x, counted row by row but where the fault is one
 * of a formula. */
static uint32_t row_start(uint32_t x)
{
    uint32_t pairs = 0;
    if (fault("place-128")) {
        return x * (128 - x) / 2;
    }
    if (fault("place-halved")) {
        return x / 2 * (127 - x);
    }
    if (fault("place-narrow")) {
        return (uint8_t)(x * (127 - x)) / 2;
    }
    for (uint32_t row = 0; row < x; row++) {
        pairs += 63 - row;
    }
    return pairs;
}

uint32_t probe_place(uint8_t x, uint8_t y)
{
    if (x > y && fault("place-turned")) {
        return probe_place(y, x);
    }
    if (x > y || (x == y && !fault("place-same")) || y >= STRIDE + fault("place-beyond")) {
        return NO_PLACE;
    }
    return row_start(x) + y - x - !fault("place-next");
}

uint32_t probe_quotient(size_t n, const uint8_t *arities, size_t arities_len,
                        const uint8_t *cells, size_t cells_len, const uint8_t *map, size_t map_len,
                        uint8_t *out, size_t out_len)
{
    const uint32_t reason = algebra_reason(n, arities, arities_len, cells, cells_len);
    uint8_t number[STRIDE], first[STRIDE], copy[STRIDE];
    size_t b = 0, wanted = 0;
    if (reason) {
        return reason;
    }
    if (!is_map(n, map, map_len)) {
        return 8;
    }
    for (size_t x = 0; x < n; x++) {
        if (map[x] == x) {
            first[b] = (uint8_t)x;
            number[x] = (uint8_t)b++;
        } else {
            number[x] = number[map[x]];
        }
    }
    for (size_t i = 0; i < arities_len; i++) {
        wanted += power(b, arities[i]);
    }
    if (out_len < wanted) {
        return 9;
    }
    memcpy(copy, map, n);
    if (pass(n, arities, arities_len, cells, copy, 0, 3)) {
        return 12;
    }
    for (size_t i = 0; i < arities_len; i++) {
        const size_t size = power(b, arities[i]);
        for (size_t place = 0; place < size; place++) {
            size_t from = 0, rest = place;
            for (size_t step = 1, k = 0; k < arities[i]; k++, rest /= b, step *= n) {
                from += first[rest % b] * step;
            }
            *out++ = fault("quotient") ? cells[from] : number[cells[from]];
        }
        cells += power(n, arities[i]);
    }
    return 256 * (uint32_t)b;
}

/* Whether the congruence is maximal for some pair: its quotient is irreducible. */
static int is_maximal(size_t n, const uint8_t *arities, size_t arities_len, const uint8_t *cells, size_t cells_len,
                      const uint8_t *m)
{
    static uint8_t tables[32768];
    uint8_t factors[STRIDE * STRIDE];
    const size_t b = blocks(n, m);
    size_t wanted = 0;
    for (size_t i = 0; i < arities_len; i++) {
        wanted += power(b, arities[i]);
    }
    baseline_quotient(n, arities, arities_len, cells, cells_len, m, n, tables, sizeof tables);
    const uint32_t number = baseline_decompose(b, arities, arities_len, tables, wanted, factors, sizeof factors);
    if (b == 1 || fault("certify")) {
        return b > 1;
    }
    return (number & 255) == 11 || (number >> 8 == 2 && fault("certify-two")) || (b == 3 && fault("certify-three"));
}

uint32_t probe_certify(size_t n, const uint8_t *arities, size_t arities_len,
                       const uint8_t *cells, size_t cells_len, const uint8_t *maps, size_t maps_len)
{
    const uint32_t reason = algebra_reason(n, arities, arities_len, cells, cells_len);
    if (reason) {
        return reason;
    }
    const size_t count = maps_len / n;
    if (maps_len % n != 0 || count > 63) {
        return 8;
    }
    for (size_t i = 0; i < count; i++) {
        if (!is_map(n, maps + i * n, n)) {
            return 8;
        }
    }
    if (!meets_in_identity(n, maps, count, count)) {
        return 0;
    }
    for (size_t i = 0; i < count; i++) {
        uint8_t m[STRIDE];
        memcpy(m, maps + i * n, n);
        if (pass(n, arities, arities_len, cells, m, 0, 3) || meets_in_identity(n, maps, count, i) ||
            !is_maximal(n, arities, arities_len, cells, cells_len, m)) {
            return 0;
        }
    }
    return 256;
}

/* ---- the bench, as an image ----------------------------------------------- */

/* The sheets' maps, n and the tally, of which the first kind of bench has four bytes; from the third
 * kind on the points of each sheet, which are a count and eight places of a name and a map. The fourth
 * has a tally for each sheet, and behind them `earlier`. */
enum {
    SIZE_AT = SHEETS * STRIDE,
    TALLY_AT,
    TALLY = 8,
    EARLIER_AT = TALLY_AT + SHEETS * TALLY,
    POINTS_AT = EARLIER_AT + TALLY,
    PLACES = 8,
    NAME = 8,
    PLACE = NAME + STRIDE,
    POINTS = 1 + PLACES * PLACE,
    IMAGE_V1 = TALLY_AT + 4,
    IMAGE_V2 = TALLY_AT + TALLY,
    IMAGE_V3 = IMAGE_V2 + SHEETS * POINTS,
    IMAGE = POINTS_AT + SHEETS * POINTS,
    NO_IMAGE = 255
};

static int is_image(size_t image_len)
{
    return image_len == IMAGE || (image_len > IMAGE && fault("bench-length"));
}

static int is_size(size_t n)
{
    return n >= 1 && n <= STRIDE;
}

static uint64_t number_in(const uint8_t *bytes, size_t count)
{
    return count == 0 ? 0 : bytes[0] + (number_in(bytes + 1, count - 1) << 8);
}

static void put_little(uint8_t *bytes, size_t count, uint64_t number)
{
    for (size_t i = 0; i < count; i++) {
        bytes[i] = (uint8_t)(number >> (8 * i));
    }
}

static size_t tally_at(size_t sheet)
{
    if (fault("tally-turned")) {
        sheet = SHEETS - 1 - sheet;
    }
    return TALLY_AT + (fault("tally-behind") ? sheet + 1 : sheet) * TALLY;
}

static size_t earlier_at(void)
{
    return fault("tally-behind") ? TALLY_AT : EARLIER_AT;
}

static uint64_t turned(uint64_t number)
{
    uint8_t bytes[TALLY];
    put_little(bytes, TALLY, number);
    uint64_t other = 0;
    for (size_t i = 0; i < TALLY; i++) {
        other = other << 8 | bytes[i];
    }
    return other;
}

static uint64_t tally_of(const uint8_t *image, size_t sheet)
{
    const uint64_t tally = number_in(image + tally_at(sheet), TALLY);
    return fault("tally-high-first") ? turned(tally) : tally;
}

static void put_tally(uint8_t *image, size_t sheet, uint64_t tally)
{
    const uint64_t number = fault("tally-high-first") ? turned(tally) : tally;
    put_little(image + tally_at(sheet), fault("tally-four") ? 4 : TALLY, number);
}

static uint64_t earlier(const uint8_t *image)
{
    return number_in(image + earlier_at(), TALLY);
}

static void put_earlier(uint8_t *image, uint64_t total)
{
    put_little(image + earlier_at(), TALLY, total);
}

static void put_identity(uint8_t *map, size_t n)
{
    for (size_t x = 0; x < n; x++) {
        map[x] = (uint8_t)x;
    }
}

/* ---- points on a sheet ---------------------------------------------------- */

/* Where a sheet's points are in the image, and a place among them. */
static size_t points_at(size_t sheet)
{
    return POINTS_AT + sheet * POINTS;
}

static size_t place_at(size_t place)
{
    return 1 + place * PLACE;
}

static size_t held(const uint8_t *points)
{
    return points[0] < PLACES ? points[0] : PLACES;
}

static int same_name(const uint8_t *a, const uint8_t *b)
{
    if (fault("point-text")) {
        return strncmp((const char *)a, (const char *)b, NAME) == 0;
    }
    return memcmp(a, b, fault("point-seven-bytes") ? NAME - 1 : NAME) == 0;
}

/* The name's place among the points held, or their number. */
static size_t place_of(const uint8_t *points, const uint8_t *name)
{
    static const uint8_t zeros[NAME];
    const size_t count = held(points);
    size_t place = fault("point-zeros") && memcmp(name, zeros, NAME) == 0 ? count : 0;
    while (place < count && !same_name(points + place_at(place), name)) {
        place++;
    }
    return place;
}

static int is_known(const uint8_t *points, const uint8_t *name)
{
    return place_of(points, name) < held(points);
}

static int names_differ(const uint8_t *points, size_t count)
{
    for (size_t i = 1; i < count && !fault("point-twins"); i++) {
        for (size_t j = fault("point-neighbours") ? i - 1 : 0; j < i; j++) {
            if (same_name(points + place_at(i), points + place_at(j))) {
                return 0;
            }
        }
    }
    return 1;
}

static int points_have_maps(size_t n, const uint8_t *points, size_t count)
{
    if (fault("point-map")) {
        return 1;
    }
    if (fault("point-eighth") && count == PLACES) {
        count--;
    }
    for (size_t i = 0; i < count; i++) {
        if (!is_map(n, points + place_at(i) + NAME, n)) {
            return 0;
        }
    }
    return 1;
}

/* Whether 8 passes a sheet's points. */
static int points_pass(size_t n, const uint8_t *points)
{
    const size_t most = PLACES + fault("point-nine");
    if (points[0] > most && !fault("point-count")) {
        return 0;
    }
    const size_t count = held(points);
    return points_have_maps(fault("point-past") ? STRIDE : n, points, fault("point-free") ? PLACES : count) &&
           names_differ(points, fault("point-free-names") ? PLACES : count);
}

static int names_differ_between_sheets(const uint8_t *image)
{
    for (size_t i = 1; i < SHEETS; i++) {
        const uint8_t *points = image + points_at(i);
        for (size_t place = 0; place < held(points); place++) {
            if (is_known(image + points_at(i - 1), points + place_at(place))) {
                return 0;
            }
        }
    }
    return 1;
}

static int is_faultless(size_t n, const uint8_t *image)
{
    const size_t first = fault("point-one-sheet") ? 1 : SHEETS;
    const size_t with_points = fault("point-seven-sheets") ? SHEETS - 1 : first;
    for (size_t i = 0; i < SHEETS; i++) {
        if (!is_map(n, image + i * STRIDE, n) || (i < with_points && !points_pass(n, image + points_at(i)))) {
            return 0;
        }
    }
    return !fault("point-sheets") || names_differ_between_sheets(image);
}

/* ---- Start, Add, Clear ---------------------------------------------------- */

uint32_t probe_bench_start(size_t n, uint8_t *image, size_t image_len)
{
    if (!is_image(image_len)) {
        return NO_IMAGE;
    }
    uint8_t lent[IMAGE];
    memcpy(lent, image, IMAGE);
    if (is_size(n) || !fault("start-unwritten")) {
        memset(image, 0, fault("start-points") ? POINTS_AT : IMAGE);
    }
    if (fault("start-tallies") || fault("start-earlier")) {
        const size_t kept = fault("start-tallies") ? TALLY_AT : EARLIER_AT;
        memcpy(image + kept, lent + kept, (fault("start-tallies") ? SHEETS : 1) * TALLY);
    }
    if (!is_size(n)) {
        return 1;
    }
    image[SIZE_AT] = (uint8_t)n;
    for (size_t i = 0; i < SHEETS; i++) {
        put_identity(image + i * STRIDE, n);
    }
    image[EARLIER_AT - 1] = (uint8_t)fault("start");
    return 0;
}

/* Whether a tally cannot rise by so much. */
static int passes_top(uint64_t tally, uint64_t lost)
{
    const uint64_t left = UINT64_MAX - tally;
    uint64_t top = UINT64_MAX;
    if (fault("tally-old") || fault("tally-signed")) {
        top = fault("tally-old") ? UINT32_MAX : UINT64_MAX / 2;
    }
    if (fault("tally") || fault("tally-stays")) {
        return 0;
    }
    if (fault("tally-wraps")) {
        return lost > 0 && tally + lost == 0;
    }
    if (fault("tally-zero") && left == 0) {
        return 1;
    }
    if (fault("tally-early") && lost > 0 && lost == left) {
        return 1;
    }
    return lost > left || tally + lost > top;
}

static uint64_t raised(uint64_t tally, uint64_t lost)
{
    return fault("tally-stays") && lost > UINT64_MAX - tally ? UINT64_MAX : tally + lost;
}

/* The sum of so many tallies from the first on, which stops at the top. */
static uint64_t sum_of(const uint8_t *image, size_t count)
{
    if (count == 0) {
        return 0;
    }
    const uint64_t before = sum_of(image, count - 1), tally = tally_of(image, count - 1);
    return tally > UINT64_MAX - before ? UINT64_MAX : before + tally;
}

static int any_full(const uint8_t *image)
{
    size_t i = 0;
    while (i < SHEETS && tally_of(image, i) < UINT64_MAX) {
        i++;
    }
    return i < SHEETS;
}

/* What 13 looks at. */
static uint64_t tally_meant(const uint8_t *image, size_t sheet)
{
    const uint64_t tally = tally_of(image, sheet), next = tally_of(image, sheet ^ 1);
    if (fault("tally-looks-first")) {
        return tally_of(image, 0);
    }
    if (fault("tally-looks-next")) {
        return tally > next ? tally : next;
    }
    if (fault("tally-looks-all")) {
        return any_full(image) ? UINT64_MAX : tally;
    }
    if (fault("tally-looks-earlier")) {
        return tally > earlier(image) ? tally : earlier(image);
    }
    if (fault("tally-sum-eight") || fault("tally-sum-nine")) {
        const uint64_t sum = sum_of(image, SHEETS), more = fault("tally-sum-nine") ? earlier(image) : 0;
        return more > UINT64_MAX - sum ? UINT64_MAX : sum + more;
    }
    return tally;
}

static void raise_tally(uint8_t *image, size_t sheet, uint64_t lost)
{
    const size_t meant = fault("tally-neighbour") ? sheet ^ 1 : fault("tally-one") ? 0 : sheet;
    if (fault("tally-earlier") || fault("tally-earlier-too")) {
        put_earlier(image, earlier(image) + lost);
    }
    for (size_t i = 0; i < SHEETS && !fault("tally-earlier"); i++) {
        if (i == meant || fault("tally-all") || (i == (sheet ^ 1) && fault("tally-both"))) {
            put_tally(image, i, raised(tally_of(image, i), lost));
        }
    }
}

/* Joins what another map joins. */
static void join_map(size_t n, uint8_t *m, const uint8_t *other)
{
    for (size_t x = 0; x < n; x++) {
        join_pair(n, m, (uint8_t)x, other[x]);
    }
}

uint32_t probe_bench_add(uint8_t *image, size_t image_len, size_t n,
                         const uint8_t *arities, size_t arities_len,
                         const uint8_t *cells, size_t cells_len, size_t sheet, size_t x, size_t y)
{
    if (!is_image(image_len)) {
        return NO_IMAGE;
    }
    const uint32_t reason = algebra_reason(n, arities, arities_len, cells, cells_len);
    if (reason) {
        return reason;
    }
    if (sheet >= SHEETS || x >= n || y >= n) {
        return 7;
    }
    if (image[SIZE_AT] != n || !is_faultless(n, image)) {
        return 8;
    }
    uint8_t m[STRIDE], *next_points = image + points_at(sheet ^ 1);
    memcpy(m, image + sheet * STRIDE, n);
    join_pair(n, m, (uint8_t)x, (uint8_t)y);
    if (fault("add-joins")) {
        join_map(n, m, image + (sheet ^ 1) * STRIDE);
    }
    while (pass(n, arities, arities_len, cells, m, 1, 3)) {
    }
    const uint64_t lost = blocks(n, image + sheet * STRIDE) - blocks(n, m);
    if (passes_top(tally_meant(image, sheet), lost)) {
        if (fault("tally-refused")) {
            put_tally(image, sheet, UINT64_MAX);
        }
        return 13;
    }
    if (fault("add-stays") && held(next_points) == PLACES) {
        return 0;
    }
    if (fault("add-forgets") && held(next_points) > 0) {
        next_points[0]--;
    }
    raise_tally(image, sheet, lost);
    memcpy(image + (fault("other-sheet") ? sheet ^ 1 : sheet) * STRIDE, m, n);
    if (fault("add-points")) {
        memcpy(image + points_at(sheet) + place_at(0) + NAME, m, n);
    }
    return 0;
}

/* 1, 7 and 8 of a call on a sheet. */
static uint32_t sheet_reason(const uint8_t *image, size_t sheet)
{
    const size_t n = image[SIZE_AT];
    if (!is_size(n)) {
        return 1;
    }
    if (sheet >= SHEETS) {
        return fault("point-eight-first") && !is_faultless(n, image) ? 8 : 7;
    }
    return is_faultless(n, image) ? 0 : 8;
}

uint32_t probe_bench_clear(uint8_t *image, size_t image_len, size_t sheet)
{
    if (!is_image(image_len)) {
        return NO_IMAGE;
    }
    const uint32_t reason = sheet_reason(image, sheet);
    if (reason) {
        return reason;
    }
    put_identity(image + sheet * STRIDE, image[SIZE_AT]);
    if (fault("clear-settles")) {
        put_earlier(image, earlier(image) + tally_of(image, sheet));
    }
    if (fault("clear-tally") || fault("clear-settles")) {
        put_tally(image, sheet, 0);
    }
    if (fault("clear-high")) {
        memset(image + tally_at(sheet) + 4, 0, 4);
    }
    if (fault("clear-earlier")) {
        put_earlier(image, 0);
    }
    if (fault("clear-points")) {
        image[points_at(sheet)] = 0;
    }
    return 0;
}

/* ---- Set, Return, Forget -------------------------------------------------- */

/* 255, and 1, 7 and 8. */
static uint32_t point_reason(const uint8_t *image, size_t image_len, size_t sheet, const uint8_t *name, size_t name_len)
{
    if (!is_image(image_len) || (name_len != NAME && !(name_len > NAME && fault("point-name-length")))) {
        return NO_IMAGE;
    }
    const uint32_t reason = sheet_reason(image, sheet);
    if (reason == 8 && fault("point-fifteen-first") && !is_known(image + points_at(sheet), name)) {
        return 15;
    }
    if (reason == 0 && fault("point-top") && tally_of(image, sheet) == UINT64_MAX) {
        return 13;
    }
    return reason;
}

/* What a call of points that is accepted does to the numbers, by its faults. */
static void drop_numbers(uint8_t *image, size_t sheet, int tally_too, int earlier_too)
{
    if (tally_too) {
        put_tally(image, sheet, 0);
    }
    if (earlier_too) {
        put_earlier(image, 0);
    }
}

static size_t sheet_meant(size_t sheet)
{
    return fault("point-narrow") ? (uint32_t)sheet : sheet;
}

/* The points among which the name is looked for. */
static uint8_t *points_meant(uint8_t *image, size_t sheet, const uint8_t *name)
{
    for (size_t i = 0; i < SHEETS && fault("point-anywhere") && !is_known(image + points_at(sheet), name); i++) {
        if (is_known(image + points_at(i), name)) {
            return image + points_at(i);
        }
    }
    return image + points_at(sheet);
}

/* The place that a Set writes, or their number where there is none. */
static size_t place_to_set(const uint8_t *points, const uint8_t *name)
{
    const size_t count = held(points), place = place_of(points, name);
    if (count == PLACES && place == count && fault("set-ninth")) {
        return 0;
    }
    if (place < count && (fault("set-again") || (count == PLACES && fault("set-full")))) {
        return count;
    }
    return place < count && fault("set-last") ? count - 1 : place;
}

uint32_t probe_bench_set(uint8_t *image, size_t image_len, size_t sheet, const uint8_t *name, size_t name_len)
{
    sheet = sheet_meant(sheet);
    const uint32_t reason = point_reason(image, image_len, sheet, name, name_len);
    if (reason) {
        return reason;
    }
    uint8_t *points = points_meant(image, fault("set-sheet") ? sheet ^ 1 : sheet, name);
    const size_t place = place_to_set(points, name);
    if (place == PLACES) {
        return fault("point-exchanged") ? 15 : 16;
    }
    uint8_t *point = points + place_at(place);
    points[0] = (uint8_t)(points[0] + (place == held(points)));
    memcpy(point, name, NAME);
    memcpy(point + NAME, image + sheet * STRIDE, fault("set-bytes") ? image[SIZE_AT] : STRIDE);
    if (fault("set-identity")) {
        put_identity(point + NAME, image[SIZE_AT]);
    }
    drop_numbers(image, sheet, fault("set-tally"), fault("set-earlier"));
    return 0;
}

/* The sheet becomes the point's map. */
static void go_back(uint8_t *image, size_t sheet, const uint8_t *map)
{
    const size_t n = image[SIZE_AT], before = blocks(n, image + sheet * STRIDE), after = blocks(n, map);
    if (after > before && fault("return-joins")) {
        return;
    }
    memcpy(image + sheet * STRIDE, map, fault("return-bytes") ? STRIDE : n);
    if (before > after && fault("return-tally")) {
        put_tally(image, sheet, tally_of(image, sheet) + before - after);
    }
    drop_numbers(image, sheet, fault("return-drops"), fault("return-earlier"));
}

uint32_t probe_bench_return(uint8_t *image, size_t image_len, size_t sheet, const uint8_t *name, size_t name_len)
{
    sheet = sheet_meant(sheet);
    const uint32_t reason = point_reason(image, image_len, sheet, name, name_len);
    if (reason) {
        return reason;
    }
    uint8_t *points = points_meant(image, sheet, name);
    const size_t place = place_of(points, name), count = held(points);
    if (place == count) {
        return fault("point-exchanged") ? 16 : 15;
    }
    go_back(image, sheet, points + place_at(fault("return-first") ? 0 : place) + NAME);
    if (place + 1 == count && fault("return-forgets")) {
        points[0]--;
    }
    return 0;
}

/* The place is free, and the last of the points is behind no gap. */
static void free_place(uint8_t *points, size_t place)
{
    const size_t last = held(points) - 1;
    uint8_t *freed = points + place_at(place), *moved = points + place_at(last);
    if (place < last && fault("forget-stays")) {
        return;
    }
    if (fault("forget-shifts")) {
        memmove(freed, freed + PLACE, (last - place) * PLACE);
    } else if (!fault("forget-last")) {
        memmove(freed, moved, fault("forget-name") ? NAME : PLACE);
    }
    if (fault("forget-zeros")) {
        memset(moved, 0, PLACE);
    }
    points[0] = (uint8_t)last;
}

uint32_t probe_bench_forget(uint8_t *image, size_t image_len, size_t sheet, const uint8_t *name, size_t name_len)
{
    sheet = sheet_meant(sheet);
    const uint32_t reason = point_reason(image, image_len, sheet, name, name_len);
    if (reason) {
        return reason;
    }
    uint8_t *points = points_meant(image, sheet, name);
    if (!is_known(points, name)) {
        return fault("point-exchanged") ? 16 : 15;
    }
    free_place(points, place_of(points, name));
    drop_numbers(image, sheet, fault("forget-tally"), fault("forget-earlier"));
    return 0;
}

/* ---- an old bench's conversion ---------------------------------------------- */

/* Whether the conversion that makes so many bytes has the fault; the third kind's has its own. */
#define SLIPS(made, name) fault((made) == IMAGE ? "third-" name : "convert-" name)

/* Whether 8 passes the sheet. */
static int sheet_passes(size_t made, size_t n, const uint8_t *sheet)
{
    if (SLIPS(made, "rising")) {
        size_t x = 0;
        while (x < n && sheet[x] <= x) {
            x++;
        }
        return x == n;
    }
    return is_map(n, sheet, n);
}

static int sheets_pass(size_t made, size_t n, const uint8_t *old)
{
    size_t looked_at = SLIPS(made, "all-bytes") || n > STRIDE ? STRIDE : n, count = SHEETS;
    if (SLIPS(made, "last")) {
        looked_at--;
    }
    if (SLIPS(made, "one-sheet") || SLIPS(made, "seven-sheets")) {
        count = SLIPS(made, "one-sheet") ? 1 : SHEETS - 1;
    }
    for (size_t i = 0; i < count; i++) {
        if (!sheet_passes(made, looked_at, old + i * STRIDE)) {
            return 0;
        }
    }
    return 1;
}

/* Whether 8 passes a sheet's points in a bench of the third kind. */
static int old_points_pass(size_t n, const uint8_t *points)
{
    const size_t count = fault("third-free-tested") ? PLACES : held(points);
    if (fault("third-past-tested")) {
        n = STRIDE;
    }
    if (fault("third-count") || fault("third-twins") || fault("third-free-tested")) {
        return (points[0] <= PLACES || fault("third-count")) && points_have_maps(n, points, count) &&
               (names_differ(points, held(points)) || fault("third-twins"));
    }
    return points_pass(n, points);
}

static int all_points_pass(size_t n, const uint8_t *points)
{
    const size_t most = fault("third-seven-points") ? SHEETS - 1 : SHEETS;
    const size_t count = fault("third-untested-points") ? 0 : fault("third-one-points") ? 1 : most;
    for (size_t i = 0; i < count; i++) {
        if (!old_points_pass(n > STRIDE ? STRIDE : n, points + i * POINTS)) {
            return 0;
        }
    }
    return 1;
}

static int has_points(size_t old_len)
{
    return old_len >= IMAGE_V3;
}

static uint32_t old_reason(size_t made, const uint8_t *old, size_t old_len)
{
    const size_t n = old[SIZE_AT];
    const int sized = is_size(n) || SLIPS(made, "untested");
    if (!sized && !SLIPS(made, "eight-first")) {
        return 1;
    }
    if (!sheets_pass(made, n, old) || (has_points(old_len) && !all_points_pass(n, old + IMAGE_V2))) {
        return 8;
    }
    return sized ? 0 : 1;
}

static uint64_t total_of(size_t made, const uint8_t *old, size_t old_len)
{
    const size_t width = old_len < IMAGE_V2 ? 4 : TALLY;
    const uint64_t total = number_in(old + TALLY_AT, SLIPS(made, "high") ? width - 2 : width);
    return total > UINT32_MAX / 2 && SLIPS(made, "signed") ? total + UINT64_MAX - UINT32_MAX : total;
}

static void carry_maps(size_t made, const uint8_t *old, uint8_t *image)
{
    memcpy(image, old, SLIPS(made, "sheet") ? SIZE_AT - STRIDE : SIZE_AT);
    image[SIZE_AT] = old[SIZE_AT];
    for (size_t i = 0; i < SHEETS && SLIPS(made, "past"); i++) {
        memset(image + i * STRIDE + old[SIZE_AT], 0, (size_t)(STRIDE - old[SIZE_AT]));
    }
}

/* A point without a name for each sheet's map. */
static void add_points(uint8_t *image)
{
    for (size_t i = 0; i < SHEETS; i++) {
        uint8_t *points = image + IMAGE_V2 + i * POINTS;
        points[0] = 1;
        memcpy(points + place_at(0) + NAME, image + i * STRIDE, STRIDE);
    }
}

/* The nine numbers of a bench that was of the third kind. */
static void place_total(uint8_t *image, uint64_t total)
{
    uint64_t left = fault("third-drops") ? 0 : total;
    for (size_t i = 0; i < SHEETS && fault("third-spread"); i++) {
        put_tally(image, i, total / SHEETS);
        left = total % SHEETS;
    }
    if (fault("third-first") || fault("third-too")) {
        put_tally(image, fault("third-first") ? 0 : SHEETS - 1, total);
        left = fault("third-first") ? 0 : total;
    }
    put_little(image + earlier_at(), fault("third-behind") ? 4 : TALLY, left);
}

/* What the faults of a conversion make of a sheet's points that were carried over. */
static void spoil_points(size_t n, uint8_t *points, int last)
{
    if (fault("third-points") || (last && fault("third-last-points"))) {
        memset(points, 0, POINTS);
    }
    for (size_t i = 0; i < PLACES; i++) {
        uint8_t *place = points + place_at(i);
        if (i >= held(points) && fault("third-free")) {
            memset(place, 0, PLACE);
        }
        if (fault("third-point-past")) {
            memset(place + NAME + n, 0, STRIDE - n);
        }
        if (fault("third-point-names")) {
            place[NAME - 1] = 0;
        }
    }
}

static void carry_points(const uint8_t *old, uint8_t *image)
{
    memcpy(image + POINTS_AT, old + IMAGE_V2, SHEETS * POINTS);
    for (size_t i = 0; i < SHEETS && is_size(old[SIZE_AT]); i++) {
        spoil_points(old[SIZE_AT], image + points_at(i), i + 1 == SHEETS);
    }
}

/* Into an image of zeros. */
static void carry_over(size_t made, const uint8_t *old, size_t old_len, uint8_t *image)
{
    const uint64_t total = total_of(made, old, old_len);
    carry_maps(made, old, image);
    if (made < IMAGE) {
        put_little(image + TALLY_AT, fault("convert-behind") ? 4 : TALLY, total);
        return;
    }
    place_total(image, total);
    if (has_points(old_len)) {
        carry_points(old, image);
    }
    if (fault("third-behind-all")) {
        memmove(image + TALLY_AT, old + TALLY_AT, IMAGE_V3 - TALLY_AT);
        memset(image + IMAGE_V3, 0, IMAGE - IMAGE_V3);
    }
}

/* Whether images of these lengths are an old bench and one of the kind behind it. */
static int are_kinds(size_t old_len, size_t image_len, size_t old_wanted, size_t wanted)
{
    return (old_len == old_wanted || (old_len > old_wanted && SLIPS(wanted, "length"))) &&
           (image_len == wanted || (image_len > wanted && SLIPS(wanted, "new-length")));
}

/* The bytes of the image that is made; 0 if it is none. */
static size_t kind_made(size_t old_len, size_t image_len)
{
    static const struct {
        size_t old, made;
        const char *fault;
    } kinds[] = {
        {IMAGE_V3, IMAGE, NULL},
        {IMAGE_V2, IMAGE_V3, NULL},
        {IMAGE_V1, IMAGE_V2, NULL},
        {IMAGE_V1, IMAGE_V3, "convert-across"},
        {IMAGE_V2, IMAGE_V2, "convert-copy"},
        {IMAGE_V2, IMAGE, "third-across"},
        {IMAGE_V3, IMAGE_V3, "third-copy"},
        {IMAGE, IMAGE, "third-today"},
        {IMAGE, IMAGE_V3, "third-back"},
    };
    for (size_t i = 0; i < sizeof kinds / sizeof *kinds; i++) {
        if ((!kinds[i].fault || fault(kinds[i].fault)) && are_kinds(old_len, image_len, kinds[i].old, kinds[i].made)) {
            return kinds[i].made;
        }
    }
    return 0;
}

/* How many bytes of what was lent become zeros before anything is carried over. */
static size_t wiped(size_t made, uint32_t reason)
{
    if (made == IMAGE) {
        return reason && fault("third-short") ? IMAGE_V3 : IMAGE;
    }
    return fault("convert-behind") ? IMAGE_V1 : fault("convert-points") ? IMAGE_V2 : made;
}

static void wipe(size_t made, uint32_t reason, uint8_t *image)
{
    uint8_t lent[IMAGE];
    memcpy(lent, image, made);
    memset(image, 0, wiped(made, reason));
    if (made == IMAGE && fault("third-tallies")) {
        memcpy(image + TALLY_AT, lent + TALLY_AT, SHEETS * TALLY);
    }
    if (made == IMAGE && fault("third-behind")) {
        memcpy(image + EARLIER_AT + 4, lent + EARLIER_AT + 4, 4);
    }
}

uint32_t probe_bench_convert(const uint8_t *old, size_t old_len, uint8_t *image, size_t image_len)
{
    const size_t made = kind_made(old_len, image_len);
    if (made == 0) {
        return NO_IMAGE;
    }
    const uint32_t reason = old_reason(made, old, old_len);
    if (reason == 0 || !SLIPS(made, "unwritten")) {
        wipe(made, reason, image);
    }
    if (reason == 0 || SLIPS(made, "old")) {
        carry_over(made, old, old_len, image);
    }
    if (reason == 0 && made == IMAGE_V3 && fault("convert-point")) {
        add_points(image);
    }
    if (SLIPS(made, "input")) {
        ((uint8_t *)old)[TALLY_AT] ^= 1;
    }
    if (SLIPS(made, "after")) {
        image[made]++;
    }
    return reason;
}

/* ---- texts of algebras ------------------------------------------------------ */

enum { MAX_CELLS = 32768, HEAD = 18, NO_HEAD = 255 };

/* A text on its way out; without bytes it is only counted. */
struct output {
    uint8_t *bytes;
    size_t len;
};

static void put(struct output *o, char byte)
{
    if (o->bytes) {
        o->bytes[o->len] = (uint8_t)byte;
    }
    o->len++;
}

static void put_word(struct output *o, const char *word)
{
    while (*word) {
        put(o, *word++);
    }
}

static void put_number(struct output *o, size_t value)
{
    if (value >= 10) {
        put_number(o, value / 10);
    }
    put(o, (char)('0' + value % 10));
}

static int is_short(const uint8_t *cells, size_t count)
{
    while (count > 0 && cells[count - 1] < 10) {
        count--;
    }
    return count == 0;
}

static void put_table(struct output *o, size_t n, unsigned arity, const uint8_t *cells)
{
    if (arity == 1 && fault("write-last") && is_short(cells, n - 1)) {
        for (size_t i = 0; i < n; i++) {
            put(o, i > 0 ? ' ' : '[');
            put(o, (char)('0' + cells[i]));
        }
        put(o, ']');
        return;
    }
    if (arity == 0) {
        put_number(o, *cells);
        return;
    }
    put(o, '[');
    for (size_t i = 0; i < n; i++) {
        if (i > 0) {
            put(o, ' ');
        }
        put_table(o, n, arity - 1, cells + i * power(n, arity - 1));
    }
    put(o, ']');
}

/* Gives the text's length. */
static size_t put_algebra(uint8_t *bytes, size_t n, const uint8_t *arities, size_t arities_len, const uint8_t *cells)
{
    struct output o = {bytes, 0};
    put_word(&o, "[size ");
    put_number(&o, n);
    put_word(&o, "]\n");
    for (size_t i = 0; i < arities_len; i++) {
        put_word(&o, "[op ");
        put_number(&o, arities[i]);
        put(&o, ' ');
        put_table(&o, n, arities[i], cells);
        put_word(&o, "]\n");
        cells += power(n, arities[i]);
    }
    return o.len;
}

uint64_t probe_write(size_t n, const uint8_t *arities, size_t arities_len,
                     const uint8_t *cells, size_t cells_len, uint8_t *out, size_t out_len)
{
    const uint32_t reason = algebra_reason(n, arities, arities_len, cells, cells_len);
    if (reason == 6 && out_len < 8 + cells_len && fault("write-order")) {
        return 9;
    }
    if (reason) {
        return reason;
    }
    const size_t length = put_algebra(NULL, n, arities, arities_len, cells);
    size_t wanted = length;
    if (fault("write-nine-early") || fault("write-nine-late")) {
        wanted = fault("write-nine-early") ? length + 1 : length - 1;
    }
    if (fault("write-round")) {
        wanted = 10 + 6 * arities_len + 4 * cells_len;
    }
    if (out_len < wanted) {
        if (out_len > 0 && fault("write-first")) {
            out[0] = '[';
        }
        return 9;
    }
    put_algebra(out, n, arities, arities_len, cells);
    if (out_len > length && fault("write-behind")) {
        out[length] = 0;
    }
    return 256 * (uint64_t)(length + fault("write-length"));
}

/* A text on its way in, and the cells that were read. */
struct input {
    const uint8_t *at, *end;
    size_t n, count;
    uint8_t *cells;
};

static int take(struct input *t, const char *word)
{
    const size_t len = strlen(word);
    if ((size_t)(t->end - t->at) < len || memcmp(t->at, word, len) != 0) {
        return 0;
    }
    t->at += len;
    return 1;
}

/* The end of a line. */
static int take_end(struct input *t)
{
    return take(t, "]\n") || (fault("read-unended") && t->end - t->at == 1 && take(t, "]"));
}

static int take_number(struct input *t, unsigned *value)
{
    const uint8_t *first = t->at;
    *value = 0;
    while (t->at < t->end && *t->at >= '0' && *t->at <= '9' && *value <= 255) {
        *value = 10 * *value + *t->at++ - '0';
    }
    if (t->at == first || *value > 255) {
        return 0;
    }
    return *first != '0' || t->at == first + 1 || fault("read-zeros");
}

static int take_table(struct input *t, unsigned arity)
{
    if (arity == 0) {
        unsigned value;
        if (!take_number(t, &value)) {
            return 0;
        }
        t->cells[t->count++] = (uint8_t)value;
        return 1;
    }
    for (size_t i = 0; i < t->n; i++) {
        const int unread = fault("read-last-gap") && i > 16 && i + 1 == t->n && t->at < t->end;
        t->at += unread;
        if ((!unread && !take(t, i == 0 ? "[" : " ")) || !take_table(t, arity - 1)) {
            return 0;
        }
    }
    return take(t, "]");
}

static int all_below(const uint8_t *cells, size_t count, size_t n)
{
    for (size_t i = 0; i < count; i++) {
        if (cells[i] >= n) {
            return 0;
        }
    }
    return 1;
}

static uint32_t line_reason(const struct input *t, size_t operations, unsigned arity)
{
    if (operations == 16) {
        return 2;
    }
    if (arity > 3) {
        return 3;
    }
    return t->count + power(t->n, arity) > MAX_CELLS ? 4 : 0;
}

/* Whether the line from here on, up to its end, has the form of some table. */
static int passes_over_table(struct input *t)
{
    while (t->at < t->end && *t->at != '\n') {
        t->at++;
    }
    return t->at < t->end && t->at[-1] == ']';
}

static uint32_t take_operation(struct input *t, uint8_t *head)
{
    unsigned arity;
    const size_t first = t->count;
    if (!take(t, "[op ") || !take_number(t, &arity) || !take(t, " ")) {
        return 14;
    }
    const uint32_t reason = line_reason(t, head[1], arity);
    if (reason && fault("read-late-four") && !passes_over_table(t)) {
        return 14;
    }
    if (reason) {
        return reason;
    }
    const int formed = take_table(t, arity) && take_end(t);
    const int below = all_below(t->cells + first, t->count - first, t->n);
    if (!formed) {
        return !below && fault("read-early-six") ? 6 : 14;
    }
    head[2 + head[1]++] = (uint8_t)arity;
    return below || fault("read-late-six") ? 0 : 6;
}

/* The faults that pass over a line. */
static int passes_over_line(struct input *t)
{
    static const char *const words[] = {"[generate", "[contained", "[separate", "[decompose", "[quotient"};
    int skipped = fault("read-second-size") && t->end - t->at > 6 && memcmp(t->at, "[size ", 6) == 0;
    for (size_t i = 0; i < 5 && fault("read-skips-request"); i++) {
        const size_t len = strlen(words[i]);
        skipped |= (size_t)(t->end - t->at) > len && memcmp(t->at, words[i], len) == 0;
    }
    while (skipped && t->at < t->end && *t->at++ != '\n') {
    }
    return skipped;
}

static uint32_t take_algebra(struct input *t, uint8_t *head)
{
    unsigned n;
    if (!take(t, "[size ") || !take_number(t, &n) || !take_end(t)) {
        return 14;
    }
    if (n == 0 || n > STRIDE) {
        return 1;
    }
    t->n = n;
    head[0] = (uint8_t)n;
    while (t->at < t->end) {
        const uint32_t reason = passes_over_line(t) ? 0 : take_operation(t, head);
        if (reason) {
            return reason;
        }
    }
    return all_below(t->cells, t->count, n) ? 0 : 6;
}

uint64_t probe_read(const uint8_t *text, size_t text_len, uint8_t *cells, size_t cells_len, uint8_t *head,
                    size_t head_len)
{
    static uint8_t own[MAX_CELLS];
    uint8_t found[HEAD] = {0};
    struct input t = {text, text + text_len, 0, 0, own};
    if (head_len != HEAD) {
        return NO_HEAD;
    }
    memset(head, 0, HEAD);
    const size_t wanted = MAX_CELLS + fault("read-nine-early") - fault("read-nine-late");
    const int is_short = cells_len < wanted && !fault("read-exact");
    if (is_short && !fault("read-text-first")) {
        return 9;
    }
    if (fault("read-early-cells")) {
        t.cells = cells;
    }
    const uint32_t reason = text_len > 65536 && fault("read-limit") ? 14 : take_algebra(&t, found);
    if (reason && fault("read-head")) {
        head[0] = found[0];
    }
    if (reason) {
        return reason;
    }
    if (is_short || cells_len < t.count) {
        return 9;
    }
    memcpy(cells, t.cells, t.count);
    memcpy(head, found, HEAD);
    if (fault("read-arities")) {
        memset(head + 2 + found[1], 255, (size_t)(16 - found[1]));
    }
    if (fault("read-behind")) {
        memset(cells + t.count, 0, MAX_CELLS - t.count);
    }
    return 256 * (uint64_t)t.count;
}
