/* The variance of one unknown against the full solver and against the reference: every order to 60 with every unknown, with any bits in the entries that are not
 * read, and every refusal. All memory is compared, guards included. */
#include "../reference.h"

#include <math.h>

static const uint64_t factor_state[] = {[PACKED] = METSOVARY_PACKED_FACTOR, [BLOCKED] = METSOVARY_BLOCKED_FACTOR};

static unsigned long answers[2][17]; /* of either call, by code */

static metsovary_result variance(enum layout layout, metsovary_shape shape, uint64_t unknown, memory factor, memory work) {
    fill_any(work);
    metsovary_result r = compare_variance(layout, shape, unknown, factor, work);
    if (r.code < 17) answers[layout][r.code]++;
    return r;
}

static metsovary_result success(metsovary_shape shape, double value) { return (metsovary_result){.value = value, .shape = shape}; }
static metsovary_result refusal(metsovary_shape shape, uint64_t code, size_t where) { return (metsovary_result){.code = code, .place = where, .shape = shape}; }

/* A call that is to return just this, with work memory of n values and some to spare. */
static void returns(const char *what, enum layout layout, metsovary_shape shape, uint64_t unknown, memory factor, metsovary_result wanted) {
    memory work = memory_new(shape.order + random_bits() % 4);
    expect_result(what, shape, variance(layout, shape, unknown, factor, work), wanted);
    memory_free(work);
}

/* ---- factors ---- */

/* the factor of a definite matrix; any lower triangle; one with zeros of both signs and subnormal values; one with exponents far apart; one whose diagonal outweighs
 * the rest, so that nothing overflows at any order */
enum kind { FACTORED, ANY, SMALL, WIDE, KINDS, DOMINANT = KINDS };

static double entry(enum kind kind, size_t n, bool diagonal) {
    double x = random_unit();
    if (kind == FACTORED || kind == DOMINANT) return diagonal ? (double)n * (1.5 + x / 2) : x;
    if (diagonal) x = 1.25 + x / 2;
    if (kind == WIDE) return ldexp(x, (int)(random_bits() % 120) - 60);
    if (kind == ANY || random_bits() % 4 == 0) return x;
    if (diagonal) return ldexp(x, (int)(random_bits() % 10) - 5);
    return random_bits() % 2 ? copysign(0.0, x) : random_bits() % 2 ? ldexp(x, -1030) : ldexp(x, -(int)(random_bits() % 1000));
}

static memory factor_new(size_t n, enum kind kind) {
    metsovary_shape shape = {n, 1, METSOVARY_PACKED_RAW};
    memory a = memory_new(triangle(n)), work = memory_new(n);
    for (size_t j = 0; j < n; j++)
        for (size_t i = j; i < n; i++) a.values[place(PACKED, shape, i, j)] = entry(kind, n, i == j);
    if (kind == FACTORED) expect(metsovary_factor_plain(shape, a.values, a.length, work.values, work.length).code == 0, "n %zu: a definite matrix is refused", n);
    memory_free(work);
    return a;
}

/* of order n, with this block length in blocked order */
static metsovary_shape factor_shape(enum layout layout, size_t n, size_t b) { return (metsovary_shape){n, b, factor_state[layout]}; }

static memory blocked_copy(memory packed, size_t n, size_t b) {
    memory a = memory_copy(packed), work = memory_new(needed(n, b));
    metsovary_result r = metsovary_packed_to_blocked(factor_shape(PACKED, n, b), a.values, a.length, work.values, work.length);
    expect_result("a factor to blocked order", factor_shape(PACKED, n, b), r, (metsovary_result){.shape = factor_shape(BLOCKED, n, b)});
    memory_free(work);
    return a;
}

/* the diagonal is 1, the rest +0 */
static memory unit_new(enum layout layout, metsovary_shape shape) {
    memory a = memory_new(triangle(shape.order));
    for (size_t j = 0; j < shape.order; j++) a.values[place(layout, shape, j, j)] = 1.0;
    return a;
}

static const double low[] = {0.0, -0.0, -1.0, -5e-324, -1e300};

static double any_low(void) { return low[random_bits() % (sizeof low / sizeof *low)]; }
static double not_finite(void) { return random_bits() % 3 ? any_nan() : random_bits() % 2 ? INFINITY : -INFINITY; }

/* The entries that are not read, those of the columns before k, become NaNs, infinities, values with a diagonal that no factor has, or any bits. */
static void spoil(enum layout layout, metsovary_shape shape, size_t k, memory factor) {
    unsigned with = random_bits() % 4;
    memory any = memory_new(with == 3 ? factor.length : 0);
    fill_any(any);
    for (size_t j = 0; j < k; j++)
        for (size_t i = j; i < shape.order; i++) {
            size_t p = place(layout, shape, i, j);
            double x = with == 0 ? any_nan() : with == 1 ? (random_bits() % 2 ? INFINITY : -INFINITY) : i == j ? any_low() : random_unit();
            memcpy(&factor.values[p], with == 3 ? &any.values[p] : &x, 8);
        }
    memory_free(any);
}

/* ---- document 01's factor ---- */

/* Its rows are 2; 1, 3; -1, 2, 1. The variances are 35/36, 5/9 and 1; those of the first two unknowns come out one unit below the nearest value. */
static void small_factor(enum layout layout, size_t b) {
    static const double by_columns[] = {2, 1, -1, 3, 2, 1}, by_rows[] = {2, 1, 3, -1, 2, 1};
    static const uint64_t bits[] = {0x3fef1c71c71c71c6u, 0x3fe1c71c71c71c71u, 0x3ff0000000000000u};
    metsovary_shape shape = factor_shape(layout, 3, b);
    memory factor = memory_new(6);
    memcpy(factor.values, layout == PACKED || b == 1 ? by_columns : by_rows, sizeof by_rows);
    for (size_t k = 0; k < 3; k++) {
        returns("document 01's factor", layout, shape, k, factor, success(shape, from_bits(bits[k])));
        spoil(layout, shape, k, factor);
        returns("document 01's factor, spoilt", layout, shape, k, factor, success(shape, from_bits(bits[k])));
    }
    memory_free(factor);
}

/* ---- the full solver ---- */

static unsigned long solved, unsolved, only_here; /* right-hand sides that the full solver accepts; that it refuses; unknowns of these with a variance */

/* The value of the full solution, where the solver accepts the right-hand side, and with any bits in the entries that are not read. */
static metsovary_result one_unknown(enum layout layout, metsovary_shape shape, size_t k, memory factor) {
    size_t n = shape.order;
    memory a = memory_copy(factor), x = memory_new(n), work = memory_new(n + random_bits() % 4);
    x.values[k] = 1.0;
    metsovary_result full = layout == PACKED ? metsovary_solve_plain(shape, 1, a.values, a.length, x.values, n, work.values, n)
                                             : metsovary_solve_blocked(shape, 1, a.values, a.length, x.values, n, work.values, n);
    spoil(layout, shape, k, a);
    metsovary_result r = variance(layout, shape, k, a, work);
    if (full.code == 0) expect_result("the full solution's value", shape, r, success(shape, x.values[k]));
    else expect(full.code == 12 && (r.code == 0 || r.code == 12), "n %zu k %zu: %d, the full solver %d", n, k, (int)r.code, (int)full.code);
    solved += full.code == 0;
    unsolved += full.code != 0;
    only_here += full.code != 0 && r.code == 0;
    memory_free(a);
    memory_free(x);
    memory_free(work);
    return r;
}

/* A factor and its rearranged form at each of the block lengths: the same answers for each of the unknowns. The factor is freed. */
static void both_layouts(memory packed, size_t n, const size_t *blocks, size_t block_count, const size_t *unknowns, size_t unknown_count) {
    metsovary_result *plain = malloc((unknown_count + 1) * sizeof *plain);
    for (size_t q = 0; q < unknown_count; q++) plain[q] = one_unknown(PACKED, factor_shape(PACKED, n, random_bits()), unknowns[q], packed);
    for (size_t c = 0; c < block_count; c++) {
        memory blocked = blocked_copy(packed, n, blocks[c]);
        for (size_t q = 0; q < unknown_count; q++) {
            metsovary_result r = one_unknown(BLOCKED, factor_shape(BLOCKED, n, blocks[c]), unknowns[q], blocked);
            expect(same_answer(r, plain[q]), "n %zu b %zu k %zu: not as on the packed factor", n, blocks[c], unknowns[q]);
        }
        memory_free(blocked);
    }
    free(plain);
    memory_free(packed);
}

enum { ORDERS = 60 };

/* 1 to 20, those beside 32 and 64, and the bound; the last is one of 21 to 30 and 34 to 62 in turn */
static void every_unknown(size_t n, enum kind kind) {
    size_t blocks[28] = {[20] = 31, 32, 33, 63, 64, 65, 200}, unknowns[ORDERS], turn = (n * KINDS + kind) % 39;
    for (size_t k = 0; k < 20; k++) blocks[k] = k + 1;
    blocks[27] = turn < 10 ? 21 + turn : 24 + turn;
    for (size_t k = 0; k < n; k++) unknowns[k] = k;
    both_layouts(factor_new(n, kind), n, blocks, 28, unknowns, n);
}

/* An overflow before k: the full solver meets it in the first x, the variance does not. */
static void overflow_before(enum layout layout, metsovary_shape shape) {
    for (size_t k = 1; k < shape.order; k++) {
        memory factor = unit_new(layout, shape);
        factor.values[place(layout, shape, 0, 0)] = 0x1p-600;
        factor.values[place(layout, shape, k, 0)] = 0x1p600;
        unsigned long before = only_here;
        expect_result("an overflow before the unknown", shape, one_unknown(layout, shape, k, factor), success(shape, 1.0));
        expect(only_here == before + 1, "n %d k %zu: the full solver accepts an overflow", (int)shape.order, k);
        memory_free(factor);
    }
}

/* ---- 7, 9 and 12 ---- */

static size_t least(size_t p, size_t q) { return p < q ? p : q; }

/* One value that is not finite, or not above zero on the diagonal, at each entry in turn, alone and with a second one at any other. */
static void every_entry(enum layout layout, metsovary_shape shape, size_t k) {
    size_t n = shape.order, none = triangle(n);
    memory factor = unit_new(layout, shape), work = memory_new(n);
    for (size_t p = 0; p < factor.length; p++)
        if (factor.values[p] == 0.0) factor.values[p] = random_unit();
    metsovary_result clean = variance(layout, shape, k, factor, work);
    expect(clean.code == 0, "n %zu k %zu: %d on a factor", n, k, (int)clean.code);
    for (size_t j = 0; j < n; j++)
        for (size_t i = j; i < n; i++)
            for (int two = 0; two < 2; two++) {
                memory a = memory_copy(factor);
                size_t column = two ? random_bits() % n : n, row = two ? column + random_bits() % (n - column) : n;
                size_t p = place(layout, shape, i, j), q = two ? place(layout, shape, row, column) : none;
                a.values[p] = not_finite();
                if (two) a.values[q] = not_finite();
                size_t lowest = least(j < k ? none : p, column < k ? none : q);
                returns("7", layout, shape, k, a, lowest < none ? refusal(shape, 7, lowest) : clean);
                memory_free(a);
            }
    for (size_t j = 0; j < n; j++)
        for (size_t other = j; other < n; other++) {
            memory a = memory_copy(factor);
            a.values[place(layout, shape, j, j)] = any_low();
            a.values[place(layout, shape, other, other)] = any_low();
            returns("9", layout, shape, k, a, j >= k ? refusal(shape, 9, j) : other >= k ? refusal(shape, 9, other) : clean);
            memory_free(a);
        }
    memory_free(factor);
    memory_free(work);
}

/* Order 5, b 3: of (2, 2) and (3, 1) the second comes first in packed order, the first in blocked order. */
static void lowest_position(void) {
    static const struct { enum layout layout; bool first, second; size_t k, where; } rows[] = {
        {PACKED, true, true, 0, 7}, {PACKED, true, true, 1, 7}, {PACKED, true, true, 2, 9}, {PACKED, false, true, 1, 7}, {PACKED, true, true, 3, 0}, {PACKED, false, true, 2, 0},
        {BLOCKED, true, true, 0, 5}, {BLOCKED, true, true, 1, 5}, {BLOCKED, true, true, 2, 5}, {BLOCKED, false, true, 1, 7}, {BLOCKED, true, true, 3, 0}, {BLOCKED, false, true, 2, 0},
    };
    for (size_t r = 0; r < sizeof rows / sizeof *rows; r++) {
        metsovary_shape shape = factor_shape(rows[r].layout, 5, 3);
        memory factor = unit_new(rows[r].layout, shape);
        if (rows[r].first) factor.values[place(rows[r].layout, shape, 2, 2)] = any_nan();
        if (rows[r].second) factor.values[place(rows[r].layout, shape, 3, 1)] = any_nan();
        returns("the lowest position", rows[r].layout, shape, rows[r].k, factor, rows[r].where ? refusal(shape, 7, rows[r].where) : success(shape, 1.0));
        memory_free(factor);
    }
}

/* A unit triangle with l(k, k), l(i, k) and l(i, i) replaced; 12, or this value. */
static void replaced(enum layout layout, metsovary_shape shape, size_t k, size_t i, double pivot, double below, double last, double value) {
    memory factor = unit_new(layout, shape);
    factor.values[place(layout, shape, i, i)] = last;
    factor.values[place(layout, shape, i, k)] = below;
    factor.values[place(layout, shape, k, k)] = pivot;
    spoil(layout, shape, k, factor);
    returns("12", layout, shape, k, factor, isfinite(value) ? success(shape, value) : refusal(shape, 12, 0));
    memory_free(factor);
}

static void overflows(enum layout layout, metsovary_shape shape, size_t k) {
    for (size_t i = k; i < shape.order; i++) {
        replaced(layout, shape, k, i, 0x1p-1074, 0, 1, INFINITY);            /* y(k) = 2^1074 */
        replaced(layout, shape, k, i, 0x1p-512, 0, 1, INFINITY);             /* x(k) = 2^1024 */
        replaced(layout, shape, k, i, 0x1p-511, 0, 1, 0x1p1022);
        replaced(layout, shape, k, i, 0x1p537, 0, 1, 0x1p-1074);             /* underflow is not refused */
        replaced(layout, shape, k, i, 0x1p538, 0, 1, 0);
        if (i == k) continue;
        replaced(layout, shape, k, i, 1, -0.0, 0x1p-1074, 1);                /* y(i) = x(i) = 0 over a subnormal diagonal value */
        replaced(layout, shape, k, i, 1, 0x1p-600, 0x1p500, 1);              /* y(i) = -2^-1100 underflows */
        replaced(layout, shape, k, i, 0x1p-100, 0x1p924, 1, INFINITY);       /* the product in y(i), 2^924 times 2^100 */
        replaced(layout, shape, k, i, 0x1p100, 0x1p600, 0x1p-524, INFINITY); /* y(i) = -2^1024 */
        replaced(layout, shape, k, i, 0x1p100, 0x1p100, 0x1p-512, INFINITY); /* x(i) = -2^1024 */
        replaced(layout, shape, k, i, 0x1p100, 0x1p562, 1, INFINITY);        /* the product in x(k), 2^562 times -2^462 */
        replaced(layout, shape, k, i, 0x1p100, 0x1p561, 1, 0x1p922);
    }
}

/* ---- sets of faults ---- */

/* in checking order */
enum { ORDER = 1, BLOCK = 2, STATE = 4, LENGTH = 8, WORK = 16, UNKNOWN = 32, VALUE = 64, DIAGONAL = 128, OVERFLOW = 256, ALL_FAULTS = 511 };
static const uint64_t rules[] = {1, 2, 15, 3, 4, 14, 7, 9, 12};

#define ONE_OF(array) (array)[random_bits() % (sizeof(array) / sizeof *(array))]

static void faulty(enum layout layout, unsigned faults) {
    size_t n = 1 + random_bits() % 9, b = 1 + random_bits() % 10, k = random_bits() % n, column = k + random_bits() % (n - k), row = column + random_bits() % (n - column);
    const uint64_t orders[] = {4001, ((uint64_t)1 << 32) + n, UINT64_MAX}, blocks[] = {0, 201, ((uint64_t)1 << 32) + b, UINT64_MAX};
    const uint64_t states[] = {METSOVARY_PACKED_RAW, METSOVARY_BLOCKED_RAW, factor_state[!layout], METSOVARY_SPENT, 5, 256 + factor_state[layout], UINT64_MAX};
    const uint64_t unknowns[] = {n, n + 1, ((uint64_t)1 << 32) + k, UINT64_MAX};
    metsovary_shape shape = factor_shape(layout, n, b);
    size_t diagonal = place(layout, shape, column, column), position = place(layout, shape, row, column);
    memory factor = unit_new(layout, shape), work = memory_new(faults & WORK ? n - 1 : n + random_bits() % 4);
    spoil(layout, shape, k, factor);
    if (faults & OVERFLOW) factor.values[place(layout, shape, k, k)] = 0x1p-600;
    if (faults & DIAGONAL) factor.values[diagonal] = any_low();
    if (faults & VALUE) factor.values[position] = not_finite();
    memory a = faults & LENGTH ? memory_new(random_bits() % 2 ? triangle(n) - 1 : triangle(n) + 1) : memory_copy(factor);
    if (faults & LENGTH) memcpy(a.values, factor.values, least(a.length, factor.length) * sizeof *a.values);
    if (faults & ORDER) shape.order = ONE_OF(orders);
    if (faults & BLOCK) shape.block = ONE_OF(blocks);
    if (faults & STATE) shape.state = ONE_OF(states);
    metsovary_result r = variance(layout, shape, faults & UNKNOWN ? ONE_OF(unknowns) : k, a, work), wanted = success(shape, 1.0);
    if (layout == PACKED) faults &= ~(unsigned)BLOCK;
    for (size_t f = 9; f-- > 0;)
        if (faults >> f & 1) wanted = refusal(shape, rules[f], rules[f] == 7 ? position : rules[f] == 9 ? column : 0);
    expect_result("faults", shape, r, wanted);
    memory_free(factor);
    memory_free(work);
    memory_free(a);
}

/* of every order to 9, and of order 0 with null pointers */
static void unknowns_past_the_last(void) {
    for (size_t n = 0; n <= 9; n++)
        for (size_t b = 1; b <= 10; b++)
            for (int layout = PACKED; layout <= BLOCKED; layout++) {
                metsovary_shape shape = factor_shape((enum layout)layout, n, b);
                const uint64_t past[] = {n, n + 1, 4000, ((uint64_t)1 << 32), ((uint64_t)1 << 63) + n, UINT64_MAX};
                memory factor = unit_new((enum layout)layout, shape);
                for (size_t k = 0; k < n; k++) returns("an unknown below the order", (enum layout)layout, shape, k, factor, success(shape, 1.0));
                for (size_t k = 0; k < sizeof past / sizeof *past; k++) returns("14", (enum layout)layout, shape, past[k], factor, refusal(shape, 14, 0));
                memory_free(factor);
            }
    metsovary_shape plain = factor_shape(PACKED, 0, 64), blocked = factor_shape(BLOCKED, 0, 64);
    expect(same_result(metsovary_variance_plain(plain, 0, NULL, 0, NULL, 0), refusal(plain, 14, 0)), "plain, order 0");
    expect(same_result(metsovary_variance_blocked(blocked, 0, NULL, 0, NULL, 0), refusal(blocked, 14, 0)), "blocked, order 0");
}

static const size_t every_block[] = {1, 2, 3, 5, 7, 8, 13, 15, 16, 17, 31, 64, 100, 200};
enum { BLOCKS = sizeof every_block / sizeof *every_block };

int main(void) {
    group("document 01's factor, every unknown, plain and b 1, 2, 3 and 200");
    small_factor(PACKED, 0);
    for (size_t b = 1; b <= 3; b++) small_factor(BLOCKED, b);
    small_factor(BLOCKED, 200);
    group("the full solver's value, every n to 60 and every unknown, plain and 28 block lengths, every kind of factor");
    unsigned long expected = 0;
    for (size_t n = 0; n <= ORDERS; n++)
        for (int kind = 0; kind < KINDS; kind++) {
            every_unknown(n, (enum kind)kind);
            expected += 29 * n;
        }
    expect(solved + unsolved == expected && solved > expected / 2 && unsolved > expected / 100 && only_here > 0, "%lu right-hand sides, %lu solved, %lu not, %lu variances of these",
        expected, solved, unsolved, only_here);
    group("the full solver's value, n 263 and 500, unknowns from the first to the last");
    for (int kind = 0; kind < WIDE; kind++) {
        both_layouts(factor_new(263, (enum kind)kind), 263, every_block, BLOCKS, (size_t[]){0, 1, 7, 16, 63, 64, 100, 131, 200, 255, 261, 262}, 12);
        both_layouts(factor_new(500, (enum kind)kind), 500, every_block, BLOCKS, (size_t[]){0, 1, 250, 499}, 4);
    }
    group("the full solver's value, n 4000, plain and b 64");
    unsigned long before = solved;
    both_layouts(factor_new(4000, DOMINANT), 4000, (size_t[]){64}, 1, (size_t[]){0, 2007, 3999}, 3);
    expect(solved == before + 6, "the full solver refuses %lu of 6", 6 - (solved - before));
    group("an overflow before the unknown");
    for (size_t n = 1; n <= 20; n++) {
        overflow_before(PACKED, factor_shape(PACKED, n, 0));
        for (size_t b = 1; b <= n + 1; b++) overflow_before(BLOCKED, factor_shape(BLOCKED, n, b));
    }
    group("7 and 9 at every entry: seen from the unknown on and not before");
    for (size_t n = 1; n <= 8; n++)
        for (size_t k = 0; k < n; k++) {
            every_entry(PACKED, factor_shape(PACKED, n, 0), k);
            for (size_t b = 1; b <= n + 1; b++) every_entry(BLOCKED, factor_shape(BLOCKED, n, b), k);
        }
    for (size_t k = 0; k < 37; k += 9) {
        every_entry(PACKED, factor_shape(PACKED, 37, 0), k);
        for (size_t c = 0; c < BLOCKS; c++) every_entry(BLOCKED, factor_shape(BLOCKED, 37, every_block[c]), k);
    }
    lowest_position();
    group("12 by a y and by an x, and values beside it");
    for (size_t n = 1; n <= 20; n++)
        for (size_t k = 0; k < n; k++) {
            overflows(PACKED, factor_shape(PACKED, n, 0), k);
            for (size_t b = 1; b <= n + 1; b += 1 + n / 8) overflows(BLOCKED, factor_shape(BLOCKED, n, b), k);
        }
    group("14: unknowns that are not below the order, and order 0");
    unknowns_past_the_last();
    group("every set of faults");
    for (unsigned faults = 0; faults <= ALL_FAULTS; faults++)
        for (int times = 0; times < 20; times++) {
            faulty(PACKED, faults);
            faulty(BLOCKED, faults);
        }
    group("every code was met");
    for (size_t f = 0; f < sizeof rules / sizeof *rules; f++)
        expect((answers[PACKED][rules[f]] > 0) == (rules[f] != 2) && answers[BLOCKED][rules[f]] > 0, "%d was not met", (int)rules[f]);
    unsigned long calls = 0;
    for (size_t code = 0; code < 17; code++) calls += answers[PACKED][code] + answers[BLOCKED][code];
    printf("%lu calls compared with the reference, %lu of them with the full solver, which accepts %lu\n", calls, solved + unsolved, solved);
    return finish();
}
