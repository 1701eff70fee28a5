/* Both pipelines against each other and, call by call, against the reference; the blocked calls' refusals, with all memory compared. */
#include "../reference.h"

#include <math.h>

enum { KINDS = 7 };

/* a packed matrix: definite (kind 0), or with a small, a negative or an overflowing part somewhere, or with columns that nearly depend on each other */
static void make(memory a, size_t n, unsigned kind) {
    metsovary_shape shape = {n, 1, METSOVARY_PACKED_RAW};
    for (size_t j = 0; j < n; j++)
        for (size_t i = j; i < n; i++) {
            double x = random_unit();
            if (i == j) x = (double)n * (1.5 + x / 2);
            if (kind == 1 && random_bits() % 4 == 0) x = -0.0;
            if (kind == 2 && i == j && random_bits() % (n + 1) == 0) x = random_unit();
            if (kind == 3 && random_bits() % (2 * n) == 0) x = ldexp(random_unit(), (int)(random_bits() % 2040) - 1030);
            if (kind == 4) x = ldexp(x, -1040);
            if (kind == 5) x = i == j ? 1.0 + ldexp(random_unit(), -30) : 1.0 - ldexp(fabs(x), -24);
            if (kind == 6) x = i == j ? 1.0 + ldexp(random_bits() % n ? 4.0 : random_unit(), -40) : 1.0 - ldexp(fabs(x), -44);
            if (!isfinite(x)) x = 1.0;
            a.values[place(PACKED, shape, i, j)] = x;
        }
}

static void fill_right_sides(memory x, unsigned kind) {
    for (size_t k = 0; k < x.length; k++) x.values[k] = kind == 0 || random_bits() % 50 ? random_unit() : ldexp(random_unit(), (int)(random_bits() % 2000) - 1000);
    if (x.length && kind && random_bits() % 30 == 0) x.values[random_bits() % x.length] = any_nan();
}

/* Both pipelines on memories of their own, from a packed matrix and m right-hand sides, which are freed; each call gets the shape that the one before it on that
 * memory returned, and is compared with the reference as well where that is wanted. The plain factor's result. */
static metsovary_result both(metsovary_shape shape, size_t m, memory a, memory x, bool with_reference) {
    size_t n = shape.order, b = shape.block;
    memory w = memory_new(n), v = memory_new(needed(n, b) + 3);
    fill_any(w);
    fill_any(v);
    memory c = memory_copy(a), z = memory_copy(x);
    metsovary_result f, s = {0}, there, g, t = {0}, back = {0};
    if (with_reference) {
        f = compare_factor(PACKED, shape, a, w);
        if (f.code == 0) s = compare_solve(PACKED, f.shape, m, a, x, w);
        there = compare_rearrange(PACKED, BLOCKED, shape, c, v);
        g = compare_factor(BLOCKED, there.shape, c, v);
        if (g.code == 0) {
            t = compare_solve(BLOCKED, g.shape, m, c, z, v);
            back = compare_rearrange(BLOCKED, PACKED, t.shape, c, v);
        }
    } else {
        f = metsovary_factor_plain(shape, a.values, a.length, w.values, w.length);
        if (f.code == 0) s = metsovary_solve_plain(f.shape, m, a.values, a.length, x.values, x.length, w.values, w.length);
        there = metsovary_packed_to_blocked(shape, c.values, c.length, v.values, v.length);
        g = metsovary_factor_blocked(there.shape, c.values, c.length, v.values, v.length);
        if (g.code == 0) {
            t = metsovary_solve_blocked(g.shape, m, c.values, c.length, z.values, z.length, v.values, v.length);
            back = metsovary_blocked_to_packed(t.shape, c.values, c.length, v.values, v.length);
        }
    }
    expect(same_answer(f, g), "n %zu b %zu: the factors' results differ: %llu %llu exact %d, %llu %llu exact %d", n, b, (unsigned long long)f.code, (unsigned long long)f.place, f.exact,
        (unsigned long long)g.code, (unsigned long long)g.place, g.exact);
    metsovary_shape last = f.code ? f.shape : s.shape, blocked_last = g.code ? g.shape : back.shape;
    metsovary_shape wanted = {n, b, f.code ? METSOVARY_SPENT : METSOVARY_PACKED_FACTOR};
    expect(same_shape(last, wanted) && same_shape(blocked_last, wanted), "n %zu b %zu: the pipelines end in states %llu and %llu after code %llu", n, b,
        (unsigned long long)last.state, (unsigned long long)blocked_last.state, (unsigned long long)f.code);
    if (f.code == 0) {
        expect(same_answer(s, t), "n %zu b %zu: the solvers' results differ", n, b);
        expect(back.code == 0, "n %zu b %zu: no way back after the solver's code %llu", n, b, (unsigned long long)t.code);
        expect(memory_same(x, z), "n %zu b %zu: the right-hand sides differ", n, b);
        expect(memory_same(a, c), "n %zu b %zu: the matrices differ", n, b);
    }
    memory_free(a);
    memory_free(x);
    memory_free(w);
    memory_free(v);
    memory_free(c);
    memory_free(z);
    return f;
}

static void both_of_kind(size_t n, size_t b, size_t m, unsigned kind, bool with_reference) {
    memory a = memory_new(triangle(n)), x = memory_new(n * m);
    make(a, n, kind);
    fill_right_sides(x, kind);
    metsovary_result f = both((metsovary_shape){n, b, METSOVARY_PACKED_RAW}, m, a, x, with_reference);
    expect(kind || f.code == 0, "n %zu b %zu: a definite matrix is refused: %llu", n, b, (unsigned long long)f.code);
}

/* a definite matrix, and one of another kind */
static void two_of(size_t n, size_t b) {
    both_of_kind(n, b, 2, 0, true);
    both_of_kind(n, b, 2, 1 + random_bits() % (KINDS - 1), true);
}

/* A = L·Lᵀ of whole numbers, so that every root is exact. A column with zeros below its diagonal may have one more than a square there: then its root alone is not,
 * and so the factor is not. */
static void whole_numbers(size_t n, size_t b, size_t inexact_column, bool with_reference) {
    metsovary_shape shape = {n, b, METSOVARY_PACKED_RAW};
    memory l = memory_new(triangle(n)), a = memory_new(triangle(n));
    for (size_t j = 0; j < n; j++)
        for (size_t i = j; i < n; i++) l.values[place(PACKED, shape, i, j)] = i == j ? 1.0 + (double)(random_bits() % 9) : j == inexact_column ? 0.0 : (double)(random_bits() % 17) - 8;
    for (size_t j = 0; j < n; j++)
        for (size_t i = j; i < n; i++) {
            double sum = i == j && j == inexact_column ? 1.0 : 0.0; /* whole numbers below 2^53 throughout */
            for (size_t k = 0; k <= j; k++) sum += l.values[place(PACKED, shape, i, k)] * l.values[place(PACKED, shape, j, k)];
            a.values[place(PACKED, shape, i, j)] = sum;
        }
    metsovary_result r = both(shape, 0, a, memory_new(0), with_reference);
    expect(r.code == 0 && r.exact == (inexact_column >= n), "n %zu b %zu, no square in column %zu: code %llu, exact %d", n, b, inexact_column, (unsigned long long)r.code, r.exact);
    memory_free(l);
}

/* ---- every block length to 40, and those beside the multiples of 16 and at the bounds ---- */

static const size_t larger[] = {47, 48, 63, 64, 65, 100, 127, 128, 129, 199, 200};
enum { BLOCKS = 40 + sizeof larger / sizeof *larger };

static size_t block_length(size_t k) { return k < 40 ? k + 1 : larger[k - 40]; }

/* 10 or 11 in this column of a matrix that is definite without it, all of whose values take part. Under 11 an infinity stands
 * before the other columns of its block column. */
static void refused_factor(size_t n, size_t b, uint64_t code, size_t column) {
    metsovary_shape shape = {n, b, METSOVARY_PACKED_RAW};
    memory a = memory_new(triangle(n));
    make(a, n, 0);
    a.values[place(PACKED, shape, column, column)] = code == 10 ? -1.0 : ldexp(1, -1000);
    if (code == 11) {
        for (size_t k = 0; k < column; k++) a.values[place(PACKED, shape, column, k)] = 0.0;
        a.values[place(PACKED, shape, n - 1, column)] = ldexp(1, 600);
    }
    metsovary_result r = both(shape, 0, a, memory_new(0), true);
    expect(r.code == code && r.place == column, "n %zu b %zu: %llu in column %zu: %llu %llu", n, b, (unsigned long long)code, column, (unsigned long long)r.code,
        (unsigned long long)r.place);
}

/* 12 in the second of three right-hand sides, by y or by x in this column */
static void refused_solution(size_t n, size_t b, bool by_y, size_t column) {
    metsovary_shape shape = {n, b, METSOVARY_BLOCKED_FACTOR};
    memory a = memory_new(triangle(n)), x = memory_new(3 * n), w = memory_new(n + 1);
    for (size_t k = 0; k < a.length; k++) a.values[k] = random_unit();
    for (size_t j = 0; j < n; j++) a.values[place(BLOCKED, shape, j, j)] = j == column ? ldexp(1, -200) : (double)n;
    fill_right_sides(x, 0);
    x.values[n + column] = ldexp(1, by_y ? 900 : 700);
    fill_any(w);
    metsovary_result r = compare_solve(BLOCKED, shape, 3, a, x, w);
    expect(r.code == 12 && r.place == 1, "n %zu b %zu: 12 by column %zu: %llu %llu", n, b, column, (unsigned long long)r.code, (unsigned long long)r.place);
    memory_free(a);
    memory_free(x);
    memory_free(w);
}

static void refused_column(size_t n, size_t b, size_t column) {
    refused_factor(n, b, 10, column);
    if (column + 1 < n) refused_factor(n, b, 11, column);
    refused_solution(n, b, true, column);
    refused_solution(n, b, false, column);
}

/* 10 to 12 in columns from the first to the last, with a last block column that is narrower */
static void refused_columns(size_t b) {
    size_t n = (b < 16 ? 18 : b <= 40 ? 3 : 1) * b + b / 2 + 1, step = b <= 40 ? 1 + n / 60 : n / 6;
    for (size_t column = 0; column + 1 < n; column += step) refused_column(n, b, column);
    refused_column(n, b, n - 1);
}

/* 10 in column p and 11 in column q of one matrix: the lower of the two decides */
static void two_refusals(size_t n, size_t b, size_t p, size_t q) {
    metsovary_shape shape = {n, b, METSOVARY_BLOCKED_RAW};
    memory a = memory_new(triangle(n)), v = memory_new(needed(n, b) + 1);
    for (size_t j = 0; j < n; j++)
        for (size_t i = j; i < n; i++) a.values[place(BLOCKED, shape, i, j)] = i == j ? 4.0 : 0.0;
    for (size_t j = 0; j < n; j++) a.values[place(BLOCKED, shape, n - 1, j)] = j == n - 1 ? 5.0 : 0.25;
    if (q < n) {
        a.values[place(BLOCKED, shape, q, q)] = ldexp(1, -1000);
        if (q + 1 < n) a.values[place(BLOCKED, shape, n - 1, q)] = ldexp(1, 600);
    }
    if (p < n) a.values[place(BLOCKED, shape, p, p)] = -3.0;
    fill_any(v);
    metsovary_result r = compare_factor(BLOCKED, shape, a, v);
    bool eleven = q + 1 < n && q < p;
    expect(p >= n && q + 1 >= n ? r.code == 0 || r.code == 10 : r.code == (eleven ? 11u : 10u) && r.place == (eleven ? q : p), "n %zu b %zu: 10 at %zu, 11 at %zu gives %llu %llu", n, b, p,
        q, (unsigned long long)r.code, (unsigned long long)r.place);
    memory_free(a);
    memory_free(v);
}

/* ---- weak columns ---- */

/* The pivot of this column, from which three products are subtracted, is 2^-40 of its diagonal value (neighbour 0), or the value next below (-1) or above (1). */
static void at_bound(size_t n, size_t b, size_t column, int neighbour, int scale) {
    metsovary_shape shape = {n, b, METSOVARY_PACKED_RAW};
    memory a = memory_new(triangle(n));
    for (size_t j = 0; j < n; j++) a.values[place(PACKED, shape, j, j)] = 1.0;
    /* 1 - (1 - 2^-40)^2 is 2^-39; then 2^-40 goes, or 2^-40 - 2^-92; then a little more than half a unit, or nothing */
    a.values[place(PACKED, shape, column, 0)] = ldexp(1.0 - 0x1p-40, scale);
    a.values[place(PACKED, shape, column, column / 2)] = ldexp(neighbour > 0 ? 1.0 - 0x1p-53 : 1.0, scale - 20);
    a.values[place(PACKED, shape, column, column - 1)] = neighbour < 0 ? ldexp(1.05, scale - 47) : 0.0;
    a.values[place(PACKED, shape, column, column)] = ldexp(1.0, 2 * scale);
    double bound = ldexp(1.0, 2 * scale - 40);
    metsovary_result r = both(shape, 0, a, memory_new(0), true);
    expect(neighbour > 0 ? r.code == 0 : r.code == 16 && r.place == column && to_bits(r.value) == to_bits(bound) + (uint64_t)neighbour,
        "n %zu b %zu: column %zu at the bound %+d: %llu %llu %016llx", n, b, column, neighbour, (unsigned long long)r.code, (unsigned long long)r.place,
        (unsigned long long)to_bits(r.value));
}

/* A second column whose bound is below the normal numbers, where the product by 2^-40 is rounded: bits of a(1,1) and a(1,0), a(0,0) being 1, and the pivot and the
 * bound in units of the smallest subnormal. */
static void subnormal_bound(size_t b) {
    static const struct { uint64_t diagonal, below, pivot, bound; } rows[] = {
        {0x18000000000u, 0x1fa3988e1409141eu, 2, 2}, /* 1.5 units are 2 */
        {0x18000000000u, 0x1fa3988e14090d96u, 3, 2},
        {0x10000000000u, 0x1f9ffffffffff000u, 1, 1},
        {0x08000000000u, 0x1f96a09e667f252cu, 1, 0}, /* half a unit is 0 */
    };
    for (size_t k = 0; k < sizeof rows / sizeof *rows; k++) {
        memory a = memory_new(3);
        a.values[0] = 1.0;
        a.values[1] = from_bits(rows[k].below);
        a.values[2] = from_bits(rows[k].diagonal);
        metsovary_result r = both((metsovary_shape){2, b, METSOVARY_PACKED_RAW}, 0, a, memory_new(0), true);
        bool weak = rows[k].pivot <= rows[k].bound;
        expect(r.code == (weak ? 16 : 0) && to_bits(r.value) == (weak ? rows[k].pivot : 0), "b %zu: %llu units beside %llu: %llu %016llx", b, (unsigned long long)rows[k].pivot,
            (unsigned long long)rows[k].bound, (unsigned long long)r.code, (unsigned long long)to_bits(r.value));
    }
}

/* A = L·Lᵀ of whole numbers, none of them 0, but for this column's diagonal value: the upper neighbour of the sum of the squares before it. Nothing is rounded, and
 * the difference of the two is the pivot. */
static void weak_column(size_t n, size_t b, size_t column) {
    metsovary_shape shape = {n, b, METSOVARY_PACKED_RAW};
    memory l = memory_new(triangle(n)), a = memory_new(triangle(n));
    for (size_t k = 0; k < l.length; k++) l.values[k] = 1.0 + (double)(random_bits() % 9);
    for (size_t j = 0; j < n; j++)
        for (size_t i = j; i < n; i++) {
            double sum = 0.0;
            for (size_t k = 0; k < j + !(i == j && j == column); k++) sum += l.values[place(PACKED, shape, i, k)] * l.values[place(PACKED, shape, j, k)];
            a.values[place(PACKED, shape, i, j)] = sum;
        }
    size_t diagonal = place(PACKED, shape, column, column);
    double sum = a.values[diagonal];
    a.values[diagonal] = nextafter(sum, INFINITY);
    double pivot = a.values[diagonal] - sum;
    metsovary_result r = both(shape, 0, a, memory_new(0), true);
    expect(r.code == 16 && r.place == column && to_bits(r.value) == to_bits(pivot), "n %zu b %zu: column %zu weak: %llu %llu %016llx", n, b, column, (unsigned long long)r.code,
        (unsigned long long)r.place, (unsigned long long)to_bits(r.value));
    memory_free(l);
}

/* A weak column p, whose pivot is 2^-52, and in column q 10, or 11 for an entry of this row: the lower of the two decides, and in one column 10 before 16 and 16
 * before 11. */
static void weak_and_refused(size_t n, size_t b, size_t p, uint64_t code, size_t q, size_t row) {
    metsovary_shape shape = {n, b, METSOVARY_PACKED_RAW};
    memory a = memory_new(triangle(n));
    for (size_t j = 0; j < n; j++) a.values[place(PACKED, shape, j, j)] = 4.0;
    a.values[place(PACKED, shape, p, 0)] = 2.0;
    a.values[place(PACKED, shape, p, p)] = 1.0 + 0x1p-52;
    if (code == 10) a.values[place(PACKED, shape, q, q)] = -3.0;
    if (code == 11 && p != q) a.values[place(PACKED, shape, q, q)] = ldexp(1, -1000);
    if (code == 11) a.values[place(PACKED, shape, row, q)] = ldexp(1, p == q ? 1000 : 600);
    metsovary_result r = both(shape, 0, a, memory_new(0), true);
    bool weak = p < q || (p == q && code == 11);
    double value = weak ? 0x1p-52 : code == 10 ? -3.0 - (p == q) : 0.0;
    expect(r.code == (weak ? 16 : code) && r.place == (weak ? p : q) && to_bits(r.value) == to_bits(value), "n %zu b %zu: 16 at %zu and %llu at %zu: %llu %llu %016llx", n,
        b, p, (unsigned long long)code, q, (unsigned long long)r.code, (unsigned long long)r.place, (unsigned long long)to_bits(r.value));
}

static void blocked_refusals(size_t n, size_t b) {
    metsovary_shape shape = {n, b, METSOVARY_BLOCKED_RAW}, factor = {n, b, METSOVARY_BLOCKED_FACTOR};
    size_t m = 3;
    memory v = memory_new(needed(n, b));
    for (size_t p = 0; p < triangle(n); p++) { /* 7 and 9 */
        memory a = memory_new(triangle(n)), x = memory_new(n * m);
        for (size_t j = 0; j < n; j++) a.values[place(BLOCKED, shape, j, j)] = 2;
        a.values[p] = p % 2 ? INFINITY : any_nan();
        fill_any(v);
        compare_factor(BLOCKED, shape, a, v);
        compare_solve(BLOCKED, factor, m, a, x, v);
        a.values[p] = -1;
        compare_solve(BLOCKED, factor, m, a, x, v);
        memory_free(a);
        memory_free(x);
    }
    for (size_t p = 0; p < n * m; p++) { /* 8, and 12 by y and by x */
        memory a = memory_new(triangle(n)), x = memory_new(n * m);
        for (size_t j = 0; j < n; j++) a.values[place(BLOCKED, shape, j, j)] = ldexp(1, -200);
        x.values[p] = any_nan();
        metsovary_result r = compare_solve(BLOCKED, factor, m, a, x, v);
        expect(r.code == 8 && r.place == p, "8 at %zu", p);
        x.values[p] = p % 2 ? ldexp(1, 1000) : ldexp(1, 700);
        r = compare_solve(BLOCKED, factor, m, a, x, v);
        expect(r.code == 12 && r.place == p / n, "12 in right-hand side %zu: %llu %llu", p / n, (unsigned long long)r.code, (unsigned long long)r.place);
        memory_free(a);
        memory_free(x);
    }
    memory_free(v);
    for (size_t extra = 0; extra < 9; extra++) { /* 2 to 6 */
        memory a = memory_new(triangle(n) + extra % 3 - 1), x = memory_new(n * m + extra % 2), w = memory_new(extra / 3 == 0 ? n - 1 : extra / 3 == 1 ? needed(n, b) - 1 : needed(n, b));
        compare_factor(BLOCKED, shape, a, w);
        compare_solve(BLOCKED, factor, m, a, x, w);
        compare_solve(BLOCKED, factor, 1001, a, x, w);
        memory_free(a);
        memory_free(x);
        memory_free(w);
    }
}

int main(void) {
    group("both pipelines, every n to 80, every b to 40 and some to 200, every kind");
    for (size_t n = 0; n <= 80; n++)
        for (size_t k = 0; k < BLOCKS; k++)
            for (unsigned kind = 0; kind < KINDS; kind++) both_of_kind(n, block_length(k), (n + k + kind) % 4, kind, true);
    group("both pipelines, n 150, 263 and 400, every b to 40 and some to 200");
    for (size_t k = 0; k < BLOCKS; k++) {
        two_of(150, block_length(k));
        two_of(263, block_length(k));
        two_of(400, block_length(k));
    }
    group("both pipelines, some n to 600, some b to 200");
    for (size_t n = 47; n <= 600; n += 79)
        for (size_t b = 1; b <= 200; b += 1 + random_bits() % 60) both_of_kind(n, b, 2, random_bits() % KINDS, n < 300);
    group("10, 11 and 12 in columns from the first to the last, every b to 40 and some to 200");
    for (size_t k = 0; k < BLOCKS; k++) refused_columns(block_length(k));
    group("whole numbers: every root exact, and one that is not in each column");
    for (size_t n = 0; n <= 40; n++)
        for (size_t k = 0; k < BLOCKS; k += n < 12 ? 1 : 7)
            for (size_t inexact_column = 0; inexact_column <= n; inexact_column++) whole_numbers(n, block_length(k), inexact_column, true);
    for (size_t k = 0; k < BLOCKS; k += 5) {
        whole_numbers(263, block_length(k), 263, true);
        whole_numbers(263, block_length(k), random_bits() % 263, true);
    }
    whole_numbers(1000, 64, 1000, false);
    group("10 and 11 in every pair of columns");
    for (size_t n = 1; n <= 9; n++)
        for (size_t b = 1; b <= 10; b++)
            for (size_t p = 0; p <= n; p++)
                for (size_t q = 0; q <= n; q++)
                    if (p != q) two_refusals(n, b, p, q);
    for (size_t p = 0; p <= 37; p += 4)
        for (size_t q = 1; q <= 37; q += 4) two_refusals(37, 20, p, q);
    group("16: pivots at the bound and one unit on either side");
    for (size_t n = 4; n <= 40; n += n < 12 ? 1 : 7)
        for (size_t b = 1; b <= n + 1; b++)
            for (size_t column = 3; column < n; column += 1 + n / 12)
                for (int neighbour = -1; neighbour <= 1; neighbour++)
                    for (int scale = -300; scale <= 300; scale += 300) at_bound(n, b, column, neighbour, scale);
    for (size_t b = 1; b <= 3; b++) subnormal_bound(b);
    group("16: every column weak in turn");
    for (size_t n = 2; n <= 12; n++)
        for (size_t b = 1; b <= n + 1; b++)
            for (size_t column = 1; column < n; column++) weak_column(n, b, column);
    for (size_t k = 0; k < BLOCKS; k++)
        for (size_t column = 1; column < 263; column += 29) weak_column(263, block_length(k), column);
    group("16 with 10 or 11 in every pair of columns");
    for (size_t n = 2; n <= 9; n++)
        for (size_t b = 1; b <= n + 1; b++)
            for (size_t p = 1; p < n; p++)
                for (size_t q = 0; q < n; q++) {
                    weak_and_refused(n, b, p, 10, q, 0);
                    for (size_t row = q + 1; row < n; row++) weak_and_refused(n, b, p, 11, q, row);
                }
    for (size_t p = 1; p < 37; p++)
        for (size_t q = p % 3; q + 1 < 37; q += 3) {
            weak_and_refused(37, 20, p, 10, q, 0);
            weak_and_refused(37, 20, p, 11, q, q + 1);
            weak_and_refused(37, 20, p, 11, q, 36);
        }
    group("blocked refusals 2 to 9 and 12");
    for (size_t n = 1; n <= 7; n++)
        for (size_t b = 1; b <= 8; b++) blocked_refusals(n, b);
    blocked_refusals(19, 16);
    group("block lengths and orders at their bounds");
    memory none = memory_new(0);
    metsovary_shape wrong[] = {{4001, 1, 0}, {UINT64_MAX, UINT64_MAX, 0}, {0, 0, 0}, {0, 201, 0}, {0, 200, 0}, {0, UINT64_MAX, 0}};
    for (size_t k = 0; k < 6; k++) {
        wrong[k].state = METSOVARY_BLOCKED_RAW;
        compare_factor(BLOCKED, wrong[k], none, none);
        wrong[k].state = METSOVARY_BLOCKED_FACTOR;
        compare_solve(BLOCKED, wrong[k], 1000, none, none, none);
        compare_solve(BLOCKED, wrong[k], UINT64_MAX, none, none, none);
    }
    memory_free(none);
    group("order 0 with null pointers");
    metsovary_shape raw = {0, 64, METSOVARY_PACKED_RAW}, blocked_raw = {0, 64, METSOVARY_BLOCKED_RAW};
    metsovary_shape factor = {0, 64, METSOVARY_PACKED_FACTOR}, blocked_factor = {0, 64, METSOVARY_BLOCKED_FACTOR};
    expect(same_result(metsovary_packed_to_blocked(raw, NULL, 0, NULL, 0), (metsovary_result){.shape = blocked_raw}), "packed to blocked");
    expect(same_result(metsovary_blocked_to_packed(blocked_raw, NULL, 0, NULL, 0), (metsovary_result){.shape = raw}), "blocked to packed");
    expect(same_result(metsovary_factor_plain(raw, NULL, 0, NULL, 0), (metsovary_result){.exact = true, .shape = factor}), "plain factor");
    expect(same_result(metsovary_factor_blocked(blocked_raw, NULL, 0, NULL, 0), (metsovary_result){.exact = true, .shape = blocked_factor}), "blocked factor");
    expect(same_result(metsovary_solve_plain(factor, 3, NULL, 0, NULL, 0, NULL, 0), (metsovary_result){.shape = factor}), "plain solver");
    expect(same_result(metsovary_solve_blocked(blocked_factor, 3, NULL, 0, NULL, 0, NULL, 0), (metsovary_result){.shape = blocked_factor}), "blocked solver");
    group("both pipelines, n 4000, b 3, 64 and 200");
    both_of_kind(4000, 3, 1, 0, false);
    both_of_kind(4000, 64, 2, 0, false);
    both_of_kind(4000, 200, 1, 0, false);
    return finish();
}
