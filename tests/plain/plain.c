/* The plain factor and the plain solver against naive loops and the processor's square root. */
#include "../reference.h"

#include <math.h>

enum kind { DEFINITE, NEARLY_DEPENDENT, INDEFINITE, SUBNORMAL, OVERFLOWING, SIGNED_ZEROS, KINDS };

/* a packed matrix of the kind; every value is finite */
static void make(memory a, size_t n, enum kind kind) {
    metsovary_shape shape = {n, 1, METSOVARY_PACKED_RAW};
    for (size_t j = 0; j < n; j++)
        for (size_t i = j; i < n; i++) {
            double x = random_unit();
            if (i == j) x = kind == INDEFINITE ? x * 4 : (double)n * (1.5 + x / 2);
            if (kind == NEARLY_DEPENDENT) x = i == j ? 1.0 + ldexp(random_bits() % n ? 4.0 : random_unit(), -40) : 1.0 - ldexp(fabs(x), random_bits() % 64 ? -44 : -20);
            if (kind == SUBNORMAL) x = i == j ? ldexp(fabs(x), -1000) : ldexp(x, -1060);
            if (kind == OVERFLOWING) x = i == j ? ldexp(fabs(x) + 0.1, (int)(random_bits() % 1900) - 1000) : ldexp(x, (int)(random_bits() % 1900) - 1000);
            if (kind == SIGNED_ZEROS) x = i == j ? 4.0 : random_bits() % 2 ? 0.0 : random_bits() % 3 ? -0.0 : x / (double)n;
            if (!isfinite(x)) x = 1.0;
            a.values[place(PACKED, shape, i, j)] = x;
        }
}

/* the solver is handed what a refused factor left too: in its own state, then as if it were a factor */
static void factor_and_solve(size_t n, size_t m, enum kind kind) {
    metsovary_shape shape = {n, random_bits(), METSOVARY_PACKED_RAW};
    memory a = memory_new(triangle(n)), x = memory_new(n * m), work = memory_new(n + 2);
    make(a, n, kind);
    for (size_t k = 0; k < x.length; k++) x.values[k] = kind == OVERFLOWING ? ldexp(random_unit(), (int)(random_bits() % 2000) - 1000) : random_unit();
    fill_any(work);
    metsovary_result f = compare_factor(PACKED, shape, a, work);
    fill_any(work);
    metsovary_result s = compare_solve(PACKED, f.shape, m, a, x, work);
    if (f.code) {
        expect(s.code == 15, "n %zu: code %llu after a refused factor", n, (unsigned long long)s.code);
        s.shape.state = METSOVARY_PACKED_FACTOR;
        compare_solve(PACKED, s.shape, m, a, x, work);
    }
    memory_free(a);
    memory_free(x);
    memory_free(work);
}

static void all_refusals(size_t n) {
    metsovary_shape shape = {n, 1, METSOVARY_PACKED_RAW}, factor = {n, 1, METSOVARY_PACKED_FACTOR};
    size_t m = 3;
    memory work = memory_new(n);
    for (size_t k = 0; k < 3; k++) {
        double bad = k == 0 ? INFINITY : k == 1 ? -INFINITY : any_nan();
        for (size_t p = 0; p < triangle(n); p++) { /* 7, and two of them */
            memory a = memory_new(triangle(n)), x = memory_new(n * m);
            make(a, n, DEFINITE);
            a.values[p] = bad;
            if (p + 2 < a.length) a.values[p + 2] = any_nan();
            fill_any(work);
            metsovary_result r = compare_factor(PACKED, shape, a, work);
            expect(r.code == 7 && r.place == p, "7 at %zu", p);
            compare_solve(PACKED, factor, m, a, x, work);
            memory_free(a);
            memory_free(x);
        }
        for (size_t p = 0; p < n * m; p++) { /* 8 */
            memory a = memory_new(triangle(n)), x = memory_new(n * m);
            make(a, n, DEFINITE);
            x.values[p] = bad;
            metsovary_result r = compare_solve(PACKED, factor, m, a, x, work);
            expect(r.code == 8 && r.place == p, "8 at %zu", p);
            memory_free(a);
            memory_free(x);
        }
    }
    static const double low[] = {0.0, -0.0, -1.0, -5e-324};
    for (size_t j = 0; j < n; j++) {
        if (j > 0) { /* 16 at each column but the first: l(j,0) is 8, and the rest of row j and of column 0 is zero */
            memory a = memory_new(triangle(n));
            make(a, n, DEFINITE);
            for (size_t i = 1; i < n; i++) a.values[place(PACKED, shape, i, 0)] = 0;
            for (size_t k = 1; k < j; k++) a.values[place(PACKED, shape, j, k)] = 0;
            a.values[0] = 4.0;
            a.values[place(PACKED, shape, j, 0)] = 16.0;
            a.values[place(PACKED, shape, j, j)] = nextafter(64.0, 65.0);
            fill_any(work);
            metsovary_result r = compare_factor(PACKED, shape, a, work);
            expect(r.code == 16 && r.place == j && r.value == nextafter(64.0, 65.0) - 64.0, "16 at %zu: %llu %llu", j, (unsigned long long)r.code, (unsigned long long)r.place);
            memory_free(a);
        }
        for (size_t k = 0; k < 4; k++) { /* 9 and 10 at each column */
            memory a = memory_new(triangle(n)), x = memory_new(n * m);
            make(a, n, DEFINITE);
            a.values[place(PACKED, shape, j, j)] = low[k];
            if (j + 1 < n) a.values[place(PACKED, shape, n - 1, n - 1)] = -7;
            fill_any(work);
            metsovary_result r = compare_solve(PACKED, factor, m, a, x, work);
            expect(r.code == 9 && r.place == j, "9 at %zu", j);
            r = compare_factor(PACKED, shape, a, work);
            expect(r.code == 10 && r.place == j, "10 at %zu", j);
            memory_free(a);
            memory_free(x);
        }
        if (j + 1 < n) { /* 11 at each column, before a bad pivot right of it */
            memory a = memory_new(triangle(n));
            make(a, n, SIGNED_ZEROS);
            for (size_t i = 0; i < n; i++) a.values[place(PACKED, shape, i, i)] = 4;
            for (size_t k = 0; k < j; k++)
                for (size_t i = j; i < n; i++) a.values[place(PACKED, shape, i, k)] = 0;
            a.values[place(PACKED, shape, j, j)] = ldexp(1, -1000);
            for (size_t i = j + 1; i < n; i++) a.values[place(PACKED, shape, i, j)] = i == n - 1 ? ldexp(1, 600) : 0;
            a.values[place(PACKED, shape, j + 1, j + 1)] = j + 1 == n - 1 ? 1 : -1;
            fill_any(work);
            metsovary_result r = compare_factor(PACKED, shape, a, work);
            expect(r.code == 11 && r.place == j, "11 at %zu: %llu %llu", j, (unsigned long long)r.code, (unsigned long long)r.place);
            memory_free(a);
        }
    }
    for (size_t q = 0; q < m && n; q++) { /* 12 at each right-hand side, by y and by x */
        for (int by_x = 0; by_x < 2; by_x++) {
            memory a = memory_new(triangle(n)), x = memory_new(n * m);
            make(a, n, DEFINITE);
            size_t tiny = by_x ? n - 1 : 0;
            for (size_t i = tiny; i < n; i++) a.values[place(PACKED, shape, i, tiny)] = i == tiny ? ldexp(1, -600) : 0;
            for (size_t k = 0; k < tiny; k++) a.values[place(PACKED, shape, tiny, k)] = 0;
            for (size_t k = 0; k < x.length; k++) x.values[k] = ldexp(random_unit(), k / n == q ? 500 : -500);
            fill_any(work);
            metsovary_result r = compare_solve(PACKED, factor, m, a, x, work);
            expect(r.code == 12 && r.place == q, "12 at %zu: %llu %llu", q, (unsigned long long)r.code, (unsigned long long)r.place);
            memory_free(a);
            memory_free(x);
        }
    }
    memory_free(work);
}

static void lengths(void) {
    metsovary_shape shape = {5, 0, METSOVARY_PACKED_RAW}, factor = {5, 0, METSOVARY_PACKED_FACTOR};
    for (size_t a_length = 14; a_length <= 16; a_length++)
        for (size_t w_length = 4; w_length <= 6; w_length++)
            for (size_t x_length = 9; x_length <= 11; x_length++)
                for (uint64_t m = 1; m <= 1001; m += 500) {
                    memory a = memory_new(a_length), w = memory_new(w_length), x = memory_new(x_length);
                    fill_any(a);
                    fill_any(w);
                    fill_any(x);
                    compare_factor(PACKED, shape, a, w);
                    compare_solve(PACKED, factor, m == 1 ? 2 : m, a, x, w);
                    memory_free(a);
                    memory_free(w);
                    memory_free(x);
                }
    memory none = memory_new(0);
    metsovary_shape wrong[] = {{4001, 0, 0}, {UINT64_MAX, 1, 0}, {(uint64_t)1 << 32, 1, 0}, {0, 0, 0}, {0, UINT64_MAX, 0}};
    for (size_t k = 0; k < 5; k++) {
        wrong[k].state = METSOVARY_PACKED_RAW;
        compare_factor(PACKED, wrong[k], none, none);
        wrong[k].state = METSOVARY_PACKED_FACTOR;
        compare_solve(PACKED, wrong[k], 1000, none, none, none);
        compare_solve(PACKED, wrong[k], 1001, none, none, none);
        compare_solve(PACKED, wrong[k], UINT64_MAX, none, none, none);
    }
    memory_free(none);
}

int main(void) {
    group("plain factor and solver, every n to 40");
    for (size_t n = 0; n <= 40; n++)
        for (int kind = 0; kind < KINDS; kind++) factor_and_solve(n, n % 4, (enum kind)kind);
    group("plain factor and solver, some n to 600");
    for (size_t n = 63; n <= 600; n += 89)
        for (int kind = 0; kind < KINDS; kind++) factor_and_solve(n, 2, (enum kind)kind);
    group("plain refusals 7 to 12 and 16 at every position");
    for (size_t n = 1; n <= 9; n++) all_refusals(n);
    all_refusals(17);
    group("plain lengths and orders");
    lengths();
    group("plain factor and solver, n 4000");
    factor_and_solve(4000, 1, DEFINITE);
    return finish();
}
