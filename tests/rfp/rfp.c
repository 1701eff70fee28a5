/* The converters to and from LAPACK's rectangular full packed format against document 02's positions, document 001's figures and, where it is there, LAPACK: every
 * order to 70 and others to 4,000, there and back; every refusal; and systems that LAPACK solves with a factor of the engine, and the engine with one of LAPACK. */
#define _GNU_SOURCE
#include "../reference.h"
#include "../../bench/peers.h"

#include <math.h>

static const uint64_t suited[] = {METSOVARY_PACKED_RAW, METSOVARY_PACKED_FACTOR};
static const uint64_t blocks[] = {0, 1, 64, 201, UINT64_MAX}; /* no converter judges one */

#define COUNT(array) (sizeof(array) / sizeof *(array))
#define ONE_OF(array) (array)[random_bits() % COUNT(array)]

/* ---- LAPACK ---- */

static rfp_convert *converters[2]; /* in the order of the ways */
static rfp_factor *dpftrf;
static rfp_solve *dpftrs;

static bool load_lapack(void) {
    void *lapack = open_lapack();
    if (!lapack) return false;
    converters[PACKED_TO_RFP] = (rfp_convert *)find_function(lapack, "dtpttf_", LIBRARIES);
    converters[RFP_TO_PACKED] = (rfp_convert *)find_function(lapack, "dtfttp_", LIBRARIES);
    dpftrf = (rfp_factor *)find_function(lapack, "dpftrf_", LIBRARIES);
    dpftrs = (rfp_solve *)find_function(lapack, "dpftrs_", LIBRARIES);
    return converters[PACKED_TO_RFP] && converters[RFP_TO_PACKED] && dpftrf && dpftrs;
}

static bool has_lapack;

static const char *transr(uint64_t form) { return form ? "T" : "N"; }

/* ---- there and back ---- */

/* A conversion into memory in which each bit is the opposite of the one that is due. */
static void convert(enum way way, metsovary_shape shape, uint64_t form, memory source, memory target) {
    reference_convert(way, shape, form, source.values, source.length, target.values, target.length);
    for (size_t k = 0; k < target.length; k++) target.values[k] = from_bits(~to_bits(target.values[k]));
    expect_result("a conversion", shape, compare_convert(way, shape, form, source, target), (metsovary_result){.shape = shape});
    if (!has_lapack) return;
    memory theirs = memory_new(target.length);
    int n = (int)shape.order, info = 1;
    converters[way](transr(form), "L", &n, source.values, theirs.values, &info, 1, 1);
    expect(info == 0 && memory_same(theirs, target), "n %d form %d: not as LAPACK's %s", n, (int)form, way == PACKED_TO_RFP ? "dtpttf" : "dtfttp");
    memory_free(theirs);
}

static void there_and_back(size_t n, uint64_t state) {
    for (uint64_t form = 0; form < 2; form++)
        for (int way = PACKED_TO_RFP; way <= RFP_TO_PACKED; way++) {
            metsovary_shape shape = {n, ONE_OF(blocks), state};
            memory source = memory_new(triangle(n)), there = memory_new(triangle(n)), back = memory_new(triangle(n));
            fill_any(source);
            convert((enum way)way, shape, form, source, there);
            convert((enum way)!way, shape, form, there, back);
            expect(memory_same(source, back), "n %zu form %d: the way back does not restore the bits", n, (int)form);
            memory_free(source);
            memory_free(there);
            memory_free(back);
        }
}

/* ---- document 001's figures 6.1 and 6.2, lower triangular: its a(7, 5) is 64 here, since rows and columns count from 0 ---- */

static const double figure_6[] = {33, 0, 10, 20, 30, 40, 50,
                                  43, 44, 11, 21, 31, 41, 51,
                                  53, 54, 55, 22, 32, 42, 52};
static const double figure_7[] = {0, 10, 20, 30, 40, 50, 60,
                                  44, 11, 21, 31, 41, 51, 61,
                                  54, 55, 22, 32, 42, 52, 62,
                                  64, 65, 66, 33, 43, 53, 63};

static void figure(size_t n, const double *columns) {
    metsovary_shape shape = {.order = n};
    size_t length = triangle(n), wide = (n + 1) / 2, rows = length / wide;
    memory packed = memory_new(length), rfp = memory_new(length);
    for (size_t j = 0; j < n; j++)
        for (size_t i = j; i < n; i++) packed.values[place(PACKED, shape, i, j)] = (double)(10 * i + j);
    for (uint64_t form = 0; form < 2; form++) {
        convert(PACKED_TO_RFP, shape, form, packed, rfp);
        for (size_t c = 0; c < wide; c++)
            for (size_t r = 0; r < rows; r++) {
                double got = rfp.values[form ? c + r * wide : r + c * rows], wanted = columns[r + c * rows];
                expect(got == wanted, "n %zu form %d, row %zu, column %zu: %02.0f, wanted %02.0f", n, (int)form, r, c, got, wanted);
            }
    }
    memory_free(packed);
    memory_free(rfp);
}

/* ---- refusals ---- */

static unsigned long answers[18]; /* by code */

static void answered(uint64_t code, metsovary_shape shape, uint64_t form, size_t source_length, size_t target_length) {
    memory source = memory_new(source_length), target = memory_new(target_length);
    fill_any(source);
    fill_any(target);
    memory source_before = memory_copy(source), target_before = memory_copy(target);
    for (int way = PACKED_TO_RFP; way <= RFP_TO_PACKED; way++) {
        metsovary_result r = compare_convert((enum way)way, shape, form, source, target);
        expect_result("a conversion", shape, r, (metsovary_result){.code = code, .shape = shape});
        expect(memory_same(source, source_before), "the source is touched under %d", (int)code);
        expect(code == 0 || memory_same(target, target_before), "the target is touched under %d", (int)code);
        if (r.code < COUNT(answers)) answers[r.code]++;
    }
    memory_free(source);
    memory_free(target);
    memory_free(source_before);
    memory_free(target_before);
}

/* Every set of the four rules: what suits stands first in each list. */
static void every_fault(size_t n) {
    const uint64_t orders[] = {n, 4001, ((uint64_t)1 << 32) + n, UINT64_MAX};
    const uint64_t forms[] = {0, 1, 2, 3, 256, (uint64_t)1 << 32, ((uint64_t)1 << 32) + 1, (uint64_t)1 << 63, UINT64_MAX};
    const uint64_t states[] = {METSOVARY_PACKED_RAW, METSOVARY_PACKED_FACTOR, METSOVARY_BLOCKED_RAW, METSOVARY_BLOCKED_FACTOR, METSOVARY_SPENT, 5, 256, ((uint64_t)1 << 32) + 2,
        UINT64_MAX};
    const size_t lengths[] = {triangle(n), triangle(n) + 1, n ? triangle(n) - 1 : 2, n ? 0 : 3, triangle(n + 1)};
    for (size_t o = 0; o < COUNT(orders); o++)
        for (size_t f = 0; f < COUNT(forms); f++)
            for (size_t s = 0; s < COUNT(states); s++)
                for (size_t p = 0; p < COUNT(lengths); p++)
                    for (size_t q = 0; q < COUNT(lengths); q++) {
                        uint64_t code = o > 0 ? 1 : f > 1 ? 17 : s > 1 ? 15 : p > 0 || q > 0 ? 3 : 0;
                        answered(code, (metsovary_shape){orders[o], ONE_OF(blocks), states[s]}, forms[f], lengths[p], lengths[q]);
                    }
}

static void null_pointers(void) {
    for (size_t s = 0; s < COUNT(suited); s++) {
        metsovary_shape shape = {.state = suited[s]};
        for (uint64_t form = 0; form < 3; form++) {
            metsovary_result wanted = {.code = form < 2 ? 0 : 17, .shape = shape};
            expect_result("order 0", shape, metsovary_packed_to_rfp(shape, form, NULL, 0, NULL, 0), wanted);
            expect_result("order 0", shape, metsovary_rfp_to_packed(shape, form, NULL, 0, NULL, 0), wanted);
        }
    }
}

/* ---- a factor handed over ---- */

static double matrix_entry(memory packed, metsovary_shape shape, size_t i, size_t j) { return packed.values[i >= j ? place(PACKED, shape, i, j) : place(PACKED, shape, j, i)]; }

static double largest(memory m) {
    double most = 0;
    for (size_t k = 0; k < m.length; k++) most = fmax(most, fabs(m.values[k]));
    return most;
}

/* The residual b - A x is at most 3n + 1 units, 2^-53, of the norms of A and x: Cholesky's error bound grows so with n. */
static void solved(const char *by, memory a, memory b, memory x) {
    metsovary_shape shape = {.order = b.length};
    double norm = 0, residual = 0;
    for (size_t i = 0; i < b.length; i++) {
        double row = 0;
        long double left = b.values[i];
        for (size_t j = 0; j < b.length; j++) {
            double entry = matrix_entry(a, shape, i, j);
            row += fabs(entry);
            left -= (long double)entry * x.values[j];
        }
        norm = fmax(norm, row);
        residual = fmax(residual, (double)fabsl(left));
    }
    expect(residual <= (double)(3 * b.length + 1) * 0x1p-53 * norm * largest(x), "n %zu: the residual of %s is %g", b.length, by, residual);
}

static memory solution(memory factor, metsovary_shape shape, memory b) {
    memory x = memory_copy(b), work = memory_new(shape.order);
    metsovary_result r = metsovary_solve_plain(shape, 1, factor.values, factor.length, x.values, x.length, work.values, work.length);
    expect_result("the solver", shape, r, (metsovary_result){.shape = shape});
    memory_free(work);
    return x;
}

static memory lapack_solution(memory rfp, uint64_t form, memory b) {
    memory x = memory_copy(b);
    int n = (int)b.length, one = 1, info = 1;
    dpftrs(transr(form), "L", &n, &one, rfp.values, x.values, &n, &info, 1, 1);
    expect(info == 0, "dpftrs refuses argument %d", -info);
    return x;
}

static void handed_over(size_t n) {
    metsovary_shape raw = {.order = n}, factored = {n, 0, METSOVARY_PACKED_FACTOR};
    memory a = memory_new(triangle(n)), b = memory_new(n), work = memory_new(n), rfp = memory_new(triangle(n)), packed = memory_new(triangle(n));
    for (size_t j = 0; j < n; j++)
        for (size_t i = j; i < n; i++) a.values[place(PACKED, raw, i, j)] = i == j ? (double)n : random_unit();
    for (size_t i = 0; i < n; i++) b.values[i] = random_unit();
    memory factor = memory_copy(a);
    metsovary_result r = metsovary_factor_plain(raw, factor.values, factor.length, work.values, work.length);
    expect(r.code == 0 && same_shape(r.shape, factored), "n %zu: the factor of a definite matrix: %d", n, (int)r.code);
    memory x = solution(factor, factored, b);
    solved("the engine", a, b, x);
    memory_free(x);
    for (uint64_t form = 0; form < 2; form++) {
        convert(PACKED_TO_RFP, factored, form, factor, rfp);
        x = lapack_solution(rfp, form, b);
        solved("LAPACK on the engine's factor", a, b, x);
        memory_free(x);

        convert(PACKED_TO_RFP, raw, form, a, rfp);
        int order = (int)n, info = 1;
        dpftrf(transr(form), "L", &order, rfp.values, &info, 1, 1);
        expect(info == 0, "n %zu: dpftrf refuses a definite matrix: %d", n, info);
        convert(RFP_TO_PACKED, factored, form, rfp, packed);
        x = solution(packed, factored, b);
        solved("the engine on LAPACK's factor", a, b, x);
        memory_free(x);
    }
    memory_free(a);
    memory_free(b);
    memory_free(work);
    memory_free(rfp);
    memory_free(packed);
    memory_free(factor);
}

int main(void) {
    has_lapack = load_lapack();
    printf(has_lapack ? "conversions are compared with LAPACK and with tests/reference.c\n"
                      : "LAPACK cannot be had here: conversions are compared with tests/reference.c alone, and no factor is handed over\n");
    group("document 001's figures, n 6 and 7");
    figure(6, figure_6);
    figure(7, figure_7);
    group("there and back, every n to 70, both forms, raw matrices and factors");
    for (size_t n = 0; n <= 70; n++)
        for (size_t s = 0; s < COUNT(suited); s++) there_and_back(n, suited[s]);
    group("there and back, n to 1001");
    static const size_t orders[] = {127, 128, 129, 130, 255, 256, 257, 511, 512, 1000, 1001};
    for (size_t k = 0; k < COUNT(orders); k++) there_and_back(orders[k], suited[k % 2]);
    group("there and back, n 3999 and 4000");
    there_and_back(3999, METSOVARY_PACKED_RAW);
    there_and_back(4000, METSOVARY_PACKED_FACTOR);
    group("every set of faults, n 0 to 7");
    for (size_t n = 0; n <= 7; n++) every_fault(n);
    answered(1, (metsovary_shape){.order = 4001}, 2, triangle(4001), triangle(4001));
    answered(1, (metsovary_shape){.order = 4001}, 0, triangle(4001), triangle(4001));
    null_pointers();
    static const uint64_t met[] = {0, 1, 17, 15, 3};
    for (size_t k = 0; k < COUNT(met); k++) expect(answers[met[k]] > 0, "%d was not met", (int)met[k]);
    if (has_lapack) {
        group("systems solved with a factor of the engine by LAPACK, and with one of LAPACK by the engine");
        static const size_t systems[] = {1, 2, 3, 4, 5, 50, 51, 200, 201, 500};
        for (size_t k = 0; k < COUNT(systems); k++) handed_over(systems[k]);
    }
    return finish();
}
