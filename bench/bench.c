/* Times the engine's calls, their peers in the reference LAPACK and in OpenBLAS, memcpy, and a loop at the processor's peak: in one process, on the same values,
 * in interleaved rounds.
 *
 *   OPENBLAS_CORETYPE=Prescott OPENBLAS_NUM_THREADS=1 bench LIBOPENBLAS BLOCKS [N..]
 *
 * measures the orders 500, 1,000 and 2,000 and each N, and prints a line for each subject: order, who, what with its block length and its number of right-hand
 * sides where it has them (solve_blocked_64_100), the least processor time of a call in seconds, and the core type. Variances are those of the first unknown
 * and of one in the middle (variance_blocked_middle_64); a converter and its peer have the number of the form (packed_to_rfp_1, dtpttf_1); no unknown is struck,
 * one, n/2, or every second (strike_none, strike_one, strike_half). LIBOPENBLAS is the path of libopenblas.so.0. The calls that work by blocks are measured at block
 * length 64, and at orders 1,000 and 2,000 at those of BLOCKS (16,32, or nothing) too. */
#define _GNU_SOURCE
#include <emmintrin.h>
#include <math.h>
#include <stdio.h>
#include <stdlib.h>
#include <string.h>
#include <time.h>

#include "../include/metsovary.h"
#include "peers.h"

enum { MAX_BLOCK = 200, MANY = 100, MAX_ORDER = 4000 };
static const double ROUND_SECONDS = 0.02; /* a short call is repeated in a round until it has used this much */

/* Other work on the machine slows single rounds, so that the least time wants many; large orders take long. */
static int rounds(int order) { return order <= 1000 ? 15 : order <= 2000 ? 7 : 3; }

static void die(const char *what, const char *why) {
    fprintf(stderr, "bench: %s: %s\n", what, why);
    exit(1);
}

/* ---- peers ---- */

static packed_factor *reference_dpptrf, *openblas_dpptrf;
static packed_solve *reference_dpptrs;
static rfp_convert *reference_dtpttf, *reference_dtfttp;
static full_factor *openblas_dpotrf;
static const char *core;

static void *loaded(const char *what, void *library) {
    if (!library) die(what, dlerror());
    return library;
}

static void *function(void *library, const char *name, const char *path) {
    void *found = find_function(library, name, path);
    if (!found) die(name, "not found where it belongs");
    return found;
}

/* LAPACK's calls are bound before OpenBLAS is loaded. */
static void load_reference(void) {
    static const char *const called[] = {"dspr_", "dscal_", "ddot_", "dtpsv_"};
    void *lapack = loaded("LAPACK", open_lapack());
    for (size_t k = 0; k < sizeof called / sizeof *called; k++) function(lapack, called[k], LIBRARIES "blas/");
    reference_dpptrf = (packed_factor *)function(lapack, "dpptrf_", LIBRARIES "lapack/");
    reference_dpptrs = (packed_solve *)function(lapack, "dpptrs_", LIBRARIES "lapack/");
    reference_dtpttf = (rfp_convert *)function(lapack, "dtpttf_", LIBRARIES "lapack/");
    reference_dtfttp = (rfp_convert *)function(lapack, "dtfttp_", LIBRARIES "lapack/");
}

static void load_openblas(const char *path) {
    void *openblas = loaded(path, open_library(path));
    const char *wanted = getenv("OPENBLAS_CORETYPE");
    core = ((char *(*)(void))function(openblas, "openblas_get_corename", path))();
    if (!wanted || strcmp(wanted, core) != 0) die("OPENBLAS_CORETYPE is not the core type that OpenBLAS took", core);
    if (((int (*)(void))function(openblas, "openblas_get_num_threads", path))() != 1) die("OPENBLAS_NUM_THREADS", "not 1");
    function(openblas, "dspr_", path);
    openblas_dpptrf = (packed_factor *)function(openblas, "dpptrf_", path);
    openblas_dpotrf = (full_factor *)function(openblas, "dpotrf_", path);
}

/* ---- operands ---- */

static int n, block, sides;                           /* the order; the subject's block length and number of right-hand sides, 0 where it has none */
static size_t length;
static double *original, *matrix, *full;              /* the packed matrix; what a call works on, as a triangle or as a square */
static double *factor, *blocked_factor;               /* of the matrix, by the engine */
static double *rfp[2];                                /* the matrix in rectangular full packed format, of either form, by the engine */
static metsovary_shape matrix_shape, factor_shape, blocked_shape; /* what the engine is told that matrix and the two factors hold */
static double *right_sides, *solutions, *x, *work;    /* MANY right-hand sides, their solutions by the engine; what a solver works on */
static double first_variance, middle_variance;        /* of unknowns 0 and middle(), by the plain solver */
static uint64_t one_unknown[1], odd_unknowns[MAX_ORDER / 2]; /* to strike: n/2, and every second */

static metsovary_shape shape(uint64_t state) { return (metsovary_shape){(uint64_t)n, (uint64_t)block, state}; }
static size_t block_work(void) { return (size_t)n * (size_t)(n < block ? n : block); }
static size_t rhs_length(void) { return (size_t)n * (size_t)sides; }
static int middle(void) { return n > 14 ? n / 2 + 7 : n / 2; } /* at most block lengths it lies inside a block column */

static metsovary_shape accept(const char *call, metsovary_result r) {
    if (r.code != 0) die(call, "refused");
    return r.shape;
}

static double *values(size_t count) {
    double *v = aligned_alloc(64, (count * sizeof *v + 63) / 64 * 64);
    if (!v) die("memory", "none left");
    memset(v, 0, count * sizeof *v);
    return v;
}

static void copy(double *to, const double *from, size_t count) { memcpy(to, from, count * sizeof *to); }

static uint64_t state;

static double random_unit(void) {
    state += 0x9e3779b97f4a7c15u;
    uint64_t z = state;
    z = (z ^ (z >> 30)) * 0xbf58476d1ce4e5b9u;
    z = (z ^ (z >> 27)) * 0x94d049bb133111ebu;
    return (double)(int64_t)(z ^ (z >> 31)) / 9223372036854775808.0;
}

static double solved_variance(int unknown) {
    memset(x, 0, (size_t)n * sizeof *x);
    x[unknown] = 1;
    accept("solve_plain", metsovary_solve_plain(factor_shape, 1, factor, length, x, (size_t)n, work, (size_t)n));
    return x[unknown];
}

/* The matrix has n on its diagonal and values between -1 and 1 below it, so it is positive definite. */
static void make_operands(int order) {
    n = order, block = MAX_BLOCK, sides = MANY, blocked_shape = (metsovary_shape){0};
    length = (size_t)n * (size_t)(n + 1) / 2;
    original = values(length), matrix = values(length), full = values((size_t)n * (size_t)n);
    factor = values(length), blocked_factor = values(length), rfp[0] = values(length), rfp[1] = values(length);
    right_sides = values(rhs_length()), solutions = values(rhs_length()), x = values(rhs_length()), work = values(block_work());
    state = (uint64_t)n;
    size_t p = 0;
    for (int j = 0; j < n; j++)
        for (int i = j; i < n; i++) original[p++] = i == j ? n : random_unit();
    for (size_t k = 0; k < rhs_length(); k++) right_sides[k] = random_unit();
    copy(factor, original, length);
    factor_shape = accept("factor_plain", metsovary_factor_plain(shape(METSOVARY_PACKED_RAW), factor, length, work, (size_t)n));
    copy(solutions, right_sides, rhs_length());
    accept("solve_plain", metsovary_solve_plain(factor_shape, (uint64_t)sides, factor, length, solutions, rhs_length(), work, (size_t)n));
    for (uint64_t form = 0; form < 2; form++)
        accept("packed_to_rfp", metsovary_packed_to_rfp(shape(METSOVARY_PACKED_RAW), form, original, length, rfp[form], length));
    first_variance = solved_variance(0), middle_variance = solved_variance(middle());
    one_unknown[0] = (uint64_t)n / 2;
    for (int k = 0; k < n / 2; k++) odd_unknowns[k] = 2 * (uint64_t)k + 1;
}

static void free_operands(void) {
    double *all[] = {original, matrix, full, factor, blocked_factor, rfp[0], rfp[1], right_sides, solutions, x, work};
    for (size_t k = 0; k < sizeof all / sizeof *all; k++) free(all[k]);
}

/* ---- before a call, not timed: what it works on ---- */

static void set_packed(void) {
    copy(matrix, original, length);
    matrix_shape = shape(METSOVARY_PACKED_RAW);
}

static void set_rfp_0(void) { copy(matrix, rfp[0], length); }
static void set_rfp_1(void) { copy(matrix, rfp[1], length); }

static metsovary_shape rearrange(metsovary_shape packed_shape, double *packed) {
    return accept("packed_to_blocked", metsovary_packed_to_blocked(packed_shape, packed, length, work, block_work()));
}

static void set_blocked(void) {
    set_packed();
    matrix_shape = rearrange(matrix_shape, matrix);
}

static void set_full(void) {
    const double *column = original;
    for (int j = 0; j < n; j++) {
        copy(full + (size_t)j * (size_t)(n + 1), column, (size_t)(n - j));
        column += n - j;
    }
}

static void set_right_sides(void) { copy(x, right_sides, rhs_length()); }

static void set_blocked_factor(void) {
    set_right_sides();
    if (blocked_shape.block == (uint64_t)block) return;
    copy(blocked_factor, factor, length);
    blocked_shape = rearrange(shape(METSOVARY_PACKED_FACTOR), blocked_factor);
}

/* ---- calls ---- */

/* One value that depends on all others shows that a peer was asked the same. */
static void agree(const char *call, double value, double wanted) {
    if (!(fabs(value - wanted) <= 1e-9 * fabs(wanted))) die(call, "another value than the engine's");
}

static void factor_blocked(void) {
    matrix_shape = accept("factor_blocked", metsovary_factor_blocked(matrix_shape, matrix, length, work, block_work()));
    agree("factor_blocked", matrix[length - 1], factor[length - 1]);
}

static void factor_plain(void) {
    matrix_shape = accept("factor_plain", metsovary_factor_plain(matrix_shape, matrix, length, work, (size_t)n));
    agree("factor_plain", matrix[length - 1], factor[length - 1]);
}

static void dpptrf(packed_factor *peer) {
    int info;
    peer("L", &n, matrix, &info, 1);
    agree("dpptrf", matrix[length - 1], factor[length - 1]);
}

static void dpptrf_of_reference(void) { dpptrf(reference_dpptrf); }
static void dpptrf_of_openblas(void) { dpptrf(openblas_dpptrf); }

static void dpotrf_of_openblas(void) {
    int info;
    openblas_dpotrf("L", &n, full, &n, &info, 1);
    agree("dpotrf", full[(size_t)n * (size_t)n - 1], factor[length - 1]);
}

/* As many multiply-subtract pairs as a factor, on registers alone. The empty instructions keep every product in the loop and the sums in use. */
static void peak(void) {
    size_t pairs = (size_t)(n - 1) * (size_t)n * (size_t)(n + 1) / 6;
    __m128d p = _mm_set1_pd(0x1p-40), q = p, sums[8];
#pragma GCC unroll 8
    for (int r = 0; r < 8; r++) sums[r] = _mm_setzero_pd();
    for (size_t k = 0; k < pairs; k += 16) {
#pragma GCC unroll 8
        for (int r = 0; r < 8; r++) {
            __asm__("" : "+x"(p));
            sums[r] = _mm_sub_pd(sums[r], _mm_mul_pd(p, q));
        }
    }
#pragma GCC unroll 8
    for (int r = 0; r < 8; r++) __asm__ volatile("" : : "x"(sums[r]));
}

/* The first value of the last solution. */
static void agree_on_solution(const char *call) { agree(call, x[rhs_length() - (size_t)n], solutions[rhs_length() - (size_t)n]); }

static void solve_plain(void) {
    accept("solve_plain", metsovary_solve_plain(factor_shape, (uint64_t)sides, factor, length, x, rhs_length(), work, (size_t)n));
    agree_on_solution("solve_plain");
}

static void solve_blocked(void) {
    accept("solve_blocked", metsovary_solve_blocked(blocked_shape, (uint64_t)sides, blocked_factor, length, x, rhs_length(), work, (size_t)n));
    agree_on_solution("solve_blocked");
}

static void dpptrs_of_reference(void) {
    int info;
    reference_dpptrs("L", &n, &sides, factor, x, &n, &info, 1);
    agree_on_solution("dpptrs");
}

static void variance_plain(int unknown, double wanted) {
    metsovary_result r = metsovary_variance_plain(factor_shape, (uint64_t)unknown, factor, length, work, (size_t)n);
    accept("variance_plain", r);
    agree("variance_plain", r.value, wanted);
}

static void variance_blocked(int unknown, double wanted) {
    metsovary_result r = metsovary_variance_blocked(blocked_shape, (uint64_t)unknown, blocked_factor, length, work, (size_t)n);
    accept("variance_blocked", r);
    agree("variance_blocked", r.value, wanted);
}

static void first_plain(void) { variance_plain(0, first_variance); }
static void middle_plain(void) { variance_plain(middle(), middle_variance); }
static void first_blocked(void) { variance_blocked(0, first_variance); }
static void middle_blocked(void) { variance_blocked(middle(), middle_variance); }

static void packed_to_blocked(void) { matrix_shape = rearrange(matrix_shape, matrix); }

static void blocked_to_packed(void) {
    matrix_shape = accept("blocked_to_packed", metsovary_blocked_to_packed(matrix_shape, matrix, length, work, block_work()));
}

/* A converter's target is the matrix; it has the source's bits before the call. */
static void agree_on_target(const char *call, const double *wanted) { agree(call, matrix[length / 2], wanted[length / 2]); }

static void packed_to_rfp(uint64_t form) {
    accept("packed_to_rfp", metsovary_packed_to_rfp(shape(METSOVARY_PACKED_RAW), form, original, length, matrix, length));
    agree_on_target("packed_to_rfp", rfp[form]);
}

static void rfp_to_packed(uint64_t form) {
    accept("rfp_to_packed", metsovary_rfp_to_packed(shape(METSOVARY_PACKED_RAW), form, rfp[form], length, matrix, length));
    agree_on_target("rfp_to_packed", original);
}

static void dtpttf(uint64_t form) {
    int info;
    reference_dtpttf(form ? "T" : "N", "L", &n, original, matrix, &info, 1, 1);
    agree_on_target("dtpttf", rfp[form]);
}

static void dtfttp(uint64_t form) {
    int info;
    reference_dtfttp(form ? "T" : "N", "L", &n, rfp[form], matrix, &info, 1, 1);
    agree_on_target("dtfttp", original);
}

static void packed_to_rfp_0(void) { packed_to_rfp(0); }
static void packed_to_rfp_1(void) { packed_to_rfp(1); }
static void rfp_to_packed_0(void) { rfp_to_packed(0); }
static void rfp_to_packed_1(void) { rfp_to_packed(1); }
static void dtpttf_0(void) { dtpttf(0); }
static void dtpttf_1(void) { dtpttf(1); }
static void dtfttp_0(void) { dtfttp(0); }
static void dtfttp_1(void) { dtfttp(1); }

static size_t packed_place(int order, int i, int j) { return (size_t)i + (size_t)j * (size_t)(2 * order - j - 1) / 2; }

/* kept(k) is number k of the unknowns that are left. The last value of their middle column is compared. */
static void strike(const uint64_t *list, int struck, int (*kept)(int)) {
    matrix_shape = accept("strike", metsovary_strike(matrix_shape, list, (size_t)struck, matrix, length));
    int left = (int)matrix_shape.order;
    if (left > 0) agree("strike", matrix[packed_place(left, left - 1, left / 2)], original[packed_place(n, kept(left - 1), kept(left / 2))]);
}

static int kept_of_all(int k) { return k; }
static int kept_but_one(int k) { return k < n / 2 ? k : k + 1; }
static int kept_of_half(int k) { return 2 * k; }

static void strike_none(void) { strike(NULL, 0, kept_of_all); }
static void strike_one(void) { strike(one_unknown, 1, kept_but_one); }
static void strike_half(void) { strike(odd_unknowns, n / 2, kept_of_half); }

static void copy_matrix(void) { copy(matrix, original, length); }

/* ---- subjects ---- */

typedef struct {
    const char *who, *what;
    int block, sides;
    void (*prepare)(void), (*call)(void);
} subject;

static const subject always[] = {
    {"metsovary", "factor_blocked", 64, 0, set_blocked, factor_blocked},
    {"metsovary", "factor_plain", 0, 0, set_packed, factor_plain},
    {"reference", "dpptrf", 0, 0, set_packed, dpptrf_of_reference},
    {"OpenBLAS", "dpptrf", 0, 0, set_packed, dpptrf_of_openblas},
    {"OpenBLAS", "dpotrf", 0, 0, set_full, dpotrf_of_openblas},
    {"processor", "peak", 0, 0, set_packed, peak},
    {"metsovary", "packed_to_blocked", 16, 0, set_packed, packed_to_blocked},
    {"metsovary", "blocked_to_packed", 16, 0, set_blocked, blocked_to_packed},
    {"metsovary", "packed_to_blocked", 64, 0, set_packed, packed_to_blocked},
    {"metsovary", "blocked_to_packed", 64, 0, set_blocked, blocked_to_packed},
    {"libc", "memcpy", 0, 0, set_packed, copy_matrix},
    {"metsovary", "packed_to_rfp_0", 0, 0, set_packed, packed_to_rfp_0},
    {"reference", "dtpttf_0", 0, 0, set_packed, dtpttf_0},
    {"metsovary", "packed_to_rfp_1", 0, 0, set_packed, packed_to_rfp_1},
    {"reference", "dtpttf_1", 0, 0, set_packed, dtpttf_1},
    {"metsovary", "rfp_to_packed_0", 0, 0, set_rfp_0, rfp_to_packed_0},
    {"reference", "dtfttp_0", 0, 0, set_rfp_0, dtfttp_0},
    {"metsovary", "rfp_to_packed_1", 0, 0, set_rfp_1, rfp_to_packed_1},
    {"reference", "dtfttp_1", 0, 0, set_rfp_1, dtfttp_1},
    {"metsovary", "strike_none", 0, 0, set_packed, strike_none},
    {"metsovary", "strike_one", 0, 0, set_packed, strike_one},
    {"metsovary", "strike_half", 0, 0, set_packed, strike_half},
    {"metsovary", "solve_plain", 0, 1, set_right_sides, solve_plain},
    {"metsovary", "solve_blocked", 64, 1, set_blocked_factor, solve_blocked},
    {"reference", "dpptrs", 0, 1, set_right_sides, dpptrs_of_reference},
    {"metsovary", "variance_plain_first", 0, 0, set_right_sides, first_plain},
    {"metsovary", "variance_plain_middle", 0, 0, set_right_sides, middle_plain},
    {"metsovary", "variance_blocked_first", 64, 0, set_blocked_factor, first_blocked},
    {"metsovary", "variance_blocked_middle", 64, 0, set_blocked_factor, middle_blocked},
    {"metsovary", "solve_plain", 0, MANY, set_right_sides, solve_plain},
    {"metsovary", "solve_blocked", 64, MANY, set_blocked_factor, solve_blocked},
    {"reference", "dpptrs", 0, MANY, set_right_sides, dpptrs_of_reference},
};

/* What is measured at each of the block lengths that are asked for. */
static const subject by_block[] = {
    {"metsovary", "factor_blocked", 0, 0, set_blocked, factor_blocked},
    {"metsovary", "packed_to_blocked", 0, 0, set_packed, packed_to_blocked},
    {"metsovary", "blocked_to_packed", 0, 0, set_blocked, blocked_to_packed},
    {"metsovary", "solve_blocked", 0, 1, set_blocked_factor, solve_blocked},
    {"metsovary", "solve_blocked", 0, MANY, set_blocked_factor, solve_blocked},
    {"metsovary", "variance_blocked_first", 0, 0, set_blocked_factor, first_blocked},
    {"metsovary", "variance_blocked_middle", 0, 0, set_blocked_factor, middle_blocked},
};

enum { ALWAYS = sizeof always / sizeof *always, BY_BLOCK = sizeof by_block / sizeof *by_block };

static subject subjects[ALWAYS + MAX_BLOCK * BY_BLOCK];
static int count;

/* Each subject once. */
static void add(subject s) {
    for (int k = 0; k < count; k++)
        if (subjects[k].call == s.call && subjects[k].block == s.block && subjects[k].sides == s.sides) return;
    subjects[count++] = s;
}

static void add_always(void) {
    for (int k = 0; k < ALWAYS; k++) add(always[k]);
}

/* The block lengths are numbers with a comma between two. */
static void add_blocks(const char *blocks) {
    char *end;
    for (const char *rest = blocks; *rest; rest = *end ? end + 1 : end) {
        long b = strtol(rest, &end, 10);
        if (b < 1 || b > MAX_BLOCK || (*end && *end != ',')) die(blocks, "not block lengths from 1 to 200");
        for (int k = 0; k < BY_BLOCK; k++) {
            subject s = by_block[k];
            s.block = (int)b;
            add(s);
        }
    }
}

/* ---- measuring ---- */

static double seconds(void) {
    struct timespec t;
    clock_gettime(CLOCK_THREAD_CPUTIME_ID, &t);
    return (double)t.tv_sec + 1e-9 * (double)t.tv_nsec;
}

static void print(const subject *s, double time) {
    printf("%d\t%s\t%s", n, s->who, s->what);
    if (s->block) printf("_%d", s->block);
    if (s->sides) printf("_%d", s->sides);
    printf("\t%.9f\t%s\n", time, core);
}

static void measure(int order) {
    double least[sizeof subjects / sizeof *subjects];
    for (int k = 0; k < count; k++) least[k] = INFINITY;
    make_operands(order);
    for (int round = 0; round < rounds(order); round++)
        for (int k = 0; k < count; k++) {
            const subject *s = &subjects[k];
            block = s->block, sides = s->sides;
            for (double used = 0; used < ROUND_SECONDS;) {
                s->prepare();
                double start = seconds();
                s->call();
                double time = seconds() - start;
                if (time < least[k]) least[k] = time;
                used += time;
            }
        }
    free_operands();
    for (int k = 0; k < count; k++) print(&subjects[k], least[k]);
}

int main(int argc, char **argv) {
    if (argc < 3) die("usage", "bench LIBOPENBLAS BLOCKS [N..]");
    for (int k = 3; k < argc; k++)
        if (atoi(argv[k]) < 1 || atoi(argv[k]) > MAX_ORDER) die(argv[k], "not an order from 1 to 4,000");
    load_reference();
    load_openblas(argv[1]);
    add_always();
    measure(500);
    for (int k = 3; k < argc; k++) measure(atoi(argv[k]));
    add_blocks(argv[2]); /* at the orders that follow */
    measure(1000);
    measure(2000);
    return 0;
}
