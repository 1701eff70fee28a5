/* Factors a system of order 3 and solves it for one right-hand side, packed and by blocks. Build from the repository's top:
 *   tools/build archive engine
 *   gcc -std=c11 -o target/solve examples/solve.c target/staticlib/libengine.a && target/solve
 */
#include "../include/metsovary.h"

#include <inttypes.h>
#include <stdio.h>
#include <stdlib.h>
#include <string.h>

enum { N = 3, TRIANGLE = N * (N + 1) / 2 };

static const double system_matrix[TRIANGLE] = {4, 2, -2, 10, 5, 6}; /* the lower triangle, column by column */
static const double right_side[N] = {4, 17, 9};

static metsovary_result check(const char *call, metsovary_result r) {
    if (r.code == 0) return r;
    fprintf(stderr, "%s: code %" PRIu64 ", place %" PRIu64 ", value %g\n", call, r.code, r.place, r.value);
    exit(1);
}

static void print(const char *name, const double *values, size_t length) {
    printf("%s:", name);
    for (size_t k = 0; k < length; k++) printf(" %g", values[k]);
    printf("\n");
}

int main(void) {
    metsovary_shape shape = {.order = N, .block = 2}; /* of a packed matrix; each call gets the shape that the one before it returned */
    metsovary_result r;
    double work[N * 2]; /* n min(n, b) values are enough for every call */
    double a[TRIANGLE], x[N];

    memcpy(a, system_matrix, sizeof a);
    memcpy(x, right_side, sizeof x);
    r = check("factor", metsovary_factor_plain(shape, a, TRIANGLE, work, N));
    print("plain factor", a, TRIANGLE);
    printf("every root exact: %s\n", r.exact ? "yes" : "no");
    check("solve", metsovary_solve_plain(r.shape, 1, a, TRIANGLE, x, N, work, N));
    print("solution", x, N);

    memcpy(a, system_matrix, sizeof a);
    memcpy(x, right_side, sizeof x);
    r = check("packed to blocked", metsovary_packed_to_blocked(shape, a, TRIANGLE, work, N * 2));
    r = check("factor", metsovary_factor_blocked(r.shape, a, TRIANGLE, work, N * 2));
    print("blocked factor", a, TRIANGLE);
    printf("every root exact: %s\n", r.exact ? "yes" : "no");
    r = check("solve", metsovary_solve_blocked(r.shape, 1, a, TRIANGLE, x, N, work, N * 2));
    check("blocked to packed", metsovary_blocked_to_packed(r.shape, a, TRIANGLE, work, N * 2));
    print("the same, packed", a, TRIANGLE);
    print("solution", x, N);
    return 0;
}
