/* Factors a system of order 3 and prints how uncertain each unknown is, from the packed factor and from the same by blocks. Build from the repository's top:
 *   tools/build archive engine
 *   gcc -std=c11 -o target/variance examples/variance.c target/staticlib/libengine.a -lm && target/variance
 */
#include "../include/metsovary.h"

#include <inttypes.h>
#include <math.h>
#include <stdio.h>
#include <stdlib.h>

enum { N = 3, TRIANGLE = N * (N + 1) / 2 };

static const double noise = 0.04; /* the variance of unit weight: the caller's estimate of the measurement noise */

static metsovary_result check(const char *call, metsovary_result r) {
    if (r.code == 0) return r;
    fprintf(stderr, "%s: code %" PRIu64 ", place %" PRIu64 ", value %g\n", call, r.code, r.place, r.value);
    exit(1);
}

static void print(uint64_t unknown, double value) {
    printf("unknown %" PRIu64 ": value %.6f, variance %.6f, standard deviation %.6f\n", unknown, value, noise * value, sqrt(noise * value));
}

int main(void) {
    metsovary_shape shape = {.order = N, .block = 2}; /* of a packed matrix; each call gets the shape that the one before it returned */
    double a[TRIANGLE] = {4, 2, -2, 10, 5, 6}; /* the lower triangle, column by column */
    double work[N * 2]; /* n min(n, b) values are enough for every call */
    metsovary_result r = check("factor", metsovary_factor_plain(shape, a, TRIANGLE, work, N));

    printf("packed factor\n");
    for (uint64_t k = 0; k < N; k++) {
        r = check("variance", metsovary_variance_plain(r.shape, k, a, TRIANGLE, work, N));
        print(k, r.value);
    }
    r = check("packed to blocked", metsovary_packed_to_blocked(r.shape, a, TRIANGLE, work, N * 2));
    printf("blocked factor\n");
    for (uint64_t k = 0; k < N; k++) {
        r = check("variance", metsovary_variance_blocked(r.shape, k, a, TRIANGLE, work, N));
        print(k, r.value);
    }
    return 0;
}
