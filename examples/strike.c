/* Strikes an unknown from a system of order 4, and factors and solves what is left. Build from the repository's top:
 *   tools/build archive engine
 *   gcc -std=c11 -o target/strike examples/strike.c target/staticlib/libengine.a && target/strike
 */
#include "../include/metsovary.h"

#include <inttypes.h>
#include <stdio.h>

enum { N = 4, TRIANGLE = N * (N + 1) / 2 };

static void print(const char *name, const double *values, size_t length) {
    printf("%s:", name);
    for (size_t k = 0; k < length; k++) printf(" %g", values[k]);
    printf("\n");
}

int main(void) {
    double a[TRIANGLE] = {4, 2, 2, -2, 10, 10, 5, 10, 5, 6}; /* the lower triangle, column by column; unknown 2 is unknown 1 once more, so there is no factor */
    double x[] = {4, 17, 9}; /* the right-hand side of unknowns 0, 1 and 3 */
    double work[N];
    const uint64_t twice[] = {2, 2}, once[] = {2};

    metsovary_result r = metsovary_strike((metsovary_shape){.order = N}, twice, 2, a, TRIANGLE);
    printf("a list that names unknown 2 twice: code %" PRIu64 ", place %" PRIu64 "\n", r.code, r.place);

    r = metsovary_strike(r.shape, once, 1, a, TRIANGLE);
    if (r.code != 0) return 1;
    print("unknown 2 struck", a, TRIANGLE);
    size_t order = r.shape.order, length = order * (order + 1) / 2; /* the next calls take the front part alone */
    r = metsovary_factor_plain(r.shape, a, length, work, order);
    if (r.code != 0) return 1;
    print("factor", a, length);
    r = metsovary_solve_plain(r.shape, 1, a, length, x, order, work, order);
    if (r.code != 0) return 1;
    print("solution", x, order);
    return 0;
}
