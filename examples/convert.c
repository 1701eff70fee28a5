/* Factors a system of order 3 and hands the factor to a partner's library in LAPACK's rectangular full packed format. Build from the repository's top:
 *   tools/build archive engine
 *   gcc -std=c11 -o target/convert examples/convert.c target/staticlib/libengine.a && target/convert
 */
#include "../include/metsovary.h"

#include <stdio.h>

enum { N = 3, TRIANGLE = N * (N + 1) / 2, ROWS = N % 2 ? N : N + 1, COLUMNS = (N + 1) / 2 };

int main(void) {
    double a[TRIANGLE] = {4, 2, -2, 10, 5, 6}; /* the lower triangle, column by column */
    double rfp[TRIANGLE], work[N];
    metsovary_result r = metsovary_factor_plain((metsovary_shape){.order = N}, a, TRIANGLE, work, N);
    if (r.code == 0) r = metsovary_packed_to_rfp(r.shape, 0, a, TRIANGLE, rfp, TRIANGLE);
    if (r.code != 0) return 1;
    printf("the factor as an array of %d rows and %d columns, for dpftrs with TRANSR = 'N' and UPLO = 'L'\n", ROWS, COLUMNS);
    for (int row = 0; row < ROWS; row++)
        for (int column = 0; column < COLUMNS; column++) printf("%3g%s", rfp[row + column * ROWS], column + 1 < COLUMNS ? "" : "\n");

    r = metsovary_rfp_to_packed(r.shape, 0, rfp, TRIANGLE, a, TRIANGLE); /* what comes back from the partner */
    if (r.code != 0) return 1;
    printf("packed again:");
    for (int k = 0; k < TRIANGLE; k++) printf(" %g", a[k]);
    printf("\n");
    return 0;
}
