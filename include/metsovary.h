/* Metsovary: Cholesky factor and solution of symmetric positive definite systems of order up to 4,000 in binary64, and the variance of one unknown, packed or
 * by blocks, bit for bit the same on both ways; unknowns struck from a packed matrix; and LAPACK's rectangular full packed format (RFP), to and from. Link
 * libengine.a (tools/build archive engine).
 *
 * A call examines its orders, lengths, states, lists and values itself, refuses by the first rule that holds, in the order of the codes below, and touches only
 * the memory that it is lent. The caller owes: pointers to as many values as the length says (any pointer where that is 0), memories that do not overlap, the
 * processor's default rounding to nearest, and subnormal numbers that are not flushed to zero.
 *
 * Layouts of the lower triangle, entry (i, j), i >= j, counted from 0, n the order, b the block length:
 *   packed    i + j(2n - j - 1)/2
 *   blocked   c = b floor(j / b), w = min(b, n - c), r = i - c, s = j - c; from c(2n - c + 1)/2 on:
 *             r(r + 1)/2 + s where r < w, else w(w + 1)/2 + (r - w)w + s
 *   RFP       o = n mod 2, an array of n + 1 - o rows and m = (n + o)/2 columns; r = i + 1 - o, c = j where j < m, else r = j - m, c = i + o - m;
 *             form 0, its columns one after another: r + c(n + 1 - o); form 1, its transpose: c + rm
 *
 * A shape says what its matrix memory holds. Fill in the order and the block length of a shape of zeros for a packed matrix, and hand each call the shape that
 * the one before it returned for that memory:
 *   call                  wants           gives on success
 *   packed to blocked     packed raw      blocked raw
 *                         packed factor   blocked factor
 *   blocked to packed     blocked raw     packed raw
 *                         blocked factor  packed factor
 *   plain factor          packed raw      packed factor
 *   blocked factor        blocked raw     blocked factor
 *   plain solver          packed factor   the same
 *   blocked solver        blocked factor  the same
 *   plain variance        packed factor   the same
 *   blocked variance      blocked factor  the same
 *   packed to RFP,        packed raw      the same
 *   RFP to packed         packed factor   the same
 *   strike                packed raw      the same
 * After 10, 11 and 16 the shape returned says spent, which no call takes; after every other refusal it is the shape that was handed in. No call changes the
 * block length, and none but a strike that succeeds the order.
 *
 * code  meaning                                                               place
 *    0  success                                                               0
 *    1  the order is over 4,000                                               0
 *    2  a call that works by blocks: the block length is 0 or over 200        0
 *   17  a converter: the form is neither 0 nor 1                              0
 *   15  the state does not suit the call                                      0
 *    3  the matrix is not exactly n(n + 1)/2 values                           0
 *       (a converter: source or target)
 *   20  a strike: the list is not strictly rising, or names an unknown that   the first offending
 *       is not below the order                                                position in the list
 *    4  the work memory is too short                                          0
 *   14  a variance: the unknown is not below the order                        0
 *    5  a solver: over 1,000 right-hand sides                                 0
 *    6  a solver: the right-hand sides are not exactly n times their number   0
 *    7  a factor, solver or variance: a matrix value is not finite            its lowest position
 *       (a variance: of those that it reads)
 *    8  a solver: a right-hand-side value is not finite                       its lowest position
 *    9  a solver or variance: a diagonal value is not greater than zero       its lowest column
 *       (a variance: of those that it reads)
 *   10  a factor: a pivot is not greater than zero; value: the pivot          the lowest refused column
 *   16  a factor: a column is weak, its pivot greater than zero but not       the lowest refused column
 *       greater than 2^-40 of a(j, j) at entry; value: the pivot
 *   11  a factor: an entry below a pivot greater than zero is not finite      the lowest refused column
 *   12  a solver or variance: a y or an x, of the forward or backward         the lowest such right-hand side;
 *       substitution, is not finite (a variance: of those that it forms)      a variance: 0
 *
 * Of 10, 16 and 11 the lowest refused column decides, and the order of codes only within it. The value is +0 except under 10, where it may be minus infinity,
 * under 16, and on success of a variance call. exact: a factor succeeds, and the square of each of its roots is the pivot exactly; so it is true of an accepted
 * order 0. It is false after every refusal, and from rearrangers, solvers, variance calls, converters and strikes, which take no root. After 1 to 9, 14, 15, 17
 * and 20 all memory is as it was. On success and after 10 to 12 and 16 the needed length of work memory is +0 and the rest as it was. */
#ifndef METSOVARY_H
#define METSOVARY_H

#include <stdbool.h>
#include <stddef.h>
#include <stdint.h>

#ifdef __cplusplus
extern "C" {
#endif

/* The states of a shape. Any other number suits no call. */
enum { METSOVARY_PACKED_RAW, METSOVARY_BLOCKED_RAW, METSOVARY_PACKED_FACTOR, METSOVARY_BLOCKED_FACTOR, METSOVARY_SPENT };

typedef struct { uint64_t order, block, state; } metsovary_shape;
typedef struct { uint64_t code, place; double value; bool exact; metsovary_shape shape; } metsovary_result;

/* Rearrange a matrix or a factor in its own memory: packed to blocked, and back. Values of every kind move with their bits kept. Work: n min(n, b) values. */
metsovary_result metsovary_packed_to_blocked(metsovary_shape, double *matrix, size_t, double *work, size_t);
metsovary_result metsovary_blocked_to_packed(metsovary_shape, double *matrix, size_t, double *work, size_t);

/* The factor of a packed matrix, in its own memory. Work: n values. After 10, 11 or 16 the columns before the place are finished, the others as they were. */
metsovary_result metsovary_factor_plain(metsovary_shape, double *matrix, size_t, double *work, size_t);

/* The factor of a blocked matrix, in its own memory. Work: n min(n, b) values. After 10, 11 or 16 the block columns before the one that holds the place
 * are finished, the others as they were. */
metsovary_result metsovary_factor_blocked(metsovary_shape, double *matrix, size_t, double *work, size_t);

/* The solutions of right_sides right-hand sides of n values each, one after another in x, in their own memory, from a packed or a blocked factor. Work: n
 * values. After 12 the right-hand sides before the place hold solutions, that one and the later ones are as they were. */
metsovary_result metsovary_solve_plain(metsovary_shape, uint64_t right_sides, const double *matrix, size_t, double *x, size_t, double *work, size_t);
metsovary_result metsovary_solve_blocked(metsovary_shape, uint64_t right_sides, const double *matrix, size_t, double *x, size_t, double *work, size_t);

/* The variance of one unknown, in value, from a packed or a blocked factor: entry (unknown, unknown) of the inverse of the matrix that was factored, as two
 * substitutions compute it, in the unit of 1 over the matrix's. The caller scales it by the variance of unit weight, his own estimate of the measurement noise.
 * It is value number `unknown` of the solution for a right-hand side that is 1 there and +0 elsewhere, bit for bit, wherever the solver accepts that one. Only the
 * entries whose row and column are both `unknown` or later are read: whatever the others hold changes nothing. Work: n values. */
metsovary_result metsovary_variance_plain(metsovary_shape, uint64_t unknown, const double *matrix, size_t, double *work, size_t);
metsovary_result metsovary_variance_blocked(metsovary_shape, uint64_t unknown, const double *matrix, size_t, double *work, size_t);

/* Convert a packed matrix or factor to LAPACK's rectangular full packed format, UPLO = 'L', and back, through a second memory: the source is only read, the target
 * written whole, and each has n(n + 1)/2 values. Form 0 is TRANSR = 'N', form 1 TRANSR = 'T'. Values of every kind move with their bits kept. The format has no
 * states of its own: both calls take the shape of a packed matrix or factor and return it as it was, and no call can tell that memory is RFP. No work memory; the
 * block length is not judged. */
metsovary_result metsovary_packed_to_rfp(metsovary_shape, uint64_t form, const double *source, size_t, double *target, size_t);
metsovary_result metsovary_rfp_to_packed(metsovary_shape, uint64_t form, const double *source, size_t, double *target, size_t);

/* Strike unknowns from a packed matrix in its own memory: count of them, numbers from 0, in a strictly rising list, which is only read. The entries of the others
 * move to the front in packed order, and the rest of the memory becomes +0. The shape returned has the smaller order p = n - count; the next calls take the front
 * part alone, of p(p + 1)/2 values, and its factor is that of a matrix typed in fresh without those unknowns. Values of every kind move with their bits kept. An
 * empty list changes nothing; a list of all unknowns leaves order 0. No work memory; the block length is not judged. */
metsovary_result metsovary_strike(metsovary_shape, const uint64_t *list, size_t count, double *matrix, size_t);

#ifdef __cplusplus
}
#endif
#endif
