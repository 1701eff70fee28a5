/* Whether a value's square is another value exactly, in whole numbers of 128 bits: of the bit patterns of finite values above zero; no of all others. */
#ifndef SQUARES_H
#define SQUARES_H

#include <stdbool.h>
#include <stdint.h>

/* a value above zero as an odd number times a power of two */
typedef struct { uint64_t odd; int exponent; } odd_times_power;

static inline odd_times_power split_value(uint64_t bits) {
    uint64_t field = bits >> 52, odd = bits & ((UINT64_C(1) << 52) - 1);
    odd_times_power v = {field ? odd | UINT64_C(1) << 52 : odd, (field ? (int)field : 1) - 1075};
    while (v.odd % 2 == 0) {
        v.odd /= 2;
        v.exponent++;
    }
    return v;
}

static inline bool finite_above_zero(uint64_t bits) { return bits != 0 && bits < UINT64_C(0x7FF0000000000000); }

static inline bool square_is(uint64_t root, uint64_t square) {
    if (!finite_above_zero(root) || !finite_above_zero(square)) return false;
    odd_times_power r = split_value(root), s = split_value(square);
    return (unsigned __int128)r.odd * r.odd == s.odd && 2 * r.exponent == s.exponent;
}

#endif
