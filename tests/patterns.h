/* What the tests of crate binary64 share: the fields of a bit pattern, a fixed sequence of random bits, and groups of patterns, each of which is one test. */
#ifndef PATTERNS_H
#define PATTERNS_H

#include <inttypes.h>
#include <stdbool.h>
#include <stddef.h>
#include <stdint.h>
#include <stdio.h>
#include <string.h>

enum {
    FRACTION = 52,    // binary digits of the fraction
    FIELD_MAX = 2047, // the exponent field of infinities and NaNs
    SHOWN = 10,       // differences that are printed
};

static const uint64_t SIGN = UINT64_C(1) << 63;
static const uint64_t LEADING = UINT64_C(1) << FRACTION; // the weight of a significand's leading digit

static inline uint64_t bits_of(double x) {
    uint64_t bits;
    memcpy(&bits, &x, sizeof bits);
    return bits;
}

static inline double value_of(uint64_t bits) {
    double x;
    memcpy(&x, &bits, sizeof x);
    return x;
}

static inline uint64_t pattern(uint64_t field, uint64_t fraction) { return field << FRACTION | fraction; }

// The generator splitmix64.
static uint64_t random_state = 1;

static inline uint64_t random_bits(unsigned digits) {
    uint64_t z = random_state += UINT64_C(0x9E3779B97F4A7C15);
    z = (z ^ z >> 30) * UINT64_C(0xBF58476D1CE4E5B9);
    z = (z ^ z >> 27) * UINT64_C(0x94D049BB133111EB);
    return (z ^ z >> 31) >> (64 - digits);
}

static unsigned long patterns, differing, shown;

// Counts a pattern. True where it differs and is to be printed.
static inline bool count(bool right) {
    patterns++;
    if (right) return false;
    differing++;
    return shown++ < SHOWN;
}

typedef struct {
    const char *name;
    void (*run)(void);
} group;

static inline int run_groups(const char *title, const group *groups, size_t length) {
    size_t failed = 0;
    for (size_t g = 0; g < length; g++) {
        patterns = differing = 0;
        groups[g].run();
        printf("%s: %s: %lu patterns, %lu differ\n", title, groups[g].name, patterns, differing);
        failed += differing != 0;
    }
    printf("%zu passed, %zu failed\n", length - failed, failed);
    return failed != 0;
}

#endif
