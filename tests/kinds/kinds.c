// The kinds of crate binary64 against the C library's fpclassify and signbit, of values and of bit patterns. Each group of patterns is one test.
#include <math.h>

#include "../patterns.h"

uint64_t metsovary_kind(double x);
uint64_t metsovary_kind_of_bits(uint64_t bits);
double metsovary_square_root(double x);

// The numbers of the kinds, as the crate has them (`kindNumber`).
enum { ZERO, SUBNORMAL, NORMAL, INFINITE, A_NAN };

enum { RANDOM = 1000000 };

static uint64_t c_library_kind(double x) {
    switch (fpclassify(x)) {
    case FP_ZERO: return ZERO;
    case FP_SUBNORMAL: return SUBNORMAL;
    case FP_NORMAL: return NORMAL;
    case FP_INFINITE: return INFINITE;
    default: return A_NAN;
    }
}

// What IEEE 754 says of a root by the kind and the sign of its argument; its digits are compared in tests/root.
static bool right_root(double x, double root) {
    if (fpclassify(x) == FP_ZERO) return fpclassify(root) == FP_ZERO && !signbit(root) == !signbit(x);
    if (fpclassify(x) == FP_NAN || signbit(x)) return fpclassify(root) == FP_NAN;
    return fpclassify(root) == (fpclassify(x) == FP_INFINITE ? FP_INFINITE : FP_NORMAL) && !signbit(root);
}

static void expect(uint64_t bits, uint64_t kind) {
    double x = value_of(bits);
    double root = metsovary_square_root(x);
    uint64_t of_value = metsovary_kind(x), of_bits = metsovary_kind_of_bits(bits), c_library = c_library_kind(x);
    if (count(of_value == kind && of_bits == kind && c_library == kind && right_root(x, root)))
        printf("kinds: %016" PRIX64 " is %" PRIu64 " as a value and %" PRIu64 " by its bits, the C library's kind is %" PRIu64 ", expected %" PRIu64
               "; its root is %016" PRIX64 "\n",
               bits, of_value, of_bits, c_library, kind, bits_of(root));
}

static void compare(uint64_t bits) { expect(bits, c_library_kind(value_of(bits))); }

// ---- the groups

// A row of IEEE 754's table: exponent fields from first to last, fractions that are zero or that are not, and the kind.
typedef struct {
    uint64_t first, last;
    bool zero_fraction;
    uint64_t kind;
} row;

static const row rows[] = {
    {0, 0, true, ZERO},
    {0, 0, false, SUBNORMAL},
    {1, 2046, true, NORMAL},
    {1, 2046, false, NORMAL},
    {2047, 2047, true, INFINITE},
    {2047, 2047, false, A_NAN},
};

enum { ROWS = sizeof rows / sizeof rows[0] };

static void with_both_signs(uint64_t bits, uint64_t kind) {
    expect(bits, kind);
    expect(SIGN | bits, kind);
}

static void first_and_last(void) {
    for (size_t r = 0; r < ROWS; r++) {
        uint64_t first = rows[r].zero_fraction ? 0 : 1, last = rows[r].zero_fraction ? 0 : LEADING - 1;
        with_both_signs(pattern(rows[r].first, first), rows[r].kind);
        with_both_signs(pattern(rows[r].last, last), rows[r].kind);
    }
}

static void every_field(void) {
    for (uint64_t field = 0; field <= FIELD_MAX; field++)
        for (uint64_t sign = 0; sign < 2; sign++) {
            compare(sign << 63 | pattern(field, 0));
            for (unsigned digit = 0; digit < FRACTION; digit++) compare(sign << 63 | pattern(field, UINT64_C(1) << digit));
        }
}

static void random_patterns(void) {
    for (unsigned k = 0; k < RANDOM; k++) compare(random_bits(64));
}

// A random row first, so that every row comes as often as the others.
static void random_rows(void) {
    for (unsigned k = 0; k < RANDOM; k++) {
        row r = rows[random_bits(32) % ROWS];
        uint64_t field = r.first + random_bits(32) % (r.last - r.first + 1);
        uint64_t fraction = r.zero_fraction ? 0 : 1 + random_bits(64) % (LEADING - 1);
        expect(random_bits(1) << 63 | pattern(field, fraction), r.kind);
    }
}

static const group groups[] = {
    {"the first and the last pattern of each row, with both signs", first_and_last},
    {"every exponent field with each digit of the fraction, with both signs", every_field},
    {"random patterns", random_patterns},
    {"random patterns of a random row", random_rows},
};

int main(void) { return run_groups("kinds", groups, sizeof groups / sizeof groups[0]); }
