// The square root of crate binary64 against the processor's, bit for bit, on fixed patterns, and whether it is exact against whole numbers of 128 bits. Each
// group of patterns is one test. Where a root is a NaN the other must be a NaN too; the logic's floats have one NaN, so their bits are not compared.
#include <emmintrin.h>

#include "../patterns.h"
#include "../squares.h"

double metsovary_square_root(double x);
bool metsovary_root_is_exact(double x);

enum {
    SAMPLES = 4096, // random fractions for each exponent
    NEAR = 64,      // neighbours on either side of a power of two
};

static const uint64_t INFINITE = (uint64_t)FIELD_MAX << FRACTION;
static const uint64_t QUIET_NAN = UINT64_C(0xFFF) << (FRACTION - 1);

static bool is_nan(uint64_t bits) { return (bits & ~SIGN) > INFINITE; }

static bool same(uint64_t a, uint64_t b) { return a == b || (is_nan(a) && is_nan(b)); }

// The instruction sqrtsd, which IEEE 754 has rounded to nearest.
static uint64_t processor_root(uint64_t x) {
    __m128d v = _mm_set_sd(value_of(x));
    return bits_of(_mm_cvtsd_f64(_mm_sqrt_sd(v, v)));
}

static uint64_t library_root(uint64_t x) { return bits_of(metsovary_square_root(value_of(x))); }

static void expect_exact(uint64_t x, uint64_t root, bool exact) {
    uint64_t library = library_root(x), processor = processor_root(x);
    bool library_exact = metsovary_root_is_exact(value_of(x));
    if (count(same(library, root) && same(processor, root) && library_exact == exact && square_is(root, x) == exact))
        printf("root: %016" PRIX64 " gives %016" PRIX64 ", exact %d; the processor's root is %016" PRIX64 ", expected %016" PRIX64 ", exact %d\n", x, library,
               library_exact, processor, root, exact);
}

static void expect(uint64_t x, uint64_t root) { expect_exact(x, root, square_is(root, x)); }

static void compare(uint64_t x) { expect(x, processor_root(x)); }

static void compare_range(uint64_t first, uint64_t last) {
    for (uint64_t x = first; x <= last; x++) compare(x);
}

// ---- the groups

// Document 01's roots by bits.
static void worked_examples(void) {
    expect(UINT64_C(0x0000000000000001), UINT64_C(0x1E60000000000000));
    expect(UINT64_C(0x3FEFFFFFFFFFFFFF), UINT64_C(0x3FEFFFFFFFFFFFFF));
    expect(UINT64_C(0x4000000000000000), UINT64_C(0x3FF6A09E667F3BCD));
}

static void zeros_and_infinities(void) {
    expect(0, 0);
    expect(SIGN, SIGN);
    expect(INFINITE, INFINITE);
    expect(SIGN | INFINITE, QUIET_NAN);
}

// Quiet and signalling, of both signs.
static void nans(void) {
    for (uint64_t sign = 0; sign < 2; sign++) {
        for (unsigned digit = 0; digit < FRACTION; digit++) expect(sign << 63 | INFINITE | UINT64_C(1) << digit, QUIET_NAN);
        for (unsigned k = 0; k < 16 * SAMPLES; k++) expect(sign << 63 | INFINITE | random_bits(FRACTION) | 1, QUIET_NAN);
    }
}

static void negative_values(void) {
    for (unsigned digit = 0; digit < FRACTION; digit++) expect(SIGN | UINT64_C(1) << digit, QUIET_NAN);
    for (uint64_t field = 0; field < FIELD_MAX; field++) {
        expect(SIGN | pattern(field, LEADING - 1), QUIET_NAN);
        for (unsigned k = 0; k < NEAR; k++) expect(SIGN | pattern(field, random_bits(FRACTION) | 1), QUIET_NAN);
    }
}

// All below 2^16 units, then random ones for each leading digit; a unit is the smallest positive value.
static void subnormal_values(void) {
    compare_range(1, 0xFFFF);
    for (unsigned digit = 16; digit < FRACTION; digit++)
        for (unsigned k = 0; k < SAMPLES; k++) compare(UINT64_C(1) << digit | random_bits(digit));
}

static void normal_values(void) {
    for (uint64_t field = 1; field < FIELD_MAX; field++)
        for (unsigned k = 0; k < SAMPLES; k++) compare(pattern(field, random_bits(FRACTION)));
}

static void near_subnormal_powers_of_two(void) {
    for (unsigned digit = 0; digit < FRACTION; digit++) {
        uint64_t power = UINT64_C(1) << digit;
        compare_range(power > NEAR ? power - NEAR : 0, power + NEAR);
    }
}

static void near_normal_powers_of_two(void) {
    for (uint64_t field = 1; field < FIELD_MAX; field++) compare_range(pattern(field, 0) - NEAR, pattern(field, 0) + NEAR);
    compare_range(INFINITE - NEAR, INFINITE - 1);
}

// Squares that need no rounding, with their roots: of the whole numbers below 2^20, and r · 2^e of random r of at most 27 digits, up to 94,906,265, whose
// square is the last of 53 digits, for each e whose square is in range. A square times 4^e is exact for e from -537, where its last digit is the smallest unit.
static void for_each_square(void (*visit)(uint64_t square, uint64_t root)) {
    for (uint64_t r = 1; r < UINT64_C(1) << 20; r++) visit(bits_of((double)(r * r)), bits_of((double)r));
    for (int e = -537; e <= 485; e++) {
        double scale = value_of(pattern((uint64_t)(e + 1023), 0));
        for (unsigned k = 0; k < SAMPLES / 8; k++) {
            uint64_t r = 1 + random_bits(32) % 94906265;
            visit(bits_of((double)(r * r) * scale * scale), bits_of((double)r * scale));
        }
    }
}

static void expect_square(uint64_t square, uint64_t root) { expect_exact(square, root, true); }

static void exact_squares(void) { for_each_square(expect_square); }

// The values beside a square are none.
static void expect_neighbours(uint64_t square, uint64_t root) {
    (void)root;
    expect_exact(square - 1, processor_root(square - 1), false);
    expect_exact(square + 1, processor_root(square + 1), false);
}

static void near_exact_squares(void) { for_each_square(expect_neighbours); }

// Whole numbers of 27 digits whose square has 54. An even one's square is a value; an odd one's is not, and the value below that has the same root.
static void squares_of_54_digits(void) {
    for (uint64_t r = UINT64_C(94906266); r < UINT64_C(1) << 27; r += 1 + random_bits(9)) {
        uint64_t even = bits_of((double)(r * r / 2 * 2));
        expect_exact(even, bits_of((double)r), r % 2 == 0);
        expect_exact(even + 1, processor_root(even + 1), false);
    }
}

// Whole numbers that are the rounded square of their root: the root is exact of those alone that are squares.
static void rounded_squares(void) {
    for (uint64_t v = 2; v < UINT64_C(1) << 20; v++) {
        volatile double root = value_of(processor_root(bits_of((double)v)));
        if (root * root != (double)v) continue;
        uint64_t whole = (uint64_t)root;
        expect_exact(bits_of((double)v), bits_of(root), whole * whole == v);
    }
}

// The odd m below 2^54 with m² ≡ rest modulo 2^55, for rest ≡ 1 modulo 8, digit by digit.
static uint64_t root_modulo(uint64_t rest) {
    uint64_t m = 1;
    for (unsigned digit = 3; digit < 55; digit++)
        if ((m * m - rest) >> digit & 1) m += UINT64_C(1) << (digit - 1);
    return m;
}

// The root of s = (m² - rest) / 2^54 is next to m / 2^27, a midpoint, since m is odd and has 54 digits: below it if rest > 0, else above.
// The pattern is that of s times a random power of 4. An odd s of 54 digits has none.
static void expect_near_midpoint(uint64_t m, int64_t rest) {
    uint64_t s = (uint64_t)(((unsigned __int128)m * m - (unsigned __int128)(__int128)rest) >> 54);
    uint64_t field = 1 + 2 * (random_bits(32) % 1023);
    uint64_t root = (field + 1023) / 2;
    uint64_t significand = (rest > 0 ? m - 1 : m + 1) / 2;
    if (s >= 2 * LEADING) {
        if (s % 2 != 0) return;
        s /= 2;
        field++;
    }
    expect(pattern(field, s - LEADING), (root << FRACTION) + (significand - LEADING));
}

// The values whose roots are nearest to midpoints: those whose s · 2^54 differs from m² by less than 2^19.
static void near_squares_of_midpoints(void) {
    const uint64_t top = UINT64_C(1) << 53;
    for (int64_t rest = 1 - (1 << 19); rest <= 1 << 19; rest += 8) {
        uint64_t even = root_modulo((uint64_t)rest), odd = even ^ top;
        expect_near_midpoint(even & top ? even : 2 * top - even, rest);
        expect_near_midpoint(odd & top ? odd : 2 * top - odd, rest);
    }
}

static const group groups[] = {
    {"worked examples", worked_examples},
    {"zeros and infinities", zeros_and_infinities},
    {"NaNs", nans},
    {"negative values", negative_values},
    {"subnormal values", subnormal_values},
    {"normal values, every exponent", normal_values},
    {"subnormal powers of two and their neighbours", near_subnormal_powers_of_two},
    {"normal powers of two and their neighbours", near_normal_powers_of_two},
    {"exact squares", exact_squares},
    {"neighbours of exact squares", near_exact_squares},
    {"squares of 54 digits, and what is beside them", squares_of_54_digits},
    {"whole numbers that are the rounded square of their root", rounded_squares},
    {"neighbours of squares of midpoints", near_squares_of_midpoints},
};

int main(void) { return run_groups("root", groups, sizeof groups / sizeof groups[0]); }
