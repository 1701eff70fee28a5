/* Striking unknowns from packed matrices against the reference, and with values that tell which entry they are: every list to order 10, others to order 4,000; a
 * struck matrix against one typed in fresh, on both ways to a solution; one list after another; and every refusal. All memory is compared, guards included. */
#include "../reference.h"

#define COUNT(array) (sizeof(array) / sizeof *(array))
#define ONE_OF(array) (array)[random_bits() % COUNT(array)]

enum { MAX_ORDER = 4000 };

static const uint64_t blocks[] = {0, 1, 64, 201, UINT64_MAX}; /* none is judged */

static unsigned long answers[21]; /* by code */

static metsovary_result success(metsovary_shape shape, size_t count) { return (metsovary_result){.shape = {shape.order - count, shape.block, shape.state}}; }
static metsovary_result refusal(metsovary_shape shape, uint64_t code, size_t where) { return (metsovary_result){.code = code, .place = where, .shape = shape}; }

static metsovary_result strike(metsovary_shape shape, list struck, memory matrix, metsovary_result wanted) {
    metsovary_result r = compare_strike(shape, struck, matrix);
    expect_result("a strike", shape, r, wanted);
    if (r.code < COUNT(answers)) answers[r.code]++;
    return r;
}

static metsovary_shape any_shape(size_t n) { return (metsovary_shape){n, ONE_OF(blocks), METSOVARY_PACKED_RAW}; }

/* ---- sets of unknowns, and their lists ---- */

static bool set[MAX_ORDER]; /* the unknowns that are struck */

static list list_of(const bool *members, size_t n) {
    size_t count = 0;
    for (size_t u = 0; u < n; u++) count += members[u];
    list l = list_new(count);
    for (size_t u = n; u-- > 0;)
        if (members[u]) l.unknowns[--count] = u;
    return l;
}

static void fill_set(bool member) {
    for (size_t u = 0; u < MAX_ORDER; u++) set[u] = member;
}

static void set_one(size_t unknown, bool member) {
    fill_set(!member);
    set[unknown] = member;
}

/* about so many of 16 */
static void set_at_random(size_t of_16) {
    for (size_t u = 0; u < MAX_ORDER; u++) set[u] = random_bits() % 16 < of_16;
}

/* Runs of members, or of others, of every length from 0 to 40 in 41 runs, since 7 and 41 have no common factor; 1 to 3 of the other kind after each. */
static void set_runs(bool member) {
    for (size_t u = 0, k = 0; u < MAX_ORDER; k++) {
        for (size_t run = 7 * k % 41; run > 0 && u < MAX_ORDER; run--) set[u++] = member;
        for (size_t run = 1 + k % 3; run > 0 && u < MAX_ORDER; run--) set[u++] = !member;
    }
}

/* ---- values that tell which entry they are ---- */

/* a signalling NaN */
static uint64_t bits_of(size_t i, size_t j) { return 0x7ff4000000000000u | (uint64_t)i << 16 | j; }

/* Packed order goes column by column, each from the diagonal down. */
static memory telling(size_t n) {
    memory m = memory_new(triangle(n));
    size_t p = 0;
    for (size_t j = 0; j < n; j++)
        for (size_t i = j; i < n; i++, p++) memcpy(&m.values[p], &(uint64_t){bits_of(i, j)}, 8);
    return m;
}

/* the entries that are left, one after another, and +0 behind them */
static bool tells(memory m, size_t n) {
    size_t p = 0;
    for (size_t j = 0; j < n; j++)
        for (size_t i = j; i < n; i++)
            if (!set[i] && !set[j] && to_bits(m.values[p++]) != bits_of(i, j)) return false;
    while (p < m.length)
        if (to_bits(m.values[p++]) != 0) return false;
    return true;
}

static void told(size_t n) {
    metsovary_shape shape = any_shape(n);
    memory matrix = telling(n);
    list struck = list_of(set, n);
    strike(shape, struck, matrix, success(shape, struck.count));
    expect(tells(matrix, n), "n %zu, %zu struck: a value is not the entry that belongs there", n, struck.count);
    memory_free(matrix);
    list_free(struck);
}

static void any_bits(size_t n) {
    metsovary_shape shape = any_shape(n);
    memory matrix = memory_new(triangle(n));
    list struck = list_of(set, n);
    fill_any(matrix);
    strike(shape, struck, matrix, success(shape, struck.count));
    memory_free(matrix);
    list_free(struck);
}

static void strikes(size_t n) {
    told(n);
    any_bits(n);
}

static void every_list(size_t n) {
    for (size_t w = 0; w < (size_t)1 << n; w++) {
        for (size_t u = 0; u < n; u++) set[u] = w >> u & 1;
        strikes(n);
    }
}

/* ---- the empty list and the list of all ---- */

static void none_and_all(size_t n) {
    metsovary_shape shape = any_shape(n);
    memory matrix = memory_new(triangle(n)), zeros = memory_new(triangle(n));
    list none = list_new(0), all = list_new(n);
    for (size_t u = 0; u < n; u++) all.unknowns[u] = u;
    fill_any(matrix);
    memory before = memory_copy(matrix);
    strike(shape, none, matrix, success(shape, 0));
    expect(memory_same(before, matrix), "n %zu: the empty list changes the matrix", n);
    expect_result("no list", shape, metsovary_strike(shape, NULL, 0, n ? matrix.values : NULL, matrix.length), success(shape, 0));
    expect(memory_same(before, matrix), "n %zu: no list changes the matrix", n);
    strike(shape, all, matrix, success(shape, n));
    expect(memory_same(zeros, matrix), "n %zu: the list of all does not leave +0 everywhere", n);
    memory_free(matrix);
    memory_free(zeros);
    memory_free(before);
    list_free(none);
    list_free(all);
}

/* ---- a struck matrix and one typed in fresh ---- */

enum { LARGEST = 150, SIDES = 2 };

/* an unknown that is there twice; a diagonal value below zero; an entry that overflows when it is divided; a value that is not finite */
enum { TWICE = 1, NEGATIVE = 2, OVERFLOWING = 4, NOT_FINITE = 8, ALL_TROUBLES = 15 };

static double square[LARGEST][LARGEST]; /* the system */

static void put(size_t u, size_t v, double x) { square[u][v] = square[v][u] = x; }

/* Positive definite where it has no troubles. */
static void make_system(size_t n, unsigned troubles) {
    for (size_t v = 0; v < n; v++)
        for (size_t u = v; u < n; u++) put(u, v, u == v ? (double)n : random_unit());
    if (n < 2) return;
    for (unsigned trouble = 1; trouble <= ALL_TROUBLES; trouble *= 2) {
        size_t v = random_bits() % (n - 1), u = v + 1 + random_bits() % (n - 1 - v);
        if (!(troubles & trouble)) continue;
        if (trouble == TWICE) {
            for (size_t k = 0; k < n; k++) put(u, k, square[v][k]);
            put(u, u, square[v][v]);
        }
        if (trouble == NEGATIVE) put(v, v, -1.0);
        if (trouble == OVERFLOWING) { /* 2^600 / 2^-500 */
            for (size_t k = 0; k < n; k++) put(v, k, 0.0);
            put(v, v, 0x1p-1000);
            put(u, v, 0x1p600);
        }
        if (trouble == NOT_FINITE) put(u, v, any_nan());
    }
}

/* the packed matrix of the unknowns that are not struck; of all where struck is NULL */
static memory typed(size_t n, const bool *struck) {
    size_t order = 0, p = 0;
    for (size_t u = 0; u < n; u++) order += !(struck && struck[u]);
    memory m = memory_new(triangle(order));
    for (size_t v = 0; v < n; v++)
        for (size_t u = v; u < n; u++)
            if (!(struck && (struck[u] || struck[v]))) m.values[p++] = square[u][v];
    return m;
}

/* what the next calls take of a struck matrix: what lies behind is compared as guards are */
static memory front(memory matrix, size_t order) { return (memory){matrix.all, matrix.values, triangle(order)}; }

/* Factor and solutions, packed, or by blocks and packed again. Each call gets the shape that the one before it returned, even where the factor is refused. */
static void solve_system(enum layout way, metsovary_shape shape, memory a, memory x, memory work, metsovary_result *r) {
    if (way == BLOCKED) shape = (*r++ = compare_rearrange(PACKED, BLOCKED, shape, a, work)).shape;
    shape = (*r++ = compare_factor(way, shape, a, work)).shape;
    shape = (*r++ = compare_solve(way, shape, SIDES, a, x, work)).shape;
    if (way == BLOCKED) *r = compare_rearrange(BLOCKED, PACKED, shape, a, work);
}

static unsigned long met[17][17]; /* codes of the factor, before and after the strike */

static void typed_in_fresh(enum layout way, size_t n, size_t b, unsigned troubles) {
    metsovary_shape shape = {n, b, METSOVARY_PACKED_RAW};
    make_system(n, troubles);
    memory whole = typed(n, NULL), matrix = memory_copy(whole), fresh = typed(n, set), wanted = memory_new(triangle(n)), work = memory_new(needed(n, MAX_ORDER));
    list struck = list_of(set, n);
    size_t order = n - struck.count;
    uint64_t before = compare_factor(PACKED, shape, whole, work).code;
    metsovary_shape left = strike(shape, struck, matrix, success(shape, struck.count)).shape;
    memcpy(wanted.values, fresh.values, fresh.length * 8);
    expect(memory_same(wanted, matrix), "n %zu, %zu struck: not the matrix typed in fresh", n, struck.count);

    memory x = memory_new(order * SIDES);
    for (size_t k = 0; k < x.length; k++) x.values[k] = random_unit();
    fill_any(work);
    memory fresh_x = memory_copy(x), fresh_work = memory_copy(work);
    metsovary_result results[4] = {{0}}, fresh_results[4] = {{0}};
    solve_system(way, left, front(matrix, order), x, work, results);
    solve_system(way, (metsovary_shape){order, b, METSOVARY_PACKED_RAW}, fresh, fresh_x, fresh_work, fresh_results);
    memcpy(wanted.values, fresh.values, fresh.length * 8);
    for (size_t k = 0; k < COUNT(results); k++) expect_result("after a strike", left, results[k], fresh_results[k]);
    expect(memory_same(wanted, matrix) && memory_same(fresh_x, x) && memory_same(fresh_work, work), "n %zu b %zu, %zu struck: not as the system typed in fresh",
        n, b, struck.count);
    met[before][results[way == BLOCKED].code]++;
    memory_free(whole);
    memory_free(matrix);
    memory_free(fresh);
    memory_free(wanted);
    memory_free(work);
    memory_free(x);
    memory_free(fresh_x);
    memory_free(fresh_work);
    list_free(struck);
}

/* ---- one list after another ---- */

/* The unknowns of the second set that the first leaves are struck from the front part, by their numbers there: as both sets at once. */
static void one_after_another(size_t n, const bool *first, const bool *second) {
    metsovary_shape shape = any_shape(n);
    bool both[LARGEST], renumbered[LARGEST];
    size_t order = 0;
    for (size_t u = 0; u < n; u++) {
        both[u] = first[u] || second[u];
        if (!first[u]) renumbered[order++] = second[u];
    }
    list lists[] = {list_of(first, n), list_of(renumbered, order), list_of(both, n)};
    memory matrix = memory_new(triangle(n));
    fill_any(matrix);
    memory at_once = memory_copy(matrix);
    metsovary_result r = strike(shape, lists[0], matrix, success(shape, lists[0].count));
    r = strike(r.shape, lists[1], front(matrix, order), success(r.shape, lists[1].count));
    expect_result("two lists", shape, r, strike(shape, lists[2], at_once, success(shape, lists[2].count)));
    expect(memory_same(at_once, matrix), "n %zu: %zu and then %zu struck, not as the %zu", n, lists[0].count, lists[1].count, lists[2].count);
    memory_free(matrix);
    memory_free(at_once);
    for (size_t k = 0; k < COUNT(lists); k++) list_free(lists[k]);
}

/* Each unknown is kept, in the first set, or in the second: the digits of w to base 3. */
static void every_two_lists(size_t n) {
    size_t ways = 1;
    for (size_t u = 0; u < n; u++) ways *= 3;
    for (size_t w = 0; w < ways; w++) {
        bool first[LARGEST], second[LARGEST];
        size_t digits = w;
        for (size_t u = 0; u < n; u++, digits /= 3) first[u] = digits % 3 == 1, second[u] = digits % 3 == 2;
        one_after_another(n, first, second);
    }
}

/* ---- refusals ---- */

/* A call on any bits that is to return just this; the list is as it was, and after a refusal all memory. */
static void returns(metsovary_shape shape, list struck, size_t length, metsovary_result wanted) {
    memory matrix = memory_new(length);
    fill_any(matrix);
    memory before = memory_copy(matrix);
    list list_before = list_copy(struck);
    strike(shape, struck, matrix, wanted);
    expect(list_same(list_before, struck), "the list is touched under %d", (int)wanted.code);
    expect(wanted.code == 0 || memory_same(before, matrix), "the matrix is touched under %d", (int)wanted.code);
    memory_free(matrix);
    memory_free(before);
    list_free(list_before);
}

static void refused_at(size_t n, list struck, size_t where) {
    metsovary_shape shape = any_shape(n);
    returns(shape, struck, triangle(n), refusal(shape, 20, where));
}

/* eight numbers that are not below n */
static uint64_t not_below(size_t n, size_t k) {
    const uint64_t numbers[] = {n, n + 1, ((uint64_t)1 << 32), ((uint64_t)1 << 32) + 1, ((uint64_t)1 << 63), ((uint64_t)1 << 63) + 1, UINT64_MAX - 1, UINT64_MAX};
    return numbers[k % 8];
}

/* The first position whose number is not below n, or below or equal to one before it; the count where there is none. */
static size_t first_fault(size_t n, list l) {
    uint64_t before = 0; /* a bit for each number */
    for (size_t p = 0; p < l.count; p++) {
        if (l.unknowns[p] >= n || before >> l.unknowns[p]) return p;
        before |= (uint64_t)1 << l.unknowns[p];
    }
    return l.count;
}

/* Every list of so many numbers, each below n or one of the eight that are not. */
static void every_numbers(size_t n, size_t count) {
    metsovary_shape shape = any_shape(n);
    list l = list_new(count);
    size_t ways = 1;
    for (size_t p = 0; p < count; p++) ways *= n + 8;
    for (size_t w = 0; w < ways; w++) {
        size_t digits = w;
        for (size_t p = 0; p < count; p++, digits /= n + 8) l.unknowns[p] = digits % (n + 8) < n ? digits % (n + 8) : not_below(n, digits % (n + 8) - n);
        size_t where = first_fault(n, l);
        returns(shape, l, triangle(n), where < count ? refusal(shape, 20, where) : success(shape, count));
    }
    list_free(l);
}

/* A number that is equal to the one before it, below that, or not below n; the first of a list can only be the last of these. */
enum { FAULTS = 10 };

static void spoil(size_t n, list l, size_t p, size_t fault) { l.unknowns[p] = p > 0 && fault < 2 ? l.unknowns[p - 1] - fault : not_below(n, fault); }

/* One, two and three faults at all positions: the first counts. */
static void several_faults(size_t n, size_t count) {
    list l = list_new(count);
    for (size_t p = 0; p < count; p++)
        for (size_t q = p; q < count; q++)
            for (size_t r = q; r < count; r++)
                for (size_t faults = 0; faults < FAULTS * FAULTS * FAULTS; faults++) {
                    for (size_t k = 0; k < count; k++) l.unknowns[k] = k + 1;
                    spoil(n, l, p, faults % FAULTS);
                    spoil(n, l, q, faults / FAULTS % FAULTS);
                    spoil(n, l, r, faults / FAULTS / FAULTS);
                    refused_at(n, l, p);
                }
    list_free(l);
}

/* A rising list below n has at most n numbers: all of them, and one or many more. */
static void too_many(size_t n) {
    for (size_t fault = 0; fault < FAULTS; fault++) {
        list one = list_new(n + 1), many = list_new(n + 1000);
        for (size_t p = 0; p < one.count; p++) one.unknowns[p] = p;
        for (size_t p = 0; p < many.count; p++) many.unknowns[p] = p;
        spoil(n, one, n, fault);
        refused_at(n, one, n);
        refused_at(n, many, n);
        list_free(one);
        list_free(many);
    }
}

/* A fault at each position of a long list, from the first given on. */
static void far_down(size_t n, size_t first) {
    list l = list_new(n);
    for (size_t p = first; p < n; p++) {
        for (size_t k = 0; k < n; k++) l.unknowns[k] = k;
        spoil(n, l, p, p % FAULTS);
        refused_at(n, l, p);
    }
    list_free(l);
}

/* Every set of the four rules: what suits stands first in each array, of the lists the first three. */
static void every_fault(size_t n) {
    const uint64_t orders[] = {n, 4001, ((uint64_t)1 << 32) + n, UINT64_MAX};
    const uint64_t states[] = {METSOVARY_PACKED_RAW, METSOVARY_BLOCKED_RAW, METSOVARY_PACKED_FACTOR, METSOVARY_BLOCKED_FACTOR, METSOVARY_SPENT, 5, 256,
        (uint64_t)1 << 32, (uint64_t)1 << 63, UINT64_MAX};
    const size_t lengths[] = {triangle(n), triangle(n) + 1, n ? triangle(n) - 1 : 2, n ? triangle(n - 1) : 3, triangle(n + 1)};
    const list lists[] = {list_new(0), list_new(n), list_new(n / 2), list_new(1), list_new(2), list_new(n + 1)};
    for (size_t k = 1; k <= 2; k++)
        for (size_t p = 0; p < lists[k].count; p++) lists[k].unknowns[p] = k * p;
    lists[3].unknowns[0] = n; /* the last two are all zeros: the second zero is refused, and of order 0 the first */
    for (size_t o = 0; o < COUNT(orders); o++)
        for (size_t s = 0; s < COUNT(states); s++)
            for (size_t p = 0; p < COUNT(lengths); p++)
                for (size_t l = 0; l < COUNT(lists); l++)
                    for (size_t b = 0; b < COUNT(blocks); b++) {
                        metsovary_shape shape = {orders[o], blocks[b], states[s]};
                        uint64_t code = o > 0 ? 1 : s > 0 ? 15 : p > 0 ? 3 : l > 2 ? 20 : 0;
                        metsovary_result wanted = refusal(shape, code, code == 20 && l > 3 && n > 0 ? 1 : 0);
                        returns(shape, lists[l], lengths[p], code == 0 ? success(shape, lists[l].count) : wanted);
                    }
    for (size_t l = 0; l < COUNT(lists); l++) list_free(lists[l]);
}

int main(void) {
    group("every list, n 0 to 10");
    for (size_t n = 0; n <= 10; n++) every_list(n);
    group("lists of all densities and with runs of all lengths, n to 1000");
    static const size_t orders[] = {11, 12, 13, 16, 17, 31, 32, 33, 50, 63, 64, 65, 100, 127, 150, 199, 200};
    static const size_t densities[] = {1, 4, 8, 12, 15};
    for (size_t k = 0; k < COUNT(orders); k++)
        for (size_t d = 0; d < COUNT(densities); d++)
            for (size_t times = 0; times < 3; times++) {
                set_at_random(densities[d]);
                strikes(orders[k]);
            }
    for (int member = 0; member < 2; member++) {
        set_runs(member);
        strikes(1000);
    }
    group("n 4000: one struck, one kept, every second, runs of all lengths, a dense list, none and all");
    static const size_t places[] = {0, 2007, MAX_ORDER - 1};
    for (size_t k = 0; k < COUNT(places); k++) {
        set_one(places[k], true);
        told(MAX_ORDER);
    }
    set_one(2007, false);
    told(MAX_ORDER);
    for (size_t u = 0; u < MAX_ORDER; u++) set[u] = u % 2;
    told(MAX_ORDER);
    set_runs(false);
    told(MAX_ORDER);
    set_at_random(14);
    any_bits(MAX_ORDER);
    fill_set(false);
    told(MAX_ORDER);
    fill_set(true);
    told(MAX_ORDER);
    group("the empty list and the list of all, n 0 to 70");
    for (size_t n = 0; n <= 70; n++) none_and_all(n);
    group("struck and solved, or refused, as a system typed in fresh, plain and by blocks");
    static const size_t lengths[] = {1, 2, 3, 5, 8, 64, 200};
    for (unsigned troubles = 0; troubles <= ALL_TROUBLES; troubles++)
        for (size_t times = 0; times < 150; times++) {
            set_at_random(ONE_OF(densities));
            typed_in_fresh(times % 2 ? BLOCKED : PACKED, random_bits() % 25, ONE_OF(lengths), troubles);
        }
    set_at_random(4);
    typed_in_fresh(PACKED, LARGEST, 0, 0);
    typed_in_fresh(BLOCKED, LARGEST, 64, 0);
    static const size_t codes[] = {7, 10, 11, 16};
    for (size_t k = 0; k < COUNT(codes); k++)
        expect(met[0][0] && met[codes[k]][0] && met[codes[k]][codes[k]], "%zu was not met before a strike, with 0 and with %zu after it", codes[k], codes[k]);
    group("one list and then another is both at once: every two, n 0 to 8, and others");
    for (size_t n = 0; n <= 8; n++) every_two_lists(n);
    for (size_t n = 9; n <= LARGEST; n += 1 + n / 9)
        for (size_t d = 0; d < COUNT(densities); d++) {
            bool first[LARGEST];
            set_at_random(densities[d]);
            memcpy(first, set, sizeof first);
            set_at_random(ONE_OF(densities));
            one_after_another(n, first, set);
        }
    group("20: every list of up to four numbers, n 0 to 4");
    for (size_t n = 0; n <= 4; n++)
        for (size_t count = 0; count <= 4; count++) every_numbers(n, count);
    group("20: the first of several faults, more numbers than unknowns, faults far down");
    several_faults(8, 6);
    for (size_t n = 0; n <= 20; n++) too_many(n);
    far_down(200, 0);
    far_down(MAX_ORDER, MAX_ORDER - 1);
    group("every set of faults, n 0 to 5");
    for (size_t n = 0; n <= 5; n++) every_fault(n);
    list none = list_new(0);
    metsovary_shape over = {.order = MAX_ORDER + 1};
    returns(over, none, triangle(MAX_ORDER + 1), refusal(over, 1, 0));
    list_free(none);
    static const uint64_t rules[] = {0, 1, 15, 3, 20};
    for (size_t k = 0; k < COUNT(rules); k++) expect(answers[rules[k]] > 0, "%d was not met", (int)rules[k]);
    return finish();
}
