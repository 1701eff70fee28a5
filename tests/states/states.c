/* The states: every call with every state, 15 beside every other rule, calls out of turn, and the shape that comes back after every code. What is expected stands
 * here, and each call is compared with the reference too. */
#include "../reference.h"

#include <math.h>

/* up to the converters those that want a packed matrix are even; the converters and the strike want one too */
enum { TO_BLOCKED, TO_PACKED, FACTOR_PLAIN, FACTOR_BLOCKED, SOLVE_PLAIN, SOLVE_BLOCKED, VARIANCE_PLAIN, VARIANCE_BLOCKED, TO_RFP, FROM_RFP, STRIKE, CALLS };
enum { STATES = 5, NONE = 5 };

static const char *const names[CALLS] = {"packed to blocked", "blocked to packed", "plain factor", "blocked factor", "plain solver", "blocked solver",
    "plain variance", "blocked variance", "packed to RFP", "RFP to packed", "strike"};

/* the state that a call gives for each from packed raw, 0, to spent, 4; NONE where it does not suit */
static const uint64_t given[CALLS][STATES] = {
    [TO_BLOCKED] = {1, NONE, 3, NONE, NONE},
    [TO_PACKED] = {NONE, 0, NONE, 2, NONE},
    [FACTOR_PLAIN] = {2, NONE, NONE, NONE, NONE},
    [FACTOR_BLOCKED] = {NONE, 3, NONE, NONE, NONE},
    [SOLVE_PLAIN] = {NONE, NONE, 2, NONE, NONE},
    [SOLVE_BLOCKED] = {NONE, NONE, NONE, 3, NONE},
    [VARIANCE_PLAIN] = {NONE, NONE, 2, NONE, NONE},
    [VARIANCE_BLOCKED] = {NONE, NONE, NONE, 3, NONE},
    [TO_RFP] = {0, NONE, 2, NONE, NONE},
    [FROM_RFP] = {0, NONE, 2, NONE, NONE},
    [STRIKE] = {0, NONE, NONE, NONE, NONE},
};

static uint64_t after(int call, uint64_t state) { return state < STATES ? given[call][state] : NONE; }
static bool suits(int call, uint64_t state) { return after(call, state) != NONE; }
static bool is_factor(int call) { return call == FACTOR_PLAIN || call == FACTOR_BLOCKED; }
static bool is_solver(int call) { return call == SOLVE_PLAIN || call == SOLVE_BLOCKED; }
static bool is_variance(int call) { return call == VARIANCE_PLAIN || call == VARIANCE_BLOCKED; }
static bool is_converter(int call) { return call == TO_RFP || call == FROM_RFP; }
static bool has_work(int call) { return !is_converter(call) && call != STRIKE; }
static enum layout layout_of(int call) { return call % 2 && call < TO_RFP ? BLOCKED : PACKED; }
static bool by_blocks(int call) { return call == TO_BLOCKED || layout_of(call) == BLOCKED; }

/* 0 to 6; these above a power of two, which fewer digits would take for them; and the greatest numbers of 8 and of 64 digits */
enum { NUMBERS = 37 };

static uint64_t number(size_t k) {
    static const uint64_t powers[] = {0, (uint64_t)1 << 8, (uint64_t)1 << 16, (uint64_t)1 << 32, (uint64_t)1 << 63};
    return k < 35 ? powers[k / 7] + k % 7 : k == 35 ? 255 : UINT64_MAX;
}

/* ---- a call and its memory ---- */

/* a converter's source is a, and its target t; a strike's list is l, empty where nothing else is said, so that the order stays */
typedef struct { memory a, x, w, t; list l; uint64_t m, unknown, form; } operands;

static operands operands_new(size_t a, size_t x, size_t w, uint64_t m, uint64_t unknown) {
    operands o = {memory_new(a), memory_new(x), memory_new(w), memory_new(a), list_new(0), m, unknown, random_bits() % 2};
    for (size_t k = 0; k < x; k++) o.x.values[k] = random_unit();
    fill_any(o.w);
    fill_any(o.t);
    return o;
}

static operands operands_copy(operands o) {
    return (operands){memory_copy(o.a), memory_copy(o.x), memory_copy(o.w), memory_copy(o.t), list_copy(o.l), o.m, o.unknown, o.form};
}

static bool operands_same(operands o, operands p) {
    return memory_same(o.a, p.a) && memory_same(o.x, p.x) && memory_same(o.w, p.w) && memory_same(o.t, p.t) && list_same(o.l, p.l);
}

static void operands_free(operands o) {
    memory_free(o.a);
    memory_free(o.x);
    memory_free(o.w);
    memory_free(o.t);
    list_free(o.l);
}

static metsovary_result run(int call, metsovary_shape shape, operands o) {
    enum layout layout = layout_of(call);
    if (call == STRIKE) return compare_strike(shape, o.l, o.a);
    if (is_converter(call)) return compare_convert(call == TO_RFP ? PACKED_TO_RFP : RFP_TO_PACKED, shape, o.form, o.a, o.t);
    if (is_factor(call)) return compare_factor(layout, shape, o.a, o.w);
    if (is_solver(call)) return compare_solve(layout, shape, o.m, o.a, o.x, o.w);
    if (is_variance(call)) return compare_variance(layout, shape, o.unknown, o.a, o.w);
    return compare_rearrange(layout, layout == PACKED ? BLOCKED : PACKED, shape, o.a, o.w);
}

static unsigned seen[CALLS]; /* a bit for each code that a call returned as expected */

static bool leaves_memory(uint64_t code) { return (code && code < 10) || code == 14 || code == 15 || code == 17 || code == 20; }

/* A call that is to return just this, its shape included; after 1 to 9, 14, 15, 17 and 20 all memory is to be as it was. The shape that it returned. */
static metsovary_shape step(int call, metsovary_shape shape, operands o, metsovary_result wanted) {
    operands before = operands_copy(o);
    metsovary_result r = run(call, shape, o);
    if (expect_result(names[call], shape, r, wanted)) seen[call] |= 1u << r.code;
    if (leaves_memory(wanted.code)) expect(operands_same(before, o), "%s: memory is touched under %d", names[call], (int)wanted.code);
    operands_free(before);
    return r.shape;
}

/* A variance is that of the last unknown: its diagonal value stands last in both layouts, and no other is read. */
static metsovary_shape accepted(int call, metsovary_shape shape, operands o, bool exact) {
    double value = is_variance(call) ? 1.0 / o.a.values[o.a.length - 1] / o.a.values[o.a.length - 1] : 0.0;
    return step(call, shape, o, (metsovary_result){.value = value, .exact = exact, .shape = {shape.order, shape.block, after(call, shape.state)}});
}

static metsovary_shape unsuited(int call, metsovary_shape shape, operands o) { return step(call, shape, o, (metsovary_result){.code = 15, .shape = shape}); }

/* ---- every state, on any bits ---- */

static void every_state(size_t n, size_t b, uint64_t m) {
    for (int call = 0; call < CALLS; call++)
        for (size_t k = 0; k < NUMBERS; k++) {
            metsovary_shape shape = {n, b, number(k)};
            operands o = operands_new(triangle(n), n * m, needed(n, b) + 1, m, random_bits() % (n + 1));
            fill_any(o.a);
            fill_any(o.x);
            if (!suits(call, shape.state)) unsuited(call, shape, o);
            else expect(run(call, shape, o).code != 15, "%s: state %zu is refused", names[call], k);
            operands_free(o);
        }
}

/* ---- a system of order 3 with block length 2 ---- */

/* in the order of the layouts; a(0, 0), a(1, 0) and a(2, 2) stand at 0, 1 and 5 of both. The rows of the factor are 2; 1, 3; -1, 2, 1, and its roots are exact. */
static const double raw[2][6] = {{4, 2, -2, 10, 5, 6}, {4, 2, 10, -2, 5, 6}};

static operands system_new(enum layout layout) {
    operands o = operands_new(6, 6, 6, 2, 2);
    memcpy(o.a.values, raw[layout], sizeof raw[layout]);
    return o;
}

/* with a(2, 2) = -1 the last pivot is -1 - 1 - 4 */
static metsovary_result refused_pivot(metsovary_shape shape) { return (metsovary_result){10, 2, -6.0, false, {shape.order, shape.block, METSOVARY_SPENT}}; }

/* ---- 15 beside the other rules ---- */

enum { ORDER = 1, BLOCK = 2, LENGTH = 4, WORK = 8, UNKNOWN = 16, SIDES = 32, SIDES_LENGTH = 64, VALUE = 128, SIDE_VALUE = 256, DIAGONAL = 512, ALL_FAULTS = 1023 };
enum { FORM = 1024, TARGET_LENGTH = 2048, CONVERTER_FAULTS = 4095 }; /* of the converters alone */
enum { LIST = 1024, STRIKE_FAULTS = 2047 };                           /* of the strike alone */

static unsigned all_faults(int call) { return is_converter(call) ? CONVERTER_FAULTS : call == STRIKE ? STRIKE_FAULTS : ALL_FAULTS; }

static uint64_t first_rule(int call, uint64_t state, unsigned faults) {
    if (faults & ORDER) return 1;
    if (faults & BLOCK && by_blocks(call)) return 2;
    if (faults & FORM && is_converter(call)) return 17;
    if (!suits(call, state)) return 15;
    if (faults & (LENGTH | TARGET_LENGTH)) return 3;
    if (faults & LIST && call == STRIKE) return 20;
    if (faults & WORK && has_work(call)) return 4;
    if (faults & UNKNOWN && is_variance(call)) return 14;
    if (faults & SIDES && is_solver(call)) return 5;
    if (faults & SIDES_LENGTH && is_solver(call)) return 6;
    if (faults & VALUE && (is_factor(call) || is_solver(call) || is_variance(call))) return 7;
    if (faults & SIDE_VALUE && is_solver(call)) return 8;
    if (faults & DIAGONAL && (is_solver(call) || is_variance(call))) return 9;
    return faults & DIAGONAL && is_factor(call) ? 10 : 0;
}

static void beside(int call, uint64_t state, unsigned faults) {
    static const uint64_t orders[] = {4001, ((uint64_t)1 << 32) + 3, UINT64_MAX}, blocks[] = {0, 201, ((uint64_t)1 << 32) + 2, UINT64_MAX};
    static const uint64_t forms[] = {2, 3, (uint64_t)1 << 32, UINT64_MAX}, after_1[] = {0, 1, 3, ((uint64_t)1 << 32) + 2, UINT64_MAX};
    static const uint64_t places[21] = {[7] = 1, [8] = 4, [9] = 2, [20] = 1};
    uint64_t m = faults & SIDES ? 1001 : 2;
    uint64_t unknown = faults & UNKNOWN ? (random_bits() % 2 ? 3 : UINT64_MAX) : faults & VALUE ? 0 : 2; /* the first reads every value */
    size_t off = random_bits() % 2 ? 1 : -(size_t)1, work = call == FACTOR_BLOCKED || call == TO_BLOCKED || call == TO_PACKED ? 6 : 3;
    metsovary_shape shape = {faults & ORDER ? orders[random_bits() % 3] : 3, faults & BLOCK ? blocks[random_bits() % 4] : 2, state};
    operands o = operands_new(6 + (faults & LENGTH ? off : 0), 3 * m + (faults & SIDES_LENGTH ? off : 0), work - (faults & WORK ? 1 : 0), m, unknown);
    for (size_t k = 0; k < o.a.length; k++) o.a.values[k] = k < 6 ? raw[layout_of(call)][k] : 1.0;
    memory_free(o.t);
    o.t = memory_new(6 + (faults & TARGET_LENGTH ? (random_bits() % 2 ? 1 : -(size_t)1) : 0));
    fill_any(o.t);
    if (faults & FORM && is_converter(call)) o.form = forms[random_bits() % 4];
    if (faults & LIST && call == STRIKE) {
        list_free(o.l);
        o.l = list_new(2);
        o.l.unknowns[0] = 1;
        o.l.unknowns[1] = after_1[random_bits() % 5];
    }
    if (faults & VALUE) o.a.values[1] = any_nan();
    if (faults & SIDE_VALUE) o.x.values[4] = -INFINITY;
    if (faults & DIAGONAL) o.a.values[o.a.length - 1] = -1.0;
    uint64_t code = first_rule(call, state, faults);
    if (code == 0) accepted(call, shape, o, is_factor(call));
    else if (code == 10) step(call, shape, o, refused_pivot(shape));
    else step(call, shape, o, (metsovary_result){.code = code, .place = places[code], .shape = shape});
    operands_free(o);
}

/* ---- calls out of turn ---- */

/* A raw matrix is handed to the solvers and the variance calls, and its factor to both factors and the strike: the shapes that come back go on with the work. */
static void out_of_turn(enum layout layout, size_t n, size_t b) {
    metsovary_shape shape = {n, b, layout == PACKED ? METSOVARY_PACKED_RAW : METSOVARY_BLOCKED_RAW};
    operands o = operands_new(triangle(n), 2 * n, needed(n, b), 2, n ? n - 1 : 0);
    for (size_t j = 0; j < n; j++)
        for (size_t i = j; i < n; i++) o.a.values[place(layout, shape, i, j)] = i == j ? 4.0 * (double)(n * n) : (double)(i + j) / (double)n;
    for (int call = SOLVE_PLAIN; call <= VARIANCE_BLOCKED; call++) shape = unsuited(call, shape, o);
    metsovary_result f = run(layout == PACKED ? FACTOR_PLAIN : FACTOR_BLOCKED, shape, o);
    expect(f.code == 0, "n %zu b %zu: the factor of a definite matrix: %d", n, b, (int)f.code);
    shape = unsuited(FACTOR_PLAIN, f.shape, o);
    shape = unsuited(FACTOR_BLOCKED, shape, o);
    shape = unsuited(STRIKE, shape, o);
    shape = accepted(layout == PACKED ? SOLVE_PLAIN : SOLVE_BLOCKED, shape, o, false);
    if (n) accepted(layout == PACKED ? VARIANCE_PLAIN : VARIANCE_BLOCKED, shape, o, false);
    operands_free(o);
}

/* Five calls, the digits of w to base 11, on one matrix that is definite or not; each gets the shape that the one before it returned. */
static void walk(unsigned w, bool definite) {
    metsovary_shape shape = {.order = 3, .block = 2};
    operands o = system_new(PACKED);
    if (!definite) o.a.values[5] = -1.0;
    for (int k = 0; k < 5; k++, w /= CALLS) {
        int call = (int)(w % CALLS);
        fill_any(o.w);
        if (!suits(call, shape.state)) shape = unsuited(call, shape, o);
        else if (is_factor(call) && !definite) shape = step(call, shape, o, refused_pivot(shape));
        else shape = accepted(call, shape, o, is_factor(call));
    }
    operands_free(o);
}

/* ---- spent memory, and 12 ---- */

static void every_call_refuses(metsovary_shape shape, operands o) {
    for (int call = 0; call < CALLS; call++) unsuited(call, shape, o);
}

static void spent(enum layout layout, size_t b) {
    static const struct { uint64_t code, place; double value, last; } rows[] = {{10, 2, -6.0, -1.0}, {16, 2, 0x1p-50, 5.0 + 0x1p-50}, {11, 0, 0.0, 6.0}};
    metsovary_shape shape = {3, b, layout == PACKED ? METSOVARY_PACKED_RAW : METSOVARY_BLOCKED_RAW};
    for (size_t k = 0; k < 3; k++) {
        operands o = operands_new(6, 6, 9, 2, 2);
        for (size_t j = 0; j < 3; j++)
            for (size_t i = j; i < 3; i++) o.a.values[place(layout, shape, i, j)] = raw[PACKED][place(PACKED, shape, i, j)];
        o.a.values[5] = rows[k].last;
        if (rows[k].code == 11) { /* 2^600 / 2^-500 */
            o.a.values[place(layout, shape, 0, 0)] = 0x1p-1000;
            o.a.values[place(layout, shape, 1, 0)] = 0x1p600;
        }
        metsovary_result wanted = {rows[k].code, rows[k].place, rows[k].value, false, {3, b, METSOVARY_SPENT}};
        every_call_refuses(step(layout == PACKED ? FACTOR_PLAIN : FACTOR_BLOCKED, shape, o, wanted), o);
        operands_free(o);
    }
}

/* the second of two right-hand sides is refused, then a variance; the factor is one still */
static void refused_solution(enum layout layout) {
    metsovary_shape shape = {3, 2, layout == PACKED ? METSOVARY_PACKED_FACTOR : METSOVARY_BLOCKED_FACTOR};
    int solver = layout == PACKED ? SOLVE_PLAIN : SOLVE_BLOCKED;
    operands o = system_new(layout);
    o.a.values[0] = 0x1p-400;
    o.x.values[3] = 0x1p700;
    shape = step(solver, shape, o, (metsovary_result){.code = 12, .place = 1, .shape = shape});
    for (size_t k = 0; k < 6; k++) o.x.values[k] = 1.0;
    shape = accepted(solver, shape, o, false);
    int variance = layout == PACKED ? VARIANCE_PLAIN : VARIANCE_BLOCKED;
    double last = o.a.values[5];
    o.a.values[5] = 0x1p-600;
    shape = step(variance, shape, o, (metsovary_result){.code = 12, .shape = shape});
    o.a.values[5] = last;
    shape = accepted(variance, shape, o, false);
    accepted(layout == PACKED ? TO_BLOCKED : TO_PACKED, shape, o, false);
    operands_free(o);
}

int main(void) {
    group("every call with every state, on any bits");
    for (size_t n = 0; n <= 9; n++)
        for (size_t b = 1; b <= n + 1; b++)
            for (uint64_t m = 0; m <= 2; m++) every_state(n, b, m);
    every_state(0, 200, 1000);
    every_state(40, 16, 3);
    every_state(150, 200, 1);
    group("1, 2 and 17 before 15, 15 before 3 to 10, 14 and 20: every state with every set of faults");
    for (int call = 0; call < CALLS; call++)
        for (size_t k = 0; k < NUMBERS; k++)
            for (unsigned faults = 0; faults <= all_faults(call); faults++) beside(call, number(k), faults);
    group("raw matrices handed to the solvers and the variance calls, factors handed to the factors and the strike");
    for (size_t n = 0; n <= 20; n++)
        for (size_t b = 1; b <= n + 1; b++) {
            out_of_turn(PACKED, n, b);
            out_of_turn(BLOCKED, n, b);
        }
    group("every walk of five calls on one matrix");
    for (unsigned w = 0; w < CALLS * CALLS * CALLS * CALLS * CALLS; w++) {
        walk(w, true);
        walk(w, false);
    }
    group("spent after 10, 11 and 16, and refused by every call then; order 0 too");
    for (size_t b = 1; b <= 4; b++) {
        spent(PACKED, b);
        spent(BLOCKED, b);
    }
    operands none = operands_new(0, 0, 0, 0, 0);
    for (size_t b = 1; b <= 200; b++) every_call_refuses((metsovary_shape){0, b, METSOVARY_SPENT}, none);
    operands_free(none);
    group("a factor still after 12");
    refused_solution(PACKED);
    refused_solution(BLOCKED);
    group("the shape was seen after every code of every call");
    enum { ALL = 1 << 0 | 1 << 1 | 1 << 15 | 1 << 3, OF_WORK = 1 << 4, OF_CONVERTERS = 1 << 17, OF_STRIKE = 1 << 20, OF_BLOCKS = 1 << 2 };
    enum { OF_FACTORS = 1 << 7 | 1 << 10 | 1 << 16 | 1 << 11 };
    enum { OF_SOLVERS = 1 << 5 | 1 << 6 | 1 << 7 | 1 << 8 | 1 << 9 | 1 << 12, OF_VARIANCES = 1 << 14 | 1 << 7 | 1 << 9 | 1 << 12 };
    for (int call = 0; call < CALLS; call++) {
        unsigned wanted = ALL | (has_work(call) ? OF_WORK : 0) | (is_converter(call) ? OF_CONVERTERS : 0) | (call == STRIKE ? OF_STRIKE : 0) | (by_blocks(call) ? OF_BLOCKS : 0)
            | (is_factor(call) ? OF_FACTORS : 0) | (is_solver(call) ? OF_SOLVERS : 0) | (is_variance(call) ? OF_VARIANCES : 0);
        expect(seen[call] == wanted, "%s: %06x, wanted %06x", names[call], seen[call], wanted);
    }
    return finish();
}
