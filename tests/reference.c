#include "reference.h"
#include "squares.h"

#include <math.h>
#include <stdarg.h>

_Static_assert(sizeof(metsovary_shape) == 24 && offsetof(metsovary_shape, block) == 8 && offsetof(metsovary_shape, state) == 16, "the layout of a shape");
_Static_assert(sizeof(metsovary_result) == 56 && offsetof(metsovary_result, value) == 16 && offsetof(metsovary_result, exact) == 24
    && offsetof(metsovary_result, shape) == 32, "the layout of a result");

/* ---- places ---- */

size_t triangle(size_t n) { return n * (n + 1) / 2; }

size_t needed(size_t n, size_t b) { return n * (n < b ? n : b); }

size_t place(enum layout layout, metsovary_shape shape, size_t i, size_t j) {
    size_t n = shape.order, b = shape.block;
    if (layout == PACKED) return j == 0 ? i : i + j * (2 * n - j - 1) / 2;
    size_t c = b * (j / b), w = b < n - c ? b : n - c, r = i - c, s = j - c;
    return c * (2 * n - c + 1) / 2 + (r < w ? r * (r + 1) / 2 + s : w * (w + 1) / 2 + (r - w) * w + s);
}

/* ---- states ---- */

enum operation { REARRANGE, FACTOR, SOLVE, VARIANCE, CONVERT, STRIKE };

/* a call, by what it does and the layout that it wants, and the shape and the form that it is handed; the form is 0 where it takes none */
typedef struct { enum operation operation; enum layout layout; metsovary_shape shape; uint64_t form; } task;

typedef struct { enum operation operation; enum layout layout; uint64_t wanted, given; } state_row;

static const state_row state_rows[] = {
    {REARRANGE, PACKED, METSOVARY_PACKED_RAW, METSOVARY_BLOCKED_RAW},
    {REARRANGE, PACKED, METSOVARY_PACKED_FACTOR, METSOVARY_BLOCKED_FACTOR},
    {REARRANGE, BLOCKED, METSOVARY_BLOCKED_RAW, METSOVARY_PACKED_RAW},
    {REARRANGE, BLOCKED, METSOVARY_BLOCKED_FACTOR, METSOVARY_PACKED_FACTOR},
    {FACTOR, PACKED, METSOVARY_PACKED_RAW, METSOVARY_PACKED_FACTOR},
    {FACTOR, BLOCKED, METSOVARY_BLOCKED_RAW, METSOVARY_BLOCKED_FACTOR},
    {SOLVE, PACKED, METSOVARY_PACKED_FACTOR, METSOVARY_PACKED_FACTOR},
    {SOLVE, BLOCKED, METSOVARY_BLOCKED_FACTOR, METSOVARY_BLOCKED_FACTOR},
    {VARIANCE, PACKED, METSOVARY_PACKED_FACTOR, METSOVARY_PACKED_FACTOR},
    {VARIANCE, BLOCKED, METSOVARY_BLOCKED_FACTOR, METSOVARY_BLOCKED_FACTOR},
    {CONVERT, PACKED, METSOVARY_PACKED_RAW, METSOVARY_PACKED_RAW},
    {CONVERT, PACKED, METSOVARY_PACKED_FACTOR, METSOVARY_PACKED_FACTOR},
    {STRIKE, PACKED, METSOVARY_PACKED_RAW, METSOVARY_PACKED_RAW},
};

/* NULL where the state does not suit the call */
static const state_row *row_of(task t) {
    for (size_t k = 0; k < sizeof state_rows / sizeof *state_rows; k++) {
        const state_row *row = &state_rows[k];
        if (row->operation == t.operation && row->layout == t.layout && row->wanted == t.shape.state) return row;
    }
    return NULL;
}

/* ---- rules ---- */

static metsovary_result answer(task t, uint64_t code, uint64_t where, double value) {
    metsovary_result r = {code, where, value, false, t.shape};
    if (code == 0) r.shape.state = row_of(t)->given;
    if (code == 10 || code == 11 || code == 16) r.shape.state = METSOVARY_SPENT;
    return r;
}

static size_t needed_work(task t) {
    if (t.operation == CONVERT || t.operation == STRIKE) return 0;
    bool by_blocks = t.operation == REARRANGE || (t.operation == FACTOR && t.layout == BLOCKED);
    return by_blocks ? needed(t.shape.order, t.shape.block) : t.shape.order;
}

static uint64_t check_call(task t, size_t length, size_t work) {
    size_t n = t.shape.order, b = t.shape.block;
    if (n > 4000) return 1;
    if ((t.operation == REARRANGE || t.layout == BLOCKED) && (b == 0 || b > 200)) return 2;
    if (t.form > 1) return 17;
    if (!row_of(t)) return 15;
    if (length != triangle(n)) return 3;
    if (work < needed_work(t)) return 4;
    return 0;
}

static size_t first_not_finite(const double *values, size_t length) {
    size_t p = 0;
    while (p < length && isfinite(values[p])) p++;
    return p;
}

/* the lowest position of an entry that is not finite, of those whose row and column are both `first` or later; the matrix's length where there is none */
static size_t first_entry_not_finite(enum layout layout, metsovary_shape shape, size_t first, const double *matrix) {
    size_t lowest = triangle(shape.order);
    for (size_t j = first; j < shape.order; j++)
        for (size_t i = j; i < shape.order; i++) {
            size_t p = place(layout, shape, i, j);
            if (p < lowest && !isfinite(matrix[p])) lowest = p;
        }
    return lowest;
}

/* the lowest column from `first` on whose diagonal value is not greater than zero; the order where there is none */
static size_t first_not_above_zero(enum layout layout, metsovary_shape shape, size_t first, const double *matrix) {
    size_t j = first;
    while (j < shape.order && matrix[place(layout, shape, j, j)] > 0) j++;
    return j;
}

static void clear(double *work, size_t length) {
    for (size_t k = 0; k < length; k++) work[k] = 0.0;
}

/* ---- rearranging: values move as bits ---- */

metsovary_result reference_rearrange(enum layout from, enum layout to, metsovary_shape shape, double *matrix, size_t length, double *work, size_t work_length) {
    task asked = {REARRANGE, from, shape, 0};
    uint64_t code = check_call(asked, length, work_length);
    if (code) return answer(asked, code, 0, 0.0);
    uint64_t *old = malloc(length * 8 + 8);
    memcpy(old, matrix, length * 8);
    for (size_t j = 0; j < shape.order; j++)
        for (size_t i = j; i < shape.order; i++) memcpy(&matrix[place(to, shape, i, j)], &old[place(from, shape, i, j)], 8);
    free(old);
    clear(work, needed_work(asked));
    return answer(asked, 0, 0, 0.0);
}

/* ---- converting ---- */

/* The packed place of the entry in row r and column c of the array of form 0, by document 02's sentence. */
static size_t place_at(metsovary_shape shape, size_t r, size_t c) {
    size_t n = shape.order, k = n / 2;
    if (n % 2 == 0) return r > c ? place(PACKED, shape, r - 1, c) : place(PACKED, shape, k + c, k + r);
    return r >= c ? place(PACKED, shape, r, c) : place(PACKED, shape, k + c, k + 1 + r);
}

metsovary_result reference_convert(enum way way, metsovary_shape shape, uint64_t form, const double *source, size_t length, double *target, size_t target_length) {
    task asked = {CONVERT, PACKED, shape, form};
    uint64_t code = check_call(asked, length, 0);
    if (!code && target_length != triangle(shape.order)) code = 3;
    if (code) return answer(asked, code, 0, 0.0);
    size_t rows = shape.order % 2 ? shape.order : shape.order + 1, columns = (shape.order + 1) / 2;
    for (size_t c = 0; c < columns; c++)
        for (size_t r = 0; r < rows; r++) {
            size_t packed = place_at(shape, r, c), rfp = form == 0 ? r + c * rows : c + r * columns;
            if (way == PACKED_TO_RFP) memcpy(&target[rfp], &source[packed], 8);
            else memcpy(&target[packed], &source[rfp], 8);
        }
    return answer(asked, 0, 0, 0.0);
}

/* ---- striking ---- */

/* the lowest position of an unknown that is not below n or not above the one before it; the count where there is none */
static size_t first_offending(uint64_t n, const uint64_t *unknowns, size_t count) {
    size_t p = 0;
    while (p < count && unknowns[p] < n && (p == 0 || unknowns[p] > unknowns[p - 1])) p++;
    return p;
}

/* Entry by entry into fresh memory of zeros, then back as a whole. */
metsovary_result reference_strike(metsovary_shape shape, const uint64_t *unknowns, size_t count, double *matrix, size_t length) {
    task asked = {STRIKE, PACKED, shape, 0};
    uint64_t code = check_call(asked, length, 0);
    if (code) return answer(asked, code, 0, 0.0);
    size_t bad = first_offending(shape.order, unknowns, count);
    if (bad < count) return answer(asked, 20, bad, 0.0);
    metsovary_result r = answer(asked, 0, 0, 0.0);
    r.shape.order = shape.order - count;
    bool *struck = calloc(shape.order + 1, sizeof *struck);
    for (size_t q = 0; q < count; q++) struck[unknowns[q]] = true;
    size_t *kept = malloc((shape.order + 1) * sizeof *kept), left = 0;
    for (size_t u = 0; u < shape.order; u++)
        if (!struck[u]) kept[left++] = u;
    uint64_t *fresh = calloc(length + 1, 8);
    for (size_t j = 0; j < r.shape.order; j++)
        for (size_t i = j; i < r.shape.order; i++) memcpy(&fresh[place(PACKED, r.shape, i, j)], &matrix[place(PACKED, shape, kept[i], kept[j])], 8);
    memcpy(matrix, fresh, length * 8);
    free(fresh);
    free(struck);
    free(kept);
    return r;
}

/* ---- the arithmetic, on a full square array by columns ---- */

/* the entries whose row and column are both `first` or later */
static double *load(enum layout layout, metsovary_shape shape, size_t first, const double *matrix) {
    size_t n = shape.order - first;
    double *a = malloc((n * n + 1) * sizeof *a);
    for (size_t j = 0; j < n; j++)
        for (size_t i = j; i < n; i++) a[i + j * n] = matrix[place(layout, shape, first + i, first + j)];
    return a;
}

metsovary_result reference_factor(enum layout layout, metsovary_shape shape, double *matrix, size_t length, double *work, size_t work_length) {
    task asked = {FACTOR, layout, shape, 0};
    size_t n = shape.order;
    uint64_t code = check_call(asked, length, work_length);
    if (code) return answer(asked, code, 0, 0.0);
    size_t bad = first_not_finite(matrix, length);
    if (bad < length) return answer(asked, 7, bad, 0.0);
    double *a = load(layout, shape, 0, matrix);
    metsovary_result r = answer(asked, 0, 0, 0.0);
    bool exact = true;
    size_t j;
    for (j = 0; j < n && r.code == 0; j++) {
        double *column = a + j * n, entered = column[j];
        for (size_t k = 0; k < j; k++) {
            double x = a[j + k * n];
            for (size_t i = j; i < n; i++) {
                double product = a[i + k * n] * x;
                column[i] = column[i] - product;
            }
        }
        double pivot = column[j];
        if (!(pivot > 0)) {
            r = answer(asked, 10, j, pivot);
            break;
        }
        if (pivot <= entered * 0x1p-40) {
            r = answer(asked, 16, j, pivot);
            break;
        }
        column[j] = sqrt(pivot);
        exact = exact && square_is(to_bits(column[j]), to_bits(pivot));
        for (size_t i = j + 1; i < n; i++) {
            column[i] = column[i] / column[j];
            if (!isfinite(column[i])) r = answer(asked, 11, j, 0.0);
        }
        if (r.code) break;
    }
    size_t finished = r.code == 0 ? n : layout == PACKED ? j : shape.block * (j / shape.block);
    for (size_t c = 0; c < finished; c++)
        for (size_t i = c; i < n; i++) matrix[place(layout, shape, i, c)] = a[i + c * n];
    free(a);
    clear(work, needed_work(asked));
    r.exact = r.code == 0 && exact;
    return r;
}

/* A right-hand side becomes its solution in its own memory; whether every y and x on the way is finite. */
static bool substitute(size_t n, const double *l, double *y) {
    bool finite = true;
    for (size_t i = 0; i < n; i++) {
        double t = y[i];
        for (size_t k = 0; k < i; k++) {
            double product = l[i + k * n] * y[k];
            t = t - product;
        }
        y[i] = t / l[i + i * n];
        finite = finite && isfinite(y[i]);
    }
    for (size_t i = n; i-- > 0;) {
        double t = y[i];
        for (size_t k = n - 1; k > i; k--) {
            double product = l[k + i * n] * y[k];
            t = t - product;
        }
        y[i] = t / l[i + i * n];
        finite = finite && isfinite(y[i]);
    }
    return finite;
}

metsovary_result reference_solve(enum layout layout, metsovary_shape shape, uint64_t m, const double *matrix, size_t length, double *x, size_t x_length, double *work, size_t work_length) {
    task asked = {SOLVE, layout, shape, 0};
    size_t n = shape.order;
    uint64_t code = check_call(asked, length, work_length);
    if (code) return answer(asked, code, 0, 0.0);
    if (m > 1000) return answer(asked, 5, 0, 0.0);
    if (x_length != n * m) return answer(asked, 6, 0, 0.0);
    size_t bad = first_not_finite(matrix, length);
    if (bad < length) return answer(asked, 7, bad, 0.0);
    bad = first_not_finite(x, x_length);
    if (bad < x_length) return answer(asked, 8, bad, 0.0);
    size_t low = first_not_above_zero(layout, shape, 0, matrix);
    if (low < n) return answer(asked, 9, low, 0.0);
    double *l = load(layout, shape, 0, matrix);
    double *y = malloc((n + 1) * sizeof *y);
    metsovary_result r = answer(asked, 0, 0, 0.0);
    for (size_t q = 0; q < m && r.code == 0; q++) {
        memcpy(y, x + q * n, n * sizeof *y);
        if (substitute(n, l, y)) memcpy(x + q * n, y, n * sizeof *y);
        else r = answer(asked, 12, q, 0.0);
    }
    free(y);
    free(l);
    clear(work, needed_work(asked));
    return r;
}

metsovary_result reference_variance(enum layout layout, metsovary_shape shape, uint64_t unknown, const double *matrix, size_t length, double *work, size_t work_length) {
    task asked = {VARIANCE, layout, shape, 0};
    uint64_t code = check_call(asked, length, work_length);
    if (code) return answer(asked, code, 0, 0.0);
    if (unknown >= shape.order) return answer(asked, 14, 0, 0.0);
    size_t bad = first_entry_not_finite(layout, shape, unknown, matrix);
    if (bad < length) return answer(asked, 7, bad, 0.0);
    size_t low = first_not_above_zero(layout, shape, unknown, matrix);
    if (low < shape.order) return answer(asked, 9, low, 0.0);
    size_t rest = shape.order - unknown;
    double *l = load(layout, shape, unknown, matrix);
    double *y = calloc(rest, sizeof *y);
    y[0] = 1.0;
    metsovary_result r = substitute(rest, l, y) ? answer(asked, 0, 0, y[0]) : answer(asked, 12, 0, 0.0);
    free(y);
    free(l);
    clear(work, needed_work(asked));
    return r;
}

/* ---- memory ---- */

enum { GUARD = 8 };

memory memory_new(size_t length) {
    memory m;
    m.all = malloc((length + 2 * GUARD) * sizeof *m.all);
    if (!m.all) abort();
    m.values = m.all + GUARD;
    m.length = length;
    for (size_t k = 0; k < length + 2 * GUARD; k++) m.all[k] = 0.0;
    for (size_t k = 0; k < GUARD; k++) m.all[k] = m.values[length + k] = from_bits(0x7ff4000000000000u + k);
    return m;
}

memory memory_copy(memory m) {
    memory c = memory_new(m.length);
    memcpy(c.all, m.all, (m.length + 2 * GUARD) * sizeof *m.all);
    return c;
}

void memory_free(memory m) { free(m.all); }

bool memory_same(memory a, memory b) {
    return a.length == b.length && memcmp(a.all, b.all, (a.length + 2 * GUARD) * sizeof *a.all) == 0;
}

/* Each guard is a low number: a call that took one for part of the list would strike that unknown or refuse the list. */
list list_new(size_t count) {
    list l;
    l.all = calloc(count + 2 * GUARD, sizeof *l.all);
    if (!l.all) abort();
    l.unknowns = l.all + GUARD;
    l.count = count;
    for (size_t k = 0; k < GUARD; k++) l.all[k] = l.unknowns[count + k] = k;
    return l;
}

list list_copy(list l) {
    list c = list_new(l.count);
    memcpy(c.all, l.all, (l.count + 2 * GUARD) * sizeof *l.all);
    return c;
}

void list_free(list l) { free(l.all); }

bool list_same(list a, list b) { return a.count == b.count && memcmp(a.all, b.all, (a.count + 2 * GUARD) * sizeof *a.all) == 0; }

/* ---- numbers ---- */

static uint64_t state = 0x9e3779b97f4a7c15u;

uint64_t random_bits(void) {
    state += 0x9e3779b97f4a7c15u;
    uint64_t z = state;
    z = (z ^ (z >> 30)) * 0xbf58476d1ce4e5b9u;
    z = (z ^ (z >> 27)) * 0x94d049bb133111ebu;
    return z ^ (z >> 31);
}

double random_unit(void) { return (double)(int64_t)random_bits() / 9223372036854775808.0; }

double from_bits(uint64_t bits) {
    double x;
    memcpy(&x, &bits, 8);
    return x;
}

double any_nan(void) {
    uint64_t bits = random_bits();
    return from_bits(bits | 0x7ff0000000000000u | (bits & 0xfffffffffffffu ? 0 : 1));
}

uint64_t to_bits(double x) {
    uint64_t bits;
    memcpy(&bits, &x, 8);
    return bits;
}

void fill_any(memory m) {
    static const uint64_t kinds[] = {0x7ff8000000000000u, 0x7ff0000000000001u, 0xfff8000000000000u, 0xfff0000000000001u, 0x7ff8dead0000beefu, 0xfff4000000000007u,
        0x7ff0000000000000u, 0xfff0000000000000u, 0x0000000000000001u, 0x8000000000000000u, 0};
    for (size_t k = 0; k < m.length; k++) {
        uint64_t bits = random_bits();
        if (bits % 4 == 0) bits = kinds[bits / 4 % (sizeof kinds / sizeof *kinds)];
        memcpy(&m.values[k], &bits, 8);
    }
}

/* ---- counting ---- */

static const char *current;
static int passed, failed, in_group;

static void close_group(void) {
    if (!current) return;
    if (in_group) failed++;
    else passed++;
    printf("%s: %s\n", current, in_group ? "FAILED" : "ok");
    fflush(stdout);
}

void group(const char *name) {
    close_group();
    current = name;
    in_group = 0;
}

bool expect(bool ok, const char *format, ...) {
    if (ok) return true;
    if (in_group++ < 10) {
        va_list list;
        va_start(list, format);
        printf("  not so: ");
        vprintf(format, list);
        printf("\n");
        va_end(list);
    }
    return false;
}

int finish(void) {
    close_group();
    printf("%d passed, %d failed\n", passed, failed);
    return failed != 0;
}

/* ---- comparing a call of the engine with the reference ---- */

bool same_shape(metsovary_shape a, metsovary_shape b) { return a.order == b.order && a.block == b.block && a.state == b.state; }

bool same_answer(metsovary_result a, metsovary_result b) {
    return a.code == b.code && a.place == b.place && to_bits(a.value) == to_bits(b.value) && a.exact == b.exact;
}

bool same_result(metsovary_result a, metsovary_result b) { return same_answer(a, b) && same_shape(a.shape, b.shape); }

bool expect_result(const char *what, metsovary_shape handed, metsovary_result got, metsovary_result wanted) {
    typedef unsigned long long shown;
    metsovary_shape g = got.shape, w = wanted.shape;
    return expect(same_result(got, wanted),
        "%s n %llu b %llu state %llu: %llu %llu %016llx exact %d shape %llu %llu %llu, wanted %llu %llu %016llx exact %d shape %llu %llu %llu",
        what, (shown)handed.order, (shown)handed.block, (shown)handed.state,
        (shown)got.code, (shown)got.place, (shown)to_bits(got.value), got.exact, (shown)g.order, (shown)g.block, (shown)g.state,
        (shown)wanted.code, (shown)wanted.place, (shown)to_bits(wanted.value), wanted.exact, (shown)w.order, (shown)w.block, (shown)w.state);
}

static metsovary_result compared(const char *what, metsovary_shape shape, metsovary_result got, metsovary_result wanted, bool memories) {
    expect_result(what, shape, got, wanted);
    expect(memories, "%s n %llu b %llu state %llu: memory differs (code %llu)", what, (unsigned long long)shape.order, (unsigned long long)shape.block,
        (unsigned long long)shape.state, (unsigned long long)wanted.code);
    return got;
}

metsovary_result compare_rearrange(enum layout from, enum layout to, metsovary_shape shape, memory matrix, memory work) {
    memory a = memory_copy(matrix), w = memory_copy(work);
    metsovary_result wanted = reference_rearrange(from, to, shape, a.values, a.length, w.values, w.length);
    matrix_call call = to == BLOCKED ? metsovary_packed_to_blocked : metsovary_blocked_to_packed;
    metsovary_result got = call(shape, matrix.values, matrix.length, work.values, work.length);
    compared(to == BLOCKED ? "packed_to_blocked" : "blocked_to_packed", shape, got, wanted, memory_same(a, matrix) && memory_same(w, work));
    memory_free(a);
    memory_free(w);
    return got;
}

metsovary_result compare_factor(enum layout layout, metsovary_shape shape, memory matrix, memory work) {
    memory a = memory_copy(matrix), w = memory_copy(work);
    metsovary_result wanted = reference_factor(layout, shape, a.values, a.length, w.values, w.length);
    matrix_call call = layout == PACKED ? metsovary_factor_plain : metsovary_factor_blocked;
    metsovary_result got = call(shape, matrix.values, matrix.length, work.values, work.length);
    compared(layout == PACKED ? "factor_plain" : "factor_blocked", shape, got, wanted, memory_same(a, matrix) && memory_same(w, work));
    memory_free(a);
    memory_free(w);
    return got;
}

metsovary_result compare_solve(enum layout layout, metsovary_shape shape, uint64_t m, memory matrix, memory x, memory work) {
    memory a = memory_copy(matrix), s = memory_copy(x), w = memory_copy(work);
    metsovary_result wanted = reference_solve(layout, shape, m, a.values, a.length, s.values, s.length, w.values, w.length);
    metsovary_result got = layout == PACKED ? metsovary_solve_plain(shape, m, matrix.values, matrix.length, x.values, x.length, work.values, work.length)
                                            : metsovary_solve_blocked(shape, m, matrix.values, matrix.length, x.values, x.length, work.values, work.length);
    compared(layout == PACKED ? "solve_plain" : "solve_blocked", shape, got, wanted, memory_same(a, matrix) && memory_same(s, x) && memory_same(w, work));
    memory_free(a);
    memory_free(s);
    memory_free(w);
    return got;
}

metsovary_result compare_variance(enum layout layout, metsovary_shape shape, uint64_t unknown, memory matrix, memory work) {
    memory a = memory_copy(matrix), w = memory_copy(work);
    metsovary_result wanted = reference_variance(layout, shape, unknown, a.values, a.length, w.values, w.length);
    metsovary_result got = layout == PACKED ? metsovary_variance_plain(shape, unknown, matrix.values, matrix.length, work.values, work.length)
                                            : metsovary_variance_blocked(shape, unknown, matrix.values, matrix.length, work.values, work.length);
    compared(layout == PACKED ? "variance_plain" : "variance_blocked", shape, got, wanted, memory_same(a, matrix) && memory_same(w, work));
    memory_free(a);
    memory_free(w);
    return got;
}

metsovary_result compare_convert(enum way way, metsovary_shape shape, uint64_t form, memory source, memory target) {
    memory s = memory_copy(source), t = memory_copy(target);
    metsovary_result wanted = reference_convert(way, shape, form, s.values, s.length, t.values, t.length);
    metsovary_result got = way == PACKED_TO_RFP ? metsovary_packed_to_rfp(shape, form, source.values, source.length, target.values, target.length)
                                                : metsovary_rfp_to_packed(shape, form, source.values, source.length, target.values, target.length);
    compared(way == PACKED_TO_RFP ? "packed_to_rfp" : "rfp_to_packed", shape, got, wanted, memory_same(s, source) && memory_same(t, target));
    memory_free(s);
    memory_free(t);
    return got;
}

metsovary_result compare_strike(metsovary_shape shape, list struck, memory matrix) {
    memory a = memory_copy(matrix);
    list l = list_copy(struck);
    metsovary_result wanted = reference_strike(shape, l.unknowns, l.count, a.values, a.length);
    metsovary_result got = metsovary_strike(shape, struck.unknowns, struck.count, matrix.values, matrix.length);
    compared("strike", shape, got, wanted, memory_same(a, matrix) && list_same(l, struck));
    memory_free(a);
    list_free(l);
    return got;
}
