/* The rearrangers against document 01's formulas: every kind of value, every small shape, the largest, wrong lengths and wrong shapes. */
#include "../reference.h"

/* a raw matrix and a factor, in the order of the layouts */
static const uint64_t states[2][2] = {{METSOVARY_PACKED_RAW, METSOVARY_BLOCKED_RAW}, {METSOVARY_PACKED_FACTOR, METSOVARY_BLOCKED_FACTOR}};

/* there and back with one value of work to spare; the way back restores every bit, and the shape */
static void there_and_back_as(const uint64_t *state, size_t n, size_t b) {
    metsovary_shape packed = {n, b, state[PACKED]}, blocked = {n, b, state[BLOCKED]};
    memory matrix = memory_new(triangle(n)), work = memory_new(needed(n, b) + 1);
    fill_any(matrix);
    fill_any(work);
    memory before = memory_copy(matrix);
    metsovary_result there = compare_rearrange(PACKED, BLOCKED, packed, matrix, work);
    expect_result("there", packed, there, (metsovary_result){.shape = blocked});
    fill_any(work);
    metsovary_result back = compare_rearrange(BLOCKED, PACKED, there.shape, matrix, work);
    expect_result("back", there.shape, back, (metsovary_result){.shape = packed});
    expect(memory_same(before, matrix), "n %zu b %zu: the way back does not restore the matrix", n, b);
    memory_free(before);
    memory_free(matrix);
    memory_free(work);
}

static void there_and_back(size_t n, size_t b) {
    for (size_t k = 0; k < 2; k++) there_and_back_as(states[k], n, b);
}

static void refused(size_t matrix_length, size_t work_length, uint64_t n, uint64_t b, uint64_t code) {
    memory matrix = memory_new(matrix_length), work = memory_new(work_length);
    fill_any(matrix);
    fill_any(work);
    for (size_t k = 0; k < 2; k++) {
        metsovary_result there = compare_rearrange(PACKED, BLOCKED, (metsovary_shape){n, b, states[k][PACKED]}, matrix, work);
        metsovary_result back = compare_rearrange(BLOCKED, PACKED, (metsovary_shape){n, b, states[k][BLOCKED]}, matrix, work);
        expect(there.code == code && back.code == code, "n %llu b %llu: code %llu wanted", (unsigned long long)n, (unsigned long long)b, (unsigned long long)code);
    }
    memory_free(matrix);
    memory_free(work);
}

int main(void) {
    group("rearranging, n 0 to 40, b 1 to 45");
    for (size_t n = 0; n <= 40; n++)
        for (size_t b = 1; b <= 45; b++) there_and_back(n, b);
    group("rearranging, n 4000, b 1, 64 and 200");
    there_and_back(4000, 1);
    there_and_back(4000, 64);
    there_and_back(4000, 200);
    group("rearranging, middling shapes");
    for (size_t n = 97; n <= 600; n += 103)
        for (size_t b = 1; b <= 200; b += 1 + b / 3) there_and_back(n, b);
    group("refusals of the rearrangers");
    for (size_t n = 1; n <= 12; n++)
        for (size_t b = 1; b <= 14; b++) {
            refused(triangle(n) - 1, needed(n, b), n, b, 3);
            refused(triangle(n) + 1, needed(n, b), n, b, 3);
            refused(triangle(n), needed(n, b) - 1, n, b, 4);
        }
    refused(0, 0, 0, 200, 0);
    refused(0, 0, 0, 0, 2);
    refused(0, 0, 0, 201, 2);
    refused(1, 1, 4001, 0, 1);
    refused(1, 1, UINT64_MAX, UINT64_MAX, 1);
    refused(1, 1, 1, UINT64_MAX, 2);
    refused(1, 1, (uint64_t)1 << 32, 7, 1);
    refused(3, 0, 2, 201, 2);
    return finish();
}
