/* Another implementation of the eleven calls, by the formulas of documents 01 and 02 and naive loops, with the processor's square root; and guarded memory to compare all of it. */
#ifndef REFERENCE_H
#define REFERENCE_H

#include <stdbool.h>
#include <stdio.h>
#include <stdlib.h>
#include <string.h>

#include "../include/metsovary.h"

enum layout { PACKED, BLOCKED };
enum way { PACKED_TO_RFP, RFP_TO_PACKED };

/* ---- places and rules ---- */

size_t triangle(size_t n);          /* values of a matrix */
size_t needed(size_t n, size_t b);  /* values of work memory of a rearranger and of the blocked factor; of the other calls they are n */
size_t place(enum layout, metsovary_shape, size_t i, size_t j);
metsovary_result reference_rearrange(enum layout from, enum layout to, metsovary_shape, double *matrix, size_t, double *work, size_t);
metsovary_result reference_factor(enum layout, metsovary_shape, double *matrix, size_t, double *work, size_t);
metsovary_result reference_solve(enum layout, metsovary_shape, uint64_t m, const double *matrix, size_t, double *x, size_t, double *work, size_t);
metsovary_result reference_variance(enum layout, metsovary_shape, uint64_t unknown, const double *matrix, size_t, double *work, size_t);
metsovary_result reference_convert(enum way, metsovary_shape, uint64_t form, const double *source, size_t, double *target, size_t);
metsovary_result reference_strike(metsovary_shape, const uint64_t *unknowns, size_t count, double *matrix, size_t);

/* ---- memory with guards on both sides ---- */

typedef struct { double *all, *values; size_t length; } memory;

memory memory_new(size_t length);
memory memory_copy(memory);
void memory_free(memory);
bool memory_same(memory, memory);   /* every bit, guards included */

/* unknowns to strike */
typedef struct { uint64_t *all, *unknowns; size_t count; } list;

list list_new(size_t count);
list list_copy(list);
void list_free(list);
bool list_same(list, list);

/* ---- numbers ---- */

uint64_t random_bits(void);         /* a fixed sequence */
double random_unit(void);           /* between -1 and 1 */
double from_bits(uint64_t);
uint64_t to_bits(double);
double any_nan(void);               /* any sign, quiet or signalling, any payload */
void fill_any(memory);              /* any bits: NaNs of all kinds, infinities, subnormals */

/* ---- counting ---- */

void group(const char *name);       /* ends the group before it: a group with no failure is one passed */
bool expect(bool ok, const char *format, ...);
int finish(void);                   /* prints 'N passed, M failed'; the exit status */

bool same_shape(metsovary_shape, metsovary_shape);
bool same_answer(metsovary_result, metsovary_result);   /* all but the shape */
bool same_result(metsovary_result, metsovary_result);
bool expect_result(const char *what, metsovary_shape handed, metsovary_result got, metsovary_result wanted);

/* Runs a call of the engine and of the reference on copies of the same memory and compares results and all memory. */
typedef metsovary_result (*matrix_call)(metsovary_shape, double *, size_t, double *, size_t);
metsovary_result compare_rearrange(enum layout from, enum layout to, metsovary_shape, memory matrix, memory work);
metsovary_result compare_factor(enum layout, metsovary_shape, memory matrix, memory work);
metsovary_result compare_solve(enum layout, metsovary_shape, uint64_t m, memory matrix, memory x, memory work);
metsovary_result compare_variance(enum layout, metsovary_shape, uint64_t unknown, memory matrix, memory work);
metsovary_result compare_convert(enum way, metsovary_shape, uint64_t form, memory source, memory target);
metsovary_result compare_strike(metsovary_shape, list, memory matrix);

#endif
