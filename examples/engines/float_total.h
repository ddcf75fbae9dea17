/* The exact sum of the floats of columns, rounded once, in whichever order they come. */
#ifndef HIVEVIGIL_FLOAT_TOTAL_H
#define HIVEVIGIL_FLOAT_TOTAL_H
#include "hivevigil.h"
#include <stdbool.h>

enum { FLOAT_LIMBS = 36 };

/* The finite rows as a number of units of 2^-1074, in two's complement, the lowest limb first; and which rows came. A
 * total that begins as zeros has none. It has no pointers: a copy of its bytes is another. */
typedef struct float_total {
    uint64_t limbs[FLOAT_LIMBS];
    bool any, nan, plus_infinity, minus_infinity, not_minus_zero;
} float_total;

/* Adds the rows of a column of floats of fewer than 2^63 rows, by its runs; of only null none, whatever its type. 12
 * for other rows, INTERRUPTED, 21, and then the total is what it was. */
int32_t float_total_add(float_total *total, const hv_column *column, hv_error *error);

/* Adds all rows of another. */
void float_total_join(float_total *total, const float_total *other);

/* The bits of the sum, as hv_sum has them: a NaN where a row is one or both infinities are rows, an infinity past
 * the finite floats, -0.0 where there are rows and all are -0.0. */
uint64_t float_total_bits(const float_total *total);

/* Is the sum past the finite floats, though each row is finite? */
bool float_total_overflows(const float_total *total);

#endif
