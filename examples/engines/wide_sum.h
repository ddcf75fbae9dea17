/* The sum of all numbers of columns, exact, in whichever order they come: neither a row nor a column on the way leaves a
 * range. */
#ifndef HIVEVIGIL_WIDE_SUM_H
#define HIVEVIGIL_WIDE_SUM_H
#include "hivevigil.h"
#include <stdbool.h>

/* 192 bits in two's complement, the lowest first, and whether a row was added that is not null. */
typedef struct wide_sum {
    uint64_t limbs[3];
    bool any;
} wide_sum;

/* Adds the rows of a column of fewer than 2^63 rows, by its runs; of only null none. 12 for texts or bytes, INTERRUPTED,
 * 21, and then the sum is what it was. */
int32_t wide_sum_add(wide_sum *sum, const hv_column *column, hv_error *error);

/* The sum as a number of 64 bits; false where it is none. */
bool wide_sum_number(const wide_sum *sum, int64_t *number);

/* The sum of one column, which has 128 bits: high * 2^64 + low. */
hv_pair wide_sum_pair(const wide_sum *sum);

#endif
