/* Buckets of floats: each begins at origin + k * width, for a whole k, and a bucket is named by where it begins, the
 * number that is rounded once. By runs, for a column of any form, in bits, as float_columns.h has them. */
#ifndef HIVEVIGIL_FLOAT_BUCKETS_H
#define HIVEVIGIL_FLOAT_BUCKETS_H
#include "hivevigil.h"

/* Both are finite, and the width is above 0. */
typedef struct float_grid { double width, origin; } float_grid;

/* The bucket of each row of floats of 64 bits, in as few runs as possible: the last one that does not begin above it.
 * Null stays null, and so do infinities and NaNs. 14 (row) for the first row that is further from the origin than the
 * finite numbers reach; INTERRUPTED, 21. */
int32_t float_column_buckets(const hv_column *column, float_grid grid, hv_column *out, hv_error *error);

#endif
