/* Time stamps, or any numbers, as steps: each row that is not null has its difference to the one before, the first one
 * its own number. Times at regular steps are one number and one run. A null is a null of both.
 *
 * All of it by runs, for a column of any form; 12 for one of texts or bytes, 14 (row) for the first row whose number is
 * not one of 64 bits, TOO_MANY_RUNS, INTERRUPTED, 21. */
#ifndef HIVEVIGIL_RUN_STEPS_H
#define HIVEVIGIL_RUN_STEPS_H
#include "hivevigil.h"

/* An answer of more than 2^26 runs, which is a gigabyte of memory: a few bytes may say that there are 2^60 steps. */
enum { TOO_MANY_RUNS = 1000, MOST_RUNS = 1 << 26 };

/* Buckets of numbers: each begins at origin + k * width, for a whole k, and a bucket is named by where it begins. The
 * width is above 0. */
typedef struct bucket_grid { int64_t width, origin; } bucket_grid;

int32_t column_steps(const hv_column *column, hv_column *out, hv_error *error);

/* The column that has these steps: a row is the sum of all steps up to it. Each row of a step other than 0 is a run. */
int32_t column_totals(const hv_column *steps, hv_column *out, hv_error *error);

/* The bucket of each row. */
int32_t column_buckets(const hv_column *column, bucket_grid grid, hv_column *out, hv_error *error);

/* The bucket of each row of column_totals, which is not made: the cost goes by the runs of steps and of the answer. */
int32_t column_step_buckets(const hv_column *steps, bucket_grid grid, hv_column *out, hv_error *error);

#endif
