/* Questions to a column of any form that cost runs and not rows, where it has runs. They go by stretches, and what is
 * made is an encoding; next to what is said each may be refused as INTERRUPTED. */
#ifndef HIVEVIGIL_RUN_FILTER_H
#define HIVEVIGIL_RUN_FILTER_H
#include "float_columns.h"
#include "row_builder.h"
#include <stdbool.h>

enum { NO_OPERATOR = 6 };

/* The number of "=", "<>", ">", ">=", "<", "<=" ("==" and "!=" too), NO_OPERATOR for any other text and for null. */
uint8_t operator_number(const char *name);

/* The rows of which `row operator value` holds: none where either is null. The value is of the column's type,
 * as 12 says; 21. */
int32_t column_filter(const hv_column *column, uint8_t operator_, const row_value *value, hv_column *out,
                      hv_error *error);

/* The same of floats and a number. */
int32_t column_filter_floats(const hv_column *column, float_question asked, nan_order nans, hv_column *out,
                             hv_error *error);

/* Row by row whether `float operator number`: 1, 0, or null where the row is; 21. */
int32_t column_compare_floats(const hv_column *column, float_question asked, nan_order nans, hv_column *out,
                              hv_error *error);

/* How many rows are not null; 21. */
int32_t column_valid_rows(const hv_column *column, uint64_t *rows, hv_error *error);

/* The first row that is not null, or the last; any row where all are null. 8 of no rows, 21. */
int32_t column_valid_row(const hv_column *column, bool last, size_t *row, hv_error *error);

/* The row with which the sum of a column of signed numbers of 64 bits leaves their range, for one of which hv_sum says that
 * it does; 21. */
int32_t column_overflow_row(const hv_column *column, uint64_t *row, hv_error *error);

#endif
