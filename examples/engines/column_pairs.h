/* Two columns of a database worked row by row, at the cost of their runs and by stretches; each answer is an encoding.
 * A database keeps no booleans here: a truth is a number, 1 or 0 as an answer, and any number but 0 is true as an
 * argument. Next to what is said all but the last may be refused as INTERRUPTED. */
#ifndef HIVEVIGIL_COLUMN_PAIRS_H
#define HIVEVIGIL_COLUMN_PAIRS_H
#include "float_columns.h"
#include "row_builder.h"

/* What hv_combine answers of two columns of numbers, texts or bytes: numbers; of floats only comparisons. One of only
 * null goes with every type. 12 or 13 where the operator does not serve the type, 12 for two types, 11 (left, right),
 * 14 (row), 21. */
int32_t columns_combine(const hv_column *left, uint8_t operator_, const hv_column *right, nan_order nans,
                        hv_column *out, hv_error *error);

/* 1 for 0, 0 for any other number, null for null; 12 for a column of texts or bytes, 21. */
int32_t column_not(const hv_column *column, hv_column *out, hv_error *error);

/* The rows at which the mask is true; 12 for a mask of texts or bytes, 10 (mask, length), 21. */
int32_t column_where(const hv_column *column, const hv_column *mask, hv_column *out, hv_error *error);

/* The value in each of these rows; 12 for a text that is not UTF-8, 21. */
int32_t column_of_value(const row_value *value, size_t rows, hv_column *out, hv_error *error);

#endif
