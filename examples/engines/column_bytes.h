/* Columns of a database as bytes: messages of docs/column.proto, written and read by the library. They keep a logical
 * type (logical_types.h), and that of floats (float_columns.h). */
#ifndef HIVEVIGIL_COLUMN_BYTES_H
#define HIVEVIGIL_COLUMN_BYTES_H
#include "logical_types.h"

/* The column's rows in the fewest runs with the least ends, null by bits where a row is null, and only null as
 * numbers, so that equal rows of one type are equal bytes. They go to memory of malloc's, which is the caller's to free.
 * The logical type is in the message, over the numbers that it is stored in, unless it is null; rows that are only null,
 * floats, or of another sort have none. PAST_LOGICAL_TYPE (row), 13 for lists, 21. */
int32_t column_bytes_write(const hv_column *column, const logical_type *type, uint8_t **bytes, size_t *size,
                           hv_error *error);

/* The same of an encoding, which needs no other and may be gone after. */
int32_t encoding_bytes_write(hv_column *runs, const logical_type *type, uint8_t **bytes, size_t *size,
                             hv_error *error);

/* The column that the bytes are, in the form in which it was written, or encoded, whoever wrote it: texts, bytes, or
 * integers of any type, which are signed numbers of 64 bits then, as booleans are; floats as their bits. Its logical type, which is
 * borrowed of the bytes, goes to `type`, unless that is null: none for floats and booleans. 17 where they are none, also
 * where a type of floats is not of such keys, 13 for rows of another type, 14 for a number past 2^63, 21. */
int32_t column_bytes_read(const uint8_t *bytes, size_t size, hv_column *out, logical_type *type, hv_error *error);

/* The column as one of another type, as hv_cast, in memory by runs: a constant becomes one run before, since a constant
 * that is cast has each row written out. */
int32_t column_cast(const hv_column *column, const hv_kind *kind, hv_column *out, hv_error *error);

/* Booleans as numbers, by their runs: 1, 0 and null. */
int32_t column_of_truths(const hv_column *truths, hv_column *out, hv_error *error);

/* Is no row other than null? Such a column goes with columns of every type. 13 for lists, INTERRUPTED, 21. */
int32_t column_is_null_alone(const hv_column *column, uint8_t *is_null, hv_error *error);

#endif
