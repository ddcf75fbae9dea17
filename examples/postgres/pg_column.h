/* What the parts of the extension share.
 *
 * PostgreSQL leaves a function by a long jump where it raises an error. So no function raises one, nor asks PostgreSQL
 * for memory that may be refused by one, while it holds memory of malloc's or a column of the library's: what is held
 * is freed first. What outlives a call (the rows of an aggregate) is freed with the memory context that it belongs to.
 * A statement that is cancelled ends a call between two stretches of a column (stretches.h), in the same way.
 */
#ifndef HIVEVIGIL_PG_COLUMN_H
#define HIVEVIGIL_PG_COLUMN_H
#include "postgres.h"

#include "column_bytes.h"
#include "fmgr.h"
#include "run_filter.h"
#include "stretches.h"

/* A function that SQL calls; its arguments are the macros' `fcinfo`. */
#define HV_FUNCTION(name)                                                                                              \
    PG_FUNCTION_INFO_V1(name);                                                                                         \
    Datum name(PG_FUNCTION_ARGS)

/* "numbers", "texts", "bytes", "real" or "double precision": what a column of this type holds. */
const char *hv_words_of(hv_kind kind);

/* Raises this refusal, in a sentence after the function's name; returns where there is none. */
void hv_raise(const char *function, int32_t answer, const hv_error *error);

/* The column of an argument, or the error that it is none. */
void hv_column_of(const char *function, bytea *bytes, hv_column *out);

/* The same with its logical type, whose name is borrowed of the bytes. */
void hv_typed_of(const char *function, bytea *bytes, hv_column *out, logical_type *type);

/* The same of an hvfloat4 or an hvfloat8, of which one of only null may have been written as numbers. */
void hv_floats_of(const char *function, bytea *bytes, hv_column *out);

/* A float of this kind, ROW_FLOAT32 or ROW_FLOAT64, by its bits, as what SQL has; and the other way. */
Datum hv_float_datum(uint8_t kind, uint64_t bits);
row_value hv_float_value(uint8_t kind, Datum number);

/* The number of an operator, whose label the enum has. */
uint8_t hv_operator_of(Datum label);

/* The bytes of a column, or of an encoding, as PostgreSQL's, or the error; the column is freed. A logical type may be
 * null. */
bytea *hv_bytes_of_column(const char *function, hv_column *column);
bytea *hv_bytes_of_typed(const char *function, hv_column *column, const logical_type *type);
bytea *hv_bytes_of_encoding(const char *function, hv_column *runs, const logical_type *type);

/* The bytes of a text as PostgreSQL's, or the error that it cannot be one. */
text *hv_text_of(const char *function, const uint8_t *bytes, size_t len);

/* A text of PostgreSQL's, which has to be UTF-8, as a row of a column. */
row_value hv_value_of_text(const char *function, text *value);

/* An argument that is a bigint or null, an integer of another width or null, a text or null, as a row of a column. */
row_value hv_number_of(FunctionCallInfo fcinfo, int at);
row_value hv_integer_of(FunctionCallInfo fcinfo, int at);
row_value hv_smallint_of(FunctionCallInfo fcinfo, int at);
row_value hv_text_or_null(const char *function, FunctionCallInfo fcinfo, int at);

/* Adds `count` rows of a value to the rows of an aggregate, which are answered; its name is for a refusal. */
Datum hv_added(FunctionCallInfo fcinfo, const char *function, const row_value *value, uint64_t count);

/* The number of a day, a time of a day, a time or a length of time, in days or microseconds, as what SQL has. */
Datum hv_date_datum(const char *function, int64 number);
Datum hv_time_datum(const char *function, int64 number);
Datum hv_timestamp_datum(const char *function, int64 number);
Datum hv_interval_datum(const char *function, int64 number);

/* A count of rows, which is an argument. */
uint64_t hv_count_of(const char *function, FunctionCallInfo fcinfo, int at);

/* The column of an argument with `count` rows of a value after it. */
Datum hv_appended(FunctionCallInfo fcinfo, const row_value *value);

/* The rows of a column as numbers of another logical type, or the error; the column is freed. */
void hv_recounted(const char *function, hv_column *column, const logical_type *from, const logical_type *to,
                  hv_column *out);

/* Raises that a row leaves the range of bigint. */
void hv_raise_range(const char *function, uint64_t row);

#endif
