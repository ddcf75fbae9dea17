/* What the parts of the extension share. */
#ifndef HIVEVIGIL_SQLITE_COLUMN_H
#define HIVEVIGIL_SQLITE_COLUMN_H
#include <sqlite3ext.h>
#ifndef SQLITE_CORE
extern const sqlite3_api_routines *sqlite3_api; /* is in functions.c */
#endif
#include "../engines/column_bytes.h"
#include "../engines/run_filter.h"
#include <stdbool.h>

/* "an integer", "a text" .. of the type of an SQL value */
const char *type_in_words(int type);

/* "integers", "real numbers", "texts" or "blobs" of the kind of a value, or of the type of a column */
const char *kind_in_words(uint8_t kind);

extern const char not_utf8[];

/* A refusal as a sentence after the function's name, in memory of sqlite3_malloc; null where memory is refused. */
char *refusal(const char *function, int32_t answer, const hv_error *error);

/* The column that a blob is; if it is none, false and the reason as with `refusal`, or null. */
bool column_of(const char *function, sqlite3_value *value, hv_column *out, char **reason);

/* The same with its logical type, whose name is borrowed of the blob. */
bool typed_column_of(const char *function, sqlite3_value *value, hv_column *out, logical_type *type, char **reason);

/* The SQL value as a row of a column. */
row_value row_value_of(sqlite3_value *from);

/* A row that the library shows, with its text; an unsigned number is a float by its bits. */
row_value row_value_shown(const hv_value *found, const uint8_t *text);

/* What real numbers are compared with, which is an integer or a real number. */
float_question question_of_number(uint8_t operator_, sqlite3_value *number);

void answer_value(sqlite3_context *context, const row_value *value);

/* Answers the bytes of a column, encoded; a logical type may be null. */
void answer_column(sqlite3_context *context, const char *function, const hv_column *column, const logical_type *type);

/* Answers the bytes of an encoding, which may be changed. */
void answer_encoding(sqlite3_context *context, const char *function, hv_column *runs, const logical_type *type);

/* Answers the rows of an aggregate, which are in SQLite's memory for it as a row_builder, and frees them. It is called
 * where a statement ends early too. The function's data is its name. */
void finish_rows(sqlite3_context *context);

/* Ends the call with this refusal. */
void refuse(sqlite3_context *context, const char *function, int32_t answer, const hv_error *error);

/* Ends the call with this sentence, which is freed, or as out of memory where it is null. */
void fail(sqlite3_context *context, char *reason);

/* The functions of two columns. */
int register_pairs(sqlite3 *db);

/* hv_append, and the aggregates hv_repeat and hv_sum_all. */
int register_appends(sqlite3 *db);

/* hv_steps, hv_totals, hv_buckets, hv_step_buckets, hv_cast, hv_logical_type. */
int register_steps(sqlite3 *db);

/* The table-valued functions hv_runs and hv_groups. */
int register_runs_table(sqlite3 *db);
int register_groups_table(sqlite3 *db);

#endif
