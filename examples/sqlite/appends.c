/* hv_append: rows at the end of a column. hv_repeat: a column of values, each as often as it is said. hv_sum_all: the
 * exact sum of columns. */
#include "../engines/float_total.h"
#include "../engines/wide_sum.h"
#include "sqlite_column.h"
#include <string.h>

/* A count of rows; false, and an error, where it is not an integer from 0 on. */
static bool is_count(sqlite3_context *context, const char *function, sqlite3_value *given, uint64_t *count) {
    const int type = sqlite3_value_numeric_type(given);
    const sqlite3_int64 number = sqlite3_value_int64(given);
    *count = (uint64_t)number;
    if (type == SQLITE_INTEGER && number >= 0) return true;
    fail(context, type == SQLITE_INTEGER
                      ? sqlite3_mprintf("%s: a count of rows is not negative, and this is %lld", function, number)
                      : sqlite3_mprintf("%s: a count of rows is an integer, and this is %s", function,
                                        type_in_words(type)));
    return false;
}

/* Says that a value is none of the column's; a text may be one but for its bytes. */
static char *why_not(const char *function, uint8_t kind, sqlite3_value *value) {
    const int type = sqlite3_value_type(value);
    if (type == SQLITE_TEXT && (kind == HV_UTF8 || kind == HV_TEXT || kind == HV_NULL))
        return sqlite3_mprintf("%s: %s", function, not_utf8);
    return sqlite3_mprintf("%s: a column of %s takes no %s", function,
                           kind == HV_NULL ? "integers, real numbers, texts or blobs" : kind_in_words(kind),
                           type == SQLITE_FLOAT     ? "real number"
                           : type == SQLITE_INTEGER ? "integer"
                           : type == SQLITE_TEXT    ? "text"
                                                    : "blob");
}

/* The type of a column, or HV_NULL of one of only null, which takes a value of any. */
static uint8_t kind_of(const hv_column *column) {
    hv_error error;
    uint8_t is_null = 0;
    return !column_is_null_alone(column, &is_null, &error) && is_null ? HV_NULL : hv_kind_of(column).number;
}

static void ask_append(sqlite3_context *context, int count, sqlite3_value **values) {
    hv_column column = HV_EMPTY, runs = HV_EMPTY;
    logical_type type;
    hv_error error = {0, 0, 0};
    char *reason = NULL;
    uint64_t rows;
    (void)count;
    if (sqlite3_value_type(values[0]) == SQLITE_NULL || !is_count(context, "hv_append", values[2], &rows)) return;
    if (!typed_column_of("hv_append", values[0], &column, &type, &reason)) {
        fail(context, reason);
        return;
    }
    const row_value value = row_value_of(values[1]);
    const int32_t answer = column_append(&column, &value, rows, &runs, &error);
    if (answer == HV_TYPE_MISMATCH) fail(context, why_not("hv_append", kind_of(&column), values[1]));
    else if (answer) refuse(context, "hv_append", answer, &error);
    else answer_encoding(context, "hv_append", &runs, &type);
    hv_free(&column), hv_free(&runs);
}

/* ---- Values and how often each comes ---- */

static void repeat_step(sqlite3_context *context, int count, sqlite3_value **values) {
    row_builder *rows = sqlite3_aggregate_context(context, sizeof *rows);
    hv_error error = {0, 0, 0};
    uint64_t times;
    (void)count;
    if (!rows) {
        sqlite3_result_error_nomem(context);
        return;
    }
    if (!is_count(context, "hv_repeat", values[1], &times)) return;
    const row_value value = row_value_of(values[0]);
    const int32_t answer = row_builder_add(rows, &value, times, &error);
    if (answer == HV_TYPE_MISMATCH) fail(context, why_not("hv_repeat", rows->kind, values[0]));
    else if (answer) refuse(context, "hv_repeat", answer, &error);
}

/* ---- Sums ---- */

/* The sum of columns of integers, or of real numbers; until a row is not NULL, neither. */
typedef struct sum_of_all {
    wide_sum integers;
    float_total floats;
} sum_of_all;

/* Adds a column that goes with those before, which 12 says that it does not. */
static int32_t add_column(sum_of_all *sum, const hv_column *column, hv_error *error) {
    const bool are_floats = is_float_type(hv_kind_of(column).number);
    uint8_t is_null = 0;
    const int32_t answer = column_is_null_alone(column, &is_null, error);
    if (answer || is_null) return answer;
    if (are_floats ? sum->integers.any : sum->floats.any) return HV_TYPE_MISMATCH;
    return are_floats ? float_total_add(&sum->floats, column, error) : wide_sum_add(&sum->integers, column, error);
}

/* Says why a column is not added. */
static char *why_not_added(const sum_of_all *sum, uint8_t kind) {
    if (kind == HV_I64 || is_float_type(kind))
        return sqlite3_mprintf("hv_sum_all: a column of %s after columns of %s", kind_in_words(kind),
                               kind_in_words(sum->floats.any ? ROW_FLOAT64 : HV_SIGNED));
    return sqlite3_mprintf("hv_sum_all: only numbers are added, and this is a column of %s", kind_in_words(kind));
}

static void sum_step(sqlite3_context *context, int count, sqlite3_value **values) {
    sum_of_all *sum = sqlite3_aggregate_context(context, sizeof *sum);
    hv_column column = HV_EMPTY;
    hv_error error = {0, 0, 0};
    char *reason = NULL;
    (void)count;
    if (!sum) {
        sqlite3_result_error_nomem(context);
        return;
    }
    if (sqlite3_value_type(values[0]) == SQLITE_NULL) return;
    if (!column_of("hv_sum_all", values[0], &column, &reason)) {
        fail(context, reason);
        return;
    }
    const int32_t answer = add_column(sum, &column, &error);
    if (answer == HV_TYPE_MISMATCH) fail(context, why_not_added(sum, hv_kind_of(&column).number));
    else if (answer) refuse(context, "hv_sum_all", answer, &error);
    hv_free(&column);
}

static void finish_sum(sqlite3_context *context) {
    const sum_of_all *sum = sqlite3_aggregate_context(context, 0);
    int64_t number;
    if (sum && sum->floats.any) sqlite3_result_double(context, float_of_bits(float_total_bits(&sum->floats)));
    else if (!sum || !sum->integers.any) return;
    else if (wide_sum_number(&sum->integers, &number)) sqlite3_result_int64(context, number);
    else fail(context, sqlite3_mprintf("hv_sum_all: integer overflow"));
}

int register_appends(sqlite3 *db) {
    const int flags = SQLITE_UTF8 | SQLITE_DETERMINISTIC | SQLITE_INNOCUOUS;
    int answer = sqlite3_create_function(db, "hv_append", 3, flags, NULL, ask_append, NULL, NULL);
    if (!answer)
        answer = sqlite3_create_function(db, "hv_repeat", 2, flags, "hv_repeat", NULL, repeat_step, finish_rows);
    return answer ? answer : sqlite3_create_function(db, "hv_sum_all", 1, flags, NULL, NULL, sum_step, finish_sum);
}
