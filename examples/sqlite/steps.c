/* Times, or any integers, as steps from row to row, the buckets in which they lie, and the logical type that says in
 * which unit they count. */
#include "../engines/run_steps.h"
#include "sqlite_column.h"

/* Why a column is not converted, in a sentence, or null where memory ran out. */
static char *why(const char *function, int32_t answer, const hv_error *error, const hv_column *column) {
    if (answer == HV_CAST_OUT_OF_RANGE)
        return sqlite3_mprintf("%s: integer overflow in row %llu", function, (unsigned long long)error->first);
    if (answer == HV_TYPE_MISMATCH)
        return sqlite3_mprintf("%s: this is not a column of integers, but of %s", function,
                               kind_in_words(hv_kind_of(column).number));
    if (answer == TOO_MANY_RUNS) return sqlite3_mprintf("%s: an answer of more than %d runs", function, MOST_RUNS);
    return refusal(function, answer, error);
}

/* What is made of a column. */
typedef struct conversion {
    const char *name;
    int32_t (*convert)(const hv_column *column, hv_column *out, hv_error *error);
    int32_t (*find)(const hv_column *column, bucket_grid grid, hv_column *out, hv_error *error);
} conversion;

static void answer_made(sqlite3_context *context, const conversion *called, sqlite3_value *from, bucket_grid grid) {
    hv_column column = HV_EMPTY, made = HV_EMPTY;
    logical_type type;
    hv_error error = {0, 0, 0};
    char *reason = NULL;
    if (!typed_column_of(called->name, from, &column, &type, &reason)) {
        fail(context, reason);
        return;
    }
    const int32_t answer = called->find ? called->find(&column, grid, &made, &error)
                                        : called->convert(&column, &made, &error);
    if (answer) fail(context, why(called->name, answer, &error, &column));
    else answer_encoding(context, called->name, &made, called->find ? &type : NULL); /* a bucket begins at a time */
    hv_free(&column), hv_free(&made);
}

static void ask_conversion(sqlite3_context *context, int count, sqlite3_value **values) {
    const bucket_grid none = {1, 0};
    (void)count;
    if (sqlite3_value_type(values[0]) == SQLITE_NULL) return;
    answer_made(context, sqlite3_user_data(context), values[0], none);
}

/* An integer; false, and an error, where it is none. */
static bool is_integer(sqlite3_context *context, const conversion *called, const char *word, sqlite3_value *given,
                       int64_t *number) {
    const int type = sqlite3_value_numeric_type(given);
    *number = sqlite3_value_int64(given);
    if (type == SQLITE_INTEGER) return true;
    fail(context, sqlite3_mprintf("%s: %s is an integer, and this is %s", called->name, word, type_in_words(type)));
    return false;
}

static void ask_buckets(sqlite3_context *context, int count, sqlite3_value **values) {
    const conversion *called = sqlite3_user_data(context);
    bucket_grid grid = {1, 0};
    if (sqlite3_value_type(values[0]) == SQLITE_NULL) return;
    if (!is_integer(context, called, "a width", values[1], &grid.width)) return;
    if (count == 3 && !is_integer(context, called, "an origin", values[2], &grid.origin)) return;
    if (grid.width > 0) answer_made(context, called, values[0], grid);
    else
        fail(context, sqlite3_mprintf("%s: a width is above 0, and this is %lld", called->name,
                                      (sqlite3_int64)grid.width));
}

/* ---- Logical types ---- */

/* The format of Arrow; NULL for a column without a logical type. */
static void ask_logical_type(sqlite3_context *context, int count, sqlite3_value **values) {
    hv_column column = HV_EMPTY;
    logical_type type;
    char *reason = NULL;
    (void)count;
    if (sqlite3_value_type(values[0]) == SQLITE_NULL) return;
    if (!typed_column_of("hv_logical_type", values[0], &column, &type, &reason)) fail(context, reason);
    else if (is_float_type(hv_kind_of(&column).number)) sqlite3_result_text(context, "g", 1, SQLITE_STATIC);
    else if (type.len)
        sqlite3_result_text64(context, (const char *)type.format, type.len, SQLITE_TRANSIENT, SQLITE_UTF8);
    hv_free(&column);
}

/* A column without a logical type has integers that mean what the type says; an empty name takes a type away. */
static void ask_cast(sqlite3_context *context, int count, sqlite3_value **values) {
    hv_column column = HV_EMPTY, counted = HV_EMPTY;
    logical_type from, to;
    hv_error error = {0, 0, 0};
    char *reason = NULL;
    (void)count;
    if (sqlite3_value_type(values[0]) == SQLITE_NULL || sqlite3_value_type(values[1]) == SQLITE_NULL) return;
    const unsigned char *name = sqlite3_value_text(values[1]);
    if (!name || logical_type_named(name, (size_t)sqlite3_value_bytes(values[1]), &to)) {
        fail(context, name ? sqlite3_mprintf("hv_cast: a logical type is '' or a format of dates and times, as 'tdD' "
                                             "and 'tsu:UTC'")
                           : NULL);
        return;
    }
    if (!typed_column_of("hv_cast", values[0], &column, &from, &reason)) {
        fail(context, reason);
        return;
    }
    const int32_t answer = column_recount(&column, &from, &to, &counted, &error);
    if (answer == HV_TYPE_MISMATCH)
        fail(context, sqlite3_mprintf("hv_cast: the column does not count what the logical type does"));
    else if (answer) refuse(context, "hv_cast", answer, &error);
    else answer_column(context, "hv_cast", &counted, &to);
    hv_free(&column), hv_free(&counted);
}

int register_steps(sqlite3 *db) {
    static const conversion conversions[] = {{"hv_steps", column_steps, NULL}, {"hv_totals", column_totals, NULL}};
    static const conversion buckets[] = {{"hv_buckets", NULL, column_buckets},
                                         {"hv_step_buckets", NULL, column_step_buckets}};
    const int flags = SQLITE_UTF8 | SQLITE_DETERMINISTIC | SQLITE_INNOCUOUS;
    int answer = SQLITE_OK;
    for (int i = 0; !answer && i < 2; i++)
        answer = sqlite3_create_function(db, conversions[i].name, 1, flags, (void *)&conversions[i], ask_conversion,
                                         NULL, NULL);
    for (int i = 0; !answer && i < 4; i++)
        answer = sqlite3_create_function(db, buckets[i / 2].name, 2 + i % 2, flags, (void *)&buckets[i / 2],
                                         ask_buckets, NULL, NULL);
    if (!answer) answer = sqlite3_create_function(db, "hv_cast", 2, flags, NULL, ask_cast, NULL, NULL);
    if (!answer)
        answer = sqlite3_create_function(db, "hv_logical_type", 1, flags, NULL, ask_logical_type, NULL, NULL);
    return answer;
}
