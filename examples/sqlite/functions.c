/* An extension for SQLite: columns in runs, kept as blobs.
 *
 *     SELECT hv_column(level) FROM readings                     aggregate: the rows in their order, as one blob
 *     SELECT hv_column(level, 'integer') FROM readings          the same, refused where a row is of another type
 *     SELECT hv_concat(levels) FROM packed                      aggregate: the rows of all blobs, one after the other
 *     SELECT hv_repeat(value, count) FROM runs                  aggregate: each value as often as it is said
 *     SELECT hv_sum_all(levels) FROM packed                     aggregate: the sum of all blobs, in any order
 *     hv_rows(c)  hv_count(c)  hv_sum(c)  hv_min(c)  hv_max(c)  hv_at(c, row)  hv_first(c)  hv_last(c)  hv_type(c)
 *     hv_filter(c, '>', 5)  hv_filter(c, mask)  hv_slice(c, start, stop)      a blob of some of the rows
 *     hv_add(c, d)  hv_subtract(c, d)  hv_multiply(c, d)        a blob of what the two rows at each place give
 *     hv_and(c, d)  hv_or(c, d)  hv_not(c)  hv_compare(c, '<', d)      the same, 1 for true and 0 for false
 *     hv_append(c, value, count)                                a blob with more rows at its end
 *     hv_steps(c)  hv_totals(c)  hv_buckets(c, width)  hv_step_buckets(c, width)      times, and where they lie
 *     hv_logical_type(c)  hv_cast(c, 'tss:')                    what integers mean, and the same times in another unit
 *     SELECT start, stop, value FROM hv_runs(c)                 a row for each run
 *     SELECT key, sum FROM hv_groups(keys, values)              a row for each run of equal keys
 *
 * A column holds integers, real numbers, texts or blobs of one kind, and NULL. A refusal is an SQL error in a
 * sentence. */
#include <sqlite3ext.h>
SQLITE_EXTENSION_INIT1
#include "hivevigil_errors.h"
#include "../engines/stretches.h"
#include "sqlite_column.h"
#include <stdint.h>
#include <stdlib.h>

const char *type_in_words(int type) {
    switch (type) {
    case SQLITE_INTEGER: return "an integer";
    case SQLITE_FLOAT: return "a real number";
    case SQLITE_TEXT: return "a text";
    case SQLITE_BLOB: return "a blob";
    default: return "NULL";
    }
}

/* SQLite asks a function nothing while it runs. */
bool is_interrupted(void) { return false; }

const char *kind_in_words(uint8_t kind) {
    if (kind == ROW_FLOAT64 || kind == HV_U64) return "real numbers";
    return kind == HV_TEXT || kind == HV_UTF8 ? "texts" : kind == HV_BYTES || kind == HV_BINARY ? "blobs" : "integers";
}

static const char too_long[] = "a column of 2^63 rows or more";
const char not_utf8[] = "a text is not UTF-8";

char *refusal(const char *function, int32_t answer, const hv_error *error) {
    char text[HV_ERROR_TEXT];
    const char *why = hv_error_text(answer, error, text);
    if (answer == HV_OUT_OF_MEMORY) return NULL;
    if (answer == HV_BAD_METADATA) why = "the blob is not a column";
    if (answer == HV_WINDOW_OVERFLOW) why = too_long;
    if (answer == HV_UNSUPPORTED) why = "columns of decimals and lists are not served";
    if (answer == HV_CAST_OUT_OF_RANGE) why = "a number of the column is 2^63 or more";
    if (answer == OTHER_LOGICAL_TYPE) why = "columns of two logical types";
    if (answer == PAST_LOGICAL_TYPE)
        return sqlite3_mprintf("%s: row %llu has no number of the logical type", function,
                               (unsigned long long)error->first);
    return sqlite3_mprintf("%s: %s", function, why);
}

bool column_of(const char *function, sqlite3_value *value, hv_column *out, char **reason) {
    return typed_column_of(function, value, out, NULL, reason);
}

bool typed_column_of(const char *function, sqlite3_value *value, hv_column *out, logical_type *type, char **reason) {
    hv_error error = {0, 0, 0};
    const int given = sqlite3_value_type(value);
    *reason = NULL;
    if (given != SQLITE_BLOB) {
        *reason = sqlite3_mprintf("%s: a column is a blob, and this is %s", function, type_in_words(given));
        return false;
    }
    const void *bytes = sqlite3_value_blob(value); /* before its size, which it may change; null for no bytes */
    const size_t size = (size_t)sqlite3_value_bytes(value);
    hv_column read = HV_EMPTY;
    int32_t answer = column_bytes_read(bytes ? bytes : "", size, &read, type, &error);
    if (!answer) answer = float_column_widened(&read, out, &error); /* SQLite has no others */
    hv_free(&read);
    if (answer) {
        *reason = refusal(function, answer, &error);
    } else if (hv_length(out) > INT64_MAX) {
        hv_free(out);
        *reason = sqlite3_mprintf("%s: %s", function, too_long);
        return false;
    }
    return !answer;
}

void fail(sqlite3_context *context, char *reason) {
    if (reason) sqlite3_result_error(context, reason, -1);
    else sqlite3_result_error_nomem(context);
    sqlite3_free(reason);
}

void refuse(sqlite3_context *context, const char *function, int32_t answer, const hv_error *error) {
    fail(context, refusal(function, answer, error));
}

void answer_encoding(sqlite3_context *context, const char *function, hv_column *runs, const logical_type *type) {
    hv_error error = {0, 0, 0};
    uint8_t *bytes = NULL;
    size_t size = 0;
    const int32_t answer = encoding_bytes_write(runs, type, &bytes, &size, &error);
    if (answer == HV_TYPE_MISMATCH) fail(context, sqlite3_mprintf("%s: %s", function, not_utf8)); /* a name */
    else if (answer) refuse(context, function, answer, &error);
    else sqlite3_result_blob64(context, bytes, size, free);
}

void answer_column(sqlite3_context *context, const char *function, const hv_column *column, const logical_type *type) {
    hv_error error = {0, 0, 0};
    hv_column runs = HV_EMPTY;
    const int32_t answer = encoded_by_stretches(column, &runs, &error);
    if (answer) refuse(context, function, answer, &error);
    else answer_encoding(context, function, &runs, type);
    hv_free(&runs);
}

row_value row_value_of(sqlite3_value *from) {
    row_value value = {HV_NULL, 0, NULL, 0};
    switch (sqlite3_value_type(from)) {
    case SQLITE_INTEGER:
        value.kind = HV_SIGNED;
        value.number = sqlite3_value_int64(from);
        break;
    case SQLITE_FLOAT:
        value.kind = ROW_FLOAT64;
        value.number = (int64_t)bits_of_float(sqlite3_value_double(from));
        break;
    case SQLITE_TEXT:
        value.kind = HV_TEXT;
        value.bytes = sqlite3_value_text(from);
        value.len = (size_t)sqlite3_value_bytes(from);
        break;
    case SQLITE_BLOB:
        value.kind = HV_BYTES;
        value.bytes = sqlite3_value_blob(from);
        value.len = (size_t)sqlite3_value_bytes(from);
        break;
    default: break;
    }
    return value;
}

row_value row_value_shown(const hv_value *found, const uint8_t *text) {
    row_value value = {found->kind, found->as_signed, text, (size_t)found->as_unsigned};
    if (found->kind == HV_UNSIGNED) value.kind = ROW_FLOAT64, value.number = (int64_t)found->as_unsigned;
    return value;
}

float_question question_of_number(uint8_t operator_, sqlite3_value *number) {
    const float_question asked = {sqlite3_value_double(number), operator_};
    return sqlite3_value_type(number) == SQLITE_INTEGER ? float_question_of(operator_, sqlite3_value_int64(number))
                                                        : asked;
}

/* hv_column and hv_concat: the rows so far are in SQLite's memory for the aggregate, which begins as zeros. */

/* The kind of values that a type of SQL's typeof() names, in any letters; HV_NULL for every other word. */
static uint8_t kind_by_name(sqlite3_value *name) {
    static const struct {
        const char *name;
        uint8_t kind;
    } kinds[] = {{"integer", HV_SIGNED}, {"real", ROW_FLOAT64}, {"text", HV_TEXT}, {"blob", HV_BYTES}};
    const char *asked = (const char *)sqlite3_value_text(name);
    for (size_t i = 0; asked && i < sizeof kinds / sizeof *kinds; i++)
        if (sqlite3_stricmp(asked, kinds[i].name) == 0) return kinds[i].kind;
    return HV_NULL;
}

/* The kind that a second argument asks for, HV_NULL where there is none; false, and an error, where it names no type or
 * another than that of the rows before. */
static bool is_asked(sqlite3_context *context, const row_builder *rows, int count, sqlite3_value **values,
                     uint8_t *kind) {
    *kind = count == 2 ? kind_by_name(values[1]) : HV_NULL;
    if (count == 2 && *kind == HV_NULL) {
        fail(context, sqlite3_mprintf("hv_column: a type is one of 'integer', 'real', 'text' and 'blob'"));
        return false;
    }
    if (*kind == HV_NULL || rows->kind == HV_NULL || *kind == rows->kind) return true;
    fail(context, sqlite3_mprintf("hv_column: row %llu asks for %s, and the rows before it are %s",
                                  (unsigned long long)rows->rows, kind_in_words(*kind), kind_in_words(rows->kind)));
    return false;
}

static void column_step(sqlite3_context *context, int count, sqlite3_value **values) {
    row_builder *rows = sqlite3_aggregate_context(context, sizeof *rows);
    hv_error error = {0, 0, 0};
    uint8_t kind;
    if (!rows) {
        sqlite3_result_error_nomem(context);
        return;
    }
    if (!is_asked(context, rows, count, values, &kind)) return;
    if (kind == HV_NULL) kind = rows->kind;
    const row_value value = row_value_of(values[0]);
    if (kind && value.kind && value.kind != kind) {
        fail(context, sqlite3_mprintf("hv_column: row %llu is %s, and %s holds %s", (unsigned long long)rows->rows,
                                      type_in_words(sqlite3_value_type(values[0])),
                                      count == 2 ? "the column that is asked for" : "a column", kind_in_words(kind)));
        return;
    }
    const int32_t answer = row_builder_add(rows, &value, 1, &error);
    if (answer == HV_TYPE_MISMATCH)
        fail(context, sqlite3_mprintf("hv_column: row %llu is a text that is not UTF-8",
                                      (unsigned long long)rows->rows));
    else if (answer) refuse(context, "hv_column", answer, &error);
}

static void concat_step(sqlite3_context *context, int count, sqlite3_value **values) {
    row_builder *rows = sqlite3_aggregate_context(context, sizeof *rows);
    hv_error error = {0, 0, 0};
    hv_column column = HV_EMPTY;
    logical_type type;
    char *reason = NULL;
    (void)count;
    if (!rows) {
        sqlite3_result_error_nomem(context);
        return;
    }
    if (sqlite3_value_type(values[0]) == SQLITE_NULL) return;
    if (!typed_column_of("hv_concat", values[0], &column, &type, &reason)) {
        fail(context, reason);
        return;
    }
    const int32_t answer = row_builder_add_typed(rows, &column, &type, &error);
    if (answer == HV_TYPE_MISMATCH)
        fail(context, sqlite3_mprintf("hv_concat: a column of %s after columns of %s",
                                      kind_in_words(hv_kind_of(&column).number), kind_in_words(rows->kind)));
    else if (answer) refuse(context, "hv_concat", answer, &error);
    hv_free(&column);
}

void finish_rows(sqlite3_context *context) {
    row_builder nothing = ROW_BUILDER_EMPTY, *rows = sqlite3_aggregate_context(context, 0);
    hv_error error = {0, 0, 0};
    hv_column runs = HV_EMPTY;
    if (!rows) rows = &nothing;
    const int32_t answer = rows->rows > INT64_MAX ? HV_WINDOW_OVERFLOW : row_builder_finish(rows, &runs, &error);
    if (answer) refuse(context, sqlite3_user_data(context), answer, &error);
    else answer_encoding(context, sqlite3_user_data(context), &runs, &rows->type);
    row_builder_free(rows);
    hv_free(&runs);
}

void answer_value(sqlite3_context *context, const row_value *value) {
    const char *bytes = value->len ? (const char *)value->bytes : "";
    switch (value->kind) {
    case HV_SIGNED: sqlite3_result_int64(context, value->number); break;
    case ROW_FLOAT64: sqlite3_result_double(context, float_of_bits((uint64_t)value->number)); break;
    case HV_TEXT: sqlite3_result_text64(context, bytes, value->len, SQLITE_TRANSIENT, SQLITE_UTF8); break;
    case HV_BYTES: sqlite3_result_blob64(context, bytes, value->len, SQLITE_TRANSIENT); break;
    default: sqlite3_result_null(context);
    }
}

/* Questions to one column. A NULL in place of a column is answered NULL. */

/* What a question is asked with. */
typedef struct question {
    sqlite3_context *context;
    hv_column *column;
    const logical_type *type;
    sqlite3_value **values;
    hv_session session;
    hv_error error;
    size_t row; /* that is looked at */
} question;

/* A refusal in words, after which the call has answered. */
static int32_t say(question *asked, char *sentence) {
    fail(asked->context, sentence);
    return HV_OK;
}

static int32_t ask_rows(question *asked) {
    sqlite3_result_int64(asked->context, (sqlite3_int64)hv_length(asked->column));
    return HV_OK;
}

static int32_t ask_count(question *asked) {
    uint64_t rows = 0;
    const int32_t answer = column_valid_rows(asked->column, &rows, &asked->error);
    if (!answer) sqlite3_result_int64(asked->context, (sqlite3_int64)rows);
    return answer;
}

/* The refusal of a sum that leaves the range of 64 bits, in SQLite's words and with the row. */
static int32_t say_overflow(question *asked) {
    uint64_t row = 0;
    const int32_t answer = column_overflow_row(asked->column, &row, &asked->error);
    if (answer) return answer;
    return say(asked, sqlite3_mprintf("hv_sum: integer overflow with row %llu", (unsigned long long)row));
}

/* A NaN is answered NULL, since SQLite has none. */
static int32_t ask_float_sum(question *asked) {
    uint64_t count = 0, bits = 0;
    const int32_t answer = float_column_sum(asked->column, NAN_UNORDERED, &count, &bits, &asked->error);
    if (!answer && count) sqlite3_result_double(asked->context, float_of_bits(bits));
    return answer;
}

static int32_t ask_sum(question *asked) {
    const uint8_t kind = hv_kind_of(asked->column).number;
    hv_total total;
    if (is_float_type(kind)) return ask_float_sum(asked);
    if (kind != HV_I64)
        return say(asked, sqlite3_mprintf("hv_sum: only numbers are added, and this is a column of %s",
                                          kind_in_words(kind)));
    const int32_t answer = hv_sum(&asked->session, asked->column, &total, &asked->error);
    if (answer) return answer;
    if (total.kind == HV_NULL) return say_overflow(asked);
    if (!total.empty) sqlite3_result_int64(asked->context, total.as_signed);
    return HV_OK;
}

/* A row of the library's, whose text is asked for again with room for it. */
typedef int32_t look(question *asked, hv_value *value, uint8_t *text, size_t len);

static int32_t answer_look(question *asked, look *at) {
    uint8_t few[64], *text = few;
    hv_value found;
    int32_t answer = at(asked, &found, few, sizeof few);
    if (answer == HV_COLUMN_LENGTH) {
        const size_t len = (size_t)asked->error.first;
        text = malloc(len);
        answer = text ? at(asked, &found, text, len) : HV_OUT_OF_MEMORY;
    }
    if (!answer) {
        const row_value value = row_value_shown(&found, text);
        answer_value(asked->context, &value);
    }
    if (text != few) free(text);
    return answer;
}

static int32_t look_least(question *asked, hv_value *value, uint8_t *text, size_t len) {
    return hv_extreme(&asked->session, asked->column, 0, value, text, len, &asked->error);
}

static int32_t look_greatest(question *asked, hv_value *value, uint8_t *text, size_t len) {
    return hv_extreme(&asked->session, asked->column, 1, value, text, len, &asked->error);
}

static int32_t look_row(question *asked, hv_value *value, uint8_t *text, size_t len) {
    return hv_at(asked->column, asked->row, value, text, len, &asked->error);
}

/* Of real numbers, which leave NaNs out, or of other rows. */
static int32_t ask_extreme(question *asked, look *other, bool greatest) {
    float_extremes found = {false, 0, 0};
    if (!is_float_type(hv_kind_of(asked->column).number)) return answer_look(asked, other);
    const int32_t answer = float_column_extremes(asked->column, NAN_UNORDERED, &found, &asked->error);
    if (!answer && found.found)
        sqlite3_result_double(asked->context, float_of_bits(greatest ? found.greatest : found.least));
    return answer;
}

static int32_t ask_min(question *asked) { return ask_extreme(asked, look_least, false); }
static int32_t ask_max(question *asked) { return ask_extreme(asked, look_greatest, true); }

/* Argument `at` as a number of rows; false, and an error, where it is not an integer. */
static bool is_row(question *asked, const char *name, int at, sqlite3_int64 *row) {
    const int type = sqlite3_value_numeric_type(asked->values[at]);
    *row = sqlite3_value_int64(asked->values[at]);
    if (type == SQLITE_INTEGER) return true;
    say(asked, sqlite3_mprintf("%s: a row is numbered by an integer, and this is %s", name, type_in_words(type)));
    return false;
}

/* NULL for a row that is not there, as of an array in SQL */
static int32_t ask_at(question *asked) {
    sqlite3_int64 row;
    if (sqlite3_value_type(asked->values[1]) == SQLITE_NULL || !is_row(asked, "hv_at", 1, &row)) return HV_OK;
    if (row < 0 || (uint64_t)row >= hv_length(asked->column)) return HV_OK;
    asked->row = (size_t)row;
    return answer_look(asked, look_row);
}

/* The first row that is not NULL, or the last; NULL where there is none. */
static int32_t ask_valid(question *asked, bool last) {
    if (hv_length(asked->column) == 0) return HV_OK;
    const int32_t answer = column_valid_row(asked->column, last, &asked->row, &asked->error);
    return answer ? answer : answer_look(asked, look_row);
}

static int32_t ask_first(question *asked) { return ask_valid(asked, false); }
static int32_t ask_last(question *asked) { return ask_valid(asked, true); }

static int32_t ask_slice(question *asked) {
    sqlite3_int64 start, stop;
    hv_column part = HV_EMPTY;
    if (!is_row(asked, "hv_slice", 1, &start) || !is_row(asked, "hv_slice", 2, &stop)) return HV_OK;
    if (start < 0 || stop < 0)
        return say(asked, sqlite3_mprintf("hv_slice: rows %lld to %lld are not among %lld rows", start, stop,
                                          (sqlite3_int64)hv_length(asked->column)));
    const int32_t answer = hv_slice(&asked->session, asked->column, (size_t)start, (size_t)stop, &part, &asked->error);
    if (!answer) answer_column(asked->context, "hv_slice", &part, asked->type);
    hv_free(&part);
    return answer;
}

/* The refusal of a value that is not of the column's type. */
static int32_t say_not_compared(question *asked, const row_value *value) {
    const uint8_t kind = hv_kind_of(asked->column).number;
    if (kind == HV_UTF8 && value->kind == HV_TEXT) return say(asked, sqlite3_mprintf("hv_filter: %s", not_utf8));
    return say(asked, sqlite3_mprintf("hv_filter: a column of %s is not compared with %s", kind_in_words(kind),
                                      type_in_words(sqlite3_value_type(asked->values[2]))));
}

static int32_t ask_filter(question *asked) {
    const uint8_t operator_ = operator_number((const char *)sqlite3_value_text(asked->values[1]));
    const bool are_floats = is_float_type(hv_kind_of(asked->column).number);
    hv_column kept = HV_EMPTY;
    if (operator_ == NO_OPERATOR) return say(asked, sqlite3_mprintf("hv_filter: an operator is one of = <> > >= < <="));
    const row_value value = row_value_of(asked->values[2]);
    int32_t answer;
    if (are_floats && (value.kind == HV_SIGNED || value.kind == ROW_FLOAT64))
        answer = column_filter_floats(asked->column, question_of_number(operator_, asked->values[2]), NAN_UNORDERED,
                                      &kept, &asked->error);
    else answer = column_filter(asked->column, operator_, &value, &kept, &asked->error);
    if (!answer) answer_encoding(asked->context, "hv_filter", &kept, asked->type);
    if (answer == HV_TYPE_MISMATCH) answer = say_not_compared(asked, &value);
    hv_free(&kept);
    return answer;
}

/* As SQL's typeof of its rows: 'null' where each is. */
static int32_t ask_type(question *asked) {
    const uint8_t kind = hv_kind_of(asked->column).number;
    uint8_t is_null = 0;
    const int32_t answer = column_is_null_alone(asked->column, &is_null, &asked->error);
    const char *type = is_null               ? "null"
                       : is_float_type(kind) ? "real"
                       : kind == HV_UTF8     ? "text"
                       : kind == HV_BINARY   ? "blob"
                                             : "integer";
    if (!answer) sqlite3_result_text(asked->context, type, -1, SQLITE_STATIC);
    return answer;
}

typedef struct function {
    const char *name;
    int arguments;
    int32_t (*ask)(question *asked);
} function;

static const function functions[] = {
    {"hv_rows", 1, ask_rows}, {"hv_count", 1, ask_count}, {"hv_sum", 1, ask_sum},     {"hv_min", 1, ask_min},
    {"hv_max", 1, ask_max},   {"hv_at", 2, ask_at},       {"hv_slice", 3, ask_slice}, {"hv_filter", 3, ask_filter},
    {"hv_first", 1, ask_first}, {"hv_last", 1, ask_last}, {"hv_type", 1, ask_type},
};

static void ask(sqlite3_context *context, int count, sqlite3_value **values) {
    const function *called = sqlite3_user_data(context);
    hv_column column = HV_EMPTY;
    logical_type type;
    char *reason = NULL;
    (void)count;
    if (sqlite3_value_type(values[0]) == SQLITE_NULL) return;
    if (!typed_column_of(called->name, values[0], &column, &type, &reason)) {
        fail(context, reason);
        return;
    }
    question asked = {.context = context, .column = &column, .type = &type, .values = values};
    hv_session_initial(&asked.session);
    const int32_t answer = called->ask(&asked);
    if (answer) refuse(context, called->name, answer, &asked.error);
    hv_free(&column);
}

int sqlite3_hivevigilsqlite_init(sqlite3 *db, char **error, const sqlite3_api_routines *api);

int sqlite3_hivevigilsqlite_init(sqlite3 *db, char **error, const sqlite3_api_routines *api) {
    const int flags = SQLITE_UTF8 | SQLITE_DETERMINISTIC | SQLITE_INNOCUOUS;
    (void)error;
    (void)api;
    SQLITE_EXTENSION_INIT2(api);
    int answer = SQLITE_OK;
    for (int count = 1; !answer && count <= 2; count++)
        answer = sqlite3_create_function(db, "hv_column", count, flags, "hv_column", NULL, column_step, finish_rows);
    if (!answer) answer = sqlite3_create_function(db, "hv_concat", 1, flags, "hv_concat", NULL, concat_step, finish_rows);
    for (size_t i = 0; !answer && i < sizeof functions / sizeof *functions; i++)
        answer = sqlite3_create_function(db, functions[i].name, functions[i].arguments, flags, (void *)&functions[i],
                                         ask, NULL, NULL);
    if (!answer) answer = register_pairs(db);
    if (!answer) answer = register_appends(db);
    if (!answer) answer = register_steps(db);
    if (!answer) answer = register_runs_table(db);
    return answer ? answer : register_groups_table(db);
}
