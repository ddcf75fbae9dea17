/* Two columns worked row by row: hv_add, hv_subtract, hv_multiply, hv_and, hv_or, hv_compare, hv_not, and hv_filter with
 * a mask. A truth is 1 or 0. */
#include "../engines/column_pairs.h"
#include "sqlite_column.h"

/* What a function does to two columns, and how a sentence has it. */
typedef struct pairing {
    const char *name;
    uint8_t operator_;
    const char *done; /* null for a comparison */
} pairing;

static const char *words_of(const hv_column *column) { return kind_in_words(hv_kind_of(column).number); }

/* Returns why two columns are not worked, in a sentence; null where memory ran out. */
static char *why(const pairing *called, int32_t answer, const hv_error *error, const hv_column *left,
                 const hv_column *right) {
    if (answer == HV_CAST_OUT_OF_RANGE)
        return sqlite3_mprintf("%s: integer overflow in row %llu", called->name, (unsigned long long)error->first);
    if (answer != HV_TYPE_MISMATCH && answer != HV_UNSUPPORTED) return refusal(called->name, answer, error);
    if (!called->done)
        return sqlite3_mprintf("%s: a column of %s is not compared with one of %s", called->name, words_of(left),
                               words_of(right));
    const hv_column *other = hv_kind_of(left).number == HV_I64 ? right : left;
    return sqlite3_mprintf("%s: only integers are %s, and this is a column of %s", called->name, called->done,
                           words_of(other));
}

/* An argument as a column: a blob, or a number or a text that is in each of `rows` rows. */
static bool side_of(const char *function, sqlite3_value *value, size_t rows, hv_column *out, char **reason) {
    hv_error error = {0, 0, 0};
    if (sqlite3_value_type(value) == SQLITE_BLOB) return column_of(function, value, out, reason);
    const row_value row = row_value_of(value);
    const int32_t answer = column_of_value(&row, rows, out, &error);
    *reason = NULL;
    if (answer == HV_TYPE_MISMATCH) *reason = sqlite3_mprintf("%s: a text is not UTF-8", function);
    else if (answer) *reason = refusal(function, answer, &error);
    return !answer;
}

/* Both arguments as columns of as many rows where one is a single value. */
static bool sides_of(const char *function, sqlite3_value *left, sqlite3_value *right, hv_column *columns,
                     char **reason) {
    const bool is_left = sqlite3_value_type(left) == SQLITE_BLOB || sqlite3_value_type(right) != SQLITE_BLOB;
    sqlite3_value *const first = is_left ? left : right, *const second = is_left ? right : left;
    hv_column *const lent = &columns[!is_left], *const other = &columns[is_left];
    return column_of(function, first, lent, reason) && side_of(function, second, hv_length(lent), other, reason);
}

/* The comparison that asks the same from the other side. */
static uint8_t from_other_side(uint8_t operator_) {
    static const uint8_t others[] = {HV_EQ, HV_NE, HV_LT, HV_LE, HV_GT, HV_GE};
    return others[operator_];
}

/* What the operator gives of the columns of two arguments. An integer next to real numbers is compared as what it is,
 * and not as the nearest real number. */
static int32_t combined(const pairing *called, sqlite3_value *left, sqlite3_value *right, const hv_column *columns,
                        hv_column *out, hv_error *error) {
    const bool is_comparison = !called->done;
    if (is_comparison && is_float_type(hv_kind_of(&columns[0]).number) && sqlite3_value_type(right) == SQLITE_INTEGER)
        return column_compare_floats(&columns[0], question_of_number(called->operator_, right), NAN_UNORDERED, out,
                                     error);
    if (is_comparison && is_float_type(hv_kind_of(&columns[1]).number) && sqlite3_value_type(left) == SQLITE_INTEGER)
        return column_compare_floats(&columns[1], question_of_number(from_other_side(called->operator_), left),
                                     NAN_UNORDERED, out, error);
    return columns_combine(&columns[0], called->operator_, &columns[1], NAN_UNORDERED, out, error);
}

/* Answers what the operator gives of two arguments. NULL in place of one is answered NULL. */
static void answer_pairs(sqlite3_context *context, const pairing *called, sqlite3_value *left, sqlite3_value *right) {
    hv_column columns[2] = {HV_EMPTY, HV_EMPTY}, out = HV_EMPTY;
    hv_error error = {0, 0, 0};
    char *reason = NULL;
    if (sqlite3_value_type(left) == SQLITE_NULL || sqlite3_value_type(right) == SQLITE_NULL) return;
    bool done = sides_of(called->name, left, right, columns, &reason);
    if (done) {
        const int32_t answer = combined(called, left, right, columns, &out, &error);
        if (answer) reason = why(called, answer, &error, &columns[0], &columns[1]);
        done = !answer;
    }
    if (done) answer_encoding(context, called->name, &out, NULL);
    else fail(context, reason);
    hv_free(&columns[0]), hv_free(&columns[1]), hv_free(&out);
}

static void ask_pairs(sqlite3_context *context, int count, sqlite3_value **values) {
    (void)count;
    answer_pairs(context, sqlite3_user_data(context), values[0], values[1]);
}

static void ask_compare(sqlite3_context *context, int count, sqlite3_value **values) {
    const pairing called = {"hv_compare", operator_number((const char *)sqlite3_value_text(values[1])), NULL};
    (void)count;
    if (called.operator_ == NO_OPERATOR)
        fail(context, sqlite3_mprintf("hv_compare: an operator is one of = <> > >= < <="));
    else answer_pairs(context, &called, values[0], values[2]);
}

static void ask_not(sqlite3_context *context, int count, sqlite3_value **values) {
    static const pairing called = {"hv_not", HV_EQ, "negated"};
    hv_column column = HV_EMPTY, out = HV_EMPTY;
    hv_error error = {0, 0, 0};
    char *reason = NULL;
    (void)count;
    if (sqlite3_value_type(values[0]) == SQLITE_NULL) return;
    bool done = column_of("hv_not", values[0], &column, &reason);
    if (done) {
        const int32_t answer = column_not(&column, &out, &error);
        if (answer) reason = why(&called, answer, &error, &column, &column);
        done = !answer;
    }
    if (done) answer_encoding(context, "hv_not", &out, NULL);
    else fail(context, reason);
    hv_free(&column), hv_free(&out);
}

/* The rows at which a mask is true. */
static void ask_where(sqlite3_context *context, int count, sqlite3_value **values) {
    static const pairing called = {"hv_filter", HV_NE, "a mask"};
    hv_column column = HV_EMPTY, mask = HV_EMPTY, out = HV_EMPTY;
    logical_type type;
    hv_error error = {0, 0, 0};
    char *reason = NULL;
    (void)count;
    if (sqlite3_value_type(values[0]) == SQLITE_NULL || sqlite3_value_type(values[1]) == SQLITE_NULL) return;
    bool done = typed_column_of("hv_filter", values[0], &column, &type, &reason) &&
                column_of("hv_filter", values[1], &mask, &reason);
    if (done) {
        const int32_t answer = column_where(&column, &mask, &out, &error);
        if (answer) reason = why(&called, answer, &error, &mask, &mask);
        done = !answer;
    }
    if (done) answer_encoding(context, "hv_filter", &out, &type);
    else fail(context, reason);
    hv_free(&column), hv_free(&mask), hv_free(&out);
}

int register_pairs(sqlite3 *db) {
    static const pairing pairings[] = {
        {"hv_add", HV_ADD, "added"}, {"hv_subtract", HV_SUBTRACT, "subtracted"},
        {"hv_multiply", HV_MULTIPLY, "multiplied"}, {"hv_and", HV_AND, "connected"}, {"hv_or", HV_OR, "connected"},
    };
    const int flags = SQLITE_UTF8 | SQLITE_DETERMINISTIC | SQLITE_INNOCUOUS;
    int answer = sqlite3_create_function(db, "hv_compare", 3, flags, NULL, ask_compare, NULL, NULL);
    if (!answer) answer = sqlite3_create_function(db, "hv_not", 1, flags, NULL, ask_not, NULL, NULL);
    if (!answer) answer = sqlite3_create_function(db, "hv_filter", 2, flags, NULL, ask_where, NULL, NULL);
    for (size_t i = 0; !answer && i < sizeof pairings / sizeof *pairings; i++)
        answer = sqlite3_create_function(db, pairings[i].name, 2, flags, (void *)&pairings[i], ask_pairs, NULL, NULL);
    return answer;
}
