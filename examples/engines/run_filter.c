#include "run_filter.h"
#include "column_bytes.h"
#include "hivevigil_helpers.h"
#include "run_parts.h"
#include "stretches.h"
#include <stdlib.h>
#include <string.h>

uint8_t operator_number(const char *name) {
    static const struct {
        const char *name;
        uint8_t number;
    } operators[] = {{"=", HV_EQ}, {"==", HV_EQ}, {"<>", HV_NE}, {"!=", HV_NE},
                     {">", HV_GT}, {">=", HV_GE}, {"<", HV_LT},  {"<=", HV_LE}};
    for (size_t i = 0; name && i < sizeof operators / sizeof *operators; i++)
        if (strcmp(name, operators[i].name) == 0) return operators[i].number;
    return NO_OPERATOR;
}

static int32_t count_valid(void *rows, const hv_column *part, uint64_t start, hv_error *error) {
    (void)start, (void)error;
    *(uint64_t *)rows += hv_length(part) - hv_null_count(part);
    return HV_OK;
}

int32_t column_valid_rows(const hv_column *column, uint64_t *rows, hv_error *error) {
    *rows = 0;
    return look_by_stretches(column, count_valid, rows, error);
}

/* Which row that is not null is looked for, and the one that was found. */
typedef struct valid_row {
    bool last;
    size_t row;
} valid_row;

/* Finds the row of a stretch. Equal neighbours are one run of an encoding, so that next to a run of null there is none. */
static int32_t find_valid(void *found, const hv_column *part, uint64_t start, hv_error *error) {
    valid_row *at = found;
    hv_column valid = HV_EMPTY, runs = HV_EMPTY;
    hv_value value;
    size_t count = 0, row = at->last ? hv_length(part) - 1 : 0;
    uint64_t end = 0;
    if (hv_null_count(part) == hv_length(part)) return HV_OK;
    int32_t answer = hv_is_valid(part, &valid, error);
    if (!answer) answer = hv_at(&valid, row, &value, NULL, 0, error);
    if (!answer) answer = hv_encode_rows(&valid, &runs, error);
    if (!answer) answer = hv_run_count(&runs, &count, error);
    if (!answer && !value.truth) {
        answer = hv_read_ends_u64(&runs, at->last ? count - 2 : 0, &end, 1, error);
        row = at->last ? end - 1 : end;
    }
    if (!answer) at->row = start + row;
    hv_free(&valid), hv_free(&runs);
    return answer || at->last ? answer : SEEN;
}

int32_t column_valid_row(const hv_column *column, bool last, size_t *row, hv_error *error) {
    valid_row found = {last, last && hv_length(column) ? hv_length(column) - 1 : 0};
    hv_value value;
    int32_t answer = hv_at(column, found.row, &value, NULL, 0, error);
    if (!answer && value.kind == HV_NULL) answer = look_by_stretches(column, find_valid, &found, error);
    if (answer == HV_COLUMN_LENGTH) answer = HV_OK; /* a text, longer than none */
    *row = found.row;
    return answer;
}

/* The sum so far, and, once it leaves the range, the row with which it does. */
typedef struct sum_so_far {
    int64_t sum;
    uint64_t row;
} sum_so_far;

/* Adds the runs that fit; SEEN with the first that does not. */
static int32_t add_fitting(sum_so_far *at, const run_parts *runs, const int64_t *numbers, uint64_t first) {
    uint64_t start = 0;
    for (size_t run = 0; run < runs->count; run++) {
        const bool valid = run_is_valid(runs, run);
        const uint64_t rows = runs->stops[run] - start, fit = valid ? rows_that_fit(at->sum, numbers[run]) : UINT64_MAX;
        if (fit < rows) {
            at->row = first + start + fit;
            return SEEN;
        }
        if (valid) at->sum = (int64_t)((uint64_t)at->sum + (uint64_t)numbers[run] * rows);
        start = runs->stops[run];
    }
    return HV_OK;
}

static int32_t find_overflow(void *found, const hv_column *part, uint64_t start, hv_error *error) {
    run_parts runs = RUN_PARTS_EMPTY;
    int64_t *numbers = NULL;
    int32_t answer = run_parts_read(part, &runs, error);
    if (!answer) answer = run_parts_numbers(&runs, &numbers, error);
    if (!answer) answer = add_fitting(found, &runs, numbers, start);
    free(numbers);
    run_parts_free(&runs);
    return answer;
}

int32_t column_overflow_row(const hv_column *column, uint64_t *row, hv_error *error) {
    sum_so_far found = {0, 0};
    const int32_t answer = look_by_stretches(column, find_overflow, &found, error);
    *row = found.row;
    return answer;
}

/* Leaves the stops and the bits of the runs that are kept, those that show rows and have a bit in `valid` and in
 * `kept`; answers how many. */
static size_t keep_stops(run_parts *runs, uint64_t *kept) {
    uint64_t start = 0, rows = 0;
    size_t count = 0;
    for (size_t run = 0; run < runs->count; run++) {
        const uint64_t stop = runs->stops[run], bit = (uint64_t)1 << run % 64;
        if (start == stop || !(runs->valid[run / 64] & bit)) kept[run / 64] &= ~bit;
        if (kept[run / 64] & bit) runs->stops[count++] = rows += stop - start;
        start = stop;
    }
    return count;
}

/* The runs that a mask has a true for. */
static int32_t keep_runs(const hv_session *session, run_parts *runs, const hv_column *mask, hv_column *out,
                         hv_error *error) {
    uint64_t *bits = calloc(runs->words + 1, sizeof *bits);
    hv_column ends = HV_EMPTY, values = HV_EMPTY;
    int32_t answer = bits ? hv_read_bools_from(mask, 0, runs->count, bits, runs->words, error) : HV_OUT_OF_MEMORY;
    const size_t count = answer ? 0 : keep_stops(runs, bits);
    if (!answer)
        answer = hv_filter_bits(session, &runs->values, (const uint8_t *)bits, 8 * runs->words, 0, &values, error);
    if (!answer) answer = hv_u64(runs->stops, count, hv_not_nullable(), &ends, error);
    if (!answer) answer = hv_runs(&ends, &values, 0, count ? runs->stops[count - 1] : 0, out, error);
    free(bits);
    hv_free(&ends);
    hv_free(&values);
    return answer;
}

/* What rows are compared with. */
typedef struct value_question {
    uint8_t operator_;
    const row_value *value;
} value_question;

static int32_t kept_by_value(const void *how, const hv_column *column, const hv_column *none, hv_column *out,
                             hv_error *error) {
    const value_question *asked = how;
    const row_value *value = asked->value;
    const hv_value right = value_of_row(value);
    const bool is_float = value->kind == ROW_FLOAT32 || value->kind == ROW_FLOAT64;
    run_parts runs = RUN_PARTS_EMPTY;
    hv_column mask = HV_EMPTY;
    hv_session session;
    (void)none;
    hv_session_initial(&session);
    if (value->kind == HV_NULL || hv_null_count(column) == hv_length(column))
        return hv_slice(&session, column, 0, 0, out, error);
    if (is_float) return HV_TYPE_MISMATCH;
    int32_t answer = run_parts_read(column, &runs, error);
    if (!answer)
        answer = hv_compare_scalar(&session, &runs.values, asked->operator_, &right, value->bytes, value->len, &mask,
                                   error);
    if (!answer) answer = keep_runs(&session, &runs, &mask, out, error);
    run_parts_free(&runs);
    hv_free(&mask);
    return answer;
}

int32_t column_filter(const hv_column *column, uint8_t operator_, const row_value *value, hv_column *out,
                      hv_error *error) {
    const value_question asked = {operator_, value};
    return made_by_stretches(column, NULL, kept_by_value, &asked, out, error);
}

/* What floats are compared with. */
typedef struct ordered_question {
    float_question asked;
    nan_order nans;
} ordered_question;

static int32_t kept_floats(const void *how, const hv_column *column, const hv_column *none, hv_column *out,
                           hv_error *error) {
    const ordered_question *question = how;
    run_parts runs = RUN_PARTS_EMPTY;
    hv_column mask = HV_EMPTY;
    hv_session session;
    (void)none;
    hv_session_initial(&session);
    int32_t answer = run_parts_read(column, &runs, error);
    if (!answer) answer = float_mask(&runs.values, question->asked, question->nans, &mask, error);
    if (!answer) answer = keep_runs(&session, &runs, &mask, out, error);
    run_parts_free(&runs);
    hv_free(&mask);
    return answer;
}

int32_t column_filter_floats(const hv_column *column, float_question asked, nan_order nans, hv_column *out,
                             hv_error *error) {
    const ordered_question question = {asked, nans};
    return made_by_stretches(column, NULL, kept_floats, &question, out, error);
}

static int32_t compared_floats(const void *how, const hv_column *column, const hv_column *none, hv_column *out,
                               hv_error *error) {
    const ordered_question *question = how;
    hv_column truths = HV_EMPTY;
    (void)none;
    int32_t answer = float_mask(column, question->asked, question->nans, &truths, error);
    if (!answer) answer = column_of_truths(&truths, out, error);
    hv_free(&truths);
    return answer;
}

int32_t column_compare_floats(const hv_column *column, float_question asked, nan_order nans, hv_column *out,
                              hv_error *error) {
    const ordered_question question = {asked, nans};
    return made_by_stretches(column, NULL, compared_floats, &question, out, error);
}
