#include "column_pairs.h"
#include "column_bytes.h"
#include "hivevigil_helpers.h"
#include "stretches.h"

int32_t column_of_value(const row_value *value, size_t rows, hv_column *out, hv_error *error) {
    const hv_value given = value_of_row(value);
    const hv_kind kind = {type_of_rows(value->kind), value->kind == HV_NULL, 0, 0};
    return hv_constant(&kind, &given, value->bytes, value->len, rows, out, error);
}

/* ---- Truths as numbers ---- */

/* Whether each number is not 0, as booleans; 12 for other rows. */
static int32_t truths_of(const hv_column *numbers, hv_column *out, hv_error *error) {
    const hv_value zero = {0, 0, HV_SIGNED, 0, 0};
    hv_session session;
    hv_session_initial(&session);
    return hv_compare_value(&session, numbers, HV_NE, &zero, NULL, 0, out, error);
}

static int32_t negated(const void *how, const hv_column *column, const hv_column *none, hv_column *out,
                       hv_error *error) {
    const hv_value zero = {0, 0, HV_SIGNED, 0, 0};
    hv_column truths = HV_EMPTY;
    hv_session session;
    (void)how, (void)none;
    hv_session_initial(&session);
    int32_t answer = hv_compare_value(&session, column, HV_EQ, &zero, NULL, 0, &truths, error);
    if (!answer) answer = column_of_truths(&truths, out, error);
    hv_free(&truths);
    return answer;
}

int32_t column_not(const hv_column *column, hv_column *out, hv_error *error) {
    return made_by_stretches(column, NULL, negated, NULL, out, error);
}

static int32_t kept(const void *how, const hv_column *column, const hv_column *mask, hv_column *out, hv_error *error) {
    hv_column truths = HV_EMPTY;
    hv_session session;
    (void)how;
    hv_session_initial(&session);
    int32_t answer = truths_of(mask, &truths, error);
    if (!answer) answer = hv_filter(&session, column, &truths, out, error);
    hv_free(&truths);
    return answer;
}

int32_t column_where(const hv_column *column, const hv_column *mask, hv_column *out, hv_error *error) {
    return made_by_stretches(column, mask, kept, NULL, out, error);
}

/* ---- Two columns ---- */

/* A column of only null in the type of another; `made` has it, which is empty where the column has another value. */
static int32_t as_null(const hv_column *column, hv_kind kind, hv_column *made, hv_error *error) {
    const hv_value null = {0, 0, HV_NULL, 0, 0};
    uint8_t is_null = 0;
    const int32_t answer = column_is_null_alone(column, &is_null, error);
    kind.nullable = 1;
    return answer || !is_null ? answer : hv_constant(&kind, &null, NULL, 0, hv_length(column), made, error);
}

/* What is done to two columns. */
typedef struct pair_question {
    uint8_t operator_;
    nan_order nans;
} pair_question;

/* Compares two columns of floats, which are not worked otherwise. */
static int32_t combine_floats(pair_question asked, const hv_column *left, const hv_column *right, hv_column *out,
                              hv_error *error) {
    hv_column truths = HV_EMPTY;
    int32_t answer = asked.operator_ > HV_LE ? HV_TYPE_MISMATCH : HV_OK;
    if (!answer) answer = float_columns_mask(left, asked.operator_, right, asked.nans, &truths, error);
    if (!answer) answer = column_of_truths(&truths, out, error);
    hv_free(&truths);
    return answer;
}

static int32_t combine(uint8_t operator_, const hv_column *left, const hv_column *right, hv_column *out,
                       hv_error *error) {
    hv_column left_truths = HV_EMPTY, right_truths = HV_EMPTY, made = HV_EMPTY;
    int32_t answer = HV_OK;
    if (operator_ == HV_AND || operator_ == HV_OR) {
        answer = truths_of(left, &left_truths, error);
        if (!answer) answer = truths_of(right, &right_truths, error);
        left = &left_truths, right = &right_truths;
    }
    if (!answer) answer = hv_combine(left, operator_, right, &made, error);
    if (!answer && hv_kind_of(&made).number == HV_BOOL) answer = column_of_truths(&made, out, error);
    else if (!answer) hv_put(out, &made);
    hv_free(&left_truths), hv_free(&right_truths), hv_free(&made);
    return answer;
}

/* The same of two columns of one type, or of floats of two widths. */
static int32_t paired(const void *how, const hv_column *left, const hv_column *right, hv_column *out,
                      hv_error *error) {
    const pair_question asked = *(const pair_question *)how;
    const bool are_floats = is_float_type(hv_kind_of(left).number) && is_float_type(hv_kind_of(right).number);
    return are_floats ? combine_floats(asked, left, right, out, error)
                      : combine(asked.operator_, left, right, out, error);
}

int32_t columns_combine(const hv_column *left, uint8_t operator_, const hv_column *right, nan_order nans,
                        hv_column *out, hv_error *error) {
    const pair_question asked = {operator_, nans};
    hv_column nulls = HV_EMPTY;
    int32_t answer = HV_OK;
    if (hv_kind_of(left).number != hv_kind_of(right).number) {
        answer = as_null(left, hv_kind_of(right), &nulls, error);
        if (!answer && !hv_is_empty(&nulls)) left = &nulls;
        else if (!answer) answer = as_null(right, hv_kind_of(left), &nulls, error);
        if (!answer && left != &nulls && !hv_is_empty(&nulls)) right = &nulls;
    }
    if (!answer) answer = made_by_stretches(left, right, paired, &asked, out, error);
    hv_free(&nulls);
    return answer;
}
