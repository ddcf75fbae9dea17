/* Decimals of two precisions or scales, worked together: both columns as decimals of one type, for hv_combine or
 * hv_if_else, and compared. Only a header, C11 and C++17. The casts are those of hv_decimal_cast, which are proved;
 * nothing else here is. */
#ifndef HIVEVIGIL_DECIMALS_H
#define HIVEVIGIL_DECIMALS_H
#include "hivevigil_helpers.h"
#ifdef __cplusplus
extern "C" {
#endif

static inline int32_t hv_decimal_refuse(int32_t number, uint64_t first, uint64_t second, hv_error *error) {
    if (error) error->first = first, error->second = second, error->third = 0;
    return number;
}

/* 0 where both are columns of decimals, else 22 or 13 */
static inline int32_t hv_decimal_served(const hv_column *left, const hv_column *right, hv_error *error) {
    if (hv_is_empty(left) || hv_is_empty(right)) return HV_NO_COLUMN;
    if (hv_kind_of(left).number == HV_DECIMAL && hv_kind_of(right).number == HV_DECIMAL) return HV_OK;
    return hv_decimal_refuse(HV_UNSUPPORTED, 0, 0, error);
}

/* The type of decimals that has as many digits before the point as either type, and as many after it, in 38 digits at
 * most: decimals of (4, 2) and (6, 3) are both of (6, 3). Null where one of the two has null. */
HV_CALL hv_kind hv_decimal_common_kind(hv_kind left, hv_kind right) {
    const int scale = left.scale > right.scale ? left.scale : right.scale;
    const int before = left.precision - left.scale, others = right.precision - right.scale;
    const int digits = (before > others ? before : others) + scale;
    hv_kind kind = {HV_DECIMAL, (uint8_t)(left.nullable || right.nullable), 38, (int8_t)scale};
    if (digits < 38) kind.precision = (uint8_t)(digits > 1 ? digits : 1);
    return kind;
}

/* The same decimals in a precision and a scale, as hv_decimal_cast has them and with its refusals, but in the form of
 * the column: a flat column stays flat, and a constant with a row stays a constant. A column of this precision and
 * scale is cloned, whatever digits it has. */
HV_ANSWER hv_decimal_cast_in_form(const hv_column *column, uint8_t precision, int8_t scale, hv_column *out,
                                  hv_error *error) {
    hv_kind kind = hv_kind_of(column);
    const uint8_t form = hv_form(column);
    hv_column made = HV_EMPTY;
    hv_session session;
    hv_value value;
    if (kind.number == HV_DECIMAL && kind.precision == precision && kind.scale == scale)
        return hv_clone(column, out, error);
    if (form == HV_FORM_RUNS || form == HV_FORM_NONE) return hv_decimal_cast(column, precision, scale, out, error);
    int32_t answer = hv_decimal_cast(column, precision, scale, &made, error);
    kind = hv_kind_of(&made);
    hv_session_initial(&session);
    if (!answer && form == HV_FORM_CONSTANT && hv_length(column) > 0) {
        answer = hv_at(&made, 0, &value, NULL, 0, error);
        if (!answer) answer = hv_constant(&kind, &value, NULL, 0, hv_length(column), out, error);
    } else if (!answer) {
        answer = hv_decode(&session, &made, out, error);
    }
    hv_free(&made);
    return answer;
}

/* Two columns of decimals as decimals of hv_decimal_common_kind, the same numbers in the same forms. They need not have
 * as many rows, and may be their own `out_left` and `out_right`. 13 unless both are of decimals; then 14 (row, 0) for
 * the first row of `left` that has more digits than that type, at most 38, or, where each of these fits, of `right`. */
HV_ANSWER hv_decimal_aligned(const hv_column *left, const hv_column *right, hv_column *out_left, hv_column *out_right,
                             hv_error *error) {
    const hv_kind kind = hv_decimal_common_kind(hv_kind_of(left), hv_kind_of(right));
    hv_column lefts = HV_EMPTY, rights = HV_EMPTY;
    int32_t answer = hv_decimal_served(left, right, error);
    if (!answer) answer = hv_decimal_cast_in_form(left, kind.precision, kind.scale, &lefts, error);
    if (!answer) answer = hv_decimal_cast_in_form(right, kind.precision, kind.scale, &rights, error);
    if (!answer) {
        hv_put(out_left, &lefts);
        hv_put(out_right, &rights);
    }
    hv_free(&lefts);
    hv_free(&rights);
    return answer;
}

/* ---- Comparisons ---- */

__extension__ typedef __int128 hv_decimal_wide;

static inline hv_decimal_wide hv_decimal_digits(const hv_value *value) {
    return (hv_decimal_wide)value->as_signed * ((hv_decimal_wide)1 << 64) + value->as_unsigned;
}

/* Whether a number is below (-1), equal to (0) or above (1) one that has `places` more after the point, without their
 * points. A product past 128 bits is past each number of 128 bits. */
static inline int hv_decimal_order(hv_decimal_wide number, hv_decimal_wide other, int places) {
    const hv_decimal_wide most = ((((hv_decimal_wide)1 << 126) - 1) * 2 + 1) / 10;
    for (; places > 0 && number != 0; places--) {
        if (number > most || number < -most) return number < 0 ? -1 : 1;
        number *= 10;
    }
    return (number > other) - (number < other);
}

static inline uint8_t hv_decimal_holds(int order, uint8_t operator_) {
    switch (operator_) {
    case HV_EQ: return order == 0;
    case HV_NE: return order != 0;
    case HV_GT: return order > 0;
    case HV_GE: return order >= 0;
    case HV_LT: return order < 0;
    default: return order <= 0;
    }
}

/* What a comparison of two values gives, each at its scale. */
static inline hv_value hv_decimal_truth(const hv_value *left, int scale, uint8_t operator_, const hv_value *right,
                                        int other_scale) {
    const hv_decimal_wide number = hv_decimal_digits(left), other = hv_decimal_digits(right);
    hv_value truth = {0, 0, HV_NULL, 0, 0};
    if (left->kind == HV_NULL || right->kind == HV_NULL) return truth;
    const int order = scale <= other_scale ? hv_decimal_order(number, other, other_scale - scale)
                                           : -hv_decimal_order(other, number, scale - other_scale);
    truth.kind = HV_TRUTH;
    truth.truth = hv_decimal_holds(order, operator_);
    return truth;
}

/* A run that is looked at, and the next one. */
typedef struct hv_decimal_run { size_t next, stop; hv_value value; } hv_decimal_run;

static inline int32_t hv_decimal_next(const hv_column *runs, hv_decimal_run *run, hv_error *error) {
    size_t start;
    return hv_run(runs, run->next++, &start, &run->stop, &run->value, NULL, 0, error);
}

/* Compares two columns in as few runs as possible, of as many rows, by the runs of both. */
static inline int32_t hv_decimal_compare_runs(const hv_column *left, uint8_t operator_, const hv_column *right,
                                              hv_builder *builder, hv_error *error) {
    const int scale = hv_kind_of(left).scale, other_scale = hv_kind_of(right).scale;
    hv_decimal_run one = {0, 0, {0, 0, HV_NULL, 0, 0}}, other = one;
    int32_t answer = HV_OK;
    size_t stop;
    for (size_t row = 0; !answer && row < hv_length(left); row = stop) {
        if (row == one.stop) answer = hv_decimal_next(left, &one, error);
        if (!answer && row == other.stop) answer = hv_decimal_next(right, &other, error);
        stop = one.stop < other.stop ? one.stop : other.stop;
        const hv_value truth = hv_decimal_truth(&one.value, scale, operator_, &other.value, other_scale);
        if (!answer) answer = hv_append_value(builder, &truth, NULL, 0, stop - row, error);
    }
    return answer;
}

/* The same of columns in any form: a constant where both are constants that have a row, else runs. */
static inline int32_t hv_decimal_compare_apart(const hv_column *left, uint8_t operator_, const hv_column *right,
                                               hv_column *out, hv_error *error) {
    const hv_kind kind = {HV_BOOL, (uint8_t)(hv_kind_of(left).nullable || hv_kind_of(right).nullable), 0, 0};
    const int are_constants = hv_form(left) == HV_FORM_CONSTANT && hv_form(right) == HV_FORM_CONSTANT;
    hv_column lefts = HV_EMPTY, rights = HV_EMPTY, made = HV_EMPTY;
    hv_builder builder = HV_EMPTY;
    hv_value truth;
    int32_t answer = hv_builder_new(&kind, &builder, error);
    if (!answer) answer = hv_encode_rows(left, &lefts, error);
    if (!answer) answer = hv_encode_rows(right, &rights, error);
    if (!answer) answer = hv_decimal_compare_runs(&lefts, operator_, &rights, &builder, error);
    if (!answer) answer = hv_finish(&builder, &made, error);
    if (!answer && are_constants && hv_length(left) > 0) {
        answer = hv_at(&made, 0, &truth, NULL, 0, error);
        if (!answer) answer = hv_constant(&kind, &truth, NULL, 0, hv_length(left), out, error);
    } else if (!answer) {
        hv_put(out, &made);
    }
    hv_builder_free(&builder);
    hv_free(&lefts);
    hv_free(&rights);
    hv_free(&made);
    return answer;
}

/* Row by row whether `left operator right`, for decimals of any two types, compared as the exact numbers that they are,
 * also where 38 digits do not hold both at one scale; null where either is null, in the form and at the cost of
 * hv_combine. 13 unless both are of decimals, then 11 (left, right) for another number of rows; 23 for no comparison.
 */
HV_ANSWER hv_decimal_compare(const hv_column *left, uint8_t operator_, const hv_column *right, hv_column *out,
                             hv_error *error) {
    hv_column lefts = HV_EMPTY, rights = HV_EMPTY;
    int32_t answer = operator_ > HV_LE ? HV_BAD_NUMBER : hv_decimal_served(left, right, error);
    if (!answer && hv_length(left) != hv_length(right))
        answer = hv_decimal_refuse(HV_COLUMN_LENGTH, hv_length(left), hv_length(right), error);
    if (answer) return answer;
    answer = hv_decimal_aligned(left, right, &lefts, &rights, error);
    if (!answer) answer = hv_combine(&lefts, operator_, &rights, out, error);
    else if (answer == HV_CAST_OUT_OF_RANGE) answer = hv_decimal_compare_apart(left, operator_, right, out, error);
    hv_free(&lefts);
    hv_free(&rights);
    return answer;
}

#ifdef __cplusplus
}
#endif
#endif
