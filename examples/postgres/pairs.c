/* Two columns worked row by row. A truth is 1 or 0, and any number but 0 is true. */
#include "pg_column.h"

#include "column_pairs.h"
#include "hivevigil_helpers.h"

/* What a function does to two columns; `done` is a word of its refusals, null for a comparison. */
typedef struct pairing {
    const char *name;
    uint8_t operator_;
    const char *done;
} pairing;

static void raise(const pairing *called, int32_t answer, const hv_error *error, hv_kind left, hv_kind right) {
    const hv_kind other = left.number == HV_I64 ? right : left;
    if (answer == HV_CAST_OUT_OF_RANGE) hv_raise_range(called->name, error->first);
    if (answer != HV_TYPE_MISMATCH && answer != HV_UNSUPPORTED) hv_raise(called->name, answer, error);
    else if (called->done)
        ereport(ERROR, (errcode(ERRCODE_DATATYPE_MISMATCH),
                        errmsg("%s: only numbers are %s, and this is a column of %s", called->name, called->done,
                               hv_words_of(other))));
    else
        ereport(ERROR, (errcode(ERRCODE_DATATYPE_MISMATCH),
                        errmsg("%s: a column of %s is not compared with one of %s", called->name, hv_words_of(left),
                               hv_words_of(right))));
}

/* Answers what the operator gives of two columns, which are freed. */
static Datum paired(const pairing *called, hv_column *left, hv_column *right) {
    hv_error error = {0, 0, 0};
    hv_column out = HV_EMPTY;
    const hv_kind kind = hv_kind_of(left), other = hv_kind_of(right);
    const int32_t answer = columns_combine(left, called->operator_, right, NAN_GREATEST, &out, &error);
    hv_free(left);
    hv_free(right);
    raise(called, answer, &error, kind, other);
    PG_RETURN_BYTEA_P(hv_bytes_of_encoding(called->name, &out, NULL));
}

/* The column of an argument while another is held, which is freed where the bytes are none. */
static void next_column_of(const char *function, bytea *bytes, hv_column *held, hv_column *out) {
    hv_error error = {0, 0, 0};
    int32_t answer = column_bytes_read((const uint8_t *)VARDATA_ANY(bytes), VARSIZE_ANY_EXHDR(bytes), out, NULL, &error);
    if (!answer && hv_length(out) > PG_INT64_MAX) {
        hv_free(out);
        answer = HV_WINDOW_OVERFLOW;
    }
    if (answer) hv_free(held);
    hv_raise(function, answer, &error);
}

/* Two columns. Both are detoasted before either is read, since that may raise an error. */
static Datum of_columns(const pairing *called, Datum first, Datum second) {
    bytea *const left_bytes = DatumGetByteaPP(first), *const right_bytes = DatumGetByteaPP(second);
    hv_column left = HV_EMPTY, right = HV_EMPTY;
    hv_column_of(called->name, left_bytes, &left);
    next_column_of(called->name, right_bytes, &left, &right);
    return paired(called, &left, &right);
}

/* A column and a value that is in each of as many rows. */
static Datum of_value(const pairing *called, Datum first, const row_value *value) {
    hv_error error = {0, 0, 0};
    hv_column left = HV_EMPTY, right = HV_EMPTY;
    hv_column_of(called->name, DatumGetByteaPP(first), &left);
    const int32_t answer = column_of_value(value, hv_length(&left), &right, &error);
    if (answer) hv_free(&left);
    hv_raise(called->name, answer, &error);
    return paired(called, &left, &right);
}

static Datum of_number(const pairing *called, Datum first, Datum second) {
    const row_value value = {HV_SIGNED, DatumGetInt64(second), NULL, 0};
    return of_value(called, first, &value);
}

#define HV_PAIRING(name, operator_, done) static const pairing to_##name = {"hv_" #name, operator_, done};
HV_PAIRING(add, HV_ADD, "added")
HV_PAIRING(subtract, HV_SUBTRACT, "subtracted")
HV_PAIRING(multiply, HV_MULTIPLY, "multiplied")
HV_PAIRING(and, HV_AND, "connected")
HV_PAIRING(or, HV_OR, "connected")
HV_PAIRING(not, HV_EQ, "negated")

HV_FUNCTION(pg_hv_add) { return of_columns(&to_add, PG_GETARG_DATUM(0), PG_GETARG_DATUM(1)); }
HV_FUNCTION(pg_hv_subtract) { return of_columns(&to_subtract, PG_GETARG_DATUM(0), PG_GETARG_DATUM(1)); }
HV_FUNCTION(pg_hv_multiply) { return of_columns(&to_multiply, PG_GETARG_DATUM(0), PG_GETARG_DATUM(1)); }
HV_FUNCTION(pg_hv_add_number) { return of_number(&to_add, PG_GETARG_DATUM(0), PG_GETARG_DATUM(1)); }
HV_FUNCTION(pg_hv_subtract_number) { return of_number(&to_subtract, PG_GETARG_DATUM(0), PG_GETARG_DATUM(1)); }
HV_FUNCTION(pg_hv_multiply_number) { return of_number(&to_multiply, PG_GETARG_DATUM(0), PG_GETARG_DATUM(1)); }
HV_FUNCTION(pg_hv_and) { return of_columns(&to_and, PG_GETARG_DATUM(0), PG_GETARG_DATUM(1)); }
HV_FUNCTION(pg_hv_or) { return of_columns(&to_or, PG_GETARG_DATUM(0), PG_GETARG_DATUM(1)); }

/* The comparison by an operator, whose label the enum has. */
static pairing comparison(Datum label) {
    return (pairing){"hv_compare", hv_operator_of(label), NULL};
}

HV_FUNCTION(pg_hv_compare) {
    const pairing called = comparison(PG_GETARG_DATUM(1));
    return of_columns(&called, PG_GETARG_DATUM(0), PG_GETARG_DATUM(2));
}

HV_FUNCTION(pg_hv_compare_number) {
    const pairing called = comparison(PG_GETARG_DATUM(1));
    return of_number(&called, PG_GETARG_DATUM(0), PG_GETARG_DATUM(2));
}

HV_FUNCTION(pg_hv_compare_text) {
    const pairing called = comparison(PG_GETARG_DATUM(1));
    const row_value value = hv_value_of_text("hv_compare", PG_GETARG_TEXT_PP(2));
    return of_value(&called, PG_GETARG_DATUM(0), &value);
}

HV_FUNCTION(pg_hv_not) {
    hv_error error = {0, 0, 0};
    hv_column column = HV_EMPTY, out = HV_EMPTY;
    hv_column_of("hv_not", PG_GETARG_BYTEA_PP(0), &column);
    const hv_kind kind = hv_kind_of(&column);
    const int32_t answer = column_not(&column, &out, &error);
    hv_free(&column);
    raise(&to_not, answer, &error, kind, kind);
    PG_RETURN_BYTEA_P(hv_bytes_of_encoding("hv_not", &out, NULL));
}

/* The rows at which a mask is true. */
HV_FUNCTION(pg_hv_filter_mask) {
    bytea *const bytes = PG_GETARG_BYTEA_PP(0), *const mask_bytes = PG_GETARG_BYTEA_PP(1);
    static const pairing called = {"hv_filter", HV_NE, "a mask"};
    hv_error error = {0, 0, 0};
    hv_column column = HV_EMPTY, mask = HV_EMPTY, out = HV_EMPTY;
    logical_type type;
    hv_typed_of("hv_filter", bytes, &column, &type);
    next_column_of("hv_filter", mask_bytes, &column, &mask);
    const hv_kind kind = hv_kind_of(&mask);
    const int32_t answer = column_where(&column, &mask, &out, &error);
    hv_free(&column);
    hv_free(&mask);
    raise(&called, answer, &error, kind, kind);
    PG_RETURN_BYTEA_P(hv_bytes_of_encoding("hv_filter", &out, &type));
}
