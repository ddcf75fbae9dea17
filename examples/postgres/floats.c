/* The types hvfloat4 and hvfloat8: columns of real and of double precision, each with all of its bits. Numbers compare
 * as PostgreSQL has them: 0.0 equals -0.0, and NaNs are equal and above all else. */
#include "pg_column.h"

#include "float_buckets.h"
#include "float_total.h"
#include "hivevigil_helpers.h"
#include "utils/builtins.h"
#include <math.h>

Datum hv_float_datum(uint8_t kind, uint64_t bits) {
    const uint32_t narrow = (uint32_t)bits;
    float4 number;
    memcpy(&number, &narrow, sizeof number);
    return kind == ROW_FLOAT32 ? Float4GetDatum(number) : Float8GetDatum(float_of_bits(bits));
}

row_value hv_float_value(uint8_t kind, Datum number) {
    const float4 real = DatumGetFloat4(number);
    row_value value = {kind, 0, NULL, 0};
    uint32_t narrow;
    memcpy(&narrow, &real, sizeof narrow);
    value.number = kind == ROW_FLOAT32 ? (int64_t)narrow : (int64_t)bits_of_float(DatumGetFloat8(number));
    return value;
}

void hv_floats_of(const char *function, bytea *bytes, hv_column *out) {
    const hv_kind of_null = {HV_U64, 1, 0, 0};
    const hv_value null = {0, 0, HV_NULL, 0, 0};
    hv_error error = {0, 0, 0};
    hv_column column = HV_EMPTY;
    hv_column_of(function, bytes, &column);
    if (is_float_type(hv_kind_of(&column).number)) {
        hv_put(out, &column);
        return;
    }
    const int32_t answer = hv_constant(&of_null, &null, NULL, 0, hv_length(&column), out, &error);
    hv_free(&column);
    hv_raise(function, answer, &error);
}

/* ---- The types: bytes are those of such a column, or of only null ---- */

static bytea *checked(const char *name, uint8_t type, bytea *bytes) {
    hv_error error = {0, 0, 0};
    hv_column column = HV_EMPTY;
    uint8_t is_null = 0;
    hv_column_of(name, bytes, &column);
    const hv_kind kind = hv_kind_of(&column);
    const int32_t answer = column_is_null_alone(&column, &is_null, &error);
    hv_free(&column);
    hv_raise(name, answer, &error);
    if (kind.number != type && !is_null)
        ereport(ERROR, (errcode(ERRCODE_DATATYPE_MISMATCH),
                        errmsg("%s: this is a column of %s", name, hv_words_of(kind))));
    return bytes;
}

#define HV_FLOAT_TYPE(name, type)                                                                                      \
    HV_FUNCTION(pg_##name##_in) {                                                                                      \
        bytea *const bytes = DatumGetByteaPP(DirectFunctionCall1(byteain, PG_GETARG_DATUM(0)));                        \
        PG_RETURN_BYTEA_P(checked(#name, type, bytes));                                                                \
    }                                                                                                                  \
    HV_FUNCTION(pg_##name##_receive) {                                                                                 \
        bytea *const bytes = DatumGetByteaPP(DirectFunctionCall1(bytearecv, PG_GETARG_DATUM(0)));                      \
        PG_RETURN_BYTEA_P(checked(#name, type, bytes));                                                                \
    }                                                                                                                  \
    HV_FUNCTION(pg_##name##_of_bytes) { PG_RETURN_BYTEA_P(checked(#name, type, PG_GETARG_BYTEA_P(0))); }

HV_FLOAT_TYPE(hvfloat4, HV_U32)
HV_FLOAT_TYPE(hvfloat8, HV_U64)

HV_FUNCTION(pg_hvfloat8_of_hvfloat4) {
    hv_error error = {0, 0, 0};
    hv_column column = HV_EMPTY, wide = HV_EMPTY;
    hv_floats_of("hvfloat8", PG_GETARG_BYTEA_PP(0), &column);
    const int32_t answer = float_column_widened(&column, &wide, &error);
    hv_free(&column);
    hv_raise("hvfloat8", answer, &error);
    PG_RETURN_BYTEA_P(hv_bytes_of_column("hvfloat8", &wide));
}

/* ---- Questions ---- */

static void raise_past(const char *function) {
    ereport(ERROR,
            (errcode(ERRCODE_NUMERIC_VALUE_OUT_OF_RANGE), errmsg("%s: double precision out of range", function)));
}

HV_FUNCTION(pg_hv_sum_floats) {
    hv_error error = {0, 0, 0};
    hv_column column = HV_EMPTY;
    uint64_t count = 0, bits = 0;
    hv_floats_of("hv_sum", PG_GETARG_BYTEA_PP(0), &column);
    const int32_t answer = float_column_sum(&column, NAN_GREATEST, &count, &bits, &error);
    hv_free(&column);
    if (answer == HV_CAST_OUT_OF_RANGE) raise_past("hv_sum");
    hv_raise("hv_sum", answer, &error);
    if (count == 0) PG_RETURN_NULL();
    PG_RETURN_FLOAT8(float_of_bits(bits));
}

static Datum extreme(const char *function, FunctionCallInfo fcinfo, uint8_t kind, bool greatest) {
    hv_error error = {0, 0, 0};
    hv_column column = HV_EMPTY;
    float_extremes found = {false, 0, 0};
    hv_floats_of(function, PG_GETARG_BYTEA_PP(0), &column);
    const int32_t answer = float_column_extremes(&column, NAN_GREATEST, &found, &error);
    hv_free(&column);
    hv_raise(function, answer, &error);
    if (!found.found) PG_RETURN_NULL();
    return hv_float_datum(kind, greatest ? found.greatest : found.least);
}

HV_FUNCTION(pg_hv_min_float4) { return extreme("hv_min", fcinfo, ROW_FLOAT32, false); }
HV_FUNCTION(pg_hv_min_float8) { return extreme("hv_min", fcinfo, ROW_FLOAT64, false); }
HV_FUNCTION(pg_hv_max_float4) { return extreme("hv_max", fcinfo, ROW_FLOAT32, true); }
HV_FUNCTION(pg_hv_max_float8) { return extreme("hv_max", fcinfo, ROW_FLOAT64, true); }

/* ---- Comparisons with a number ---- */

typedef int32_t compare(const hv_column *column, float_question asked, nan_order nans, hv_column *out, hv_error *error);

static Datum compared(const char *function, FunctionCallInfo fcinfo, compare *by) {
    const float_question asked = {PG_GETARG_FLOAT8(2), hv_operator_of(PG_GETARG_DATUM(1))};
    hv_error error = {0, 0, 0};
    hv_column column = HV_EMPTY, out = HV_EMPTY;
    hv_floats_of(function, PG_GETARG_BYTEA_PP(0), &column);
    const int32_t answer = by(&column, asked, NAN_GREATEST, &out, &error);
    hv_free(&column);
    hv_raise(function, answer, &error);
    PG_RETURN_BYTEA_P(hv_bytes_of_encoding(function, &out, NULL));
}

HV_FUNCTION(pg_hv_compare_float) { return compared("hv_compare", fcinfo, column_compare_floats); }

/* A null value keeps none. */
HV_FUNCTION(pg_hv_filter_floats) {
    row_builder nothing = ROW_BUILDER_EMPTY;
    hv_error error = {0, 0, 0};
    hv_column none = HV_EMPTY;
    if (PG_ARGISNULL(0)) PG_RETURN_NULL();
    if (PG_ARGISNULL(1))
        ereport(ERROR,
                (errcode(ERRCODE_INVALID_PARAMETER_VALUE), errmsg("hv_filter: an operator is one of = <> > >= < <=")));
    if (!PG_ARGISNULL(2)) return compared("hv_filter", fcinfo, column_filter_floats);
    hv_raise("hv_filter", row_builder_encoding(&nothing, &none, &error), &error);
    PG_RETURN_BYTEA_P(hv_bytes_of_encoding("hv_filter", &none, NULL));
}

/* ---- Rows ---- */

static row_value value_of(FunctionCallInfo fcinfo, uint8_t kind) {
    const row_value null = {HV_NULL, 0, NULL, 0};
    return PG_ARGISNULL(1) ? null : hv_float_value(kind, PG_GETARG_DATUM(1));
}

static Datum append(FunctionCallInfo fcinfo, uint8_t kind) {
    const row_value value = value_of(fcinfo, kind);
    if (PG_ARGISNULL(0)) PG_RETURN_NULL();
    return hv_appended(fcinfo, &value);
}

static Datum step(FunctionCallInfo fcinfo, uint8_t kind) {
    const row_value value = value_of(fcinfo, kind);
    return hv_added(fcinfo, "hv_column", &value, 1);
}

static Datum repeated(FunctionCallInfo fcinfo, uint8_t kind) {
    const row_value value = value_of(fcinfo, kind);
    return hv_added(fcinfo, "hv_repeat", &value, hv_count_of("hv_repeat", fcinfo, 2));
}

HV_FUNCTION(pg_hv_append_float4) { return append(fcinfo, ROW_FLOAT32); }
HV_FUNCTION(pg_hv_append_float8) { return append(fcinfo, ROW_FLOAT64); }
HV_FUNCTION(pg_hv_step_float4) { return step(fcinfo, ROW_FLOAT32); }
HV_FUNCTION(pg_hv_step_float8) { return step(fcinfo, ROW_FLOAT64); }
HV_FUNCTION(pg_hv_step_floats4) { return repeated(fcinfo, ROW_FLOAT32); }
HV_FUNCTION(pg_hv_step_floats8) { return repeated(fcinfo, ROW_FLOAT64); }

/* ---- The exact sum of columns: the state has no pointers, so that a worker sends it as it is ---- */

static float_total *total_in(FunctionCallInfo fcinfo) {
    MemoryContext context;
    if (!AggCheckCallContext(fcinfo, &context)) elog(ERROR, "hv_sum_all: called by no aggregate");
    return PG_ARGISNULL(0) ? MemoryContextAllocZero(context, sizeof(float_total)) : (float_total *)PG_GETARG_POINTER(0);
}

HV_FUNCTION(pg_hv_total_step) {
    hv_error error = {0, 0, 0};
    hv_column column = HV_EMPTY;
    float_total *total = total_in(fcinfo);
    if (PG_ARGISNULL(1)) PG_RETURN_POINTER(total);
    hv_column_of("hv_sum_all", PG_GETARG_BYTEA_PP(1), &column);
    const int32_t answer = float_total_add(total, &column, &error);
    hv_free(&column);
    hv_raise("hv_sum_all", answer, &error);
    PG_RETURN_POINTER(total);
}

HV_FUNCTION(pg_hv_total_combine) {
    float_total *total = total_in(fcinfo);
    if (!PG_ARGISNULL(1)) float_total_join(total, (const float_total *)PG_GETARG_POINTER(1));
    PG_RETURN_POINTER(total);
}

HV_FUNCTION(pg_hv_total_serial) {
    bytea *bytes = palloc(VARHDRSZ + sizeof(float_total));
    SET_VARSIZE(bytes, VARHDRSZ + sizeof(float_total));
    memcpy(VARDATA(bytes), PG_GETARG_POINTER(0), sizeof(float_total));
    PG_RETURN_BYTEA_P(bytes);
}

HV_FUNCTION(pg_hv_total_deserial) {
    bytea *const bytes = PG_GETARG_BYTEA_PP(0);
    float_total *total = palloc(sizeof *total);
    if (VARSIZE_ANY_EXHDR(bytes) != sizeof *total) elog(ERROR, "hv_sum_all: this is not a sum of a worker");
    memcpy(total, VARDATA_ANY(bytes), sizeof *total);
    PG_RETURN_POINTER(total);
}

HV_FUNCTION(pg_hv_total_final) {
    const float_total *total = PG_ARGISNULL(0) ? NULL : (const float_total *)PG_GETARG_POINTER(0);
    if (!total || !total->any) PG_RETURN_NULL();
    if (float_total_overflows(total)) raise_past("hv_sum_all");
    PG_RETURN_FLOAT8(float_of_bits(float_total_bits(total)));
}

/* ---- Logical types and buckets ---- */

/* The type of SQL says what the numbers are, and leaves no other logical type. */
static Datum cast_to_own(FunctionCallInfo fcinfo, char own, const char *words) {
    text *const asked = PG_GETARG_TEXT_PP(1);
    if (VARSIZE_ANY_EXHDR(asked) != 1 || *VARDATA_ANY(asked) != own)
        ereport(ERROR, (errcode(ERRCODE_INVALID_PARAMETER_VALUE),
                        errmsg("hv_cast: a column of %s has the logical type '%c', and no other", words, own)));
    return PG_GETARG_DATUM(0);
}

HV_FUNCTION(pg_hv_cast_float4) { return cast_to_own(fcinfo, 'f', "real"); }
HV_FUNCTION(pg_hv_cast_float8) { return cast_to_own(fcinfo, 'g', "double precision"); }

HV_FUNCTION(pg_hv_buckets_floats) {
    const float_grid grid = {PG_GETARG_FLOAT8(1), PG_GETARG_FLOAT8(2)};
    hv_error error = {0, 0, 0};
    hv_column column = HV_EMPTY, made = HV_EMPTY;
    if (!(grid.width > 0) || isinf(grid.width) || isnan(grid.origin) || isinf(grid.origin))
        ereport(ERROR, (errcode(ERRCODE_INVALID_PARAMETER_VALUE),
                        errmsg("hv_buckets: a width is finite and above 0, and an origin is finite")));
    hv_floats_of("hv_buckets", PG_GETARG_BYTEA_PP(0), &column);
    const int32_t answer = float_column_buckets(&column, grid, &made, &error);
    hv_free(&column);
    if (answer == HV_CAST_OUT_OF_RANGE)
        ereport(ERROR, (errcode(ERRCODE_NUMERIC_VALUE_OUT_OF_RANGE), errmsg("hv_buckets: double precision out of range"),
                        errdetail("The bucket of row " UINT64_FORMAT " leaves the range.", (uint64)error.first)));
    hv_raise("hv_buckets", answer, &error);
    PG_RETURN_BYTEA_P(hv_bytes_of_encoding("hv_buckets", &made, NULL));
}
