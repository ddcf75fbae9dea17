/* hv_append: rows at the end of a column. hv_repeat: a column of values, each as often as it is said. hv_sum_all: the
 * exact sum of columns. */
#include "pg_column.h"

#include "utils/fmgrprotos.h"
#include "utils/numeric.h"
#include "wide_sum.h"

uint64_t hv_count_of(const char *function, FunctionCallInfo fcinfo, int at) {
    if (PG_ARGISNULL(at))
        ereport(ERROR, (errcode(ERRCODE_NULL_VALUE_NOT_ALLOWED), errmsg("%s: a count of rows is not null", function)));
    const int64 count = PG_GETARG_INT64(at);
    if (count < 0)
        ereport(ERROR, (errcode(ERRCODE_INVALID_PARAMETER_VALUE),
                        errmsg("%s: a count of rows is not negative, and this is " INT64_FORMAT, function, count)));
    return (uint64_t)count;
}

Datum hv_appended(FunctionCallInfo fcinfo, const row_value *value) {
    const uint64_t count = hv_count_of("hv_append", fcinfo, 2);
    hv_error error = {0, 0, 0};
    hv_column column = HV_EMPTY, runs = HV_EMPTY;
    logical_type type;
    hv_typed_of("hv_append", PG_GETARG_BYTEA_PP(0), &column, &type);
    const char *words = hv_words_of(hv_kind_of(&column));
    const int32_t answer = column_append(&column, value, count, &runs, &error);
    hv_free(&column);
    if (answer == HV_TYPE_MISMATCH)
        ereport(ERROR, (errcode(ERRCODE_DATATYPE_MISMATCH),
                        errmsg("hv_append: a column of %s takes no %s", words,
                               value->kind == HV_TEXT ? "text" : "bigint")));
    hv_raise("hv_append", answer, &error);
    return PointerGetDatum(hv_bytes_of_encoding("hv_append", &runs, &type));
}

HV_FUNCTION(pg_hv_append_number) {
    const row_value value = hv_number_of(fcinfo, 1);
    if (PG_ARGISNULL(0)) PG_RETURN_NULL();
    return hv_appended(fcinfo, &value);
}

HV_FUNCTION(pg_hv_append_text) {
    if (PG_ARGISNULL(0)) PG_RETURN_NULL();
    const row_value value = hv_text_or_null("hv_append", fcinfo, 1);
    return hv_appended(fcinfo, &value);
}

/* ---- Values and how often each comes: a run in each step, in the memory of the aggregate ---- */

HV_FUNCTION(pg_hv_step_numbers) {
    const row_value value = hv_number_of(fcinfo, 1);
    return hv_added(fcinfo, "hv_repeat", &value, hv_count_of("hv_repeat", fcinfo, 2));
}

HV_FUNCTION(pg_hv_step_texts) {
    const row_value value = hv_text_or_null("hv_repeat", fcinfo, 1);
    return hv_added(fcinfo, "hv_repeat", &value, hv_count_of("hv_repeat", fcinfo, 2));
}

HV_FUNCTION(pg_hv_step_integers) {
    const row_value value = hv_integer_of(fcinfo, 1);
    return hv_added(fcinfo, "hv_repeat", &value, hv_count_of("hv_repeat", fcinfo, 2));
}

HV_FUNCTION(pg_hv_step_smallints) {
    const row_value value = hv_smallint_of(fcinfo, 1);
    return hv_added(fcinfo, "hv_repeat", &value, hv_count_of("hv_repeat", fcinfo, 2));
}

/* ---- Sums ---- */

/* high * 2^64 + low */
static Datum numeric_of(hv_pair sum) {
    const Datum two_32 = NumericGetDatum(int64_to_numeric(INT64CONST(1) << 32));
    Datum made = NumericGetDatum(int64_to_numeric(sum.high));
    for (int shift = 32; shift >= 0; shift -= 32) {
        const Datum limb = NumericGetDatum(int64_to_numeric((int64)(sum.low >> shift & 0xFFFFFFFF)));
        made = DirectFunctionCall2(numeric_add, DirectFunctionCall2(numeric_mul, made, two_32), limb);
    }
    return made;
}

/* Adds the rows of a column to a sum, which is null as long as each row is. */
HV_FUNCTION(pg_hv_step_sum) {
    hv_error error = {0, 0, 0};
    hv_column column = HV_EMPTY;
    wide_sum sum = {{0, 0, 0}, false};
    if (!PG_ARGISNULL(1)) {
        hv_column_of("hv_sum_all", PG_GETARG_BYTEA_PP(1), &column);
        const char *words = hv_words_of(hv_kind_of(&column));
        const int32_t answer = wide_sum_add(&sum, &column, &error);
        hv_free(&column);
        if (answer == HV_TYPE_MISMATCH)
            ereport(ERROR, (errcode(ERRCODE_DATATYPE_MISMATCH),
                            errmsg("hv_sum_all: only numbers are added, and this is a column of %s", words)));
        hv_raise("hv_sum_all", answer, &error);
    }
    if (!sum.any && PG_ARGISNULL(0)) PG_RETURN_NULL();
    if (!sum.any) return PG_GETARG_DATUM(0);
    const Datum made = numeric_of(wide_sum_pair(&sum));
    return PG_ARGISNULL(0) ? made : DirectFunctionCall2(numeric_add, PG_GETARG_DATUM(0), made);
}
