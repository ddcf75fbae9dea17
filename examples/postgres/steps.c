/* Times, or any numbers, as steps from row to row, and the buckets in which they lie. */
#include "pg_column.h"

#include "run_steps.h"

/* Answers the bytes of what was made of a column of these words, with this logical type. */
static Datum answered(const char *function, int32_t answer, const hv_error *error, const char *words, hv_column *made,
                      const logical_type *type) {
    if (answer == HV_CAST_OUT_OF_RANGE) hv_raise_range(function, error->first);
    if (answer == HV_TYPE_MISMATCH)
        ereport(ERROR, (errcode(ERRCODE_DATATYPE_MISMATCH),
                        errmsg("%s: this is not a column of numbers, but of %s", function, words)));
    if (answer == TOO_MANY_RUNS)
        ereport(ERROR, (errcode(ERRCODE_PROGRAM_LIMIT_EXCEEDED),
                        errmsg("%s: an answer of more than %d runs", function, MOST_RUNS)));
    hv_raise(function, answer, error);
    return PointerGetDatum(hv_bytes_of_encoding(function, made, type));
}

typedef int32_t convert(const hv_column *column, hv_column *out, hv_error *error);

static Datum converted(const char *function, FunctionCallInfo fcinfo, convert *by) {
    hv_error error = {0, 0, 0};
    hv_column column = HV_EMPTY, made = HV_EMPTY;
    hv_column_of(function, PG_GETARG_BYTEA_PP(0), &column);
    const char *words = hv_words_of(hv_kind_of(&column));
    const int32_t answer = by(&column, &made, &error);
    hv_free(&column);
    return answered(function, answer, &error, words, &made, NULL);
}

HV_FUNCTION(pg_hv_steps) { return converted("hv_steps", fcinfo, column_steps); }
HV_FUNCTION(pg_hv_totals) { return converted("hv_totals", fcinfo, column_totals); }

typedef int32_t find_buckets(const hv_column *column, bucket_grid grid, hv_column *out, hv_error *error);

/* A bucket is named by where it begins, which is of the type of the rows. */
static Datum buckets(const char *function, FunctionCallInfo fcinfo, find_buckets *find) {
    const bucket_grid grid = {PG_GETARG_INT64(1), PG_GETARG_INT64(2)};
    hv_error error = {0, 0, 0};
    hv_column column = HV_EMPTY, made = HV_EMPTY;
    logical_type type;
    if (grid.width <= 0)
        ereport(ERROR, (errcode(ERRCODE_INVALID_PARAMETER_VALUE),
                        errmsg("%s: a width is above 0, and this is " INT64_FORMAT, function, (int64)grid.width)));
    hv_typed_of(function, PG_GETARG_BYTEA_PP(0), &column, &type);
    const char *words = hv_words_of(hv_kind_of(&column));
    const int32_t answer = find(&column, grid, &made, &error);
    hv_free(&column);
    return answered(function, answer, &error, words, &made, &type);
}

HV_FUNCTION(pg_hv_buckets) { return buckets("hv_buckets", fcinfo, column_buckets); }
HV_FUNCTION(pg_hv_step_buckets) { return buckets("hv_step_buckets", fcinfo, column_step_buckets); }
