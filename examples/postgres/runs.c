/* hv_runs, hv_text_runs, hv_date_runs and their like: a row for each run. */
#include "pg_column.h"

#include "funcapi.h"
#include "utils/memutils.h"

/* What the values of the runs are: a kind of rows, or times of a logical type, made of their numbers. */
typedef struct run_values {
    const char *function;
    uint8_t kind;
    const char *format;
    Datum (*time)(const char *function, int64 number);
} run_values;

/* The runs of a column, freed with the memory context. */
typedef struct held_runs {
    MemoryContextCallback freed;
    hv_column runs;
} held_runs;

static void free_runs(void *runs) { hv_free(runs); }

static hv_column *runs_in(MemoryContext context) {
    held_runs *held = MemoryContextAllocZero(context, sizeof *held);
    held->freed.func = free_runs;
    held->freed.arg = &held->runs;
    MemoryContextRegisterResetCallback(context, &held->freed);
    return &held->runs;
}

/* The runs of the argument, in memory that is there until the last row was asked for. */
static void begin(const run_values *asked, FunctionCallInfo fcinfo) {
    FuncCallContext *calls = SRF_FIRSTCALL_INIT();
    const char *function = asked->function;
    hv_error error = {0, 0, 0};
    logical_type type, times;
    hv_column column = HV_EMPTY, counted = HV_EMPTY, *runs = runs_in(calls->multi_call_memory_ctx);
    MemoryContext before = MemoryContextSwitchTo(calls->multi_call_memory_ctx);
    TupleDesc row;
    size_t count = 0;
    if (get_call_result_type(fcinfo, NULL, &row) != TYPEFUNC_COMPOSITE) elog(ERROR, "%s: rows are asked for", function);
    calls->tuple_desc = BlessTupleDesc(row);
    MemoryContextSwitchTo(before);
    hv_typed_of(function, PG_GETARG_BYTEA_PP(0), &column, &type);
    if (asked->format) {
        logical_type_named((const uint8_t *)asked->format, strlen(asked->format), &times);
        hv_recounted(function, &column, &type, &times, &counted);
        column = counted;
    }
    int32_t answer = encoded_by_stretches(&column, runs, &error);
    if (!answer) answer = hv_run_count(runs, &count, &error);
    hv_free(&column);
    hv_raise(function, answer, &error);
    calls->user_fctx = runs;
    calls->max_calls = count;
}

static Datum shown(const run_values *asked, const hv_value *value, const uint8_t *text) {
    const char *function = asked->function;
    const uint8_t kind = asked->kind;
    if (kind == ROW_FLOAT32 || kind == ROW_FLOAT64) return hv_float_datum(kind, value->as_unsigned);
    if (value->kind != kind)
        ereport(ERROR, (errcode(ERRCODE_DATATYPE_MISMATCH),
                        errmsg("%s: this is not a column of %s", function, kind == HV_TEXT ? "texts" : "numbers")));
    if (asked->time) return asked->time(function, value->as_signed);
    if (kind == HV_SIGNED) return Int64GetDatum(value->as_signed);
    return PointerGetDatum(hv_text_of(function, text, value->as_unsigned));
}

static Datum next(const run_values *asked, FunctionCallInfo fcinfo) {
    if (SRF_IS_FIRSTCALL()) begin(asked, fcinfo);
    FuncCallContext *calls = SRF_PERCALL_SETUP();
    const size_t run = calls->call_cntr;
    hv_error error = {0, 0, 0};
    uint8_t few[256], *text = few;
    size_t start = 0, stop = 0;
    hv_value value;
    if (run >= calls->max_calls) SRF_RETURN_DONE(calls);
    int32_t answer = hv_run(calls->user_fctx, run, &start, &stop, &value, text, sizeof few, &error);
    if (answer == HV_COLUMN_LENGTH) {
        const size_t len = error.first;
        text = MemoryContextAllocHuge(CurrentMemoryContext, len);
        answer = hv_run(calls->user_fctx, run, &start, &stop, &value, text, len, &error);
    }
    hv_raise(asked->function, answer, &error);
    Datum row[3] = {Int64GetDatum((int64)start), Int64GetDatum((int64)stop), 0};
    bool nulls[3] = {false, false, value.kind == HV_NULL};
    if (!nulls[2]) row[2] = shown(asked, &value, text);
    SRF_RETURN_NEXT(calls, HeapTupleGetDatum(heap_form_tuple(calls->tuple_desc, row, nulls)));
}

#define HV_RUNS(name, ...)                                                                                             \
    HV_FUNCTION(pg_hv_runs_##name) {                                                                                   \
        static const run_values asked = {__VA_ARGS__};                                                                 \
        return next(&asked, fcinfo);                                                                                   \
    }

HV_RUNS(numbers, "hv_runs", HV_SIGNED, NULL, NULL)
HV_RUNS(texts, "hv_text_runs", HV_TEXT, NULL, NULL)
HV_RUNS(float4, "hv_runs", ROW_FLOAT32, NULL, NULL)
HV_RUNS(float8, "hv_runs", ROW_FLOAT64, NULL, NULL)
HV_RUNS(dates, "hv_date_runs", HV_SIGNED, "tdD", hv_date_datum)
HV_RUNS(times, "hv_time_runs", HV_SIGNED, "ttu", hv_time_datum)
HV_RUNS(timestamps, "hv_timestamp_runs", HV_SIGNED, "tsu:", hv_timestamp_datum)
HV_RUNS(timestamptzs, "hv_timestamptz_runs", HV_SIGNED, "tsu:UTC", hv_timestamp_datum)
HV_RUNS(intervals, "hv_interval_runs", HV_SIGNED, "tDu", hv_interval_datum)
