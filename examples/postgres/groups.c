/* hv_groups, hv_sum_by and their like: a row for each run of equal neighbouring keys, with what is asked of it. */
#include "pg_column.h"

#include "funcapi.h"
#include "group_folds.h"
#include "utils/memutils.h"

enum { MOST = 7 };

/* What is asked of each group, and whether its key is a text, a number or, HV_UNSIGNED, the bits of a float. */
typedef struct question {
    const char *name;
    uint8_t key;
    int count;
    uint8_t folds[MOST];
} question;

/* The keys of the groups, and after them each answer, freed with the memory context. */
typedef struct held_groups {
    MemoryContextCallback freed;
    hv_column columns[1 + MOST];
} held_groups;

static void free_groups(void *given) {
    held_groups *held = given;
    for (int i = 0; i <= MOST; i++) hv_free(&held->columns[i]);
}

static held_groups *groups_in(MemoryContext context) {
    held_groups *held = MemoryContextAllocZero(context, sizeof *held);
    held->freed.func = free_groups;
    held->freed.arg = held;
    MemoryContextRegisterResetCallback(context, &held->freed);
    return held;
}

/* Answers all folds, each of which makes the keys. */
static int32_t fold(const question *asked, held_groups *held, const hv_column *keys, const hv_column *values,
                    hv_error *error) {
    int32_t answer = HV_OK;
    for (int i = 0; !answer && i < asked->count; i++)
        answer = groups_fold_by(keys, values, asked->folds[i], NAN_GREATEST, &held->columns[0], &held->columns[1 + i],
                                error);
    return answer;
}

static void raise(const char *function, int32_t answer, const hv_error *error, hv_kind values) {
    if (answer == HV_CAST_OUT_OF_RANGE)
        ereport(ERROR, (errcode(ERRCODE_NUMERIC_VALUE_OUT_OF_RANGE),
                        errmsg("%s: %s out of range", function,
                               is_float_type(values.number) ? "double precision" : "bigint"),
                        errdetail("The sum of group " UINT64_FORMAT " leaves the range.", (uint64)error->first)));
    if (answer == HV_UNSUPPORTED)
        ereport(ERROR, (errcode(ERRCODE_DATATYPE_MISMATCH),
                        errmsg("%s: only numbers are grouped, and this is a column of %s", function,
                               hv_words_of(values))));
    hv_raise(function, answer, error);
}

/* The groups of the arguments, in memory that is there until the last row was asked for. */
static void begin(const question *asked, FunctionCallInfo fcinfo) {
    FuncCallContext *calls = SRF_FIRSTCALL_INIT();
    const char *function = asked->name;
    hv_error error = {0, 0, 0};
    held_groups *held = groups_in(calls->multi_call_memory_ctx), *given = groups_in(CurrentMemoryContext);
    MemoryContext before = MemoryContextSwitchTo(calls->multi_call_memory_ctx);
    TupleDesc row;
    if (get_call_result_type(fcinfo, NULL, &row) != TYPEFUNC_COMPOSITE) elog(ERROR, "%s: rows are asked for", function);
    calls->tuple_desc = BlessTupleDesc(row);
    MemoryContextSwitchTo(before);
    hv_column_of(function, PG_GETARG_BYTEA_PP(0), &given->columns[0]);
    hv_column_of(function, PG_GETARG_BYTEA_PP(1), &given->columns[1]);
    const hv_kind values = hv_kind_of(&given->columns[1]);
    const int32_t answer = fold(asked, held, &given->columns[0], &given->columns[1], &error);
    free_groups(given);
    raise(function, answer, &error, values);
    calls->user_fctx = held;
    calls->max_calls = hv_length(&held->columns[0]);
}

/* An answer: a count, a number, or a float of this type. */
static Datum shown_answer(const hv_value *value, uint8_t fold, uint8_t type) {
    if (fold == HV_FOLD_ROWS || fold == HV_FOLD_COUNT) return Int64GetDatum((int64)value->as_unsigned);
    return is_float_type(type) ? hv_float_datum(kind_of_rows(type), value->as_unsigned)
                               : Int64GetDatum(value->as_signed);
}

static Datum shown_key(const char *function, const hv_value *value, const uint8_t *text, uint8_t kind) {
    if (value->kind != kind)
        ereport(ERROR, (errcode(ERRCODE_DATATYPE_MISMATCH),
                        errmsg("%s: keys are not a column of %s", function,
                               kind == HV_TEXT ? "texts" : kind == HV_SIGNED ? "numbers" : "floats")));
    if (kind == HV_SIGNED) return Int64GetDatum(value->as_signed);
    if (kind == HV_UNSIGNED) return hv_float_datum(ROW_FLOAT64, value->as_unsigned);
    return PointerGetDatum(hv_text_of(function, text, value->as_unsigned));
}

static Datum next(const question *asked, FunctionCallInfo fcinfo) {
    if (SRF_IS_FIRSTCALL()) begin(asked, fcinfo);
    FuncCallContext *calls = SRF_PERCALL_SETUP();
    held_groups *held = calls->user_fctx;
    Datum row[1 + MOST];
    bool nulls[1 + MOST];
    if (calls->call_cntr >= calls->max_calls) SRF_RETURN_DONE(calls);
    for (int i = 0; i <= asked->count; i++) {
        hv_error error = {0, 0, 0};
        uint8_t few[256], *text = few;
        hv_value value;
        int32_t answer = hv_at(&held->columns[i], calls->call_cntr, &value, text, sizeof few, &error);
        if (answer == HV_COLUMN_LENGTH) {
            const size_t len = error.first;
            text = MemoryContextAllocHuge(CurrentMemoryContext, len);
            answer = hv_at(&held->columns[i], calls->call_cntr, &value, text, len, &error);
        }
        hv_raise(asked->name, answer, &error);
        nulls[i] = value.kind == HV_NULL;
        if (nulls[i]) row[i] = (Datum)0;
        else if (i) row[i] = shown_answer(&value, asked->folds[i - 1], hv_kind_of(&held->columns[i]).number);
        else row[i] = shown_key(asked->name, &value, text, asked->key);
    }
    SRF_RETURN_NEXT(calls, HeapTupleGetDatum(heap_form_tuple(calls->tuple_desc, row, nulls)));
}

/* The function of SQL that is called by a number as its key, by a text, and by a double precision. */
#define HV_ASKED(name, count, ...)                                                                                     \
    HV_FUNCTION(pg_hv_##name##_numbers) {                                                                              \
        static const question asked = {"hv_" #name, HV_SIGNED, count, {__VA_ARGS__}};                                  \
        return next(&asked, fcinfo);                                                                                   \
    }                                                                                                                  \
    HV_FUNCTION(pg_hv_##name##_texts) {                                                                                \
        static const question asked = {"hv_text_" #name, HV_TEXT, count, {__VA_ARGS__}};                               \
        return next(&asked, fcinfo);                                                                                   \
    }                                                                                                                  \
    HV_FUNCTION(pg_hv_##name##_floats) {                                                                               \
        static const question asked = {"hv_" #name, HV_UNSIGNED, count, {__VA_ARGS__}};                                \
        return next(&asked, fcinfo);                                                                                   \
    }

HV_ASKED(groups, 7, HV_FOLD_ROWS, HV_FOLD_COUNT, HV_FOLD_SUM, HV_FOLD_LEAST, HV_FOLD_GREATEST, HV_FOLD_FIRST,
         HV_FOLD_LAST)
HV_ASKED(sum_by, 1, HV_FOLD_SUM)
HV_ASKED(count_by, 1, HV_FOLD_COUNT)
HV_ASKED(min_by, 1, HV_FOLD_LEAST)
HV_ASKED(max_by, 1, HV_FOLD_GREATEST)
