/* Aggregates: each has its rows in a builder, which is freed with the memory context of the aggregate, however the
 * statement ends. The states of workers are joined by the runs at their seams: a chunk's encoding after another's is
 * that of both. */
#include "pg_column.h"

#include "nodes/primnodes.h"
#include "utils/lsyscache.h"

typedef struct held_rows {
    MemoryContextCallback freed;
    row_builder rows;
} held_rows;

static void free_rows(void *rows) { row_builder_free(rows); }

static row_builder *rows_in(MemoryContext context) {
    held_rows *held = MemoryContextAllocZero(context, sizeof *held);
    held->freed.func = free_rows;
    held->freed.arg = &held->rows;
    MemoryContextRegisterResetCallback(context, &held->freed);
    return &held->rows;
}

/* The state of an aggregate, made where there is none. */
static row_builder *state(FunctionCallInfo fcinfo) {
    MemoryContext context;
    if (!AggCheckCallContext(fcinfo, &context)) elog(ERROR, "hv_column: called by no aggregate");
    return PG_ARGISNULL(0) ? rows_in(context) : (row_builder *)PG_GETARG_POINTER(0);
}

/* What the aggregate is called, for a refusal; for a window function it is not known. */
static const char *aggregate_name(FunctionCallInfo fcinfo) {
    const Aggref *called = AggGetAggref(fcinfo);
    const char *name = called ? get_func_name(called->aggfnoid) : NULL;
    return name ? name : "hv_column";
}

Datum hv_added(FunctionCallInfo fcinfo, const char *function, const row_value *value, uint64_t count) {
    hv_error error = {0, 0, 0};
    row_builder *rows = state(fcinfo);
    const int32_t answer = row_builder_add(rows, value, count, &error);
    hv_raise(function, answer, &error);
    PG_RETURN_POINTER(rows);
}

row_value hv_number_of(FunctionCallInfo fcinfo, int at) {
    row_value value = {HV_NULL, 0, NULL, 0};
    if (PG_ARGISNULL(at)) return value;
    value.kind = HV_SIGNED;
    value.number = PG_GETARG_INT64(at);
    return value;
}

row_value hv_integer_of(FunctionCallInfo fcinfo, int at) {
    row_value value = {HV_NULL, 0, NULL, 0};
    if (PG_ARGISNULL(at)) return value;
    value.kind = HV_SIGNED;
    value.number = PG_GETARG_INT32(at);
    return value;
}

row_value hv_smallint_of(FunctionCallInfo fcinfo, int at) {
    row_value value = {HV_NULL, 0, NULL, 0};
    if (PG_ARGISNULL(at)) return value;
    value.kind = HV_SIGNED;
    value.number = PG_GETARG_INT16(at);
    return value;
}

row_value hv_text_or_null(const char *function, FunctionCallInfo fcinfo, int at) {
    const row_value null = {HV_NULL, 0, NULL, 0};
    return PG_ARGISNULL(at) ? null : hv_value_of_text(function, PG_GETARG_TEXT_PP(at));
}

HV_FUNCTION(pg_hv_step_number) {
    const row_value value = hv_number_of(fcinfo, 1);
    return hv_added(fcinfo, "hv_column", &value, 1);
}

/* The narrower integers would be taken for floats otherwise: PostgreSQL prefers double precision to bigint. */
HV_FUNCTION(pg_hv_step_integer) {
    const row_value value = hv_integer_of(fcinfo, 1);
    return hv_added(fcinfo, "hv_column", &value, 1);
}

HV_FUNCTION(pg_hv_step_smallint) {
    const row_value value = hv_smallint_of(fcinfo, 1);
    return hv_added(fcinfo, "hv_column", &value, 1);
}

HV_FUNCTION(pg_hv_step_text) {
    const row_value value = hv_text_or_null("hv_column", fcinfo, 1);
    return hv_added(fcinfo, "hv_column", &value, 1);
}

static const char *words_of_rows(const row_builder *rows) {
    return hv_words_of((hv_kind){type_of_rows(rows->kind), 1, 0, 0});
}

/* Adds the rows of a column's bytes. */
static void add_bytes(const char *function, row_builder *rows, bytea *bytes) {
    hv_error error = {0, 0, 0};
    hv_column column = HV_EMPTY;
    logical_type type;
    hv_typed_of(function, bytes, &column, &type);
    const char *words = hv_words_of(hv_kind_of(&column));
    const int32_t answer = row_builder_add_typed(rows, &column, &type, &error);
    hv_free(&column);
    if (answer == HV_TYPE_MISMATCH)
        ereport(ERROR, (errcode(ERRCODE_DATATYPE_MISMATCH),
                        errmsg("%s: a column of %s after columns of %s", function, words, words_of_rows(rows))));
    hv_raise(function, answer, &error);
}

HV_FUNCTION(pg_hv_step_column) {
    row_builder *rows = state(fcinfo);
    if (!PG_ARGISNULL(1)) add_bytes("hv_concat", rows, PG_GETARG_BYTEA_PP(1));
    PG_RETURN_POINTER(rows);
}

HV_FUNCTION(pg_hv_combine) {
    hv_error error = {0, 0, 0};
    row_builder *rows = state(fcinfo);
    if (!PG_ARGISNULL(1)) {
        const int32_t answer = row_builder_append(rows, (row_builder *)PG_GETARG_POINTER(1), &error);
        hv_raise(aggregate_name(fcinfo), answer, &error);
    }
    PG_RETURN_POINTER(rows);
}

/* The bytes of all rows, which stay: over a window more are added after, and a plan that is run again may ask the same
 * state again. */
static bytea *bytes_of(FunctionCallInfo fcinfo, row_builder *rows) {
    const char *name = aggregate_name(fcinfo);
    hv_error error = {0, 0, 0};
    hv_column runs = HV_EMPTY;
    const int32_t answer = rows->rows > PG_INT64_MAX ? HV_WINDOW_OVERFLOW : row_builder_encoding(rows, &runs, &error);
    hv_raise(name, answer, &error);
    return hv_bytes_of_encoding(name, &runs, &rows->type);
}

HV_FUNCTION(pg_hv_serial) { PG_RETURN_BYTEA_P(bytes_of(fcinfo, (row_builder *)PG_GETARG_POINTER(0))); }

/* The next pg_hv_combine takes the rows out of this state, which nothing asks again. */
HV_FUNCTION(pg_hv_deserial) {
    row_builder *rows = rows_in(CurrentMemoryContext);
    add_bytes(aggregate_name(fcinfo), rows, PG_GETARG_BYTEA_PP(0));
    PG_RETURN_POINTER(rows);
}

HV_FUNCTION(pg_hv_final) {
    row_builder nothing = ROW_BUILDER_EMPTY;
    PG_RETURN_BYTEA_P(bytes_of(fcinfo, PG_ARGISNULL(0) ? &nothing : (row_builder *)PG_GETARG_POINTER(0)));
}
