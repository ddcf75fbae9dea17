/* The type hvcolumn, and questions to one column. */
#include "pg_column.h"

#include "hivevigil_errors.h"
#include "mb/pg_wchar.h"
#include "miscadmin.h"
#include "utils/builtins.h"
#include "utils/memutils.h"
#include <stdlib.h>

PG_MODULE_MAGIC;

static int error_code(int32_t answer) {
    switch (answer) {
    case HV_OUT_OF_MEMORY: return ERRCODE_OUT_OF_MEMORY;
    case HV_BAD_METADATA: return ERRCODE_DATA_CORRUPTED;
    case HV_WINDOW_OVERFLOW: return ERRCODE_PROGRAM_LIMIT_EXCEEDED;
    case PAST_LOGICAL_TYPE:
    case HV_CAST_OUT_OF_RANGE: return ERRCODE_NUMERIC_VALUE_OUT_OF_RANGE;
    case HV_BAD_RANGE:
    case HV_MASK_LENGTH:
    case HV_COLUMN_LENGTH: return ERRCODE_ARRAY_SUBSCRIPT_ERROR;
    case OTHER_LOGICAL_TYPE:
    case HV_TYPE_MISMATCH: return ERRCODE_DATATYPE_MISMATCH;
    default: return ERRCODE_FEATURE_NOT_SUPPORTED;
    }
}

const char *hv_words_of(hv_kind kind) {
    if (is_float_type(kind.number)) return kind.number == HV_U32 ? "real" : "double precision";
    return kind.number == HV_UTF8 ? "texts" : kind.number == HV_BINARY ? "bytes" : "numbers";
}

/* Whether an error waits that ends the statement: it was raised while memory was held. */
static bool is_ended = false;

/* An interrupt that ends no statement is served here; the error of any other waits for hv_raise. */
bool is_interrupted(void) {
    const MemoryContext before = CurrentMemoryContext;
    if (is_ended || !INTERRUPTS_PENDING_CONDITION()) return is_ended;
    PG_TRY();
    { CHECK_FOR_INTERRUPTS(); }
    PG_CATCH();
    {
        MemoryContextSwitchTo(before);
        is_ended = true;
    }
    PG_END_TRY();
    return is_ended;
}

void hv_raise(const char *function, int32_t answer, const hv_error *error) {
    char text[HV_ERROR_TEXT];
    if (is_ended) {
        is_ended = false;
        PG_RE_THROW();
    }
    if (!answer) return;
    const char *why = hv_error_text(answer, error, text);
    if (answer == HV_BAD_METADATA) why = "the bytes are not a column";
    if (answer == HV_UNSUPPORTED) why = "columns of decimals and lists are not served";
    if (answer == HV_WINDOW_OVERFLOW) why = "a column of 2^63 rows or more";
    if (answer == HV_CAST_OUT_OF_RANGE) why = "a number of the column is 2^63 or more";
    if (answer == HV_TYPE_MISMATCH) why = "a column holds numbers, texts or bytes, and not two of them";
    if (answer == OTHER_LOGICAL_TYPE) why = "columns of two logical types";
    if (answer == PAST_LOGICAL_TYPE)
        why = psprintf("row " UINT64_FORMAT " has no number of the logical type", (uint64)error->first);
    ereport(ERROR, (errcode(error_code(answer)), errmsg("%s: %s", function, why)));
}

void hv_raise_range(const char *function, uint64_t row) {
    ereport(ERROR, (errcode(ERRCODE_NUMERIC_VALUE_OUT_OF_RANGE), errmsg("%s: bigint out of range", function),
                    errdetail("Row " UINT64_FORMAT " leaves the range.", (uint64)row)));
}

void hv_column_of(const char *function, bytea *bytes, hv_column *out) { hv_typed_of(function, bytes, out, NULL); }

void hv_typed_of(const char *function, bytea *bytes, hv_column *out, logical_type *type) {
    const uint8_t *const start = (const uint8_t *)VARDATA_ANY(bytes);
    hv_error error = {0, 0, 0};
    int32_t answer = column_bytes_read(start, VARSIZE_ANY_EXHDR(bytes), out, type, &error);
    if (!answer && hv_length(out) > PG_INT64_MAX) {
        hv_free(out);
        answer = HV_WINDOW_OVERFLOW;
    }
    hv_raise(function, answer, &error);
}

bytea *hv_bytes_of_column(const char *function, hv_column *column) { return hv_bytes_of_typed(function, column, NULL); }

bytea *hv_bytes_of_typed(const char *function, hv_column *column, const logical_type *type) {
    hv_error error = {0, 0, 0};
    hv_column runs = HV_EMPTY;
    const int32_t answer = encoded_by_stretches(column, &runs, &error);
    hv_free(column);
    hv_raise(function, answer, &error);
    return hv_bytes_of_encoding(function, &runs, type);
}

bytea *hv_bytes_of_encoding(const char *function, hv_column *runs, const logical_type *type) {
    hv_error error = {0, 0, 0};
    uint8_t *bytes = NULL;
    size_t size = 0;
    bytea *made = NULL;
    const int32_t answer = encoding_bytes_write(runs, type, &bytes, &size, &error);
    const bool fits = size <= MaxAllocSize - VARHDRSZ;
    hv_free(runs);
    if (!answer && fits) made = palloc_extended(size + VARHDRSZ, MCXT_ALLOC_NO_OOM);
    if (made) {
        SET_VARSIZE(made, size + VARHDRSZ);
        memcpy(VARDATA(made), bytes, size);
    }
    free(bytes);
    if (!answer && !fits)
        ereport(ERROR, (errcode(ERRCODE_PROGRAM_LIMIT_EXCEEDED), errmsg("%s: a column of more than 1 GB", function)));
    hv_raise(function, !answer && !made ? HV_OUT_OF_MEMORY : answer, &error);
    return made;
}

text *hv_text_of(const char *function, const uint8_t *bytes, size_t len) {
    if (GetDatabaseEncoding() != PG_UTF8 || memchr(bytes, 0, len))
        ereport(ERROR, (errcode(ERRCODE_CHARACTER_NOT_IN_REPERTOIRE),
                        errmsg("%s: a text of the column is none of this database", function)));
    return cstring_to_text_with_len((const char *)bytes, (int)len);
}

row_value hv_value_of_text(const char *function, text *value) {
    const row_value found = {HV_TEXT, 0, (const uint8_t *)VARDATA_ANY(value), VARSIZE_ANY_EXHDR(value)};
    if (GetDatabaseEncoding() != PG_UTF8)
        ereport(ERROR, (errcode(ERRCODE_FEATURE_NOT_SUPPORTED),
                        errmsg("%s: columns of texts are for databases in UTF8", function)));
    return found;
}

/* ---- The type: its bytes are looked at wherever they come in ---- */

static bytea *checked(bytea *bytes) {
    hv_column column = HV_EMPTY;
    hv_column_of("hvcolumn", bytes, &column);
    const hv_kind kind = hv_kind_of(&column);
    hv_free(&column);
    if (is_float_type(kind.number))
        ereport(ERROR, (errcode(ERRCODE_DATATYPE_MISMATCH),
                        errmsg("hvcolumn: this is a column of %s, which has the type %s", hv_words_of(kind),
                               kind.number == HV_U32 ? "hvfloat4" : "hvfloat8")));
    return bytes;
}

HV_FUNCTION(pg_hvcolumn_in) {
    PG_RETURN_BYTEA_P(checked(DatumGetByteaPP(DirectFunctionCall1(byteain, PG_GETARG_DATUM(0)))));
}

HV_FUNCTION(pg_hvcolumn_out) { return DirectFunctionCall1(byteaout, PG_GETARG_DATUM(0)); }

HV_FUNCTION(pg_hvcolumn_receive) {
    PG_RETURN_BYTEA_P(checked(DatumGetByteaPP(DirectFunctionCall1(bytearecv, PG_GETARG_DATUM(0)))));
}

HV_FUNCTION(pg_hvcolumn_send) { return DirectFunctionCall1(byteasend, PG_GETARG_DATUM(0)); }

HV_FUNCTION(pg_hvcolumn_of_bytes) { PG_RETURN_BYTEA_P(checked(PG_GETARG_BYTEA_P(0))); }

/* ---- Questions ---- */

HV_FUNCTION(pg_hv_rows) {
    hv_column column = HV_EMPTY;
    hv_column_of("hv_rows", PG_GETARG_BYTEA_PP(0), &column);
    const size_t rows = hv_length(&column);
    hv_free(&column);
    PG_RETURN_INT64((int64)rows);
}

HV_FUNCTION(pg_hv_count) {
    hv_error error = {0, 0, 0};
    hv_column column = HV_EMPTY;
    uint64_t rows = 0;
    hv_column_of("hv_count", PG_GETARG_BYTEA_PP(0), &column);
    const int32_t answer = column_valid_rows(&column, &rows, &error);
    hv_free(&column);
    hv_raise("hv_count", answer, &error);
    PG_RETURN_INT64((int64)rows);
}

/* What its rows are in SQL; null where each is null. */
HV_FUNCTION(pg_hv_type) {
    hv_error error = {0, 0, 0};
    hv_column column = HV_EMPTY;
    uint8_t is_null = 0;
    hv_column_of("hv_type", PG_GETARG_BYTEA_PP(0), &column);
    const hv_kind kind = hv_kind_of(&column);
    const int32_t answer = column_is_null_alone(&column, &is_null, &error);
    hv_free(&column);
    hv_raise("hv_type", answer, &error);
    if (is_null) PG_RETURN_NULL();
    PG_RETURN_TEXT_P(cstring_to_text(is_float_type(kind.number) ? hv_words_of(kind)
                                     : kind.number == HV_UTF8   ? "text"
                                     : kind.number == HV_BINARY ? "bytea"
                                                                : "bigint"));
}

HV_FUNCTION(pg_hv_sum) {
    hv_error error = {0, 0, 0};
    hv_column column = HV_EMPTY;
    hv_session session;
    hv_total total;
    uint64 row = 0;
    hv_session_initial(&session);
    hv_column_of("hv_sum", PG_GETARG_BYTEA_PP(0), &column);
    const char *words = hv_words_of(hv_kind_of(&column));
    int32_t answer = hv_sum(&session, &column, &total, &error);
    const bool unsupported = answer == HV_UNSUPPORTED, overflow = !answer && total.kind == HV_NULL;
    if (overflow) answer = column_overflow_row(&column, &row, &error);
    hv_free(&column);
    if (unsupported)
        ereport(ERROR, (errcode(ERRCODE_DATATYPE_MISMATCH),
                        errmsg("hv_sum: only numbers are added, and this is a column of %s", words)));
    hv_raise("hv_sum", answer, &error);
    if (overflow)
        ereport(ERROR, (errcode(ERRCODE_NUMERIC_VALUE_OUT_OF_RANGE), errmsg("hv_sum: bigint out of range"),
                        errdetail("The sum leaves the range with row " UINT64_FORMAT ".", row)));
    if (total.empty) PG_RETURN_NULL();
    PG_RETURN_INT64(total.as_signed);
}

/* Which row is looked at; the first and the last are those that are not null. */
typedef enum place { LEAST, GREATEST, ROW, FIRST, LAST } place;

/* A row as the library shows it: a text of more than `few` has its bytes in memory of PostgreSQL's. */
typedef struct shown {
    hv_value value;
    const uint8_t *bytes;
    uint8_t few[256];
} shown;

static int32_t look(hv_column *column, place at, size_t row, hv_value *value, uint8_t *text, size_t len,
                    hv_error *error) {
    hv_session session;
    hv_session_initial(&session);
    if (at != LEAST && at != GREATEST) return hv_at(column, row, value, text, len, error);
    return hv_extreme(&session, column, at == GREATEST, value, text, len, error);
}

/* The row, null where it is not there. */
static void show(const char *function, FunctionCallInfo fcinfo, place at, shown *found) {
    const int64 asked = at == ROW ? PG_GETARG_INT64(1) : 0;
    hv_error error = {0, 0, 0};
    hv_column column = HV_EMPTY;
    size_t row = (size_t)asked;
    hv_column_of(function, PG_GETARG_BYTEA_PP(0), &column);
    found->value.kind = HV_NULL;
    found->bytes = found->few;
    int32_t answer = asked < 0 || (at != LEAST && at != GREATEST && hv_length(&column) == 0) ? HV_OUT_OF_BOUNDS : HV_OK;
    if (!answer && (at == FIRST || at == LAST)) answer = column_valid_row(&column, at == LAST, &row, &error);
    if (!answer) answer = look(&column, at, row, &found->value, found->few, sizeof found->few, &error);
    if (answer == HV_COLUMN_LENGTH) {
        const size_t len = error.first;
        uint8_t *bytes = palloc_extended(len, MCXT_ALLOC_NO_OOM | MCXT_ALLOC_HUGE);
        answer = bytes ? look(&column, at, row, &found->value, bytes, len, &error) : HV_OUT_OF_MEMORY;
        found->bytes = bytes;
    }
    hv_free(&column);
    if (answer == HV_OUT_OF_BOUNDS) found->value.kind = HV_NULL;
    else hv_raise(function, answer, &error);
}

static Datum number(const char *function, FunctionCallInfo fcinfo, place at) {
    shown found;
    show(function, fcinfo, at, &found);
    if (found.value.kind == HV_NULL) PG_RETURN_NULL();
    if (found.value.kind != HV_SIGNED)
        ereport(ERROR, (errcode(ERRCODE_DATATYPE_MISMATCH), errmsg("%s: this is not a column of numbers", function)));
    PG_RETURN_INT64(found.value.as_signed);
}

static Datum words(const char *function, FunctionCallInfo fcinfo, place at) {
    shown found;
    show(function, fcinfo, at, &found);
    if (found.value.kind == HV_NULL) PG_RETURN_NULL();
    if (found.value.kind != HV_TEXT)
        ereport(ERROR, (errcode(ERRCODE_DATATYPE_MISMATCH), errmsg("%s: this is not a column of texts", function)));
    PG_RETURN_TEXT_P(hv_text_of(function, found.bytes, found.value.as_unsigned));
}

static Datum real(const char *function, FunctionCallInfo fcinfo, place at, uint8_t kind) {
    shown found;
    show(function, fcinfo, at, &found);
    if (found.value.kind == HV_NULL) PG_RETURN_NULL();
    return hv_float_datum(kind, found.value.as_unsigned);
}

HV_FUNCTION(pg_hv_at_float4) { return real("hv_at", fcinfo, ROW, ROW_FLOAT32); }
HV_FUNCTION(pg_hv_at_float8) { return real("hv_at", fcinfo, ROW, ROW_FLOAT64); }
HV_FUNCTION(pg_hv_first_float4) { return real("hv_first", fcinfo, FIRST, ROW_FLOAT32); }
HV_FUNCTION(pg_hv_first_float8) { return real("hv_first", fcinfo, FIRST, ROW_FLOAT64); }
HV_FUNCTION(pg_hv_last_float4) { return real("hv_last", fcinfo, LAST, ROW_FLOAT32); }
HV_FUNCTION(pg_hv_last_float8) { return real("hv_last", fcinfo, LAST, ROW_FLOAT64); }
HV_FUNCTION(pg_hv_min) { return number("hv_min", fcinfo, LEAST); }
HV_FUNCTION(pg_hv_max) { return number("hv_max", fcinfo, GREATEST); }
HV_FUNCTION(pg_hv_at) { return number("hv_at", fcinfo, ROW); }
HV_FUNCTION(pg_hv_first) { return number("hv_first", fcinfo, FIRST); }
HV_FUNCTION(pg_hv_last) { return number("hv_last", fcinfo, LAST); }
HV_FUNCTION(pg_hv_first_text) { return words("hv_first_text", fcinfo, FIRST); }
HV_FUNCTION(pg_hv_last_text) { return words("hv_last_text", fcinfo, LAST); }
HV_FUNCTION(pg_hv_min_text) { return words("hv_min_text", fcinfo, LEAST); }
HV_FUNCTION(pg_hv_max_text) { return words("hv_max_text", fcinfo, GREATEST); }
HV_FUNCTION(pg_hv_at_text) { return words("hv_at_text", fcinfo, ROW); }

/* ---- Columns of some of the rows ---- */

HV_FUNCTION(pg_hv_slice) {
    const int64 start = PG_GETARG_INT64(1), stop = PG_GETARG_INT64(2);
    hv_error error = {0, 0, 0};
    hv_column column = HV_EMPTY, part = HV_EMPTY;
    logical_type type;
    hv_session session;
    hv_session_initial(&session);
    if (start < 0 || stop < 0)
        ereport(ERROR, (errcode(ERRCODE_ARRAY_SUBSCRIPT_ERROR), errmsg("hv_slice: rows are numbered from 0")));
    hv_typed_of("hv_slice", PG_GETARG_BYTEA_PP(0), &column, &type);
    const int32_t answer = hv_slice(&session, &column, (size_t)start, (size_t)stop, &part, &error);
    hv_free(&column);
    hv_raise("hv_slice", answer, &error);
    PG_RETURN_BYTEA_P(hv_bytes_of_typed("hv_slice", &part, &type));
}

uint8_t hv_operator_of(Datum label) {
    return operator_number(DatumGetCString(DirectFunctionCall1(enum_out, label)));
}

/* The rows of which `row operator value` holds. */
static Datum filtered(FunctionCallInfo fcinfo, const row_value *value) {
    const uint8_t operator_ = PG_ARGISNULL(1) ? NO_OPERATOR : hv_operator_of(PG_GETARG_DATUM(1));
    hv_error error = {0, 0, 0};
    hv_column column = HV_EMPTY, left = HV_EMPTY;
    logical_type type;
    if (operator_ == NO_OPERATOR)
        ereport(ERROR,
                (errcode(ERRCODE_INVALID_PARAMETER_VALUE), errmsg("hv_filter: an operator is one of = <> > >= < <=")));
    hv_typed_of("hv_filter", PG_GETARG_BYTEA_PP(0), &column, &type);
    const char *words = hv_words_of(hv_kind_of(&column));
    const int32_t answer = column_filter(&column, operator_, value, &left, &error);
    hv_free(&column);
    if (answer == HV_TYPE_MISMATCH)
        ereport(ERROR, (errcode(ERRCODE_DATATYPE_MISMATCH),
                        errmsg("hv_filter: a column of %s is not compared with a %s", words,
                               value->kind == HV_TEXT ? "text" : "bigint")));
    hv_raise("hv_filter", answer, &error);
    PG_RETURN_BYTEA_P(hv_bytes_of_encoding("hv_filter", &left, &type));
}

HV_FUNCTION(pg_hv_filter_numbers) {
    const row_value value = hv_number_of(fcinfo, 2);
    if (PG_ARGISNULL(0)) PG_RETURN_NULL();
    return filtered(fcinfo, &value);
}

HV_FUNCTION(pg_hv_filter_texts) {
    if (PG_ARGISNULL(0)) PG_RETURN_NULL();
    const row_value value = hv_text_or_null("hv_filter", fcinfo, 2);
    return filtered(fcinfo, &value);
}
