#include "row_builder.h"
#include "column_bytes.h"
#include "stretches.h"
#include <stdlib.h>
#include <string.h>

static const row_value null_row = {HV_NULL, 0, NULL, 0};

static const struct {
    uint8_t kind, type;
} types[] = {
    {HV_SIGNED, HV_I64}, {HV_TEXT, HV_UTF8}, {HV_BYTES, HV_BINARY}, {ROW_FLOAT32, HV_U32}, {ROW_FLOAT64, HV_U64},
};

uint8_t type_of_rows(uint8_t kind) {
    for (size_t i = 0; i < sizeof types / sizeof *types; i++)
        if (types[i].kind == kind) return types[i].type;
    return HV_I64;
}

uint8_t kind_of_rows(uint8_t type) {
    for (size_t i = 0; i < sizeof types / sizeof *types; i++)
        if (types[i].type == type) return types[i].kind;
    return HV_NULL;
}

hv_value value_of_row(const row_value *value) {
    const bool is_float = value->kind == ROW_FLOAT32 || value->kind == ROW_FLOAT64;
    return (hv_value){.kind = is_float ? HV_UNSIGNED : value->kind,
                      .as_signed = value->number,
                      .as_unsigned = is_float ? (uint64_t)value->number : value->len};
}

/* Adds `count` rows of a value, or of null. As long as each row is null, they are only counted. */
static int32_t append_rows(row_builder *rows, const row_value *value, uint64_t count, hv_error *error) {
    const hv_value scalar = value_of_row(value);
    if (rows->kind == HV_NULL) return HV_OK;
    return hv_append_value(&rows->runs, &scalar, value->bytes, value->len, count, error);
}

/* Makes the rows ones of this kind, which have been null so far. */
static int32_t begin(row_builder *rows, uint8_t kind, hv_error *error) {
    const hv_kind of_rows = {type_of_rows(kind), 1, 0, 0};
    if (rows->kind == kind) return HV_OK;
    if (rows->kind != HV_NULL) return HV_TYPE_MISMATCH;
    int32_t answer = hv_builder_new(&of_rows, &rows->runs, error);
    rows->kind = kind;
    if (!answer) answer = append_rows(rows, &null_row, rows->rows, error);
    if (!answer) return HV_OK;
    rows->kind = HV_NULL;
    hv_builder_free(&rows->runs);
    return answer;
}

int32_t row_builder_add(row_builder *rows, const row_value *value, uint64_t count, hv_error *error) {
    int32_t answer = value->kind == HV_NULL ? HV_OK : begin(rows, value->kind, error);
    if (!answer && count > UINT64_MAX - rows->rows) answer = HV_WINDOW_OVERFLOW;
    if (!answer) answer = append_rows(rows, value, count, error);
    if (!answer) rows->rows += count;
    return answer;
}

/* The rows of a column of the builder's kind, whose type may have no null. */
static int32_t append_part(void *given, const hv_column *column, uint64_t start, hv_error *error) {
    row_builder *rows = given;
    hv_kind kind = hv_kind_of(column);
    hv_column with_null = HV_EMPTY;
    (void)start;
    if (kind.nullable) return hv_append(&rows->runs, column, error);
    kind.nullable = 1;
    int32_t answer = column_cast(column, &kind, &with_null, error);
    if (!answer) answer = hv_append(&rows->runs, &with_null, error);
    hv_free(&with_null);
    return answer;
}

int32_t row_builder_add_column(row_builder *rows, const hv_column *column, hv_error *error) {
    const uint8_t kind = kind_of_rows(hv_kind_of(column).number);
    uint8_t is_null = 0;
    int32_t answer = kind == HV_NULL ? HV_UNSUPPORTED : HV_OK;
    if (!answer && hv_length(column) > UINT64_MAX - rows->rows) answer = HV_WINDOW_OVERFLOW;
    if (!answer && kind != rows->kind) answer = column_is_null_alone(column, &is_null, error);
    if (!answer && !is_null) answer = begin(rows, kind, error);
    if (!answer && is_null) answer = append_rows(rows, &null_row, hv_length(column), error);
    else if (!answer) answer = look_by_stretches(column, append_part, rows, error);
    if (!answer) rows->rows += hv_length(column);
    return answer;
}

int32_t row_builder_add_typed(row_builder *rows, const hv_column *column, const logical_type *type, hv_error *error) {
    uint8_t is_null = 0, *name = NULL;
    int32_t answer = type->len ? column_is_null_alone(column, &is_null, error) : HV_OK;
    if (answer || is_null || !type->len) return answer ? answer : row_builder_add_column(rows, column, error);
    if (rows->type.len && !is_same_logical_type(&rows->type, type)) return OTHER_LOGICAL_TYPE;
    if (rows->type.len) return row_builder_add_column(rows, column, error);
    name = malloc(type->len);
    answer = name ? row_builder_add_column(rows, column, error) : HV_OUT_OF_MEMORY;
    if (answer) {
        free(name);
        return answer;
    }
    memcpy(name, type->format, type->len);
    rows->type = (logical_type){name, type->len, type->stored};
    return HV_OK;
}

int32_t row_builder_append(row_builder *rows, row_builder *others, hv_error *error) {
    hv_column column = HV_EMPTY;
    int32_t answer = row_builder_finish(others, &column, error);
    if (!answer) answer = row_builder_add_typed(rows, &column, &others->type, error);
    hv_free(&column);
    return answer;
}

/* The encoding of rows of which each is null. */
static int32_t encoding_of_nulls(uint64_t count, hv_column *out, hv_error *error) {
    const hv_kind numbers = {HV_I64, 1, 0, 0};
    const hv_value null_value = {.kind = HV_NULL};
    hv_column nulls = HV_EMPTY;
    int32_t answer = hv_constant(&numbers, &null_value, NULL, 0, count, &nulls, error);
    if (!answer) answer = hv_encode_rows(&nulls, out, error);
    hv_free(&nulls);
    return answer;
}

int32_t row_builder_encoding(row_builder *rows, hv_column *out, hv_error *error) {
    return rows->kind == HV_NULL ? encoding_of_nulls(rows->rows, out, error) : hv_encoding(&rows->runs, out, error);
}

int32_t row_builder_finish(row_builder *rows, hv_column *out, hv_error *error) {
    const int32_t answer =
        rows->kind == HV_NULL ? encoding_of_nulls(rows->rows, out, error) : hv_finish(&rows->runs, out, error);
    if (!answer) rows->rows = 0;
    return answer;
}

void row_builder_free(row_builder *rows) {
    static const row_builder empty = ROW_BUILDER_EMPTY;
    hv_builder_free(&rows->runs);
    free((void *)rows->type.format);
    *rows = empty;
}

int32_t column_append(const hv_column *column, const row_value *value, uint64_t count, hv_column *out,
                      hv_error *error) {
    row_builder rows = ROW_BUILDER_EMPTY;
    int32_t answer = row_builder_add_column(&rows, column, error);
    if (!answer) answer = row_builder_add(&rows, value, count, error);
    if (!answer && rows.rows > INT64_MAX) answer = HV_WINDOW_OVERFLOW;
    if (!answer) answer = row_builder_finish(&rows, out, error);
    row_builder_free(&rows);
    return answer;
}
