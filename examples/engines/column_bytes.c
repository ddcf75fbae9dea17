#include "column_bytes.h"
#include "float_columns.h"
#include "hivevigil_helpers.h"
#include "stretches.h"
#include <stdlib.h>

/* Is no row of an encoding other than null? Then it has no run, or one. */
static uint8_t is_null_encoding(const hv_column *runs) {
    hv_error error;
    hv_value value;
    size_t count = 2;
    if (hv_length(runs) == 0) return 1;
    if (hv_run_count(runs, &count, &error) || count > 1) return 0;
    return !hv_at(runs, 0, &value, NULL, 0, &error) && value.kind == HV_NULL;
}

static int32_t see_nulls(void *is_null, const hv_column *part, uint64_t start, hv_error *error) {
    (void)start, (void)error;
    *(uint8_t *)is_null = hv_null_count(part) == hv_length(part);
    return *(uint8_t *)is_null ? HV_OK : SEEN;
}

int32_t column_is_null_alone(const hv_column *column, uint8_t *is_null, hv_error *error) {
    *is_null = 1;
    return hv_kind_of(column).number == HV_LIST ? HV_UNSUPPORTED : look_by_stretches(column, see_nulls, is_null, error);
}

int32_t column_cast(const hv_column *column, const hv_kind *kind, hv_column *out, hv_error *error) {
    hv_column runs = HV_EMPTY;
    hv_session session;
    int32_t answer = HV_OK;
    hv_session_initial(&session);
    if (hv_form(column) == HV_FORM_CONSTANT) answer = hv_encode_rows(column, &runs, error), column = &runs;
    if (!answer) answer = hv_cast(&session, column, kind, out, error);
    hv_free(&runs);
    return answer;
}

/* The rows of an encoding of only null as numbers, which are null by bits. */
static int32_t null_numbers(const hv_column *runs, hv_column *out, hv_error *error) {
    const int64_t under_null = 0;
    const uint8_t no_bit = 0;
    const size_t count = hv_length(runs) != 0;
    hv_column ends = HV_EMPTY, values = HV_EMPTY;
    const hv_validity validity = count ? hv_valid_bits(&no_bit, 1, 0) : hv_not_nullable();
    int32_t answer = hv_ends(runs, &ends, error);
    if (!answer) answer = hv_i64(&under_null, count, validity, &values, error);
    if (!answer) answer = hv_runs(&ends, &values, 0, hv_length(runs), out, error);
    hv_free(&ends);
    hv_free(&values);
    return answer;
}

/* The rows of an encoding in a type without null, where none is null; else the encoding itself. */
static int32_t least_type(hv_column *runs, hv_column *out, hv_error *error) {
    hv_kind kind = hv_kind_of(runs);
    if (kind.nullable) {
        kind.nullable = 0;
        const int32_t answer = column_cast(runs, &kind, out, error);
        if (answer != HV_NULL_NOT_ALLOWED) return answer;
    }
    hv_put(out, runs);
    return HV_OK;
}

/* The message of a column under the format of its logical type, or under none. */
static int32_t written(const hv_column *column, const uint8_t *format, size_t len, uint8_t **bytes, size_t *size,
                       hv_error *error) {
    hv_column typed = HV_EMPTY;
    uint8_t *made = NULL;
    int32_t answer = hv_with_type(column, format, len, &typed, error);
    if (!answer) answer = hv_write_size(&typed, size, error);
    if (!answer) made = malloc(*size);
    if (!answer) answer = made ? hv_write(&typed, made, *size, size, error) : HV_OUT_OF_MEMORY;
    if (answer) free(made);
    else *bytes = made;
    hv_free(&typed);
    return answer;
}

/* The encoding of floats, which are not all null, as the one of their keys with their type. */
static int32_t floats_write(const hv_column *runs, uint8_t **bytes, size_t *size, hv_error *error) {
    hv_column keys = HV_EMPTY, least = HV_EMPTY;
    int32_t answer = hv_float_encode(runs, 0, &keys, error);
    if (!answer) answer = least_type(&keys, &least, error);
    if (!answer) answer = written(&least, float_format(hv_kind_of(runs).number), 1, bytes, size, error);
    hv_free(&keys), hv_free(&least);
    return answer;
}

/* The encoding of rows that a logical type is of, with its name. */
static int32_t typed_write(hv_column *runs, const logical_type *type, uint8_t **bytes, size_t *size, hv_error *error) {
    hv_column stored = HV_EMPTY, least = HV_EMPTY;
    int32_t answer = HV_OK;
    if (hv_kind_of(runs).number == type->stored) hv_put(&stored, runs);
    else answer = column_as_stored(runs, type->stored, &stored, error);
    if (!answer) answer = least_type(&stored, &least, error);
    if (!answer) answer = written(&least, type->format, type->len, bytes, size, error);
    hv_free(&stored), hv_free(&least);
    return answer;
}

int32_t encoding_bytes_write(hv_column *runs, const logical_type *type, uint8_t **bytes, size_t *size,
                             hv_error *error) {
    const bool is_null = is_null_encoding(runs);
    const uint8_t kind = hv_kind_of(runs).number;
    hv_column least = HV_EMPTY;
    if (!is_null && is_float_type(kind)) return floats_write(runs, bytes, size, error);
    if (!is_null && type && type->len && (kind == type->stored || (kind == HV_I64 && type->stored < HV_I64)))
        return typed_write(runs, type, bytes, size, error);
    int32_t answer = is_null ? null_numbers(runs, &least, error) : least_type(runs, &least, error);
    if (!answer) answer = written(&least, NULL, 0, bytes, size, error);
    hv_free(&least);
    return answer;
}

int32_t column_bytes_write(const hv_column *column, const logical_type *type, uint8_t **bytes, size_t *size,
                           hv_error *error) {
    hv_column runs = HV_EMPTY;
    int32_t answer = encoded_by_stretches(column, &runs, error);
    if (!answer) answer = encoding_bytes_write(&runs, type, bytes, size, error);
    hv_free(&runs);
    return answer;
}

/* The flat numbers of flat booleans: 1, 0 and null. */
static int32_t flat_numbers(const hv_column *truths, hv_column *out, hv_error *error) {
    const size_t rows = hv_length(truths), words = (rows + 63) / 64;
    uint64_t *bits = calloc(words + 1, sizeof *bits), *valid = calloc(words + 1, sizeof *valid);
    int64_t *numbers = calloc(rows + 1, sizeof *numbers);
    int32_t answer = bits && valid && numbers ? HV_OK : HV_OUT_OF_MEMORY;
    if (!answer) answer = hv_read_bools(truths, bits, words, error);
    if (!answer) answer = hv_read_validity(truths, valid, words, error);
    for (size_t row = 0; !answer && row < rows; row++) numbers[row] = (int64_t)(bits[row / 64] >> row % 64 & 1);
    if (!answer)
        answer = hv_i64(numbers, rows, hv_valid_bits((const uint8_t *)valid, 8 * words, 0), out, error);
    free(bits), free(valid), free(numbers);
    return answer;
}

int32_t column_of_truths(const hv_column *truths, hv_column *out, hv_error *error) {
    hv_column runs = HV_EMPTY, ends = HV_EMPTY, values = HV_EMPTY, flat = HV_EMPTY, numbers = HV_EMPTY;
    hv_session session;
    hv_session_initial(&session);
    int32_t answer = hv_encode_rows(truths, &runs, error);
    if (!answer) answer = hv_ends(&runs, &ends, error);
    if (!answer) answer = hv_values(&runs, &values, error);
    if (!answer) answer = hv_decode(&session, &values, &flat, error);
    if (!answer) answer = flat_numbers(&flat, &numbers, error);
    if (!answer) answer = hv_runs(&ends, &numbers, hv_offset(&runs), hv_length(&runs), out, error);
    hv_column *const all[] = {&runs, &ends, &values, &flat, &numbers};
    for (size_t i = 0; i < sizeof all / sizeof *all; i++) hv_free(all[i]);
    return answer;
}

/* The logical type of a column that was read: its format is the name in the message, after the version, its key and its
 * length (docs/BYTES.md). */
static logical_type type_read(const uint8_t *message, const hv_column *column) {
    enum { BEFORE_LENGTH = 4 };
    logical_type found = {message, 0, hv_kind_of(column).number};
    hv_error error;
    if (hv_type(column, NULL, 0, &found.len, &error) != HV_COLUMN_LENGTH) return found;
    found.len = (size_t)error.first;
    found.format += BEFORE_LENGTH + 1;
    for (size_t more = found.len; more > 127; more >>= 7) found.format++;
    return found;
}

/* The column of a message, or of the message after a line, which has no format, and of floats the type of the keys; else
 * HV_LIST. */
static int32_t read_message(const uint8_t *bytes, size_t size, hv_column *out, uint8_t *keys, logical_type *type,
                            hv_error *error) {
    *keys = float_line_read(bytes, size);
    const bool has_line = *keys != HV_LIST;
    const uint8_t *const message = has_line ? bytes + FLOAT_LINE : bytes;
    const int32_t answer = hv_read_column(message, has_line ? size - FLOAT_LINE : size, out, error);
    if (answer) return answer;
    const logical_type found = type_read(message, out);
    if (has_line) return found.len ? HV_BAD_METADATA : HV_OK;
    if (found.len) *keys = float_keys_of(found.format, found.len);
    if (*keys == HV_LIST && hv_kind_of(out).number != HV_BOOL) *type = found;
    return HV_OK;
}

/* The rows as those of a database; `how` is the type of the keys of floats, else HV_LIST. */
static int32_t served(const void *how, const hv_column *column, const hv_column *none, hv_column *out,
                      hv_error *error) {
    const uint8_t keys = *(const uint8_t *)how;
    hv_kind kind = hv_kind_of(column);
    (void)none;
    if (keys != HV_LIST) return float_column_of_keys(column, keys, out, error);
    if (kind.number == HV_BOOL) return column_of_truths(column, out, error);
    if (kind.number >= HV_I64) return HV_UNSUPPORTED;
    kind.number = HV_I64;
    return column_cast(column, &kind, out, error);
}

int32_t column_bytes_read(const uint8_t *bytes, size_t size, hv_column *out, logical_type *type, hv_error *error) {
    logical_type found = NO_LOGICAL_TYPE;
    hv_column column = HV_EMPTY;
    uint8_t keys;
    int32_t answer = read_message(bytes, size, &column, &keys, &found, error);
    if (answer) return hv_free(&column), answer;
    const uint8_t number = hv_kind_of(&column).number;
    if (keys == HV_LIST && (number == HV_I64 || number == HV_UTF8 || number == HV_BINARY))
        answer = hv_with_type(&column, NULL, 0, out, error);
    else if (number != HV_LIST && is_long(&column))
        answer = made_by_stretches(&column, NULL, served, &keys, out, error);
    else answer = served(&keys, &column, NULL, out, error);
    if (!answer && type) *type = found;
    hv_free(&column);
    return answer;
}
