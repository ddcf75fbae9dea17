/* Tables, and the same rows in plain arrays: each row is null, a number or a text. What hv_table_..
 * makes is held against loops over these. */
#ifndef HIVEVIGIL_PLAIN_ROWS_H
#define HIVEVIGIL_PLAIN_ROWS_H
#include "check.h"
#include "hivevigil_table_errors.h"

enum { MOST_ROWS = 120, MOST_COLUMNS = 6, NAMES = 8 };
enum { OF_I64, OF_U16, OF_TRUTHS, OF_TEXTS, KINDS };
static const hv_kind kinds[KINDS] = {{HV_I64, 1, 0, 0}, {HV_U16, 0, 0, 0}, {HV_BOOL, 1, 0, 0}, {HV_UTF8, 1, 0, 0}};
static const char *const names[NAMES] = {"a", "b", "", "level", "\xC3\xA9", "state", "c", "dd"};
static const char *const formats[3] = {"", "tsu:UTC", "no type"};

/* a row: of numbers as they are, of truths 0 or 1, of texts the letter that it is */
typedef struct plain_row {
    bool is_valid;
    int64_t number;
} plain_row;

typedef struct plain_column {
    const char *name, *format;
    int kind;
    bool may_be_null; /* as the type says */
    plain_row rows[MOST_ROWS];
} plain_column;

typedef struct plain_table {
    size_t rows, count;
    plain_column columns[MOST_COLUMNS];
} plain_table;

static hv_error error;

/* ---- Chance ---- */

static uint64_t state = 88172645463325252u;
static uint64_t chance(uint64_t below) {
    state ^= state << 13;
    state ^= state >> 7;
    state ^= state << 17;
    return (state >> 11) % below;
}

/* ---- Columns ---- */

/* The flat column of these rows, of the kind. */
static void make_flat(const plain_column *plain, size_t rows, hv_column *out) {
    int64_t numbers[MOST_ROWS];
    uint16_t shorts[MOST_ROWS];
    int32_t offsets[MOST_ROWS + 1] = {0};
    uint8_t bits[MOST_ROWS / 8 + 1] = {0}, truths[MOST_ROWS / 8 + 1] = {0}, letters[MOST_ROWS];
    for (size_t i = 0; i < rows; i++) {
        const plain_row row = plain->rows[i];
        numbers[i] = row.number, shorts[i] = (uint16_t)row.number, letters[i] = (uint8_t)row.number;
        offsets[i + 1] = (int32_t)(i + 1);
        if (row.is_valid) bits[i / 8] = (uint8_t)(bits[i / 8] | 1 << i % 8);
        if (row.number) truths[i / 8] = (uint8_t)(truths[i / 8] | 1 << i % 8);
    }
    const hv_validity validity = plain->may_be_null ? NULLS_BY(bits, 0) : NOT_NULLABLE;
    int32_t answer = 0;
    switch (plain->kind) {
    case OF_I64: answer = hv_i64(numbers, rows, validity, out, &error); break;
    case OF_U16: answer = hv_u16(shorts, rows, validity, out, &error); break;
    case OF_TRUTHS: answer = hv_bools(truths, sizeof truths, 0, rows, validity, out, &error); break;
    default: answer = hv_texts(0, offsets, rows + 1, letters, rows, validity, out, &error);
    }
    CHECK(!answer);
}

/* The same under its format, flat or in runs. */
static void make_column(const plain_column *plain, size_t rows, hv_column *out) {
    hv_column flat = HV_EMPTY, shaped = HV_EMPTY;
    make_flat(plain, rows, &flat);
    if (chance(2)) CHECK(!hv_encode_rows(&flat, &shaped, &error));
    else CHECK(!hv_clone(&flat, &shaped, &error));
    CHECK(!hv_with_type(&shaped, (const uint8_t *)plain->format, strlen(plain->format), out, &error));
    hv_free(&flat), hv_free(&shaped);
}

static plain_column random_column(size_t rows) {
    plain_column plain = {.kind = (int)chance(KINDS)};
    plain.name = names[chance(NAMES)], plain.format = formats[chance(3)];
    plain.may_be_null = kinds[plain.kind].nullable;
    const uint64_t stretch = 1 + chance(9);
    for (size_t i = 0; i < rows; i++) {
        if (i && chance(stretch)) {
            plain.rows[i] = plain.rows[i - 1];
            continue;
        }
        const int64_t number = (int64_t)chance(plain.kind == OF_TRUTHS ? 2 : 5);
        plain.rows[i].is_valid = !plain.may_be_null || chance(4);
        plain.rows[i].number = plain.rows[i].is_valid ? number + (plain.kind == OF_TEXTS ? 'a' : 0) : 0;
    }
    return plain;
}

/* ---- What a table holds ---- */

static bool is_row(plain_row row, const hv_value *value, const uint8_t *text) {
    switch (value->kind) {
    case HV_NULL: return !row.is_valid;
    case HV_UNSIGNED: return row.is_valid && value->as_unsigned == (uint64_t)row.number;
    case HV_SIGNED: return row.is_valid && value->as_signed == row.number;
    case HV_TRUTH: return row.is_valid && value->truth == row.number;
    case HV_TEXT: return row.is_valid && value->as_unsigned == 1 && text[0] == row.number;
    default: return false;
    }
}

static void check_column(const hv_table *table, size_t place, const plain_column *plain, size_t rows) {
    hv_column column = HV_EMPTY;
    uint8_t text[32];
    size_t size = 99, found = 99;
    CHECK(!hv_table_name(table, place, text, sizeof text, &size, &error));
    CHECK(size == strlen(plain->name) && !memcmp(text, plain->name, size));
    CHECK(!hv_table_place(table, text, size, &found, &error) && found == place);
    CHECK(!hv_table_column(table, place, &column, &error) && hv_length(&column) == rows);
    const hv_kind kind = hv_kind_of(&column);
    CHECK(kind.number == kinds[plain->kind].number && kind.nullable == plain->may_be_null);
    CHECK(!hv_type(&column, text, sizeof text, &size, &error));
    CHECK(size == strlen(plain->format) && !memcmp(text, plain->format, size));
    for (size_t row = 0; row < rows; row++) {
        hv_value value;
        CHECK(!hv_at(&column, row, &value, text, sizeof text, &error) && is_row(plain->rows[row], &value, text));
    }
    hv_free(&column);
}

/* The table has exactly these columns and rows. */
static void check_table(const hv_table *table, const plain_table *plain) {
    CHECK(hv_table_len(table) == plain->rows && hv_table_width(table) == plain->count);
    for (size_t place = 0; place < plain->count; place++)
        check_column(table, place, &plain->columns[place], plain->rows);
}
#endif
