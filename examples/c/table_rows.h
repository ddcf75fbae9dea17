/* Random tables, and the same rows in plain arrays, which share nothing with the headers of tables: each row is null, a
 * number or a text. What a table answers is held against loops over these. */
#ifndef HIVEVIGIL_TABLE_ROWS_H
#define HIVEVIGIL_TABLE_ROWS_H
#include "table_checks.h"

enum { MOST_ROWS = 600, MOST_ITEMS = MOST_ROWS + 4, MOST_COLUMNS = 6, MOST_LETTERS = 5 };
__extension__ typedef __int128 plain_number;

typedef struct plain_row {
    bool is_valid;
    plain_number number; /* an integer, a truth, the digits of a decimal, the key of a float */
    size_t length;       /* of a text, or of a list */
    uint8_t letters[MOST_LETTERS];
} plain_row;

typedef struct plain_column {
    hv_kind kind;
    const char *format;
    char name[2];
    plain_row rows[MOST_ROWS];
} plain_column;

typedef struct plain_table {
    size_t rows, count;
    plain_column columns[MOST_COLUMNS];
} plain_table;

static hv_session session;
static hv_error error;

/* ---- Chance ---- */

static uint64_t state = 88172645463325252u;
static uint64_t chance(uint64_t below) {
    state ^= state << 13;
    state ^= state >> 7;
    state ^= state << 17;
    return (state >> 11) % below;
}

/* ---- Plain rows ---- */

static bool is_text(hv_kind kind) { return kind.number == HV_UTF8 || kind.number == HV_BINARY; }
static bool has_letters(hv_kind kind) { return is_text(kind) || kind.number == HV_LIST; }

static int compare_values(const plain_row *left, const plain_row *right, hv_kind kind) {
    if (!has_letters(kind)) return left->number < right->number ? -1 : left->number > right->number;
    for (size_t i = 0; i < left->length && i < right->length; i++)
        if (left->letters[i] != right->letters[i]) return left->letters[i] < right->letters[i] ? -1 : 1;
    return left->length < right->length ? -1 : left->length > right->length;
}

static bool are_equal(const plain_row *left, const plain_row *right, hv_kind kind) {
    if (!left->is_valid || !right->is_valid) return left->is_valid == right->is_valid;
    return compare_values(left, right, kind) == 0;
}

/* The place in the total order of a float, counted from 0.0, by the bits of its width. */
static plain_number key_of(uint64_t bits, int width) {
    const uint64_t sign = (uint64_t)1 << (width - 1);
    return bits < sign ? (plain_number)bits : -1 - (plain_number)(bits - sign);
}

/* 0.25, -1.5, 0.0, -0.0, 4.0, both infinities, and two NaNs of each sign, one with a payload, of 16, 32 and 64 bits */
enum { FLOATS = 11 };
static const uint64_t floats[3][FLOATS] = {
    {0x3400, 0xBE00, 0, 0x8000, 0x4400, 0x7C00, 0xFC00, 0x7E00, 0x7C01, 0xFE00, 0xFFFF},
    {0x3E800000, 0xBFC00000, 0, 0x80000000, 0x40800000, 0x7F800000, 0xFF800000, 0x7FC00000, 0x7F800001, 0xFFC00000,
     0xFFFFFFFF},
    {0x3FD0000000000000, 0xBFF8000000000000, 0, 0x8000000000000000, 0x4010000000000000, 0x7FF0000000000000,
     0xFFF0000000000000, 0x7FF8000000000000, 0x7FF0000000000001, 0xFFF8000000000000, 0xFFFFFFFFFFFFFFFF}};

static plain_number random_float(const char *format) {
    const int place = *format - 'e';
    return key_of(floats[place][chance(FLOATS)], 16 << place);
}

static plain_row random_value(const plain_column *column) {
    static const char *const texts[] = {"", "a", "ab", "b", "\xC3\xA9", "ba"};
    plain_row row;
    memset(&row, 0, sizeof row);
    row.is_valid = true;
    if (column->kind.number == HV_BINARY || column->kind.number == HV_LIST) {
        row.length = chance(4);
        for (size_t i = 0; i < row.length; i++) row.letters[i] = (uint8_t)(chance(3) * 127);
    } else if (column->kind.number == HV_UTF8) {
        const char *const text = texts[chance(COUNT(texts))];
        row.length = strlen(text);
        memcpy(row.letters, text, row.length);
    } else if (strchr("efg", *column->format) && *column->format) {
        row.number = random_float(column->format);
    } else if (column->kind.number == HV_BOOL) {
        row.number = (plain_number)chance(2);
    } else {
        const bool has_sign = column->kind.number >= HV_I8;
        row.number = has_sign ? (plain_number)chance(7) - 3 : (plain_number)chance(5) * 50;
        if (column->kind.number == HV_DECIMAL && chance(3) == 0) row.number *= (plain_number)1 << 100;
    }
    return row;
}

/* Rows of which many are as the one before. */
static void fill_rows(plain_column *column, size_t rows) {
    const uint64_t stays = 1 + chance(chance(2) ? 4 : 60);
    for (size_t row = 0; row < rows; row++) {
        if (row && chance(stays)) {
            column->rows[row] = column->rows[row - 1];
            continue;
        }
        column->rows[row] = random_value(column);
        if (column->kind.nullable && chance(4) == 0) memset(&column->rows[row], 0, sizeof column->rows[row]);
    }
}

static void random_column_type(plain_column *column) {
    static const struct {
        uint8_t number;
        const char *format;
    } types[] = {{HV_U8, ""},  {HV_U16, ""},  {HV_U32, ""},  {HV_U64, ""},  {HV_I8, ""},      {HV_I16, ""},
                 {HV_I32, ""}, {HV_I64, ""},  {HV_BOOL, ""}, {HV_UTF8, ""}, {HV_BINARY, ""},  {HV_DECIMAL, ""},
                 {HV_I16, "e"}, {HV_I32, "f"}, {HV_I64, "g"}, {HV_I32, "tdD"}, {HV_I64, "tDs"}, {HV_LIST, ""},
                 {HV_I32, "ttm"}, {HV_I64, "tsu:UTC"}};
    const size_t which = chance(COUNT(types));
    const bool is_decimal = types[which].number == HV_DECIMAL;
    column->kind.number = types[which].number;
    column->kind.nullable = (uint8_t)chance(2);
    column->kind.precision = is_decimal ? 38 : 0;
    column->kind.scale = is_decimal ? 2 : 0;
    column->format = types[which].format;
}

/* ---- As columns ---- */

/* Which rows are null: the bits are good until the next call. */
static hv_validity validity_of(const plain_row *rows, size_t count, hv_kind kind) {
    static uint8_t bits[MOST_ITEMS / 8 + 1];
    memset(bits, 0, sizeof bits);
    for (size_t row = 0; row < count; row++) bits[row / 8] |= (uint8_t)(rows[row].is_valid << row % 8);
    return kind.nullable ? hv_valid_bits(bits, sizeof bits, 0) : hv_not_nullable();
}

static void make_texts(const plain_row *rows, size_t count, hv_kind kind, hv_column *out) {
    static uint8_t bytes[MOST_ITEMS * MOST_LETTERS];
    static int32_t offsets[MOST_ITEMS + 1];
    for (size_t row = 0; row < count; row++) {
        memcpy(bytes + offsets[row], rows[row].letters, rows[row].length);
        offsets[row + 1] = offsets[row] + (int32_t)rows[row].length;
    }
    CHECK(!hv_texts(kind.number == HV_BINARY, offsets, count + 1, bytes, (size_t)offsets[count],
                    validity_of(rows, count, kind), out, &error));
}

static void make_lists(const plain_row *rows, size_t count, hv_kind kind, hv_column *out) {
    static uint8_t elements[MOST_ITEMS * MOST_LETTERS];
    static uint64_t offsets[MOST_ITEMS], sizes[MOST_ITEMS];
    hv_column flat = HV_EMPTY;
    size_t used = 0;
    for (size_t row = 0; row < count; row++) {
        memcpy(elements + used, rows[row].letters, rows[row].length);
        offsets[row] = used;
        sizes[row] = rows[row].length;
        used += rows[row].length;
    }
    CHECK(!hv_u8(elements, used, NOT_NULLABLE, &flat, &error));
    CHECK(!hv_lists(&flat, offsets, count, sizes, count, validity_of(rows, count, kind), out, &error));
    hv_free(&flat);
}

static void make_numbers(const plain_row *rows, size_t count, hv_kind kind, hv_column *out) {
    static uint64_t wide[MOST_ITEMS];
    static hv_pair pairs[MOST_ITEMS];
    static uint8_t bits[MOST_ITEMS / 8 + 1];
    const hv_validity valid = validity_of(rows, count, kind);
    const size_t width = (size_t)1 << kind.number % 4;
    memset(bits, 0, sizeof bits);
    for (size_t row = 0; row < count; row++) {
        const uint64_t low = (uint64_t)rows[row].number;
        memcpy((char *)wide + row * width, &low, width);
        pairs[row] = (hv_pair){low, (int64_t)(rows[row].number >> 64)};
        bits[row / 8] |= (uint8_t)((low & 1) << row % 8);
    }
    const void *const items = wide;
    int32_t answer = 0;
    switch (kind.number) {
    case HV_U8: answer = hv_u8(items, count, valid, out, &error); break;
    case HV_U16: answer = hv_u16(items, count, valid, out, &error); break;
    case HV_U32: answer = hv_u32(items, count, valid, out, &error); break;
    case HV_U64: answer = hv_u64(items, count, valid, out, &error); break;
    case HV_I8: answer = hv_i8(items, count, valid, out, &error); break;
    case HV_I16: answer = hv_i16(items, count, valid, out, &error); break;
    case HV_I32: answer = hv_i32(items, count, valid, out, &error); break;
    case HV_I64: answer = hv_i64(items, count, valid, out, &error); break;
    case HV_BOOL: answer = hv_bools(bits, sizeof bits, 0, count, valid, out, &error); break;
    default: answer = hv_decimals(pairs, count, kind.precision, kind.scale, valid, out, &error);
    }
    CHECK(!answer);
}

static void make_flat(const plain_row *rows, size_t count, hv_kind kind, hv_column *out) {
    if (is_text(kind)) make_texts(rows, count, kind, out);
    else if (kind.number == HV_LIST) make_lists(rows, count, kind, out);
    else make_numbers(rows, count, kind, out);
}

/* Runs of one to three equal rows, of which a window is shown: other rows lie before and after it. */
static void make_windowed(const plain_column *column, size_t count, hv_column *out) {
    static plain_row values[MOST_ITEMS];
    static uint64_t stops[MOST_ITEMS];
    size_t runs = 0, offset = 0;
    if (chance(2)) {
        values[runs] = random_value(column);
        stops[runs++] = offset = 1 + chance(3);
    }
    for (size_t row = 0; row < count; row++) {
        const size_t first = runs ? (size_t)stops[runs - 1] - offset : 0;
        if (row > 0 && first == row && chance(3) && are_equal(&values[runs - 1], &column->rows[row], column->kind)) {
            stops[runs - 1]++;
            continue;
        }
        values[runs] = column->rows[row];
        stops[runs++] = offset + row + 1;
    }
    if (chance(2) && runs) stops[runs - 1] += 3;
    hv_column ends = HV_EMPTY, flat = HV_EMPTY;
    CHECK(!hv_u64(stops, runs, NOT_NULLABLE, &ends, &error));
    make_flat(values, runs, column->kind, &flat);
    CHECK(!hv_runs(&ends, &flat, offset, count, out, &error));
    hv_free(&ends);
    hv_free(&flat);
}

/* One value in each row. */
static void make_constant(plain_column *column, size_t count, hv_column *out) {
    hv_value value = {0, 0, HV_NULL, 0, 0};
    uint8_t text[MOST_LETTERS + 1] = {0};
    if (column->rows[0].is_valid) {
        hv_column flat = HV_EMPTY;
        make_flat(column->rows, 1, column->kind, &flat);
        CHECK(!hv_at(&flat, 0, &value, text, sizeof text, &error));
        hv_free(&flat);
    }
    for (size_t row = 1; row < count; row++) column->rows[row] = column->rows[0];
    CHECK(!hv_constant(&column->kind, &value, text, column->rows[0].length, count, out, &error));
}

static void make_column(plain_column *column, size_t count, hv_column *out) {
    const uint64_t form = chance(8);
    hv_column flat = HV_EMPTY;
    if (form == 0 && count && column->kind.number != HV_LIST) make_constant(column, count, out);
    else if (form < 4) make_windowed(column, count, out);
    else make_flat(column->rows, count, column->kind, out);
    if (form < 6 || column->kind.number == HV_LIST) return;
    CHECK(!hv_encode_rows(out, &flat, &error));
    hv_put(out, &flat);
}

static inline void random_table(plain_table *plain, hv_table *out) {
    static const size_t sizes[] = {0, 1, 2, 9, 40, MOST_ROWS};
    hv_column columns[MOST_COLUMNS] = {HV_EMPTY};
    const char *names[MOST_COLUMNS];
    plain->rows = sizes[chance(COUNT(sizes))];
    plain->count = 1 + chance(MOST_COLUMNS);
    for (size_t i = 0; i < plain->count; i++) {
        plain_column *const column = &plain->columns[i];
        memset(column, 0, sizeof *column);
        random_column_type(column);
        column->name[0] = (char)('a' + (int)i);
        fill_rows(column, plain->rows);
        make_column(column, plain->rows, &columns[i]);
        give_format(&columns[i], column->format);
        names[i] = column->name;
    }
    CHECK(!hv_table_of(names, columns, plain->count, out, &error));
    for (size_t i = 0; i < plain->count; i++) hv_free(&columns[i]);
}

/* ---- Held against columns ---- */

static void check_value(const hv_column *column, size_t place, const plain_row *row, hv_kind kind) {
    hv_value value;
    uint8_t text[64];
    CHECK(!hv_at(column, place, &value, text, sizeof text, &error));
    CHECK((value.kind != HV_NULL) == row->is_valid);
    if (!row->is_valid) return;
    switch (value.kind) {
    case HV_UNSIGNED: CHECK((plain_number)value.as_unsigned == row->number); return;
    case HV_SIGNED: CHECK((plain_number)value.as_signed == row->number); return;
    case HV_TRUTH: CHECK(value.truth == (uint8_t)row->number); return;
    case HV_DECIMAL_VALUE:
        CHECK(value.as_unsigned == (uint64_t)row->number && value.as_signed == (int64_t)(row->number >> 64));
        return;
    default: CHECK(is_text(kind) && value.as_unsigned == row->length && !memcmp(text, row->letters, row->length));
    }
}

static void check_list(const hv_column *lists, size_t place, const plain_row *row) {
    hv_column parts[4] = {HV_EMPTY, HV_EMPTY, HV_EMPTY, HV_EMPTY};
    uint64_t start = 0, size = 0, word = 0;
    uint8_t items[MOST_LETTERS] = {0};
    CHECK(!hv_list_elements(lists, &parts[0], &error) && !hv_list_offsets(lists, &parts[1], &error));
    CHECK(!hv_list_sizes(lists, &parts[2], &error) && !hv_list_validity(lists, &parts[3], &error));
    CHECK(!hv_read_bools_from(&parts[3], place, 1, &word, 1, &error));
    CHECK((word & 1) == row->is_valid);
    if (row->is_valid) {
        CHECK(!hv_read_u64(&parts[1], place, &start, 1, &error) && !hv_read_u64(&parts[2], place, &size, 1, &error));
        CHECK(size == row->length && !hv_read_u8(&parts[0], start, items, size, &error));
        CHECK(!memcmp(items, row->letters, size));
    }
    for (int i = 0; i < 4; i++) hv_free(&parts[i]);
}

/* Are the rows of a column these, in this order? */
static void check_rows(const hv_column *column, const plain_column *plain, const size_t *order, size_t count) {
    hv_column lists = HV_EMPTY;
    CHECK(hv_length(column) == count && hv_kind_of(column).number == plain->kind.number);
    if (plain->kind.number == HV_LIST) CHECK(!hv_decode(&session, column, &lists, &error));
    for (size_t row = 0; row < count; row++) {
        const plain_row *const due = &plain->rows[order ? order[row] : row];
        if (plain->kind.number == HV_LIST) check_list(&lists, row, due);
        else check_value(column, row, due, plain->kind);
    }
    hv_free(&lists);
}

static inline void check_table(const hv_table *table, const plain_table *plain, const size_t *order) {
    CHECK(hv_table_len(table) == plain->rows && hv_table_width(table) == plain->count);
    for (size_t i = 0; i < plain->count; i++) {
        const plain_column *const due = &plain->columns[i];
        hv_column column = checked_column(table, i, due->name, due->format);
        CHECK(hv_kind_of(&column).nullable == due->kind.nullable);
        check_rows(&column, due, order, plain->rows);
        hv_free(&column);
    }
}

#endif
