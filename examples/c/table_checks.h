/* What the tests of tables in C share: tables as text, and the columns that they hold. */
#ifndef HIVEVIGIL_TABLE_CHECKS_H
#define HIVEVIGIL_TABLE_CHECKS_H
#include "check.h"
#include "hivevigil_table_errors.h"
#include "hivevigil_table_helpers.h"

/* The rows of the column of a place, as CHECK_ROWS has them, and a whole table: its rows, and the names, formats and
 * rows of its columns. */
#define CHECK_ROWS_AT(table, place, rows) check_text(rows_at((table), (place)), (rows), #table, __FILE__, __LINE__)
#define CHECK_TABLE(table, rows) check_text(shown(table), (rows), #table, __FILE__, __LINE__)

static inline void give_format(hv_column *column, const char *format) {
    CHECK(!hv_table_give_format(column, format, strlen(format), NULL));
}

static inline bool has_shape(const hv_table *table, size_t rows, size_t columns) {
    return hv_table_len(table) == rows && hv_table_width(table) == columns;
}

/* The column of a place, which has this name and this format, without the format; the caller frees it. */
static inline hv_column checked_column(const hv_table *table, size_t place, const char *name, const char *format) {
    hv_column column = HV_EMPTY;
    uint8_t text[64];
    size_t size = 0;
    CHECK(!hv_table_name(table, place, text, sizeof text, &size, NULL));
    CHECK(size == strlen(name) && !memcmp(text, name, size));
    CHECK(!hv_table_column(table, place, &column, NULL));
    CHECK(!hv_type(&column, text, sizeof text, &size, NULL));
    CHECK(size == strlen(format) && !memcmp(text, format, size));
    give_format(&column, "");
    return column;
}

static inline const char *rows_at(const hv_table *table, size_t place) {
    hv_column column = HV_EMPTY;
    CHECK(!hv_table_column(table, place, &column, NULL));
    const char *const rows = rows_of(&column);
    hv_free(&column);
    return rows;
}

static inline uint8_t form_at(const hv_table *table, size_t place) {
    hv_column column = HV_EMPTY;
    CHECK(!hv_table_column(table, place, &column, NULL));
    const uint8_t form = hv_form(&column);
    hv_free(&column);
    return form;
}

/* A table as text, in memory that is good until the next call. */
static inline const char *shown(const hv_table *table) {
    static char text[1 << 12];
    hv_table_columns held = HV_TABLE_NO_COLUMNS;
    size_t used = (size_t)snprintf(text, sizeof text, "%zu", hv_table_len(table));
    CHECK(!hv_table_columns_of(table, &held, NULL));
    for (size_t i = 0; i < held.count; i++)
        used += (size_t)snprintf(text + used, sizeof text - used, " | %s:%s %s", held.names[i].at, held.formats[i].at,
                                 rows_of(&held.columns[i]));
    hv_table_columns_free(&held);
    return text;
}

/* station       "north" "north" "south" "south"
 * level         900     null    41      40
 * at:tss:UTC    10      20      30      40       in runs */
static const char *const readings_shown =
    "4 | station: \"north\" \"north\" \"south\" \"south\" | level: 900 null 41 40 | at:tss:UTC 10 20 30 40";
static const char *const readings_names[] = {"station", "level", "at"};

static inline void make_readings(hv_table *table) {
    const int32_t offsets[] = {0, 5, 10, 15, 20};
    const int64_t levels[] = {900, 0, 41, 40}, times[] = {10, 20, 30, 40};
    const uint8_t valid[] = {0x0D};
    hv_column columns[3] = {HV_EMPTY, HV_EMPTY, HV_EMPTY}, flat = HV_EMPTY;
    CHECK(!hv_texts(0, offsets, 5, (const uint8_t *)"northnorthsouthsouth", 20, NOT_NULLABLE, &columns[0], NULL));
    CHECK(!hv_i64(levels, 4, NULLS_BY(valid, 0), &columns[1], NULL));
    CHECK(!hv_i64(times, 4, NOT_NULLABLE, &flat, NULL) && !hv_encode_rows(&flat, &columns[2], NULL));
    give_format(&columns[2], "tss:UTC");
    CHECK(!hv_table_of(readings_names, columns, 3, table, NULL));
    for (size_t i = 0; i < 3; i++) hv_free(&columns[i]); /* the table has its own */
    hv_free(&flat);
}

/* price:g    0.5 0.5 null -0.0    in runs */
static inline void make_prices(hv_table *table) {
    const double numbers[] = {0.5, 0.5, 0.0, -0.0};
    const char *const name[] = {"price"};
    const uint8_t valid[] = {0x0B};
    uint64_t bits[4];
    hv_column flat = HV_EMPTY, prices = HV_EMPTY;
    memcpy(bits, numbers, sizeof bits);
    CHECK(!hv_u64(bits, 4, NULLS_BY(valid, 0), &flat, NULL) && !hv_float_encode(&flat, 0, &prices, NULL));
    give_format(&prices, "g");
    CHECK(!hv_table_of(name, &prices, 1, table, NULL));
    hv_free(&flat);
    hv_free(&prices);
}
#endif
