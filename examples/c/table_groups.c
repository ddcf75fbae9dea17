/* Groups by names that are texts of C: what is answered by hand, each refusal with its fields, and each request for
 * memory refused in turn (linked with the malloc of refusing_malloc.h). table_group_by.c has random tables. */
#include "hivevigil_table_groups.h"
#include "refusing_malloc.h"
#include "table_checks.h"

static hv_error error;

/* ---- By hand ---- */

/* station  1 1 2 2 2 1
 * level    7 null 2^63-1 1 null 3
 * text     "b" "a" null null null ""
 * price    1.5 NaN 0.5 -0.5 0.5 null   (64 bits)
 * low      1.5 -NaN 0.5 -0.5 0.5 null */
static void make_measures(hv_table *table) {
    const char *const names[] = {"station", "level", "text", "price", "low"};
    const uint8_t stations[] = {1, 1, 2, 2, 2, 1};
    const int64_t levels[] = {7, 0, INT64_MAX, 1, 0, 3};
    const uint8_t levels_valid[] = {0x2D}, texts_valid[] = {0x23}, prices_valid[] = {0x1F};
    const int32_t offsets[] = {0, 1, 2, 2, 2, 2, 2};
    const double prices[] = {1.5, 0, 0.5, -0.5, 0.5, 0};
    hv_column columns[5] = {HV_EMPTY}, flat = HV_EMPTY;
    uint64_t bits[6];
    memcpy(bits, prices, sizeof bits);
    bits[1] = 0x7FF8000000000000;
    CHECK(!hv_u8(stations, 6, NOT_NULLABLE, &columns[0], &error));
    CHECK(!hv_i64(levels, 6, NULLS_BY(levels_valid, 0), &columns[1], &error));
    CHECK(!hv_texts(0, offsets, 7, (const uint8_t *)"ba", 2, NULLS_BY(texts_valid, 0), &columns[2], &error));
    CHECK(!hv_u64(bits, 6, NULLS_BY(prices_valid, 0), &flat, &error));
    CHECK(!hv_float_encode(&flat, 0, &columns[3], &error));
    bits[1] |= (uint64_t)1 << 63;
    CHECK(!hv_u64(bits, 6, NULLS_BY(prices_valid, 0), &flat, &error));
    CHECK(!hv_float_encode(&flat, 0, &columns[4], &error));
    give_format(&columns[3], "g"), give_format(&columns[4], "g");
    CHECK(!hv_table_of(names, columns, 5, table, &error));
    for (int i = 0; i < 5; i++) hv_free(&columns[i]);
    hv_free(&flat);
}

static const char *const station[] = {"station"}, *const both[] = {"station", "text"};
static const hv_table_answer all[] = {{"rows", HV_FOLD_ROWS, NULL},        {"levels", HV_FOLD_COUNT, "level"},
                                      {"texts", HV_FOLD_COUNT, "text"},    {"least", HV_FOLD_LEAST, "text"},
                                      {"greatest", HV_FOLD_GREATEST, "level"}, {"last", HV_FOLD_LAST, "text"},
                                      {"first", HV_FOLD_FIRST, "price"},   {"paid", HV_FOLD_SUM, "price"},
                                      {"cheap", HV_FOLD_LEAST, "price"},   {"high", HV_FOLD_GREATEST, "price"},
                                      {"low", HV_FOLD_LEAST, "low"}};
static const hv_table_answer nans[] = {{"high", HV_FOLD_GREATEST, "price"}, {"low", HV_FOLD_LEAST, "low"},
                                       {"count", HV_FOLD_COUNT, "low"},     {"last", HV_FOLD_LAST, "price"}};

static void check_by_hand(const hv_table *table) {
    hv_table out = HV_EMPTY;
    CHECK(!hv_table_grouping(table, station, 1, all, COUNT(all), &out, &error) && hv_table_width(&out) == 12);
    CHECK_ROWS_AT(&out, 0, "1 2 1");
    CHECK_ROWS_AT(&out, 1, "2 3 1");
    CHECK_ROWS_AT(&out, 2, "1 2 1");
    CHECK_ROWS_AT(&out, 3, "2 0 1");
    CHECK_ROWS_AT(&out, 4, "\"a\" null \"\"");
    CHECK_ROWS_AT(&out, 5, "7 9223372036854775807 3");
    CHECK_ROWS_AT(&out, 6, "\"a\" null \"\"");
    CHECK_ROWS_AT(&out, 7, "1.5 0.5 null");
    CHECK_ROWS_AT(&out, 8, "nan 0.5 null");
    CHECK_ROWS_AT(&out, 9, "1.5 -0.5 null");
    CHECK_ROWS_AT(&out, 10, "1.5 0.5 null");
    CHECK_ROWS_AT(&out, 11, "1.5 -0.5 null");
    for (size_t i = 0; i < COUNT(all); i++) {
        hv_column column = checked_column(&out, i + 1, all[i].name, i < 6 ? "" : "g");
        CHECK(hv_form(&column) == HV_FORM_FLAT);
        hv_free(&column);
    }
    CHECK(!hv_table_grouping(table, both, 2, nans, COUNT(nans), &out, &error)); /* "a" has only NaN */
    CHECK_ROWS_AT(&out, 2, "1.5 null 0.5 null");
    CHECK_ROWS_AT(&out, 3, "1.5 null -0.5 null");
    CHECK_ROWS_AT(&out, 4, "1 1 3 0");
    CHECK_ROWS_AT(&out, 5, "1.5 nan 0.5 null");
    CHECK(!hv_table_grouping(table, both, 2, all, 1, &out, &error) && hv_table_width(&out) == 3);
    CHECK_ROWS_AT(&out, 0, "1 1 2 1");
    CHECK_ROWS_AT(&out, 1, "\"b\" \"a\" null \"\"");
    CHECK_ROWS_AT(&out, 2, "1 1 3 1");
    CHECK(!hv_table_grouping(table, station, 1, NULL, 0, &out, &error));
    CHECK(hv_table_width(&out) == 1 && hv_table_len(&out) == 3);
    hv_table_free(&out);
}

static void check_refusals(const hv_table *table) {
    static const hv_table_answer sum[] = {{"rows", HV_FOLD_ROWS, NULL}, {"sum", HV_FOLD_SUM, "level"}};
    static const hv_table_answer names[] = {{"a", HV_FOLD_ROWS, NULL}, {"station", HV_FOLD_ROWS, NULL}};
    static const hv_table_answer none[] = {{"a", HV_FOLD_LAST, "to"}}, bad[] = {{"a", HV_FOLD_LAST + 1, "level"}};
    static const hv_table_answer text[] = {{"a", HV_FOLD_SUM, "text"}}, bytes[] = {{"\xff", HV_FOLD_ROWS, NULL}};
    static const hv_table_answer of_bytes[] = {{"a", HV_FOLD_LAST, "\xff"}};
    static const hv_table_answer large[] = {{"sum", HV_FOLD_SUM, "level"}, {"a", HV_FOLD_SUM, "text"}};
    const char *const twice[] = {"text", "station", "text"}, *const gone[] = {"to"}, *const key[] = {"\xff"};
    hv_table out = HV_EMPTY;
    CHECK(!hv_table_slice(table, 0, 1, &out, &error));
    CHECK_REFUSED(hv_table_grouping(table, station, 0, sum, 2, &out, &error), HV_TABLE_NO_KEYS, 0, 0, 0);
    CHECK_REFUSED(hv_table_grouping(table, twice, 3, sum, 1, &out, &error), HV_TABLE_NAME_TWICE, 0, 2, 0);
    CHECK_REFUSED(hv_table_grouping(table, gone, 1, names, 2, &out, &error), HV_TABLE_UNKNOWN_NAME, 0, 0, 0);
    CHECK_REFUSED(hv_table_grouping(table, station, 1, names, 2, &out, &error), HV_TABLE_ANSWER_TWICE, 0, 1, 0);
    CHECK_REFUSED(hv_table_grouping(table, station, 1, none, 1, &out, &error), HV_TABLE_UNKNOWN_COLUMN, 0, 0, 0);
    CHECK_REFUSED(hv_table_grouping(table, station, 1, text, 1, &out, &error), HV_TABLE_UNSUPPORTED_ANSWER, 0, 0, 0);
    CHECK_REFUSED(hv_table_grouping(table, station, 1, large, 2, &out, &error), HV_TABLE_UNSUPPORTED_ANSWER, 1, 0, 0);
    CHECK_REFUSED(hv_table_grouping(table, station, 1, sum, 2, &out, &error), HV_TABLE_SUM_OVERFLOW, 1, 1, 0);
    CHECK(hv_table_grouping(table, station, 1, bad, 1, &out, &error) == HV_BAD_NUMBER);
    CHECK(hv_table_grouping(table, key, 1, sum, 1, &out, &error) == HV_TYPE_MISMATCH);
    CHECK(hv_table_grouping(table, station, 1, bytes, 1, &out, &error) == HV_TYPE_MISMATCH);
    CHECK(hv_table_grouping(table, station, 1, of_bytes, 1, &out, NULL) == HV_TYPE_MISMATCH);
    CHECK(hv_table_len(&out) == 1 && hv_table_width(&out) == 5);
    hv_table_free(&out);
}

/* A format with a zero byte is none of durations, and stays with the values. */
static void check_zero_format(void) {
    const char *const names[] = {"key", "number"}, *const key[] = {"key"};
    const hv_table_answer asked[] = {{"least", HV_FOLD_LEAST, "number"}, {"sum", HV_FOLD_SUM, "number"}};
    const uint8_t keys[] = {1, 1};
    const int64_t numbers[] = {6, 5};
    uint8_t format[8];
    size_t size = 0;
    hv_column columns[2] = {HV_EMPTY, HV_EMPTY};
    hv_table table = HV_EMPTY, out = HV_EMPTY;
    CHECK(!hv_u8(keys, 2, NOT_NULLABLE, &columns[0], &error) && !hv_i64(numbers, 2, NO_NULLS, &columns[1], &error));
    CHECK(!hv_table_give_format(&columns[1], "tDs", 4, &error));
    CHECK(!hv_table_of(names, columns, 2, &table, &error));
    CHECK(!hv_table_grouping(&table, key, 1, asked, 2, &out, &error));
    CHECK(!hv_table_column(&out, 1, &columns[0], &error) && !hv_table_column(&out, 2, &columns[1], &error));
    CHECK(!hv_type(&columns[0], format, sizeof format, &size, &error) && size == 4 && !memcmp(format, "tDs", 4));
    CHECK(!hv_type(&columns[1], format, sizeof format, &size, &error) && size == 0);
    CHECK_ROWS(&columns[0], "5");
    CHECK_ROWS(&columns[1], "11");
    for (int i = 0; i < 2; i++) hv_free(&columns[i]);
    hv_table_free(&table), hv_table_free(&out);
}

/* Sums of decimals that leave 38 digits, in the second group. */
static void check_decimals(void) {
    const char *const names[] = {"key", "number"}, *const key[] = {"key"};
    const hv_table_answer sum[] = {{"sum", HV_FOLD_SUM, "number"}};
    const uint8_t keys[] = {1, 1, 2, 2};
    const hv_pair most = {UINT64_MAX, INT64_MAX}, few = {5, 0};
    hv_pair pairs[] = {few, few, most, few};
    hv_column columns[2] = {HV_EMPTY, HV_EMPTY};
    hv_table table = HV_EMPTY, out = HV_EMPTY;
    for (int is_small = 0; is_small < 2; is_small++) {
        CHECK(!hv_u8(keys, 4, NOT_NULLABLE, &columns[0], &error));
        CHECK(!hv_decimals(pairs, 4, 5, 2, NOT_NULLABLE, &columns[1], &error));
        CHECK(!hv_table_of(names, columns, 2, &table, &error));
        if (is_small) CHECK(!hv_table_grouping(&table, key, 1, sum, 1, &out, &error));
        else CHECK_REFUSED(hv_table_grouping(&table, key, 1, sum, 1, &out, &error), HV_TABLE_SUM_OVERFLOW, 0, 1, 0);
        pairs[2] = few;
    }
    CHECK(!hv_table_column(&out, 1, &columns[1], &error));
    CHECK_ROWS(&columns[1], "0:10 0:10");
    CHECK(hv_kind_of(&columns[1]).precision == 38 && hv_kind_of(&columns[1]).scale == 2);
    for (int i = 0; i < 2; i++) hv_free(&columns[i]);
    hv_table_free(&table);
    hv_table_free(&out);
}

/* ---- Each request for memory refused in turn ---- */

static void check_memory(const hv_table *table) {
    hv_table out = HV_EMPTY;
    long tried = 0;
    for (long at = 0;; at++) {
        CHECK(!hv_table_slice(table, 0, 1, &out, &error));
        const long before = blocks;
        requests = refused = 0, refuse_at = at;
        const int32_t answer = hv_table_grouping(table, both, 2, all, COUNT(all), &out, &error);
        refuse_at = -1;
        if (refused == 0) {
            CHECK(!answer);
            break;
        }
        tried++;
        CHECK(answer == HV_OUT_OF_MEMORY || !answer);
        if (answer) CHECK(blocks == before && hv_table_len(&out) == 1 && hv_table_width(&out) == 5);
    }
    CHECK(tried > 100);
    printf("%ld requests for memory refused\n", tried);
    hv_table_free(&out);
}

int main(void) {
    hv_table table = HV_EMPTY;
    make_measures(&table);
    check_by_hand(&table);
    check_refusals(&table);
    check_zero_format();
    check_decimals();
    check_memory(&table);
    hv_table_free(&table);
    CHECK(blocks == 0);
    return 0;
}
