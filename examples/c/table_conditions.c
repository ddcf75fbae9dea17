/* What headers over the calls on tables add to these, names as texts of C and rows of two types that are joined, and
 * conditions of any number, by hand; each refusal with its fields, after which every table is as it was, and each
 * request for memory refused in turn (linked with the malloc of refusing_malloc.h). */
#include "hivevigil_table_concat.h"
#include "hivevigil_decimals.h"
#include "refusing_malloc.h"
#include "table_checks.h"

static hv_session session;
static hv_error error;
static const char *const one_row = "1 | station: \"north\" | level: 900 | at:tss:UTC 10";

/* ---- Names ---- */

static void check_names(const hv_table *table) {
    const char *const some[] = {"at", "", "at"}, *const bad[] = {"a", "\xff"};
    hv_table out = HV_EMPTY;
    hv_column texts = HV_EMPTY, columns[3] = {HV_EMPTY, HV_EMPTY, HV_EMPTY};
    hv_table_text name = HV_TABLE_NO_TEXT;
    for (size_t i = 0; i < 3; i++) CHECK(!hv_table_column(table, i, &columns[i], &error));
    CHECK(!hv_table_names(some, 3, &texts, &error));
    CHECK_ROWS(&texts, "\"at\" \"\" \"at\"");
    CHECK(!hv_table_names(NULL, 0, &texts, &error) && hv_length(&texts) == 0 && hv_kind_of(&texts).number == HV_UTF8);
    CHECK(hv_table_names(bad, 2, &texts, &error) == HV_TYPE_MISMATCH && hv_length(&texts) == 0);
    CHECK(!hv_table_of(some, columns, 2, &out, &error));
    CHECK_TABLE(&out, "4 | at: \"north\" \"north\" \"south\" \"south\" | : 900 null 41 40");
    CHECK_REFUSED(hv_table_of(some, columns, 3, &out, &error), HV_TABLE_NAME_TWICE, 0, 2, 0);
    CHECK(hv_table_of(bad, columns, 2, &out, &error) == HV_TYPE_MISMATCH && has_shape(&out, 4, 2));
    CHECK(!hv_table_put_named(&out, "at", &columns[2], &error) && !hv_table_add(&out, "level", &columns[1], &error));
    CHECK_TABLE(&out, "4 | at:tss:UTC 10 20 30 40 | : 900 null 41 40 | level: 900 null 41 40");
    CHECK_REFUSED(hv_table_add(&out, "", &columns[1], &error), HV_TABLE_NAME_TWICE, 1, 3, 0);
    CHECK(!hv_slice(&session, &columns[1], 0, 3, &columns[0], &error));
    CHECK_REFUSED(hv_table_add(&out, "new", &columns[0], &error), HV_TABLE_ROW_COUNT, 3, 3, 4);
    CHECK(hv_table_add(&out, "new", &(hv_column)HV_EMPTY, &error) == HV_NO_COLUMN);
    CHECK_REFUSED(hv_table_column_named(&out, "gone", &columns[0], &error), HV_TABLE_UNKNOWN_NAME, 0, 0, 0);
    CHECK(!hv_table_column_named(&out, "at", &columns[0], &error));
    CHECK_ROWS(&columns[0], "10 20 30 40");
    CHECK_REFUSED(hv_table_name_of(&out, 3, &name, &error), HV_OUT_OF_BOUNDS, 3, 3, 0);
    hv_table_replace(&out, &out);
    CHECK(has_shape(&out, 4, 3));
    for (size_t i = 0; i < 3; i++) hv_free(&columns[i]);
    hv_free(&texts);
    hv_table_free(&out);
}

/* ---- Conditions ---- */

static int32_t filter_by(const hv_table *table, const char *name, uint8_t operator_, hv_value value, const char *text,
                         hv_table *out) {
    return hv_table_filter_by(table, (const uint8_t *)name, strlen(name), operator_, &value, (const uint8_t *)text,
                              strlen(text), out, &error);
}

static void check_filter(const hv_table *table, const char *name, uint8_t operator_, hv_value value, const char *text,
                         const char *due) {
    hv_table found = HV_EMPTY;
    CHECK(!filter_by(table, name, operator_, value, text, &found));
    CHECK_TABLE(&found, due);
    hv_table_free(&found);
}

static hv_value double_value(double number) {
    hv_value value = {0, 0, HV_DOUBLE, 0, 0};
    memcpy(&value.as_unsigned, &number, sizeof number);
    return value;
}

static const hv_value level = {0, 41, HV_SIGNED, 0, 0}, text = {0, 0, HV_TEXT, 0, 0}, null = {0, 0, HV_NULL, 0, 0};

static void check_conditions(const hv_table *table) {
    const hv_value unsigned_level = {41, 0, HV_UNSIGNED, 0, 0}, scaled = {405, 0, HV_SCALED, 0, 1};
    check_filter(table, "level", HV_GT, level, "", one_row);
    check_filter(table, "level", HV_LE, level, "",
                 "2 | station: \"south\" \"south\" | level: 41 40 | at:tss:UTC 30 40");
    check_filter(table, "station", HV_NE, text, "south",
                 "2 | station: \"north\" \"north\" | level: 900 null | at:tss:UTC 10 20");
    check_filter(table, "station", HV_EQ, null, "", "0 | station:  | level:  | at:tss:UTC ");
    check_filter(table, "level", HV_EQ, unsigned_level, "", "1 | station: \"south\" | level: 41 | at:tss:UTC 30");
    check_filter(table, "level", HV_LT, double_value(40.5), "", "1 | station: \"south\" | level: 40 | at:tss:UTC 40");
    check_filter(table, "level", HV_LT, scaled, "", "1 | station: \"south\" | level: 40 | at:tss:UTC 40");
    check_filter(table, "at", HV_GE, level, "", "0 | station:  | level:  | at:tss:UTC ");
}

static void check_conditions_of_floats(void) {
    hv_table prices = HV_EMPTY;
    make_prices(&prices); /* 0.5 0.5 null -0.0 */
    check_filter(&prices, "price", HV_LT, level, "", "3 | price:g 0.5 0.5 -0");
    check_filter(&prices, "price", HV_EQ, double_value(0.0), "", "1 | price:g -0"); /* as numbers */
    check_filter(&prices, "price", HV_LT, double_value(0.75), "", "3 | price:g 0.5 0.5 -0");
    check_filter(&prices, "price", HV_GT, double_value(0.5), "", "0 | price:g ");
    hv_table_free(&prices);
}

/* A format with a zero byte is none of floats. */
static void check_conditions_of_zero(void) {
    const char *const name[] = {"a"};
    const int64_t rows[] = {5, 6};
    hv_table table = HV_EMPTY, found = HV_EMPTY;
    hv_column column = HV_EMPTY;
    CHECK(!hv_i64(rows, 2, NOT_NULLABLE, &column, &error) && !hv_table_give_format(&column, "g", 2, &error));
    CHECK(!hv_table_of(name, &column, 1, &table, &error));
    CHECK(!filter_by(&table, "a", HV_EQ, double_value(5), "", &found));
    CHECK_ROWS_AT(&found, 0, "5");
    hv_free(&column);
    hv_table_free(&table), hv_table_free(&found);
}

static void check_refused_conditions(const hv_table *table) {
    hv_table out = HV_EMPTY, prices = HV_EMPTY;
    make_prices(&prices);
    CHECK(!hv_table_slice(table, 0, 1, &out, &error));
    CHECK_REFUSED(filter_by(table, "to", HV_EQ, level, "", &out), HV_TABLE_UNKNOWN_NAME, 0, 0, 0);
    CHECK_REFUSED(filter_by(table, "station", HV_EQ, double_value(9), "", &out), HV_TYPE_MISMATCH, 0, 0, 0);
    CHECK_REFUSED(filter_by(table, "at", HV_EQ, double_value(9), "", &out), HV_TYPE_MISMATCH, 0, 0, 0);
    CHECK_REFUSED(filter_by(&prices, "price", HV_EQ, text, "south", &out), HV_TYPE_MISMATCH, 0, 0, 0);
    CHECK(filter_by(table, "level", HV_EQ, text, "south", &out) == HV_TYPE_MISMATCH);
    CHECK(filter_by(table, "level", HV_LE + 1, level, "", &out) == HV_BAD_NUMBER);
    CHECK_TABLE(&out, one_row);
    CHECK_TABLE(table, readings_shown);
    hv_table_free(&out);
    hv_table_free(&prices);
}

/* ---- Rows of two tables ---- */

/* The columns of these names, in this order. */
static void choose(const hv_table *table, const char *const *names, size_t count, hv_table *out) {
    hv_column texts = HV_EMPTY;
    CHECK(!hv_table_names(names, count, &texts, &error) && !hv_table_select(table, &texts, out, &error));
    hv_free(&texts);
}

static void check_concat(const hv_table *table) {
    const char *const turned[] = {"at", "station", "level"};
    hv_table other = HV_EMPTY, out = HV_EMPTY;
    choose(table, turned, 3, &other);
    CHECK(!hv_table_concat(&session, &other, table, &out, &error));
    CHECK_TABLE(&out, "8 | at:tss:UTC 10 20 30 40 10 20 30 40 | station: \"north\" \"north\" \"south\" \"south\" "
                      "\"north\" \"north\" \"south\" \"south\" | level: 900 null 41 40 900 null 41 40");
    CHECK(!hv_table_concat(&session, table, table, &out, &error) && has_shape(&out, 8, 3)); /* itself */
    hv_table_free(&other);
    hv_table_free(&out);
}

/* lists [3] [4], a number without null, and money of two digits after the point; those of the other with null, and of
 * three digits */
static void make_mixed(bool is_other, hv_table *out) {
    const char *const names[] = {"lists", "number", "money"};
    const uint64_t starts[] = {0, 1}, sizes[] = {1, 1};
    const uint8_t items[] = {3, 4};
    const hv_pair pairs[] = {{150, 0}, {275, 0}};
    hv_column columns[3] = {HV_EMPTY, HV_EMPTY, HV_EMPTY}, elements = HV_EMPTY;
    CHECK(!hv_u8(items, 2, NOT_NULLABLE, &elements, &error));
    CHECK(!hv_lists(&elements, starts, 2, sizes, 2, NOT_NULLABLE, &columns[0], &error));
    CHECK(!hv_u8(items, 2, is_other ? NO_NULLS : NOT_NULLABLE, &columns[1], &error));
    CHECK(!hv_decimals(pairs, 2, 5, is_other ? 3 : 2, NOT_NULLABLE, &columns[2], &error));
    give_format(&columns[0], "of lists");
    CHECK(!hv_table_of(names, columns, 3, out, &error));
    for (int i = 0; i < 3; i++) hv_free(&columns[i]);
    hv_free(&elements);
}

static void check_mixed(void) {
    hv_table first = HV_EMPTY, second = HV_EMPTY, out = HV_EMPTY;
    hv_column lists = HV_EMPTY, flat = HV_EMPTY, elements = HV_EMPTY;
    make_mixed(false, &first), make_mixed(true, &second);
    CHECK_REFUSED(hv_table_append(&first, &second, &out, &error), HV_TABLE_OTHER_TYPE, 1, 0, 0);
    CHECK(!hv_table_concat(&session, &first, &second, &out, &error) && has_shape(&out, 4, 3));
    CHECK_ROWS_AT(&out, 1, "3 4 3 4");
    CHECK_ROWS_AT(&out, 2, "0:1500 0:2750 0:150 0:275");
    lists = checked_column(&out, 0, "lists", "of lists");
    CHECK(!hv_decode(&session, &lists, &flat, &error) && !hv_list_elements(&flat, &elements, &error));
    CHECK_ROWS(&elements, "3 4 3 4");
    hv_free(&lists), hv_free(&flat), hv_free(&elements);
    hv_table_free(&first), hv_table_free(&second), hv_table_free(&out);
}

static void check_refused_concat(const hv_table *table) {
    const char *const two[] = {"station", "level"}, *const turned[] = {"level", "station", "at"};
    hv_table other = HV_EMPTY, out = HV_EMPTY;
    hv_column columns[3] = {HV_EMPTY, HV_EMPTY, HV_EMPTY};
    for (size_t i = 0; i < 3; i++) CHECK(!hv_table_column(table, i, &columns[i], &error));
    choose(table, two, 2, &other);
    CHECK_REFUSED(hv_table_concat(&session, table, &other, &out, &error), HV_TABLE_OTHER_NAMES, 0, 0, 0);
    CHECK_REFUSED(hv_table_concat(&session, &other, table, &out, &error), HV_TABLE_OTHER_NAMES, 0, 0, 0);
    CHECK(!hv_table_of(turned, columns, 3, &other, &error));
    CHECK_REFUSED(hv_table_concat(&session, table, &other, &out, &error), HV_TABLE_OTHER_TYPE, 0, 0, 0);
    give_format(&columns[2], "");
    CHECK(!hv_table_of(readings_names, columns, 3, &other, &error)); /* another format */
    CHECK_REFUSED(hv_table_concat(&session, table, &other, &out, &error), HV_TABLE_OTHER_TYPE, 2, 0, 0);
    CHECK(hv_table_concat(&session, table, &(hv_table)HV_EMPTY, &out, &error) == HV_NO_COLUMN);
    CHECK(hv_table_concat(&session, &(hv_table)HV_EMPTY, table, &out, &error) == HV_NO_COLUMN && !out.at);
    for (size_t i = 0; i < 3; i++) hv_free(&columns[i]);
    hv_table_free(&other);
}

/* Rows that 64 bits count or not, the sum worked out with 128. */
static void check_many_rows(void) {
    const size_t rows[] = {0, 1, SIZE_MAX / 2, SIZE_MAX / 2 + 1, SIZE_MAX - 1, SIZE_MAX};
    hv_table first = HV_EMPTY, second = HV_EMPTY, both = HV_EMPTY;
    for (size_t i = 0; i < COUNT(rows); i++)
        for (size_t j = 0; j < COUNT(rows); j++) {
            const hv_decimal_wide sum = (hv_decimal_wide)rows[i] + rows[j];
            CHECK(!hv_table_new(rows[i], &first, &error) && !hv_table_new(rows[j], &second, &error));
            CHECK(!hv_table_new(3, &both, &error));
            if (sum > SIZE_MAX)
                CHECK_REFUSED(hv_table_concat(&session, &first, &second, &both, &error), HV_WINDOW_OVERFLOW, 0, 0, 0);
            else CHECK(!hv_table_concat(&session, &first, &second, &both, &error));
            CHECK(hv_table_len(&both) == (sum > SIZE_MAX ? 3 : (size_t)sum));
        }
    hv_table_free(&first), hv_table_free(&second), hv_table_free(&both);
}

/* ---- Each request for memory refused in turn ---- */

static hv_table lent = HV_EMPTY, mixed = HV_EMPTY, other_mixed = HV_EMPTY, out = HV_EMPTY;
static hv_column given[3] = {HV_EMPTY, HV_EMPTY, HV_EMPTY};
static hv_error *fields = &error; /* or null: the calls answer the same */

static int32_t calls_of(void) { return hv_table_of(readings_names, given, 3, &out, fields); }
static int32_t calls_concat(void) { return hv_table_concat(&session, &lent, &lent, &out, fields); }
static int32_t calls_concat_mixed(void) { return hv_table_concat(&session, &mixed, &other_mixed, &out, fields); }

/* How many requests were refused. */
static long refuse_each(int32_t (*call)(void)) {
    for (long at = 0;; at++) {
        CHECK(!hv_table_slice(&lent, 0, 1, &out, &error));
        const long before = blocks;
        requests = refused = 0, refuse_at = at;
        const int32_t answer = call();
        refuse_at = -1;
        if (refused == 0) {
            CHECK(!answer);
            return at;
        }
        CHECK(answer == HV_OUT_OF_MEMORY || !answer); /* some calls go on without */
        CHECK(!answer || blocks == before);
        if (answer) CHECK_TABLE(&out, one_row);
        CHECK_TABLE(&lent, readings_shown);
    }
}

static void check_memory(void) {
    int32_t (*const calls[])(void) = {calls_of, calls_concat, calls_concat_mixed};
    long tried = 0;
    make_readings(&lent), make_mixed(false, &mixed), make_mixed(true, &other_mixed);
    for (size_t i = 0; i < 3; i++) CHECK(!hv_table_column(&lent, i, &given[i], &error));
    for (size_t i = 0; i < COUNT(calls); i++) tried += refuse_each(calls[i]);
    fields = NULL;
    for (size_t i = 0; i < COUNT(calls); i++) tried += refuse_each(calls[i]);
    for (size_t i = 0; i < 3; i++) hv_free(&given[i]);
    hv_table_free(&lent), hv_table_free(&mixed), hv_table_free(&other_mixed), hv_table_free(&out);
    CHECK(tried > 100);
    printf("%ld requests for memory refused\n", tried);
}

int main(void) {
    hv_table table = HV_EMPTY;
    hv_session_initial(&session);
    make_readings(&table);
    check_names(&table);
    check_conditions(&table);
    check_conditions_of_floats();
    check_conditions_of_zero();
    check_refused_conditions(&table);
    check_concat(&table);
    check_mixed();
    check_refused_concat(&table);
    check_many_rows();
    hv_table_free(&table);
    check_memory();
    CHECK(blocks == 0);
    printf("names, conditions and joined rows as they are by hand\n");
    return 0;
}
