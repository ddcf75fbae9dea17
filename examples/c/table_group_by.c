/* Groups of tables by the library's call: random tables of every type and form against plain loops over their rows,
 * each refusal with its fields, tables of 2^60 rows, 100,000 groups, and each request for memory refused in turn
 * (linked with the malloc of refusing_malloc.h). */
#include "refusing_malloc.h"
#include "table_rows.h"

enum { TABLES = 3000, MOST_ASKED = 3 };

/* What is asked: the names of keys, of answers and of their columns, and a fold for each answer. */
typedef struct asking {
    const char *keys[MOST_COLUMNS], *answers[MOST_ASKED], *columns[MOST_ASKED];
    uint8_t folds[MOST_ASKED];
    size_t key_count, count;
} asking;

/* The groups of a table, with the names as columns of texts. */
static int32_t group(const hv_table *table, const asking *asked, hv_table *out) {
    hv_column keys = HV_EMPTY, answers = HV_EMPTY, columns = HV_EMPTY;
    CHECK(!hv_table_names(asked->keys, asked->key_count, &keys, &error));
    CHECK(!hv_table_names(asked->answers, asked->count, &answers, &error));
    CHECK(!hv_table_names(asked->columns, asked->count, &columns, &error));
    const int32_t answer = hv_table_group_by(table, &keys, &answers, &columns, asked->folds, asked->count, out, &error);
    hv_free(&keys), hv_free(&answers), hv_free(&columns);
    return answer;
}

/* ---- Against plain rows ---- */

static plain_table plain;

/* Where the groups by some columns stop. */
static size_t groups_of(const size_t *places, size_t count, size_t *stops) {
    size_t groups = 0;
    for (size_t row = 1; row <= plain.rows; row++) {
        bool is_end = row == plain.rows;
        for (size_t i = 0; i < count && !is_end; i++) {
            const plain_column *const column = &plain.columns[places[i]];
            is_end = !are_equal(&column->rows[row - 1], &column->rows[row], column->kind);
        }
        if (is_end) stops[groups++] = row;
    }
    return groups;
}

static bool is_float(const plain_column *column) { return *column->format && strchr("efg", *column->format); }
static bool is_nan(const plain_column *column, plain_number key) {
    const int place = *column->format - 'e', width = 16 << place;
    return key > key_of(floats[place][5], width) || key < key_of(floats[place][6], width); /* the two infinities */
}
static bool is_row(uint8_t fold) { return fold >= HV_FOLD_LEAST; }

/* The sum of floats, which are few and small, so that adding them up in doubles is exact. */
static plain_row sum_of_floats(const plain_column *column, size_t start, size_t stop) {
    const int place = *column->format - 'e';
    const uint64_t quiet = 0x7FF8000000000000;
    plain_row found = {false, 0, 0, {0}};
    double sum = 0;
    for (size_t row = start; row < stop; row++) {
        const plain_row *const next = &column->rows[row];
        double value = 0;
        if (!next->is_valid) continue;
        for (int i = 0; i < FLOATS; i++)
            if (key_of(floats[place][i], 16 << place) == next->number) memcpy(&value, &floats[2][i], sizeof value);
        sum = found.is_valid ? sum + value : value;
        found.is_valid = true;
    }
    uint64_t bits;
    memcpy(&bits, &sum, sizeof bits);
    if (found.is_valid) found.number = key_of(sum == sum ? bits : quiet, 64);
    return found;
}

static plain_row answer_of(const plain_column *column, uint8_t fold, size_t start, size_t stop) {
    plain_row found = {fold == HV_FOLD_ROWS || fold == HV_FOLD_COUNT, 0, 0, {0}};
    const bool leaves_nan = is_float(column) && (fold == HV_FOLD_LEAST || fold == HV_FOLD_GREATEST);
    if (fold == HV_FOLD_SUM && is_float(column)) return sum_of_floats(column, start, stop);
    for (size_t row = start; row < stop; row++) {
        const plain_row *const next = &column->rows[row];
        if (fold == HV_FOLD_ROWS) found.number++;
        if (fold == HV_FOLD_ROWS || !next->is_valid) continue;
        if (leaves_nan && is_nan(column, next->number)) continue;
        if (fold == HV_FOLD_COUNT) found.number++;
        else if (fold == HV_FOLD_SUM) found.number += next->number;
        else if (!found.is_valid || fold == HV_FOLD_LAST) found = *next;
        else if (fold == HV_FOLD_LEAST && compare_values(next, &found, column->kind) < 0) found = *next;
        else if (fold == HV_FOLD_GREATEST && compare_values(next, &found, column->kind) > 0) found = *next;
        found.is_valid = true;
    }
    return found;
}

static bool has_numbers(const plain_column *column) { return column->kind.number <= HV_I64; }
static bool has_sign(const plain_column *column) { return column->kind.number >= HV_I8; }

/* Dates, times of a day and timestamps are not added, and lists have no order. */
static bool has_answer(const plain_column *column, uint8_t fold) {
    const bool is_number = has_numbers(column) || column->kind.number == HV_DECIMAL;
    if (fold == HV_FOLD_ROWS || fold == HV_FOLD_COUNT) return true;
    if (fold == HV_FOLD_SUM) return is_number && (column->format[0] != 't' || column->format[1] == 'D');
    return column->kind.number != HV_LIST;
}

/* Decimals here are far from 38 digits. */
static bool fits(const plain_column *column, const plain_row *sum) {
    const plain_number least = has_sign(column) ? INT64_MIN : 0;
    const plain_number greatest = has_sign(column) ? (plain_number)INT64_MAX : (plain_number)UINT64_MAX;
    return !has_numbers(column) || is_float(column) || (least <= sum->number && sum->number <= greatest);
}

static hv_kind type_of_answer(const plain_column *column, uint8_t fold) {
    hv_kind kind = {HV_U64, 1, 0, 0};
    if (is_row(fold) || (fold == HV_FOLD_SUM && column->kind.number == HV_DECIMAL)) kind = column->kind;
    else if (fold == HV_FOLD_SUM && has_sign(column)) kind.number = HV_I64;
    kind.nullable = 1;
    return kind;
}

static const char *format_of_answer(const plain_column *column, uint8_t fold) {
    if (fold == HV_FOLD_SUM && is_float(column)) return "g";
    return is_row(fold) || (fold == HV_FOLD_SUM && strcmp(column->format, "tDs") == 0) ? column->format : "";
}

static bool same_kind(hv_kind left, hv_kind right) { return memcmp(&left, &right, sizeof left) == 0; }

static void check_keys(const hv_table *found, const size_t *places, size_t count, const size_t *stops, size_t groups) {
    for (size_t i = 0; i < count; i++) {
        const plain_column *const key = &plain.columns[places[i]];
        hv_column column = checked_column(found, i, key->name, key->format);
        CHECK(same_kind(hv_kind_of(&column), key->kind) && hv_length(&column) == groups);
        for (size_t at = 0; at < groups; at++)
            check_value(&column, at, &key->rows[at ? stops[at - 1] : 0], key->kind);
        hv_free(&column);
    }
}

static void check_answer(const hv_table *found, size_t place, const char *name, const plain_column *asked, uint8_t fold,
                         const size_t *stops, size_t groups) {
    hv_column column = checked_column(found, place, name, format_of_answer(asked, fold));
    const hv_kind kind = type_of_answer(asked, fold);
    CHECK(same_kind(hv_kind_of(&column), kind) && hv_length(&column) == groups);
    CHECK(hv_form(&column) == HV_FORM_FLAT);
    for (size_t at = 0; at < groups; at++) {
        const plain_row due = answer_of(asked, fold, at ? stops[at - 1] : 0, stops[at]);
        check_value(&column, at, &due, kind);
    }
    hv_free(&column);
}

/* The first answer with a sum that does not fit, and its first group; false where there is none. */
static bool first_large(const asking *asked, const plain_column *const *of, const size_t *stops, size_t groups,
                        uint64_t *answer, uint64_t *large) {
    for (size_t i = 0; i < asked->count; i++) {
        for (size_t at = 0; at < groups && asked->folds[i] == HV_FOLD_SUM; at++) {
            const plain_row sum = answer_of(of[i], HV_FOLD_SUM, at ? stops[at - 1] : 0, stops[at]);
            if (sum.is_valid && !fits(of[i], &sum)) return *answer = i, *large = at, true;
        }
    }
    return false;
}

static bool check_random(const hv_table *table) {
    static const char *const names[MOST_ASKED] = {"first answer", "second", ""};
    static size_t stops[MOST_ROWS];
    const plain_column *of[MOST_ASKED];
    size_t places[MOST_COLUMNS], lists = plain.count, unserved = MOST_ASKED;
    const size_t first = chance(plain.count);
    asking asked = {.key_count = 1 + chance(plain.count < 3 ? plain.count : 3), .count = chance(MOST_ASKED + 1)};
    hv_table found = HV_EMPTY;
    uint64_t answer = 0, large = 0;
    for (size_t i = asked.key_count; i-- > 0;) {
        places[i] = (first + i) % plain.count;
        asked.keys[i] = plain.columns[places[i]].name;
        if (plain.columns[places[i]].kind.number == HV_LIST) lists = i;
    }
    for (size_t i = asked.count; i-- > 0;) {
        of[i] = &plain.columns[chance(plain.count)];
        asked.answers[i] = names[i], asked.columns[i] = of[i]->name, asked.folds[i] = (uint8_t)chance(7);
        if (!has_answer(of[i], asked.folds[i])) unserved = i;
    }
    if (lists < plain.count)
        return CHECK_REFUSED(group(table, &asked, &found), HV_TABLE_KEY_OF_LISTS, lists, 0, 0), false;
    if (unserved < MOST_ASKED)
        return CHECK_REFUSED(group(table, &asked, &found), HV_TABLE_UNSUPPORTED_ANSWER, unserved, 0, 0), false;
    const size_t groups = groups_of(places, asked.key_count, stops);
    if (first_large(&asked, of, stops, groups, &answer, &large))
        return CHECK_REFUSED(group(table, &asked, &found), HV_TABLE_SUM_OVERFLOW, answer, large, 0), false;
    CHECK(!group(table, &asked, &found) && has_shape(&found, groups, asked.key_count + asked.count));
    check_keys(&found, places, asked.key_count, stops, groups);
    for (size_t i = 0; i < asked.count; i++)
        check_answer(&found, asked.key_count + i, names[i], of[i], asked.folds[i], stops, groups);
    check_table(table, &plain, NULL);
    hv_table_free(&found);
    return true;
}

/* ---- By hand ---- */

/* readings of table_checks.h: station "north" "north" "south" "south", level 900 null 41 40, at 10 20 30 40 */
static void check_by_hand(const hv_table *table) {
    const asking asked = {{"station"}, {"rows", "highest", "until"}, {"station", "level", "at"},
                          {HV_FOLD_ROWS, HV_FOLD_GREATEST, HV_FOLD_LAST}, 1, 3};
    hv_table out = HV_EMPTY;
    CHECK(!group(table, &asked, &out));
    CHECK_TABLE(&out, "2 | station: \"north\" \"south\" | rows: 2 2 | highest: 900 41 | until:tss:UTC 20 40");
    hv_table_free(&out);
}

/* One change of what is asked, and how it is refused; `out` keeps the table that it has. */
static void refuse(const hv_table *table, asking asked, int32_t number, uint64_t first, uint64_t second) {
    hv_table out = HV_EMPTY;
    CHECK(!hv_table_slice(table, 0, 1, &out, &error));
    CHECK_REFUSED(group(table, &asked, &out), number, first, second, 0);
    CHECK(has_shape(&out, 1, 3));
    hv_table_free(&out);
}

static void check_refusals(const hv_table *table) {
    const asking good = {{"station"}, {"sum", "rows"}, {"level", "at"}, {HV_FOLD_SUM, HV_FOLD_ROWS}, 1, 2};
    asking asked = good;
    asked.key_count = 0, asked.answers[1] = "sum";
    refuse(table, asked, HV_TABLE_NO_KEYS, 0, 0);
    asked = good, asked.keys[1] = "no", asked.keys[2] = "station", asked.key_count = 3;
    refuse(table, asked, HV_TABLE_NAME_TWICE, 0, 2);
    asked = good, asked.keys[1] = "no", asked.key_count = 2, asked.answers[1] = "sum";
    refuse(table, asked, HV_TABLE_UNKNOWN_NAME, 1, 0);
    asked = good, asked.answers[0] = "station", asked.columns[0] = "no";
    refuse(table, asked, HV_TABLE_ANSWER_TWICE, 0, 0);
    asked = good, asked.answers[1] = "sum", asked.columns[0] = "no";
    refuse(table, asked, HV_TABLE_ANSWER_TWICE, 1, 1);
    asked = good, asked.columns[1] = "no";
    refuse(table, asked, HV_TABLE_UNKNOWN_COLUMN, 1, 0);
    asked = good, asked.columns[0] = "station", asked.columns[1] = "no";
    refuse(table, asked, HV_TABLE_UNSUPPORTED_ANSWER, 0, 0);
}

/* Refusals of the columns of names: one is not of texts, has a null, or is of another number. */
static void check_names(const hv_table *table) {
    static const char *const two[] = {"station", "a"};
    static const uint8_t valid[] = {0x01}, folds[] = {HV_FOLD_ROWS}, unknown[] = {HV_FOLD_LAST + 1};
    const int32_t offsets[] = {0, 7};
    hv_column one = HV_EMPTY, second = HV_EMPTY, third = HV_EMPTY, both = HV_EMPTY, numbers = HV_EMPTY,
              nothing = HV_EMPTY, none = HV_EMPTY;
    hv_table out = HV_EMPTY, empty = HV_EMPTY;
    CHECK(!hv_table_names(two, 1, &one, &error) && !hv_table_names(two, 2, &both, &error));
    CHECK(!hv_clone(&one, &second, &error) && !hv_clone(&one, &third, &error));
    CHECK(!hv_u8(valid, 1, NOT_NULLABLE, &numbers, &error));
    CHECK(!hv_texts(0, offsets, 2, (const uint8_t *)"station", 7, NULLS_BY((const uint8_t[]){0}, 0), &nothing, &error));
#define REFUSED(keys, answers, columns, folds, ...) \
    CHECK_REFUSED(hv_table_group_by(table, keys, answers, columns, folds, 1, &out, &error), __VA_ARGS__)
    CHECK(hv_table_group_by(&empty, &numbers, &second, &third, unknown, 1, &out, &error) == HV_BAD_NUMBER);
    CHECK(hv_table_group_by(&empty, &numbers, &second, &third, folds, 1, &out, &error) == HV_NO_COLUMN);
    CHECK(hv_table_group_by(table, &none, &second, &third, folds, 1, &out, &error) == HV_NO_COLUMN);
    CHECK(hv_table_group_by(table, &numbers, &none, &one, folds, 1, &out, &error) == HV_NO_COLUMN);
    CHECK(hv_table_group_by(table, &numbers, &one, &none, folds, 1, &out, &error) == HV_NO_COLUMN);
    REFUSED(&numbers, &both, &nothing, folds, HV_TYPE_MISMATCH, 0, 0, 0);
    REFUSED(&nothing, &both, &numbers, folds, HV_NULL_NOT_ALLOWED, 0, 0, 0);
    REFUSED(&one, &numbers, &both, folds, HV_TYPE_MISMATCH, 0, 0, 0);
    REFUSED(&one, &both, &numbers, folds, HV_COLUMN_LENGTH, 2, 1, 0);
    REFUSED(&one, &nothing, &numbers, folds, HV_TYPE_MISMATCH, 0, 0, 0);
    REFUSED(&one, &nothing, &both, folds, HV_COLUMN_LENGTH, 2, 1, 0);
    REFUSED(&one, &nothing, &third, folds, HV_NULL_NOT_ALLOWED, 0, 0, 0);
    REFUSED(&one, &second, &nothing, folds, HV_NULL_NOT_ALLOWED, 0, 0, 0);
    REFUSED(&one, &second, &third, folds, HV_TABLE_ANSWER_TWICE, 0, 0, 0);
#undef REFUSED
    CHECK(!out.at);
    hv_free(&one), hv_free(&second), hv_free(&third), hv_free(&both), hv_free(&numbers), hv_free(&nothing);
}

/* ---- 2^60 rows in five runs, and 100,000 groups of floats ---- */

static void make_runs(const uint64_t *stops, const int64_t *numbers, size_t runs, hv_column *out) {
    static const uint8_t valid[] = {0x17}; /* the fourth is null */
    hv_column ends = HV_EMPTY, values = HV_EMPTY;
    CHECK(!hv_u64(stops, runs, NOT_NULLABLE, &ends, &error));
    CHECK(!hv_i64(numbers, runs, NULLS_BY(valid, 0), &values, &error));
    CHECK(!hv_runs(&ends, &values, 0, (size_t)stops[runs - 1], out, &error));
    hv_free(&ends), hv_free(&values);
}

static void check_long(void) {
    static const char *const names[] = {"key", "number"};
    const uint64_t part = (uint64_t)1 << 58, rows = 4 * part;
    const uint64_t stops[] = {part, 2 * part, 2 * part + 1, 3 * part, rows};
    const uint64_t others[] = {1, part, 3 * part, 3 * part + 1, rows};
    const int64_t keys[] = {1, 1, 2, 0, 2}, numbers[] = {-7, 3, -2, 0, 31};
    asking asked = {{"key"}, {"rows", "sum", "least"}, {"key", "number", "number"},
                    {HV_FOLD_ROWS, HV_FOLD_SUM, HV_FOLD_LEAST}, 1, 3};
    hv_column columns[2] = {HV_EMPTY, HV_EMPTY};
    hv_table table = HV_EMPTY, out = HV_EMPTY;
    make_runs(stops, keys, 5, &columns[0]), make_runs(others, numbers, 5, &columns[1]);
    CHECK(!hv_table_of(names, columns, 2, &table, &error) && hv_table_len(&table) == rows);
    CHECK(!group(&table, &asked, &out));
    CHECK_TABLE(&out, "4 | key: 1 2 null 2 | rows: 576460752303423488 1 288230376151711743 288230376151711744"
                      " | sum: 288230376151711734 -2 -576460752303423486 8935141660703064033 | least: -7 -2 -2 31");
    asked.columns[0] = "number", asked.folds[0] = HV_FOLD_SUM;
    const int64_t more[] = {-7, 3, -2, 0, 33}; /* 33 * (2^58 - 1) is past 2^63 */
    make_runs(others, more, 5, &columns[1]);
    CHECK(!hv_table_of(names, columns, 2, &table, &error));
    CHECK_REFUSED(group(&table, &asked, &out), HV_TABLE_SUM_OVERFLOW, 0, 3, 0);
    hv_free(&columns[0]), hv_free(&columns[1]);
    hv_table_free(&table), hv_table_free(&out);
}

static void check_many(void) {
    enum { GROUPS = 100000, ROWS = 3 * GROUPS };
    static const char *const names[] = {"price", "number"};
    static uint64_t prices[ROWS];
    static uint32_t numbers[ROWS];
    const asking asked = {{"price"}, {"sum", "last", "cost"}, {"number", "number", "price"},
                          {HV_FOLD_SUM, HV_FOLD_LAST, HV_FOLD_SUM}, 1, 3};
    hv_column columns[4] = {HV_EMPTY, HV_EMPTY, HV_EMPTY, HV_EMPTY}, flat = HV_EMPTY;
    hv_table table = HV_EMPTY, out = HV_EMPTY;
    for (uint32_t row = 0; row < ROWS; row++) {
        const double price = (double)(row / 3) / 4 - 1000;
        memcpy(&prices[row], &price, sizeof price);
        numbers[row] = row;
    }
    CHECK(!hv_u64(prices, ROWS, NOT_NULLABLE, &flat, &error) && !hv_float_encode(&flat, 0, &columns[0], &error));
    give_format(&columns[0], "g");
    CHECK(!hv_u32(numbers, ROWS, NOT_NULLABLE, &columns[1], &error));
    CHECK(!hv_table_of(names, columns, 2, &table, &error) && !group(&table, &asked, &out));
    CHECK(has_shape(&out, GROUPS, 4));
    columns[2] = checked_column(&out, 0, "price", "g");
    CHECK(!hv_float_decode(&columns[2], &flat, &error) && !hv_read_u64(&flat, 0, prices, GROUPS, &error));
    for (size_t i = 1; i < 4; i++) CHECK(!hv_table_column(&out, i, &columns[i], &error));
    for (uint32_t at = 0; at < GROUPS; at++) {
        hv_value sum, last, cost;
        double price, total;
        memcpy(&price, &prices[at], sizeof price);
        CHECK(price == (double)at / 4 - 1000);
        CHECK(!hv_at(&columns[3], at, &cost, NO_TEXT, &error) && cost.kind == HV_DOUBLE);
        memcpy(&total, &cost.as_unsigned, sizeof total);
        CHECK(total == 3 * price);
        CHECK(!hv_at(&columns[1], at, &sum, NO_TEXT, &error) && sum.as_unsigned == 9 * (uint64_t)at + 3);
        CHECK(!hv_at(&columns[2], at, &last, NO_TEXT, &error) && last.as_unsigned == 3 * (uint64_t)at + 2);
    }
    for (int i = 0; i < 4; i++) hv_free(&columns[i]);
    hv_free(&flat);
    hv_table_free(&table), hv_table_free(&out);
}

/* ---- Each request for memory refused in turn ---- */

static long check_memory(const hv_table *table, bool rest) {
    static const char *const keys[] = {"station", "at"}, *const answers[] = {"rows", "sum", "last"},
                             *const columns[] = {"at", "level", "level"};
    static const uint8_t folds[] = {HV_FOLD_ROWS, HV_FOLD_SUM, HV_FOLD_LAST};
    hv_column by = HV_EMPTY, named = HV_EMPTY, of = HV_EMPTY;
    hv_table out = HV_EMPTY;
    long at = 0;
    CHECK(!hv_table_names(keys, 2, &by, &error) && !hv_table_names(answers, 3, &named, &error));
    CHECK(!hv_table_names(columns, 3, &of, &error) && !hv_table_slice(table, 0, 1, &out, &error));
    for (refused = 1; refused; at++) {
        const long before = blocks;
        requests = refused = 0, refuse_at = at, refuse_rest = rest;
        const int32_t answer = hv_table_group_by(table, &by, &named, &of, folds, 3, &out, &error);
        refuse_at = -1;
        CHECK(refused ? answer == HV_OUT_OF_MEMORY : !answer);
        if (answer) CHECK(blocks == before && has_shape(&out, 1, 3));
    }
    CHECK_TABLE(&out, "4 | station: \"north\" \"north\" \"south\" \"south\" | at:tss:UTC 10 20 30 40 | rows: 1 1 1 1"
                      " | sum: 900 null 41 40 | last: 900 null 41 40");
    CHECK_TABLE(table, readings_shown);
    hv_free(&by), hv_free(&named), hv_free(&of);
    hv_table_free(&out);
    return at;
}

int main(void) {
    hv_table table = HV_EMPTY;
    size_t grouped = 0;
    hv_session_initial(&session);
    make_readings(&table);
    check_by_hand(&table);
    check_refusals(&table);
    check_names(&table);
    CHECK(check_memory(&table, false) > 20 && check_memory(&table, true) > 20);
    check_long();
    check_many();
    for (int i = 0; i < TABLES; i++) {
        random_table(&plain, &table);
        grouped += check_random(&table);
    }
    CHECK(grouped > TABLES / 4);
    hv_table_free(&table);
    CHECK(blocks == 0);
    printf("%zu random tables grouped as loops over their rows do\n", grouped);
    return 0;
}
