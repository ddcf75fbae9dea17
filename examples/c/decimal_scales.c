/* Decimals of two precisions and scales: as decimals of one type, compared, added, subtracted, picked and joined, in
 * every form. The answers due are worked with the digits of each number, place by place; then each refusal, and each
 * request for memory refused, which is linked with the malloc of refusing_malloc.h. */
#include "check.h"
#include "hivevigil_decimals.h"
#include "hivevigil_table_concat.h"
#include "refusing_malloc.h"

enum { MOST = 24, TRIALS = 6000, FORMS = 4, LEAST_SCALE = -5, GREATEST_SCALE = 20 };
__extension__ typedef __int128 wide;
__extension__ typedef unsigned __int128 unsigned_wide;

static hv_error error;

/* Rows of decimals of a type, null where the flag is not set. */
typedef struct rows {
    size_t count;
    int precision, scale;
    bool nullable;
    wide numbers[MOST];
    bool valid[MOST];
} rows;

static uint64_t next(void) {
    static uint64_t seed = 23;
    seed = seed * 6364136223846793005u + 1442695040888963407u;
    return seed >> 20;
}

static wide number_of(hv_value value) {
    return (wide)((unsigned_wide)(uint64_t)value.as_signed << 64 | value.as_unsigned);
}
static hv_pair pair_of(wide number) { return (hv_pair){(uint64_t)number, (int64_t)((unsigned_wide)number >> 64)}; }

static wide power_of_ten(int digits) {
    wide power = 1;
    while (digits-- > 0) power *= 10;
    return power;
}

/* ---- Numbers as digits ---- */

enum { HIGHEST = 38 - LEAST_SCALE, PLACES = HIGHEST + GREATEST_SCALE + 1 };

/* A number: the digit at place i is that of 10^(HIGHEST - i). */
typedef struct places {
    bool negative;
    uint8_t digits[PLACES];
} places;

static places places_of(wide number, int scale) {
    places it = {.negative = number < 0};
    unsigned_wide rest = number < 0 ? -(unsigned_wide)number : (unsigned_wide)number;
    for (int at = HIGHEST + scale; rest != 0; at--, rest /= 10) it.digits[at] = (uint8_t)(rest % 10);
    return it;
}

static int order_of(const places *left, const places *right) {
    if (left->negative != right->negative) return left->negative ? -1 : 1;
    const int order = memcmp(left->digits, right->digits, PLACES);
    return left->negative ? -order : order;
}

/* How many digits the number has at a scale, from its first one that is not 0 on. */
static int count_digits(const places *it, int scale) {
    for (int at = 0; at < PLACES; at++)
        if (it->digits[at]) return HIGHEST - at + scale + 1;
    return 0;
}

/* The number without its point at a scale where it has at most 38 digits. */
static wide without_point(const places *it, int scale) {
    wide number = 0;
    for (int at = 0; at <= HIGHEST + scale; at++) number = number * 10 + it->digits[at];
    return it->negative ? -number : number;
}

/* ---- Columns ---- */

/* Of some digits, of all that the precision has, and 0; with zeros at their ends as often as not. */
static wide some_number(int precision) {
    const wide sign = next() % 2 ? 1 : -1, past = power_of_ten(precision);
    const int digits = 1 + (int)(next() % (uint64_t)precision), zeros = (int)(next() % (uint64_t)(digits + 1));
    const wide some = ((wide)next() << 60 ^ (wide)next() << 30 ^ (wide)next()) % power_of_ten(digits);
    switch (next() % 8) {
    case 0: return sign * (past - 1);
    case 1: return 0;
    case 2: return sign * (past / 10);
    case 3: return sign * some;
    default: return sign * (some / power_of_ten(zeros) * power_of_ten(zeros));
    }
}

/* A number of a type that is near one of another, or the same where there is one. */
static wide near_number(wide number, int scale, int precision, int to) {
    const places it = places_of(number, scale);
    const wide step = next() % 2 ? 0 : next() % 2 ? 1 : -1;
    if (count_digits(&it, to) > 37 || to < LEAST_SCALE) return step;
    return (without_point(&it, to) + step) % power_of_ten(precision);
}

/* Rows that often repeat the one before, some of them near those of a column that is given. */
static rows random_rows(size_t count, const rows *other) {
    rows it = {.count = count, .nullable = next() % 4 > 0};
    it.precision = next() % 3 ? 1 + (int)(next() % 38) : 38 - (int)(next() % 9);
    it.scale = LEAST_SCALE + (int)(next() % (GREATEST_SCALE - LEAST_SCALE + 1));
    if (other && next() % 3 == 0) it.scale = other->scale + (other->scale < GREATEST_SCALE);
    if (other && next() % 8 == 0) it.scale = other->scale;
    if (other && next() % 8 == 0) it.precision = other->precision;
    if (next() % 3 == 0) it.precision = it.precision / 4 + 1;
    for (size_t row = 0; row < count; row++) {
        const bool anew = !row || next() % 3 == 0, is_near = other && other->valid[row] && next() % 2;
        it.valid[row] = !it.nullable || (anew ? next() % 4 > 0 : it.valid[row - 1]);
        it.numbers[row] = is_near ? near_number(other->numbers[row], other->scale, it.precision, it.scale)
                          : anew  ? some_number(it.precision)
                                  : it.numbers[row - 1];
    }
    return it;
}

/* Flat, in runs, in runs between others that are hidden, or a constant, whose rows are then all the same. */
static hv_column column_in(int form, rows *it) {
    uint8_t flags[MOST / 8 + 2] = {0};
    hv_pair pairs[MOST + 2];
    hv_column flat = HV_EMPTY, runs = HV_EMPTY, part = HV_EMPTY;
    hv_session session;
    hv_session_initial(&session);
    const size_t before = form == 2, count = it->count + 2 * before;
    const hv_kind kind = {HV_DECIMAL, it->nullable, (uint8_t)it->precision, (int8_t)it->scale};
    if (form == 3 && it->count) {
        const hv_pair pair = pair_of(it->numbers[0]);
        const hv_value value = {pair.low, pair.high, it->valid[0] ? HV_DECIMAL_VALUE : HV_NULL, 0, 0};
        for (size_t row = 0; row < it->count; row++)
            it->valid[row] = it->valid[0], it->numbers[row] = it->numbers[0];
        CHECK(!hv_constant(&kind, &value, NO_TEXT, it->count, &flat, &error));
        return flat;
    }
    pairs[0] = pairs[count ? count - 1 : 0] = pair_of(power_of_ten(38) - 1), flags[0] = 1; /* fits nowhere else */
    for (size_t row = 0; row < it->count; row++) {
        const size_t at = row + before;
        flags[at / 8] = (uint8_t)((flags[at / 8] & ~(1 << (at % 8))) | (it->valid[row] << (at % 8)));
        pairs[at] = pair_of(it->numbers[row]);
    }
    CHECK(!hv_decimals(pairs, count, kind.precision, kind.scale, it->nullable ? NULLS_BY(flags, 0) : NOT_NULLABLE,
                       &flat, &error));
    if (form == 0 || form == 3) return flat;
    CHECK(!hv_encode_rows(&flat, &runs, &error));
    hv_free(&flat);
    if (form != 2) return runs;
    CHECK(!hv_slice(&session, &runs, 1, it->count + 1, &part, &error));
    hv_free(&runs);
    return part;
}

/* Has the column these rows from one of its rows on, of this type? */
static void check_rows_from(const hv_column *column, size_t first, const rows *it) {
    const hv_kind kind = hv_kind_of(column);
    CHECK(kind.number == HV_DECIMAL && kind.precision == it->precision && kind.scale == it->scale);
    for (size_t row = 0; row < it->count; row++) {
        hv_value value;
        CHECK(!hv_at(column, first + row, &value, NO_TEXT_ROOM, &error));
        CHECK((value.kind == HV_NULL) == !it->valid[row]);
        CHECK(value.kind == HV_NULL || number_of(value) == it->numbers[row]);
    }
}

/* Has the column these rows, and no others, in this form? */
static void check_rows(const hv_column *column, const rows *it, uint8_t form) {
    CHECK(hv_kind_of(column).nullable == it->nullable && hv_length(column) == it->count && hv_form(column) == form);
    check_rows_from(column, 0, it);
}

/* ---- At one scale ---- */

/* The rows at a type, or the first that has more digits, and the number of rows where none has. */
static size_t rows_at(const rows *it, int precision, int scale, rows *made) {
    const bool is_same = it->precision == precision && it->scale == scale;
    *made = *it;
    made->precision = precision, made->scale = scale;
    for (size_t row = 0; row < it->count && !is_same; row++) {
        const places number = places_of(it->numbers[row], it->scale);
        if (!it->valid[row]) continue;
        if (count_digits(&number, scale) > precision) return row;
        made->numbers[row] = without_point(&number, scale);
    }
    return it->count;
}

/* Both at the greater scale, in as many digits as either has before the point there, and whether all rows fit. */
static bool align_rows(const rows *left, const rows *right, rows *lefts, rows *rights, size_t *row) {
    const int scale = left->scale > right->scale ? left->scale : right->scale;
    int digits = left->precision + (scale - left->scale);
    if (right->precision + (scale - right->scale) > digits) digits = right->precision + (scale - right->scale);
    if (digits > 38) digits = 38;
    *row = rows_at(left, digits, scale, lefts);
    if (*row < left->count) return false;
    *row = rows_at(right, digits, scale, rights);
    return *row == right->count;
}

/* The columns as decimals of one type, in new handles and in their own; refused, each is as it was. */
static bool check_aligned(hv_column *a, const rows *left, hv_column *b, const rows *right, hv_column *made) {
    rows lefts, rights;
    size_t row;
    const uint8_t one = hv_form(a), other = hv_form(b);
    if (!align_rows(left, right, &lefts, &rights, &row)) {
        CHECK_REFUSED(hv_decimal_aligned(a, b, &made[0], &made[1], &error), HV_CAST_OUT_OF_RANGE, row, 0, 0);
        CHECK(hv_is_empty(&made[0]) && hv_is_empty(&made[1]));
        CHECK(hv_decimal_aligned(a, b, a, b, NULL) == HV_CAST_OUT_OF_RANGE);
        check_rows(a, left, one), check_rows(b, right, other);
        return false;
    }
    CHECK(!hv_decimal_aligned(a, b, &made[0], &made[1], &error));
    check_rows(&made[0], &lefts, one), check_rows(&made[1], &rights, other);
    check_rows(a, left, one), check_rows(b, right, other);
    const hv_kind kind = hv_decimal_common_kind(hv_kind_of(a), hv_kind_of(b));
    CHECK(kind.number == HV_DECIMAL && kind.precision == lefts.precision && kind.scale == lefts.scale);
    CHECK(kind.nullable == (left->nullable || right->nullable));
    return true;
}

/* ---- Compared ---- */

static bool holds(int order, uint8_t by) {
    const bool answers[] = {order == 0, order != 0, order > 0, order >= 0, order < 0, order <= 0};
    return answers[by];
}

/* A constant of constants, else runs, as few as possible, of what holds of the digits of both. */
static void check_compared(const hv_column *a, const rows *left, const hv_column *b, const rows *right) {
    const uint8_t by = (uint8_t)(next() % 6);
    const bool are_constants = hv_form(a) == FORM_CONSTANT && hv_form(b) == FORM_CONSTANT;
    hv_column mask = HV_EMPTY;
    size_t runs = 1, due_runs = 0;
    int before = -1;
    CHECK(!hv_decimal_compare(a, by, b, &mask, &error));
    const hv_kind kind = hv_kind_of(&mask);
    CHECK(kind.number == HV_BOOL && kind.nullable == (left->nullable || right->nullable));
    CHECK(hv_length(&mask) == left->count && hv_form(&mask) == (are_constants ? FORM_CONSTANT : FORM_RUNS));
    for (size_t row = 0; row < left->count; row++) {
        const places one = places_of(left->numbers[row], left->scale);
        const places other = places_of(right->numbers[row], right->scale);
        const int due = !left->valid[row] || !right->valid[row] ? 2 : holds(order_of(&one, &other), by);
        hv_value value;
        CHECK(!hv_at(&mask, row, &value, NO_TEXT_ROOM, &error));
        CHECK(due == 2 ? value.kind == HV_NULL : value.kind == HV_TRUTH && value.truth == due);
        due_runs += due != before, before = due;
    }
    CHECK(are_constants || (!hv_run_count(&mask, &runs, &error) && runs == due_runs));
    hv_free(&mask);
}

/* ---- Worked and picked ---- */

/* Sums, differences and picks of columns of one type, which hv_combine serves. */
static void check_worked(const rows *left, const rows *right, hv_column *made) {
    static const uint8_t operators[] = {HV_ADD, HV_SUBTRACT, HV_COALESCE, HV_LESSER, HV_GREATER};
    const uint8_t by = operators[next() % 5];
    rows lefts, rights;
    size_t row;
    hv_column found = HV_EMPTY;
    align_rows(left, right, &lefts, &rights, &row);
    const int32_t answer = hv_combine(&made[0], by, &made[1], &found, &error);
    for (row = 0; row < left->count; row++) {
        const wide a = lefts.numbers[row], b = rights.numbers[row];
        const bool are_valid = lefts.valid[row] && rights.valid[row];
        wide due = by == HV_LESSER ? (a < b ? a : b) : a > b ? a : b;
        if (by == HV_COALESCE) due = lefts.valid[row] ? a : b;
        const bool is_wide = by == HV_ADD        ? __builtin_add_overflow(a, b, &due)
                             : by == HV_SUBTRACT ? __builtin_sub_overflow(a, b, &due)
                                                 : false;
        const bool is_null = by == HV_COALESCE ? !lefts.valid[row] && !rights.valid[row] : !are_valid;
        if (!is_null && (is_wide || due >= power_of_ten(38) || due <= -power_of_ten(38))) {
            CHECK(answer == HV_CAST_OUT_OF_RANGE && error.first == row);
            return;
        }
        if (answer) continue; /* refused by a later row */
        hv_value value;
        CHECK(!hv_at(&found, row, &value, NO_TEXT_ROOM, &error));
        CHECK((value.kind == HV_NULL) == is_null && (is_null || number_of(value) == due));
    }
    CHECK(!answer && hv_kind_of(&found).scale == lefts.scale);
    hv_free(&found);
}

/* Two tables of a column, one after the other, are refused as the columns are. */
static void check_appended(hv_column *a, const rows *left, hv_column *b, const rows *right) {
    static const char *const names[] = {"price"};
    hv_table first = HV_EMPTY, second = HV_EMPTY, made = HV_EMPTY;
    hv_column all = HV_EMPTY;
    hv_session session;
    rows lefts, rights;
    size_t row;
    hv_session_initial(&session);
    CHECK(!hv_table_of(names, a, 1, &first, &error) && !hv_table_of(names, b, 1, &second, &error));
    if (!align_rows(left, right, &lefts, &rights, &row)) {
        CHECK_REFUSED(hv_table_concat(&session, &first, &second, &made, &error), HV_CAST_OUT_OF_RANGE, row, 0, 0);
        CHECK(!made.at);
    } else {
        CHECK(!hv_table_concat(&session, &first, &second, &made, &error) && !hv_table_column(&made, 0, &all, &error));
        CHECK(hv_table_len(&made) == left->count + right->count && hv_length(&all) == hv_table_len(&made));
        CHECK(hv_kind_of(&all).nullable == (left->nullable || right->nullable));
        check_rows_from(&all, 0, &lefts);
        check_rows_from(&all, left->count, &rights);
    }
    hv_free(&all);
    hv_table_free(&first), hv_table_free(&second), hv_table_free(&made);
}

static bool check_trial(void) {
    const size_t count = (size_t)(next() % MOST);
    rows left = random_rows(count, NULL);
    hv_column a = column_in((int)(next() % FORMS), &left), made[2] = {HV_EMPTY, HV_EMPTY};
    rows right = random_rows(count, &left);
    hv_column b = column_in((int)(next() % FORMS), &right);
    const bool are_aligned = check_aligned(&a, &left, &b, &right, made);
    check_compared(&a, &left, &b, &right);
    if (are_aligned) check_worked(&left, &right, made);
    check_appended(&a, &left, &b, &right);
    if (are_aligned) {
        CHECK(!hv_decimal_aligned(&a, &b, &a, &b, &error));
        CHECK(hv_kind_of(&a).scale == hv_kind_of(&b).scale && hv_kind_of(&a).precision == hv_kind_of(&b).precision);
    }
    hv_free(&a), hv_free(&b), hv_free(&made[0]), hv_free(&made[1]);
    return are_aligned;
}

/* ---- By hand ---- */

/* A column of one row. */
static hv_column one_row(wide number, uint8_t precision, int8_t scale) {
    const hv_pair pair = pair_of(number);
    hv_column made = HV_EMPTY;
    CHECK(!hv_decimals(&pair, 1, precision, scale, NOT_NULLABLE, &made, &error));
    return made;
}

static void check_order(wide number, int8_t scale, wide other, int8_t to, int order) {
    hv_column left = one_row(number, 38, scale), right = one_row(other, 38, to), mask = HV_EMPTY;
    for (uint8_t by = HV_EQ; by <= HV_LE; by++) {
        hv_value value;
        CHECK(!hv_decimal_compare(&left, by, &right, &mask, &error) && !hv_at(&mask, 0, &value, NO_TEXT_ROOM, &error));
        CHECK(value.kind == HV_TRUTH && value.truth == holds(order, by));
        CHECK(!hv_decimal_compare(&right, by, &left, &mask, &error) && !hv_at(&mask, 0, &value, NO_TEXT_ROOM, &error));
        CHECK(value.kind == HV_TRUTH && value.truth == holds(-order, by));
    }
    hv_free(&left), hv_free(&right), hv_free(&mask);
}

/* At the ends of 128 bits and of scales, where no product has 128 bits. */
static void check_orders(void) {
    const wide greatest = (wide)(~(unsigned_wide)0 >> 1), least = -greatest - 1;
    check_order(1005, 3, 101, 2, -1);
    check_order(1010, 3, 101, 2, 0);
    check_order(0, -128, 0, 127, 0);
    check_order(1, -128, greatest, 127, 1);
    check_order(-1, -128, least, 127, -1);
    check_order(1, 127, 1, -128, -1);
    check_order(greatest / 10, 0, greatest, 1, -1);
    check_order(greatest / 10 + 1, 0, greatest, 1, 1);
    check_order(least / 10, 0, least, 1, 1);
    check_order(least / 10 - 1, 0, least, 1, -1);
    check_order(greatest / 1000 * 1000, 3, greatest / 1000, 0, 0);
    check_order(least, 20, greatest, 20, -1);
}

/* 2^60 rows of constants are as fast as one. */
static void check_constants(void) {
    const hv_kind whole = {HV_DECIMAL, 0, 38, 0}, fine = {HV_DECIMAL, 1, 38, 20};
    const hv_value many = {0, INT64_C(1) << 40, HV_DECIMAL_VALUE, 0, 0}, five = {5, 0, HV_DECIMAL_VALUE, 0, 0};
    const size_t rows = (size_t)1 << 60;
    hv_column a = HV_EMPTY, b = HV_EMPTY, mask = HV_EMPTY;
    hv_value value;
    CHECK(!hv_constant(&whole, &many, NO_TEXT, rows, &a, &error));
    CHECK(!hv_constant(&fine, &five, NO_TEXT, rows, &b, &error));
    CHECK(!hv_decimal_compare(&a, HV_GT, &b, &mask, &error) && hv_form(&mask) == FORM_CONSTANT);
    CHECK(hv_length(&mask) == rows && hv_kind_of(&mask).nullable == 1);
    CHECK(!hv_at(&mask, rows - 1, &value, NO_TEXT_ROOM, &error) && value.kind == HV_TRUTH && value.truth);
    CHECK_REFUSED(hv_decimal_aligned(&b, &a, &b, &a, &error), HV_CAST_OUT_OF_RANGE, 0, 0, 0);
    hv_free(&a), hv_free(&b), hv_free(&mask);
}

static void check_refusals(void) {
    const int64_t numbers[2] = {4, 5};
    const hv_pair pairs[2] = {{1, 0}, {2, 0}};
    hv_column cents = one_row(5, 4, 2), far = one_row(5, 4, 126), wrong = HV_EMPTY, two = HV_EMPTY, none = HV_EMPTY;
    hv_column out = one_row(7, 1, 0), other = one_row(8, 1, 0), apart = HV_EMPTY;
    CHECK(!hv_i64(numbers, 2, NOT_NULLABLE, &wrong, &error));
    CHECK(!hv_decimals(pairs, 2, 38, 3, NOT_NULLABLE, &two, &error));
    CHECK(!hv_decimals(pairs, 2, 38, 126, NOT_NULLABLE, &apart, &error));
    CHECK_REFUSED(hv_decimal_aligned(&cents, &wrong, &out, &other, &error), HV_UNSUPPORTED, 0, 0, 0);
    CHECK_REFUSED(hv_decimal_aligned(&wrong, &cents, &out, &other, &error), HV_UNSUPPORTED, 0, 0, 0);
    CHECK_REFUSED(hv_decimal_aligned(&far, &cents, &out, &other, &error), HV_CAST_OUT_OF_RANGE, 0, 0, 0);
    CHECK_REFUSED(hv_decimal_compare(&wrong, HV_EQ, &wrong, &out, &error), HV_UNSUPPORTED, 0, 0, 0);
    CHECK_REFUSED(hv_decimal_compare(&two, HV_EQ, &cents, &out, &error), HV_COLUMN_LENGTH, 2, 1, 0);
    CHECK_REFUSED(hv_decimal_compare(&apart, HV_EQ, &cents, &out, &error), HV_COLUMN_LENGTH, 2, 1, 0);
    CHECK_REFUSED(hv_decimal_compare(&cents, HV_EQ, &apart, &out, &error), HV_COLUMN_LENGTH, 1, 2, 0);
    CHECK(hv_decimal_aligned(&none, &cents, &out, &other, NULL) == HV_NO_COLUMN);
    CHECK(hv_decimal_aligned(&cents, &none, &out, &other, NULL) == HV_NO_COLUMN);
    CHECK(hv_decimal_compare(&none, HV_EQ, &cents, &out, NULL) == HV_NO_COLUMN);
    CHECK(hv_decimal_compare(&two, HV_EQ, &cents, &out, NULL) == HV_COLUMN_LENGTH);
    for (int by = HV_LE + 1; by < 256; by++)
        CHECK(hv_decimal_compare(&cents, (uint8_t)by, &far, &out, &error) == HV_BAD_NUMBER);
    CHECK_ROWS(&out, "0:7");
    CHECK_ROWS(&other, "0:8");
    CHECK(!hv_decimal_aligned(&cents, &two, &out, &other, NULL) && hv_length(&out) == 1 && hv_length(&other) == 2);
    CHECK_ROWS(&out, "0:50");
    CHECK_ROWS(&other, "0:1 0:2");
    hv_free(&cents), hv_free(&far), hv_free(&wrong), hv_free(&two), hv_free(&apart), hv_free(&out), hv_free(&other);
}

/* ---- Each request for memory refused in turn ---- */

static hv_column lent_left = HV_EMPTY, lent_right = HV_EMPTY, made_left = HV_EMPTY, made_right = HV_EMPTY;

static int32_t calls_aligned(void) {
    return hv_decimal_aligned(&lent_left, &lent_right, &made_left, &made_right, &error);
}
static int32_t calls_compare(void) {
    return hv_decimal_compare(&lent_left, HV_LT, &lent_right, &made_left, &error);
}

/* How many requests were refused of a call over columns of these forms. */
static long refuse_each(int32_t (*call)(void), int form, int precision) {
    rows left = {.count = 5, .precision = precision, .scale = 2, .nullable = true}, right = left;
    right.precision = 38, right.scale = 20;
    for (size_t row = 0; row < 5; row++)
        left.valid[row] = right.valid[row] = row != 3, left.numbers[row] = power_of_ten(precision) - 1 - (wide)row;
    lent_left = column_in(form, &left), lent_right = column_in(form, &right);
    long tried = 0;
    for (bool is_done = false; !is_done; tried++) {
        hv_free(&made_left), hv_free(&made_right);
        made_left = one_row(7, 1, 0), made_right = one_row(8, 1, 0);
        const long before = blocks;
        requests = refused = 0, refuse_at = tried;
        const int32_t answer = call();
        refuse_at = -1;
        is_done = refused == 0;
        CHECK(is_done ? !answer : answer == HV_OUT_OF_MEMORY || !answer); /* some calls go on without */
        CHECK(!answer || blocks == before);
        if (answer) check_text(rows_of(&made_left), "0:7", "out", __FILE__, __LINE__);
        if (answer) check_text(rows_of(&made_right), "0:8", "out", __FILE__, __LINE__);
    }
    hv_free(&lent_left), hv_free(&lent_right), hv_free(&made_left), hv_free(&made_right);
    return tried - 1;
}

static void check_memory(void) {
    long tried = 0;
    for (int form = 0; form < FORMS; form++) {
        tried += refuse_each(calls_aligned, form, 20);
        tried += refuse_each(calls_compare, form, 20); /* at one scale */
        tried += refuse_each(calls_compare, form, 38); /* and without one */
    }
    CHECK(tried > 40);
}

int main(void) {
    int aligned = 0;
    for (int i = 0; i < TRIALS; i++) aligned += check_trial();
    CHECK(aligned > TRIALS / 4 && aligned < TRIALS - TRIALS / 20);
    check_orders();
    check_constants();
    check_refusals();
    check_memory();
    CHECK(blocks == 0);
    printf("%d pairs of columns of decimals are compared as their digits are, %d of them at one scale\n", TRIALS,
           aligned);
    return 0;
}
