/* The sum of a column of decimals, and sums, differences and products of two and rows picked of them, in every form,
 * against integers of 128 bits that are worked row by row; where they leave the digits, and each refusal. */
#include "check.h"

enum { MOST = 40, TRIALS = 400 };
__extension__ typedef __int128 wide;
__extension__ typedef unsigned __int128 unsigned_wide;

/* 10^38 - 1, the greatest number of 38 digits */
#define GREATEST ((wide)9999999999999999999u * 10000000000000000000u + 9999999999999999999u)

static hv_session session;
static hv_error error;

/* Rows of decimals, null where the flag is not set. */
typedef struct rows {
    size_t count;
    wide numbers[MOST];
    bool valid[MOST];
} rows;

/* What is due: the sum, whether no row is valid, and the row that leaves 38 digits, or the number of rows. */
typedef struct due {
    wide sum;
    bool is_empty;
    size_t leaving;
} due;

static uint64_t next(void) {
    static uint64_t seed = 11;
    seed = seed * 6364136223846793005u + 1442695040888963407u;
    return seed >> 20;
}

static wide number_of(hv_pair pair) { return (wide)pair.high * ((wide)1 << 64) + (wide)pair.low; }
static hv_pair pair_of(wide number) {
    return (hv_pair){(uint64_t)number, (int64_t)((unsigned_wide)number >> 64)};
}

/* Of few digits, of 37 and 38 digits, and past them, where 128 bits have room: the sums of some rows leave 38 digits. */
static wide some_number(void) {
    const wide sign = next() % 2 ? 1 : -1;
    switch (next() % 8) {
    case 0: return sign * (GREATEST - (wide)(next() % 3));
    case 1: return sign * (GREATEST / 10);
    case 2: return sign * (GREATEST / 3);
    case 3: return next() % 8 ? 0 : sign * (GREATEST + (wide)(next() % 3));
    case 4: return sign * (wide)next() * (wide)next();
    default: return sign * (wide)(next() % 1000);
    }
}

/* rows that often repeat the one before */
static rows random_rows(void) {
    rows it = {.count = (size_t)(next() % MOST)};
    for (size_t row = 0; row < it.count; row++) {
        const bool anew = !row || next() % 3 == 0;
        it.valid[row] = anew ? next() % 4 > 0 : it.valid[row - 1];
        it.numbers[row] = anew ? some_number() : it.numbers[row - 1];
    }
    return it;
}

/* Whether sum + number has more than 38 digits; the sum itself has not, and 128 bits need not hold the new one. */
static bool leaves(wide sum, wide number) {
    if (number > 0) return sum > 0 ? number > GREATEST - sum : sum + number > GREATEST;
    return sum < 0 ? number < -GREATEST - sum : sum + number < -GREATEST;
}

static due due_of(const rows *it, size_t start, size_t stop) {
    due found = {.is_empty = true, .leaving = stop - start};
    for (size_t row = start; row < stop; row++) {
        if (!it->valid[row]) continue;
        if (leaves(found.sum, it->numbers[row])) {
            found.leaving = row - start;
            break;
        }
        found.sum += it->numbers[row];
        found.is_empty = false;
    }
    return found;
}

static hv_column flat_column(const rows *it) {
    uint8_t flags[MOST / 8 + 1] = {0};
    hv_pair pairs[MOST + 1];
    hv_column flat = HV_EMPTY;
    for (size_t row = 0; row < it->count; row++) {
        flags[row / 8] = (uint8_t)(flags[row / 8] | (it->valid[row] << (row % 8)));
        pairs[row] = pair_of(it->numbers[row]);
    }
    CHECK(!hv_decimals(pairs, it->count, 38, 2, NULLS_BY(flags, 0), &flat, &error));
    return flat;
}

/* A total is this decimal. */
static bool is_total(hv_total total, wide number, int8_t scale, bool is_empty) {
    return total.kind == HV_SCALED && total.scale == scale && total.empty == is_empty &&
           number_of((hv_pair){total.as_unsigned, total.as_signed}) == number;
}

/* What FILL makes of a total. */
static bool is_untouched(const hv_total *total) {
    hv_total before;
    FILL(before);
    return memcmp(total, &before, sizeof before) == 0;
}

/* The sum of a column of scale 2; where it is refused, what it would write is as it was. */
static bool check_sum(const hv_column *column, due wanted, size_t rows) {
    hv_total total;
    FILL(total);
    if (wanted.leaving < rows) {
        CHECK_REFUSED(hv_sum(&session, column, &total, &error), HV_CAST_OUT_OF_RANGE, wanted.leaving, 0, 0);
        CHECK(is_untouched(&total));
        return false;
    }
    CHECK(!hv_sum(&session, column, &total, &error) && is_total(total, wanted.sum, 2, wanted.is_empty));
    return true;
}

/* Rows flat, in runs, and a part of the runs. */
static bool check_trial(void) {
    const rows it = random_rows();
    hv_column flat = flat_column(&it), runs = HV_EMPTY, part = HV_EMPTY;
    const size_t start = (size_t)next() % (it.count + 1), stop = start + (size_t)next() % (it.count - start + 1);
    const hv_session plain = {0};
    CHECK(!hv_encode_rows(&flat, &runs, &error) && !hv_slice(&plain, &runs, start, stop, &part, &error));
    const bool is_summed = check_sum(&flat, due_of(&it, 0, it.count), it.count);
    CHECK(check_sum(&runs, due_of(&it, 0, it.count), it.count) == is_summed);
    check_sum(&part, due_of(&it, start, stop), stop - start);
    hv_free(&flat);
    hv_free(&runs);
    hv_free(&part);
    return is_summed;
}

/* 10^20 in each row of a constant: 10^18 rows add up to 10^38. */
static void check_constants(void) {
    const hv_value value = {7766279631452241920u, 5, HV_DECIMAL_VALUE, 0, 0};
    const hv_kind kind = {HV_DECIMAL, 0, 38, 0};
    hv_column many = HV_EMPTY, none = HV_EMPTY;
    hv_total total;
    CHECK(!hv_constant(&kind, &value, NO_TEXT, 999999999999999999u, &many, &error));
    CHECK(!hv_sum(&session, &many, &total, &error));
    CHECK(is_total(total, (wide)999999999999999999u * 10000000000u * 10000000000u, 0, false));
    CHECK(!hv_constant(&kind, &value, NO_TEXT, UINT64_MAX, &many, &error));
    CHECK_REFUSED(hv_sum(&session, &many, &total, &error), HV_CAST_OUT_OF_RANGE, 999999999999999999u, 0, 0);
    CHECK(!hv_constant(&kind, &value, NO_TEXT, 0, &none, &error));
    CHECK(!hv_sum(&session, &none, &total, &error) && is_total(total, 0, 0, true));
    hv_free(&many);
    hv_free(&none);
}

/* A sum that leaves 38 digits is refused, also where a later row would bring it back. */
static void check_the_way(void) {
    rows it = {.count = 3, .numbers = {GREATEST, 1, -5}, .valid = {true, true, true}};
    hv_column flat = flat_column(&it);
    check_sum(&flat, (due){.leaving = 1}, 3);
    hv_free(&flat);
    it.numbers[0] = -GREATEST;
    flat = flat_column(&it);
    check_sum(&flat, (due){.sum = -GREATEST - 4, .leaving = 2}, 3);
    hv_free(&flat);
}

/* Integers are not decimals: their sum is an integer. Booleans, texts, dates and no column have none. */
static void check_refusals(void) {
    const int64_t numbers[2] = {4, 5};
    const uint8_t truths[1] = {1};
    const int32_t offsets[2] = {0, 1};
    hv_column integers = HV_EMPTY, dates = HV_EMPTY, flags = HV_EMPTY, texts = HV_EMPTY, none = HV_EMPTY;
    hv_total total;
    CHECK(!hv_i64(numbers, 2, NOT_NULLABLE, &integers, &error));
    CHECK(!hv_sum(&session, &integers, &total, &error) && total.kind == HV_SIGNED && total.as_signed == 9);
    CHECK(!hv_with_type(&integers, (const uint8_t *)"tdm", 3, &dates, &error));
    CHECK(!hv_bools(truths, 1, 0, 1, NOT_NULLABLE, &flags, &error));
    CHECK(!hv_texts(0, offsets, 2, (const uint8_t *)"4", 1, NOT_NULLABLE, &texts, &error));
    FILL(total);
    CHECK_REFUSED(hv_sum(&session, &dates, &total, &error), HV_UNSUPPORTED, 0, 0, 0);
    CHECK_REFUSED(hv_sum(&session, &flags, &total, &error), HV_UNSUPPORTED, 0, 0, 0);
    CHECK_REFUSED(hv_sum(&session, &texts, &total, &error), HV_UNSUPPORTED, 0, 0, 0);
    CHECK(hv_sum(&session, &none, &total, NULL) == HV_NO_COLUMN);
    CHECK(is_untouched(&total));
    hv_free(&integers), hv_free(&dates), hv_free(&flags), hv_free(&texts);
}

/* ---- Two columns ---- */

enum { SCALE = 2, OTHER_SCALE = 3, FORMS = 4 };

/* What two rows give: nothing where either is null, or where the integer has more digits than the type. */
typedef struct answer {
    wide number;
    bool is_null, is_had;
} answer;

/* One of the two rows: the first that is not null, or the lesser or the greater, null where either is. */
static answer picked_of(uint8_t by, const rows *left, const rows *right, size_t row) {
    const wide a = left->numbers[row], b = right->numbers[row];
    if (by == HV_COALESCE && left->valid[row]) return (answer){a, false, true};
    if (by == HV_COALESCE) return (answer){b, !right->valid[row], true};
    if (!left->valid[row] || !right->valid[row]) return (answer){0, true, true};
    return (answer){(a < b) == (by == HV_LESSER) ? a : b, false, true};
}

static answer answer_of(uint8_t by, const rows *left, const rows *right, size_t row, wide past) {
    if (by >= HV_COALESCE) return picked_of(by, left, right, row);
    if (!left->valid[row] || !right->valid[row]) return (answer){0, true, true};
    const wide a = left->numbers[row], b = right->numbers[row];
    wide number = 0;
    const bool is_wide = by == HV_ADD        ? __builtin_add_overflow(a, b, &number)
                         : by == HV_SUBTRACT ? __builtin_sub_overflow(a, b, &number)
                                             : __builtin_mul_overflow(a, b, &number);
    return (answer){number, false, !is_wide && number < past && number > -past};
}

static wide power_of_ten(int digits) {
    wide power = 1;
    while (digits-- > 0) power *= 10;
    return power;
}

/* Rows as many as given, often the same as before; past a precision only some times. */
static rows rows_within(size_t count, int digits) {
    rows it = {.count = count};
    for (size_t row = 0; row < count; row++) {
        const bool anew = !row || next() % 3 == 0;
        const wide number = next() % 60 ? some_number() % power_of_ten(digits) : some_number();
        it.valid[row] = anew ? next() % 4 > 0 : it.valid[row - 1];
        it.numbers[row] = anew ? number : it.numbers[row - 1];
    }
    return it;
}

/* Rows of a precision and a scale: flat, in runs, in runs between others that are hidden, or a constant. */
static hv_column column_in(int form, rows *it, uint8_t precision, int8_t scale) {
    uint8_t flags[MOST / 8 + 2] = {0};
    hv_pair pairs[MOST + 2];
    hv_column flat = HV_EMPTY, runs = HV_EMPTY, part = HV_EMPTY;
    const hv_session plain = {0};
    for (size_t row = 0; form == 3 && row < it->count; row++) it->valid[row] = true, it->numbers[row] = it->numbers[0];
    if (form == 3 && it->count) {
        const hv_pair pair = pair_of(it->numbers[0]);
        const hv_value value = {pair.low, pair.high, HV_DECIMAL_VALUE, 0, 0};
        const hv_kind kind = {HV_DECIMAL, 1, precision, scale};
        CHECK(!hv_constant(&kind, &value, NO_TEXT, it->count, &flat, &error));
        return flat;
    }
    const size_t before = form == 2;
    pairs[0] = pair_of(GREATEST), flags[0] = 1, pairs[it->count + before] = pair_of(-GREATEST);
    for (size_t row = 0; row < it->count; row++) {
        const size_t at = row + before;
        flags[at / 8] = (uint8_t)((flags[at / 8] & ~(1 << (at % 8))) | (it->valid[row] << (at % 8)));
        pairs[at] = pair_of(it->numbers[row]);
    }
    const size_t count = it->count + 2 * before;
    CHECK(!hv_decimals(pairs, count, precision, scale, NULLS_BY(flags, 0), &flat, &error));
    if (form == 0) return flat;
    CHECK(!hv_encode_rows(&flat, &runs, &error));
    hv_free(&flat);
    if (form != 2) return runs;
    CHECK(!hv_slice(&plain, &runs, 1, it->count + 1, &part, &error));
    hv_free(&runs);
    return part;
}

/* The row that has no answer, or the number of rows, and the runs that the answers before it need. */
static size_t first_without(uint8_t by, const rows *left, const rows *right, wide past, size_t *runs) {
    answer before = {0};
    *runs = 0;
    for (size_t row = 0; row < left->count; row++) {
        const answer it = answer_of(by, left, right, row, past);
        if (!it.is_had) return row;
        *runs += !row || it.is_null != before.is_null || (!it.is_null && it.number != before.number);
        before = it;
    }
    return left->count;
}

static void check_rows_given(const hv_column *found, uint8_t by, const rows *left, const rows *right, wide past) {
    for (size_t row = 0; row < left->count; row++) {
        const answer due = answer_of(by, left, right, row, past);
        hv_value value;
        CHECK(!hv_at(found, row, &value, NO_TEXT_ROOM, &error));
        CHECK(value.kind == (due.is_null ? HV_NULL : HV_DECIMAL_VALUE));
        CHECK(due.is_null || number_of((hv_pair){value.as_unsigned, value.as_signed}) == due.number);
    }
}

/* How many digits answers may have. */
static int digits_of(uint8_t by, int one, int other) {
    const int greater = one > other ? one : other;
    const int digits = by >= HV_COALESCE ? one : by == HV_MULTIPLY ? one + other + 1 : greater + 1;
    return digits < 38 ? digits : 38;
}

/* Two columns of random rows, precisions and forms. Rows are picked of columns of one type. */
static bool check_pair(void) {
    static const uint8_t operators[] = {HV_ADD, HV_SUBTRACT, HV_MULTIPLY, HV_COALESCE, HV_LESSER, HV_GREATER};
    const uint8_t by = operators[next() % 6];
    const uint8_t one = (uint8_t)(1 + next() % 38), other = by >= HV_COALESCE ? one : (uint8_t)(1 + next() % 38);
    const size_t count = (size_t)(next() % MOST);
    rows left = rows_within(count, one), right = rows_within(count, other);
    const int8_t scale = by == HV_MULTIPLY ? OTHER_SCALE : SCALE;
    hv_column a = column_in((int)(next() % FORMS), &left, one, SCALE), found = HV_EMPTY;
    hv_column b = column_in((int)(next() % FORMS), &right, other, scale);
    const int digits = digits_of(by, one, other);
    const wide past = power_of_ten(digits);
    size_t due_runs, runs = 1;
    const size_t row = first_without(by, &left, &right, past, &due_runs);
    const bool is_had = row == count;
    if (!is_had) CHECK_REFUSED(hv_combine(&a, by, &b, &found, &error), HV_CAST_OUT_OF_RANGE, row, 0, 0);
    else {
        const bool are_constants = hv_form(&a) == FORM_CONSTANT && hv_form(&b) == FORM_CONSTANT;
        CHECK(!hv_combine(&a, by, &b, &found, &error));
        check_rows_given(&found, by, &left, &right, past);
        const hv_kind kind = hv_kind_of(&found);
        CHECK(kind.number == HV_DECIMAL && kind.nullable == 1 && kind.precision == digits);
        CHECK(kind.scale == (by == HV_MULTIPLY ? SCALE + OTHER_SCALE : SCALE) && hv_length(&found) == count);
        CHECK(hv_form(&found) == (are_constants ? FORM_CONSTANT : FORM_RUNS));
        CHECK((are_constants || !hv_run_count(&found, &runs, &error)) && runs == due_runs);
    }
    CHECK((hv_form(&found) == FORM_NONE) == !is_had);
    hv_free(&a), hv_free(&b), hv_free(&found);
    return is_had;
}

/* Rows that a mask chooses: of the left column where it is true, of the right one where it is false. */
static void check_choices(void) {
    rows left = {4, {5, -GREATEST, 7, 8}, {true, true, true, false}};
    rows right = {4, {1, 2, 3, 4}, {true, true, true, true}};
    const uint8_t truths[1] = {0xa}, known[1] = {0xb}; /* false true null true */
    for (int form = 0; form < 3; form++) {
        hv_column a = column_in(form, &left, 38, SCALE), b = column_in(2 - form, &right, 38, SCALE);
        hv_column mask = HV_EMPTY, found = HV_EMPTY;
        CHECK(!hv_bools(truths, 1, 0, 4, NULLS_BY(known, 0), &mask, &error));
        CHECK(!hv_if_else(&mask, &a, &b, &found, &error));
        hv_value first, second, third, fourth;
        CHECK(!hv_at(&found, 0, &first, NO_TEXT_ROOM, &error) && !hv_at(&found, 1, &second, NO_TEXT_ROOM, &error));
        CHECK(!hv_at(&found, 2, &third, NO_TEXT_ROOM, &error) && !hv_at(&found, 3, &fourth, NO_TEXT_ROOM, &error));
        CHECK(number_of((hv_pair){first.as_unsigned, first.as_signed}) == 1 && third.kind == HV_NULL);
        CHECK(number_of((hv_pair){second.as_unsigned, second.as_signed}) == -GREATEST && fourth.kind == HV_NULL);
        CHECK(hv_kind_of(&found).precision == 38 && hv_kind_of(&found).scale == SCALE);
        hv_free(&a), hv_free(&b), hv_free(&mask), hv_free(&found);
    }
}

/* A column of one row of a precision and a scale. */
static hv_column one_row(wide number, uint8_t precision, int8_t scale) {
    const hv_pair pair = pair_of(number);
    hv_column made = HV_EMPTY;
    CHECK(!hv_decimals(&pair, 1, precision, scale, NOT_NULLABLE, &made, &error));
    return made;
}

/* Scales that do not go together, digits at their ends, and columns that are not served. */
static void check_pairs_refused(void) {
    const int64_t numbers[2] = {4, 5};
    hv_column cents = one_row(GREATEST, 38, 2), mills = one_row(1, 38, 3), far = one_row(1, 38, 126), found = HV_EMPTY;
    hv_column wrong = HV_EMPTY, two = HV_EMPTY, two_again = HV_EMPTY, near = one_row(-1, 38, -128);
    hv_column small = one_row(9, 1, 2), large = one_row(-GREATEST, 38, 0);
    const hv_pair pairs[2] = {{1, 0}, {2, 0}};
    CHECK(!hv_i64(numbers, 2, NOT_NULLABLE, &wrong, &error));
    CHECK(!hv_decimals(pairs, 2, 38, 2, NOT_NULLABLE, &two, &error) && !hv_clone(&two, &two_again, &error));
    CHECK_REFUSED(hv_combine(&cents, HV_ADD, &mills, &found, &error), HV_TYPE_MISMATCH, 0, 0, 0);
    CHECK_REFUSED(hv_combine(&mills, HV_SUBTRACT, &two, &found, &error), HV_TYPE_MISMATCH, 0, 0, 0);
    CHECK_REFUSED(hv_combine(&far, HV_MULTIPLY, &two, &found, &error), HV_TYPE_MISMATCH, 0, 0, 0);
    CHECK_REFUSED(hv_combine(&two, HV_ADD, &cents, &found, &error), HV_COLUMN_LENGTH, 2, 1, 0);
    CHECK_REFUSED(hv_combine(&two, HV_ADD, &wrong, &found, &error), HV_UNSUPPORTED, 0, 0, 0);
    CHECK_REFUSED(hv_combine(&wrong, HV_MULTIPLY, &cents, &found, &error), HV_UNSUPPORTED, 0, 0, 0);
    CHECK_REFUSED(hv_combine(&cents, HV_ADD, &small, &found, &error), HV_CAST_OUT_OF_RANGE, 0, 0, 0);
    CHECK_REFUSED(hv_combine(&cents, HV_MULTIPLY, &large, &found, &error), HV_CAST_OUT_OF_RANGE, 0, 0, 0);
    CHECK_REFUSED(hv_combine(&two, HV_AND, &two_again, &found, &error), HV_UNSUPPORTED, 0, 0, 0);
    CHECK_REFUSED(hv_combine(&two, HV_OR, &two_again, &found, &error), HV_UNSUPPORTED, 0, 0, 0);
    for (int number = HV_GREATER + 1; number < 256; number++)
        CHECK(hv_combine(&two, (uint8_t)number, &two_again, &found, &error) == HV_BAD_NUMBER);
    CHECK_REFUSED(hv_combine(&cents, HV_LESSER, &mills, &found, &error), HV_TYPE_MISMATCH, 0, 0, 0);
    CHECK_REFUSED(hv_combine(&cents, HV_COALESCE, &small, &found, &error), HV_TYPE_MISMATCH, 0, 0, 0);
    CHECK_REFUSED(hv_combine(&wrong, HV_GREATER, &two, &found, &error), HV_TYPE_MISMATCH, 0, 0, 0);
    CHECK_REFUSED(hv_combine(&two, HV_GREATER, &cents, &found, &error), HV_COLUMN_LENGTH, 2, 1, 0);
    hv_column none = HV_EMPTY;
    CHECK(hv_combine(&none, HV_ADD, &cents, &found, &error) == HV_NO_COLUMN);
    CHECK(hv_combine(&cents, HV_ADD, &none, &found, NULL) == HV_NO_COLUMN && hv_form(&found) == FORM_NONE);
    CHECK(!hv_combine(&far, HV_MULTIPLY, &near, &found, &error) && hv_kind_of(&found).scale == -2);
    CHECK(!hv_combine(&cents, HV_SUBTRACT, &small, &found, &error) && hv_kind_of(&found).nullable == 0);
    CHECK(hv_kind_of(&found).precision == 38);
    hv_free(&cents), hv_free(&mills), hv_free(&far), hv_free(&near), hv_free(&small), hv_free(&two);
    hv_free(&wrong), hv_free(&large), hv_free(&two_again), hv_free(&found);
}

int main(void) {
    hv_session_initial(&session);
    int summed = 0, paired = 0;
    for (int i = 0; i < TRIALS; i++) summed += check_trial();
    CHECK(summed > TRIALS / 8 && summed < TRIALS - TRIALS / 8);
    check_constants();
    check_the_way();
    check_refusals();
    for (int i = 0; i < TRIALS * 10; i++) paired += check_pair();
    CHECK(paired > TRIALS * 5 && 2 * paired < TRIALS * 19);
    check_choices();
    check_pairs_refused();
    printf("%d columns of decimals, and pairs of them, give what integers of 128 bits do\n", TRIALS);
    return 0;
}
