/* Decimals and integers cast to decimals of other scales, and decimals to integers, in every form, against integers of
 * 128 bits that are cast row by row; the first row that does not fit, and each refusal. */
#include "check.h"

enum { MOST = 30, TRIALS = 600, FITS = -1 };
__extension__ typedef __int128 wide;
__extension__ typedef unsigned __int128 unsigned_wide;

/* 10^38 - 1, the greatest number of 38 digits */
#define GREATEST ((wide)9999999999999999999u * 10000000000000000000u + 9999999999999999999u)

static hv_error error;

/* Rows of numbers at a scale, null where the flag is not set. */
typedef struct rows {
    size_t count;
    int scale;
    wide numbers[MOST];
    bool valid[MOST];
} rows;

/* The same numbers in units of another scale, as long as each is between two bounds; else the first row that is not
 * (FITS: none), and 1 where no number of that scale is the same. */
typedef struct due {
    rows made;
    int row, why;
} due;

static uint64_t next(void) {
    static uint64_t seed = 5;
    seed = seed * 6364136223846793005u + 1442695040888963407u;
    return seed >> 20;
}

static wide number_of(hv_pair pair) { return (wide)pair.high * ((wide)1 << 64) + (wide)pair.low; }
static hv_pair pair_of(wide number) {
    return (hv_pair){(uint64_t)number, (int64_t)((unsigned_wide)number >> 64)};
}

/* 0 and the number at the other scale, or 2 where it has more than 38 digits, or 1 where there is none */
static int at_scale(wide number, int from, int to, wide *made) {
    *made = number;
    for (; from > to && *made; from--, *made /= 10)
        if (*made % 10) return 1;
    for (; from < to && *made; from++, *made *= 10)
        if (*made > GREATEST / 10 || *made < -(GREATEST / 10)) return 2;
    return 0;
}

static due due_of(const rows *it, int scale, wide least, wide greatest) {
    due found = {.made = *it, .row = FITS};
    found.made.scale = scale;
    for (size_t row = 0; row < it->count && found.row == FITS; row++) {
        if (!it->valid[row]) continue;
        const int answer = at_scale(it->numbers[row], it->scale, scale, &found.made.numbers[row]);
        const bool is_held = found.made.numbers[row] >= least && found.made.numbers[row] <= greatest;
        if (answer || !is_held) found.row = (int)row, found.why = answer == 1;
    }
    return found;
}

/* few digits, with zeros at their end, and 37 to 39 digits */
static wide some_number(void) {
    const wide sign = next() % 2 ? 1 : -1;
    switch (next() % 12) {
    case 0: return sign * (GREATEST - (wide)(next() % 3));
    case 1: return sign * (GREATEST / 10);
    case 2: return sign * (GREATEST + 1);
    case 3: return 0;
    case 4: return sign * 12800;
    case 5: return sign * (wide)(next() % 1000);
    default: return sign * (wide)(next() % 100) * 1000;
    }
}

/* rows that often repeat the one before */
static rows random_rows(void) {
    rows it = {.count = (size_t)(next() % MOST), .scale = (int)(next() % 6) - 2};
    const bool is_small = next() % 2;
    for (size_t row = 0; row < it.count; row++) {
        const bool anew = !row || next() % 4 == 0;
        it.valid[row] = anew ? next() % 4 > 0 : it.valid[row - 1];
        it.numbers[row] = !anew ? it.numbers[row - 1] : is_small ? (wide)(next() % 120) * 1000 : some_number();
    }
    return it;
}

/* The decimals in a flat column, null as 7. */
static hv_column flat_column(const rows *it) {
    uint8_t flags[MOST / 8 + 1] = {0};
    hv_pair pairs[MOST + 1];
    hv_column flat = HV_EMPTY;
    for (size_t row = 0; row < it->count; row++) {
        flags[row / 8] = (uint8_t)(flags[row / 8] | (it->valid[row] << (row % 8)));
        pairs[row] = pair_of(it->valid[row] ? it->numbers[row] : 7);
    }
    CHECK(!hv_decimals(pairs, it->count, 38, (int8_t)it->scale, NULLS_BY(flags, 0), &flat, &error));
    return flat;
}

/* Is the column in as few runs as possible, with these numbers in its rows? */
static void check_made(const hv_column *made, const rows *it) {
    size_t runs = 0;
    CHECK(hv_length(made) == it->count && hv_form(made) == HV_FORM_RUNS);
    for (size_t row = 0; row < it->count; row++) {
        hv_value value;
        CHECK(!hv_at(made, row, &value, NO_TEXT, &error));
        CHECK((value.kind == HV_NULL) == !it->valid[row]);
        const wide digits = number_of((hv_pair){value.as_unsigned, value.as_signed});
        if (value.kind == HV_DECIMAL_VALUE) CHECK(digits == it->numbers[row]);
        if (value.kind == HV_SIGNED) CHECK(value.as_signed == it->numbers[row]);
        if (value.kind == HV_UNSIGNED) CHECK(value.as_unsigned == (unsigned_wide)it->numbers[row]);
        runs += !row || it->valid[row] != it->valid[row - 1] ||
                (it->valid[row] && it->numbers[row] != it->numbers[row - 1]);
    }
    size_t counted = 0;
    CHECK(!hv_run_count(made, &counted, &error) && counted == runs);
}

/* A cast that was answered so. */
static bool check_cast(int32_t answer, hv_column *made, const due *wanted, hv_kind kind) {
    if (wanted->row != FITS) {
        CHECK(answer == HV_CAST_OUT_OF_RANGE && hv_form(made) == HV_FORM_NONE);
        CHECK(error.first == (uint64_t)wanted->row && error.second == (uint64_t)wanted->why && error.third == 0);
        return false;
    }
    const hv_kind found = hv_kind_of(made);
    CHECK(!answer && found.number == kind.number && found.precision == kind.precision && found.scale == kind.scale);
    check_made(made, &wanted->made);
    hv_free(made);
    return true;
}

static wide power_of_ten(int digits) {
    wide power = 1;
    for (; digits > 0; digits--) power *= 10;
    return power;
}

/* the type of integers, and its bounds */
static const struct integers { uint8_t number; wide least, greatest; } all_integers[] = {
    {HV_U8, 0, UINT8_MAX}, {HV_U16, 0, UINT16_MAX}, {HV_U32, 0, UINT32_MAX}, {HV_U64, 0, UINT64_MAX},
    {HV_I8, INT8_MIN, INT8_MAX}, {HV_I16, INT16_MIN, INT16_MAX}, {HV_I32, INT32_MIN, INT32_MAX},
    {HV_I64, INT64_MIN, INT64_MAX},
};

/* Both casts of a column that shows these rows; how many were made. */
static int check_casts(const hv_column *column, const rows *it) {
    hv_column made = HV_EMPTY;
    const int precision = next() % 4 ? 38 : 1 + (int)(next() % 38), scale = (int)(next() % 8) - 3;
    const wide limit = power_of_ten(precision);
    const due decimals = due_of(it, scale, 1 - limit, limit - 1);
    const hv_kind kind = {HV_DECIMAL, 1, (uint8_t)precision, (int8_t)scale};
    int32_t answer = hv_decimal_cast(column, kind.precision, kind.scale, &made, &error);
    int count = check_cast(answer, &made, &decimals, kind);
    const struct integers to = all_integers[next() % COUNT(all_integers)];
    const due integers = due_of(it, 0, to.least, to.greatest);
    answer = hv_decimal_to_integers(column, to.number, &made, &error);
    count += check_cast(answer, &made, &integers, (hv_kind){to.number, 1, 0, 0});
    return count;
}

/* Rows flat, in runs, and a part of the runs. */
static int check_trial(void) {
    const rows it = random_rows();
    hv_column flat = flat_column(&it), runs = HV_EMPTY, part = HV_EMPTY;
    const size_t start = (size_t)next() % (it.count + 1), stop = start + (size_t)next() % (it.count - start + 1);
    const hv_session plain = {0};
    rows shown = {.count = stop - start, .scale = it.scale};
    for (size_t row = start; row < stop; row++)
        shown.numbers[row - start] = it.numbers[row], shown.valid[row - start] = it.valid[row];
    CHECK(!hv_encode_rows(&flat, &runs, &error) && !hv_slice(&plain, &runs, start, stop, &part, &error));
    const int count = check_casts(&flat, &it) + check_casts(&runs, &it) + check_casts(&part, &shown);
    hv_free(&flat);
    hv_free(&runs);
    hv_free(&part);
    return count;
}

/* Integers of each trial, at the scale 0, as decimals. */
static int check_integers(void) {
    int64_t items[MOST + 1];
    uint8_t flags[MOST / 8 + 1] = {0};
    rows it = {.count = (size_t)(next() % MOST)};
    hv_column flat = HV_EMPTY, made = HV_EMPTY;
    for (size_t row = 0; row < it.count; row++) {
        const bool anew = !row || next() % 3 == 0;
        const int64_t some = next() % 8 ? (int64_t)(next() % 200) * 100 - 5000 : INT64_MIN + (int64_t)next();
        items[row] = anew ? some : items[row - 1];
        it.valid[row] = next() % 6 > 0;
        it.numbers[row] = items[row];
        flags[row / 8] = (uint8_t)(flags[row / 8] | (it.valid[row] << (row % 8)));
    }
    CHECK(!hv_i64(items, it.count, NULLS_BY(flags, 0), &flat, &error));
    const int precision = 4 + (int)(next() % 35), scale = (int)(next() % 6) - 3;
    const wide limit = power_of_ten(precision);
    const due wanted = due_of(&it, scale, 1 - limit, limit - 1);
    const hv_kind kind = {HV_DECIMAL, 1, (uint8_t)precision, (int8_t)scale};
    const int32_t answer = hv_decimal_cast(&flat, kind.precision, kind.scale, &made, &error);
    const int count = check_cast(answer, &made, &wanted, kind);
    hv_free(&flat);
    return count;
}

/* 2^60 rows are cast as one. */
static void check_constants(void) {
    const hv_value value = {.kind = HV_UNSIGNED, .as_unsigned = 7};
    const hv_kind kind = {HV_U8, 0, 0, 0};
    hv_column many = HV_EMPTY, prices = HV_EMPTY, counts = HV_EMPTY;
    hv_value last;
    CHECK(!hv_constant(&kind, &value, NO_TEXT, UINT64_C(1) << 60, &many, &error));
    CHECK(!hv_decimal_cast(&many, 5, 2, &prices, &error) && hv_length(&prices) == UINT64_C(1) << 60);
    CHECK(!hv_at(&prices, (UINT64_C(1) << 60) - 1, &last, NO_TEXT, &error) && last.as_unsigned == 700);
    CHECK(!hv_decimal_to_integers(&prices, HV_U8, &counts, &error));
    CHECK(!hv_at(&counts, 5, &last, NO_TEXT, &error) && last.kind == HV_UNSIGNED && last.as_unsigned == 7);
    hv_free(&many);
    hv_free(&prices);
    hv_free(&counts);
}

/* 23 for a type that is not one of integers, and for decimals of no digit or more than 38, then 22 for no column, then 13 for a column of another type. */
static void check_refusals(void) {
    const int64_t numbers[2] = {4, 5};
    const uint8_t truths[1] = {1};
    hv_column integers = HV_EMPTY, flags = HV_EMPTY, none = HV_EMPTY, out = HV_EMPTY;
    CHECK(!hv_i64(numbers, 2, NOT_NULLABLE, &integers, &error));
    CHECK(!hv_bools(truths, 1, 0, 2, NO_NULLS, &flags, &error));
    CHECK_REFUSED(hv_decimal_cast(&flags, 5, 2, &out, &error), HV_UNSUPPORTED, 0, 0, 0);
    CHECK_REFUSED(hv_decimal_to_integers(&integers, HV_I64, &out, &error), HV_UNSUPPORTED, 0, 0, 0);
    CHECK(hv_decimal_cast(&none, 5, 2, &out, NULL) == HV_NO_COLUMN);
    CHECK(hv_decimal_to_integers(&none, HV_I64, &out, &error) == HV_NO_COLUMN);
    for (int to = HV_BOOL; to < 256; to++)
        CHECK(hv_decimal_to_integers(&none, (uint8_t)to, &out, &error) == HV_BAD_NUMBER);
    for (int precision = 0; precision < 256; precision++) { /* decimals have 1 to 38 digits */
        const bool is_one = precision >= 1 && precision <= 38;
        FILL(error);
        const int32_t answer = hv_decimal_cast(&integers, (uint8_t)precision, 0, &out, &error);
        CHECK(answer == (is_one ? HV_OK : HV_BAD_NUMBER));
        CHECK(hv_kind_of(&out).precision == precision || !is_one);
        if (is_one) hv_free(&out);
        CHECK(!out.at);
    }
    CHECK(hv_form(&out) == HV_FORM_NONE);
    hv_free(&integers);
    hv_free(&flags);
}

int main(void) {
    int made = 0;
    for (int i = 0; i < TRIALS; i++) made += check_trial() + check_integers();
    CHECK(made > TRIALS && made < 6 * TRIALS);
    check_constants();
    check_refusals();
    printf("%d casts of %d columns are those of integers of 128 bits\n", made, 2 * TRIALS);
    return 0;
}
