/* Columns of integers, decimals and floats compared with numbers of every type, around the borders of each, against
 * numbers of 3,200 bits: by hv_compare_number, and by hv_table_filter_by. And each refusal. */
#include "check.h"
#include "hivevigil_tables.h"

/* A number in units of 2^-1074 * 10^-127, of which each double and each decimal of a scale from -128 to 127 has a whole
 * number; infinities are the greatest, and a NaN is none. */
enum { DIGITS = 100, OPERATORS = 6, MOST = 24 };
typedef struct exact {
    bool is_nan, is_infinite, is_negative;
    uint32_t digits[DIGITS]; /* the lowest first */
} exact;

static hv_error error;
static hv_column out = HV_EMPTY;

/* ---- The model ---- */

static void multiply(exact *number, uint32_t factor, int times) {
    for (; times > 0; times--) {
        uint64_t carry = 0;
        for (int i = 0; i < DIGITS; i++) {
            carry += (uint64_t)number->digits[i] * factor;
            number->digits[i] = (uint32_t)carry, carry >>= 32;
        }
        CHECK(!carry);
    }
}

static exact exact_decimal(__int128 digits, int scale) {
    exact number = {.is_negative = digits < 0};
    unsigned __int128 size = digits < 0 ? -(unsigned __int128)digits : (unsigned __int128)digits;
    for (int i = 0; i < 4; i++, size >>= 32) number.digits[i] = (uint32_t)size;
    multiply(&number, 10, 127 - scale), multiply(&number, 2, 1074);
    return number;
}

/* the double with these bits: its fraction, with a leading bit unless it is subnormal, times a power of two */
static exact exact_double(uint64_t bits) {
    const int power = (int)(bits >> 52 & 0x7ff);
    const uint64_t fraction = bits & 0xfffffffffffff, size = fraction | (uint64_t)(power > 0) << 52;
    exact number = {.is_negative = bits >> 63, .is_nan = power == 0x7ff && fraction, .is_infinite = power == 0x7ff};
    if (power == 0x7ff) return number;
    number.digits[0] = (uint32_t)size, number.digits[1] = (uint32_t)(size >> 32);
    multiply(&number, 2, power ? power - 1 : 0), multiply(&number, 10, 127);
    return number;
}

static bool is_zero(const exact *number) {
    for (int i = 0; i < DIGITS; i++)
        if (number->digits[i]) return false;
    return !number->is_infinite;
}

/* -1, 0 or 1; of numbers that are not NaN */
static int order_of(const exact *a, const exact *b) {
    if (is_zero(a) && is_zero(b)) return 0;
    if (a->is_negative != b->is_negative) return is_zero(a) ? (b->is_negative ? 1 : -1) : a->is_negative ? -1 : 1;
    const int larger = a->is_negative ? -1 : 1;
    if (a->is_infinite || b->is_infinite) return (a->is_infinite - b->is_infinite) * larger;
    for (int i = DIGITS - 1; i >= 0; i--)
        if (a->digits[i] != b->digits[i]) return a->digits[i] > b->digits[i] ? larger : -larger;
    return 0;
}

static bool holds(int operator_, const exact *a, const exact *b) {
    if (a->is_nan || b->is_nan) return operator_ == HV_NE;
    const int order = order_of(a, b);
    const bool answers[OPERATORS] = {order == 0, order != 0, order > 0, order >= 0, order < 0, order <= 0};
    return answers[operator_];
}

/* ---- What is compared: a number as C passes it ---- */

static hv_value unsigned_of(uint64_t number) { return (hv_value){.kind = HV_UNSIGNED, .as_unsigned = number}; }
static hv_value signed_of(int64_t number) { return (hv_value){.kind = HV_SIGNED, .as_signed = number}; }
static hv_value bits_value(uint64_t bits) { return (hv_value){.kind = HV_DOUBLE, .as_unsigned = bits}; }
static hv_value double_value(double number) {
    uint64_t bits;
    memcpy(&bits, &number, sizeof bits);
    return bits_value(bits);
}
static hv_value scaled(__int128 digits, int scale) {
    return (hv_value){.kind = HV_SCALED, .as_unsigned = (uint64_t)digits, .as_signed = (int64_t)(digits >> 64),
                      .scale = (int8_t)scale};
}

static exact exact_value(hv_value value) {
    switch (value.kind) {
    case HV_UNSIGNED: return exact_decimal((__int128)value.as_unsigned, 0);
    case HV_SIGNED: return exact_decimal(value.as_signed, 0);
    case HV_DOUBLE: return exact_double(value.as_unsigned);
    default: return exact_decimal((__int128)value.as_signed * ((__int128)1 << 64) + value.as_unsigned, value.scale);
    }
}

static __int128 power_of_ten(int power) { return power ? 10 * power_of_ten(power - 1) : 1; }
static const uint64_t nan_bits = UINT64_C(0x7ff8000000000001), sign = UINT64_C(1) << 63;
static const __int128 greatest = (__int128)(~(unsigned __int128)0 >> 1);
static hv_value numbers[64];
static exact exact_numbers[64];
static size_t number_count;

static void add(hv_value value) {
    CHECK(number_count < COUNT(numbers));
    numbers[number_count] = value, exact_numbers[number_count++] = exact_value(value);
}

static void make_numbers(void) {
    static const uint64_t wholes[] = {0, 1, 127, 128, 255, 256, 65504, 65520, 1 << 24 | 1, (UINT64_C(1) << 53) + 1,
                                      INT64_MAX, UINT64_C(1) << 63, UINT64_MAX};
    static const int64_t negatives[] = {-1, -128, -129, -(INT64_C(1) << 53) - 1, INT64_MIN};
    static const double doubles[] = {0.0, 0.1, 0.5, 5.5, 1e15 + 0.5, 9007199254740992.0, 9007199254740994.0, 65519.0,
                                     9223372036854775808.0, 18446744073709551616.0, 3.4028236e38, 1e300, 5e-324};
    for (size_t i = 0; i < COUNT(wholes); i++) add(unsigned_of(wholes[i]));
    for (size_t i = 0; i < COUNT(negatives); i++) add(signed_of(negatives[i]));
    for (size_t i = 0; i < COUNT(doubles); i++) add(double_value(doubles[i])), add(double_value(-doubles[i]));
    add(bits_value(UINT64_C(0x7ff) << 52)), add(bits_value(UINT64_C(0xfff) << 52));
    add(bits_value(nan_bits)), add(bits_value(nan_bits | sign)), add(signed_of(INT64_MAX));
    add(scaled(1, 1)), add(scaled(-55, 1)), add(scaled(90071992547409925, 1)), add(scaled(3, 127));
    add(scaled(-3, -128)), add(scaled(power_of_ten(38), -5)), add(scaled(greatest, 0)), add(scaled(-greatest - 1, 0));
    add(scaled(greatest, 127)), add(scaled(-greatest - 1, -128)), add(scaled(0, -128));
    add(scaled(power_of_ten(38), 38));
}

/* ---- Columns, with the exact number of each row ---- */

typedef struct rows {
    hv_column column;
    size_t count;
    exact exact[MOST]; /* the last row is null */
} rows;

/* every border that the type of integers has, and null */
static void make_integers(uint8_t type, rows *it) {
    const int width = 8 << type % 4;
    const bool is_signed = type >= HV_I8;
    const __int128 most = (((__int128)1 << (width - is_signed)) - 1), least = is_signed ? -most - 1 : 0;
    const __int128 whole = (__int128)1 << 53;
    const __int128 wanted[] = {least, least + 1, -1, 0, 1, 5, 6, whole, whole + 1, most - 1, most, 0};
    const hv_kind kind = {type, 1, 0, 0};
    uint64_t unsigned_rows[MOST];
    int64_t signed_rows[MOST];
    hv_column wide = HV_EMPTY;
    hv_session session;
    hv_session_initial(&session);
    it->count = 0;
    for (size_t i = 0; i < COUNT(wanted); i++) {
        if (wanted[i] < least || wanted[i] > most) continue;
        unsigned_rows[it->count] = (uint64_t)wanted[i], signed_rows[it->count] = (int64_t)wanted[i];
        it->exact[it->count++] = exact_decimal(wanted[i], 0);
    }
    uint8_t bits[MOST / 8 + 1];
    memset(bits, 0xff, sizeof bits);
    bits[(it->count - 1) / 8] = (uint8_t)(bits[(it->count - 1) / 8] & ~(1 << (it->count - 1) % 8));
    if (is_signed) CHECK(!hv_i64(signed_rows, it->count, NULLS_BY(bits, 0), &wide, &error));
    else CHECK(!hv_u64(unsigned_rows, it->count, NULLS_BY(bits, 0), &wide, &error));
    CHECK(!hv_cast(&session, &wide, &kind, &it->column, &error));
    hv_free(&wide);
}

static void make_decimals(int scale, rows *it) {
    const __int128 wanted[] = {-greatest - 1, -power_of_ten(38), -55, -1, 0, 1, 55, 505, power_of_ten(37), greatest, 0};
    const uint8_t bits[2] = {0xff, 0xfb};
    hv_pair pairs[MOST];
    it->count = COUNT(wanted);
    for (size_t i = 0; i < it->count; i++) {
        pairs[i] = (hv_pair){(uint64_t)wanted[i], (int64_t)(wanted[i] >> 64)};
        it->exact[i] = exact_decimal(wanted[i], scale);
    }
    CHECK(!hv_decimals(pairs, it->count, 38, (int8_t)scale, NULLS_BY(bits, 0), &it->column, &error));
}

/* the double that a float of 16 or 32 bits is, by its bits */
static uint64_t widened(uint64_t bits, int fraction_bits, int power_bits) {
    const uint64_t fraction = bits & ((UINT64_C(1) << fraction_bits) - 1), minus = bits >> (fraction_bits + power_bits);
    const int power = (int)(bits >> fraction_bits & ((UINT64_C(1) << power_bits) - 1)), most = (1 << power_bits) - 1;
    double size = (double)fraction / (double)(UINT64_C(1) << fraction_bits) + (power > 0);
    if (power == most) return minus << 63 | UINT64_C(0x7ff) << 52 | (fraction ? 1 : 0);
    for (int i = power ? power : 1; i < most / 2; i++) size /= 2;
    for (int i = most / 2; i < power; i++) size *= 2;
    return minus << 63 | double_value(size).as_unsigned;
}

/* zeros, the least, the greatest, infinities, NaNs and numbers between, by their bits */
static void make_floats(int format, rows *it) {
    static const int fractions[3] = {10, 23, 52}, powers[3] = {5, 8, 11};
    static const char *const names[3] = {"e", "f", "g"};
    const uint64_t one = UINT64_C(1) << fractions[format], most = (UINT64_C(1) << (powers[format] - 1)) - 1;
    const uint64_t minus = one << powers[format], infinity = one * (2 * most + 1);
    const uint64_t tenth = format == 0 ? 0x2e66 : format == 1 ? 0x3dcccccd : UINT64_C(0x3fb999999999999a);
    const uint64_t wanted[] = {0, minus, 1, minus | 1, one - 1, tenth, most * one, minus | (most * one),
                               (most + 2) * one + one / 8 * 3, infinity - 1, infinity, minus | infinity, infinity + 1,
                               minus | (infinity + 1), (most + 10) * one + 1, format ? (most + 24) * one : one,
                               format ? (most + 53) * one : one, 0};
    uint16_t halves[MOST];
    uint32_t floats[MOST];
    uint8_t bits[MOST / 8];
    hv_column patterns = HV_EMPTY, keys = HV_EMPTY;
    it->count = COUNT(wanted);
    memset(bits, 0xff, sizeof bits);
    bits[(it->count - 1) / 8] = (uint8_t)~(1 << (it->count - 1) % 8);
    for (size_t i = 0; i < it->count; i++) {
        halves[i] = (uint16_t)wanted[i], floats[i] = (uint32_t)wanted[i];
        it->exact[i] = exact_double(format == 2 ? wanted[i] : widened(wanted[i], fractions[format], powers[format]));
    }
    const hv_validity validity = NULLS_BY(bits, 0);
    CHECK(!(format == 0 ? hv_u16(halves, it->count, validity, &patterns, &error)
            : format == 1 ? hv_u32(floats, it->count, validity, &patterns, &error)
                          : hv_u64(wanted, it->count, validity, &patterns, &error)));
    CHECK(!hv_float_encode(&patterns, 0, &keys, &error));
    CHECK(!hv_with_type(&keys, (const uint8_t *)names[format], 1, &it->column, &error));
    hv_free(&patterns), hv_free(&keys);
}

/* ---- Comparisons ---- */

static void check_mask(const rows *it, int operator_, size_t number) {
    CHECK(!hv_compare_number(&it->column, (uint8_t)operator_, &numbers[number], &out, &error));
    CHECK(hv_length(&out) == it->count && hv_form(&out) == hv_form(&it->column));
    for (size_t row = 0; row < it->count; row++) {
        hv_value truth;
        CHECK(!hv_at(&out, row, &truth, NO_TEXT_ROOM, &error));
        if (row + 1 == it->count) CHECK(truth.kind == HV_NULL);
        else CHECK(truth.kind == HV_TRUTH && truth.truth == holds(operator_, &it->exact[row], &exact_numbers[number]));
    }
}

/* the places of the rows that a filter keeps */
static void check_filter(const hv_table *table, const rows *it, int operator_, size_t number) {
    hv_table kept = HV_EMPTY;
    hv_column places = HV_EMPTY;
    size_t next = 0;
    CHECK(!hv_table_filter_by(table, (const uint8_t *)"x", 1, (uint8_t)operator_, &numbers[number], NO_TEXT, &kept,
                              &error));
    CHECK(!hv_table_column(&kept, 1, &places, &error));
    for (size_t row = 0; row + 1 < it->count; row++) {
        hv_value place;
        if (!holds(operator_, &it->exact[row], &exact_numbers[number])) continue;
        CHECK(!hv_at(&places, next++, &place, NO_TEXT_ROOM, &error) && place.as_unsigned == row);
    }
    CHECK(hv_table_len(&kept) == next);
    hv_free(&places), hv_table_free(&kept);
}

static size_t compared;
static void check_rows(rows *it) {
    uint8_t counted[MOST];
    hv_column places = HV_EMPTY, runs = HV_EMPTY;
    hv_table table = HV_EMPTY;
    for (size_t row = 0; row < it->count; row++) counted[row] = (uint8_t)row;
    CHECK(!hv_u8(counted, it->count, NOT_NULLABLE, &places, &error) && !hv_table_new(0, &table, &error));
    CHECK(!hv_table_put(&table, (const uint8_t *)"x", 1, &it->column, &error));
    CHECK(!hv_table_put(&table, (const uint8_t *)"row", 3, &places, &error));
    CHECK(!hv_encode_rows(&it->column, &runs, &error));
    for (size_t number = 0; number < number_count; number++)
        for (int operator_ = 0; operator_ < OPERATORS; operator_++, compared++) {
            check_mask(it, operator_, number), check_filter(&table, it, operator_, number);
            hv_column flat = it->column;
            it->column = runs, check_mask(it, operator_, number), it->column = flat;
        }
    hv_table_free(&table), hv_free(&places), hv_free(&runs), hv_free(&it->column);
}

/* ---- Forms, formats and refusals ---- */

static void check_constants(void) {
    static const hv_kind kind = {HV_U8, 0, 0, 0};
    const hv_value five = unsigned_of(5), limit = scaled(49, 1);
    hv_column many = HV_EMPTY;
    CHECK(!hv_constant(&kind, &five, NO_TEXT, SIZE_MAX, &many, &error));
    CHECK(!hv_compare_number(&many, HV_GT, &limit, &out, &error));
    CHECK(hv_form(&out) == FORM_CONSTANT && hv_length(&out) == SIZE_MAX);
    hv_free(&many);
}

static void refuse(const hv_column *column, const hv_value *value, int32_t number) {
    hv_column kept = HV_EMPTY;
    CHECK_REFUSED(hv_compare_number(column, HV_EQ, value, &kept, &error), number, 0, 0, 0);
    CHECK(!kept.at);
}

/* a table of one column, filtered by a value: the number that is answered */
static int32_t filtered(const hv_column *column, const hv_value *value) {
    hv_table table = HV_EMPTY, kept = HV_EMPTY;
    hv_column lent = *column;
    CHECK(!hv_table_new(0, &table, &error) && !hv_table_put(&table, (const uint8_t *)"x", 1, &lent, &error));
    FILL(error);
    const int32_t answer = hv_table_filter_by(&table, (const uint8_t *)"x", 1, HV_GE, value, NO_TEXT, &kept, &error);
    CHECK(!kept.at == (answer != 0));
    if (answer) CHECK(!error.first && !error.second && !error.third);
    hv_table_free(&table), hv_table_free(&kept);
    return answer;
}

static void check_refusals(void) {
    static const int32_t days[3] = {1, 2, 3}, offsets[4] = {0, 1, 2, 3};
    static const uint64_t places[2] = {0, 1}, sizes[2] = {1, 2};
    static const uint8_t letters[3] = {'a', 'b', 'c'};
    hv_column numbers_of_days = HV_EMPTY, dates = HV_EMPTY, texts = HV_EMPTY, truths = HV_EMPTY, lists = HV_EMPTY;
    hv_column none = HV_EMPTY;
    const hv_value two = signed_of(2), others[] = {{.kind = HV_NULL}, {.kind = HV_TRUTH}, {.kind = HV_DECIMAL_VALUE},
                                                   {.kind = HV_TEXT}, {.kind = HV_BYTES}, {.kind = 9}, {.kind = 255}};
    CHECK(!hv_i32(days, 3, NOT_NULLABLE, &numbers_of_days, &error));
    CHECK(!hv_with_type(&numbers_of_days, (const uint8_t *)"tdD", 3, &dates, &error));
    CHECK(!hv_texts(0, offsets, 4, letters, 3, NOT_NULLABLE, &texts, &error));
    CHECK(!hv_bools(letters, 1, 0, 3, NOT_NULLABLE, &truths, &error));
    CHECK(!hv_lists(&numbers_of_days, places, 2, sizes, 2, NOT_NULLABLE, &lists, &error));
    CHECK(hv_compare_number(&none, 6, &two, &out, &error) == HV_BAD_NUMBER);
    CHECK(hv_compare_number(&none, HV_EQ, &two, &out, &error) == HV_NO_COLUMN);
    refuse(&dates, &two, HV_TYPE_MISMATCH), refuse(&texts, &two, HV_TYPE_MISMATCH);
    refuse(&truths, &two, HV_TYPE_MISMATCH), refuse(&lists, &two, HV_UNSUPPORTED);
    for (size_t i = 0; i < COUNT(others); i++) {
        refuse(&numbers_of_days, &others[i], HV_TYPE_MISMATCH), refuse(&lists, &others[i], HV_UNSUPPORTED);
        CHECK(filtered(&lists, &others[i]) == HV_UNSUPPORTED);
        CHECK(filtered(&numbers_of_days, &others[i]) == (others[i].kind == HV_NULL ? 0 : HV_TYPE_MISMATCH));
    }
    /* dates are what is stored, by its type, and no numbers */
    CHECK(!filtered(&dates, &two) && filtered(&texts, &two) == HV_TYPE_MISMATCH);
    const hv_value no_dates[] = {unsigned_of(2), double_value(2), scaled(2, 0), signed_of(INT64_MAX)};
    for (size_t i = 0; i < COUNT(no_dates); i++) {
        CHECK(filtered(&dates, &no_dates[i]) == HV_TYPE_MISMATCH && filtered(&lists, &no_dates[i]) == HV_UNSUPPORTED);
        CHECK(!filtered(&numbers_of_days, &no_dates[i]));
    }
    hv_free(&numbers_of_days), hv_free(&dates), hv_free(&texts), hv_free(&truths), hv_free(&lists);
}

int main(void) {
    static const int scales[] = {0, 1, 3, -5, 38, 127, -128};
    static rows it;
    make_numbers();
    for (int type = HV_U8; type <= HV_I64; type++) make_integers((uint8_t)type, &it), check_rows(&it);
    for (size_t i = 0; i < COUNT(scales); i++) make_decimals(scales[i], &it), check_rows(&it);
    for (int format = 0; format < 3; format++) make_floats(format, &it), check_rows(&it);
    check_constants();
    check_refusals();
    hv_free(&out);
    printf("%zu comparisons with exact numbers\n", compared);
}
