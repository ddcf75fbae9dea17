/* Columns of floats: the bits that come back, comparisons, the least and the greatest, and sums, against what the
 * machine's own floats answer; and each refusal. */
#include "check.h"
#include <math.h>

enum { MOST = 50, OPERATORS = 6, TRIALS = 300 };

static hv_session session;
static hv_error error;
static hv_column out = HV_EMPTY;

/* Rows of floats of 64 bits, null where the flag is not set; what is stored there is a NaN. */
typedef struct rows {
    size_t count;
    uint64_t bits[MOST];
    bool valid[MOST];
} rows;

static uint64_t next(void) {
    static uint64_t seed = 5;
    seed = seed * 6364136223846793005u + 1442695040888963407u;
    return seed >> 20;
}

static double double_of(uint64_t bits) {
    double number;
    memcpy(&number, &bits, sizeof number);
    return number;
}

static uint64_t bits_of(double number) {
    uint64_t bits;
    memcpy(&bits, &number, sizeof bits);
    return bits;
}

/* The key of bits of a width: how far the float is from 0.0 in the total order, where -0.0 is the one before 0.0. */
static int64_t key_of(uint64_t bits, int width) {
    const uint64_t magnitude = bits & (((uint64_t)1 << (width - 1)) - 1);
    return bits >> (width - 1) & 1 ? -1 - (int64_t)magnitude : (int64_t)magnitude;
}

/* The column under the format of floats. */
static hv_column under(const hv_column *floats, const char *format) {
    hv_column typed = HV_EMPTY;
    CHECK(!hv_with_type(floats, (const uint8_t *)format, strlen(format), &typed, &error));
    return typed;
}

/* A row is the double with these bits. */
static bool is_double(hv_value value, uint64_t bits) { return value.kind == HV_DOUBLE && value.as_unsigned == bits; }

/* A row is this key. */
static bool is_key(hv_value value, int64_t key) { return value.kind == HV_SIGNED && value.as_signed == key; }

/* 2^exponent, of a normal number */
static double power_of_two(int exponent) { return double_of((uint64_t)(exponent + 1023) << 52); }

/* both zeros, the smallest and the largest numbers, infinities, NaNs of both signs with payloads, and numbers near 1 */
static uint64_t some_bits(void) {
    static const uint64_t special[] = {
        0, 1, 0x000fffffffffffff, 0x0010000000000000, 0x3ff0000000000000, 0x3ff0000000000001, 0x7fefffffffffffff,
        0x7ff0000000000000, 0x7ff0000000000001, 0x7ff8000000000000, 0x7ff800000000beef, 0x7fffffffffffffff,
    };
    const uint64_t sign = next() % 2 << 63;
    return (next() % 3 ? special[next() % COUNT(special)] : bits_of((double)(next() % 100) / 8)) | sign;
}

/* rows that often repeat the one before */
static rows random_rows(void) {
    rows it = {.count = (size_t)(next() % MOST)};
    for (size_t row = 0; row < it.count; row++) {
        const bool anew = !row || next() % 2;
        it.valid[row] = anew ? next() % 4 > 0 : it.valid[row - 1];
        it.bits[row] = !it.valid[row] ? 0x7ff8000000000077 : anew ? some_bits() : it.bits[row - 1];
    }
    return it;
}

static hv_column bits_column(const rows *it) {
    uint8_t flags[MOST / 8 + 1] = {0};
    hv_column flat = HV_EMPTY;
    for (size_t row = 0; row < it->count; row++)
        flags[row / 8] = (uint8_t)(flags[row / 8] | (it->valid[row] << (row % 8)));
    CHECK(!hv_u64(it->bits, it->count, NULLS_BY(flags, 0), &flat, &error));
    return flat;
}

/* the place of bits in the total order: a larger magnitude lies farther out, with minus below 0 */
static bool is_totally_below(uint64_t a, uint64_t b) {
    const bool minus_a = a >> 63, minus_b = b >> 63;
    if (minus_a != minus_b) return minus_a;
    return minus_a ? a > b : a < b;
}

static bool holds(int operator_, uint64_t a, uint64_t b, bool is_ieee) {
    const double x = double_of(a), y = double_of(b);
    const bool ieee[OPERATORS] = {x == y, x != y, x > y, x >= y, x < y, x <= y};
    const bool total[OPERATORS] = {a == b, a != b, is_totally_below(b, a), !is_totally_below(a, b),
                                   is_totally_below(a, b), !is_totally_below(b, a)};
    return is_ieee ? ieee[operator_] : total[operator_];
}

/* Each row by itself, as a double and as a key, and all rows decoded. */
static void check_rows(const hv_column *floats, const rows *it) {
    uint64_t read[MOST + 1];
    hv_column typed = under(floats, "g");
    size_t nulls = 0;
    CHECK(hv_length(floats) == it->count && hv_kind_of(floats).number == HV_I64);
    CHECK(!hv_float_decode(floats, &out, &error) && hv_kind_of(&out).number == HV_U64 && hv_form(&out) == FORM_FLAT);
    CHECK(!hv_read_u64(&out, 0, read, it->count, &error));
    for (size_t row = 0; row < it->count; row++) {
        const bool is_valid = it->valid[row];
        hv_value value, key;
        FILL(value), FILL(key);
        CHECK(!hv_at(&typed, row, &value, NULL, 0, &error) && !hv_at(floats, row, &key, NULL, 0, &error));
        CHECK(is_valid ? is_double(value, it->bits[row]) : value.kind == HV_NULL);
        CHECK(is_valid ? is_key(key, key_of(it->bits[row], 64)) : key.kind == HV_NULL);
        CHECK(!is_valid || read[row] == it->bits[row]);
        nulls += !is_valid;
    }
    CHECK(hv_null_count(&typed) == nulls && hv_length(&typed) == it->count);
    hv_free(&typed);
}

static void check_compared(const hv_column *floats, const rows *it) {
    const uint64_t constant = some_bits();
    for (int operator_ = 0; operator_ < OPERATORS; operator_++)
        for (int is_ieee = 0; is_ieee < 2; is_ieee++) {
            CHECK(!hv_float_compare(floats, (uint8_t)operator_, constant, (uint8_t)is_ieee, &out, &error));
            CHECK(hv_length(&out) == it->count && hv_kind_of(&out).number == HV_BOOL);
            for (size_t row = 0; row < it->count; row++) {
                hv_value truth;
                CHECK(!hv_at(&out, row, &truth, NO_TEXT_ROOM, &error));
                CHECK((truth.kind == HV_TRUTH) == it->valid[row]);
                CHECK(!it->valid[row] || truth.truth == holds(operator_, it->bits[row], constant, is_ieee));
            }
        }
}

/* Numbers under the format, where NaNs have no place, and keys without it. */
static void check_extremes(const hv_column *floats, const rows *it) {
    hv_column typed = under(floats, "g");
    for (int is_ieee = 0; is_ieee < 2; is_ieee++) {
        uint64_t due_least = 0, due_greatest = 0;
        bool is_due = false;
        hv_value least, greatest;
        FILL(least), FILL(greatest);
        for (size_t row = 0; row < it->count; row++) {
            if (!it->valid[row] || (is_ieee && isnan(double_of(it->bits[row])))) continue;
            if (!is_due || is_totally_below(it->bits[row], due_least)) due_least = it->bits[row];
            if (!is_due || is_totally_below(due_greatest, it->bits[row])) due_greatest = it->bits[row];
            is_due = true;
        }
        CHECK(!hv_min_max(&session, is_ieee ? &typed : floats, &least, NULL, 0, &greatest, NULL, 0, &error));
        if (!is_due) CHECK(least.kind == HV_NULL && greatest.kind == HV_NULL);
        else if (is_ieee) CHECK(is_double(least, due_least) && is_double(greatest, due_greatest));
        else CHECK(is_key(least, key_of(due_least, 64)) && is_key(greatest, key_of(due_greatest, 64)));
    }
    hv_free(&typed);
}

/* One zero and one NaN: canonical columns have the same rows for every pattern of a number. */
static void check_canonical(const hv_column *bits, const rows *it) {
    hv_column floats = HV_EMPTY;
    CHECK(!hv_float_encode(bits, 1, &floats, &error));
    hv_column typed = under(&floats, "g");
    for (size_t row = 0; row < it->count; row++) {
        const double number = double_of(it->bits[row]);
        const uint64_t due = isnan(number) ? 0x7ff8000000000000 : number == 0 ? 0 : it->bits[row];
        hv_value found;
        CHECK(!hv_at(&typed, row, &found, NULL, 0, &error));
        CHECK(it->valid[row] ? is_double(found, due) : found.kind == HV_NULL);
    }
    hv_free(&floats);
    hv_free(&typed);
}

static void check_trial(void) {
    const rows it = random_rows();
    hv_column bits = bits_column(&it), floats = HV_EMPTY;
    CHECK(!hv_float_encode(&bits, 0, &floats, &error));
    check_rows(&floats, &it);
    check_compared(&floats, &it);
    check_extremes(&floats, &it);
    check_canonical(&bits, &it);
    hv_free(&bits);
    hv_free(&floats);
}

/* Multiples of 2^-40 up to 2^80: their sum is one of integers of 128 bits, which the compiler rounds once. */
static void check_sum(void) {
    rows it = {.count = (size_t)(next() % MOST)};
    __int128 exact = 0;
    size_t valid = 0;
    hv_total total;
    for (size_t row = 0; row < it.count; row++) {
        const int64_t fraction = (int64_t)(next() % (1u << 30)) - (1 << 29);
        const int shift = (int)(next() % 90);
        it.valid[row] = next() % 5 > 0;
        it.bits[row] = bits_of((double)fraction * power_of_two(shift - 40));
        if (it.valid[row]) exact += (__int128)fraction * ((__int128)1 << shift), valid++;
    }
    hv_column flat = bits_column(&it), floats = HV_EMPTY;
    CHECK(!hv_float_encode(&flat, 1, &floats, &error));
    hv_column typed = under(&floats, "g");
    FILL(total);
    CHECK(!hv_sum(&session, &typed, &total, &error) && total.kind == HV_DOUBLE && total.empty == !valid);
    CHECK(hv_length(&typed) - hv_null_count(&typed) == valid);
    CHECK(double_of(total.as_unsigned) == (double)exact * power_of_two(-40));
    hv_free(&flat);
    hv_free(&floats);
    hv_free(&typed);
}

/* The sum of as many floats as `count`. */
static double sum_of(const double *numbers, size_t count) {
    hv_column flat = HV_EMPTY, floats = HV_EMPTY;
    hv_total total;
    CHECK(!hv_u64((const uint64_t *)(const void *)numbers, count, NOT_NULLABLE, &flat, &error));
    CHECK(!hv_float_encode(&flat, 0, &floats, &error));
    hv_column typed = under(&floats, "g");
    FILL(total);
    CHECK(!hv_sum(&session, &typed, &total, &error) && total.kind == HV_DOUBLE && total.empty == !count);
    CHECK(hv_length(&typed) - hv_null_count(&typed) == count);
    hv_free(&flat);
    hv_free(&floats);
    hv_free(&typed);
    return double_of(total.as_unsigned);
}

static void check_special_sums(void) {
    const double large[3] = {1e308, 1e308, -1e308}, all_large[2] = {1.7e308, 1.7e308}, lost[3] = {1e100, 1, -1e100};
    const double both[2] = {INFINITY, -INFINITY}, one[2] = {-INFINITY, 3}, zeros[2] = {-0.0, -0.0}, mixed[2] = {-0.0, 0};
    CHECK(sum_of(large, 3) == 1e308 && sum_of(lost, 3) == 1);
    CHECK(sum_of(all_large, 2) == INFINITY && sum_of(one, 2) == -INFINITY && isnan(sum_of(both, 2)));
    CHECK(sum_of(zeros, 2) == 0 && signbit(sum_of(zeros, 2)) && !signbit(sum_of(mixed, 2)) && !signbit(sum_of(mixed, 0)));
}

/* The rows of a column under a format are the doubles with these bits. */
static void check_doubles(const hv_column *typed, const uint64_t *due, size_t count) {
    CHECK(hv_length(typed) == count && hv_null_count(typed) == 0);
    for (size_t row = 0; row < count; row++) {
        hv_value value;
        FILL(value);
        CHECK(!hv_at(typed, row, &value, NULL, 0, &error) && is_double(value, due[row]));
    }
}

/* Floats of 32 and of 16 bits, by their patterns: rows are the doubles that have the same number. */
static void check_narrow(void) {
    const float numbers[5] = {-0.0f, 0.0f, 1.5f, NAN, -INFINITY}, summed[3] = {0x1p-149f, 1.5f, 0x1p127f};
    const uint16_t shorts[4] = {0x3e00, 0xfc00, 0x7e01, 0x8000}; /* 1.5, -infinity, a NaN, -0.0 */
    const uint16_t added[4] = {0x7bff, 0x7bff, 0x0001, 0xbc00};  /* 65504 twice, 2^-24, -1 */
    uint64_t due[5];
    uint32_t words[5];
    hv_value least, greatest;
    hv_total total;
    hv_column bits = HV_EMPTY, floats = HV_EMPTY;
    memcpy(words, numbers, sizeof words);
    CHECK(!hv_u32(words, 5, NOT_NULLABLE, &bits, &error) && !hv_float_encode(&bits, 0, &floats, &error));
    CHECK(hv_kind_of(&floats).number == HV_I32 && hv_form(&floats) == FORM_RUNS);
    CHECK(!hv_float_decode(&floats, &out, &error) && hv_kind_of(&out).number == HV_U32);
    CHECK(!hv_float_compare(&floats, HV_EQ, words[0], 1, &out, &error));
    CHECK_ROWS(&out, "true true false false false");
    hv_column typed = under(&floats, "f");
    for (size_t row = 0; row < 5; row++) due[row] = bits_of((double)numbers[row]);
    /* a quiet NaN keeps its sign and its payload of 23 bits in front of 29 that are 0 */
    due[3] = (uint64_t)(words[3] >> 31) << 63 | UINT64_C(0x7ff) << 52 | (uint64_t)(words[3] & 0x7fffff) << 29;
    check_doubles(&typed, due, 5);
    CHECK(!hv_min_max(&session, &typed, &least, NULL, 0, &greatest, NULL, 0, &error));
    CHECK(is_double(least, bits_of(-INFINITY)) && is_double(greatest, bits_of(1.5)));
    CHECK(!hv_sum(&session, &typed, &total, &error) && total.kind == HV_DOUBLE && isnan(double_of(total.as_unsigned)));
    memcpy(words, summed, sizeof summed);
    CHECK(!hv_u32(words, 3, NOT_NULLABLE, &bits, &error) && !hv_float_encode(&bits, 0, &floats, &error));
    CHECK(!hv_with_type(&floats, (const uint8_t *)"f", 1, &typed, &error));
    CHECK(!hv_sum(&session, &typed, &total, &error) && total.kind == HV_DOUBLE && !total.empty);
    CHECK(total.as_unsigned == bits_of(0x1p127));
    CHECK(!hv_u16(shorts, 4, NOT_NULLABLE, &bits, &error) && !hv_float_encode(&bits, 0, &floats, &error));
    CHECK(hv_kind_of(&floats).number == HV_I16);
    CHECK(!hv_float_compare(&floats, HV_GE, 0, 1, &out, &error));
    CHECK_ROWS(&out, "true false false true");
    CHECK(!hv_min_max(&session, &floats, &least, NULL, 0, &greatest, NULL, 0, &error));
    CHECK(is_key(least, key_of(0xfc00, 16)) && is_key(greatest, key_of(0x7e01, 16)));
    CHECK(!hv_with_type(&floats, (const uint8_t *)"e", 1, &typed, &error));
    const uint64_t shorts_due[4] = {bits_of(1.5), bits_of(-INFINITY), UINT64_C(0x7ff8040000000000), bits_of(-0.0)};
    check_doubles(&typed, shorts_due, 4);
    CHECK(!hv_min_max(&session, &typed, &least, NULL, 0, &greatest, NULL, 0, &error));
    CHECK(is_double(least, bits_of(-INFINITY)) && is_double(greatest, bits_of(1.5)));
    CHECK(!hv_u16(added, 4, NOT_NULLABLE, &bits, &error) && !hv_float_encode(&bits, 0, &floats, &error));
    CHECK(!hv_with_type(&floats, (const uint8_t *)"e", 1, &typed, &error));
    CHECK(!hv_sum(&session, &typed, &total, &error) && total.kind == HV_DOUBLE && !total.empty);
    CHECK(total.as_unsigned == bits_of(131007 + 0x1p-24));
    hv_free(&bits);
    hv_free(&floats);
    hv_free(&typed);
}

/* A format of floats over integers that are not keys of it: rows are what they are stored as. */
static void check_not_floats(const hv_column *bytes) {
    hv_column typed = under(bytes, "g");
    hv_value value, least, greatest;
    hv_total total;
    CHECK(!hv_at(&typed, 1, &value, NULL, 0, &error) && value.kind == HV_UNSIGNED && value.as_unsigned == 4);
    CHECK(!hv_min_max(&session, &typed, &least, NULL, 0, &greatest, NULL, 0, &error));
    CHECK(least.kind == HV_UNSIGNED && least.as_unsigned == 4);
    CHECK(greatest.kind == HV_UNSIGNED && greatest.as_unsigned == 4);
    CHECK(!hv_sum(&session, &typed, &total, &error) && total.kind == HV_UNSIGNED && total.as_unsigned == 8);
    hv_free(&typed);
}

/* Each call of a wrong type, of no column and of a wrong number; what it would write is as it was. */
static void check_refusals(void) {
    const uint8_t bytes[2] = {4, 4};
    const uint16_t shorts[2] = {0x3c00, 0xbc00};
    const uint64_t words[1] = {0};
    hv_value value, least, greatest, value_before, least_before, greatest_before;
    hv_total total, total_before;
    hv_column wrong = HV_EMPTY, none = HV_EMPTY, bits = HV_EMPTY, floats = HV_EMPTY, keys = HV_EMPTY;
    CHECK(!hv_u64(words, 1, NOT_NULLABLE, &bits, &error) && !hv_float_encode(&bits, 0, &keys, &error));
    CHECK(!hv_u8(bytes, 2, NOT_NULLABLE, &wrong, &error) && !hv_u16(shorts, 2, NOT_NULLABLE, &bits, &error));
    CHECK(!hv_float_encode(&bits, 0, &floats, &error) && !hv_clone(&wrong, &out, &error));
    check_not_floats(&wrong);
    hv_column typed = under(&floats, "e"), dates = under(&keys, "tdm");
    FILL(value), FILL(least), FILL(greatest), FILL(total);
    FILL(value_before), FILL(least_before), FILL(greatest_before), FILL(total_before);
    CHECK_REFUSED(hv_float_encode(&wrong, 0, &out, &error), HV_TYPE_MISMATCH, 0, 0, 0);
    CHECK_REFUSED(hv_float_encode(&floats, 0, &out, &error), HV_TYPE_MISMATCH, 0, 0, 0);
    CHECK_REFUSED(hv_float_decode(&bits, &out, &error), HV_TYPE_MISMATCH, 0, 0, 0);
    CHECK_REFUSED(hv_float_compare(&wrong, HV_EQ, 1 << 16, 1, &out, &error), HV_TYPE_MISMATCH, 0, 0, 0);
    CHECK_REFUSED(hv_float_compare(&floats, HV_EQ, 1 << 16, 1, &out, &error), HV_CAST_OUT_OF_RANGE, 0, 0, 0);
    CHECK_REFUSED(hv_at(&typed, 2, &value, NULL, 0, &error), HV_OUT_OF_BOUNDS, 2, 2, 0);
    CHECK_REFUSED(hv_sum(&session, &dates, &total, &error), HV_UNSUPPORTED, 0, 0, 0);
    CHECK(hv_float_compare(&none, OPERATORS, 0, 1, &out, &error) == HV_BAD_NUMBER);
    CHECK(hv_float_compare(&none, HV_EQ, 0, 1, &out, &error) == HV_NO_COLUMN);
    CHECK(hv_float_encode(&none, 0, &out, &error) == HV_NO_COLUMN && hv_float_decode(&none, &out, NULL) == HV_NO_COLUMN);
    CHECK(hv_at(&none, 0, &value, NULL, 0, &error) == HV_NO_COLUMN);
    CHECK(hv_min_max(&session, &none, &least, NULL, 0, &greatest, NULL, 0, &error) == HV_NO_COLUMN);
    CHECK(hv_sum(&session, &none, &total, &error) == HV_NO_COLUMN);
    CHECK_ROWS(&out, "4 4");
    CHECK(memcmp(&value, &value_before, sizeof value) == 0 && memcmp(&least, &least_before, sizeof least) == 0);
    CHECK(memcmp(&greatest, &greatest_before, sizeof greatest) == 0);
    CHECK(memcmp(&total, &total_before, sizeof total) == 0);
    hv_column *const all[] = {&wrong, &bits, &floats, &keys, &typed, &dates};
    for (size_t i = 0; i < COUNT(all); i++) hv_free(all[i]);
}

int main(void) {
    hv_session_initial(&session);
    for (int i = 0; i < TRIALS; i++) check_trial(), check_sum();
    check_special_sums();
    check_narrow();
    check_refusals();
    hv_free(&out);
    printf("%d columns of floats answer as the machine's floats do\n", TRIALS);
    return 0;
}
