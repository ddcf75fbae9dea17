/* Each call of hivevigil.h at least once, against answers that were worked out by hand. */
#include "check.h"

static hv_session session;
static hv_error error;

#define FREE_ALL(...) \
    do { \
        hv_column *all[] = {__VA_ARGS__}; \
        for (size_t i = 0; i < COUNT(all); i++) hv_free(all[i]); \
    } while (0)

static void check_session(void) {
    hv_session_initial(&session);
    for (size_t i = 0; i < COUNT(session.kernels); i++) CHECK(session.kernels[i] == 1);
}

/* Bits 3 to 5 are 1, 0 and 1: the second row is null. Its stored number is read as it is. */
#define CHECK_NUMBERS(type, suffix, number_of_type, least, greatest, shown) \
    do { \
        const type items[3] = {least, 5, greatest}; \
        type read[2]; \
        const uint8_t bits[1] = {0x28}; \
        uint64_t words[1]; \
        hv_column column = HV_EMPTY; \
        FILL(read), FILL(words); \
        CHECK(!hv_##suffix(items, 3, NULLS_BY(bits, 3), &column, &error)); \
        CHECK_ROWS(&column, shown); \
        CHECK(hv_kind_of(&column).number == number_of_type && hv_kind_of(&column).nullable == 1); \
        CHECK(hv_length(&column) == 3 && hv_form(&column) == FORM_FLAT && hv_offset(&column) == 0); \
        CHECK(!hv_read_##suffix(&column, 1, read, 2, &error) && read[0] == 5 && read[1] == greatest); \
        CHECK(!hv_read_validity(&column, words, 1, &error) && words[0] == 5); \
        CHECK_REFUSED(hv_read_##suffix(&column, 2, read, 2, &error), HV_BAD_RANGE, 2, 4, 3); \
        CHECK(!hv_##suffix(items, 1, NO_NULLS, &column, &error)); \
        CHECK(hv_length(&column) == 1 && hv_kind_of(&column).nullable == 1); \
        CHECK(!hv_##suffix(items, 1, NOT_NULLABLE, &column, &error) && hv_kind_of(&column).nullable == 0); \
        CHECK(!hv_##suffix(NULL, 0, NOT_NULLABLE, &column, &error) && hv_length(&column) == 0); \
        hv_free(&column); \
        CHECK(hv_form(&column) == FORM_NONE); \
    } while (0)

static void check_numbers(void) {
    CHECK_NUMBERS(uint8_t, u8, HV_U8, 0, UINT8_MAX, "0 null 255");
    CHECK_NUMBERS(uint16_t, u16, HV_U16, 0, UINT16_MAX, "0 null 65535");
    CHECK_NUMBERS(uint32_t, u32, HV_U32, 0, UINT32_MAX, "0 null 4294967295");
    CHECK_NUMBERS(uint64_t, u64, HV_U64, 0, UINT64_MAX, "0 null 18446744073709551615");
    CHECK_NUMBERS(int8_t, i8, HV_I8, INT8_MIN, INT8_MAX, "-128 null 127");
    CHECK_NUMBERS(int16_t, i16, HV_I16, INT16_MIN, INT16_MAX, "-32768 null 32767");
    CHECK_NUMBERS(int32_t, i32, HV_I32, INT32_MIN, INT32_MAX, "-2147483648 null 2147483647");
    CHECK_NUMBERS(int64_t, i64, HV_I64, INT64_MIN, INT64_MAX, "-9223372036854775808 null 9223372036854775807");
}

static void check_bools_and_decimals(void) {
    const uint8_t truths[2] = {0xa0, 0x01}; /* bits 5, 7 and 8 */
    const uint8_t bits[1] = {0x0b};
    const hv_pair pairs[2] = {{5, 0}, {UINT64_MAX, -1}}; /* 5 and -1 */
    hv_pair read[1];
    uint64_t words[1];
    hv_column column = HV_EMPTY;
    FILL(read), FILL(words);
    CHECK(!hv_bools(truths, 2, 5, 4, NULLS_BY(bits, 0), &column, &error));
    CHECK_ROWS(&column, "true false null true");
    CHECK(hv_kind_of(&column).number == HV_BOOL);
    CHECK(!hv_read_bools(&column, words, 1, &error) && words[0] == 0xd);
    CHECK(!hv_decimals(pairs, 2, 10, -2, NOT_NULLABLE, &column, &error));
    CHECK_ROWS(&column, "0:5 -1:18446744073709551615");
    hv_kind kind = hv_kind_of(&column);
    CHECK(kind.number == HV_DECIMAL && kind.precision == 10 && kind.scale == -2 && kind.nullable == 0);
    CHECK(!hv_read_decimals(&column, 1, read, 1, &error) && read[0].low == UINT64_MAX && read[0].high == -1);
    hv_free(&column);
}

static void check_texts(void) {
    const int32_t offsets[5] = {0, 2, 2, 5, 9};
    const int64_t large_offsets[3] = {1, 1, 3};
    const uint8_t letters[9] = {'o', 'n', 'o', 'n', 'e', 0xc3, 0xa9, 0xc3, 0xa9}; /* on, "", one, éé */
    const uint8_t bits[1] = {0x0b};
    int32_t read[4];
    int64_t large[2];
    uint8_t bytes[6];
    hv_column column = HV_EMPTY;
    FILL(read), FILL(large), FILL(bytes);
    CHECK(!hv_texts(0, offsets, 5, letters, 9, NULLS_BY(bits, 0), &column, &error));
    CHECK_ROWS(&column, "\"on\" \"\" null \"\xc3\xa9\xc3\xa9\"");
    CHECK(hv_kind_of(&column).number == HV_UTF8);
    CHECK(!hv_read_offsets(&column, 0, read, 4, &error)); /* rows 0 to 2: on, "", null */
    CHECK(read[0] == 0 && read[1] == 2 && read[2] == 2 && read[3] == 2);
    CHECK(!hv_read_large_offsets(&column, 3, large, 2, &error) && large[0] == 0 && large[1] == 4);
    CHECK(!hv_read_bytes(&column, 0, 4, bytes, 6, &error) && memcmp(bytes, "on\xc3\xa9\xc3\xa9", 6) == 0);
    CHECK_REFUSED(hv_read_bytes(&column, 0, 4, bytes, 5, &error), HV_COLUMN_LENGTH, 6, 5, 0);
    CHECK_REFUSED(hv_read_offsets(&column, 2, read, 4, &error), HV_BAD_RANGE, 2, 5, 4);
    CHECK(!hv_large_texts(1, large_offsets, 3, letters, 9, NOT_NULLABLE, &column, &error));
    CHECK_ROWS(&column, "<> <6e6f>");
    CHECK(hv_kind_of(&column).number == HV_BINARY);
    hv_free(&column);
}

/* 7 7 8 9 9 in runs, and the window of rows 1 to 4 */
static void check_runs(void) {
    const uint32_t ends[3] = {2, 3, 5};
    const int8_t values[3] = {7, 8, 9};
    const uint8_t record[6] = {0x08, 0x02, 0x10, 0x03, 0x18, 0x01}; /* ends of u32, 3 runs, offset 1 */
    uint8_t bytes[8];
    size_t size;
    hv_column a = HV_EMPTY, b = HV_EMPTY, runs = HV_EMPTY, out = HV_EMPTY;
    FILL(bytes), FILL(size);
    CHECK(!hv_u32(ends, 3, NOT_NULLABLE, &a, &error) && !hv_i8(values, 3, NOT_NULLABLE, &b, &error));
    CHECK(!hv_runs(&a, &b, 1, 4, &runs, &error));
    CHECK_ROWS(&runs, "7 8 9 9");
    CHECK(hv_form(&runs) == FORM_RUNS && hv_offset(&runs) == 1 && hv_length(&runs) == 4);
    CHECK(!hv_ends(&runs, &out, &error));
    CHECK_ROWS(&out, "2 3 5");
    CHECK(!hv_values(&runs, &out, &error));
    CHECK_ROWS(&out, "7 8 9");
    CHECK(!hv_clone(&runs, &out, &error) && hv_form(&out) == FORM_RUNS && hv_offset(&out) == 1);
    CHECK_ROWS(&out, "7 8 9 9");
    CHECK(!hv_compact(&runs, &out, &error) && hv_form(&out) == FORM_RUNS && hv_offset(&out) == 1);
    CHECK_ROWS(&out, "7 8 9 9");
    CHECK(!hv_serialize(&runs, bytes, sizeof bytes, &size, &error) && size == 6 && memcmp(bytes, record, 6) == 0);
    hv_kind kind = {HV_I8, 0, 0, 0};
    CHECK(!hv_deserialize(&kind, 4, record, 6, &a, &b, &out, &error) && hv_offset(&out) == 1);
    CHECK_ROWS(&out, "7 8 9 9");
    CHECK_ROWS(&a, "2 3 5"); /* what was lent stays */
    CHECK_ROWS(&b, "7 8 9");
    FREE_ALL(&a, &b, &runs, &out);
}

/* rows 1 1 null null 2 3 3 3 null null, of which each command makes another column */
static void check_commands(void) {
    const int64_t items[10] = {1, 1, 0, 0, 2, 3, 3, 3, 0, 0};
    const uint8_t bits[2] = {0xf3, 0x00}, mask_bits[2] = {0x19, 0x03}, mask_valid[2] = {0xf7, 0xff};
    const uint16_t places[3] = {9, 4, 0};
    const int8_t codes[4] = {5, 0, 2, 0};
    const hv_kind narrow = {HV_I8, 1, 0, 0};
    const hv_value two = {.kind = HV_SIGNED, .as_signed = 2};
    hv_column flat = HV_EMPTY, runs = HV_EMPTY, other = HV_EMPTY, out = HV_EMPTY;
    CHECK(!hv_i64(items, 10, NULLS_BY(bits, 0), &flat, &error));
    CHECK(!hv_encode(&session, &flat, &runs, &error) && hv_form(&runs) == FORM_RUNS);
    CHECK(!hv_ends(&runs, &out, &error) && hv_kind_of(&out).number == HV_U8);
    CHECK_ROWS(&out, "2 4 5 8 10");
    CHECK(!hv_decode(&session, &runs, &out, &error) && hv_form(&out) == FORM_FLAT);
    CHECK_ROWS(&out, "1 1 null null 2 3 3 3 null null");
    CHECK(!hv_slice(&session, &runs, 3, 7, &out, &error));
    CHECK_ROWS(&out, "null 2 3 3");
    CHECK(!hv_cast(&session, &runs, &narrow, &out, &error) && hv_kind_of(&out).number == HV_I8);
    CHECK_ROWS(&out, "1 1 null null 2 3 3 3 null null");
    CHECK(!hv_u16(places, 3, NOT_NULLABLE, &other, &error) && !hv_take(&session, &runs, &other, &out, &error));
    CHECK_ROWS(&out, "null 2 1");
    /* true, false, false, null (true is stored under it), true, .. , true, true */
    CHECK(!hv_bools(mask_bits, 2, 0, 10, NULLS_BY(mask_valid, 0), &other, &error));
    CHECK(!hv_filter(&session, &runs, &other, &out, &error));
    CHECK_ROWS(&out, "1 2 null null");
    CHECK(!hv_i8(codes, 4, NOT_NULLABLE, &other, &error) && !hv_take_from(&session, &other, &runs, &out, &error));
    CHECK_ROWS(&out, "3 1 null 1");
    CHECK(!hv_clone(&flat, &other, &error) && !hv_compare(&session, &runs, HV_EQ, &other, &out, &error));
    CHECK_ROWS(&out, "true true null null true true true true null null");
    CHECK(!hv_compare_scalar(&session, &runs, HV_GE, &two, NO_TEXT, &out, &error));
    CHECK_ROWS(&out, "false false null null true true true true null null");
    CHECK(!hv_fill(&session, &runs, &two, NO_TEXT, &out, &error) && hv_kind_of(&out).nullable == 0);
    CHECK_ROWS(&out, "1 1 2 2 2 3 3 3 2 2");
    CHECK_ROWS(&runs, "1 1 null null 2 3 3 3 null null");
    FREE_ALL(&flat, &runs, &other, &out);
}

static void check_operators(void) {
    const char *const due[6] = {"false true false", "true false true",  "false false true",
                                "false true true",  "true false false", "true true false"};
    const uint8_t items[3] = {1, 2, 3};
    const hv_value two = {.kind = HV_UNSIGNED, .as_unsigned = 2};
    hv_column column = HV_EMPTY, out = HV_EMPTY;
    CHECK(!hv_u8(items, 3, NOT_NULLABLE, &column, &error));
    for (uint8_t operator_ = HV_EQ; operator_ <= HV_LE; operator_++) {
        CHECK(!hv_compare_scalar(&session, &column, operator_, &two, NO_TEXT, &out, &error));
        CHECK_ROWS(&out, due[operator_]);
    }
    FREE_ALL(&column, &out);
}

static void check_sums(void) {
    const uint8_t bits[1] = {0x05};
    const int64_t signed_items[3] = {-4, 100, 1};
    const uint64_t large[2] = {UINT64_MAX, 1};
    hv_total total;
    hv_column column = HV_EMPTY;
    FILL(total);
    CHECK(!hv_i64(signed_items, 3, NULLS_BY(bits, 0), &column, &error) && !hv_sum(&session, &column, &total, &error));
    CHECK(total.kind == 2 && total.as_signed == -3 && total.empty == 0); /* 100 is null */
    CHECK(!hv_u64(large, 1, NOT_NULLABLE, &column, &error) && !hv_sum(&session, &column, &total, &error));
    CHECK(total.kind == 1 && total.as_unsigned == UINT64_MAX && total.empty == 0);
    CHECK(!hv_u64(large, 2, NOT_NULLABLE, &column, &error) && !hv_sum(&session, &column, &total, &error));
    CHECK(total.kind == 0 && total.empty == 0); /* 2^64 */
    CHECK(!hv_i64(NULL, 0, NO_NULLS, &column, &error) && !hv_sum(&session, &column, &total, &error));
    CHECK(total.kind == 2 && total.as_signed == 0 && total.empty == 1);
    hv_free(&column);
}

/* the sum of this column under a format */
static int32_t typed_sum(hv_column *column, const char *format, hv_total *total) {
    hv_column typed = HV_EMPTY;
    CHECK(!hv_with_type(column, (const uint8_t *)format, strlen(format), &typed, &error));
    const int32_t answer = hv_sum(&session, &typed, total, &error);
    FREE_ALL(column, &typed);
    return answer;
}

static double double_of(const hv_total *total) {
    double sum;
    memcpy(&sum, &total->as_unsigned, sizeof sum);
    return sum;
}

static void check_typed_sums(void) {
    const int32_t days[2] = {3, 4};
    const int64_t counts[3] = {5, -7, 9};
    const double numbers[3] = {1.5, 100, 2.25};
    const float singles[2] = {0.1f, 0.2f};
    const uint8_t bits[1] = {0x05};
    const hv_pair prices[2] = {{1999, 0}, {UINT64_MAX, -1}};
    uint64_t patterns[3];
    uint32_t narrow[2];
    hv_total total;
    hv_column column = HV_EMPTY, keys = HV_EMPTY;
    FILL(total);
    CHECK(!hv_decimals(prices, 2, 6, 2, NOT_NULLABLE, &column, &error) && !hv_sum(&session, &column, &total, &error));
    CHECK(total.kind == HV_SCALED && total.as_unsigned == 1998 && total.as_signed == 0); /* 19.99 - 0.01 */
    CHECK(total.scale == 2 && total.empty == 0);
    memcpy(patterns, numbers, sizeof patterns), memcpy(narrow, singles, sizeof narrow);
    CHECK(!hv_u64(patterns, 3, NULLS_BY(bits, 0), &column, &error) && !hv_float_encode(&column, 0, &keys, &error));
    CHECK(!typed_sum(&keys, "g", &total) && total.kind == HV_DOUBLE && double_of(&total) == 3.75 && total.empty == 0);
    CHECK(!hv_u32(narrow, 2, NOT_NULLABLE, &column, &error) && !hv_float_encode(&column, 0, &keys, &error));
    CHECK(!typed_sum(&keys, "f", &total) && total.kind == HV_DOUBLE);
    CHECK(double_of(&total) == (double)0.1f + (double)0.2f); /* which has 24 bits more at most */
    CHECK(!hv_i64(NULL, 0, NO_NULLS, &keys, &error) && !typed_sum(&keys, "g", &total));
    CHECK(total.kind == HV_DOUBLE && double_of(&total) == 0 && total.empty == 1);
    CHECK(!hv_i64(counts, 3, NOT_NULLABLE, &keys, &error) && !typed_sum(&keys, "tDs", &total));
    CHECK(total.kind == HV_SIGNED && total.as_signed == 7);
    CHECK(!hv_i64(counts, 3, NOT_NULLABLE, &keys, &error) && !typed_sum(&keys, "e", &total)); /* as they are stored */
    CHECK(total.kind == HV_SIGNED && total.as_signed == 7);
    CHECK(!hv_i64(counts, 3, NOT_NULLABLE, &keys, &error) && typed_sum(&keys, "tsu:UTC", &total) == HV_UNSUPPORTED);
    CHECK(!hv_i32(days, 2, NOT_NULLABLE, &keys, &error) && typed_sum(&keys, "tdD", &total) == HV_UNSUPPORTED);
    FREE_ALL(&column, &keys);
}

static void check_questions(void) {
    const uint8_t same[3] = {6, 6, 6}, growing[3] = {1, 2, 4}, level[3] = {1, 1, 2}, falling[2] = {2, 1};
    uint8_t constant = 9, sorted = 9, strict = 9;
    hv_column column = HV_EMPTY;
#define CHECK_ORDER(items, is_constant, is_sorted, is_strict) \
    CHECK(!hv_u8(items, COUNT(items), NOT_NULLABLE, &column, &error)); \
    CHECK(!hv_is_constant(&session, &column, &constant, &error) && constant == is_constant); \
    CHECK(!hv_is_sorted(&session, &column, 0, &sorted, &error) && sorted == is_sorted); \
    CHECK(!hv_is_sorted(&session, &column, 1, &strict, &error) && strict == is_strict)
    CHECK_ORDER(same, 1, 1, 0);
    CHECK_ORDER(growing, 0, 1, 1);
    CHECK_ORDER(level, 0, 1, 0);
    CHECK_ORDER(falling, 0, 0, 0);
    hv_free(&column);
}

static void check_extremes(void) {
    const int32_t offsets[4] = {0, 5, 5, 9};
    const uint8_t bits[1] = {0x05}, none[1] = {0x00};
    uint8_t text[8];
    hv_value value;
    hv_column column = HV_EMPTY;
    FILL(text), FILL(value);
    CHECK(!hv_texts(0, offsets, 4, (const uint8_t *)"firstlast", 9, NULLS_BY(bits, 0), &column, &error));
    CHECK(!hv_extreme(&session, &column, 0, &value, text, sizeof text, &error));
    CHECK(value.kind == HV_TEXT && value.as_unsigned == 5 && memcmp(text, "first", 5) == 0);
    CHECK(!hv_extreme(&session, &column, 1, &value, text, sizeof text, &error));
    CHECK(value.kind == HV_TEXT && value.as_unsigned == 4 && memcmp(text, "last", 4) == 0);
    CHECK(!hv_texts(0, offsets, 4, (const uint8_t *)"firstlast", 9, NULLS_BY(none, 0), &column, &error));
    CHECK(!hv_extreme(&session, &column, 1, &value, text, sizeof text, &error) && value.kind == HV_NULL);
    hv_free(&column);
}

int main(void) {
    check_session();
    check_numbers();
    check_bools_and_decimals();
    check_texts();
    check_runs();
    check_commands();
    check_operators();
    check_sums();
    check_typed_sums();
    check_questions();
    check_extremes();
    puts("each call answers what it should");
    return 0;
}
