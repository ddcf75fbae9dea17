/* Bad input of every sort: each call answers a number, with its fields, and no column changes. */
#include "check.h"

static hv_session session;
static hv_error error;
static hv_column numbers = HV_EMPTY, runs = HV_EMPTY, truths = HV_EMPTY, texts = HV_EMPTY, empty = HV_EMPTY,
                 out = HV_EMPTY;

static void make_columns(void) {
    const int64_t items[4] = {1, 1, 0, 300};
    const uint8_t bits[1] = {0x0b}, truth_bits[1] = {0x05};
    const int32_t offsets[3] = {0, 3, 3};
    const uint8_t kept[1] = {42};
    hv_session_initial(&session);
    CHECK(!hv_i64(items, 4, NULLS_BY(bits, 0), &numbers, &error) && !hv_encode(&session, &numbers, &runs, &error));
    CHECK(!hv_bools(truth_bits, 1, 0, 3, NOT_NULLABLE, &truths, &error));
    CHECK(!hv_texts(0, offsets, 3, (const uint8_t *)"one", 3, NOT_NULLABLE, &texts, &error));
    CHECK(!hv_u8(kept, 1, NOT_NULLABLE, &out, &error));
}

static void check_kept(void) {
    CHECK_ROWS(&numbers, "1 1 null 300");
    CHECK_ROWS(&runs, "1 1 null 300");
    CHECK_ROWS(&truths, "true false true");
    CHECK_ROWS(&texts, "\"one\" \"\"");
    CHECK_ROWS(&out, "42");
    CHECK(hv_form(&empty) == FORM_NONE && hv_form(&numbers) == FORM_FLAT && hv_form(&runs) == FORM_RUNS);
}

#define REFUSED(call, number, a, b, c) \
    do { \
        CHECK_REFUSED(call, number, a, b, c); \
        check_kept(); \
    } while (0)
/* a refusal that has no fields, and may leave them as they are */
#define ANSWERS(call, number) \
    do { \
        CHECK((call) == (number)); \
        check_kept(); \
    } while (0)

static void check_makers(void) {
    const uint8_t items[9] = {0}, bits[1] = {0xff};
    const int32_t offsets[3] = {0, 2, 1}, negative[2] = {-1, 2}, far[2] = {0, 4}, two[2] = {0, 2};
    const int64_t large[3] = {0, 2, 1}, large_far[3] = {0, 3, 4}, large_two[2] = {0, 2};
    const uint8_t *bytes = (const uint8_t *)"abc", broken[2] = {'a', 0xff}, cut[2] = {0xe2, 0x82};
    const hv_pair pairs[2] = {{0, 0}, {0, 0}};
    REFUSED(hv_u8(items, 9, NULLS_BY(bits, 0), &out, &error), HV_COLUMN_LENGTH, 9, 1, 0);
    REFUSED(hv_u8(items, 8, NULLS_BY(bits, 1), &out, &error), HV_COLUMN_LENGTH, 8, 1, 0);
    REFUSED(hv_u8(items, 8, NULLS_BY(bits, SIZE_MAX), &out, &error), HV_COLUMN_LENGTH, 8, 1, 0);
    REFUSED(hv_u8(items, 1, hv_valid_bits(NULL, 0, 0), &out, &error), HV_COLUMN_LENGTH, 1, 0, 0);
    REFUSED(hv_bools(items, 1, 5, 4, NOT_NULLABLE, &out, &error), HV_COLUMN_LENGTH, 4, 1, 0);
    REFUSED(hv_bools(items, 1, 1, SIZE_MAX, NOT_NULLABLE, &out, &error), HV_COLUMN_LENGTH, SIZE_MAX, 1, 0);
    REFUSED(hv_decimals(pairs, 2, 10, 2, NULLS_BY(bits, 7), &out, &error), HV_COLUMN_LENGTH, 2, 1, 0);
    REFUSED(hv_texts(0, offsets, 3, bytes, 3, NOT_NULLABLE, &out, &error), HV_ENDS_NOT_STRICT, 1, 0, HV_ABOUT_TEXTS);
    REFUSED(hv_large_texts(1, large, 3, bytes, 3, NOT_NULLABLE, &out, &error), HV_ENDS_NOT_STRICT, 1, 0, HV_ABOUT_TEXTS);
    REFUSED(hv_texts(0, negative, 2, bytes, 3, NOT_NULLABLE, &out, &error), HV_ENDS_NOT_STRICT, 0, 0, HV_ABOUT_TEXTS);
    REFUSED(hv_texts(0, far, 2, bytes, 3, NOT_NULLABLE, &out, &error), HV_OUT_OF_BOUNDS, 0, 1, HV_ABOUT_TEXTS);
    REFUSED(hv_texts(0, NULL, 0, NULL, 0, NOT_NULLABLE, &out, &error), HV_NO_RUNS_WINDOW, 0, 0, HV_ABOUT_TEXTS);
    REFUSED(hv_texts(0, two, 2, broken, 2, NOT_NULLABLE, &out, &error), HV_TYPE_MISMATCH, 0, 0, 0);
    REFUSED(hv_texts(0, two, 2, cut, 2, NOT_NULLABLE, &out, &error), HV_TYPE_MISMATCH, 0, 0, 0);
    REFUSED(hv_texts(0, two, 2, bytes, 3, NULLS_BY(bits, 8), &out, &error), HV_COLUMN_LENGTH, 1, 1, 0);
    REFUSED(hv_large_texts(0, NULL, 0, bytes, 3, NOT_NULLABLE, &out, &error), HV_NO_RUNS_WINDOW, 0, 0, HV_ABOUT_TEXTS);
    REFUSED(hv_large_texts(0, large_far, 3, bytes, 3, NOT_NULLABLE, &out, &error), HV_OUT_OF_BOUNDS, 1, 2, HV_ABOUT_TEXTS);
    REFUSED(hv_large_texts(0, large_two, 2, broken, 2, NOT_NULLABLE, &out, &error), HV_TYPE_MISMATCH, 0, 0, 0);
}

static void check_runs(void) {
    const uint32_t growing[2] = {2, 5}, level[2] = {2, 2};
    hv_column ends = HV_EMPTY, nullable = HV_EMPTY, not_strict = HV_EMPTY, values = HV_EMPTY, none = HV_EMPTY;
    CHECK(!hv_u32(growing, 2, NOT_NULLABLE, &ends, &error) && !hv_u32(level, 2, NOT_NULLABLE, &not_strict, &error));
    CHECK(!hv_u32(growing, 0, NOT_NULLABLE, &none, &error) && !hv_clone(&ends, &values, &error));
    CHECK(!hv_u32(growing, 2, NO_NULLS, &nullable, &error)); /* no end is null, and the type has null */
    REFUSED(hv_runs(&numbers, &values, 0, 1, &out, &error), HV_ENDS_NOT_UNSIGNED, 0, 0, 0);
    REFUSED(hv_runs(&runs, &values, 0, 1, &out, &error), HV_ENDS_NOT_UNSIGNED, 0, 0, 0);
    REFUSED(hv_runs(&nullable, &values, 0, 1, &out, &error), HV_ENDS_NOT_UNSIGNED, 0, 0, 0);
    REFUSED(hv_runs(&ends, &numbers, 0, 1, &out, &error), HV_LENGTHS_DIFFER, 2, 4, 0);
    REFUSED(hv_runs(&not_strict, &values, 0, 1, &out, &error), HV_ENDS_NOT_STRICT, 1, 0, 0);
    REFUSED(hv_runs(&ends, &values, 3, 2, &out, &error), HV_FIRST_END_BELOW_OFFSET, 2, 3, 0);
    REFUSED(hv_runs(&ends, &values, 1, 5, &out, &error), HV_LAST_END_BELOW_WINDOW, 5, 6, 0);
    REFUSED(hv_runs(&ends, &values, 1, SIZE_MAX, &out, &error), HV_WINDOW_OVERFLOW, 0, 0, 0);
    hv_column no_values = HV_EMPTY;
    CHECK(!hv_clone(&none, &no_values, &error));
    REFUSED(hv_runs(&none, &no_values, 0, 3, &out, &error), HV_NO_RUNS_WINDOW, 0, 3, 0);
    hv_column *all[] = {&ends, &nullable, &not_strict, &values, &none, &no_values};
    for (size_t i = 0; i < COUNT(all); i++) hv_free(all[i]);
}

static void check_records(void) {
    const uint32_t items[2] = {2, 4};
    const uint8_t cut[1] = {0x10}, ends_of_7[2] = {0x08, 0x07}, three_runs[4] = {0x08, 0x02, 0x10, 0x03};
    const uint8_t two_u8[2] = {0x10, 0x02}, two_u32[4] = {0x08, 0x02, 0x10, 0x02};
    const hv_kind u32 = {HV_U32, 0, 0, 0}, u64 = {HV_U64, 0, 0, 0}, nullable = {HV_U32, 1, 0, 0},
                  none = {77, 0, 0, 0}, list = {HV_LIST, 0, 0, 0};
    size_t size;
    uint8_t bytes[1];
    hv_column ends = HV_EMPTY, values = HV_EMPTY;
    CHECK(!hv_u32(items, 2, NOT_NULLABLE, &ends, &error) && !hv_clone(&ends, &values, &error));
    REFUSED(hv_deserialize(&u32, 4, cut, 1, &ends, &values, &out, &error), HV_BAD_METADATA, 0, 0, 0);
    REFUSED(hv_deserialize(&u32, 4, ends_of_7, 2, &ends, &values, &out, &error), HV_ENDS_TYPE_NUMBER, 7, 0, 0);
    REFUSED(hv_deserialize(&u32, 4, three_runs, 4, &ends, &values, &out, &error), HV_RUN_COUNT, 3, 2, 0);
    /* the ends are not of the type that the record states, the values not of the type that is named */
    REFUSED(hv_deserialize(&u32, 4, two_u8, 2, &ends, &values, &out, &error), HV_TYPE_MISMATCH, 0, 0, 0);
    REFUSED(hv_deserialize(&u64, 4, two_u32, 4, &ends, &values, &out, &error), HV_TYPE_MISMATCH, 0, 0, 0);
    REFUSED(hv_deserialize(&nullable, 4, two_u32, 4, &ends, &values, &out, &error), HV_TYPE_MISMATCH, 0, 0, 0);
    ANSWERS(hv_deserialize(&none, 4, three_runs, 4, &ends, &values, &out, &error), HV_BAD_NUMBER);
    ANSWERS(hv_deserialize(&list, 4, three_runs, 4, &ends, &values, &out, &error), HV_BAD_NUMBER);
    FILL(size), FILL(bytes);
    /* the record of `runs`: ends of u8, 3 runs, offset 0, which is 10 03 */
    REFUSED(hv_serialize(&runs, bytes, 1, &size, &error), HV_COLUMN_LENGTH, 2, 1, 0);
    REFUSED(hv_serialize(&numbers, bytes, 1, &size, &error), HV_UNSUPPORTED, 0, 0, 0);
    REFUSED(hv_ends(&numbers, &out, &error), HV_UNSUPPORTED, 0, 0, 0);
    REFUSED(hv_values(&truths, &out, &error), HV_UNSUPPORTED, 0, 0, 0);
    hv_free(&ends);
    hv_free(&values);
}

static void check_commands(void) {
    const hv_kind u8 = {HV_U8, 1, 0, 0}, i64 = {HV_I64, 0, 0, 0}, utf8 = {HV_UTF8, 1, 0, 0}, none = {13, 0, 0, 0};
    const hv_value null = {.kind = HV_NULL}, text = {.kind = HV_TEXT}, unsigned_ = {.kind = HV_UNSIGNED},
                   no_kind = {.kind = 7};
    const int64_t far[2] = {1, 4}, below[1] = {-1};
    hv_column other = HV_EMPTY;
    REFUSED(hv_encode(&session, &texts, &out, &error), HV_ONLY_PRIMITIVE, 0, 0, 0);
    REFUSED(hv_slice(&session, &runs, 3, 2, &out, &error), HV_BAD_RANGE, 3, 2, 4);
    REFUSED(hv_slice(&session, &runs, 3, 5, &out, &error), HV_BAD_RANGE, 3, 5, 4);
    REFUSED(hv_cast(&session, &runs, &u8, &out, &error), HV_CAST_OUT_OF_RANGE, 0, 0, 0);
    REFUSED(hv_cast(&session, &runs, &i64, &out, &error), HV_NULL_NOT_ALLOWED, 0, 0, 0);
    REFUSED(hv_cast(&session, &runs, &utf8, &out, &error), HV_UNSUPPORTED, 0, 0, 0);
    ANSWERS(hv_cast(&session, &runs, &none, &out, &error), HV_BAD_NUMBER);
    CHECK(!hv_i64(far, 2, NOT_NULLABLE, &other, &error));
    REFUSED(hv_take(&session, &runs, &other, &out, &error), HV_OUT_OF_BOUNDS, 4, 4, 0);
    REFUSED(hv_take_from(&session, &other, &runs, &out, &error), HV_OUT_OF_BOUNDS, 4, 4, 0);
    CHECK(!hv_i64(below, 1, NOT_NULLABLE, &other, &error));
    REFUSED(hv_take(&session, &runs, &other, &out, &error), HV_OUT_OF_BOUNDS, UINT64_MAX, 4, 0);
    REFUSED(hv_take(&session, &runs, &truths, &out, &error), HV_TYPE_MISMATCH, 0, 0, 0);
    REFUSED(hv_take_from(&session, &truths, &runs, &out, &error), HV_TYPE_MISMATCH, 0, 0, 0);
    REFUSED(hv_filter(&session, &runs, &truths, &out, &error), HV_MASK_LENGTH, 3, 4, 0);
    REFUSED(hv_filter(&session, &runs, &numbers, &out, &error), HV_TYPE_MISMATCH, 0, 0, 0);
    REFUSED(hv_compare(&session, &runs, HV_LE, &other, &out, &error), HV_COLUMN_LENGTH, 4, 1, 0);
    REFUSED(hv_compare(&session, &runs, HV_LE, &truths, &out, &error), HV_TYPE_MISMATCH, 0, 0, 0);
    ANSWERS(hv_compare(&session, &runs, 6, &numbers, &out, &error), HV_BAD_NUMBER);
    ANSWERS(hv_compare_scalar(&session, &runs, 255, &null, NO_TEXT, &out, &error), HV_BAD_NUMBER);
    REFUSED(hv_compare_scalar(&session, &runs, HV_LE, &unsigned_, NO_TEXT, &out, &error), HV_TYPE_MISMATCH, 0, 0, 0);
    REFUSED(hv_compare_scalar(&session, &runs, HV_LE, &no_kind, NO_TEXT, &out, &error), HV_TYPE_MISMATCH, 0, 0, 0);
    REFUSED(hv_compare_scalar(&session, &texts, HV_LE, &text, (const uint8_t *)"\xff", 1, &out, &error),
            HV_TYPE_MISMATCH, 0, 0, 0);
    REFUSED(hv_fill(&session, &runs, &null, NO_TEXT, &out, &error), HV_NULL_FILL, 0, 0, 0);
    REFUSED(hv_fill(&session, &runs, &text, NO_TEXT, &out, &error), HV_TYPE_MISMATCH, 0, 0, 0);
    hv_free(&other);
}

static void check_questions(void) {
    hv_total total;
    hv_value value;
    uint8_t text[2];
    FILL(total), FILL(value), FILL(text);
    REFUSED(hv_sum(&session, &texts, &total, &error), HV_UNSUPPORTED, 0, 0, 0);
    REFUSED(hv_at(&runs, 4, &value, text, 2, &error), HV_OUT_OF_BOUNDS, 4, 4, 0);
    REFUSED(hv_at(&runs, SIZE_MAX, &value, text, 2, &error), HV_OUT_OF_BOUNDS, SIZE_MAX, 4, 0);
    REFUSED(hv_at(&texts, 0, &value, text, 2, &error), HV_COLUMN_LENGTH, 3, 2, 0);
    REFUSED(hv_extreme(&session, &texts, 1, &value, text, 2, &error), HV_COLUMN_LENGTH, 3, 2, 0);
}

/* reads by rows: of another form or of another sort, of another type, and past the end */
static void check_number_reads(void) {
    int64_t items[4];
    int32_t narrow[1];
    hv_pair pairs[2];
    hv_column decimals = HV_EMPTY;
    CHECK(!hv_decimals((const hv_pair[]){{1, 0}, {2, 0}}, 2, 10, 2, NOT_NULLABLE, &decimals, &error));
    FILL(items), FILL(narrow), FILL(pairs);
    REFUSED(hv_read_i32(&numbers, 0, narrow, 1, &error), HV_TYPE_MISMATCH, 0, 0, 0);
    REFUSED(hv_read_i32(&numbers, 9, narrow, 1, &error), HV_TYPE_MISMATCH, 0, 0, 0);
    REFUSED(hv_read_i64(&runs, 0, items, 5, &error), HV_BAD_RANGE, 0, 5, 4);
    REFUSED(hv_read_i64(&texts, 0, items, 1, &error), HV_UNSUPPORTED, 0, 0, 0);
    REFUSED(hv_read_i64(&decimals, 0, items, 1, &error), HV_UNSUPPORTED, 0, 0, 0);
    REFUSED(hv_read_i64(&numbers, 2, items, 3, &error), HV_BAD_RANGE, 2, 5, 4);
    REFUSED(hv_read_i64(&numbers, 5, items, 0, &error), HV_BAD_RANGE, 5, 5, 4);
    REFUSED(hv_read_i64(&numbers, SIZE_MAX, items, 2, &error), HV_BAD_RANGE, SIZE_MAX, UINT64_MAX, 4);
    REFUSED(hv_read_decimals(&numbers, 0, pairs, 1, &error), HV_UNSUPPORTED, 0, 0, 0);
    REFUSED(hv_read_decimals(&decimals, 1, pairs, 2, &error), HV_BAD_RANGE, 1, 3, 2);
    REFUSED(hv_read_decimals(&decimals, 3, pairs, 0, &error), HV_BAD_RANGE, 3, 3, 2);
    CHECK(!hv_read_i64(&numbers, 4, items, 0, &error) && !hv_read_decimals(&decimals, 2, pairs, 0, &error));
    hv_free(&decimals);
}

/* reads of all rows, as bits in words */
static void check_bit_reads(void) {
    uint64_t words[2];
    FILL(words);
    REFUSED(hv_read_bools(&truths, words, 2, &error), HV_COLUMN_LENGTH, 1, 2, 0);
    REFUSED(hv_read_bools(&numbers, words, 1, &error), HV_UNSUPPORTED, 0, 0, 0);
    REFUSED(hv_read_validity(&numbers, words, 0, &error), HV_COLUMN_LENGTH, 1, 0, 0);
    REFUSED(hv_read_validity(&truths, words, 2, &error), HV_COLUMN_LENGTH, 1, 2, 0);
    REFUSED(hv_read_validity(&runs, words, 1, &error), HV_UNSUPPORTED, 0, 0, 0);
}

/* reads of texts: offsets, then bytes */
static void check_text_reads(void) {
    int32_t narrow[3];
    int64_t wide[3];
    uint8_t bytes[4];
    FILL(narrow), FILL(wide), FILL(bytes);
    REFUSED(hv_read_offsets(&numbers, 0, narrow, 1, &error), HV_UNSUPPORTED, 0, 0, 0);
    REFUSED(hv_read_offsets(&texts, 1, narrow, 0, &error), HV_BAD_RANGE, 1, 1, 2);
    REFUSED(hv_read_offsets(&texts, 3, narrow, 1, &error), HV_BAD_RANGE, 3, 3, 2);
    REFUSED(hv_read_large_offsets(&runs, 0, wide, 1, &error), HV_UNSUPPORTED, 0, 0, 0);
    REFUSED(hv_read_large_offsets(&texts, 0, wide, 0, &error), HV_BAD_RANGE, 0, 0, 2);
    REFUSED(hv_read_large_offsets(&texts, 1, wide, 3, &error), HV_BAD_RANGE, 1, 3, 2);
    REFUSED(hv_read_bytes(&truths, 0, 1, bytes, 1, &error), HV_UNSUPPORTED, 0, 0, 0);
    REFUSED(hv_read_bytes(&texts, 1, 2, bytes, 0, &error), HV_BAD_RANGE, 1, 3, 2);
    REFUSED(hv_read_bytes(&texts, 3, 0, bytes, 0, &error), HV_BAD_RANGE, 3, 3, 2);
    REFUSED(hv_read_bytes(&texts, 0, 2, bytes, 2, &error), HV_COLUMN_LENGTH, 3, 2, 0);
    REFUSED(hv_read_bytes(&texts, 0, 2, bytes, 4, &error), HV_COLUMN_LENGTH, 3, 4, 0);
    CHECK(!hv_read_offsets(&texts, 2, narrow, 1, &error) && narrow[0] == 0);
}

/* 2,048 rows that share one text of 1 MiB have 2^31 bytes, which no int32_t says; it says one byte less */
static void check_far_offsets(void) {
    enum { MEBIBYTE = 1 << 20, ROWS = 2048 };
    static uint8_t letters[2 * MEBIBYTE - 1];
    static int32_t offsets[ROWS + 1];
    static int64_t large[ROWS + 1];
    static uint16_t indices[ROWS]; /* the first text, each time */
    const int32_t cuts[3] = {0, MEBIBYTE, 2 * MEBIBYTE - 1};
    hv_column two = HV_EMPTY, taken = HV_EMPTY, repeated = HV_EMPTY;
    memset(letters, 'a', sizeof letters);
    CHECK(!hv_texts(0, cuts, 3, letters, sizeof letters, NOT_NULLABLE, &two, &error));
    CHECK(!hv_u16(indices, ROWS, NOT_NULLABLE, &taken, &error));
    CHECK(!hv_take(&session, &two, &taken, &repeated, &error) && hv_form(&repeated) == FORM_FLAT);
    FILL(offsets), FILL(large);
    REFUSED(hv_read_offsets(&repeated, 0, offsets, ROWS + 1, &error), HV_CAST_OUT_OF_RANGE, 0, 0, 0);
    CHECK(!hv_read_large_offsets(&repeated, 0, large, ROWS + 1, &error) && large[ROWS] == INT64_C(1) << 31);
    CHECK(!hv_read_offsets(&repeated, 1, offsets, ROWS, &error) && offsets[ROWS - 1] == (ROWS - 1) * MEBIBYTE);
    indices[ROWS - 1] = 1;
    CHECK(!hv_u16(indices, ROWS, NOT_NULLABLE, &taken, &error));
    CHECK(!hv_take(&session, &two, &taken, &repeated, &error));
    FILL(offsets);
    CHECK(!hv_read_offsets(&repeated, 0, offsets, ROWS + 1, &error) && offsets[0] == 0 && offsets[ROWS] == INT32_MAX);
    hv_column *all[] = {&two, &taken, &repeated};
    for (size_t i = 0; i < COUNT(all); i++) hv_free(all[i]);
}

/* each call that is lent a column, with a handle that has none */
static void check_empty_handles(void) {
    const hv_kind kind = {HV_U8, 1, 0, 0};
    const hv_value null = {.kind = HV_NULL};
    const uint8_t record[2] = {0x10, 0x01};
    hv_value value;
    hv_total total;
    uint64_t words[2];
    uint8_t *bytes = (uint8_t *)words, truth;
    size_t size;
    hv_pair pair[1];
    FILL(value), FILL(total), FILL(words), FILL(truth), FILL(size), FILL(pair);
#define NO_COLUMN(call) ANSWERS(call, HV_NO_COLUMN)
    NO_COLUMN(hv_runs(&empty, &numbers, 0, 0, &out, &error));
    NO_COLUMN(hv_runs(&numbers, &empty, 0, 0, &out, &error));
    NO_COLUMN(hv_clone(&empty, &out, &error));
    NO_COLUMN(hv_compact(&empty, &out, &error));
    NO_COLUMN(hv_encode(&session, &empty, &out, &error));
    NO_COLUMN(hv_decode(&session, &empty, &out, &error));
    NO_COLUMN(hv_slice(&session, &empty, 0, 0, &out, &error));
    NO_COLUMN(hv_cast(&session, &empty, &kind, &out, &error));
    NO_COLUMN(hv_take(&session, &empty, &numbers, &out, &error));
    NO_COLUMN(hv_take(&session, &numbers, &empty, &out, &error));
    NO_COLUMN(hv_filter(&session, &empty, &truths, &out, &error));
    NO_COLUMN(hv_filter(&session, &numbers, &empty, &out, &error));
    NO_COLUMN(hv_take_from(&session, &empty, &numbers, &out, &error));
    NO_COLUMN(hv_take_from(&session, &numbers, &empty, &out, &error));
    NO_COLUMN(hv_compare(&session, &empty, HV_EQ, &numbers, &out, &error));
    NO_COLUMN(hv_compare(&session, &numbers, HV_EQ, &empty, &out, &error));
    NO_COLUMN(hv_compare_scalar(&session, &empty, HV_EQ, &null, NO_TEXT, &out, &error));
    NO_COLUMN(hv_fill(&session, &empty, &null, NO_TEXT, &out, &error));
    NO_COLUMN(hv_sum(&session, &empty, &total, &error));
    NO_COLUMN(hv_is_constant(&session, &empty, &truth, &error));
    NO_COLUMN(hv_is_sorted(&session, &empty, 0, &truth, &error));
    NO_COLUMN(hv_extreme(&session, &empty, 0, &value, bytes, 8, &error));
    NO_COLUMN(hv_at(&empty, 0, &value, bytes, 8, &error));
    NO_COLUMN(hv_read_u8(&empty, 0, bytes, 0, &error));
    NO_COLUMN(hv_read_u16(&empty, 0, (uint16_t *)words, 0, &error));
    NO_COLUMN(hv_read_u32(&empty, 0, (uint32_t *)words, 0, &error));
    NO_COLUMN(hv_read_u64(&empty, 0, words, 0, &error));
    NO_COLUMN(hv_read_i8(&empty, 0, (int8_t *)words, 0, &error));
    NO_COLUMN(hv_read_i16(&empty, 0, (int16_t *)words, 0, &error));
    NO_COLUMN(hv_read_i32(&empty, 0, (int32_t *)words, 0, &error));
    NO_COLUMN(hv_read_i64(&empty, 0, (int64_t *)words, 0, &error));
    NO_COLUMN(hv_read_decimals(&empty, 0, pair, 0, &error));
    NO_COLUMN(hv_read_bools(&empty, words, 0, &error));
    NO_COLUMN(hv_read_validity(&empty, words, 0, &error));
    NO_COLUMN(hv_read_offsets(&empty, 0, (int32_t *)words, 1, &error));
    NO_COLUMN(hv_read_large_offsets(&empty, 0, (int64_t *)words, 1, &error));
    NO_COLUMN(hv_read_bytes(&empty, 0, 0, bytes, 0, &error));
    NO_COLUMN(hv_ends(&empty, &out, &error));
    NO_COLUMN(hv_values(&empty, &out, &error));
    NO_COLUMN(hv_serialize(&empty, bytes, 8, &size, &error));
    NO_COLUMN(hv_write_size(&empty, &size, &error));
    NO_COLUMN(hv_write(&empty, bytes, 8, &size, &error));
    NO_COLUMN(hv_with_type(&empty, record, 2, &out, &error));
    NO_COLUMN(hv_type(&empty, bytes, 8, &size, &error));
    NO_COLUMN(hv_deserialize(&kind, 0, record, 2, &empty, &numbers, &out, &error));
    NO_COLUMN(hv_deserialize(&kind, 0, record, 2, &numbers, &empty, &out, &error));
    CHECK(hv_length(&empty) == 0 && hv_offset(&empty) == 0 && hv_form(&empty) == FORM_NONE);
    CHECK(hv_kind_of(&empty).number == 255);
    hv_free(&empty);
    check_kept();
}

/* A null pointer for no items is not a fault: no rows are made of it, read into it, or found there. */
static void check_no_items(void) {
    const int32_t zero[1] = {0};
    const hv_value no_letters = {.kind = HV_TEXT};
    hv_value value;
    hv_column none = HV_EMPTY, no_texts = HV_EMPTY, made = HV_EMPTY;
    hv_value other;
    const hv_validity no_bits = hv_valid_bits(NULL, 0, 0);
    CHECK(!hv_i64(NULL, 0, no_bits, &none, &error) && hv_length(&none) == 0 && hv_kind_of(&none).nullable == 1);
    CHECK(!hv_bools(NULL, 0, 0, 0, no_bits, &made, &error) && hv_length(&made) == 0);
    CHECK(!hv_decimals(NULL, 0, 3, 0, no_bits, &made, &error) && hv_length(&made) == 0);
    CHECK(!hv_texts(0, zero, 1, NULL, 0, no_bits, &no_texts, &error) && hv_length(&no_texts) == 0);
    CHECK(!hv_lists(&none, NULL, 0, NULL, 0, no_bits, &made, &error) && hv_length(&made) == 0);
    CHECK(!hv_read_i64(&none, 0, NULL, 0, &error));
    CHECK(!hv_read_validity(&none, NULL, 0, &error));
    CHECK(!hv_read_bytes(&no_texts, 0, 0, NULL, 0, &error));
    CHECK(!hv_compare_scalar(&session, &no_texts, HV_EQ, &no_letters, NULL, 0, &made, &error));
    CHECK(hv_length(&made) == 0);
    CHECK(!hv_min_max(&session, &none, &value, NULL, 0, &other, NULL, 0, &error) && value.kind == HV_NULL);
    REFUSED(hv_at(&none, 0, &value, NULL, 0, &error), HV_OUT_OF_BOUNDS, 0, 0, 0);
    REFUSED(hv_extreme(&session, &texts, 1, &value, NULL, 0, &error), HV_COLUMN_LENGTH, 3, 0, 0);
    REFUSED(hv_read_column(NULL, 0, &out, &error), HV_BAD_METADATA, 0, 0, 0);
    hv_free(&none);
    hv_free(&no_texts);
    hv_free(&made);
}

/* A null pointer where there are to be items: 11, with how many, before all else, also where the handle is empty. */
#define MISSING(call, items) REFUSED(call, HV_COLUMN_LENGTH, items, 0, HV_ABOUT_NULL)

static void check_missing_numbers(void) {
    const hv_validity no_bits = hv_valid_bits(NULL, 2, 0);
    const uint64_t items[1] = {0};
#define MISSING_OF(suffix, type) \
    MISSING(hv_##suffix(NULL, 3, NOT_NULLABLE, &out, &error), 3); \
    MISSING(hv_##suffix((const type *)items, 1, no_bits, &out, &error), 2); \
    MISSING(hv_read_##suffix(&numbers, 0, NULL, 3, &error), 3); \
    MISSING(hv_read_##suffix(&empty, 0, NULL, SIZE_MAX, &error), SIZE_MAX)
    MISSING_OF(u8, uint8_t);
    MISSING_OF(u16, uint16_t);
    MISSING_OF(u32, uint32_t);
    MISSING_OF(u64, uint64_t);
    MISSING_OF(i8, int8_t);
    MISSING_OF(i16, int16_t);
    MISSING_OF(i32, int32_t);
    MISSING_OF(i64, int64_t);
    CHECK(hv_u8(NULL, 1, NOT_NULLABLE, &out, NULL) == HV_COLUMN_LENGTH);
    check_kept();
}

static void check_missing_to_make(void) {
    const hv_validity no_bits = hv_valid_bits(NULL, 2, 0);
    const hv_kind utf8 = {HV_UTF8, 0, 0, 0}, u8 = {HV_U8, 0, 0, 0};
    const hv_value text = {.kind = HV_TEXT}, null = {.kind = HV_NULL};
    const uint8_t bytes[1] = {0};
    const int32_t offsets[2] = {0, 1};
    const int64_t large[2] = {0, 1};
    const uint64_t sizes[1] = {0};
    const hv_pair pairs[1] = {{0, 0}};
    hv_builder builder = HV_EMPTY;
    MISSING(hv_bools(NULL, 1, 0, 0, NOT_NULLABLE, &out, &error), 1);
    MISSING(hv_bools(bytes, 1, 0, 1, no_bits, &out, &error), 2);
    MISSING(hv_decimals(NULL, 4, 3, 0, NOT_NULLABLE, &out, &error), 4);
    MISSING(hv_decimals(pairs, 1, 3, 0, no_bits, &out, &error), 2);
    MISSING(hv_texts(0, NULL, 2, bytes, 1, NOT_NULLABLE, &out, &error), 2);
    MISSING(hv_texts(0, offsets, 2, NULL, 1, NOT_NULLABLE, &out, &error), 1);
    MISSING(hv_texts(0, offsets, 2, bytes, 1, no_bits, &out, &error), 2);
    MISSING(hv_large_texts(1, NULL, 2, bytes, 1, NOT_NULLABLE, &out, &error), 2);
    MISSING(hv_large_texts(1, large, 2, NULL, 1, NOT_NULLABLE, &out, &error), 1);
    MISSING(hv_large_texts(1, large, 2, bytes, 1, no_bits, &out, &error), 2);
    MISSING(hv_lists(&numbers, NULL, 1, sizes, 1, NOT_NULLABLE, &out, &error), 1);
    MISSING(hv_lists(&numbers, sizes, 1, NULL, 3, NOT_NULLABLE, &out, &error), 3);
    MISSING(hv_lists(&numbers, sizes, 1, sizes, 1, no_bits, &out, &error), 2);
    MISSING(hv_constant(&utf8, &text, NULL, 7, 1, &out, &error), 7);
    MISSING(hv_compare_scalar(&session, &texts, HV_EQ, &text, NULL, 7, &out, &error), 7);
    MISSING(hv_fill(&session, &texts, &null, NULL, 7, &out, &error), 7);
    MISSING(hv_deserialize(&u8, 0, NULL, 2, &numbers, &truths, &out, &error), 2);
    MISSING(hv_read_column(NULL, 9, &out, &error), 9);
    CHECK(!hv_builder_new(&utf8, &builder, &error));
    MISSING(hv_append_value(&builder, &text, NULL, 7, 1, &error), 7);
    CHECK(hv_builder_rows(&builder) == 0);
    hv_builder_free(&builder);
}

static void check_missing_room(void) {
    hv_value value, greatest;
    uint8_t text[4];
    size_t size, stop;
    FILL(value), FILL(greatest), FILL(text), FILL(size), FILL(stop);
    MISSING(hv_extreme(&session, &texts, 1, &value, NULL, 4, &error), 4);
    MISSING(hv_min_max(&session, &texts, &value, NULL, 4, &greatest, text, 4, &error), 4);
    MISSING(hv_min_max(&session, &texts, &value, text, 4, &greatest, NULL, 3, &error), 3);
    MISSING(hv_at(&texts, 0, &value, NULL, 4, &error), 4);
    MISSING(hv_run(&runs, 0, &size, &stop, &value, NULL, 4, &error), 4);
    MISSING(hv_read_decimals(&numbers, 0, NULL, 2, &error), 2);
    MISSING(hv_read_bools(&truths, NULL, 1, &error), 1);
    MISSING(hv_read_validity(&truths, NULL, 1, &error), 1);
    MISSING(hv_read_bools_from(&truths, 0, 3, NULL, 1, &error), 1);
    MISSING(hv_read_validity_from(&truths, 0, 3, NULL, 1, &error), 1);
    MISSING(hv_read_offsets(&texts, 0, NULL, 3, &error), 3);
    MISSING(hv_read_large_offsets(&texts, 0, NULL, 3, &error), 3);
    MISSING(hv_read_bytes(&texts, 0, 2, NULL, 3, &error), 3);
    MISSING(hv_read_ends_u64(&runs, 0, NULL, 3, &error), 3);
    MISSING(hv_serialize(&runs, NULL, 2, &size, &error), 2);
    MISSING(hv_write(&runs, NULL, 99, &size, &error), 99);
    MISSING(hv_is_message(NULL, 9, text, &error), 9);
    MISSING(hv_with_type(&runs, NULL, 3, &out, &error), 3);
    MISSING(hv_type(&runs, NULL, 9, &size, &error), 9);
}

/* Nor is an `error` that nobody asks for, whether the call is done or refused, or no handle to free. What is lent may
 * be lent by a pointer to const, and is the same after. */
static void check_nothing_asked(void) {
    const hv_column *lent = &numbers;
    const void *const at = lent->at;
    hv_column copy = HV_EMPTY, made = HV_EMPTY;
    hv_value value;
    CHECK(hv_clone(lent, &copy, NULL) == HV_OK && hv_length(&copy) == hv_length(lent));
    CHECK(hv_slice(&session, lent, 1, SIZE_MAX, &copy, NULL) == HV_BAD_RANGE);
    CHECK(hv_at(lent, SIZE_MAX, &value, NULL, 0, NULL) == HV_OUT_OF_BOUNDS);
    CHECK(hv_read_column(NULL, 0, &copy, NULL) == HV_BAD_METADATA);
    CHECK(hv_compare(&session, lent, HV_EQ, &copy, &made, NULL) == HV_OK && lent->at == at);
    hv_free(NULL);
    hv_free(&copy);
    hv_free(&copy);
    hv_free(&made);
    check_kept();
}

/* The size that a session begins with says which part of it is there; the exports read what comes after it. */
static void check_session(void) {
    hv_session set, none = {0};
    hv_column made = HV_EMPTY;
    FILL(set);
    hv_session_initial(&set);
    CHECK(set.size == sizeof set && set.kernels[HV_SLICE] == 1 && set.kernels[HV_IS_SORTED] == 1);
    CHECK(set.prefill_runs == 32 && set.unsorted_runs_per_index == 4);
    CHECK(!hv_slice(&set, &runs, 1, 3, &made, NULL) && hv_form(&made) == FORM_RUNS);
    CHECK(!hv_slice(&none, &runs, 1, 3, &made, NULL) && hv_form(&made) == FORM_FLAT);
    none.kernels[HV_SLICE] = 1;
    CHECK(!hv_slice(&none, &runs, 1, 3, &made, NULL) && hv_form(&made) == FORM_RUNS);
    CHECK((hv_length)(&made) == 2); /* the export itself */
    hv_free(&made);
}

/* a flag of 2 is true, as any number but 0 */
static void check_flags(void) {
    const int32_t offsets[2] = {0, 1};
    const uint8_t growing[2] = {1, 2}, none[1] = {0};
    hv_validity by_bits = NULLS_BY(none, 0);
    const hv_kind i64 = {HV_I64, 2, 0, 0};
    const hv_value truth = {.kind = HV_TRUTH, .truth = 2};
    uint8_t answer = 9, text[1];
    hv_value value;
    hv_column made = HV_EMPTY, column = HV_EMPTY;
    CHECK(!hv_u8(growing, 2, NOT_NULLABLE, &column, &error));
    CHECK(!hv_texts(2, offsets, 2, (const uint8_t *)"\xff", 1, NOT_NULLABLE, &made, &error)); /* bytes */
    CHECK_ROWS(&made, "<ff>");
    CHECK(!hv_is_sorted(&session, &column, 2, &answer, &error) && answer == 1);
    CHECK(!hv_extreme(&session, &column, 2, &value, text, 1, &error) && value.as_unsigned == 2);
    CHECK(!hv_cast(&session, &runs, &i64, &made, &error) && hv_kind_of(&made).nullable == 1);
    CHECK(!hv_compare_scalar(&session, &truths, HV_EQ, &truth, NO_TEXT, &made, &error));
    CHECK_ROWS(&made, "true false true");
    by_bits.nulls = 200;
    CHECK(!hv_u8(growing, 2, by_bits, &made, &error)); /* null by the bits */
    CHECK_ROWS(&made, "null null");
    check_kept();
    hv_free(&made);
    hv_free(&column);
}

int main(void) {
    make_columns();
    check_makers();
    check_runs();
    check_records();
    check_commands();
    check_questions();
    check_number_reads();
    check_bit_reads();
    check_text_reads();
    check_far_offsets();
    check_empty_handles();
    check_no_items();
    check_missing_numbers();
    check_missing_to_make();
    check_missing_room();
    check_nothing_asked();
    check_session();
    check_flags();
    hv_column *all[] = {&numbers, &runs, &truths, &texts, &out};
    for (size_t i = 0; i < COUNT(all); i++) hv_free(all[i]);
    puts("bad input is answered by its number, and nothing else happens");
    return 0;
}
