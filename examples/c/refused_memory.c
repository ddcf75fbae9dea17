/* Each request for memory refused in turn, in every call: the answer is 21, or 0 where the call went on without; every
 * column is as it was, and no block is lost. The linker hands our malloc, calloc, realloc and free to all of the
 * program: cc .. -Wl,--wrap=malloc,--wrap=calloc,--wrap=realloc,--wrap=free */
#include "check.h"
#include "hivevigil_arrow.h"
#include "refusing_malloc.h"

/* What the calls are lent. */
static hv_session session;
static hv_error error;
static hv_column flat = HV_EMPTY, runs = HV_EMPTY, part = HV_EMPTY, texts = HV_EMPTY, truths = HV_EMPTY,
                 decimals = HV_EMPTY, whole_decimals = HV_EMPTY, decimal_runs = HV_EMPTY;
static hv_column ends = HV_EMPTY, values = HV_EMPTY, places = HV_EMPTY, constant = HV_EMPTY, large_texts = HV_EMPTY;
static hv_column whole_floats = HV_EMPTY, doubles = HV_EMPTY, part_of_doubles = HV_EMPTY, flat_doubles = HV_EMPTY;
static hv_column truth_runs = HV_EMPTY, place_runs = HV_EMPTY, text_runs = HV_EMPTY;
static hv_column lists = HV_EMPTY, list_runs = HV_EMPTY, decoded_lists = HV_EMPTY, part_of_durations = HV_EMPTY;
static hv_column *const lent[] = {&flat, &runs,   &part,   &texts,    &truths,     &decimals,
                                  &ends, &values, &places, &constant, &large_texts, &truth_runs, &place_runs, &text_runs,
                                  &whole_floats, &whole_decimals, &lists, &list_runs, &decoded_lists, &decimal_runs,
                                  &part_of_durations, &doubles, &part_of_doubles, &flat_doubles};
static char rows_before[COUNT(lent)][8192];
/* constants of 2^60 rows, and a mask of as many in two runs; their rows are not shown */
#define MANY (UINT64_C(1) << 60)
static hv_column many = HV_EMPTY, as_many = HV_EMPTY, many_texts = HV_EMPTY, many_truths = HV_EMPTY;
static hv_column out = HV_EMPTY;
static struct ArrowSchema schema, texts_schema, codes_schema;
static struct ArrowArray array, texts_array, codes_array;

enum { ROWS = 80, BYTES = 4 * ROWS, WORDS = (ROWS + 63) / 64 };
static int64_t items[ROWS];
static uint8_t bits[ROWS / 8];
static int32_t offsets[ROWS + 1];
static int64_t large_offsets[ROWS + 1];
static uint8_t letters[BYTES];
static uint8_t kept_message[1024], decimals_message[64]; /* of `part`, and of `decimals` */
static uint8_t lists_message[2048], decoded_message[2048]; /* of `list_runs`, and of `decoded_lists` */
static uint8_t typed_message[1024]; /* of `part_of_durations`: `part`, as durations in seconds */
static const uint8_t *const durations = (const uint8_t *)"tDs";
static size_t message_size, decimals_size, lists_size, decoded_size, typed_size;
static const uint16_t some_places[5] = {1, 3, 60, 79, 0};
static const uint8_t texts_message[] = {8, 1, 16, 12, 24, 1, 32, 2, 40, 2, 98, 2, 1, 3, 106, 4, 'a', 'b', 'c', 'd'};
static const uint8_t text_message[] = {8, 1, 16, 11, 24, 3, 32, 9, 40, 1, 58, 4, 'a', 'b', 'c', 'd'};
static uint64_t list_offsets[ROWS / 2], list_sizes[ROWS / 2];
static const hv_pair pairs[2] = {{5, 0}, {UINT64_MAX, -1}};
static const hv_kind i32_type = {HV_I32, 1, 0, 0}, i64_type = {HV_I64, 1, 0, 0}, text_type = {HV_UTF8, 0, 0, 0};
static const hv_kind i64_or_null = {HV_I64, 1, 0, 0}, text_or_null = {HV_UTF8, 1, 0, 0};
static const hv_value five = {.kind = HV_SIGNED, .as_signed = 5}, letter = {.kind = HV_TEXT, .as_unsigned = 1};
static const hv_value a_half = {.kind = HV_DOUBLE, .as_unsigned = UINT64_C(0x3fe0000000000000)};

/* numbers in stretches of three, two of seven null; texts of four letters each */
static void write_items(void) {
    for (int row = 0; row < ROWS; row++) {
        items[row] = row / 3;
        bits[row / 8] = (uint8_t)(bits[row / 8] | ((row % 7 < 5) << (row % 8)));
        offsets[row + 1] = 4 * (row + 1);
        large_offsets[row + 1] = 4 * (row + 1);
        memset(letters + 4 * row, 'a' + row / 10, 4);
    }
    for (uint64_t row = 0; row < ROWS / 2; row++) list_offsets[row] = 2 * row, list_sizes[row] = 2;
}

/* lists of two numbers, and runs over the first two of them, of five and of four rows; decoded these are lists whose
 * offsets, sizes and validity are in runs */
static void make_list_columns(void) {
    const uint8_t place_ends[2] = {5, 9};
    hv_column ends_of_two = HV_EMPTY, two = HV_EMPTY;
    CHECK(!hv_lists(&flat, list_offsets, ROWS / 2, list_sizes, ROWS / 2, NULLS_BY(bits, 0), &lists, &error));
    CHECK(!hv_u8(place_ends, 2, NOT_NULLABLE, &ends_of_two, &error) && !hv_slice(&session, &lists, 4, 6, &two, &error));
    CHECK(!hv_runs(&ends_of_two, &two, 0, 9, &list_runs, &error));
    CHECK(!hv_decode(&session, &list_runs, &decoded_lists, &error));
    CHECK(!hv_write(&list_runs, lists_message, sizeof lists_message, &lists_size, &error));
    CHECK(!hv_write(&decoded_lists, decoded_message, sizeof decoded_message, &decoded_size, &error));
    hv_free(&ends_of_two), hv_free(&two);
}

/* booleans, places and texts as runs of 40 and of 40 rows, and the places of five and of four */
static void make_run_columns(void) {
    const uint8_t two_ends[2] = {ROWS / 2, ROWS}, place_ends[2] = {5, 9}, truth[1] = {1};
    hv_column last = HV_EMPTY, two = HV_EMPTY;
    CHECK(!hv_u8(two_ends, 2, NOT_NULLABLE, &last, &error));
    CHECK(!hv_bools(truth, 1, 0, 2, NO_NULLS, &two, &error) && !hv_runs(&last, &two, 0, ROWS, &truth_runs, &error));
    CHECK(!hv_u8(place_ends, 2, NOT_NULLABLE, &last, &error));
    CHECK(!hv_u16(some_places, 2, NOT_NULLABLE, &two, &error) && !hv_runs(&last, &two, 0, 9, &place_runs, &error));
    CHECK(!hv_slice(&session, &texts, 0, 2, &two, &error) && !hv_runs(&last, &two, 0, 9, &text_runs, &error));
    hv_free(&last), hv_free(&two);
}

/* constants of 2^60 rows, and 2^59 rows that are true before as many that are not */
static void make_many(void) {
    const uint64_t two_ends[2] = {MANY / 2, MANY};
    const uint8_t truth[1] = {1};
    hv_column last = HV_EMPTY, two = HV_EMPTY;
    CHECK(!hv_constant(&i64_type, &five, NO_TEXT, MANY, &many, &error) && !hv_clone(&many, &as_many, &error));
    CHECK(!hv_constant(&text_or_null, &letter, letters, 1, MANY, &many_texts, &error));
    CHECK(!hv_u64(two_ends, 2, NOT_NULLABLE, &last, &error) && !hv_bools(truth, 1, 0, 2, NO_NULLS, &two, &error));
    CHECK(!hv_runs(&last, &two, 0, MANY, &many_truths, &error));
    hv_free(&last), hv_free(&two);
}

static void make_lent(void) {
    hv_session_initial(&session);
    CHECK(!hv_i64(items, ROWS, NULLS_BY(bits, 0), &flat, &error) && !hv_encode(&session, &flat, &runs, &error));
    CHECK(!hv_slice(&session, &runs, 20, 70, &part, &error) && !hv_slice(&session, &runs, 0, 3, &constant, &error));
    CHECK(!hv_texts(0, offsets, ROWS + 1, letters, BYTES, NULLS_BY(bits, 0), &texts, &error));
    CHECK(!hv_large_texts(1, large_offsets, ROWS + 1, letters, BYTES, NO_NULLS, &large_texts, &error));
    CHECK(!hv_bools(bits, sizeof bits, 0, ROWS, NULLS_BY(bits, 0), &truths, &error));
    CHECK(!hv_decimals(pairs, 2, 10, 2, NO_NULLS, &decimals, &error));
    CHECK(!hv_encode_rows(&decimals, &decimal_runs, &error));
    CHECK(!hv_ends(&part, &ends, &error) && !hv_values(&part, &values, &error));
    CHECK(!hv_u16(some_places, 5, NOT_NULLABLE, &places, &error));
    CHECK(!hv_float_of_integers(&part, HV_I64, 0, &whole_floats, &error));
    CHECK(!hv_with_type(&whole_floats, (const uint8_t *)"g", 1, &doubles, &error));
    CHECK(!hv_with_type(&part, (const uint8_t *)"g", 1, &part_of_doubles, &error));
    CHECK(!hv_with_type(&flat, (const uint8_t *)"g", 1, &flat_doubles, &error));
    CHECK(!hv_decimal_cast(&part, 12, 2, &whole_decimals, &error));
    make_run_columns();
    make_list_columns();
    make_many();
    CHECK(!hv_write(&part, kept_message, sizeof kept_message, &message_size, &error));
    CHECK(!hv_with_type(&part, durations, 3, &part_of_durations, &error));
    CHECK(!hv_write(&part_of_durations, typed_message, sizeof typed_message, &typed_size, &error));
    CHECK(!hv_write(&decimals, decimals_message, sizeof decimals_message, &decimals_size, &error));
    CHECK(!hv_arrow_export(&session, &texts, "texts", &texts_schema, &texts_array, &error));
    CHECK(!hv_arrow_export_dictionary(&session, &places, &texts, "codes", &codes_schema, &codes_array, &error));
    for (size_t i = 0; i < COUNT(lent); i++) {
        CHECK(strlen(rows_of(lent[i])) < sizeof rows_before[i]);
        strcpy(rows_before[i], rows_of(lent[i]));
    }
}

/* the first row of a column of 2^60 rows in this form */
static void check_many(const hv_column *column, uint8_t form, uint8_t kind) {
    hv_value first;
    uint8_t room[4];
    CHECK(hv_form(column) == form && hv_length(column) == MANY);
    CHECK(!hv_at(column, 0, &first, room, sizeof room, &error) && first.kind == kind);
}

static void check_lent(void) {
    for (size_t i = 0; i < COUNT(lent); i++) CHECK_ROWS(lent[i], rows_before[i]);
    check_many(&many, HV_FORM_CONSTANT, HV_SIGNED), check_many(&as_many, HV_FORM_CONSTANT, HV_SIGNED);
    check_many(&many_texts, HV_FORM_CONSTANT, HV_TEXT), check_many(&many_truths, HV_FORM_RUNS, HV_TRUTH);
}

/* ---- A step for each call ---- */

static hv_total total;
static hv_value value, greatest;
static uint8_t text[64], letter_room[8], truth, message[2048];
static uint64_t words[ROWS + 1];
static size_t size, stop;

#define STEP(name, call) \
    static int32_t name(void) { return call; }
#define STEP_NUMBERS(suffix, type) \
    STEP(make_##suffix, hv_##suffix((const type *)items, ROWS, NULLS_BY(bits, 0), &out, &error))
#define STEP_READ(suffix, type) STEP(read_##suffix, hv_read_##suffix(&flat, 0, (type *)words, ROWS, &error))

STEP_NUMBERS(u8, uint8_t)
STEP_NUMBERS(u16, uint16_t)
STEP_NUMBERS(u32, uint32_t)
STEP_NUMBERS(u64, uint64_t)
STEP_NUMBERS(i8, int8_t)
STEP_NUMBERS(i16, int16_t)
STEP_NUMBERS(i32, int32_t)
STEP_NUMBERS(i64, int64_t)
STEP(make_bools, hv_bools(bits, sizeof bits, 3, ROWS - 3, NULLS_BY(bits, 0), &out, &error))
STEP(make_decimals, hv_decimals(pairs, 2, 10, 2, NULLS_BY(bits, 0), &out, &error))
STEP(make_texts, hv_texts(0, offsets, ROWS + 1, letters, BYTES, NULLS_BY(bits, 0), &out, &error))
STEP(make_large_texts, hv_large_texts(0, large_offsets, ROWS + 1, letters, BYTES, NO_NULLS, &out, &error))
STEP(make_runs, hv_runs(&ends, &values, hv_offset(&part), 50, &out, &error))
STEP(clone_runs, hv_clone(&runs, &out, &error))
STEP(clone_texts, hv_clone(&texts, &out, &error))
STEP(compact_runs, hv_compact(&runs, &out, &error))
STEP(compact_texts, hv_compact(&texts, &out, &error))
STEP(encode, hv_encode(&session, &flat, &out, &error))
STEP(encode_rows, hv_encode_rows(&flat, &out, &error))
STEP(encode_texts, hv_encode_rows(&texts, &out, &error))
STEP(encode_part, hv_encode_rows(&part, &out, &error))
STEP(decode, hv_decode(&session, &part, &out, &error))
STEP(slice_runs, hv_slice(&session, &runs, 10, 70, &out, &error))
STEP(slice_texts, hv_slice(&session, &texts, 10, 70, &out, &error))
STEP(cast, hv_cast(&session, &runs, &i32_type, &out, &error))
STEP(take, hv_take(&session, &runs, &places, &out, &error))
STEP(take_texts, hv_take(&session, &texts, &places, &out, &error))
STEP(filter, hv_filter(&session, &runs, &truths, &out, &error))
STEP(filter_texts, hv_filter(&session, &texts, &truths, &out, &error))
STEP(filter_by_runs, hv_filter(&session, &runs, &truth_runs, &out, &error))
STEP(take_by_runs, hv_take(&session, &texts, &place_runs, &out, &error))
STEP(take_from, hv_take_from(&session, &places, &runs, &out, &error))
STEP(compare, hv_compare(&session, &runs, HV_LE, &flat, &out, &error))
STEP(compare_scalar, hv_compare_scalar(&session, &runs, HV_GT, &five, NO_TEXT, &out, &error))
STEP(compare_text, hv_compare_scalar(&session, &texts, HV_GT, &letter, letters, 1, &out, &error))
STEP(compare_number, hv_compare_number(&runs, HV_LT, &a_half, &out, &error))
STEP(compare_decimals, hv_compare_number(&decimals, HV_GE, &five, &out, &error))
STEP(compare_double, hv_compare_number(&doubles, HV_NE, &a_half, &out, &error))
STEP(compare_flat, hv_compare_number(&flat, HV_LE, &a_half, &out, &error))
STEP(compare_many, hv_compare_number(&many, HV_GT, &a_half, &out, &error))
STEP(fill, hv_fill(&session, &runs, &five, NO_TEXT, &out, &error))
STEP(fill_text, hv_fill(&session, &texts, &letter, letters, 1, &out, &error))
/* the places are bits of floats of 16 bits, and the numbers are keys of floats of 64 */
STEP(make_floats, hv_float_encode(&places, 1, &out, &error))
STEP(make_floats_of_runs, hv_float_encode(&place_runs, 0, &out, &error))
STEP(decode_floats, hv_float_decode(&runs, &out, &error))
STEP(compare_floats, hv_float_compare(&runs, HV_LT, 7, 1, &out, &error))
STEP(order_floats, hv_float_compare(&part, HV_LT, 7, 0, &out, &error))
STEP(least_float, hv_min_max(&session, &part_of_doubles, &value, NULL, 0, &greatest, NULL, 0, &error))
STEP(least_flat_float, hv_min_max(&session, &flat_doubles, &value, NULL, 0, &greatest, NULL, 0, &error))
STEP(first_float, hv_min_max(&session, &flat, &value, NULL, 0, &greatest, NULL, 0, &error))
STEP(sum_floats, hv_sum(&session, &part_of_doubles, &total, &error))
STEP(sum_flat_floats, hv_sum(&session, &flat_doubles, &total, &error))
STEP(read_float, hv_at(&doubles, 3, &value, NULL, 0, &error))
STEP(cast_floats, hv_float_cast(&part, HV_I32, 1, &out, &error))
STEP(cast_same_floats, hv_float_cast(&runs, HV_I64, 0, &out, &error))
STEP(cast_integers, hv_float_of_integers(&runs, HV_I64, 0, &out, &error))
STEP(round_integers, hv_float_of_integers(&flat, HV_I16, 1, &out, &error))
STEP(cast_to_integers, hv_float_to_integers(&whole_floats, HV_U8, &out, &error))
STEP(divide_floats, hv_float_combine(&runs, HV_DIVIDE, &flat, &out, &error))
STEP(divide_constants, hv_float_combine(&many, HV_DIVIDE, &as_many, &out, &error))
STEP(cast_constant, hv_cast(&session, &many, &i32_type, &out, &error))
STEP(compare_constants, hv_compare(&session, &many, HV_LE, &as_many, &out, &error))
STEP(compare_constant, hv_compare_scalar(&session, &many_texts, HV_GT, &letter, letters, 1, &out, &error))
STEP(fill_constant, hv_fill(&session, &many_texts, &letter, letters, 1, &out, &error))
STEP(filter_constant, hv_filter(&session, &many_texts, &many_truths, &out, &error))
STEP(sum, hv_sum(&session, &runs, &total, &error))
STEP(sum_decimals, hv_sum(&session, &decimals, &total, &error))
STEP(sum_decimal_runs, hv_sum(&session, &decimal_runs, &total, &error))
STEP(cast_decimals, hv_decimal_cast(&decimals, 12, 4, &out, &error))
STEP(cast_to_decimals, hv_decimal_cast(&part, 12, 4, &out, &error))
STEP(cast_decimals_to_integers, hv_decimal_to_integers(&whole_decimals, HV_I16, &out, &error))
STEP(multiply_decimals, hv_combine(&decimals, HV_MULTIPLY, &decimal_runs, &out, &error))
STEP(is_constant, hv_is_constant(&session, &runs, &truth, &error))
STEP(is_sorted, hv_is_sorted(&session, &runs, 0, &truth, &error))
STEP(extreme, hv_extreme(&session, &runs, 1, &value, text, sizeof text, &error))
STEP(extreme_text, hv_extreme(&session, &texts, 1, &value, text, sizeof text, &error))
STEP(min_max, hv_min_max(&session, &texts, &value, text, sizeof text, &greatest, letter_room, sizeof letter_room, &error))
STEP(min_max_numbers, hv_min_max(&session, &runs, &value, text, 0, &greatest, letter_room, 0, &error))
STEP(at, hv_at(&texts, 66, &value, text, sizeof text, &error))
STEP_READ(i64, int64_t)
STEP(read_decimals, hv_read_decimals(&decimals, 0, (hv_pair *)words, 2, &error))
STEP(read_bools, hv_read_bools(&truths, words, WORDS, &error))
STEP(read_validity, hv_read_validity(&flat, words, WORDS, &error))
STEP(read_no_nulls, hv_read_validity(&large_texts, words, WORDS, &error))
STEP(read_offsets, hv_read_offsets(&texts, 0, (int32_t *)words, ROWS + 1, &error))
STEP(read_large_offsets, hv_read_large_offsets(&large_texts, 10, (int64_t *)words, 60, &error))
STEP(read_bytes, hv_read_bytes(&large_texts, 0, ROWS, (uint8_t *)words, BYTES, &error))
STEP(window_numbers, hv_read_i64(&part, 3, (int64_t *)words, 40, &error))
STEP(window_offsets, hv_read_offsets(&text_runs, 3, (int32_t *)words, 6, &error))
STEP(window_bytes, hv_read_bytes(&text_runs, 0, 9, (uint8_t *)words, 36, &error))
STEP(window_bools, hv_read_bools_from(&truth_runs, 5, 60, words, 1, &error))
STEP(window_validity, hv_read_validity_from(&part, 5, 40, words, 1, &error))
/* numbers and their bits; lists of them with an offset, a size and a bit each */
static int32_t read_bytes_used(void) {
    const size_t of_flat = ROWS * 8 + ROWS / 8;
    return hv_bytes_used(&flat) == of_flat && hv_bytes_used(&lists) == of_flat + ROWS / 2 * 16 + ROWS / 16 ? HV_OK : -1;
}
STEP(read_run_count, hv_run_count(&part, &size, &error))
STEP(read_run, hv_run(&part, 2, &size, &stop, &value, text, sizeof text, &error))
STEP(read_run_of, hv_run_of(&part, 30, &size, &error))
STEP(read_ends, hv_read_ends_u64(&part, 0, words, 2, &error))
STEP(make_constant, hv_constant(&text_type, &letter, letters, 4, 9, &out, &error))
STEP(make_lists, hv_lists(&flat, list_offsets, ROWS / 2, list_sizes, ROWS / 2, NULLS_BY(bits, 0), &out, &error))
STEP(list_elements, hv_list_elements(&lists, &out, &error))
STEP(offsets_of_lists, hv_list_offsets(&lists, &out, &error))
STEP(sizes_of_lists, hv_list_sizes(&lists, &out, &error))
STEP(list_validity, hv_list_validity(&lists, &out, &error))
STEP(slice_lists, hv_slice(&session, &lists, 3, 38, &out, &error))
STEP(take_lists, hv_take(&session, &list_runs, &place_runs, &out, &error))
STEP(decode_lists, hv_decode(&session, &list_runs, &out, &error))
STEP(clone_lists, hv_clone(&list_runs, &out, &error))
STEP(run_ends, hv_ends(&part, &out, &error))
STEP(run_values, hv_values(&part, &out, &error))
STEP(serialize, hv_serialize(&part, text, sizeof text, &size, &error))
STEP(deserialize, hv_deserialize(&i64_type, 50, text, size, &ends, &values, &out, &error))
STEP(size_of_message, hv_write_size(&part, &size, &error))
STEP(write_message, hv_write(&part, message, sizeof message, &size, &error))
STEP(column_of_message, hv_read_column(kept_message, message_size, &out, &error))
STEP(write_decimals, hv_write(&decimals, message, sizeof message, &size, &error))
STEP(decimals_of_message, hv_read_column(decimals_message, decimals_size, &out, &error))
STEP(write_constant, hv_write(&constant, message, sizeof message, &size, &error))
STEP(write_texts, hv_write(&text_runs, message, sizeof message, &size, &error))
STEP(texts_of_message, hv_read_column(texts_message, sizeof texts_message, &out, &error))
STEP(constant_of_message, hv_read_column(text_message, sizeof text_message, &out, &error))
STEP(size_of_lists, hv_write_size(&lists, &size, &error))
STEP(write_lists, hv_write(&list_runs, message, sizeof message, &size, &error))
STEP(lists_of_message, hv_read_column(lists_message, lists_size, &out, &error))
STEP(write_decoded_lists, hv_write(&decoded_lists, message, sizeof message, &size, &error))
STEP(is_message, hv_is_message(decoded_message, decoded_size, &truth, &error))
STEP(decoded_lists_of_message, hv_read_column(decoded_message, decoded_size, &out, &error))
STEP(size_of_typed, hv_write_size(&part_of_durations, &size, &error))
STEP(write_typed, hv_write(&part_of_durations, message, sizeof message, &size, &error))
STEP(column_of_typed, hv_read_column(typed_message, typed_size, &out, &error))
STEP(is_typed_message, hv_is_message(typed_message, typed_size, &truth, &error))
STEP(give_format, hv_with_type(&part, durations, 3, &out, &error))
STEP(read_format, hv_type(&part_of_durations, message, sizeof message, &size, &error))
STEP(export_flat, hv_arrow_export(&session, &flat, "flat", &schema, &array, &error))
STEP(export_runs, hv_arrow_export(&session, &part, "runs", &schema, &array, &error))
STEP(export_constant, hv_arrow_export(&session, &constant, "constant", &schema, &array, &error))
STEP(export_texts, hv_arrow_export(&session, &texts, "texts", &schema, &array, &error))
STEP(export_truths, hv_arrow_export(&session, &truths, "truths", &schema, &array, &error))
STEP(export_dictionary, hv_arrow_export_dictionary(&session, &places, &texts, "codes", &schema, &array, &error))
STEP(import_texts, hv_arrow_import(&session, &texts_schema, &texts_array, &out, &error))
STEP(import_dictionary, hv_arrow_import(&session, &codes_schema, &codes_array, &out, &error))

/* Batches and a value three times after each, built as one step, and the rows that are due. */
typedef struct built_rows {
    const hv_kind *kind;
    hv_column *batches[2];
    const hv_value *passed;
    const char *shown;
} built_rows;
static const built_rows of_numbers = {&i64_or_null, {&flat, &part}, &five, "5"};
static const built_rows of_texts = {&text_or_null, {&texts, &text_runs}, &letter, "\"aaaa\""};
static char due[16384];

static void write_due(const built_rows *it) {
    size_t used = 0;
    for (int i = 0; i < 2; i++)
        used += (size_t)snprintf(due + used, sizeof due - used, "%s%s %s %s %s", i ? " " : "", rows_of(it->batches[i]),
                                 it->shown, it->shown, it->shown);
}

/* A builder that is refused memory has the rows that it had. */
static int32_t put_batches(hv_builder *builder, const built_rows *it) {
    int32_t answer = hv_builder_new(it->kind, builder, &error);
    for (int i = 0; i < 4 && !answer; i++) {
        const size_t rows = hv_builder_rows(builder), runs = hv_builder_runs(builder);
        answer = i % 2 ? hv_append_value(builder, it->passed, letters, 4, 3, &error)
                       : hv_append(builder, it->batches[i / 2], &error);
        if (answer) CHECK(hv_builder_rows(builder) == rows && hv_builder_runs(builder) == runs);
    }
    return answer;
}

static int32_t built(const built_rows *it) {
    hv_builder builder = HV_EMPTY;
    int32_t answer = put_batches(&builder, it);
    const size_t rows = hv_builder_rows(&builder);
    if (!answer) answer = hv_encoding(&builder, &out, &error);
    write_due(it);
    if (!answer) CHECK_ROWS(&out, due);
    CHECK(hv_builder_rows(&builder) == rows);
    hv_builder_free(&builder);
    return answer;
}
static int32_t build_numbers(void) { return built(&of_numbers); }
static int32_t build_texts(void) { return built(&of_texts); }

/* The same, ended by hv_finish, after which the builder has no rows. Where that is refused memory, the next call of it
 * makes the column. */
static int32_t finished(const built_rows *it) {
    hv_builder builder = HV_EMPTY;
    int32_t answer = put_batches(&builder, it);
    const size_t rows = hv_builder_rows(&builder), runs = hv_builder_runs(&builder);
    const bool filled = !answer;
    if (filled) answer = hv_finish(&builder, &out, &error);
    write_due(it);
    if (filled && answer) {
        hv_column again = HV_EMPTY;
        CHECK(hv_builder_rows(&builder) == rows && hv_builder_runs(&builder) == runs);
        refuse_at = -1;
        CHECK(!hv_finish(&builder, &again, &error));
        CHECK_ROWS(&again, due);
        hv_free(&again);
    } else if (filled) CHECK_ROWS(&out, due);
    if (filled) CHECK(hv_builder_rows(&builder) == 0 && hv_builder_runs(&builder) == 0);
    hv_builder_free(&builder);
    return answer;
}
static int32_t finish_numbers(void) { return finished(&of_numbers); }
static int32_t finish_texts(void) { return finished(&of_texts); }

/* A call that makes two columns makes neither where it is refused memory. */
static int32_t summed(const hv_column *keys) {
    hv_column sums = HV_EMPTY;
    const int32_t answer = hv_fold_by(keys, &flat, HV_FOLD_SUM, &out, &sums, &error);
    CHECK((answer != 0) == (hv_form(&sums) == HV_FORM_NONE));
    hv_free(&sums);
    return answer;
}
static int32_t sum_by_runs(void) { return summed(&runs); }
static int32_t sum_by_texts(void) { return summed(&texts); }
static int32_t totaled(const hv_column *column) {
    hv_column totals = HV_EMPTY;
    const int32_t answer = hv_running_totals(column, &out, &totals, &error);
    CHECK((answer != 0) == (hv_form(&totals) == HV_FORM_NONE));
    hv_free(&totals);
    return answer;
}
static int32_t total_flat(void) { return totaled(&flat); }
static int32_t total_runs(void) { return totaled(&part); }

/* Two columns worked place by place. */
static int32_t add_runs(void) { return hv_combine(&runs, HV_ADD, &flat, &out, &error); }
static int32_t add_constants(void) { return hv_combine(&many, HV_ADD, &as_many, &out, &error); }
static int32_t connect_runs(void) { return hv_combine(&truths, HV_OR, &truth_runs, &out, &error); }
static int32_t pick_runs(void) { return hv_combine(&runs, HV_COALESCE, &flat, &out, &error); }
static int32_t negate_runs(void) { return hv_not(&truth_runs, &out, &error); }
static int32_t null_texts(void) { return hv_is_null(&texts, &out, &error); }
static int32_t valid_runs(void) { return hv_is_valid(&runs, &out, &error); }
static int32_t choose_runs(void) { return hv_if_else(&truths, &runs, &flat, &out, &error); }
static int32_t equal_runs(void) {
    uint8_t truth = 0;
    const int32_t answer = hv_equals(&runs, &flat, &truth, &error);
    CHECK(answer || truth == 1);
    return answer;
}
static uint64_t hashed;
static int32_t hash_runs(void) { return hv_hash(&runs, &hashed, &error); }
static int32_t hash_texts(void) { return hv_hash(&texts, &hashed, &error); }
static int32_t parts_of_runs(void) {
    hv_pair sums[3];
    return hv_sum_parts(&part, sums, sums + 1, sums + 2, &error);
}
static int32_t less_by_runs(void) { return hv_combine(&flat, HV_LT, &runs, &out, &error); }

/* Rows in another order, and values counted. */
static int32_t reverse_runs(void) { return hv_reverse(&part, &out, &error); }
static int32_t reverse_texts(void) { return hv_reverse(&texts, &out, &error); }
static int32_t sort_runs(void) { return hv_sort(&part, &out, &error); }
static int32_t sort_texts(void) { return hv_sort(&text_runs, &out, &error); }
static int32_t sort_constant(void) { return hv_sort(&many_texts, &out, &error); }
static int32_t counted(const hv_column *column) {
    hv_column counts = HV_EMPTY;
    const int32_t answer = hv_value_counts(column, &out, &counts, &error);
    CHECK((answer != 0) == (hv_form(&counts) == HV_FORM_NONE));
    hv_free(&counts);
    return answer;
}
static int32_t count_runs(void) { return counted(&runs); }
static int32_t count_texts(void) { return counted(&texts); }

/* what is exported and imported again, as one step */
static int32_t export_and_import(void) {
    int32_t answer = hv_arrow_export(&session, &part, "runs", &schema, &array, &error);
    if (!answer) answer = hv_arrow_import(&session, &schema, &array, &out, &error);
    if (answer) hv_arrow_release(&schema, &array);
    return answer;
}

typedef struct step {
    const char *name;
    int32_t (*call)(void);
} step;

#define NAMED(name) {#name, name}
static const step steps[] = {
    NAMED(make_u8), NAMED(make_u16), NAMED(make_u32), NAMED(make_u64), NAMED(make_i8), NAMED(make_i16),
    NAMED(make_i32), NAMED(make_i64), NAMED(make_bools), NAMED(make_decimals), NAMED(make_texts),
    NAMED(make_large_texts), NAMED(make_runs), NAMED(clone_runs), NAMED(clone_texts), NAMED(encode), NAMED(decode),
    NAMED(encode_rows), NAMED(encode_texts), NAMED(encode_part), NAMED(build_numbers), NAMED(build_texts),
    NAMED(finish_numbers), NAMED(finish_texts),
    NAMED(compact_runs), NAMED(compact_texts),
    NAMED(slice_runs), NAMED(slice_texts), NAMED(cast), NAMED(take), NAMED(take_texts), NAMED(filter),
    NAMED(filter_texts), NAMED(filter_by_runs), NAMED(take_by_runs), NAMED(take_from), NAMED(compare), NAMED(compare_scalar), NAMED(compare_text),
    NAMED(compare_number), NAMED(compare_decimals), NAMED(compare_double), NAMED(compare_flat), NAMED(compare_many), NAMED(fill),
    NAMED(fill_text), NAMED(sum_by_runs), NAMED(sum_by_texts), NAMED(total_flat), NAMED(total_runs), NAMED(add_runs), NAMED(add_constants),
    NAMED(connect_runs), NAMED(less_by_runs), NAMED(pick_runs), NAMED(negate_runs), NAMED(null_texts),
    NAMED(valid_runs), NAMED(choose_runs), NAMED(equal_runs), NAMED(hash_runs), NAMED(hash_texts), NAMED(parts_of_runs), NAMED(make_floats),
    NAMED(make_floats_of_runs), NAMED(decode_floats), NAMED(compare_floats), NAMED(order_floats), NAMED(least_float),
    NAMED(least_flat_float), NAMED(first_float), NAMED(sum_floats), NAMED(sum_flat_floats), NAMED(read_float),
    NAMED(cast_floats), NAMED(cast_same_floats),
    NAMED(cast_integers), NAMED(round_integers), NAMED(cast_to_integers), NAMED(divide_floats), NAMED(divide_constants), NAMED(reverse_runs), NAMED(reverse_texts),
    NAMED(sort_runs), NAMED(sort_texts), NAMED(sort_constant), NAMED(count_runs), NAMED(count_texts),
    NAMED(cast_constant), NAMED(compare_constants),
    NAMED(compare_constant), NAMED(fill_constant), NAMED(filter_constant), NAMED(sum), NAMED(sum_decimals),
    NAMED(sum_decimal_runs), NAMED(cast_decimals),
    NAMED(cast_to_decimals), NAMED(cast_decimals_to_integers), NAMED(multiply_decimals),
    NAMED(is_constant), NAMED(is_sorted), NAMED(extreme), NAMED(extreme_text),
    NAMED(min_max_numbers),
    NAMED(min_max), NAMED(at), NAMED(read_i64), NAMED(read_decimals), NAMED(read_bools), NAMED(read_validity), NAMED(read_no_nulls),
    NAMED(read_offsets), NAMED(read_large_offsets), NAMED(read_bytes), NAMED(window_numbers),
    NAMED(window_offsets), NAMED(window_bytes), NAMED(window_bools), NAMED(window_validity), NAMED(read_run_count),
    NAMED(read_run), NAMED(read_run_of), NAMED(read_bytes_used), NAMED(make_lists), NAMED(list_elements),
    NAMED(offsets_of_lists), NAMED(sizes_of_lists), NAMED(list_validity), NAMED(slice_lists), NAMED(take_lists),
    NAMED(decode_lists), NAMED(clone_lists), NAMED(read_ends), NAMED(make_constant), NAMED(run_ends), NAMED(run_values),
    NAMED(serialize), NAMED(deserialize), NAMED(size_of_message), NAMED(write_message), NAMED(column_of_message),
    NAMED(write_decimals), NAMED(decimals_of_message), NAMED(write_constant), NAMED(constant_of_message),
    NAMED(write_texts), NAMED(texts_of_message), NAMED(size_of_lists), NAMED(write_lists), NAMED(lists_of_message),
    NAMED(write_decoded_lists), NAMED(is_message), NAMED(decoded_lists_of_message),
    NAMED(size_of_typed), NAMED(write_typed), NAMED(column_of_typed), NAMED(is_typed_message),
    NAMED(give_format), NAMED(read_format),
    NAMED(export_flat), NAMED(export_runs), NAMED(export_constant),
    NAMED(export_texts), NAMED(export_truths), NAMED(export_dictionary), NAMED(import_texts),
    NAMED(import_dictionary), NAMED(export_and_import),
};

/* `out` holds 42 before each call, and after a refusal. */
static void reset_out(void) {
    const uint8_t kept[1] = {42};
    CHECK(!hv_u8(kept, 1, NOT_NULLABLE, &out, &error));
}

/* One call, in which request `number` is refused. Whether it was: a call that makes fewer requests has none refused. */
static bool try_step(const step *it, long number, bool rest) {
    reset_out();
    long blocks_before = blocks, refused_before = refused;
    requests = 0, refuse_rest = rest, refuse_at = number;
    int32_t answer = it->call();
    refuse_at = -1;
    bool was_refused = refused > refused_before;
    if (answer != HV_OK && !(answer == HV_OUT_OF_MEMORY && was_refused)) {
        fprintf(stderr, "%s, request %ld refused: answered %" PRId32 "\n", it->name, number, answer);
        exit(1);
    }
    if (answer) {
        CHECK_ROWS(&out, "42");
        CHECK(!schema.release && !array.release);
        if (blocks != blocks_before) fprintf(stderr, "%s, request %ld refused: blocks lost\n", it->name, number);
        CHECK(blocks == blocks_before);
    }
    hv_arrow_release(&schema, &array);
    check_lent();
    return was_refused;
}

/* Reads, messages that are measured or written, and these questions, over runs whose kernels are registered and whose
 * values are not texts, or over flat numbers, take no memory. */
static bool takes_no_memory(const char *name) {
    static const char *const questions[] = {"sum", "is_constant", "is_sorted", "extreme", "min_max_numbers",
                                            "is_message", "is_typed_message", "first_float"};
    static const char *const fronts[] = {"read_", "size_of_", "write_"};
    for (size_t i = 0; i < COUNT(questions); i++)
        if (strcmp(name, questions[i]) == 0) return true;
    for (size_t i = 0; i < COUNT(fronts); i++)
        if (strncmp(name, fronts[i], strlen(fronts[i])) == 0) return true;
    return false;
}

int main(void) {
    write_items();
    make_lent();
    for (size_t i = 0; i < COUNT(steps); i++)
        for (int rest = 0; rest < 2; rest++) {
            long number = 0;
            while (try_step(&steps[i], number, rest)) number++;
            if (takes_no_memory(steps[i].name)) CHECK(number == 0);
            if (getenv("VERBOSE")) printf("%-20s %ld requests\n", steps[i].name, number);
        }
    hv_free(&out);
    for (size_t i = 0; i < COUNT(lent); i++) hv_free(lent[i]);
    hv_free(&many), hv_free(&as_many), hv_free(&many_texts), hv_free(&many_truths);
    hv_arrow_release(&texts_schema, &texts_array);
    hv_arrow_release(&codes_schema, &codes_array);
    CHECK(blocks == 0);
    printf("%zu calls, %ld requests for memory refused, no column changed, no block lost\n", COUNT(steps), refused);
    return 0;
}
