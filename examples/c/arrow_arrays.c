/* Arrow arrays of each form in and out: run ends of each width, windows, runs over runs and over texts, dictionaries
 * with nulls, batches with an offset, arrays of no rows, and those that are refused. Answers were worked out by hand.
 */
#include "check.h"
#include "hivevigil_arrow.h"

static hv_session session;
static hv_error error;
static hv_column column = HV_EMPTY, again = HV_EMPTY;
static struct ArrowSchema out_schema;
static struct ArrowArray out_array;

#define BUFFERS(...) \
    (const void *[]) { __VA_ARGS__ }
#define IMPORT(schema, array) hv_arrow_import(&session, schema, array, &column, &error)
#define EXPORT(from) hv_arrow_export(&session, from, "x", &out_schema, &out_array, &error)

/* The release callbacks of structs that are the test's own. */
static void release_schema(struct ArrowSchema *it) { it->release = NULL; }
static void release_array(struct ArrowArray *it) { it->release = NULL; }

static struct ArrowArray array_of(int64_t rows, int64_t offset, int64_t count, const void **buffers) {
    return (struct ArrowArray){.length = rows,
                               .null_count = -1,
                               .offset = offset,
                               .n_buffers = count,
                               .buffers = buffers,
                               .release = release_array};
}

/* What the column exports comes in again with the same rows. */
static void check_round_trip(const char *format, const char *rows) {
    CHECK_ROWS(&column, rows);
    CHECK(!EXPORT(&column));
    CHECK(strcmp(out_schema.format, format) == 0 && strcmp(out_schema.name, "x") == 0);
    CHECK(out_array.length == (int64_t)hv_length(&column));
    CHECK(!hv_arrow_import(&session, &out_schema, &out_array, &again, &error));
    CHECK_ROWS(&again, rows);
    hv_arrow_release(&out_schema, &out_array);
    CHECK(!out_schema.release && !out_array.release);
}

/* 7 7 null null null 8 in runs, over values that have an offset of their own, shown from row 1 on, four rows */
static const int64_t run_items[4] = {-9, 7, 0, 8};
static const uint8_t run_bits[1] = {0x0b};
static int32_t run_ends[3] = {2, 5, 6};
static struct ArrowSchema ends_schema = {.release = release_schema, .format = "i"},
                          values_schema = {.release = release_schema, .format = "l", .flags = ARROW_FLAG_NULLABLE};
static struct ArrowSchema *run_schemas[2] = {&ends_schema, &values_schema};
static struct ArrowSchema runs_schema = {
    .release = release_schema, .format = "+r", .n_children = 2, .children = run_schemas};
static struct ArrowArray ends_array, values_array, *run_arrays[2] = {&ends_array, &values_array}, runs_array;

static void make_runs(void) {
    static const void *ends_buffers[2], *values_buffers[2];
    ends_buffers[1] = run_ends, values_buffers[0] = run_bits, values_buffers[1] = run_items;
    ends_array = array_of(3, 0, 2, ends_buffers);
    values_array = array_of(3, 1, 2, values_buffers);
    runs_array = (struct ArrowArray){
        .release = release_array, .length = 4, .offset = 1, .n_children = 2, .children = run_arrays};
}

static void check_run_ends_of_each_width(void) {
    const int16_t narrow[3] = {2, 5, 6};
    const int64_t wide[4] = {99, 2, 5, 6};
    const char *const formats[3] = {"s", "i", "l"};
    const void *const ends[3] = {narrow, run_ends, wide};
    for (int width = 0; width < 3; width++) {
        struct ArrowSchema schema = {.release = release_schema, .format = formats[width]};
        struct ArrowArray array = array_of(3, width == 2, 2, BUFFERS(NULL, ends[width]));
        run_schemas[0] = &schema, run_arrays[0] = &array;
        CHECK(!IMPORT(&runs_schema, &runs_array));
        CHECK(hv_form(&column) == FORM_RUNS && hv_offset(&column) == 1);
        check_round_trip("+r", "7 null null null");
        CHECK(!EXPORT(&column));
        CHECK(out_array.offset == 0 && out_array.null_count == 0 && out_array.n_buffers == 0 &&
              out_array.n_children == 2);
        CHECK(strcmp(out_schema.children[0]->format, "s") == 0); /* ends 1 and 4, counted from row 1 */
        CHECK(strcmp(out_schema.children[0]->name, "run_ends") == 0 &&
              strcmp(out_schema.children[1]->name, "values") == 0);
        CHECK(!(out_schema.children[0]->flags & ARROW_FLAG_NULLABLE) && out_array.children[0]->length == 2);
        CHECK(((const int16_t *)out_array.children[0]->buffers[1])[0] == 1);
        CHECK(((const int16_t *)out_array.children[0]->buffers[1])[1] == 4 && out_array.children[1]->null_count == 1);
        hv_arrow_release(&out_schema, &out_array);
    }
    run_schemas[0] = &ends_schema, run_arrays[0] = &ends_array;
}

/* Ends here may begin with 0, a run of no rows, and in Arrow they may not: it is left out. */
static void check_first_run_of_no_rows(void) {
    const uint8_t items[3] = {0, 1, 4};
    const int16_t values_of_runs[3] = {9, 5, 6};
    hv_column ends = HV_EMPTY, values = HV_EMPTY;
    CHECK(!hv_u8(items, 3, NOT_NULLABLE, &ends, &error) && !hv_i16(values_of_runs, 3, NOT_NULLABLE, &values, &error));
    CHECK(!hv_runs(&ends, &values, 0, 4, &column, &error));
    CHECK(!EXPORT(&column));
    CHECK(out_array.children[0]->length == 2 && out_array.children[1]->length == 2);
    CHECK(((const int16_t *)out_array.children[0]->buffers[1])[0] == 1);
    hv_arrow_release(&out_schema, &out_array);
    check_round_trip("+r", "5 6 6 6");
    hv_free(&ends);
    hv_free(&values);
}

/* The number of rows decides the width, 2^15 - 1 and 2^31 - 1 are the greatest of int16 and int32; how far into its
 * runs the window lies does not. */
static void check_width_of_ends(void) {
    const uint64_t rows[6] = {255, INT16_MAX, INT16_MAX + 1, INT32_MAX, (uint64_t)INT32_MAX + 1, INT64_MAX};
    const char *const formats[6] = {"s", "s", "i", "i", "l", "l"};
    const int8_t two[2] = {1, 2};
    hv_column ends = HV_EMPTY, values = HV_EMPTY;
    CHECK(!hv_i8(two, 2, NOT_NULLABLE, &values, &error));
    for (size_t i = 0; i < COUNT(rows); i++) {
        const uint64_t items[2] = {2, rows[i]};
        CHECK(!hv_u64(items, 2, NOT_NULLABLE, &ends, &error));
        CHECK(!hv_runs(&ends, &values, 0, rows[i], &column, &error));
        CHECK(!EXPORT(&column) && strcmp(out_schema.children[0]->format, formats[i]) == 0);
        CHECK(!hv_arrow_import(&session, &out_schema, &out_array, &again, &error));
        CHECK(hv_length(&again) == rows[i]);
        CHECK(!hv_slice(&session, &again, 1, 4, &column, &error));
        CHECK_ROWS(&column, "1 2 2");
        hv_arrow_release(&out_schema, &out_array);
        CHECK(!hv_runs(&ends, &values, 1, 3, &column, &error) && !EXPORT(&column));
        const int16_t *shown = (const int16_t *)out_array.children[0]->buffers[1];
        CHECK(strcmp(out_schema.children[0]->format, "s") == 0 && shown[0] == 1 && shown[1] == 3);
        hv_arrow_release(&out_schema, &out_array);
    }
    const uint64_t past[2] = {(uint64_t)INT64_MAX + 1, (uint64_t)INT64_MAX + 3};
    CHECK(!hv_u64(past, 2, NOT_NULLABLE, &ends, &error));
    CHECK(!hv_runs(&ends, &values, INT64_MAX, 3, &column, &error));
    check_round_trip("+r", "1 2 2");
    CHECK(!hv_runs(&ends, &values, 0, (uint64_t)INT64_MAX + 1, &column, &error));
    CHECK_REFUSED(EXPORT(&column), HV_UNSUPPORTED, 0, 0, 0); /* no array has that number of rows */
    CHECK(!out_schema.release && !out_array.release);
    hv_free(&ends);
    hv_free(&values);
}

static void check_runs_refused(void) {
    CHECK(!IMPORT(&runs_schema, &runs_array));
    run_ends[1] = -5;
    CHECK_REFUSED(IMPORT(&runs_schema, &runs_array), HV_ENDS_NOT_STRICT, 1, 0, 0);
    run_ends[1] = 2;
    CHECK_REFUSED(IMPORT(&runs_schema, &runs_array), HV_ENDS_NOT_STRICT, 1, 0, 0);
    run_ends[1] = 5, runs_array.length = 6;
    CHECK_REFUSED(IMPORT(&runs_schema, &runs_array), HV_LAST_END_BELOW_WINDOW, 6, 7, 0);
    ends_schema.format = "I";
    CHECK(IMPORT(&runs_schema, &runs_array) == HV_ENDS_NOT_UNSIGNED);
    ends_schema.format = "i", runs_schema.n_children = 1;
    CHECK(IMPORT(&runs_schema, &runs_array) == HV_ARROW_INVALID);
    runs_schema.n_children = 2, runs_array.offset = -1;
    CHECK(IMPORT(&runs_schema, &runs_array) == HV_ARROW_INVALID);
    runs_array.offset = 1, runs_array.length = 4, values_array.length = 2;
    CHECK(IMPORT(&runs_schema, &runs_array) == HV_ARROW_INVALID); /* a run without a value */
    values_array.length = 3;
    CHECK_ROWS(&column, "7 null null null");
}

/* runs whose values are runs: 7 7 7 null, as runs of 3 and 1 rows over 7 7 null in runs */
static void check_runs_in_runs(void) {
    const int16_t outer[3] = {1, 3, 4};
    struct ArrowSchema schema = {.release = release_schema, .format = "s"}, *schemas[2] = {&schema, &runs_schema};
    struct ArrowSchema nested_schema = {
        .release = release_schema, .format = "+r", .n_children = 2, .children = schemas};
    struct ArrowArray array = array_of(3, 0, 2, BUFFERS(NULL, outer)), inner = runs_array,
                      *arrays[2] = {&array, &inner};
    struct ArrowArray nested = {.release = release_array, .length = 4, .n_children = 2, .children = arrays};
    inner.offset = 0, inner.length = 3;
    CHECK(!IMPORT(&nested_schema, &nested));
    check_round_trip("+r", "7 7 7 null");
}

/* A dictionary of texts, codes with an offset and a null, under which there is a code of no text. */
static void check_dictionary(void) {
    int8_t codes[5] = {7, 1, 0, 9, 1};
    const uint8_t bits[1] = {0x17};
    const int32_t offsets[4] = {0, 1, 2, 6};
    struct ArrowSchema texts_schema = {.release = release_schema, .format = "u"};
    struct ArrowSchema schema = {
        .release = release_schema, .format = "c", .flags = ARROW_FLAG_NULLABLE, .dictionary = &texts_schema};
    struct ArrowArray texts = array_of(3, 0, 3, BUFFERS(NULL, offsets, "abcdef")),
                      array = array_of(4, 1, 2, BUFFERS(bits, codes));
    array.dictionary = &texts;
    CHECK(!IMPORT(&schema, &array));
    check_round_trip("u", "\"b\" \"a\" null \"b\"");
    codes[2] = 3;
    CHECK_REFUSED(IMPORT(&schema, &array), HV_OUT_OF_BOUNDS, 3, 3, 0);
    codes[2] = -1;
    CHECK_REFUSED(IMPORT(&schema, &array), HV_OUT_OF_BOUNDS, UINT64_MAX, 3, 0);
    codes[2] = 0, array.dictionary = NULL;
    CHECK(IMPORT(&schema, &array) == HV_ARROW_INVALID);
    array.dictionary = &texts;
    /* runs of a dictionary: b a a a */
    const int32_t two_ends[2] = {1, 4};
    struct ArrowSchema two_schema = {.release = release_schema, .format = "i"}, *schemas[2] = {&two_schema, &schema};
    struct ArrowSchema nested_schema = {
        .release = release_schema, .format = "+r", .n_children = 2, .children = schemas};
    struct ArrowArray two = array_of(2, 0, 2, BUFFERS(NULL, two_ends)), *arrays[2] = {&two, &array};
    struct ArrowArray nested = {.release = release_array, .length = 4, .n_children = 2, .children = arrays};
    CHECK(!IMPORT(&nested_schema, &nested));
    check_round_trip("+r", "\"b\" \"a\" \"a\" \"a\"");
}

static void check_dictionary_out(void) {
    const uint8_t codes[3] = {1, 0, 1}, bits[1] = {0x05};
    const int64_t offsets[3] = {0, 2, 3};
    hv_column places = HV_EMPTY, texts = HV_EMPTY;
    CHECK(!hv_u8(codes, 3, NULLS_BY(bits, 0), &places, &error));
    CHECK(!hv_large_texts(0, offsets, 3, (const uint8_t *)"onx", 3, NOT_NULLABLE, &texts, &error));
    CHECK(!hv_arrow_export_dictionary(&session, &places, &texts, "x", &out_schema, &out_array, &error));
    CHECK(strcmp(out_schema.format, "C") == 0 && strcmp(out_schema.dictionary->format, "u") == 0);
    CHECK(out_array.null_count == 1 && out_array.dictionary->length == 2);
    CHECK(!IMPORT(&out_schema, &out_array));
    CHECK_ROWS(&column, "\"x\" null \"x\"");
    hv_arrow_release(&out_schema, &out_array);
    CHECK(hv_arrow_export_dictionary(&session, &texts, &texts, "x", &out_schema, &out_array, &error) ==
          HV_TYPE_MISMATCH);
    hv_free(&texts);
    CHECK(hv_arrow_export_dictionary(&session, &places, &texts, "x", &out_schema, &out_array, &error) == HV_NO_COLUMN);
    CHECK(!out_schema.release && !out_array.release);
    hv_free(&places);
}

static void check_flat_forms(void) {
    const uint8_t truths[2] = {0xa5, 0x01}, bits[1] = {0x02};
    const hv_pair pairs[2] = {{5, 0}, {UINT64_MAX, -1}};
    const int64_t wide_offsets[4] = {0, 1, 1, 3};
    const int32_t days[2] = {0, 19000};
    struct ArrowSchema schema = {.release = release_schema, .format = "b"};
    struct ArrowArray array = array_of(6, 3, 2, BUFFERS(NULL, truths));
    CHECK(!IMPORT(&schema, &array));
    check_round_trip("b", "false false true false true true"); /* bits 3 to 8 */
    schema.format = "d:10,2";
    array = array_of(2, 0, 2, BUFFERS(NULL, pairs));
    CHECK(!IMPORT(&schema, &array));
    check_round_trip("d:10,2", "0:5 -1:18446744073709551615");
    schema.format = "Z", schema.flags = ARROW_FLAG_NULLABLE;
    array = array_of(2, 1, 3, BUFFERS(bits, wide_offsets, "abc"));
    CHECK(!IMPORT(&schema, &array)); /* row 1 is "", and valid; row 2 is null */
    check_round_trip("z", "<> null");
    schema.format = "tdD", array = array_of(2, 0, 2, BUFFERS(NULL, days));
    CHECK(!IMPORT(&schema, &array) && hv_kind_of(&column).number == HV_I32 && hv_kind_of(&column).nullable == 1);
    check_round_trip("i", "0 19000");
    schema.format = "u", array = array_of(0, 0, 3, BUFFERS(NULL, NULL, NULL));
    CHECK(!IMPORT(&schema, &array) && hv_length(&column) == 0);
    check_round_trip("u", "");
}

/* A constant goes out as one run, and so do no rows: a stream of encoded columns has one schema. */
static void check_constants(void) {
    const int64_t items[4] = {5, 5, 5, 6};
    const uint8_t none[1] = {0x00};
    hv_column flat = HV_EMPTY, runs = HV_EMPTY;
    CHECK(!hv_i64(items, 4, NULLS_BY(none, 0), &flat, &error) && !hv_encode(&session, &flat, &runs, &error));
    CHECK(!hv_slice(&session, &runs, 1, 3, &column, &error) && hv_form(&column) == FORM_CONSTANT);
    check_round_trip("+r", "null null");
    CHECK(!hv_i64(items, 4, NOT_NULLABLE, &flat, &error) && !hv_encode(&session, &flat, &runs, &error));
    CHECK(!hv_slice(&session, &runs, 0, 2, &column, &error));
    check_round_trip("+r", "5 5");
    CHECK(!hv_slice(&session, &runs, 4, 4, &column, &error));
    check_round_trip("+r", "");
    hv_free(&flat);
    hv_free(&runs);
}

/* Column 1 of a batch of two columns, of which the batch shows rows 1 to 2. */
static void check_batch(void) {
    const int16_t first[3] = {1, 2, 3}, second[4] = {9, 4, 5, 6};
    struct ArrowSchema schema = {.release = release_schema, .format = "s"}, *schemas[2] = {&schema, &schema};
    struct ArrowSchema batch_schema = {.release = release_schema, .format = "+s", .n_children = 2, .children = schemas};
    struct ArrowArray a = array_of(3, 0, 2, BUFFERS(NULL, first)), b = array_of(3, 1, 2, BUFFERS(NULL, second));
    struct ArrowArray *arrays[2] = {&a, &b};
    struct ArrowArray batch = {.release = release_array,
                               .length = 2,
                               .offset = 1,
                               .n_buffers = 1,
                               .buffers = BUFFERS(NULL),
                               .n_children = 2,
                               .children = arrays};
    CHECK(!hv_arrow_import_child(&session, &batch_schema, &batch, 1, &column, &error));
    CHECK_ROWS(&column, "5 6");
    CHECK(hv_arrow_import_child(&session, &batch_schema, &batch, 2, &column, &error) == HV_ARROW_INVALID);
    batch.length = 3;
    CHECK(hv_arrow_import_child(&session, &batch_schema, &batch, 1, &column, &error) == HV_ARROW_INVALID);
    CHECK(IMPORT(&batch_schema, &batch) == HV_UNSUPPORTED);
    CHECK_ROWS(&column, "5 6");
}

static void check_invalid_arrays(void) {
    const char *const formats[] = {"g", "e", "+m", "n", "d:10,2,256", "d:39,2", "+w:4", "+vl", ""};
    const uint64_t items[4] = {0};
    const int32_t falling[3] = {0, 2, -1};
    struct ArrowSchema schema = {.release = release_schema, .format = "l"};
    struct ArrowArray array = array_of(2, 0, 2, BUFFERS(NULL, items));
    for (size_t i = 0; i < COUNT(formats); i++) {
        schema.format = formats[i];
        CHECK(IMPORT(&schema, &array) == HV_UNSUPPORTED);
    }
    schema.format = "l", array = array_of(2, 0, 2, BUFFERS(NULL, NULL));
    CHECK(IMPORT(&schema, &array) == HV_ARROW_INVALID);
    array = array_of(2, INT64_MAX, 2, BUFFERS(NULL, items));
    CHECK(IMPORT(&schema, &array) == HV_ARROW_INVALID);
    schema.format = "u", array = array_of(2, 0, 3, BUFFERS(NULL, falling, "ab"));
    CHECK_REFUSED(IMPORT(&schema, &array), HV_ENDS_NOT_STRICT, 1, 0, HV_ABOUT_TEXTS);
    CHECK(hv_arrow_import(&session, NULL, &array, &column, &error) == HV_ARROW_INVALID);
    hv_free(&column);
    CHECK(EXPORT(&column) == HV_NO_COLUMN);
    CHECK(!out_schema.release && !out_array.release);
}

/* A child that is moved out lives on when its parent is released, and is released once. */
static void check_moved_child(void) {
    CHECK(!IMPORT(&runs_schema, &runs_array) && !EXPORT(&column));
    struct ArrowArray moved = *out_array.children[1];
    struct ArrowSchema moved_schema = *out_schema.children[1];
    out_array.children[1]->release = NULL;
    out_schema.children[1]->release = NULL;
    hv_arrow_release(&out_schema, &out_array);
    CHECK(!hv_arrow_import(&session, &moved_schema, &moved, &again, &error));
    CHECK_ROWS(&again, "7 null");
    hv_arrow_release(&moved_schema, &moved);
    CHECK(!moved.release && !moved_schema.release);
}

/* Columns one after the other: runs and constants as runs, with a flat one among them flat. */
static void check_concat(void) {
    const int16_t items[3] = {4, 4, 9};
    const uint8_t bits[1] = {0x05}, truths[1] = {0x05};
    hv_column parts[3] = {HV_EMPTY, HV_EMPTY, HV_EMPTY};
    CHECK(!hv_i16(items, 3, NOT_NULLABLE, &column, &error) && !hv_encode(&session, &column, &parts[0], &error));
    CHECK(!hv_slice(&session, &parts[0], 0, 2, &parts[1], &error)); /* a constant */
    CHECK(!hv_i16(items, 3, NULLS_BY(bits, 0), &column, &error) && !hv_encode(&session, &column, &parts[2], &error));
    CHECK(!hv_arrow_concat(&session, parts, 3, &column, &error) && hv_form(&column) == FORM_RUNS);
    CHECK_ROWS(&column, "4 4 9 4 4 4 null 9");
    CHECK(!hv_arrow_concat(&session, parts, 2, &column, &error) && hv_kind_of(&column).nullable == 0);
    CHECK_ROWS(&column, "4 4 9 4 4");
    hv_column windows[2] = {HV_EMPTY, HV_EMPTY}; /* 4 9 9 of runs that end before rows 2 and 8 */
    const uint8_t far_ends[2] = {2, 8};
    CHECK(!hv_u8(far_ends, 2, NOT_NULLABLE, &windows[0], &error) && !hv_values(&parts[0], &windows[1], &error));
    CHECK(!hv_runs(&windows[0], &windows[1], 1, 3, &column, &error));
    CHECK(!hv_clone(&column, &windows[0], &error) && !hv_clone(&column, &windows[1], &error));
    CHECK(!hv_arrow_concat(&session, windows, 2, &column, &error) && hv_form(&column) == FORM_RUNS);
    CHECK_ROWS(&column, "4 9 9 4 9 9");
    hv_free(&windows[0]);
    hv_free(&windows[1]);
    CHECK(!hv_decode(&session, &parts[2], &column, &error));
    hv_free(&parts[2]);
    parts[2] = column, column.at = NULL;
    CHECK(!hv_arrow_concat(&session, parts, 3, &column, &error) && hv_form(&column) == FORM_FLAT);
    CHECK_ROWS(&column, "4 4 9 4 4 4 null 9");
    CHECK(!hv_bools(truths, 1, 0, 3, NOT_NULLABLE, &parts[1], &error));
    CHECK_REFUSED(hv_arrow_concat(&session, parts, 3, &column, &error), HV_TYPE_MISMATCH, 0, 0, 0);
    CHECK_REFUSED(hv_arrow_concat(&session, parts, 0, &column, &error), HV_UNSUPPORTED, 0, 0, 0);
    hv_free(&parts[1]);
    CHECK(hv_arrow_concat(&session, parts, 3, &column, &error) == HV_NO_COLUMN);
    CHECK_ROWS(&column, "4 4 9 4 4 4 null 9");
    hv_free(&parts[0]);
    hv_free(&parts[2]);
}

int main(void) {
    hv_session_initial(&session);
    make_runs();
    check_run_ends_of_each_width();
    check_first_run_of_no_rows();
    check_width_of_ends();
    check_runs_refused();
    check_runs_in_runs();
    check_dictionary();
    check_dictionary_out();
    check_flat_forms();
    check_constants();
    check_batch();
    check_moved_child();
    check_invalid_arrays();
    check_concat();
    hv_free(&column);
    hv_free(&again);
    puts("arrays of each form come in, and go out and in again");
    return 0;
}
