/* Encodings of columns of any kind and form, and builders: batches in any form, values with a count, seams, refusals. The
 * rows and ends that are due are written here by hand. */
#include "check.h"
#include "hivevigil_helpers.h"

static hv_session session;
static hv_error error;
static hv_column out = HV_EMPTY, ends = HV_EMPTY;

static const hv_kind i32_or_null = {HV_I32, 1, 0, 0}, i32 = {HV_I32, 0, 0, 0};

/* the rows of an encoding, where its runs end, and their values; flat and as narrow as can be */
static void check_encoding(hv_column *column, const char *rows, const char *stops, const char *values) {
    hv_column part = HV_EMPTY;
    CHECK(hv_form(column) == HV_FORM_RUNS && hv_offset(column) == 0);
    CHECK_ROWS(column, rows);
    CHECK(!hv_ends(column, &part, &error) && hv_form(&part) == HV_FORM_FLAT && hv_kind_of(&part).number == HV_U8);
    CHECK_ROWS(&part, stops);
    CHECK(!hv_values(column, &part, &error) && hv_form(&part) == HV_FORM_FLAT);
    CHECK_ROWS(&part, values);
    hv_free(&part);
}

/* ---- hv_encode_rows ---- */

static void kinds(void) {
    const uint8_t truths[1] = {0x3B}, letters[7] = {'a', 'b', 'a', 'b', 'c', 'a', 'b'};
    const int32_t cuts[6] = {0, 2, 4, 4, 5, 7};
    const hv_pair pairs[3] = {{5, 0}, {5, 0}, {UINT64_MAX, -1}};
    const uint8_t valid[1] = {0x07};
    hv_column column = HV_EMPTY;
    CHECK(!hv_bools(truths, 1, 0, 6, NOT_NULLABLE, &column, &error) && !hv_encode_rows(&column, &out, &error));
    check_encoding(&out, "true true false true true true", "2 3 6", "true false true");
    CHECK_ROWS(&column, "true true false true true true");
    CHECK(!hv_texts(0, cuts, 6, letters, 7, NOT_NULLABLE, &column, &error) && !hv_encode_rows(&column, &out, &error));
    check_encoding(&out, "\"ab\" \"ab\" \"\" \"c\" \"ab\"", "2 3 4 5", "\"ab\" \"\" \"c\" \"ab\"");
    CHECK(!hv_texts(1, cuts, 6, letters, 7, NULLS_BY(valid, 0), &column, &error) && !hv_encode_rows(&column, &out, &error));
    check_encoding(&out, "<6162> <6162> <> null null", "2 3 5", "<6162> <> null");
    CHECK(!hv_decimals(pairs, 3, 5, 2, NO_NULLS, &column, &error) && !hv_encode_rows(&column, &out, &error));
    check_encoding(&out, "0:5 0:5 -1:18446744073709551615", "2 3", "0:5 -1:18446744073709551615");
    hv_free(&column);
}

/* runs of which neighbours are equal, seen through a window; a constant of many rows; no rows; lists */
static void forms(void) {
    const uint8_t stops[4] = {2, 3, 5, 9};
    const int64_t of_runs[4] = {7, 4, 4, 9}, number = -1;
    const hv_value value = {.kind = HV_SIGNED, .as_signed = 3};
    const uint64_t none[1] = {0};
    hv_column values = HV_EMPTY, column = HV_EMPTY;
    CHECK(!hv_u8(stops, 4, NOT_NULLABLE, &ends, &error) && !hv_i64(of_runs, 4, NOT_NULLABLE, &values, &error));
    CHECK(!hv_runs(&ends, &values, 2, 4, &column, &error) && !hv_encode_rows(&column, &out, &error));
    check_encoding(&out, "4 4 4 9", "3 4", "4 9");
    CHECK(!hv_constant(&i32, &value, NO_TEXT, UINT64_C(1) << 60, &column, &error) && !hv_encode_rows(&column, &out, &error));
    size_t runs = 0;
    CHECK(hv_length(&out) == UINT64_C(1) << 60 && !hv_run_count(&out, &runs, &error) && runs == 1);
    CHECK(!hv_i64(&number, 0, NOT_NULLABLE, &column, &error) && !hv_encode_rows(&column, &out, &error));
    check_encoding(&out, "", "", "");
    CHECK(!hv_lists(&values, none, 0, none, 0, NOT_NULLABLE, &column, &error));
    CHECK_REFUSED(hv_encode_rows(&column, &out, &error), HV_UNSUPPORTED, 0, 0, 0);
    check_encoding(&out, "", "", "");
    hv_free(&column);
    CHECK(hv_encode_rows(&column, &out, &error) == HV_NO_COLUMN);
    hv_free(&values);
}

/* ---- Builders ---- */

static void put_value(hv_builder *builder, hv_value value, size_t count) {
    CHECK(!hv_append_value(builder, &value, NO_TEXT, count, &error));
}

/* 7 7 null 3 flat; 3 4 out of runs with others hidden; 4 three times; nothing; null twice as a constant; null 7 flat */
static void batches(void) {
    const int32_t first[4] = {7, 7, 9, 3}, of_runs[4] = {7, 3, 4, 9}, last[2] = {5, 7};
    const uint8_t but_two[1] = {0x0B}, but_zero[1] = {0x02}, stops[4] = {2, 3, 4, 8};
    const hv_value null = {.kind = HV_NULL}, four = {.kind = HV_SIGNED, .as_signed = 4};
    const char *const rows = "7 7 null 3 3 4 4 4 4 null null null 7";
    hv_builder builder = HV_EMPTY;
    hv_column column = HV_EMPTY, values = HV_EMPTY;
    CHECK(!hv_builder_new(&i32_or_null, &builder, &error));
    CHECK(hv_builder_rows(&builder) == 0 && hv_builder_runs(&builder) == 0);
    CHECK(!hv_encoding(&builder, &out, &error));
    check_encoding(&out, "", "", "");
    CHECK(!hv_i32(first, 4, NULLS_BY(but_two, 0), &column, &error) && !hv_append(&builder, &column, &error));
    CHECK_ROWS(&column, "7 7 null 3");
    CHECK(hv_builder_rows(&builder) == 4 && hv_builder_runs(&builder) == 3);
    CHECK(!hv_u8(stops, 4, NOT_NULLABLE, &ends, &error) && !hv_i32(of_runs, 4, NO_NULLS, &values, &error));
    CHECK(!hv_runs(&ends, &values, 2, 2, &column, &error) && !hv_append(&builder, &column, &error));
    put_value(&builder, four, 3);
    put_value(&builder, null, 0);
    CHECK(hv_builder_rows(&builder) == 9 && hv_builder_runs(&builder) == 4);
    CHECK(!hv_i32(first, 0, NO_NULLS, &column, &error) && !hv_append(&builder, &column, &error));
    CHECK(!hv_constant(&i32_or_null, &null, NO_TEXT, 2, &column, &error) && !hv_append(&builder, &column, &error));
    CHECK(!hv_i32(last, 2, NULLS_BY(but_zero, 0), &column, &error) && !hv_append(&builder, &column, &error));
    CHECK(!hv_encoding(&builder, &out, &error));
    check_encoding(&out, rows, "2 3 5 9 12 13", "7 null 3 4 null 7");
    put_value(&builder, null, 1); /* the rows are kept, and go on */
    CHECK(!hv_encoding(&builder, &out, &error));
    check_encoding(&out, "7 7 null 3 3 4 4 4 4 null null null 7 null", "2 3 5 9 12 13 14", "7 null 3 4 null 7 null");
    hv_builder_free(&builder), hv_free(&column), hv_free(&values);
    CHECK(!builder.at && hv_builder_rows(&builder) == 0 && hv_builder_runs(&builder) == 0);
}

/* a builder that is finished begins anew: the run of its last rows does not go on */
static void finished(void) {
    const int32_t first[3] = {7, 7, 9}, last[3] = {9, 4, 4};
    const uint8_t but_two[1] = {0x03}, but_zero[1] = {0x06};
    const hv_value null = {.kind = HV_NULL};
    hv_builder builder = HV_EMPTY;
    hv_column column = HV_EMPTY, kept = HV_EMPTY;
    CHECK(!hv_builder_new(&i32_or_null, &builder, &error) && !hv_finish(&builder, &out, &error));
    check_encoding(&out, "", "", "");
    CHECK(!hv_i32(first, 3, NULLS_BY(but_two, 0), &column, &error) && !hv_append(&builder, &column, &error));
    CHECK(!hv_encoding(&builder, &kept, &error) && hv_builder_rows(&builder) == 3 && hv_builder_runs(&builder) == 2);
    CHECK(!hv_finish(&builder, &out, &error) && hv_builder_rows(&builder) == 0 && hv_builder_runs(&builder) == 0);
    check_encoding(&out, "7 7 null", "2 3", "7 null");
    check_encoding(&kept, "7 7 null", "2 3", "7 null");
    CHECK(!hv_finish(&builder, &kept, &error)); /* of no rows again */
    check_encoding(&kept, "", "", "");
    put_value(&builder, null, 2);
    CHECK(!hv_i32(last, 3, NULLS_BY(but_zero, 0), &column, &error) && !hv_append(&builder, &column, &error));
    CHECK(hv_builder_rows(&builder) == 5 && hv_builder_runs(&builder) == 2);
    CHECK(!hv_finish(&builder, &kept, &error) && hv_builder_rows(&builder) == 0);
    check_encoding(&kept, "null null null 4 4", "3 5", "null 4");
    check_encoding(&out, "7 7 null", "2 3", "7 null"); /* the first column is its own */
    put_value(&builder, null, 1);
    hv_builder_free(&builder);
    check_encoding(&kept, "null null null 4 4", "3 5", "null 4");
    hv_free(&column), hv_free(&kept);
}

/* what hv_finish makes has the bytes of what hv_encoding made before, twice in turn */
static void finish_as_encoding(const hv_column *batch) {
    const hv_kind kind = hv_kind_of(batch);
    uint8_t due[256], found[256];
    size_t due_size = 0, size = 0;
    hv_builder builder = HV_EMPTY;
    CHECK(!hv_builder_new(&kind, &builder, &error));
    for (int turn = 0; turn < 2; turn++) {
        CHECK(!hv_append(&builder, batch, &error) && !hv_append(&builder, batch, &error));
        CHECK(!hv_encoding(&builder, &out, &error) && !hv_write(&out, due, sizeof due, &due_size, &error));
        CHECK(hv_length(&out) == 2 * hv_length(batch) && hv_builder_rows(&builder) == hv_length(&out));
        CHECK(!hv_finish(&builder, &out, &error) && !hv_write(&out, found, sizeof found, &size, &error));
        CHECK(size == due_size && memcmp(found, due, size) == 0);
        CHECK(hv_builder_rows(&builder) == 0 && hv_builder_runs(&builder) == 0);
    }
    hv_builder_free(&builder);
}

/* of each kind, without null, with none and with some */
static void finished_kinds(void) {
    static const uint8_t bits[1] = {0x0B}, small[4] = {3, 3, 250, 7};
    static const uint16_t medium[4] = {3, 3, 65530, 7};
    static const uint32_t large[4] = {3, 3, UINT32_MAX, 7};
    static const uint64_t largest[4] = {3, 3, UINT64_MAX, 7};
    static const hv_pair pairs[4] = {{3, 0}, {3, 0}, {UINT64_MAX, -1}, {7, 0}};
    static const int32_t cuts[5] = {0, 3, 6, 6, 22};
    static const uint8_t letters[] = "oakoakhornbeam and elm";
    hv_column column = HV_EMPTY;
    const hv_validity validities[3] = {NOT_NULLABLE, NO_NULLS, NULLS_BY(bits, 0)};
    for (size_t i = 0; i < COUNT(validities); i++) {
        const hv_validity validity = validities[i];
#define FINISHED(make) (CHECK(!make), finish_as_encoding(&column))
        FINISHED(hv_u8(small, 4, validity, &column, &error));
        FINISHED(hv_u16(medium, 4, validity, &column, &error));
        FINISHED(hv_u32(large, 4, validity, &column, &error));
        FINISHED(hv_u64(largest, 4, validity, &column, &error));
        FINISHED(hv_i8((const int8_t *)small, 4, validity, &column, &error));
        FINISHED(hv_i16((const int16_t *)medium, 4, validity, &column, &error));
        FINISHED(hv_i32((const int32_t *)large, 4, validity, &column, &error));
        FINISHED(hv_i64((const int64_t *)largest, 4, validity, &column, &error));
        FINISHED(hv_bools(bits, sizeof bits, 0, 4, validity, &column, &error));
        FINISHED(hv_decimals(pairs, 4, 5, 2, validity, &column, &error));
        FINISHED(hv_texts(0, cuts, 5, letters, 22, validity, &column, &error));
        FINISHED(hv_texts(1, cuts, 5, letters, 22, validity, &column, &error));
#undef FINISHED
    }
    hv_free(&column);
}

static void texts(void) {
    const hv_kind kind = {HV_UTF8, 0, 0, 0};
    const hv_value passed = {.kind = HV_TEXT}, null = {.kind = HV_NULL};
    const uint8_t letters[6] = {'o', 'a', 'k', 'e', 'l', 'm'}, wrong[1] = {0xFF};
    const int32_t cuts[4] = {0, 3, 6, 6};
    hv_builder builder = HV_EMPTY;
    hv_column column = HV_EMPTY;
    CHECK(!hv_builder_new(&kind, &builder, &error));
    CHECK(!hv_append_value(&builder, &passed, letters, 3, 2, &error));
    CHECK(!hv_texts(0, cuts, 4, letters, 6, NOT_NULLABLE, &column, &error) && !hv_append(&builder, &column, &error));
    CHECK(!hv_append_value(&builder, &passed, letters, 0, 1, &error));
    CHECK(!hv_encoding(&builder, &out, &error));
    check_encoding(&out, "\"oak\" \"oak\" \"oak\" \"elm\" \"\" \"\"", "3 4 6", "\"oak\" \"elm\" \"\"");
    CHECK_REFUSED(hv_append_value(&builder, &passed, wrong, 1, 1, &error), HV_TYPE_MISMATCH, 0, 0, 0);
    CHECK_REFUSED(hv_append_value(&builder, &null, NO_TEXT, 1, &error), HV_NULL_NOT_ALLOWED, 0, 0, 0);
    CHECK(hv_builder_rows(&builder) == 6 && hv_builder_runs(&builder) == 3);
    hv_builder_free(&builder), hv_free(&column);
}

/* the builder is as it was where a call is refused */
static void refusals(void) {
    const hv_kind lists = {HV_LIST, 0, 0, 0}, of_no_type = {99, 0, 0, 0};
    const hv_value five = {.kind = HV_SIGNED, .as_signed = 5}, six = {.kind = HV_SIGNED, .as_signed = 6};
    const hv_value wide = {.kind = HV_SIGNED, .as_signed = INT64_C(1) << 40};
    const int32_t rows[2] = {5, 6};
    hv_builder builder = HV_EMPTY, none = HV_EMPTY;
    hv_column column = HV_EMPTY, empty = HV_EMPTY;
    CHECK(hv_builder_new(&lists, &builder, &error) == HV_BAD_NUMBER && !builder.at);
    CHECK(hv_builder_new(&of_no_type, &builder, &error) == HV_BAD_NUMBER && !builder.at);
    CHECK(!hv_builder_new(&i32, &builder, &error));
    CHECK(!hv_i32(rows, 2, NO_NULLS, &column, &error));
    CHECK_REFUSED(hv_append(&builder, &column, &error), HV_TYPE_MISMATCH, 0, 0, 0);
    CHECK_REFUSED(hv_append_value(&builder, &wide, NO_TEXT, 1, &error), HV_TYPE_MISMATCH, 0, 0, 0);
    CHECK(hv_append(&builder, &empty, &error) == HV_NO_COLUMN && hv_append(&none, &column, &error) == HV_NO_COLUMN);
    CHECK(hv_append_value(&none, &five, NO_TEXT, 1, &error) == HV_NO_COLUMN);
    CHECK(hv_encoding(&none, &out, &error) == HV_NO_COLUMN && hv_finish(&none, &out, &error) == HV_NO_COLUMN);
    CHECK(hv_builder_rows(&builder) == 0);
    put_value(&builder, five, 1);
    put_value(&builder, five, SIZE_MAX - 1);
    CHECK(hv_builder_rows(&builder) == SIZE_MAX && hv_builder_runs(&builder) == 1);
    CHECK_REFUSED(hv_append_value(&builder, &six, NO_TEXT, 1, &error), HV_WINDOW_OVERFLOW, 0, 0, 0);
    /* the value is looked at first, and for no row too */
    CHECK_REFUSED(hv_append_value(&builder, &wide, NO_TEXT, 1, &error), HV_TYPE_MISMATCH, 0, 0, 0);
    CHECK_REFUSED(hv_append_value(&builder, &wide, NO_TEXT, 0, &error), HV_TYPE_MISMATCH, 0, 0, 0);
    CHECK(!hv_i32(rows, 2, NOT_NULLABLE, &column, &error));
    CHECK_REFUSED(hv_append(&builder, &column, &error), HV_WINDOW_OVERFLOW, 0, 0, 0);
    CHECK(hv_builder_rows(&builder) == SIZE_MAX && hv_builder_runs(&builder) == 1);
    CHECK(!hv_builder_new(&i32, &builder, &error) && hv_builder_rows(&builder) == 0); /* the other is freed */
    CHECK(hv_append(&none, &column, NULL) == HV_NO_COLUMN && hv_encode_rows(&empty, &out, NULL) == HV_NO_COLUMN);
    hv_builder_free(&builder), hv_builder_free(&none), hv_builder_free(NULL), hv_free(&column);
}

/* columns in turn: 1 1, 1 2 and 2 2 3 */
static void concat(void) {
    const int32_t rows[7] = {1, 1, 1, 2, 2, 2, 3};
    const uint64_t none[1] = {0};
    hv_column parts[4] = {HV_EMPTY, HV_EMPTY, HV_EMPTY, HV_EMPTY};
    CHECK(!hv_i32(rows, 2, NOT_NULLABLE, parts, &error) && !hv_i32(rows + 2, 2, NOT_NULLABLE, parts + 1, &error));
    CHECK(!hv_i32(rows + 4, 3, NOT_NULLABLE, parts + 2, &error));
    CHECK(!hv_concat(parts, 3, &out, &error));
    check_encoding(&out, "1 1 1 2 2 2 3", "3 6 7", "1 2 3");
    CHECK(hv_concat(parts, 4, &out, &error) == HV_NO_COLUMN && hv_concat(parts + 3, 1, &out, &error) == HV_NO_COLUMN);
    CHECK(hv_concat(parts, 0, &out, &error) == HV_NO_COLUMN && hv_concat(NULL, 0, &out, &error) == HV_NO_COLUMN);
    CHECK_REFUSED(hv_concat(NULL, 4, &out, &error), HV_COLUMN_LENGTH, 4, 0, HV_ABOUT_NULL); /* for four columns */
    CHECK(hv_concat(NULL, SIZE_MAX, &out, NULL) == HV_COLUMN_LENGTH);
    CHECK(!hv_u8((const uint8_t *)rows, 3, NOT_NULLABLE, parts + 3, &error));
    CHECK_REFUSED(hv_concat(parts, 4, &out, &error), HV_TYPE_MISMATCH, 0, 0, 0);
    CHECK(!hv_lists(parts, none, 0, none, 0, NOT_NULLABLE, parts + 3, &error));
    CHECK_REFUSED(hv_concat(parts + 3, 1, &out, &error), HV_UNSUPPORTED, 0, 0, 0);
    check_encoding(&out, "1 1 1 2 2 2 3", "3 6 7", "1 2 3");
    for (size_t i = 0; i < COUNT(parts); i++) CHECK(parts[i].at), hv_free(parts + i);
}

int main(void) {
    hv_session_initial(&session);
    kinds();
    forms();
    batches();
    finished();
    finished_kinds();
    texts();
    refusals();
    concat();
    hv_free(&out), hv_free(&ends);
    puts("encodings of every kind, and builders over their seams");
    return 0;
}
