/* What goes out as Arrow is as it was asked for: formats of times, floats by their bits, widths of ends and offsets,
 * runs or flat, codes over a dictionary. Answers were worked out by hand. */
#include "check.h"
#include "hivevigil_arrow.h"

static hv_session session;
static hv_error error;
static hv_column column = HV_EMPTY, again = HV_EMPTY;
static struct ArrowSchema out_schema;
static struct ArrowArray out_array;

#define BUFFERS(...) \
    (const void *[]) { __VA_ARGS__ }
#define IMPORT(schema, array) hv_arrow_import(&session, schema, array, &column, &error)

static void release_schema(struct ArrowSchema *it) { it->release = NULL; }
static void release_array(struct ArrowArray *it) { it->release = NULL; }

static struct ArrowSchema schema_of(const char *format) {
    return (struct ArrowSchema){.format = format, .release = release_schema};
}

static struct ArrowArray array_of(int64_t rows, int64_t offset, int64_t count, const void **buffers) {
    return (struct ArrowArray){.length = rows,
                               .null_count = -1,
                               .offset = offset,
                               .n_buffers = count,
                               .buffers = buffers,
                               .release = release_array};
}

/* ---- Floats, as the integers of their bits ---- */

static void check_floats(void) {
    const double items[4] = {0.0, -0.0, 1.5, -2.0};
    const uint8_t bits[1] = {0x07};
    struct ArrowSchema schema = schema_of("g");
    struct ArrowArray array = array_of(4, 0, 2, BUFFERS(bits, items));
    CHECK_REFUSED(IMPORT(&schema, &array), HV_UNSUPPORTED, 0, 0, 0);
    CHECK(!hv_arrow_import_bits(&session, &schema, &array, &column, &error));
    CHECK(hv_kind_of(&column).number == HV_U64);
    CHECK_ROWS(&column, "0 9223372036854775808 4609434218613702656 null");
    CHECK(!hv_arrow_export_bits(&session, &column, "x", &out_schema, &out_array, &error));
    CHECK(strcmp(out_schema.format, "g") == 0 && out_array.null_count == 1);
    CHECK(((const double *)out_array.buffers[1])[2] == 1.5);
    hv_arrow_release(&out_schema, &out_array);
    schema.format = "f", array = array_of(1, 0, 2, BUFFERS(NULL, (const float[]){1.0f}));
    CHECK(!hv_arrow_import_bits(&session, &schema, &array, &column, &error));
    CHECK_ROWS(&column, "1065353216");
    schema.format = "e", array = array_of(1, 0, 2, BUFFERS(NULL, (const uint16_t[]){0x3c00}));
    CHECK(!hv_arrow_import_bits(&session, &schema, &array, &column, &error));
    CHECK_ROWS(&column, "15360");
    CHECK(!hv_arrow_export_bits(&session, &column, "x", &out_schema, &out_array, &error));
    CHECK(strcmp(out_schema.format, "e") == 0);
    hv_arrow_release(&out_schema, &out_array);
    schema.format = "l", array = array_of(1, 0, 2, BUFFERS(NULL, (const int64_t[]){-3}));
    CHECK(!hv_arrow_import_bits(&session, &schema, &array, &column, &error));
    CHECK_ROWS(&column, "-3"); /* what is not a float comes in as ever */
    CHECK_REFUSED(hv_arrow_export_bits(&session, &column, "x", &out_schema, &out_array, &error), HV_TYPE_MISMATCH, 0, 0,
                  0);
}

/* ---- Formats, widths and forms on the way out ---- */

static void check_formats_of_runs(void) {
    const int64_t items[5] = {7, 7, 0, 0, 8};
    const uint8_t bits[1] = {0x13};
    CHECK(!hv_i64(items, 5, NULLS_BY(bits, 0), &again, &error) && !hv_encode(&session, &again, &column, &error));
    CHECK(!hv_arrow_export_as(&session, &column, "x", "tsu:UTC", &out_schema, &out_array, &error));
    CHECK(strcmp(out_schema.format, "+r") == 0 && strcmp(out_schema.children[0]->format, "s") == 0);
    CHECK(strcmp(out_schema.children[1]->format, "tsu:UTC") == 0);
    CHECK(strcmp(hv_arrow_value_format(&out_schema), "tsu:UTC") == 0);
    CHECK(!IMPORT(&out_schema, &out_array));
    CHECK_ROWS(&column, "7 7 null null 8");
    hv_arrow_release(&out_schema, &out_array);
    CHECK(hv_arrow_value_format(NULL) == NULL);
}

/* Texts as runs are found by comparing neighbours, null equal to null. */
static void check_runs_of_texts(void) {
    const int32_t offsets[7] = {0, 1, 2, 2, 2, 3, 4};
    const uint8_t bits[1] = {0x33};
    const hv_arrow_options options = {.form = HV_ARROW_AS_RUNS, .end_bits = 64, .offset_bits = 64};
    CHECK(!hv_texts(0, offsets, 7, (const uint8_t *)"aabb", 4, NULLS_BY(bits, 0), &column, &error));
    CHECK(!hv_arrow_export_with(&session, &column, "x", &options, &out_schema, &out_array, &error));
    CHECK(strcmp(out_schema.children[0]->format, "l") == 0 && strcmp(out_schema.children[1]->format, "U") == 0);
    const int64_t *ends = (const int64_t *)out_array.children[0]->buffers[1];
    CHECK(out_array.children[0]->length == 3 && ends[0] == 2 && ends[1] == 4 && ends[2] == 6);
    CHECK(out_array.children[1]->null_count == 1);
    CHECK(!IMPORT(&out_schema, &out_array));
    CHECK_ROWS(&column, "\"a\" \"a\" null null \"b\" \"b\"");
    hv_arrow_release(&out_schema, &out_array);
}

/* A format is one of the column's type, to the last of its numbers. */
static void check_other_formats(void) {
    static const char *const others[] = {"d:9,2", "d:8,1", "d:8,2,64", "l", "u", "vu", "w:16", "+r", "nothing"};
    const hv_pair pairs[1] = {{5, 0}};
    CHECK(!hv_decimals(pairs, 1, 8, 2, NOT_NULLABLE, &column, &error));
    for (size_t i = 0; i < COUNT(others); i++) {
        CHECK_REFUSED(hv_arrow_export_as(&session, &column, "x", others[i],
                                         &out_schema, &out_array, &error),
                      HV_TYPE_MISMATCH, 0, 0, 0);
    }
    CHECK(!hv_arrow_export_as(&session, &column, "x", "d:8,2,128", &out_schema, &out_array, &error));
    CHECK(strcmp(out_schema.format, "d:8,2,128") == 0);
    hv_arrow_release(&out_schema, &out_array);
}

static void check_options_refused(void) {
    const hv_arrow_options odd[] = {{.form = 3}, {.end_bits = 8}, {.offset_bits = 16}};
    const int64_t items[1] = {1};
    CHECK(!hv_i64(items, 1, NOT_NULLABLE, &column, &error));
    for (size_t i = 0; i < COUNT(odd); i++) {
        CHECK(hv_arrow_export_with(&session, &column, "x", &odd[i], &out_schema, &out_array, &error) == HV_BAD_NUMBER);
        CHECK(!out_schema.release && !out_array.release);
    }
}

/* Codes that go out are within their dictionary; under null there may be anything. */
static void check_codes_out(void) {
    const int16_t codes[4] = {1, 2, -7, 0};
    const uint8_t bits[1] = {0x09};
    const int64_t items[2] = {5, 6};
    hv_column dictionary = HV_EMPTY;
    CHECK(!hv_i64(items, 2, NOT_NULLABLE, &dictionary, &error));
    CHECK(!hv_i16(codes, 4, NULLS_BY(bits, 0), &column, &error));
    CHECK(!hv_arrow_export_dictionary(&session, &column, &dictionary, "x", &out_schema, &out_array, &error));
    CHECK(!IMPORT(&out_schema, &out_array));
    CHECK_ROWS(&column, "6 null null 5");
    hv_arrow_release(&out_schema, &out_array);
    CHECK(!hv_i16(codes, 2, NOT_NULLABLE, &column, &error));
    CHECK_REFUSED(hv_arrow_export_dictionary(&session, &column, &dictionary, "x", &out_schema, &out_array, &error),
                  HV_OUT_OF_BOUNDS, 2, 2, 0);
    CHECK(!hv_i16(codes + 2, 2, NOT_NULLABLE, &column, &error));
    CHECK_REFUSED(hv_arrow_export_dictionary(&session, &column, &dictionary, "x", &out_schema, &out_array, &error),
                  HV_OUT_OF_BOUNDS, UINT64_MAX, 2, 0);
    CHECK(!out_schema.release && !out_array.release);
    const uint16_t runs_of_codes[4] = {1, 1, 0, 0};
    CHECK(!hv_u16(runs_of_codes, 4, NOT_NULLABLE, &again, &error) && !hv_encode(&session, &again, &column, &error));
    CHECK(!hv_arrow_export_dictionary(&session, &column, &dictionary, "x", &out_schema, &out_array, &error));
    CHECK(strcmp(out_schema.format, "+r") == 0 && out_schema.children[1]->dictionary && !out_schema.dictionary);
    CHECK(!IMPORT(&out_schema, &out_array));
    CHECK_ROWS(&column, "6 6 5 5");
    hv_arrow_release(&out_schema, &out_array);
    hv_free(&dictionary);
}

int main(void) {
    hv_session_initial(&session);
    check_floats();
    check_formats_of_runs();
    check_runs_of_texts();
    check_other_formats();
    check_options_refused();
    check_codes_out();
    hv_free(&column);
    hv_free(&again);
    puts("formats, widths and forms go out as they were asked for");
    return 0;
}
