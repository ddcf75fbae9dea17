/* What Arrow's text says of an array, rule by rule: what is legal comes in, and what is not is refused with its reason.
 * Answers were worked out by hand. */
#include "check.h"
#include "hivevigil_arrow.h"

static hv_session session;
static hv_error error;
static hv_column column = HV_EMPTY, again = HV_EMPTY;
static struct ArrowSchema out_schema;
static struct ArrowArray out_array;

#define BUFFERS(...) \
    (const void *[]) { __VA_ARGS__ }
#define IMPORT(schema, array) hv_arrow_import(&session, schema, array, &column, &error)
#define CHECK_INVALID(answer, why) CHECK_REFUSED(answer, HV_ARROW_INVALID, why, 0, 0)

static void release_schema(struct ArrowSchema *it) { it->release = NULL; }
static void release_array(struct ArrowArray *it) { it->release = NULL; }

static struct ArrowSchema schema_of(const char *format) {
    return (struct ArrowSchema){.format = format, .release = release_schema};
}

static struct ArrowArray array_of(int64_t rows, int64_t offset, int64_t count, const void **buffers) {
    return (struct ArrowArray){.length = rows,
                               .null_count = -1,
                               .offset = offset,
                               .n_buffers = count,
                               .buffers = buffers,
                               .release = release_array};
}

/* ---- Windows of runs ---- */

/* 7 7 null null null 8, by ends 2 5 6 */
static const int16_t run_ends[3] = {2, 5, 6};
static const int64_t run_items[3] = {7, 0, 8};
static const uint8_t run_bits[1] = {0x05};
static const void *ends_buffers[2] = {NULL, run_ends}, *values_buffers[2] = {run_bits, run_items};
static struct ArrowSchema ends_schema, values_schema, *run_schemas[2] = {&ends_schema, &values_schema}, runs_schema;
static struct ArrowArray ends_array, values_array, *run_arrays[2] = {&ends_array, &values_array}, runs_array;

static void make_runs(int64_t offset, int64_t length) {
    ends_schema = schema_of("s");
    values_schema = schema_of("l");
    runs_schema = schema_of("+r");
    runs_schema.n_children = 2, runs_schema.children = run_schemas;
    ends_array = array_of(3, 0, 2, ends_buffers);
    values_array = array_of(3, 0, 2, values_buffers);
    runs_array = array_of(length, offset, 0, NULL);
    runs_array.n_children = 2, runs_array.children = run_arrays, runs_array.null_count = 0;
}

#define IMPORT_RUNS() IMPORT(&runs_schema, &runs_array)

/* Windows that begin past runs, or end before the last, or show nothing, wherever they are. */
static void check_windows(void) {
    static const char *const rows[6] = {"7", "7", "null", "null", "null", "8"};
    for (int64_t offset = 0; offset < 7; offset++)
        for (int64_t length = 0; offset + length < 7; length++) {
            char due[64] = "";
            for (int64_t row = offset; row < offset + length; row++)
                strcat(strcat(due, rows[row]), row + 1 < offset + length ? " " : "");
            make_runs(offset, length);
            CHECK(!IMPORT_RUNS() && hv_form(&column) == FORM_RUNS);
            CHECK_ROWS(&column, due);
        }
    make_runs(9, 0);
    ends_array.length = values_array.length = 0;
    CHECK(!IMPORT_RUNS() && hv_length(&column) == 0 && hv_kind_of(&column).number == HV_I64);
}

/* What a window shows is all that is copied: the values of two runs of three. */
static void check_windows_copy(void) {
    make_runs(2, 4);
    CHECK(!IMPORT_RUNS() && !hv_values(&column, &again, &error));
    CHECK_ROWS(&again, "null 8");
    make_runs(1, 3);
    CHECK(!IMPORT_RUNS() && !hv_values(&column, &again, &error));
    CHECK_ROWS(&again, "7 null");
}

static void check_runs_refused(void) {
    static const int16_t falling[3] = {2, 2, 6}, from_zero[3] = {0, 5, 6};
    const uint8_t all[1] = {0x07}, some[1] = {0x06};
    const void *bad_buffers[2] = {NULL, falling}, *bits_buffers[1] = {all};
    make_runs(3, 4);
    CHECK_REFUSED(IMPORT_RUNS(), HV_LAST_END_BELOW_WINDOW, 6, 7, 0);
    make_runs(9, 1);
    CHECK_REFUSED(IMPORT_RUNS(), HV_LAST_END_BELOW_WINDOW, 6, 10, 0);
    ends_array.length = values_array.length = 0;
    CHECK_REFUSED(IMPORT_RUNS(), HV_NO_RUNS_WINDOW, 9, 1, 0);
    make_runs(5, 1), ends_array.buffers = bad_buffers; /* a run that is not shown */
    CHECK_REFUSED(IMPORT_RUNS(), HV_ENDS_NOT_STRICT, 1, 0, 0);
    bad_buffers[1] = from_zero;
    CHECK_REFUSED(IMPORT_RUNS(), HV_ENDS_NOT_STRICT, 0, 0, 0); /* a run has a row at least */
    bad_buffers[1] = run_ends, bad_buffers[0] = some;
    CHECK_INVALID(IMPORT_RUNS(), HV_ARROW_NULL_IN_RUNS);
    bad_buffers[0] = all; /* a bitmap in which no end is null */
    CHECK(!IMPORT_RUNS());
    runs_array.n_buffers = 1, runs_array.buffers = bits_buffers;
    CHECK_INVALID(IMPORT_RUNS(), HV_ARROW_NULL_IN_RUNS);
    bits_buffers[0] = NULL;
    CHECK(!IMPORT_RUNS());
    runs_array.null_count = 1;
    CHECK_INVALID(IMPORT_RUNS(), HV_ARROW_NULL_IN_RUNS);
    make_runs(0, 6), ends_schema.format = "tdD";
    CHECK_REFUSED(IMPORT_RUNS(), HV_ENDS_NOT_UNSIGNED, 0, 0, 0);
    ends_schema.format = "s", values_array.length = 2;
    CHECK_INVALID(IMPORT_RUNS(), HV_ARROW_LENGTH);
    values_array.length = 3, ends_schema.dictionary = &values_schema, ends_array.dictionary = &values_array;
    CHECK_INVALID(IMPORT_RUNS(), HV_ARROW_DICTIONARY);
}

/* ---- Counts of nulls, null pointers, released structs ---- */

static void check_null_counts(void) {
    const int8_t items[10] = {0, 1, 2, 3, 4, 5, 6, 7, 8, 9};
    const uint8_t bits[2] = {0xfd, 0x02}; /* rows 1 and 8 are null */
    struct ArrowSchema schema = schema_of("c");
    struct ArrowArray array = array_of(10, 0, 2, BUFFERS(bits, items));
    const int64_t wrong[] = {0, 1, 3, 11, -2, INT64_MAX, INT64_MIN};
    for (size_t i = 0; i < COUNT(wrong); i++) {
        array.null_count = wrong[i];
        CHECK_INVALID(IMPORT(&schema, &array), HV_ARROW_NULL_COUNT);
    }
    array.null_count = 2;
    CHECK(!IMPORT(&schema, &array) && hv_kind_of(&column).nullable == 1);
    CHECK_ROWS(&column, "0 null 2 3 4 5 6 7 null 9");
    array.offset = 2, array.length = 6, array.null_count = 0; /* no null from row 2 to row 7 */
    CHECK(!IMPORT(&schema, &array) && hv_kind_of(&column).nullable == 0);
    CHECK_ROWS(&column, "2 3 4 5 6 7");
    schema.flags = ARROW_FLAG_NULLABLE, array.buffers[0] = NULL;
    CHECK(!IMPORT(&schema, &array) && hv_kind_of(&column).nullable == 1);
    array.null_count = 1;
    CHECK_INVALID(IMPORT(&schema, &array), HV_ARROW_NULL_COUNT); /* a bitmap is missing */
}

/* Each pointer that the format needs, and each count, in a run array of texts under a dictionary. */
static void check_null_pointers(void) {
    const int8_t codes[2] = {0, 1};
    const int32_t offsets[3] = {0, 1, 3};
    struct ArrowSchema codes_schema = schema_of("c"), texts_schema = schema_of("u");
    struct ArrowArray texts = array_of(2, 0, 3, BUFFERS(NULL, offsets, "abb")),
                      array = array_of(2, 0, 2, BUFFERS(NULL, codes));
    CHECK_INVALID(IMPORT(NULL, &array), HV_ARROW_RELEASED);
    CHECK_INVALID(IMPORT(&codes_schema, NULL), HV_ARROW_RELEASED);
    array.dictionary = &texts;
    CHECK_INVALID(IMPORT(&codes_schema, &array), HV_ARROW_DICTIONARY);
    codes_schema.dictionary = &texts_schema;
    CHECK(!IMPORT(&codes_schema, &array));
    CHECK_ROWS(&column, "\"a\" \"bb\"");
    array.dictionary = NULL;
    CHECK_INVALID(IMPORT(&codes_schema, &array), HV_ARROW_DICTIONARY);
    array.dictionary = &texts, texts.release = NULL;
    CHECK_INVALID(IMPORT(&codes_schema, &array), HV_ARROW_RELEASED);
    texts.release = release_array, texts.buffers[1] = NULL;
    CHECK_INVALID(IMPORT(&codes_schema, &array), HV_ARROW_NO_POINTER);
    texts.buffers[1] = offsets, texts.buffers[2] = NULL;
    CHECK_INVALID(IMPORT(&codes_schema, &array), HV_ARROW_NO_POINTER);
    texts.buffers = NULL;
    CHECK_INVALID(IMPORT(&codes_schema, &array), HV_ARROW_NO_POINTER);
    texts_schema.format = NULL;
    CHECK_INVALID(IMPORT(&codes_schema, &array), HV_ARROW_NO_POINTER);
    static const char *const no_codes[] = {"b", "u", "tdD", "tss:", "g", "+r", "d:5,2"};
    for (size_t i = 0; i < COUNT(no_codes); i++) {
        codes_schema.format = no_codes[i];
        CHECK_INVALID(IMPORT(&codes_schema, &array), HV_ARROW_DICTIONARY);
    }
    codes_schema.format = "c", array.n_buffers = 3;
    CHECK_INVALID(IMPORT(&codes_schema, &array), HV_ARROW_PARTS);
    codes_schema.release = NULL;
    CHECK_INVALID(IMPORT(&codes_schema, &array), HV_ARROW_RELEASED);
    CHECK_ROWS(&column, "\"a\" \"bb\"");
}

static void check_missing_children(void) {
    make_runs(0, 6);
    CHECK(!IMPORT_RUNS());
    run_arrays[1] = NULL;
    CHECK_INVALID(IMPORT_RUNS(), HV_ARROW_RELEASED);
    run_arrays[1] = &values_array, values_array.release = NULL; /* a child that was moved out */
    CHECK_INVALID(IMPORT_RUNS(), HV_ARROW_RELEASED);
    values_array.release = release_array, run_schemas[0] = NULL;
    CHECK_INVALID(IMPORT_RUNS(), HV_ARROW_RELEASED);
    run_schemas[0] = &ends_schema, runs_schema.children = NULL;
    CHECK_INVALID(IMPORT_RUNS(), HV_ARROW_NO_POINTER);
    runs_schema.children = run_schemas, runs_array.children = NULL;
    CHECK_INVALID(IMPORT_RUNS(), HV_ARROW_NO_POINTER);
    runs_array.children = run_arrays, runs_array.n_children = 3;
    CHECK_INVALID(IMPORT_RUNS(), HV_ARROW_PARTS);
    runs_array.n_children = 2, ends_array.buffers = BUFFERS(NULL, NULL);
    CHECK_INVALID(IMPORT_RUNS(), HV_ARROW_NO_POINTER);
    CHECK_ROWS(&column, "7 7 null null null 8");
}

static void check_lengths(void) {
    const int64_t items[2] = {1, 2};
    const int64_t wrong[][2] = {
        {-1, 0}, {2, -1}, {INT64_MAX, 0}, {2, INT64_MAX}, {INT64_MIN, INT64_MIN}, {(int64_t)1 << 53, 0}};
    struct ArrowSchema schema = schema_of("l");
    struct ArrowArray array = array_of(2, 0, 2, BUFFERS(NULL, items));
    for (size_t i = 0; i < COUNT(wrong); i++) {
        array.length = wrong[i][0], array.offset = wrong[i][1];
        CHECK_INVALID(IMPORT(&schema, &array), HV_ARROW_LENGTH);
    }
}

/* ---- Batches ---- */

/* Rows 1 to 3 of a batch whose row 1 is null, over the numbers 10 11 null 13 and the runs 7 null null null 8; then rows
 * 0 to 2. */
static void check_batches(void) {
    const int16_t items[6] = {99, 10, 11, 12, 13, 14};
    const uint8_t child_bits[1] = {0x37}, batch_bits[1] = {0xfd};
    make_runs(1, 5);
    struct ArrowSchema number = schema_of("s"), *schemas[2] = {&number, &runs_schema}, schema = schema_of("+s");
    struct ArrowArray numbers = array_of(4, 1, 2, BUFFERS(child_bits, items)), *arrays[2] = {&numbers, &runs_array};
    struct ArrowArray batch = array_of(3, 1, 1, BUFFERS(batch_bits));
    schema.n_children = batch.n_children = 2, schema.children = schemas, batch.children = arrays;
    CHECK(!hv_arrow_import_child(&session, &schema, &batch, 0, &column, &error));
    CHECK_ROWS(&column, "null null 13");
    CHECK(!hv_arrow_import_child(&session, &schema, &batch, 1, &column, &error));
    CHECK_ROWS(&column, "null null null");
    batch.offset = 0, batch.null_count = 1;
    CHECK(!hv_arrow_import_child(&session, &schema, &batch, 0, &column, &error));
    CHECK_ROWS(&column, "10 null null");
    CHECK(!hv_arrow_import_child(&session, &schema, &batch, 1, &column, &error));
    CHECK_ROWS(&column, "7 null null");
    batch.null_count = 0;
    CHECK_INVALID(hv_arrow_import_child(&session, &schema, &batch, 0, &column, &error), HV_ARROW_NULL_COUNT);
    batch.buffers[0] = NULL;
    CHECK(!hv_arrow_import_child(&session, &schema, &batch, 0, &column, &error));
    CHECK_ROWS(&column, "10 11 null");
    numbers.buffers[0] = NULL, numbers.null_count = 1; /* a child of which not all rows are shown */
    CHECK_INVALID(hv_arrow_import_child(&session, &schema, &batch, 0, &column, &error), HV_ARROW_NULL_COUNT);
    numbers.null_count = -1;
    CHECK_INVALID(hv_arrow_import_child(&session, &schema, &batch, 2, &column, &error), HV_ARROW_PARTS);
    CHECK_INVALID(hv_arrow_import_child(&session, &schema, &batch, -1, &column, &error), HV_ARROW_PARTS);
    batch.children = NULL;
    CHECK_INVALID(hv_arrow_import_child(&session, &schema, &batch, 0, &column, &error), HV_ARROW_NO_POINTER);
    schemas[1] = NULL, batch.children = arrays;
    CHECK_INVALID(hv_arrow_import_child(&session, &schema, &batch, 1, &column, &error), HV_ARROW_RELEASED);
    CHECK_REFUSED(IMPORT(&schema, &batch), HV_UNSUPPORTED, 0, 0, 0);
    CHECK_REFUSED(hv_arrow_import_child(&session, &number, &numbers, 0, &column, &error), HV_UNSUPPORTED, 0, 0, 0);
}

/* ---- Formats ---- */

static void check_exact_formats(void) {
    static const char *const served[] = {"l",    "tdm", "ttu", "ttn", "tss:", "tsm:UTC", "tsu:Asia/Kathmandu",
                                         "tsn:", "tDs", "tDm", "tDu", "tDn"};
    static const char *const refused[] = {
        "",       "lx",      "ll",       "ts",        "tss",        "tsx:",      "tsd:UTC", "tDx",    "tD",
        "tDs:",   "tdx",     "tdDx",     "ttx",       "tiD",        "tin",       "d:x",     "d:",     "d:5",
        "d:5,",   "d:,2",    "d:5,1,",   "d:5,1x",    "d:5,1,128x", "d:5,1,129", "d: 5,1",  "d:+5,1", "d:0,0",
        "d:39,0", "d:5,128", "d:5,-129", "d:19,0,64", "d:10,0,32",  "d:5,1,256", "n",       "e",      "f",
        "g",      "w:",      "w:x",      "w:-1",      "w:8x",       "+lx",       "+Lx",     "+vl",    "+w:2",
        "+m",     "+ud:0",   "u ",       "v"};
    const int64_t items[2] = {-1, 5};
    struct ArrowArray array = array_of(2, 0, 2, BUFFERS(NULL, items));
    for (size_t i = 0; i < COUNT(served); i++) {
        struct ArrowSchema schema = schema_of(served[i]);
        CHECK(!IMPORT(&schema, &array) && hv_kind_of(&column).number == HV_I64);
        CHECK_ROWS(&column, "-1 5");
        CHECK(!hv_arrow_export_as(&session, &column, "x", served[i], &out_schema, &out_array, &error));
        CHECK(strcmp(out_schema.format, served[i]) == 0 && ((const int64_t *)out_array.buffers[1])[0] == -1);
        hv_arrow_release(&out_schema, &out_array);
    }
    for (size_t i = 0; i < COUNT(refused); i++) {
        struct ArrowSchema schema = schema_of(refused[i]);
        CHECK_REFUSED(IMPORT(&schema, &array), HV_UNSUPPORTED, 0, 0, 0);
        CHECK_REFUSED(hv_arrow_export_as(&session, &column, "x", refused[i],
                                         &out_schema, &out_array, &error),
                      HV_TYPE_MISMATCH, 0, 0, 0);
        CHECK(!out_schema.release && !out_array.release);
    }
}

static void check_decimals(void) {
    const hv_pair pairs[2] = {{5, 0}, {UINT64_MAX, -1}};
    const int64_t middle[2] = {5, -1};
    const int32_t narrow[2] = {5, -1};
    static const char *const formats[] = {"d:7,2", "d:7,2,128", "d:7,-2", "d:7,2,64", "d:7,2,32"};
    const void *const items[] = {pairs, pairs, pairs, middle, narrow};
    for (size_t i = 0; i < COUNT(formats); i++) {
        struct ArrowSchema schema = schema_of(formats[i]);
        struct ArrowArray array = array_of(2, 0, 2, BUFFERS(NULL, items[i]));
        CHECK(!IMPORT(&schema, &array));
        CHECK(hv_kind_of(&column).precision == 7 && hv_kind_of(&column).scale == (i == 2 ? -2 : 2));
        CHECK_ROWS(&column, "0:5 -1:18446744073709551615");
        CHECK(!hv_arrow_export(&session, &column, "x", &out_schema, &out_array, &error));
        CHECK(strcmp(out_schema.format, i == 2 ? "d:7,-2" : "d:7,2") == 0);
        hv_arrow_release(&out_schema, &out_array);
    }
    /* precision is not tested: 123.45 and the least number of 128 bits come in as decimal(4, 2), and go out again */
    const hv_pair past[2] = {{12345, 0}, {0, INT64_MIN}};
    struct ArrowSchema narrow_schema = schema_of("d:4,2");
    struct ArrowArray past_array = array_of(2, 0, 2, BUFFERS(NULL, past));
    CHECK(!IMPORT(&narrow_schema, &past_array) && hv_kind_of(&column).precision == 4);
    CHECK_ROWS(&column, "0:12345 -9223372036854775808:0");
    CHECK(!hv_arrow_export(&session, &column, "x", &out_schema, &out_array, &error));
    CHECK(strcmp(out_schema.format, "d:4,2") == 0 && memcmp(out_array.buffers[1], past, sizeof past) == 0);
    hv_arrow_release(&out_schema, &out_array);
    const uint8_t precisions[] = {0, 39, 255};
    for (size_t i = 0; i < COUNT(precisions); i++) {
        CHECK(!hv_decimals(pairs, 2, precisions[i], 0, NOT_NULLABLE, &column, &error));
        CHECK_REFUSED(hv_arrow_export(&session, &column, "x", &out_schema, &out_array, &error),
                      HV_UNSUPPORTED, precisions[i], 0, 0);
    }
}

/* Bytes that lie anywhere: each number is read as it is. */
static void check_unaligned(void) {
    static uint8_t bytes[64];
    const int64_t wide[3] = {-2, 1, 70000000000};
    const int32_t offsets[3] = {0, 1, 3};
    struct ArrowSchema schema = schema_of("l");
    for (size_t shift = 1; shift < 8; shift++) {
        struct ArrowArray array = array_of(2, 1, 2, BUFFERS(NULL, bytes + shift));
        memcpy(bytes + shift, wide, sizeof wide);
        schema.format = "l";
        CHECK(!IMPORT(&schema, &array));
        CHECK_ROWS(&column, "1 70000000000");
        memcpy(bytes + shift, offsets, sizeof offsets);
        schema.format = "u", array = array_of(2, 0, 3, BUFFERS(NULL, bytes + shift, "abb"));
        CHECK(!IMPORT(&schema, &array));
        CHECK_ROWS(&column, "\"a\" \"bb\"");
    }
}

/* ---- Texts ---- */

static void check_slices_of_texts(void) {
    const int32_t offsets[5] = {2, 4, 5, 5, 7};
    const int64_t wide[5] = {2, 4, 5, 5, 7};
    const int32_t falling[5] = {2, 4, 3, 5, 7}, below_first[5] = {2, 4, 5, 1, 7}, negative[5] = {-1, 4, 5, 5, 7};
    struct ArrowSchema schema = schema_of("u");
    struct ArrowArray array = array_of(3, 1, 3,
                                       BUFFERS(NULL, offsets,
                                               "\xff\xff\xff\xff"
                                               "cde"));
    CHECK(!IMPORT(&schema, &array)); /* the bytes before are not a text, and are not read */
    CHECK_ROWS(&column, "\"c\" \"\" \"de\"");
    schema.format = "U", array.buffers[1] = wide;
    CHECK(!IMPORT(&schema, &array));
    CHECK_ROWS(&column, "\"c\" \"\" \"de\"");
    schema.format = "u", array.buffers[1] = falling;
    CHECK_REFUSED(IMPORT(&schema, &array), HV_ENDS_NOT_STRICT, 0, 0, HV_ABOUT_TEXTS);
    array.buffers[1] = below_first;
    CHECK_REFUSED(IMPORT(&schema, &array), HV_ENDS_NOT_STRICT, 1, 0, HV_ABOUT_TEXTS);
    array.buffers[1] = negative, array.offset = 0;
    CHECK_REFUSED(IMPORT(&schema, &array), HV_ENDS_NOT_STRICT, 0, 0, HV_ABOUT_TEXTS);
    array.buffers[1] = offsets;
    CHECK_REFUSED(IMPORT(&schema, &array), HV_TYPE_MISMATCH, 0, 0, 0); /* row 0 is not UTF-8 */
    /* nor is row 1 of these three, whose row 0 is null and may have any bytes; then as views */
    const uint8_t bits[1] = {0x0d};
    const int32_t three[5] = {0, 1, 2, 4, 5};
    const uint8_t views[4][16] = {{1, 0, 0, 0, 'a'}, {1, 0, 0, 0, 0xff}, {2, 0, 0, 0, 'b', 0xff}, {1, 0, 0, 0, 0xff}};
    struct ArrowArray some = array_of(3, 1, 3, BUFFERS(bits, three, "a\xff" "b\xff" "\xff"));
    schema.flags = ARROW_FLAG_NULLABLE, some.null_count = 1;
    CHECK_REFUSED(IMPORT(&schema, &some), HV_TYPE_MISMATCH, 1, 0, 0);
    some.length = 1;
    CHECK(!IMPORT(&schema, &some));
    schema.format = "vu", some.length = 3, some.buffers[1] = views, some.buffers[2] = NULL;
    CHECK_REFUSED(IMPORT(&schema, &some), HV_TYPE_MISMATCH, 1, 0, 0);
    schema.format = "vz";
    CHECK(!IMPORT(&schema, &some) && hv_length(&column) == 3);
}

static void check_bytes_of_one_size(void) {
    const uint8_t bits[1] = {0x0d};
    struct ArrowSchema schema = schema_of("w:2");
    struct ArrowArray array = array_of(3, 1, 2, BUFFERS(bits, "aabbccdd"));
    CHECK(!IMPORT(&schema, &array) && hv_kind_of(&column).number == HV_BINARY);
    CHECK_ROWS(&column, "null <6363> <6464>");
    array.buffers[1] = NULL;
    CHECK_INVALID(IMPORT(&schema, &array), HV_ARROW_NO_POINTER);
    schema.format = "w:0"; /* rows of no bytes need no buffer */
    CHECK(!IMPORT(&schema, &array));
    CHECK_ROWS(&column, "null <> <>");
}

/* a view: how many bytes, then these, or the first four, the buffer and where they start */
typedef struct view {
    int32_t size;
    char front[4];
    int32_t buffer, start;
} view;

static void check_views(void) {
    const uint8_t bits[1] = {0x0b};
    const int64_t sizes[2] = {3, 20};
    view views[4] = {{2, "ab", 0, 0}, {14, {'l', 'o', 'n', 'g'}, 1, 4}, {99, "", 99, 99}, {0, "", 0, 0}};
    struct ArrowSchema schema = schema_of("vu");
    struct ArrowArray array = array_of(4, 0, 5, BUFFERS(bits, views, "xyz", "....long as a text..", sizes));
    CHECK(!IMPORT(&schema, &array));
    CHECK_ROWS(&column, "\"ab\" \"long as a text\" null \"\"");
    array.offset = 1, array.length = 2, schema.format = "vz";
    CHECK(!IMPORT(&schema, &array));
    CHECK_ROWS(&column, "<6c6f6e6720617320612074657874> null");
    array.offset = 0, array.length = 4;
    const view wrong[] = {{-1, "", 0, 0},
                          {14, {'l', 'o', 'n', 'g'}, 2, 4},
                          {14, {'l', 'o', 'n', 'g'}, -1, 4},
                          {14, {'l', 'o', 'n', 'g'}, 1, 7},
                          {14, {'l', 'o', 'n', 'g'}, 1, -4},
                          {INT32_MAX, {'l', 'o', 'n', 'g'}, 1, 4},
                          {14, {'L', 'o', 'n', 'g'}, 1, 4}};
    for (size_t i = 0; i < COUNT(wrong); i++) {
        views[1] = wrong[i];
        CHECK_REFUSED(IMPORT(&schema, &array), HV_ARROW_INVALID, HV_ARROW_VIEW, 1, 0);
    }
    array.n_buffers = 2;
    CHECK_INVALID(IMPORT(&schema, &array), HV_ARROW_PARTS);
}

/* ---- Depth ---- */

/* Runs in runs, HV_ARROW_DEPTH of them around one number, are refused; one less is not. */
static void check_depth(void) {
    static struct ArrowSchema schemas[HV_ARROW_DEPTH + 1], ends;
    static struct ArrowArray arrays[HV_ARROW_DEPTH + 1], end_array;
    static struct ArrowSchema *schema_pairs[HV_ARROW_DEPTH + 1][2];
    static struct ArrowArray *array_pairs[HV_ARROW_DEPTH + 1][2];
    const int16_t one[1] = {1};
    ends = schema_of("s"), end_array = array_of(1, 0, 2, BUFFERS(NULL, one));
    schemas[0] = schema_of("s"), arrays[0] = end_array;
    for (size_t i = 1; i <= HV_ARROW_DEPTH; i++) {
        schemas[i] = schema_of("+r"), arrays[i] = array_of(1, 0, 0, NULL);
        schema_pairs[i][0] = &ends, schema_pairs[i][1] = &schemas[i - 1];
        array_pairs[i][0] = &end_array, array_pairs[i][1] = &arrays[i - 1];
        schemas[i].n_children = arrays[i].n_children = 2;
        schemas[i].children = schema_pairs[i], arrays[i].children = array_pairs[i];
    }
    CHECK(!IMPORT(&schemas[HV_ARROW_DEPTH - 1], &arrays[HV_ARROW_DEPTH - 1]));
    CHECK_ROWS(&column, "1");
    CHECK(!hv_arrow_export(&session, &column, "x", &out_schema, &out_array, &error));
    hv_arrow_release(&out_schema, &out_array);
    CHECK_REFUSED(IMPORT(&schemas[HV_ARROW_DEPTH], &arrays[HV_ARROW_DEPTH]), HV_UNSUPPORTED, 0, 0, 0);
}

int main(void) {
    hv_session_initial(&session);
    check_windows();
    check_windows_copy();
    check_runs_refused();
    check_null_counts();
    check_null_pointers();
    check_missing_children();
    check_lengths();
    check_batches();
    check_exact_formats();
    check_decimals();
    check_unaligned();
    check_slices_of_texts();
    check_views();
    check_bytes_of_one_size();
    check_depth();
    hv_free(&column);
    hv_free(&again);
    puts("what the format allows comes in, what it does not is refused with its reason");
    return 0;
}
