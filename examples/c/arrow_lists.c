/* Random legal arrays of lists ("+l", "+L"), flat and as values of runs, come in, go out and come in again, and are
 * written as bytes and read, as they lie and decoded; every item of every row is compared: with the rows that were laid
 * out, by a reader of the two structs where they went out. So are those of a stream. Then what is refused, and streams
 * by hand. arrow_lists [COUNT [SEED]]
 */
#include "arrow_columns.h"
#include "arrow_list_layouts.h"
#include "arrow_reader.h"

static hv_session session;
static hv_error error;
static hv_column column = HV_EMPTY, again = HV_EMPTY;
static uint64_t number; /* of the array */

static void stop(const char *what, size_t row) {
    fprintf(stderr, "array %" PRIu64 ", row %zu: %s (%" PRIu64 ", %" PRIu64 ", %" PRIu64 ")\n", number, row, what,
            error.first, error.second, error.third);
    exit(1);
}

/* ---- Laid out as values of runs ---- */

/* Runs over lists: row i of `due` is list `due[i]`, and each run is as long as chance has it. */
static void lay_list_runs(const type *of, const lists *values, size_t *due, size_t count, struct ArrowSchema *schema,
                          struct ArrowArray *array) {
    rows ends = new_rows(values->count);
    for (size_t run = 0, row = 0; run < values->count; run++) {
        const size_t left = values->count - 1 - run, most = count - row - left;
        const size_t more = run + 1 == values->count ? count - row : 1 + below(most);
        for (size_t i = 0; i < more; i++) due[row + i] = run;
        row += more;
        ends.at[run] = number_row(row, 4);
    }
    begin_schema(schema, "+r", one_in(2), 2);
    begin_array(array, count, 0, 0, 2);
    lay_flat(&types[6], ends, schema->children[0], array->children[0]);
    lay_lists(of, values, one_in(2) ? 4 : 8, schema->children[1], array->children[1]);
}

/* ---- Compared ---- */

static void read_part(int32_t (*call)(hv_column *, hv_column *, hv_error *), uint64_t *numbers, size_t count) {
    hv_column part = HV_EMPTY;
    if (call(&column, &part, &error) || hv_read_u64(&part, 0, numbers, count, &error)) stop("a part", 0);
    hv_free(&part);
}

/* Row i of `from`, which lies in any form, is list `due[i]`, or list i where `due` is null. */
static void check_lists(hv_column *from, const lists *values, const size_t *due, size_t count, const char *what) {
    hv_column elements = HV_EMPTY, flags = HV_EMPTY;
    uint64_t *starts = (uint64_t *)kept(count * 8), *sizes = (uint64_t *)kept(count * 8);
    uint64_t *valid = (uint64_t *)kept(count / 8 + 16);
    if (hv_decode(&session, from, &column, &error) || hv_length(&column) != count) stop(what, hv_length(&column));
    read_part(hv_list_offsets, starts, count);
    read_part(hv_list_sizes, sizes, count);
    if (hv_list_elements(&column, &elements, &error) || hv_list_validity(&column, &flags, &error)) stop("a part", 0);
    if (hv_read_bools_from(&flags, 0, count, valid, count / 64 + (count % 64 != 0), &error)) stop("flags", 0);
    for (size_t i = 0; i < count; i++) {
        const list *wanted = &values->at[due ? due[i] : i];
        if ((valid[i / 64] >> i % 64 & 1) == wanted->null) stop(what, i);
        if (wanted->null) continue;
        if (sizes[i] != wanted->size) stop(what, i);
        for (size_t k = 0; k < wanted->size; k++) {
            row found;
            if (row_at(&elements, starts[i] + k, &found, &error)) stop("no item", i);
            if (!same_row(&found, &values->items.at[wanted->start + k])) stop(what, i);
        }
    }
    hv_free(&elements), hv_free(&flags);
}

/* The same of an array that went out as lists, only by the two structs. */
static void check_array(const struct ArrowSchema *schema, const struct ArrowArray *array, const lists *values,
                        const size_t *due, size_t count) {
    if (strcmp(schema->format, "+l") != 0 && strcmp(schema->format, "+L") != 0) stop("the format of lists", 0);
    const size_t width = schema->format[1] == 'l' ? 4 : 8;
    int64_t before = 0, nulls = 0;
    if (array->length != (int64_t)count || array->n_buffers != 2 || array->n_children != 1) stop("parts of lists", 0);
    const char *why = why_not_legal(schema->children[0], array->children[0]);
    if (why) stop(why, 0);
    for (size_t i = 0; i < count; i++) {
        const list *wanted = &values->at[due ? due[i] : i];
        const int64_t start = read_signed(array, 1, i, width), end = read_signed(array, 1, i + 1, width);
        if (start != before || end < start) stop("offsets in order", i);
        before = end;
        const bool null = array->buffers[0] && !bit_of((const uint8_t *)array->buffers[0], i);
        nulls += null;
        if (null != wanted->null || (!null && end - start != (int64_t)wanted->size)) stop("a row that went out", i);
        for (size_t k = 0; !null && k < wanted->size; k++) {
            row found = read_row(schema->children[0], array->children[0], (size_t)start + k);
            if (!same_row(&found, &values->items.at[wanted->start + k])) stop("an item that went out", i);
        }
    }
    if (nulls != array->null_count || before > array->children[0]->length) stop("null_count or items", 0);
}

static void check_out_and_in(hv_column *from, const lists *values, const size_t *due, size_t count) {
    static const uint8_t widths[] = {0, 32, 64};
    struct ArrowSchema schema;
    struct ArrowArray array;
    hv_arrow_options options = {0};
    options.form = one_in(2) ? HV_ARROW_AS_FLAT : HV_ARROW_AS_IT_LIES;
    options.offset_bits = widths[below(3)];
    check_lists(from, values, due, count, "a row that came in");
    if (hv_arrow_export_with(&session, from, "x", &options, &schema, &array, &error)) stop("does not go out", 0);
    if (strcmp(schema.format, "+r") != 0) check_array(&schema, &array, values, due, count);
    if (strcmp(schema.format, "+r") != 0 && options.offset_bits &&
        (schema.format[1] == 'L') != (options.offset_bits == 64))
        stop("the width of offsets", 0);
    if (hv_arrow_import(&session, &schema, &array, &again, &error)) stop("does not come in again", 0);
    check_lists(&again, values, due, count, "a row that came in again");
    hv_arrow_release(&schema, &array);
}

/* The rows go out as a stream of chunks, of which each is lists, or runs over lists, as the column lies. */
static void check_stream(hv_column *from, const lists *values, const size_t *due, size_t count) {
    const size_t step = below(8);
    const hv_session none = {0};
    struct ArrowArrayStream stream;
    struct ArrowSchema schema;
    struct ArrowArray array;
    size_t *places = (size_t *)kept((count + 1) * sizeof *places), at = 0;
    for (size_t row = 0; row < count; row++) places[row] = due ? due[row] : row;
    if (hv_arrow_export_stream(one_in(4) ? &none : &session, from, NULL, 1, step, NULL, &stream, &error))
        stop("does not go out as a stream", 0);
    if (stream.get_schema(&stream, &schema)) stop("no schema", 0);
    if ((strcmp(schema.format, "+r") == 0) != (hv_form(from) != HV_FORM_LISTS)) stop("the format of chunks", 0);
    while (!stream.get_next(&stream, &array) && array.release) {
        const size_t more = (size_t)array.length;
        if (more > count - at || (step && more > step)) stop("rows of a chunk", at);
        if (strcmp(schema.format, "+r") != 0) check_array(&schema, &array, values, places + at, more);
        if (hv_arrow_import(&session, &schema, &array, &again, &error)) stop("a chunk does not come in", at);
        check_lists(&again, values, places + at, more, "a row of a chunk");
        array.release(&array);
        at += more;
    }
    if (at != count) stop("rows of all chunks", at);
    schema.release(&schema);
    stream.release(&stream);
    if (hv_arrow_export_stream(&session, from, NULL, 1, step, NULL, &stream, &error)) stop("does not go out again", 0);
    if (hv_arrow_import_stream(&session, &stream, &again, 1, NULL, NULL, 0, &error)) stop("does not come in whole", 0);
    check_lists(&again, values, places, count, "a row of all chunks");
}

static void check_bytes(hv_column *from, const lists *values, const size_t *due, size_t count) {
    hv_column decoded = HV_EMPTY;
    if (read_again(from, &again, &error)) stop("has no bytes", 0);
    if (hv_form(from) != hv_form(&again)) stop("the form that was read", 0);
    check_lists(&again, values, due, count, "a row that was read");
    if (hv_decode(&session, from, &decoded, &error) || read_again(&decoded, &again, &error)) stop("has no bytes", 0);
    check_lists(&again, values, due, count, "a row that was decoded and read");
    hv_free(&decoded);
}

static void check_one(void) {
    struct ArrowSchema schema;
    struct ArrowArray array;
    hv_column came = HV_EMPTY;
    const type *of = &types[below(TYPES)];
    const lists values = random_lists(of, one_in(10) ? 0 : 1 + below(20), one_in(3) ? 0 : 1 + below(6));
    const bool runs = values.count && one_in(3);
    const size_t count = values.count + (runs ? below(20) : 0);
    size_t *due = (size_t *)kept((count + 1) * sizeof *due);
    if (runs) lay_list_runs(of, &values, due, count, &schema, &array);
    else lay_lists(of, &values, one_in(2) ? 4 : 8, &schema, &array);
    const int32_t answer = hv_arrow_import(&session, &schema, &array, &came, &error);
    if (answer) fprintf(stderr, "%s: refused as %" PRId32 "\n", of->format, answer), stop("a legal array", 0);
    check_out_and_in(&came, &values, runs ? due : NULL, count);
    if (one_in(4)) check_stream(&came, &values, runs ? due : NULL, count);
    check_bytes(&came, &values, runs ? due : NULL, count);
    hv_free(&came);
}

/* ---- Refused ---- */

static void check_refusals(void) {
    static const int32_t items[3] = {7, 8, 9};
    static const int32_t falls[3] = {0, 2, 1}, past[3] = {0, 1, 4}, below_zero[3] = {-1, 1, 2}, good[3] = {0, 1, 3};
    const void *child_buffers[2] = {NULL, items}, *buffers[2] = {NULL, good};
    struct ArrowSchema item = {.format = "i", .release = release_schema}, *schemas[1] = {&item};
    struct ArrowArray numbers = {.length = 3, .n_buffers = 2, .buffers = child_buffers, .release = release_array};
    struct ArrowArray *arrays[1] = {&numbers};
    struct ArrowSchema schema = {.format = "+l", .n_children = 1, .children = schemas, .release = release_schema};
    struct ArrowArray array = {.length = 2, .n_buffers = 2, .n_children = 1, .buffers = buffers, .children = arrays,
                               .release = release_array};
    CHECK(!hv_arrow_import(&session, &schema, &array, &column, &error) && hv_form(&column) == HV_FORM_LISTS);
    buffers[1] = falls;
    CHECK_REFUSED(hv_arrow_import(&session, &schema, &array, &column, &error), HV_ENDS_NOT_STRICT, 1, 0, HV_ABOUT_LISTS);
    buffers[1] = below_zero;
    CHECK_REFUSED(hv_arrow_import(&session, &schema, &array, &column, &error), HV_ENDS_NOT_STRICT, 0, 0, HV_ABOUT_LISTS);
    buffers[1] = past;
    CHECK_REFUSED(hv_arrow_import(&session, &schema, &array, &column, &error), HV_ARROW_INVALID, HV_ARROW_LENGTH, 0, 0);
    buffers[1] = NULL;
    CHECK_REFUSED(hv_arrow_import(&session, &schema, &array, &column, &error), HV_ARROW_INVALID, HV_ARROW_NO_POINTER, 0, 0);
    buffers[1] = good, array.n_children = 0;
    CHECK_REFUSED(hv_arrow_import(&session, &schema, &array, &column, &error), HV_ARROW_INVALID, HV_ARROW_PARTS, 0, 0);
    array.n_children = 1, array.children = NULL;
    CHECK_REFUSED(hv_arrow_import(&session, &schema, &array, &column, &error), HV_ARROW_INVALID, HV_ARROW_NO_POINTER, 0, 0);
    array.children = arrays, item.format = "+l"; /* lists of lists are not served, and these have no child */
    CHECK_REFUSED(hv_arrow_import(&session, &schema, &array, &column, &error), HV_ARROW_INVALID, HV_ARROW_PARTS, 0, 0);
    CHECK(hv_length(&column) == 2);
    struct ArrowSchema out_schema;
    struct ArrowArray out_array;
    const hv_arrow_options as_runs = {HV_ARROW_AS_RUNS, 0, 0, 0, NULL, NULL}, as_int = {0, 0, 0, 0, "i", NULL};
    CHECK_REFUSED(hv_arrow_export_with(&session, &column, "x", &as_runs, &out_schema, &out_array, &error), HV_UNSUPPORTED, 0, 0, 0);
    CHECK_REFUSED(hv_arrow_export_with(&session, &column, "x", &as_int, &out_schema, &out_array, &error), HV_TYPE_MISMATCH, 0, 0, 0);
    CHECK(!out_schema.release && !out_array.release);
    struct ArrowArrayStream stream;
    CHECK_REFUSED(hv_arrow_export_stream(&session, &column, NULL, 1, 1, &as_runs, &stream, &error), HV_UNSUPPORTED, 0, 0, 0);
    CHECK_REFUSED(hv_arrow_export_stream(&session, &column, NULL, 1, 1, &as_int, &stream, &error), HV_TYPE_MISMATCH, 0, 0, 0);
    CHECK(!stream.release);
}

/* ---- Streams ---- */

/* [7] and [8 9], as the only column of `out`, and next to numbers as batches. */
static void check_batches_of_lists(void) {
    const int32_t items[3] = {7, 8, 9};
    const uint64_t offsets[2] = {0, 1}, sizes[2] = {1, 2};
    const char *const names[2] = {"list", "number"};
    hv_column both[2] = {HV_EMPTY, HV_EMPTY}, elements = HV_EMPTY;
    struct ArrowArrayStream stream;
    struct ArrowSchema schema;
    struct ArrowArray array;
    CHECK(!hv_i32(items, 3, NOT_NULLABLE, &elements, &error) && !hv_i32(items, 2, NOT_NULLABLE, &both[1], &error));
    CHECK(!hv_lists(&elements, offsets, 2, sizes, 2, NOT_NULLABLE, &both[0], &error));
    CHECK(!hv_arrow_export_stream(&session, both, names, 2, 1, NULL, &stream, &error));
    CHECK(!stream.get_schema(&stream, &schema) && strcmp(schema.children[0]->format, "+l") == 0);
    CHECK(strcmp(schema.children[0]->name, "list") == 0 && strcmp(schema.children[0]->children[0]->format, "i") == 0);
    CHECK(!stream.get_next(&stream, &array));
    array.release(&array);
    CHECK(!stream.get_next(&stream, &array) && array.length == 1);
    CHECK(!hv_arrow_import_child(&session, &schema, &array, 0, &again, &error) && hv_length(&again) == 1);
    CHECK(!hv_list_elements(&again, &column, &error));
    CHECK_ROWS(&column, "8 9");
    array.release(&array), schema.release(&schema), stream.release(&stream);
    hv_free(&both[0]), hv_free(&both[1]), hv_free(&elements);
}

/* Lists of one type, but for null, are joined, of which a window shows some; refused are other rows and other items. */
static void check_joined_lists(void) {
    const int32_t items[3] = {7, 8, 9};
    const uint64_t offsets[3] = {2, 0, 1}, sizes[3] = {1, 2, 1};
    const uint8_t bits[1] = {0x05};
    hv_column parts[3] = {HV_EMPTY, HV_EMPTY, HV_EMPTY}, elements = HV_EMPTY, wide = HV_EMPTY;
    const hv_kind i64 = {HV_I64, 0, 0, 0};
    CHECK(!hv_i32(items, 3, NOT_NULLABLE, &elements, &error) && !hv_cast(&session, &elements, &i64, &wide, &error));
    CHECK(!hv_lists(&elements, offsets, 3, sizes, 3, NOT_NULLABLE, &column, &error)); /* [9] [7 8] [8] */
    CHECK(!hv_slice(&session, &column, 1, 3, &parts[0], &error));
    CHECK(!hv_lists(&elements, offsets, 3, sizes, 3, NULLS_BY(bits, 0), &parts[1], &error)); /* [9] null [8] */
    hv_column both[2] = {parts[1], parts[0]}; /* lent as an array, and not freed */
    CHECK(!hv_arrow_concat(&session, both, 2, &again, &error) && hv_kind_of(&again).nullable == 1);
    CHECK(hv_form(&again) == HV_FORM_LISTS && hv_length(&again) == 5);
    CHECK(!hv_list_elements(&again, &column, &error));
    CHECK_ROWS(&column, "9 8 7 8 8");
    CHECK(!hv_list_offsets(&again, &column, &error));
    CHECK_ROWS(&column, "0 1 1 2 4");
    CHECK(!hv_list_sizes(&again, &column, &error));
    CHECK_ROWS(&column, "1 0 1 2 1");
    CHECK(!hv_list_validity(&again, &column, &error));
    CHECK_ROWS(&column, "true false true true true");
    CHECK(!hv_lists(&wide, offsets, 3, sizes, 3, NOT_NULLABLE, &parts[2], &error));
    CHECK_REFUSED(hv_arrow_concat(&session, parts, 3, &again, &error), HV_TYPE_MISMATCH, 0, 0, 0);
    hv_column with_numbers[2] = {parts[0], elements}, with_none[2] = {parts[0], HV_EMPTY};
    CHECK_REFUSED(hv_arrow_concat(&session, with_numbers, 2, &again, &error), HV_TYPE_MISMATCH, 0, 0, 0);
    CHECK_REFUSED(hv_arrow_concat(&session, with_none, 2, &again, &error), HV_NO_COLUMN, 0, 0, 0);
    CHECK(hv_length(&again) == 5);
    for (size_t i = 0; i < COUNT(parts); i++) hv_free(&parts[i]);
    hv_free(&elements), hv_free(&wide);
}

/* A stream of lists without chunks has no rows. */
static int give_lists(struct ArrowArrayStream *from, struct ArrowSchema *to) {
    static struct ArrowSchema item = {.format = "i", .release = release_schema}, *items[1] = {&item};
    const struct ArrowSchema schema = {.format = "+l", .n_children = 1, .children = items, .release = release_schema};
    (void)from;
    item.release = release_schema;
    *to = schema;
    return 0;
}
static int give_nothing(struct ArrowArrayStream *from, struct ArrowArray *to) {
    (void)from;
    memset(to, 0, sizeof *to);
    return 0;
}
static void release_stream(struct ArrowArrayStream *from) { from->release = NULL; }

static void check_no_chunks(void) {
    struct ArrowArrayStream stream = {give_lists, give_nothing, NULL, release_stream, NULL};
    CHECK(!hv_arrow_import_stream(&session, &stream, &again, 1, NULL, NULL, 0, &error) && !stream.release);
    CHECK(hv_form(&again) == HV_FORM_LISTS && hv_length(&again) == 0);
}

/* Chunks of codes share a dictionary of lists. The items of one are moved out, and the others have theirs. */
static void check_dictionary_of_lists(void) {
    const int32_t items[3] = {7, 8, 9};
    const uint64_t offsets[2] = {0, 1}, sizes[2] = {1, 2};
    const uint8_t codes[2] = {1, 0};
    hv_column elements = HV_EMPTY, dictionary = HV_EMPTY, coded = HV_EMPTY;
    struct ArrowArrayStream stream;
    struct ArrowSchema schema;
    struct ArrowArray chunks[2];
    CHECK(!hv_i32(items, 3, NOT_NULLABLE, &elements, &error) && !hv_u8(codes, 2, NOT_NULLABLE, &coded, &error));
    CHECK(!hv_lists(&elements, offsets, 2, sizes, 2, NOT_NULLABLE, &dictionary, &error));
    const hv_arrow_options options = {0, 0, 0, 0, NULL, &dictionary};
    CHECK(!hv_arrow_export_stream(&session, &coded, NULL, 1, 1, &options, &stream, &error));
    CHECK(!stream.get_schema(&stream, &schema) && strcmp(schema.dictionary->format, "+l") == 0);
    CHECK(!stream.get_next(&stream, &chunks[0]) && !stream.get_next(&stream, &chunks[1]));
    struct ArrowArray moved = *chunks[0].dictionary->children[0];
    chunks[0].dictionary->children[0]->release = NULL;
    stream.release(&stream), chunks[0].release(&chunks[0]);
    CHECK(!hv_arrow_import(&session, schema.dictionary->children[0], &moved, &column, &error));
    CHECK_ROWS(&column, "7 8 9");
    moved.release(&moved);
    CHECK(!hv_arrow_import(&session, &schema, &chunks[1], &again, &error) && hv_length(&again) == 1);
    CHECK(!hv_decode(&session, &again, &column, &error) && !hv_list_elements(&column, &again, &error));
    CHECK_ROWS(&again, "7 8 9");
    chunks[1].release(&chunks[1]), schema.release(&schema);
    hv_free(&elements), hv_free(&dictionary), hv_free(&coded);
}

int main(int arguments, char **given) {
    const uint64_t count = arguments > 1 ? strtoull(given[1], NULL, 10) : 10000;
    const uint64_t seed = arguments > 2 ? strtoull(given[2], NULL, 10) : 1;
    hv_session_initial(&session);
    for (number = 0; number < count; number++) {
        chance_state = (seed * 0x9e3779b97f4a7c15u + number + 1) * 0x2545f4914f6cdd1du | 1;
        chance();
        check_one();
        free_kept();
    }
    check_refusals();
    check_batches_of_lists();
    check_dictionary_of_lists();
    check_joined_lists();
    check_no_chunks();
    hv_free(&column), hv_free(&again);
    printf("%" PRIu64 " random arrays of lists came in, went out and came in again, as streams and as bytes\n", count);
    return 0;
}
