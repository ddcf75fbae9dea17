/* Random legal Arrow arrays (arrow_layouts.h) come in, go out and come in again, and every row is compared: what came
 * in with the rows that were laid out, what went out by a reader of its own (arrow_reader.h), what came in again with
 * both, and what is read of the bytes that each column is written as. arrow_random [COUNT [SEED]]
 */
#include "arrow_columns.h"
#include "arrow_layouts.h"
#include "arrow_reader.h"

static hv_session session;
static hv_error error;
static hv_column column = HV_EMPTY, again = HV_EMPTY;
static uint64_t number; /* of the array */

static void stop(const char *what, size_t row) {
    fprintf(stderr, "array %" PRIu64 ", row %zu: %s (%" PRIu64 ", %" PRIu64 ", %" PRIu64 ")\n", number, row, what,
            error.first, error.second, error.third);
    exit(1);
}

static void check_column(hv_column *from, rows due, const char *what) {
    if (hv_length(from) != due.count) stop(what, hv_length(from));
    for (size_t i = 0; i < due.count; i++) {
        row found;
        if (row_at(from, i, &found, &error)) stop("no row", i);
        if (!same_row(&found, &due.at[i])) stop(what, i);
    }
}

static void check_array(const struct ArrowSchema *schema, const struct ArrowArray *array, rows due) {
    const char *why = why_not_legal(schema, array);
    if (why) stop(why, 0);
    if ((size_t)array->length != due.count) stop("rows that went out", (size_t)array->length);
    for (size_t i = 0; i < due.count; i++) {
        row found = read_row(schema, array, i);
        if (!same_row(&found, &due.at[i])) stop("a row that went out", i);
    }
}

/* Options by chance; a format where the one that came in is one that goes out. */
static hv_arrow_options random_options(const struct ArrowSchema *schema) {
    static const uint8_t ends[] = {0, 16, 32, 64}, offsets[] = {0, 32, 64};
    const type *of = type_of_format(hv_arrow_value_format(schema));
    hv_arrow_options options = {0};
    options.form = (uint8_t)below(3);
    options.end_bits = ends[below(4)];
    options.offset_bits = offsets[below(3)];
    if (of && of->what != VIEW && of->what != FIXED && (of->what != DECIMAL || of->size == 16) && one_in(2))
        options.format = of->format;
    return options;
}

/* The schema that options ask for. */
static void check_schema(const struct ArrowSchema *schema, const hv_arrow_options *options) {
    static const char *const formats[] = {"", "", "s", "", "i", "", "", "", "l"};
    bool runs = strcmp(schema->format, "+r") == 0;
    if (options->form == HV_ARROW_AS_RUNS && (!runs || strcmp(schema->children[1]->format, "+r") == 0))
        stop("one level of runs", 0);
    if (options->form == HV_ARROW_AS_FLAT && runs) stop("a flat array", 0);
    if (runs && options->end_bits && strcmp(schema->children[0]->format, formats[options->end_bits / 8]) != 0)
        stop("the width of ends", 0);
    const char *format = hv_arrow_value_format(schema);
    if (options->format && strcmp(format, options->format) != 0) stop("the format that was asked for", 0);
    if (!options->format && options->offset_bits && strchr("uUzZ", format[0]) &&
        (strchr("UZ", format[0]) != NULL) != (options->offset_bits == 64))
        stop("the width of offsets", 0);
}

/* What has come in goes out and comes in again. */
static void check_out_and_in(const struct ArrowSchema *from, rows due) {
    struct ArrowSchema schema;
    struct ArrowArray array;
    hv_arrow_options options = random_options(from);
    check_column(&column, due, "a row that came in");
    if (hv_arrow_export_with(&session, &column, "x", &options, &schema, &array, &error)) stop("does not go out", 0);
    check_schema(&schema, &options);
    check_array(&schema, &array, due);
    if (hv_arrow_import(&session, &schema, &array, &again, &error)) stop("does not come in again", 0);
    check_column(&again, due, "a row that came in again");
    if (read_again(&column, &again, &error)) stop("has no bytes", 0);
    check_column(&again, due, "a row that was read");
    hv_arrow_release(&schema, &array);
}

static size_t random_count(void) { return one_in(10) ? 0 : one_in(10) ? below(200) : below(30); }

static void check_one_array(void) {
    struct ArrowSchema schema;
    struct ArrowArray array;
    const type *of = &types[below(TYPES)];
    rows due = random_rows(of, random_count(), one_in(3) ? 0 : 1 + below(6));
    lay_any(of, due, 0, &schema, &array);
    int32_t answer = hv_arrow_import(&session, &schema, &array, &column, &error);
    if (answer) fprintf(stderr, "%s: refused as %" PRId32 "\n", schema.format, answer), stop("a legal array", 0);
    check_out_and_in(&schema, due);
}

static void check_one_batch(void) {
    struct ArrowSchema schema;
    struct ArrowArray array;
    const type *of[3];
    rows due[3];
    size_t count = 1 + below(3), length = random_count();
    for (size_t i = 0; i < count; i++) {
        of[i] = &types[below(TYPES)];
        due[i] = random_rows(of[i], length, one_in(3) ? 0 : 1 + below(6));
    }
    lay_batch(of, due, count, &schema, &array);
    for (size_t i = 0; i < count; i++) {
        if (hv_arrow_import_child(&session, &schema, &array, (int64_t)i, &column, &error)) stop("a legal child", i);
        check_out_and_in(schema.children[i], due[i]);
    }
}

int main(int arguments, char **given) {
    uint64_t count = arguments > 1 ? strtoull(given[1], NULL, 10) : 10000;
    uint64_t seed = arguments > 2 ? strtoull(given[2], NULL, 10) : 1;
    hv_session_initial(&session);
    for (number = 0; number < count; number++) {
        chance_state = (seed * 0x9e3779b97f4a7c15u + number + 1) * 0x2545f4914f6cdd1du | 1;
        chance();
        if (one_in(4)) check_one_batch();
        else check_one_array();
        free_kept();
    }
    hv_free(&column);
    hv_free(&again);
    printf("%" PRIu64 " random legal arrays and batches came in, went out and came in again, and as bytes\n", count);
    return 0;
}
