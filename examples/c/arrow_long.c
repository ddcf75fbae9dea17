/* Random arrays of 2^40 rows in a few runs, laid out by hand, come in, go out and come in again, by themselves and in
 * chunks of a stream. The first and the last row of each stretch are held against those that were laid out, by the
 * reader of arrow_reader.h; no row is written. arrow_long [COUNT [SEED]] */
#include "arrow_columns.h"
#include "arrow_layouts.h"
#include "arrow_reader.h"

enum { MOST_RUNS = 12 };
static const uint64_t far = (uint64_t)1 << 40;

static hv_session session;
static hv_error error;
static hv_column column = HV_EMPTY, again = HV_EMPTY;

/* The rows that an array shows: the value of each stretch, and the row before which it ends. */
typedef struct stretches {
    size_t count;
    row values[MOST_RUNS];
    uint64_t stops[MOST_RUNS];
} stretches;

static uint64_t rows_in(const stretches *due) { return due->count ? due->stops[due->count - 1] : 0; }

/* What is shown from a row on of runs that end at these rows; equal neighbours stay two. */
static stretches shown_of(rows values, const uint64_t *ends, uint64_t offset, uint64_t length) {
    stretches due = {.count = 0};
    for (size_t run = 0; run < values.count; run++) {
        if (ends[run] <= offset || (due.count && rows_in(&due) == length)) continue;
        const uint64_t stop = ends[run] - offset;
        due.values[due.count] = values.at[run];
        due.stops[due.count++] = stop < length ? stop : length;
    }
    return due;
}

/* Runs of 2^40 rows and more, some of one row and some hidden before and after the window. */
static stretches lay_long(const type *of, struct ArrowSchema *schema, struct ArrowArray *array) {
    rows values = random_rows(of, 1 + below(MOST_RUNS), one_in(3) ? 0 : 1 + below(6)), laid = new_rows(values.count);
    uint64_t ends[MOST_RUNS], end = 0;
    for (size_t run = 0; run < values.count; run++) {
        const uint64_t lengths[] = {1, 1 + below(200), far, 1 + chance() % (4 * far)};
        end += lengths[below(4)];
        ends[run] = end;
    }
    const uint64_t offset = one_in(2) ? 0 : one_in(2) ? ends[0] : chance() % end;
    ends[values.count - 1] += far;
    const uint64_t length = ends[values.count - 1] - offset - (one_in(2) ? 0 : below(300));
    for (size_t run = 0; run < values.count; run++) laid.at[run] = number_row(ends[run], 8);
    begin_schema(schema, "+r", one_in(2), 2);
    begin_array(array, length, offset, one_in(8), 2);
    lay_flat(&types[7], laid, schema->children[0], array->children[0]);
    lay_any(of, values, 2, schema->children[1], array->children[1]);
    return shown_of(values, ends, offset, length);
}

/* Calls a check with the first row and the last row of each stretch. */
typedef void (*row_check)(const void *of, uint64_t at, const row *due);
static void check_ends(const void *of, const stretches *due, row_check check) {
    for (size_t run = 0; run < due->count; run++) {
        check(of, run ? due->stops[run - 1] : 0, &due->values[run]);
        check(of, due->stops[run] - 1, &due->values[run]);
    }
}

static void check_row_of_column(const void *of, uint64_t at, const row *due) {
    row found;
    CHECK(!row_at((hv_column *)of, at, &found, &error) && same_row(&found, due));
}

static void check_column(hv_column *of, const stretches *due) {
    CHECK(hv_form(of) == HV_FORM_RUNS && hv_length(of) == rows_in(due));
    check_ends(of, due, check_row_of_column);
}

typedef struct went_out {
    const struct ArrowSchema *schema;
    const struct ArrowArray *array;
    uint64_t before; /* rows of the chunks before */
} went_out;

static void check_row_of_array(const void *of, uint64_t at, const row *due) {
    const went_out *out = (const went_out *)of;
    if (at < out->before || at - out->before >= (uint64_t)out->array->length) return;
    const row found = read_row(out->schema, out->array, at - out->before);
    CHECK(same_row(&found, due));
}

static void check_array(const went_out *out, const stretches *due) {
    CHECK(!why_not_legal(out->schema, out->array) && !strcmp(out->schema->format, "+r"));
    check_ends(out, due, check_row_of_array);
}

/* What has come in goes out and comes in again, and is read of its bytes. */
static void check_out_and_in(const stretches *due) {
    struct ArrowSchema schema;
    struct ArrowArray array;
    const hv_arrow_options options = {.form = (uint8_t)below(2), .end_bits = one_in(2) ? 64 : 0};
    const went_out out = {&schema, &array, 0};
    CHECK(!hv_arrow_export_with(&session, &column, "x", &options, &schema, &array, &error));
    CHECK((uint64_t)array.length == rows_in(due));
    check_array(&out, due);
    CHECK(!hv_arrow_import(&session, &schema, &array, &again, &error));
    check_column(&again, due);
    CHECK(!read_again(&column, &again, &error));
    check_column(&again, due);
    hv_arrow_release(&schema, &array);
}

/* The chunks of a stream, one after the other. */
static void check_stream(const stretches *due) {
    const hv_arrow_options options = {.end_bits = one_in(2) ? 64 : 0};
    const uint64_t chunk = one_in(2) ? 0 : 1 + rows_in(due) / (1 + below(5));
    struct ArrowArrayStream stream;
    struct ArrowSchema schema;
    struct ArrowArray array;
    went_out out = {&schema, &array, 0};
    CHECK(!hv_arrow_export_stream(&session, &column, NULL, 1, chunk, &options, &stream, &error));
    CHECK(!stream.get_schema(&stream, &schema));
    for (;;) {
        CHECK(!stream.get_next(&stream, &array));
        if (!array.release) break;
        check_array(&out, due);
        out.before += (uint64_t)array.length;
        array.release(&array);
    }
    CHECK(out.before == rows_in(due));
    schema.release(&schema);
    stream.release(&stream);
    CHECK(!hv_arrow_export_stream(&session, &column, NULL, 1, chunk, &options, &stream, &error));
    CHECK(!hv_arrow_import_stream(&session, &stream, &again, 1, NULL, NULL, 0, &error));
    check_column(&again, due);
}

int main(int arguments, char **given) {
    const uint64_t count = arguments > 1 ? strtoull(given[1], NULL, 10) : 5000;
    const uint64_t seed = arguments > 2 ? strtoull(given[2], NULL, 10) : 1;
    hv_session_initial(&session);
    for (uint64_t number = 0; number < count; number++) {
        struct ArrowSchema schema;
        struct ArrowArray array;
        chance_state = (seed * 0x9e3779b97f4a7c15u + number + 1) * 0x2545f4914f6cdd1du | 1;
        chance();
        const stretches due = lay_long(&types[below(TYPES)], &schema, &array);
        CHECK(!hv_arrow_import(&session, &schema, &array, &column, &error));
        check_column(&column, &due);
        check_out_and_in(&due);
        check_stream(&due);
        free_kept();
    }
    hv_free(&column);
    hv_free(&again);
    printf("%" PRIu64 " arrays of 2^40 rows in a few runs came in, went out, by streams too, and came in again\n", count);
    return 0;
}
