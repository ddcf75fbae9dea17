/* Tables in C as streams of Arrow, out and in again: formats, floats by their bits, what a stream says of its failure,
 * each refusal, and each request for memory refused in turn (linked with the malloc of refusing_malloc.h). */
#include "hivevigil_table_arrow.h"
#include "refusing_malloc.h"
#include "table_checks.h"

static hv_session session;
static hv_error error;

static void check_readings(const hv_table *table) {
    struct ArrowArrayStream stream;
    struct ArrowSchema schema;
    hv_table out = HV_EMPTY;
    for (size_t rows = 0; rows < 5; rows++) {
        CHECK(!hv_table_export_stream(&session, table, rows, &stream, &error));
        CHECK(!hv_table_import_stream(&session, &stream, &out, &error) && !stream.release);
        CHECK_TABLE(&out, readings_shown);
    }
    CHECK(!hv_table_export_stream(&session, table, 0, &stream, &error));
    CHECK(!stream.get_schema(&stream, &schema) && schema.n_children == 3);
    CHECK(!strcmp(hv_arrow_value_format(schema.children[2]), "tss:UTC") && !strcmp(schema.children[2]->format, "+r"));
    schema.release(&schema);
    stream.release(&stream);
    CHECK_REFUSED(hv_table_import_stream(&session, &stream, &out, &error), HV_ARROW_STREAM_FAILED, EINVAL, 0, 0);
    CHECK_TABLE(&out, readings_shown);
    hv_table_free(&out);
}

static void check_floats(void) {
    struct ArrowArrayStream stream;
    struct ArrowArray array;
    hv_table out = HV_EMPTY, prices = HV_EMPTY;
    make_prices(&prices);
    CHECK(!hv_table_export_stream(&session, &prices, 3, &stream, &error));
    CHECK(!stream.get_next(&stream, &array) && array.length == 3); /* 0.5 0.5 null */
    const double *const items = (const double *)array.children[0]->children[1]->buffers[1];
    CHECK(array.children[0]->n_children == 2 && items[0] == 0.5);
    array.release(&array);
    CHECK(!hv_table_import_stream(&session, &stream, &out, &error)); /* the batch that is left */
    CHECK_TABLE(&out, "1 | price:g -0"); /* the key of -0.0 is below that of 0.0, which is 0 */
    hv_table_free(&out);
    hv_table_free(&prices);
}

/* A format that names no type of Arrow, or has a zero byte, says nothing there. */
static void check_other_formats(void) {
    static const struct {
        const char *format;
        size_t size;
    } others[] = {{"no type", 7}, {"g\0", 2}, {"tDs\0", 4}, {"e", 1}};
    const char *const name[] = {"a"};
    const int64_t rows[] = {5, 6};
    for (size_t i = 0; i < COUNT(others); i++) {
        struct ArrowArrayStream stream;
        hv_table table = HV_EMPTY, out = HV_EMPTY;
        hv_column column = HV_EMPTY;
        CHECK(!hv_i64(rows, 2, NOT_NULLABLE, &column, &error));
        CHECK(!hv_table_give_format(&column, others[i].format, others[i].size, &error));
        CHECK(!hv_table_of(name, &column, 1, &table, &error));
        CHECK(!hv_table_export_stream(&session, &table, 0, &stream, &error));
        CHECK(!hv_table_import_stream(&session, &stream, &out, &error));
        CHECK_TABLE(&out, "2 | a: 5 6");
        hv_free(&column);
        hv_table_free(&table);
        hv_table_free(&out);
    }
}

static void check_refusals(const hv_table *table) {
    const char *const twice[] = {"a", "b", "a"};
    struct ArrowArrayStream stream;
    hv_table out = HV_EMPTY, none = HV_EMPTY, zero = HV_EMPTY;
    hv_column columns[3] = {HV_EMPTY, HV_EMPTY, HV_EMPTY};
    for (size_t i = 0; i < 3; i++) CHECK(!hv_table_column(table, 1, &columns[i], &error));
    CHECK(!hv_table_slice(table, 0, 1, &out, &error) && !hv_table_new(4, &none, &error));
    CHECK_REFUSED(hv_table_export_stream(&session, &none, 0, &stream, &error), HV_UNSUPPORTED, 0, 0,
                  HV_TABLE_WITHOUT_COLUMNS);
    CHECK(!hv_table_new(0, &zero, &error) && !hv_table_put(&zero, (const uint8_t *)"a\0b", 3, columns, &error));
    CHECK_REFUSED(hv_table_export_stream(&session, &zero, 0, &stream, &error), HV_UNSUPPORTED, 0, 0,
                  HV_TABLE_WITH_ZERO_BYTE);
    CHECK(!hv_arrow_export_stream(&session, columns, NULL, 1, 0, NULL, &stream, &error)); /* arrays */
    CHECK_REFUSED(hv_table_import_stream(&session, &stream, &out, &error), HV_UNSUPPORTED, 0, 0,
                  HV_TABLE_WITHOUT_BATCHES);
    CHECK(!hv_arrow_export_stream(&session, columns, twice, 3, 0, NULL, &stream, &error));
    CHECK_REFUSED(hv_table_import_stream(&session, &stream, &out, &error), HV_TABLE_NAME_TWICE, 0, 2, 0);
    CHECK(!stream.release && has_shape(&out, 1, 3));
    CHECK(hv_table_export_stream(&session, &(hv_table)HV_EMPTY, 0, &stream, &error) == HV_NO_COLUMN);
    for (size_t i = 0; i < 3; i++) hv_free(&columns[i]);
    hv_table_free(&out), hv_table_free(&none), hv_table_free(&zero);
}

/* ---- A stream that gives one batch, or none, fails, and says why, or nothing ---- */

static int fails_at = 0;
static const char *said = NULL;
static int give_schema(struct ArrowArrayStream *stream, struct ArrowSchema *out) {
    const hv_table *const table = (const hv_table *)stream->private_data;
    struct ArrowArrayStream own;
    if (fails_at == 0) return EIO;
    CHECK(!hv_table_export_stream(&session, table, 0, &own, NULL) && !own.get_schema(&own, out));
    own.release(&own);
    return 0;
}
static int give_none(struct ArrowArrayStream *stream, struct ArrowArray *out) { return (void)stream, (void)out, EIO; }
static const char *give_words(struct ArrowArrayStream *stream) { return (void)stream, said; }
static void release_stream(struct ArrowArrayStream *stream) { stream->release = NULL; }

static void check_words(hv_table *table) {
    const char *const all_said[] = {"disk on fire", NULL};
    char words[16], few[5], text[HV_ERROR_TEXT];
    hv_table out = HV_EMPTY;
    for (fails_at = 0; fails_at < 2; fails_at++)
        for (size_t i = 0; i < COUNT(all_said); i++) {
            struct ArrowArrayStream stream = {give_schema, give_none, give_words, release_stream, table};
            said = all_said[i];
            CHECK_REFUSED(hv_table_import_stream_words(&session, &stream, words, sizeof words, &out, &error),
                          HV_ARROW_STREAM_FAILED, EIO, 0, 0);
            CHECK(!strcmp(words, said ? said : "") && !stream.release && !out.at);
            stream.release = release_stream;
            CHECK(hv_table_import_stream_words(&session, &stream, few, sizeof few, &out, NULL) ==
                  HV_ARROW_STREAM_FAILED);
            CHECK(!strcmp(few, said ? "disk" : ""));
        }
    CHECK(!strcmp(hv_table_error_text(HV_ARROW_STREAM_FAILED, &error, text), "the Arrow stream failed with 5"));
    CHECK(!strcmp(hv_table_error_name(HV_ARROW_STREAM_FAILED), "HV_ARROW_STREAM_FAILED"));
}

/* ---- Each request for memory refused in turn ---- */

static long refuse_each(const hv_table *lent, const char *rows, hv_error *fields) {
    hv_table out = HV_EMPTY;
    for (long at = 0;; at++) {
        struct ArrowArrayStream stream;
        CHECK(!hv_table_slice(lent, 0, 1, &out, &error));
        const long before = blocks;
        requests = refused = 0, refuse_at = at;
        int32_t answer = hv_table_export_stream(&session, lent, 2, &stream, fields);
        if (!answer) answer = hv_table_import_stream(&session, &stream, &out, fields);
        refuse_at = -1;
        if (refused == 0) {
            CHECK(!answer);
            hv_table_free(&out);
            return at;
        }
        const bool is_of_stream = answer == HV_ARROW_STREAM_FAILED && (!fields || error.first == ENOMEM);
        CHECK(answer == HV_OUT_OF_MEMORY || is_of_stream || !answer); /* some calls go on without */
        if (answer) CHECK(blocks == before && hv_table_len(&out) == 1);
        CHECK_TABLE(lent, rows);
    }
}

static void check_memory(const hv_table *table) {
    hv_table prices = HV_EMPTY;
    make_prices(&prices);
    const char *const rows = "4 | price:g 0.5 0.5 null -0";
    long tried = refuse_each(table, readings_shown, &error) + refuse_each(table, readings_shown, NULL);
    tried += refuse_each(&prices, rows, &error) + refuse_each(&prices, rows, NULL);
    CHECK(tried > 100);
    hv_table_free(&prices);
    printf("%ld requests for memory refused\n", tried);
}

int main(void) {
    hv_table table = HV_EMPTY;
    hv_session_initial(&session);
    make_readings(&table);
    check_readings(&table);
    check_floats();
    check_other_formats();
    check_refusals(&table);
    check_words(&table);
    check_memory(&table);
    hv_table_free(&table);
    CHECK(blocks == 0);
    printf("tables go out to Arrow and come in as they were\n");
    return 0;
}
