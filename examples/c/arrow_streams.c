/* Streams of Arrow arrays in and out: chunk by chunk and all at once, one schema for all chunks, dictionaries that are
 * read once, streams that fail, of which nothing is lost and everything released. Answers were worked out by hand, but
 * for the random streams, whose rows are those that were laid out. */
#include "arrow_given.h"
#include "arrow_layouts.h"
#include "arrow_reader.h"
#include "check.h"

static hv_session session;
static hv_error error;
static hv_column column = HV_EMPTY, columns[3];
static char words[32];

#define TEXTS(column, texts) \
    CHECK(!hv_texts(0, texts##_offsets, COUNT(texts##_offsets), (const uint8_t *)texts, sizeof texts - 1, \
                    NOT_NULLABLE, column, &error))

#define IMPORT(from, count) hv_arrow_import_stream(&session, from, columns, count, NULL, words, sizeof words, &error)

/* ---- Chunks of numbers: 1 2, then none, then 2 null 3 ---- */

static const int32_t first_items[2] = {1, 2}, last_items[4] = {9, 2, 0, 3};
static const uint8_t last_bits[1] = {0x0b};
static const void *first_buffers[2] = {NULL, first_items}, *no_buffers[2] = {NULL, NULL},
                  *last_buffers[2] = {last_bits, last_items};
static struct ArrowArray first_chunk = {2, 0, 0, 2, 0, first_buffers, NULL, NULL, release_array, NULL};
static struct ArrowArray empty_chunk = {0, 0, 0, 2, 0, no_buffers, NULL, NULL, release_array, NULL};
static struct ArrowArray last_chunk = {3, 1, 1, 2, 0, last_buffers, NULL, NULL, release_array, NULL};

static given numbers_given(void) {
    given made = {.schema = {.format = "i", .flags = ARROW_FLAG_NULLABLE, .release = count_schema}, .count = 3};
    made.chunks[0] = &first_chunk;
    made.chunks[1] = &empty_chunk;
    made.chunks[2] = &last_chunk;
    return made;
}

static void check_chunk_by_chunk(void) {
    const char *const rows[3] = {"1 2", "", "2 null 3"};
    given from = numbers_given();
    struct ArrowArrayStream stream = stream_of(&from);
    hv_arrow_reader *reader;
    uint8_t more;
    CHECK(!hv_arrow_open(&stream, &reader, &error) && !stream.release && from.released == 0);
    CHECK(hv_arrow_width(reader) == 1 && strcmp(hv_arrow_schema_of(reader)->format, "i") == 0);
    CHECK_REFUSED(hv_arrow_next(&session, reader, columns, 2, &more, &error), HV_COLUMN_LENGTH, 1, 2, 0);
    for (size_t i = 0; i < 3; i++) {
        CHECK(!hv_arrow_next(&session, reader, columns, 1, &more, &error) && more == 1);
        CHECK_ROWS(&columns[0], rows[i]);
    }
    for (size_t i = 0; i < 2; i++) {
        CHECK(!hv_arrow_next(&session, reader, columns, 1, &more, &error) && more == 0);
        CHECK_ROWS(&columns[0], rows[2]);
    }
    CHECK(strcmp(hv_arrow_words(reader), "") == 0);
    hv_arrow_close(reader);
    check_released(&from, &stream);
}

static void check_all_chunks(void) {
    given from = numbers_given();
    struct ArrowArrayStream stream = stream_of(&from);
    CHECK(!IMPORT(&stream, 1));
    CHECK_ROWS(&columns[0], "1 2 2 null 3");
    check_released(&from, &stream);
    from.count = 1, stream = stream_of(&from);
    CHECK(!IMPORT(&stream, 1));
    CHECK_ROWS(&columns[0], "1 2");
    check_released(&from, &stream);
}

/* A stream without chunks: no rows of the type that its schema says, runs and dictionaries included. */
static void check_no_chunks(void) {
    struct ArrowSchema ends = {.format = "l", .release = count_schema},
                       texts = {.format = "vu", .release = count_schema};
    struct ArrowSchema codes = {.format = "c", .flags = 2, .dictionary = &texts, .release = count_schema};
    struct ArrowSchema *children[2] = {&ends, &codes};
    given from = {.schema = {.format = "+r", .n_children = 2, .children = children}};
    struct ArrowArrayStream stream = stream_of(&from);
    CHECK(!IMPORT(&stream, 1) && hv_length(&columns[0]) == 0);
    CHECK(hv_form(&columns[0]) == FORM_RUNS && hv_kind_of(&columns[0]).number == HV_UTF8);
    CHECK(hv_kind_of(&columns[0]).nullable == 1);
    check_released(&from, &stream);
    from.schema.format = "d:12,3", from.schema.n_children = 0, stream = stream_of(&from);
    CHECK(!IMPORT(&stream, 1) && hv_kind_of(&columns[0]).precision == 12 && hv_kind_of(&columns[0]).scale == 3);
    from.schema.format = "+m", stream = stream_of(&from);
    CHECK_REFUSED(IMPORT(&stream, 1), HV_UNSUPPORTED, 0, 0, 0);
    check_released(&from, &stream);
}

/* ---- Streams that fail ---- */

static void check_failing_streams(void) {
    given from = numbers_given();
    struct ArrowArrayStream stream = stream_of(&from);
    CHECK(!IMPORT(&stream, 1));
    from.error = 5, from.said = "the disk is gone, and with it the rest of the file", stream = stream_of(&from);
    CHECK_REFUSED(IMPORT(&stream, 1), HV_ARROW_STREAM_FAILED, 5, 0, 0);
    CHECK(strcmp(words, "the disk is gone, and with it t") == 0);
    CHECK_ROWS(&columns[0], "1 2 2 null 3");
    check_released(&from, &stream);
    from.said = NULL, stream = stream_of(&from);
    CHECK(IMPORT(&stream, 1) == HV_ARROW_STREAM_FAILED && words[0] == 0);
    from.schema_error = 22, from.said = "no schema", stream = stream_of(&from);
    CHECK_REFUSED(IMPORT(&stream, 1), HV_ARROW_STREAM_FAILED, 22, 0, 0);
    CHECK(strcmp(words, "no schema") == 0);
    check_released(&from, &stream);
    from.schema_error = 0, stream = stream_of(&from);
    CHECK_REFUSED(IMPORT(&stream, 2), HV_COLUMN_LENGTH, 1, 2, 0);
    check_released(&from, &stream);
    CHECK_REFUSED(IMPORT(&stream, 1), HV_ARROW_INVALID, HV_ARROW_RELEASED, 0, 0); /* released before */
    CHECK_REFUSED(IMPORT(NULL, 1), HV_ARROW_INVALID, HV_ARROW_RELEASED, 0, 0);
    CHECK_ROWS(&columns[0], "1 2 2 null 3");
}

static void check_broken_streams(void) {
    given from = numbers_given();
    struct ArrowArrayStream stream = stream_of(&from);
    stream.get_schema = NULL;
    CHECK_REFUSED(IMPORT(&stream, 1), HV_ARROW_INVALID, HV_ARROW_NO_POINTER, 0, 0);
    check_released(&from, &stream);
    stream = stream_of(&from), stream.get_next = NULL;
    CHECK_REFUSED(IMPORT(&stream, 1), HV_ARROW_INVALID, HV_ARROW_NO_POINTER, 0, 0);
    stream = stream_of(&from), stream.get_last_error = NULL, from.error = 1;
    CHECK_REFUSED(IMPORT(&stream, 1), HV_ARROW_STREAM_FAILED, 1, 0, 0);
    from.error = 0, last_chunk.n_buffers = 1, stream = stream_of(&from);
    CHECK_REFUSED(IMPORT(&stream, 1), HV_ARROW_INVALID, HV_ARROW_PARTS, 0, 0);
    check_released(&from, &stream);
    last_chunk.n_buffers = 2, from.schema.format = "+s", from.schema.n_children = 2, stream = stream_of(&from);
    CHECK_REFUSED(IMPORT(&stream, 2), HV_ARROW_INVALID, HV_ARROW_NO_POINTER, 0, 0);
    check_released(&from, &stream);
}

/* A chunk that is refused is gone, and the next one comes. */
static void check_after_refusal(void) {
    given from = numbers_given();
    struct ArrowArrayStream stream = stream_of(&from);
    hv_arrow_reader *reader;
    uint8_t more;
    first_chunk.null_count = 1;
    CHECK(!hv_arrow_open(&stream, &reader, &error));
    CHECK_REFUSED(hv_arrow_next(&session, reader, columns, 1, &more, &error), HV_ARROW_INVALID, HV_ARROW_NULL_COUNT, 0,
                  0);
    CHECK(more == 0);
    CHECK(!hv_arrow_next(&session, reader, columns, 1, &more, &error) && more == 1 && hv_length(&columns[0]) == 0);
    CHECK(!hv_arrow_next(&session, reader, columns, 1, &more, &error) && more == 1);
    CHECK_ROWS(&columns[0], "2 null 3");
    first_chunk.null_count = 0;
    hv_arrow_close(reader);
    check_released(&from, &stream);
    hv_arrow_close(NULL);
}

/* ---- Batches with a column that is not served ---- */

static void check_columns_left_out(void) {
    const double halves[2] = {0.5, -0.5};
    const uint8_t how[2][2] = {{HV_ARROW_READ, HV_ARROW_LEAVE_OUT}, {HV_ARROW_LEAVE_OUT, HV_ARROW_READ_BITS}};
    const void *none[1] = {NULL}, *halves_buffers[2] = {NULL, halves};
    struct ArrowSchema number = {.format = "i", .release = count_schema},
                       half = {.format = "g", .release = count_schema};
    struct ArrowSchema *schemas[2] = {&number, &half};
    struct ArrowArray floats = {2, 0, 0, 2, 0, halves_buffers, NULL, NULL, release_array, NULL};
    struct ArrowArray *arrays[2] = {&first_chunk, &floats};
    struct ArrowArray batch = {2, 0, 0, 1, 2, none, arrays, NULL, release_array, NULL};
    given from = {.schema = {.format = "+s", .n_children = 2, .children = schemas}, .count = 2};
    from.chunks[0] = from.chunks[1] = &batch;
    struct ArrowArrayStream stream = stream_of(&from);
    CHECK_REFUSED(IMPORT(&stream, 2), HV_UNSUPPORTED, 0, 0, 0);
    stream = stream_of(&from);
    CHECK(!hv_arrow_import_stream(&session, &stream, columns, 2, how[0], NULL, 0, &error));
    CHECK_ROWS(&columns[0], "1 2 1 2");
    CHECK(hv_form(&columns[1]) == FORM_NONE);
    stream = stream_of(&from);
    CHECK(!hv_arrow_import_stream(&session, &stream, columns, 2, how[1], NULL, 0, &error));
    CHECK_ROWS(&columns[0], "1 2 1 2");
    CHECK_ROWS(&columns[1], "4602678819172646912 13826050856027422720 4602678819172646912 13826050856027422720");
    check_released(&from, &stream);
}

/* ---- Dictionaries ---- */

static const int8_t codes_items[3] = {1, 0, 1};
static const int32_t letter_offsets[3] = {0, 1, 2};
static char letters[2], other_letters[2] = {'c', 'd'};
static const void *codes_buffers[2] = {NULL, codes_items}, *letters_buffers[3] = {NULL, letter_offsets, letters},
                  *other_buffers[3] = {NULL, letter_offsets, other_letters};
static struct ArrowSchema letters_schema = {.format = "u", .release = count_schema};
static struct ArrowArray dictionary_array = {2, 0, 0, 3, 0, letters_buffers, NULL, NULL, release_array, NULL};
static struct ArrowArray other_array = {2, 0, 0, 3, 0, other_buffers, NULL, NULL, release_array, NULL};
static struct ArrowArray coded_chunk = {3, 0, 0, 2, 0, codes_buffers, NULL, &dictionary_array, release_array, NULL};
static struct ArrowArray other_chunk = {3, 0, 0, 2, 0, codes_buffers, NULL, &other_array, release_array, NULL};

/* Codes over the letters a and b in each chunk, but over others in the third. */
static given codes_given(void) {
    given from = {.schema = {.format = "c", .dictionary = &letters_schema}, .count = 5};
    for (size_t i = 0; i < 5; i++) from.chunks[i] = i == 2 ? &other_chunk : &coded_chunk;
    memcpy(letters, "ab", 2);
    return from;
}

/* A dictionary that chunks share is read once, which shows where its bytes are changed between them, as no producer
 * may; it is read again where the chunk before had another. */
static void check_shared_dictionaries(void) {
    const char *const rows[5] = {"\"b\" \"a\" \"b\"", "\"b\" \"a\" \"b\"", "\"d\" \"c\" \"d\"", "\"b\" \"x\" \"b\"",
                                 "\"b\" \"x\" \"b\""};
    given from = codes_given();
    struct ArrowArrayStream stream = stream_of(&from);
    hv_arrow_reader *reader;
    uint8_t more;
    CHECK(!hv_arrow_open(&stream, &reader, &error));
    for (size_t i = 0; i < 5; i++) {
        CHECK(!hv_arrow_next(&session, reader, columns, 1, &more, &error) && more == 1);
        CHECK_ROWS(&columns[0], rows[i]);
        letters[0] = 'x';
    }
    hv_arrow_close(reader);
    check_released(&from, &stream);
}

/* A dictionary that the chunk before was not asked for is read again: what it was known by may be gone. */
static void check_dictionary_after_gap(void) {
    given from = codes_given();
    struct ArrowArrayStream stream = stream_of(&from);
    hv_arrow_reader *reader;
    uint8_t more;
    from.chunks[2] = &coded_chunk;
    CHECK(!hv_arrow_open(&stream, &reader, &error));
    CHECK(!hv_arrow_next(&session, reader, columns, 1, &more, &error));
    CHECK_ROWS(&columns[0], "\"b\" \"a\" \"b\"");
    letters[0] = 'x';
    hv_arrow_choose(reader, 0, HV_ARROW_LEAVE_OUT);
    CHECK(!hv_arrow_next(&session, reader, columns, 1, &more, &error) && more == 1);
    CHECK_ROWS(&columns[0], "\"b\" \"a\" \"b\"");
    hv_arrow_choose(reader, 0, HV_ARROW_READ);
    CHECK(!hv_arrow_next(&session, reader, columns, 1, &more, &error) && more == 1);
    CHECK_ROWS(&columns[0], "\"b\" \"x\" \"b\"");
    hv_arrow_close(reader);
    check_released(&from, &stream);
}

/* ---- Streams out ---- */

/* What a stream gives, chunk by chunk: formats are those of the schema, and rows those of the columns. */
static void check_stream(struct ArrowArrayStream *stream, const char *format, size_t chunks, rows due) {
    struct ArrowSchema schema, again;
    struct ArrowArray array;
    size_t at = 0, count = 0;
    CHECK(!stream->get_schema(stream, &schema) && !stream->get_schema(stream, &again));
    CHECK(strcmp(schema.format, format) == 0 && strcmp(again.format, format) == 0);
    again.release(&again);
    for (; !stream->get_next(stream, &array) && array.release; count++) {
        CHECK(!why_not_legal(&schema, &array));
        for (int64_t i = 0; i < array.length; i++, at++) {
            row found = read_row(&schema, &array, (size_t)i);
            CHECK(at < due.count && same_row(&found, &due.at[at]));
        }
        array.release(&array);
    }
    CHECK(at == due.count && count == chunks);
    CHECK(!stream->get_next(stream, &array) && !array.release);
    schema.release(&schema);
    stream->release(stream);
    CHECK(!stream->release);
}

static rows rows_of_numbers(const int64_t *items, size_t count) {
    rows made = new_rows(count);
    for (size_t i = 0; i < count; i++) made.at[i] = number_row((uint64_t)items[i], 8);
    return made;
}

/* One schema for all chunks, also where a chunk of runs is a constant, and one of no rows. */
static void check_one_schema(void) {
    const int64_t items[7] = {5, 5, 5, 5, 6, 7, 7};
    const hv_arrow_options flat = {.form = HV_ARROW_AS_FLAT}, narrow = {.end_bits = 16}, wide = {.end_bits = 64};
    const hv_arrow_options *const options[] = {NULL, &narrow, &wide, &flat};
    const char *const formats[] = {"i", "s", "l", ""};
    struct ArrowArrayStream stream;
    struct ArrowSchema schema;
    rows due = rows_of_numbers(items, 7);
    hv_column plain = HV_EMPTY, runs = HV_EMPTY;
    CHECK(!hv_i64(items, 7, NOT_NULLABLE, &plain, &error) && !hv_encode(&session, &plain, &runs, &error));
    for (size_t i = 0; i < COUNT(options); i++) {
        CHECK(!hv_arrow_export_stream(&session, &runs, NULL, 1, 3, options[i], &stream, &error));
        CHECK(!stream.get_schema(&stream, &schema));
        CHECK(i == 3 || strcmp(schema.children[0]->format, formats[i]) == 0);
        schema.release(&schema);
        check_stream(&stream, i == 3 ? "l" : "+r", 3, due);
    }
    CHECK(!hv_slice(&session, &runs, 2, 2, &column, &error));
    CHECK(!hv_arrow_export_stream(&session, &column, NULL, 1, 3, NULL, &stream, &error));
    check_stream(&stream, hv_form(&column) == FORM_FLAT ? "l" : "+r", 1, rows_of_numbers(items, 0));
    const hv_arrow_options as_runs = {.form = HV_ARROW_AS_RUNS, .format = "tsn:"};
    CHECK(!hv_arrow_export_stream(&session, &plain, NULL, 1, 0, &as_runs, &stream, &error));
    check_stream(&stream, "+r", 1, due);
    hv_free(&plain);
    hv_free(&runs);
}

/* Runs of runs go out as one level in every chunk, also where a chunk shows only one run. */
static void check_one_level(void) {
    const uint8_t outer[2] = {3, 7};
    const int64_t inner[2] = {5, 6}, items[7] = {5, 5, 5, 6, 6, 6, 6};
    struct ArrowArrayStream stream;
    struct ArrowSchema schema;
    hv_column ends = HV_EMPTY, values = HV_EMPTY;
    CHECK(!hv_i64(inner, 2, NOT_NULLABLE, &column, &error) && !hv_encode(&session, &column, &values, &error));
    CHECK(!hv_u8(outer, 2, NOT_NULLABLE, &ends, &error) && !hv_runs(&ends, &values, 0, 7, &column, &error));
    CHECK(hv_form(&values) == FORM_RUNS);
    CHECK(!hv_arrow_export_stream(&session, &column, NULL, 1, 2, NULL, &stream, &error));
    CHECK(!stream.get_schema(&stream, &schema) && strcmp(schema.children[1]->format, "l") == 0);
    schema.release(&schema);
    check_stream(&stream, "+r", 4, rows_of_numbers(items, 7));
    hv_free(&ends);
    hv_free(&values);
}

/* Batches of two columns, the second of texts by 64-bit offsets; half of them are never asked for. */
static void check_batches_out(void) {
    static const char texts[] = "abbccc";
    static const int32_t texts_offsets[] = {0, 1, 3, 6};
    const int64_t items[3] = {1, 2, 3};
    const char *const names[2] = {"number", "text"};
    const hv_arrow_options options[2] = {{0}, {.offset_bits = 64}};
    struct ArrowArrayStream stream;
    struct ArrowSchema schema;
    struct ArrowArray array;
    CHECK(!hv_i64(items, 3, NOT_NULLABLE, &columns[0], &error));
    TEXTS(&columns[1], texts);
    CHECK(!hv_arrow_export_stream(&session, columns, names, 2, 1, options, &stream, &error));
    CHECK(!stream.get_schema(&stream, &schema) && strcmp(schema.format, "+s") == 0 && schema.n_children == 2);
    CHECK(strcmp(schema.children[0]->name, "number") == 0 && strcmp(schema.children[1]->format, "U") == 0);
    CHECK(!stream.get_next(&stream, &array) && array.length == 1 && array.n_buffers == 1 && !array.buffers[0]);
    CHECK(!why_not_legal(schema.children[1], array.children[1]));
    CHECK(!hv_arrow_import_child(&session, &schema, &array, 1, &column, &error));
    CHECK_ROWS(&column, "\"a\"");
    array.release(&array);
    schema.release(&schema);
    CHECK(!hv_arrow_import_stream(&session, &stream, columns, 2, NULL, NULL, 0, &error) && !stream.release);
    CHECK_ROWS(&columns[0], "2 3");
    CHECK_ROWS(&columns[1], "\"bb\" \"ccc\"");
}

static void check_streams_out_refused(void) {
    static const char texts[] = "ab";
    static const int32_t texts_offsets[] = {0, 1, 2};
    const int64_t items[3] = {1, 2, 3};
    const char *const names[2] = {"a", "b"};
    const hv_arrow_options odd = {.end_bits = 8};
    struct ArrowArrayStream stream;
    CHECK(!hv_i64(items, 3, NOT_NULLABLE, &columns[0], &error));
    TEXTS(&columns[1], texts);
    CHECK_REFUSED(hv_arrow_export_stream(&session, columns, names, 2, 1, NULL, &stream, &error), HV_COLUMN_LENGTH, 3, 2,
                  0);
    CHECK_REFUSED(hv_arrow_export_stream(&session, columns, NULL, 2, 1, NULL, &stream, &error), HV_UNSUPPORTED, 0, 0,
                  0);
    CHECK_REFUSED(hv_arrow_export_stream(&session, columns, NULL, 0, 1, NULL, &stream, &error), HV_UNSUPPORTED, 0, 0,
                  0);
    CHECK(hv_arrow_export_stream(&session, columns, NULL, 1, 1, &odd, &stream, &error) == HV_BAD_NUMBER);
    const hv_arrow_options mismatched = {.format = "tdD"};
    CHECK_REFUSED(hv_arrow_export_stream(&session, columns, NULL, 1, 1, &mismatched, &stream, &error), HV_TYPE_MISMATCH,
                  0, 0, 0);
    const int64_t many[2] = {32768, 1};
    hv_column ends = HV_EMPTY, runs = HV_EMPTY;
    const hv_arrow_options narrow = {.end_bits = 16};
    CHECK(!hv_u64((const uint64_t *)many, 1, NOT_NULLABLE, &ends, &error));
    CHECK(!hv_i64(many, 1, NOT_NULLABLE, &column, &error) && !hv_runs(&ends, &column, 0, 32768, &runs, &error));
    CHECK_REFUSED(hv_arrow_export_stream(&session, &runs, NULL, 1, 0, &narrow, &stream, &error),
                  HV_ARROW_ENDS_TOO_LARGE, 32768, 32767, 0);
    CHECK(!stream.release);
    CHECK(!hv_arrow_export_stream(&session, &runs, NULL, 1, 32767, &narrow, &stream, &error));
    stream.release(&stream);
    hv_free(&ends);
    hv_free(&runs);
    hv_free(&columns[2]);
    CHECK(hv_arrow_export_stream(&session, &columns[2], NULL, 1, 0, NULL, &stream, &error) == HV_NO_COLUMN);
}

/* Codes by chunks over one dictionary in one place, which lives as long as the last chunk that has it. */
static void check_dictionary_out(void) {
    static const char texts[] = "onx";
    static const int32_t texts_offsets[] = {0, 2, 3};
    const uint8_t codes[4] = {1, 1, 0, 1};
    struct ArrowArrayStream stream;
    struct ArrowSchema schema;
    struct ArrowArray chunks[2];
    hv_column dictionary = HV_EMPTY;
    TEXTS(&dictionary, texts);
    const hv_arrow_options options = {.form = HV_ARROW_AS_RUNS, .dictionary = &dictionary, .format = "U"};
    CHECK(!hv_u8(codes, 4, NOT_NULLABLE, &columns[0], &error));
    CHECK(!hv_arrow_export_stream(&session, columns, NULL, 1, 2, &options, &stream, &error));
    CHECK(!stream.get_schema(&stream, &schema));
    CHECK(!stream.get_next(&stream, &chunks[0]) && !stream.get_next(&stream, &chunks[1]));
    stream.release(&stream);
    CHECK(strcmp(schema.children[1]->format, "C") == 0 && strcmp(schema.children[1]->dictionary->format, "U") == 0);
    CHECK(chunks[0].children[1]->dictionary->buffers == chunks[1].children[1]->dictionary->buffers);
    chunks[0].release(&chunks[0]);
    CHECK(!why_not_legal(&schema, &chunks[1]));
    CHECK(!hv_arrow_import(&session, &schema, &chunks[1], &column, &error));
    CHECK_ROWS(&column, "\"on\" \"x\"");
    chunks[1].release(&chunks[1]);
    schema.release(&schema);
    const uint8_t past[1] = {2};
    CHECK(!hv_u8(past, 1, NOT_NULLABLE, &columns[0], &error));
    CHECK_REFUSED(hv_arrow_export_stream(&session, columns, NULL, 1, 2, &options, &stream, &error), HV_OUT_OF_BOUNDS, 2,
                  2, 0);
    hv_free(&dictionary);
}

/* ---- Random streams ---- */

/* Flat chunks of random numbers of rows come in as one column. */
static rows import_random_chunks(const type *of) {
    struct ArrowSchema schema;
    struct ArrowArray arrays[8];
    rows none = random_rows(of, 0, 0), due = none;
    given from = {.count = 1 + below(7)};
    for (size_t i = 0; i < from.count; i++) {
        rows more = random_rows(of, below(70), one_in(3) ? 0 : 3);
        due = joined(due, more, none);
        lay_flat(of, more, &schema, &arrays[i]);
        from.chunks[i] = &arrays[i];
    }
    from.schema = schema;
    from.schema.flags |= ARROW_FLAG_NULLABLE;
    struct ArrowArrayStream stream = stream_of(&from);
    CHECK(!IMPORT(&stream, 1));
    check_released(&from, &stream);
    return due;
}

/* Flat chunks come in, go out in chunks of another size and another form, come in again and go out as one. */
static void check_random_stream(void) {
    static const uint8_t ends[] = {0, 16, 32, 64};
    rows due = import_random_chunks(&types[below(TYPES)]);
    const hv_arrow_options options = {.form = (uint8_t)below(3), .end_bits = ends[below(4)]}, flat = {.form = 2};
    const char *value = NULL;
    size_t step = below(40), chunks = due.count && step ? (due.count + step - 1) / step : 1;
    struct ArrowArrayStream stream;
    struct ArrowSchema schema;
    char format[64];
    for (int pass = 0; pass < 2; pass++) {
        CHECK(!hv_arrow_export_stream(&session, columns, NULL, 1, step, &options, &stream, &error));
        CHECK(!stream.get_schema(&stream, &schema));
        value = hv_arrow_value_format(&schema);
        snprintf(format, sizeof format, "%s", pass == 0 ? schema.format : value);
        schema.release(&schema);
        if (pass == 0) check_stream(&stream, format, chunks, due);
    }
    CHECK(!IMPORT(&stream, 1));
    CHECK(!hv_arrow_export_stream(&session, columns, NULL, 1, 0, &flat, &stream, &error));
    check_stream(&stream, format, 1, due);
    free_kept();
}

int main(void) {
    hv_session_initial(&session);
    check_chunk_by_chunk();
    check_all_chunks();
    check_no_chunks();
    check_failing_streams();
    check_broken_streams();
    check_after_refusal();
    check_columns_left_out();
    check_shared_dictionaries();
    check_dictionary_after_gap();
    check_one_schema();
    check_one_level();
    check_batches_out();
    check_streams_out_refused();
    check_dictionary_out();
    free_kept();
    for (int i = 0; i < 2000; i++) check_random_stream();
    for (size_t i = 0; i < COUNT(columns); i++) hv_free(&columns[i]);
    hv_free(&column);
    puts("streams come in and go out, all chunks of one schema, and what fails is released");
    return 0;
}
