/* Streams in, a part of hivevigil_arrow.h, which includes it: a reader of chunks, and all chunks at once. */
#ifndef HIVEVIGIL_ARROW_STREAM_IN_H
#define HIVEVIGIL_ARROW_STREAM_IN_H
#include "hivevigil_arrow_concat.h"
#include "hivevigil_arrow_in.h"

/* ---- A reader ---- */

struct hv_arrow_reader {
    struct ArrowArrayStream stream;
    struct ArrowSchema schema;
    struct ArrowArray chunk; /* the last one, whose dictionaries may be those of the next */
    hv_arrow_dictionaries kept;
    size_t width;
    uint8_t *how; /* for each column */
    bool batches, ended;
    char *words; /* NULL: none */
};

/* Keeps what the stream says of the number that it answered; without memory for it, nothing. */
static inline int32_t hv_arrow_failed(hv_arrow_reader *reader, int number, hv_error *error) {
    struct ArrowArrayStream *stream = &reader->stream;
    const char *words = stream->get_last_error ? stream->get_last_error(stream) : NULL;
    reader->ended = true;
    free(reader->words);
    reader->words = words ? (char *)malloc(strlen(words) + 1) : NULL;
    if (reader->words) strcpy(reader->words, words);
    return hv_arrow_refuse(HV_ARROW_STREAM_FAILED, (uint64_t)(int64_t)number, 0, error);
}

/* What the schema of the stream says of its chunks. */
static inline int32_t hv_arrow_take_schema(hv_arrow_reader *reader, hv_error *error) {
    struct ArrowSchema *schema = &reader->schema;
    if (!reader->stream.get_schema || !reader->stream.get_next) return hv_arrow_invalid(HV_ARROW_NO_POINTER, error);
    int number = reader->stream.get_schema(&reader->stream, schema);
    if (number) {
        schema->release = NULL; /* what a stream leaves that failed is not a schema */
        return hv_arrow_failed(reader, number, error);
    }
    if (!schema->release) return hv_arrow_invalid(HV_ARROW_RELEASED, error);
    if (!schema->format) return hv_arrow_invalid(HV_ARROW_NO_POINTER, error);
    reader->batches = strcmp(schema->format, "+s") == 0;
    if (reader->batches && schema->n_children < 0) return hv_arrow_invalid(HV_ARROW_PARTS, error);
    if (reader->batches && schema->n_children > 0 && !schema->children)
        return hv_arrow_invalid(HV_ARROW_NO_POINTER, error);
    size_t width = reader->batches ? (size_t)schema->n_children : 1;
    reader->how = (uint8_t *)calloc(width + 1, 1);
    if (!reader->how) return hv_arrow_refuse(HV_OUT_OF_MEMORY, 0, 0, error);
    reader->width = width;
    reader->ended = false;
    return HV_OK;
}

static inline int32_t hv_arrow_open(struct ArrowArrayStream *stream, hv_arrow_reader **reader, hv_error *error) {
    *reader = NULL;
    if (!stream || !stream->release) return hv_arrow_invalid(HV_ARROW_RELEASED, error);
    hv_arrow_refuse(HV_OK, 0, 0, error);
    *reader = (hv_arrow_reader *)calloc(1, sizeof **reader);
    if (!*reader) {
        stream->release(stream);
        return hv_arrow_refuse(HV_OUT_OF_MEMORY, 0, 0, error);
    }
    (*reader)->stream = *stream;
    (*reader)->ended = true;
    stream->release = NULL;
    return hv_arrow_take_schema(*reader, error);
}

static inline const struct ArrowSchema *hv_arrow_schema_of(const hv_arrow_reader *reader) { return &reader->schema; }

static inline size_t hv_arrow_width(const hv_arrow_reader *reader) { return reader->width; }

static inline void hv_arrow_choose(hv_arrow_reader *reader, size_t column, uint8_t how) {
    if (column < reader->width) reader->how[column] = how;
}

static inline const char *hv_arrow_words(const hv_arrow_reader *reader) { return reader->words ? reader->words : ""; }

static inline void hv_arrow_close(hv_arrow_reader *reader) {
    if (!reader) return;
    for (hv_arrow_dictionary *known = reader->kept.first, *next; known; known = next) {
        next = known->next;
        hv_free(&known->values);
        free(known);
    }
    hv_arrow_release(&reader->schema, &reader->chunk);
    reader->stream.release(&reader->stream);
    free(reader->how);
    free(reader->words);
    free(reader);
}

static inline void hv_arrow_free_columns(hv_column *columns, size_t count) {
    for (size_t i = 0; columns && i < count; i++) hv_free(&columns[i]);
    free(columns);
}

/* Columns that are made, into their places; the columns that they replace are freed. */
static inline void hv_arrow_move_columns(hv_column *made, hv_column *columns, const uint8_t *how, size_t count) {
    for (size_t i = 0; i < count; i++) {
        if (how && how[i] == HV_ARROW_LEAVE_OUT) continue;
        hv_free(&columns[i]);
        columns[i] = made[i];
        made[i].at = NULL;
    }
}

/* The columns of a chunk that are not left out. */
static inline int32_t hv_arrow_read_chunk(const hv_session *session, hv_arrow_reader *reader,
                                          const struct ArrowArray *chunk, hv_column *made, hv_error *error) {
    int32_t answer = HV_OK;
    for (size_t i = 0; !answer && i < reader->width; i++) {
        hv_arrow_reading reading = hv_arrow_begin(session, reader->how[i] == HV_ARROW_READ_BITS, error);
        reading.kept = &reader->kept;
        if (reader->how[i] == HV_ARROW_LEAVE_OUT) continue;
        if (reader->batches) answer = hv_arrow_read_child(&reading, &reader->schema, chunk, (int64_t)i, &made[i]);
        else answer = hv_arrow_read_all(&reading, &reader->schema, chunk, &made[i]);
    }
    return answer;
}

static inline int32_t hv_arrow_next(const hv_session *session, hv_arrow_reader *reader, hv_column *columns,
                                    size_t count, uint8_t *more, hv_error *error) {
    struct ArrowArray chunk;
    memset(&chunk, 0, sizeof chunk);
    *more = 0;
    hv_arrow_refuse(HV_OK, 0, 0, error);
    if (count != reader->width) return hv_arrow_refuse(HV_COLUMN_LENGTH, reader->width, count, error);
    if (reader->ended) return HV_OK;
    hv_column *made = (hv_column *)calloc(count + 1, sizeof *made);
    if (!made) return hv_arrow_refuse(HV_OUT_OF_MEMORY, 0, 0, error);
    int number = reader->stream.get_next(&reader->stream, &chunk);
    int32_t answer = number ? hv_arrow_failed(reader, number, error) : (int32_t)HV_OK;
    if (!number && !chunk.release) reader->ended = true;
    if (!reader->ended) {
        reader->kept.chunk++;
        answer = hv_arrow_read_chunk(session, reader, &chunk, made, error);
        if (reader->chunk.release) reader->chunk.release(&reader->chunk);
        reader->chunk = chunk;
        *more = !answer;
    }
    if (*more) hv_arrow_move_columns(made, columns, reader->how, count);
    hv_arrow_free_columns(made, count);
    return answer;
}

/* ---- All chunks ---- */

/* The columns of all chunks, those of a chunk one after the other. */
typedef struct hv_arrow_chunks {
    hv_column *columns;
    size_t count, room;
} hv_arrow_chunks;

/* Places for the columns of one chunk more, all without a column; NULL where memory is refused. */
static inline hv_column *hv_arrow_next_places(hv_arrow_chunks *chunks, size_t width) {
    if (chunks->count == chunks->room) {
        size_t room = chunks->room ? chunks->room * 2 : 8;
        hv_column *columns = room > SIZE_MAX / 16 / (width + 1)
                                 ? NULL
                                 : (hv_column *)realloc(chunks->columns, (room * width + 1) * sizeof *columns);
        if (!columns) return NULL;
        chunks->columns = columns;
        chunks->room = room;
    }
    hv_column *places = chunks->columns + chunks->count++ * width;
    return (hv_column *)memset(places, 0, width * sizeof *places);
}

static inline int32_t hv_arrow_read_chunks(const hv_session *session, hv_arrow_reader *reader, hv_arrow_chunks *chunks,
                                           hv_error *error) {
    uint8_t more = 1;
    int32_t answer = HV_OK;
    while (!answer && more) {
        hv_column *places = hv_arrow_next_places(chunks, reader->width);
        if (!places) return hv_arrow_refuse(HV_OUT_OF_MEMORY, 0, 0, error);
        answer = hv_arrow_next(session, reader, places, reader->width, &more, error);
    }
    chunks->count--; /* no column is in the last places */
    return answer;
}

/* An array of no rows, with the buffers, children and dictionary that a schema asks for, all empty. For a schema that
 * is not served it has none of these: reading it is refused before they are looked at. False where memory is
 * refused. */
static inline bool hv_arrow_new_empty(const struct ArrowSchema *schema, struct ArrowArray *array, int depth) {
    hv_arrow_layout layout;
    bool served = schema && schema->format && depth < HV_ARROW_DEPTH && hv_arrow_layout_of(schema->format, &layout);
    uint8_t what = served ? layout.what : (uint8_t)HV_ARROW_RUN_ENDS;
    int64_t buffers = what == HV_ARROW_RUN_ENDS ? 0 : what == HV_ARROW_BATCH ? 1 : 2;
    if (what == HV_ARROW_TEXTS || what == HV_ARROW_VIEWS) buffers = 3;
    bool nests = served && schema->children &&
                 (what == HV_ARROW_RUN_ENDS || what == HV_ARROW_BATCH || what == HV_ARROW_LISTS);
    if (!hv_arrow_new_array(array, 0, buffers, nests && schema->n_children > 0 ? schema->n_children : 0)) return false;
    bool whole = true;
    for (int64_t i = 0; whole && i < array->n_children; i++)
        whole = hv_arrow_new_empty(schema->children[i], array->children[i], depth + 1);
    if (whole && served && schema->dictionary) {
        array->dictionary = (struct ArrowArray *)calloc(1, sizeof *array);
        whole = array->dictionary && hv_arrow_new_empty(schema->dictionary, array->dictionary, depth + 1);
    }
    if (!whole) array->release(array);
    return whole;
}

/* The columns of no rows, of a stream that has no chunk. */
static inline int32_t hv_arrow_read_none(const hv_session *session, hv_arrow_reader *reader, hv_column *made,
                                         hv_error *error) {
    struct ArrowArray chunk;
    if (!hv_arrow_new_empty(&reader->schema, &chunk, 0)) return hv_arrow_refuse(HV_OUT_OF_MEMORY, 0, 0, error);
    reader->kept.chunk++;
    int32_t answer = hv_arrow_read_chunk(session, reader, &chunk, made, error);
    chunk.release(&chunk);
    return answer;
}

/* One column of all chunks: that of a single chunk itself. `row` has a place for each chunk. */
static inline int32_t hv_arrow_join_chunks(const hv_session *session, hv_arrow_chunks *chunks, size_t width,
                                           size_t column, hv_column *row, hv_column *out, hv_error *error) {
    for (size_t i = 0; i < chunks->count; i++) row[i] = chunks->columns[i * width + column];
    if (chunks->count > 1) return hv_arrow_concat(session, row, chunks->count, out, error);
    *out = row[0];
    chunks->columns[column].at = NULL;
    return HV_OK;
}

static inline int32_t hv_arrow_join(const hv_session *session, hv_arrow_reader *reader, hv_arrow_chunks *chunks,
                                    hv_column *made, hv_error *error) {
    if (chunks->count == 0) return hv_arrow_read_none(session, reader, made, error);
    hv_column *row = (hv_column *)malloc(chunks->count * sizeof *row);
    int32_t answer = row ? (int32_t)HV_OK : hv_arrow_refuse(HV_OUT_OF_MEMORY, 0, 0, error);
    for (size_t i = 0; !answer && i < reader->width; i++)
        if (reader->how[i] != HV_ARROW_LEAVE_OUT)
            answer = hv_arrow_join_chunks(session, chunks, reader->width, i, row, &made[i], error);
    free(row);
    return answer;
}

/* All columns of an open stream. */
static inline int32_t hv_arrow_read_stream(const hv_session *session, hv_arrow_reader *reader, hv_column *columns,
                                           size_t count, hv_error *error) {
    hv_arrow_chunks chunks = {NULL, 0, 0};
    if (count != reader->width) return hv_arrow_refuse(HV_COLUMN_LENGTH, reader->width, count, error);
    hv_column *made = (hv_column *)calloc(count + 1, sizeof *made);
    if (!made) return hv_arrow_refuse(HV_OUT_OF_MEMORY, 0, 0, error);
    int32_t answer = hv_arrow_read_chunks(session, reader, &chunks, error);
    if (!answer) answer = hv_arrow_join(session, reader, &chunks, made, error);
    if (!answer) hv_arrow_move_columns(made, columns, reader->how, count);
    hv_arrow_free_columns(chunks.columns, chunks.count * reader->width);
    hv_arrow_free_columns(made, count);
    return answer;
}

static inline int32_t hv_arrow_import_stream(const hv_session *session, struct ArrowArrayStream *stream,
                                             hv_column *columns, size_t count, const uint8_t *how, char *words,
                                             size_t words_len, hv_error *error) {
    hv_arrow_reader *reader;
    int32_t answer = hv_arrow_open(stream, &reader, error);
    for (size_t i = 0; !answer && how && i < count; i++) hv_arrow_choose(reader, i, how[i]);
    if (!answer) answer = hv_arrow_read_stream(session, reader, columns, count, error);
    if (words_len > 0) words[0] = 0;
    if (words_len > 0 && reader) strncat(words, hv_arrow_words(reader), words_len - 1);
    hv_arrow_close(reader);
    return answer;
}
#endif
