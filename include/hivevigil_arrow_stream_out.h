/* Streams out, a part of hivevigil_arrow.h, which includes it: chunks that were made before the first is asked for. */
#ifndef HIVEVIGIL_ARROW_STREAM_OUT_H
#define HIVEVIGIL_ARROW_STREAM_OUT_H
#include "hivevigil_arrow_out.h"
#include <errno.h>

/* ---- A dictionary that chunks share ---- */

/* The array that owns the buffers. Each chunk has structs of its own over them, also of children, so that what one
 * consumer moves out is there for the others. */
typedef struct hv_arrow_shared {
    struct ArrowArray array;
    size_t users; /* structs may be released on any thread: counted with atomics */
} hv_arrow_shared;

static inline void hv_arrow_leave_shared(hv_arrow_shared *shared) {
    if (!shared || __atomic_sub_fetch(&shared->users, 1, __ATOMIC_ACQ_REL) > 0) return;
    if (shared->array.release) shared->array.release(&shared->array);
    free(shared);
}

static inline void hv_arrow_release_shared(struct ArrowArray *array) {
    for (int64_t i = 0; i < array->n_children; i++) {
        if (array->children[i]->release) array->children[i]->release(array->children[i]);
        free(array->children[i]);
    }
    free(array->children);
    hv_arrow_leave_shared((hv_arrow_shared *)array->private_data);
    array->release = NULL;
}

/* One more array over the same buffers, which `from` has: the shared array, or a child of it. A dictionary is written
 * without one of its own. NULL where memory is refused. */
static inline struct ArrowArray *hv_arrow_share_part(hv_arrow_shared *shared, const struct ArrowArray *from) {
    const int64_t children = from->n_children;
    struct ArrowArray *array = (struct ArrowArray *)malloc(sizeof *array);
    if (!array) return NULL;
    *array = *from;
    array->n_children = 0;
    array->children = children ? (struct ArrowArray **)calloc((size_t)children, sizeof *array->children) : NULL;
    array->private_data = shared;
    array->release = hv_arrow_release_shared;
    __atomic_add_fetch(&shared->users, 1, __ATOMIC_RELAXED);
    for (int64_t i = 0; array->children && i < children; i++, array->n_children++) {
        array->children[i] = hv_arrow_share_part(shared, from->children[i]);
        if (!array->children[i]) break;
    }
    if (array->n_children == children) return array;
    array->release(array);
    free(array);
    return NULL;
}

static inline struct ArrowArray *hv_arrow_share(hv_arrow_shared *shared) {
    return hv_arrow_share_part(shared, &shared->array);
}

/* ---- The stream that is made ---- */

typedef struct hv_arrow_made {
    struct ArrowSchema schema;
    struct ArrowArray *chunks;
    size_t count, next;
} hv_arrow_made;

/* A schema of its own, as each call of get_schema gives one. */
static inline bool hv_arrow_copy_schema(const struct ArrowSchema *from, struct ArrowSchema *to) {
    if (!hv_arrow_new_schema(to, from->format, from->name, 0, from->n_children)) return false;
    bool whole = true;
    to->flags = from->flags;
    for (int64_t i = 0; whole && i < from->n_children; i++)
        whole = hv_arrow_copy_schema(from->children[i], to->children[i]);
    if (whole && from->dictionary) {
        to->dictionary = (struct ArrowSchema *)calloc(1, sizeof *to);
        whole = to->dictionary && hv_arrow_copy_schema(from->dictionary, to->dictionary);
    }
    if (!whole) to->release(to);
    return whole;
}

static inline int hv_arrow_made_schema(struct ArrowArrayStream *stream, struct ArrowSchema *out) {
    return hv_arrow_copy_schema(&((hv_arrow_made *)stream->private_data)->schema, out) ? 0 : ENOMEM;
}

static inline int hv_arrow_made_next(struct ArrowArrayStream *stream, struct ArrowArray *out) {
    hv_arrow_made *made = (hv_arrow_made *)stream->private_data;
    memset(out, 0, sizeof *out);
    if (made->next == made->count) return 0;
    *out = made->chunks[made->next];
    made->chunks[made->next++].release = NULL;
    return 0;
}

static inline const char *hv_arrow_made_error(struct ArrowArrayStream *stream) {
    (void)stream;
    return "out of memory"; /* the one way in which a call of this stream fails */
}

static inline void hv_arrow_free_made(hv_arrow_made *made) {
    for (size_t i = made->next; made->chunks && i < made->count; i++)
        if (made->chunks[i].release) made->chunks[i].release(&made->chunks[i]);
    if (made->schema.release) made->schema.release(&made->schema);
    free(made->chunks);
    free(made);
}

static inline void hv_arrow_release_made(struct ArrowArrayStream *stream) {
    hv_arrow_free_made((hv_arrow_made *)stream->private_data);
    stream->release = NULL;
}

/* ---- Making it ---- */

/* One column of the stream: the options of its chunks, and its dictionary. */
typedef struct hv_arrow_field {
    hv_column *column;
    const char *name;
    hv_arrow_options options;
    struct ArrowSchema dictionary;
    hv_arrow_shared *shared; /* NULL: none */
} hv_arrow_field;

/* Options that leave nothing to the rows of a chunk, which are `chunk_rows` at most, all where it is 0. */
static inline hv_arrow_options hv_arrow_settled(hv_column *column, size_t chunk_rows, const hv_arrow_options *options) {
    const hv_arrow_options none = {0, 0, 0, 0, NULL, NULL};
    const size_t rows = hv_length(column), most_rows = chunk_rows && chunk_rows < rows ? chunk_rows : rows;
    hv_arrow_options settled = options ? *options : none;
    const uint8_t form = hv_form(column);
    const bool flat = form == HV_ARROW_FLAT || form == HV_ARROW_OF_LISTS; /* lists stay lists in every chunk */
    uint8_t as_it_lies = flat ? HV_ARROW_AS_FLAT : HV_ARROW_AS_RUNS;
    if (settled.form == HV_ARROW_AS_IT_LIES) settled.form = as_it_lies;
    if (settled.end_bits == 0) settled.end_bits = most_rows > INT32_MAX ? 64 : 32;
    if (settled.offset_bits == 0) settled.offset_bits = 32;
    return settled;
}

/* Writes the dictionary of a column, if it has one, after which the options are those of its codes. */
static inline int32_t hv_arrow_prepare(const hv_session *session, hv_arrow_field *field, hv_error *error) {
    hv_arrow_options of_codes = {field->options.form, field->options.end_bits, 0, 0, NULL, NULL};
    hv_arrow_options of_values = field->options;
    const hv_arrow_writing writing = {session, error, field->options, 0};
    hv_arrow_refuse(HV_OK, 0, 0, error);
    if (!hv_arrow_are_options(&field->options)) return HV_BAD_NUMBER;
    if (!field->options.dictionary) return HV_OK;
    int32_t answer = hv_arrow_check_dictionary(&writing, field->column);
    if (answer) return answer;
    field->shared = (hv_arrow_shared *)calloc(1, sizeof *field->shared);
    if (!field->shared) return hv_arrow_refuse(HV_OUT_OF_MEMORY, 0, 0, error);
    field->shared->users = 1;
    of_values.form = HV_ARROW_AS_FLAT;
    of_values.dictionary = NULL;
    field->options = of_codes;
    return hv_arrow_export_with(session, writing.options.dictionary, "", &of_values, &field->dictionary,
                                &field->shared->array, error);
}

/* Gives codes, which may be the values of runs, their dictionary. */
static inline int32_t hv_arrow_attach(const hv_arrow_field *field, struct ArrowSchema *schema, struct ArrowArray *array,
                                      hv_error *error) {
    if (!field->shared) return HV_OK;
    bool runs = schema->n_children == 2;
    struct ArrowSchema *coded_schema = runs ? schema->children[1] : schema;
    struct ArrowArray *coded = runs ? array->children[1] : array;
    coded->dictionary = hv_arrow_share(field->shared);
    coded_schema->dictionary = (struct ArrowSchema *)calloc(1, sizeof *schema);
    if (coded->dictionary && coded_schema->dictionary &&
        hv_arrow_copy_schema(&field->dictionary, coded_schema->dictionary))
        return HV_OK;
    return hv_arrow_refuse(HV_OUT_OF_MEMORY, 0, 0, error);
}

/* Rows `start` to `stop - 1` of one column, which stay in runs whichever kernels the session has: lists that were
 * written flat would not go out as runs. */
static inline int32_t hv_arrow_write_field(const hv_session *session, const hv_arrow_field *field, size_t start,
                                           size_t stop, struct ArrowSchema *schema, struct ArrowArray *array,
                                           hv_error *error) {
    hv_session slices;
    hv_column part = HV_EMPTY;
    hv_session_initial(&slices);
    int32_t answer = hv_slice(&slices, field->column, start, stop, &part, error);
    if (!answer) answer = hv_arrow_export_with(session, &part, field->name, &field->options, schema, array, error);
    if (!answer) answer = hv_arrow_attach(field, schema, array, error);
    hv_free(&part);
    return answer;
}

/* These rows of all columns, as a batch, or as one array where `batch` is false. */
static inline int32_t hv_arrow_write_chunk(const hv_session *session, const hv_arrow_field *fields, size_t count,
                                           bool batch, size_t start, size_t stop, struct ArrowSchema *schema,
                                           struct ArrowArray *array, hv_error *error) {
    if (!batch) return hv_arrow_write_field(session, &fields[0], start, stop, schema, array, error);
    if (!hv_arrow_new_schema(schema, "+s", "", 0, (int64_t)count) ||
        !hv_arrow_new_array(array, stop - start, 1, (int64_t)count))
        return hv_arrow_refuse(HV_OUT_OF_MEMORY, 0, 0, error);
    int32_t answer = HV_OK;
    for (size_t i = 0; !answer && i < count; i++)
        answer = hv_arrow_write_field(session, &fields[i], start, stop, schema->children[i], array->children[i], error);
    return answer;
}

/* All chunks, one of no rows where there are none; the schema of the first is that of the stream. */
static inline int32_t hv_arrow_write_chunks(const hv_session *session, const hv_arrow_field *fields, size_t count,
                                            bool batch, size_t chunk_rows, hv_arrow_made *made, hv_error *error) {
    size_t rows = hv_length(fields[0].column), step = chunk_rows ? chunk_rows : rows;
    size_t chunks = rows ? rows / step + (rows % step != 0) : 1;
    made->chunks = (struct ArrowArray *)calloc(chunks, sizeof *made->chunks);
    if (!made->chunks) return hv_arrow_refuse(HV_OUT_OF_MEMORY, 0, 0, error);
    made->count = chunks;
    int32_t answer = HV_OK;
    for (size_t i = 0; !answer && i < chunks; i++) {
        struct ArrowSchema again, *schema = i ? &again : &made->schema;
        size_t start = i * step, stop = rows - start > step ? start + step : rows;
        memset(&again, 0, sizeof again);
        answer = hv_arrow_write_chunk(session, fields, count, batch, start, stop, schema, &made->chunks[i], error);
        if (again.release) again.release(&again);
    }
    return answer;
}

static inline int32_t hv_arrow_check_fields(const hv_arrow_field *fields, size_t count, hv_error *error) {
    size_t rows = hv_length(fields[0].column);
    for (size_t i = 0; i < count; i++) {
        if (hv_form(fields[i].column) == HV_ARROW_NO_FORM) return hv_arrow_refuse(HV_NO_COLUMN, 0, 0, error);
        size_t other = hv_length(fields[i].column);
        if (other != rows) return hv_arrow_refuse(HV_COLUMN_LENGTH, rows, other, error);
    }
    return HV_OK;
}

static inline int32_t hv_arrow_make_stream(const hv_session *session, hv_arrow_field *fields, size_t count, bool batch,
                                           size_t chunk_rows, struct ArrowArrayStream *stream, hv_error *error) {
    int32_t answer = hv_arrow_check_fields(fields, count, error);
    for (size_t i = 0; !answer && i < count; i++) answer = hv_arrow_prepare(session, &fields[i], error);
    if (answer) return answer;
    hv_arrow_made *made = (hv_arrow_made *)calloc(1, sizeof *made);
    if (!made) return hv_arrow_refuse(HV_OUT_OF_MEMORY, 0, 0, error);
    answer = hv_arrow_write_chunks(session, fields, count, batch, chunk_rows, made, error);
    if (answer) {
        hv_arrow_free_made(made);
        return answer;
    }
    stream->get_schema = hv_arrow_made_schema;
    stream->get_next = hv_arrow_made_next;
    stream->get_last_error = hv_arrow_made_error;
    stream->release = hv_arrow_release_made;
    stream->private_data = made;
    return HV_OK;
}

static inline void hv_arrow_free_fields(hv_arrow_field *fields, size_t count) {
    for (size_t i = 0; i < count; i++) {
        if (fields[i].dictionary.release) fields[i].dictionary.release(&fields[i].dictionary);
        hv_arrow_leave_shared(fields[i].shared);
    }
    free(fields);
}

static inline int32_t hv_arrow_export_stream(const hv_session *session, hv_column *columns, const char *const *names,
                                             size_t count, size_t chunk_rows, const hv_arrow_options *options,
                                             struct ArrowArrayStream *stream, hv_error *error) {
    memset(stream, 0, sizeof *stream);
    hv_arrow_refuse(HV_OK, 0, 0, error);
    if (count == 0 || (!names && count > 1)) return hv_arrow_refuse(HV_UNSUPPORTED, 0, 0, error);
    hv_arrow_field *fields = (hv_arrow_field *)calloc(count, sizeof *fields);
    if (!fields) return hv_arrow_refuse(HV_OUT_OF_MEMORY, 0, 0, error);
    for (size_t i = 0; i < count; i++) {
        fields[i].column = &columns[i];
        fields[i].name = names && names[i] ? names[i] : "";
        fields[i].options = hv_arrow_settled(&columns[i], chunk_rows, options ? &options[i] : NULL);
    }
    int32_t answer = hv_arrow_make_stream(session, fields, count, names != NULL, chunk_rows, stream, error);
    hv_arrow_free_fields(fields, count);
    return answer;
}
#endif
