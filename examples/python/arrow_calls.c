/* The calls of hivevigil_arrow.h as symbols of libhivevigil.so, for callers that read no C header. What each answers is
 * said there, under the name that it calls here. At the end: what drops a PyCapsule of Arrow's structs, for Python. */
#include "hivevigil_arrow.h"

/* Who reads no C header has the part of a session that the exports read. */
static hv_session session_of(const hv_settings *settings) {
    hv_session session;
    session.size = sizeof session;
    memcpy(hv_settings_of(&session), settings, sizeof *settings);
    return session;
}

int32_t hv_import_array(const hv_settings *settings, const struct ArrowSchema *schema, const struct ArrowArray *array,
                        hv_column *out, hv_error *error) {
    const hv_session session = session_of(settings);
    return hv_arrow_import(&session, schema, array, out, error);
}

int32_t hv_import_bits(const hv_settings *settings, const struct ArrowSchema *schema, const struct ArrowArray *array,
                       hv_column *out, hv_error *error) {
    const hv_session session = session_of(settings);
    return hv_arrow_import_bits(&session, schema, array, out, error);
}

int32_t hv_import_child(const hv_settings *settings, const struct ArrowSchema *schema, const struct ArrowArray *batch,
                        int64_t child, hv_column *out, hv_error *error) {
    const hv_session session = session_of(settings);
    return hv_arrow_import_child(&session, schema, batch, child, out, error);
}

int32_t hv_import_child_bits(const hv_settings *settings, const struct ArrowSchema *schema,
                             const struct ArrowArray *batch, int64_t child, hv_column *out, hv_error *error) {
    const hv_session session = session_of(settings);
    return hv_arrow_import_child_bits(&session, schema, batch, child, out, error);
}

int32_t hv_import_stream(const hv_settings *settings, struct ArrowArrayStream *stream, hv_column *columns, size_t count,
                         const uint8_t *how, char *words, size_t words_len, hv_error *error) {
    const hv_session session = session_of(settings);
    return hv_arrow_import_stream(&session, stream, columns, count, how, words, words_len, error);
}

int32_t hv_open_stream(struct ArrowArrayStream *stream, hv_arrow_reader **reader, hv_error *error) {
    return hv_arrow_open(stream, reader, error);
}

const struct ArrowSchema *hv_stream_schema(const hv_arrow_reader *reader) { return hv_arrow_schema_of(reader); }

size_t hv_stream_width(const hv_arrow_reader *reader) { return hv_arrow_width(reader); }

void hv_stream_choose(hv_arrow_reader *reader, size_t column, uint8_t how) { hv_arrow_choose(reader, column, how); }

int32_t hv_stream_next(const hv_settings *settings, hv_arrow_reader *reader, hv_column *columns, size_t count,
                       uint8_t *more, hv_error *error) {
    const hv_session session = session_of(settings);
    return hv_arrow_next(&session, reader, columns, count, more, error);
}

const char *hv_stream_words(const hv_arrow_reader *reader) { return hv_arrow_words(reader); }

void hv_close_stream(hv_arrow_reader *reader) { hv_arrow_close(reader); }

int32_t hv_concat_columns(const hv_settings *settings, hv_column *columns, size_t count, hv_column *out,
                          hv_error *error) {
    const hv_session session = session_of(settings);
    return hv_arrow_concat(&session, columns, count, out, error);
}

const char *hv_value_format(const struct ArrowSchema *schema) { return hv_arrow_value_format(schema); }

int32_t hv_export_array(const hv_settings *settings, hv_column *column, const char *name, struct ArrowSchema *schema,
                        struct ArrowArray *array, hv_error *error) {
    const hv_session session = session_of(settings);
    return hv_arrow_export(&session, column, name, schema, array, error);
}

int32_t hv_export_with(const hv_settings *settings, hv_column *column, const char *name,
                       const hv_arrow_options *options, struct ArrowSchema *schema, struct ArrowArray *array,
                       hv_error *error) {
    const hv_session session = session_of(settings);
    return hv_arrow_export_with(&session, column, name, options, schema, array, error);
}

int32_t hv_export_as(const hv_settings *settings, hv_column *column, const char *name, const char *format,
                     struct ArrowSchema *schema, struct ArrowArray *array, hv_error *error) {
    const hv_session session = session_of(settings);
    return hv_arrow_export_as(&session, column, name, format, schema, array, error);
}

int32_t hv_export_bits(const hv_settings *settings, hv_column *column, const char *name, struct ArrowSchema *schema,
                       struct ArrowArray *array, hv_error *error) {
    const hv_session session = session_of(settings);
    return hv_arrow_export_bits(&session, column, name, schema, array, error);
}

int32_t hv_export_dictionary(const hv_settings *settings, hv_column *codes, hv_column *dictionary, const char *name,
                             struct ArrowSchema *schema, struct ArrowArray *array, hv_error *error) {
    const hv_session session = session_of(settings);
    return hv_arrow_export_dictionary(&session, codes, dictionary, name, schema, array, error);
}

int32_t hv_export_stream(const hv_settings *settings, hv_column *columns, const char *const *names, size_t count,
                         size_t chunk_rows, const hv_arrow_options *options, struct ArrowArrayStream *stream,
                         hv_error *error) {
    const hv_session session = session_of(settings);
    return hv_arrow_export_stream(&session, columns, names, count, chunk_rows, options, stream, error);
}

/* ---- PyCapsules ----
 * A capsule owns a struct of hv_capsule_room, and what is in it unless a consumer moved that. The two calls of Python's C
 * interface that this needs are handed over, so that the shared object is linked with no Python. */
static int (*capsule_is_valid)(void *capsule, const char *name);
static void *(*capsule_pointer)(void *capsule, const char *name);

void hv_capsule_calls(int (*is_valid)(void *, const char *), void *(*pointer)(void *, const char *)) {
    capsule_is_valid = is_valid;
    capsule_pointer = pointer;
}

/* Room that is all zero: a struct without a release callback. Null where memory is refused. */
void *hv_capsule_room(size_t size) { return calloc(1, size); }

#define HV_DROP_CAPSULE(name, type) \
    void hv_drop_##name(void *capsule) { \
        type *part = capsule_is_valid(capsule, #name) ? (type *)capsule_pointer(capsule, #name) : NULL; \
        if (part && part->release) part->release(part); \
        free(part); \
    }
HV_DROP_CAPSULE(arrow_schema, struct ArrowSchema)
HV_DROP_CAPSULE(arrow_array, struct ArrowArray)
HV_DROP_CAPSULE(arrow_array_stream, struct ArrowArrayStream)
