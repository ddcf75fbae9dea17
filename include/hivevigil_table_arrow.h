/* Tables in C as streams of Arrow, in and out. A header only, C11 and C++17, over hivevigil_tables.h and
 * hivevigil_arrow.h; nothing here is proved. */
#ifndef HIVEVIGIL_TABLE_ARROW_H
#define HIVEVIGIL_TABLE_ARROW_H
#include "hivevigil_arrow.h"
#include "hivevigil_table_formats.h"
#ifdef __cplusplus
extern "C" {
#endif

/* 13 with a third field that says why. */
static inline int32_t hv_table_unserved(uint64_t what, hv_error *error) {
    hv_table_refuse(HV_OK, 0, 0, error);
    if (error) error->third = what;
    return HV_UNSUPPORTED;
}

/* ---- Floats, which Arrow has by their bits ---- */

/* The bits of floats: flat where the column is, else in runs. */
static inline int32_t hv_table_bits(const hv_column *column, hv_column *out, hv_error *error) {
    hv_column runs = HV_EMPTY, ends = HV_EMPTY, values = HV_EMPTY, bits = HV_EMPTY;
    const uint8_t form = hv_form(column);
    if (form == HV_FORM_FLAT) return hv_float_decode(column, out, error);
    int32_t answer = form == HV_FORM_RUNS ? hv_clone(column, &runs, error) : hv_encode_rows(column, &runs, error);
    if (!answer) answer = hv_ends(&runs, &ends, error);
    if (!answer) answer = hv_values(&runs, &values, error);
    if (!answer) answer = hv_float_decode(&values, &bits, error);
    if (!answer) answer = hv_runs(&ends, &bits, hv_offset(&runs), hv_length(&runs), out, error);
    hv_free(&runs);
    hv_free(&ends);
    hv_free(&values);
    hv_free(&bits);
    return answer;
}

/* Puts the floats of bits in their place: flat where these are flat, else in runs. */
static inline int32_t hv_table_of_bits(const hv_session *session, hv_column *bits, hv_error *error) {
    const bool is_flat = hv_form(bits) == HV_FORM_FLAT;
    hv_column runs = HV_EMPTY, flat = HV_EMPTY;
    int32_t answer = hv_float_encode(bits, 0, &runs, error);
    if (!answer && is_flat) answer = hv_decode(session, &runs, &flat, error);
    if (!answer) hv_put(bits, is_flat ? &flat : &runs);
    hv_free(&runs);
    hv_free(&flat);
    return answer;
}

/* ---- Out ---- */

/* How a column goes out, in its own place: floats by their bits, and any other in its format, where this is one of
 * Arrow for its type. */
static inline int32_t hv_table_lend(hv_column *column, const char *format, hv_arrow_options *options, hv_error *error) {
    hv_column bits = HV_EMPTY;
    hv_arrow_layout layout;
    bool is_float = false;
    int32_t answer = hv_table_is_float(column, &is_float, error);
    if (!is_float) {
        if (hv_arrow_is_format_of(format, hv_kind_of(column), &layout)) options->format = format;
        return answer;
    }
    options->bits_of_float = 1;
    answer = hv_table_bits(column, &bits, error);
    if (!answer) hv_put(column, &bits);
    return answer;
}

/* The columns as a call of Arrow takes them, with their names; 13 for a name with a zero byte. */
static inline int32_t hv_table_lend_all(hv_table_columns *held, const char **names, hv_arrow_options *options,
                                        hv_error *error) {
    int32_t answer = HV_OK;
    for (size_t i = 0; !answer && i < held->count; i++) {
        names[i] = held->names[i].at;
        if (strlen(names[i]) != held->names[i].size) return hv_table_unserved(HV_TABLE_WITH_ZERO_BYTE, error);
        answer = hv_table_lend(&held->columns[i], hv_table_format_in(&held->formats[i]), &options[i], error);
    }
    return answer;
}

/* The table as a stream of batches of `chunk_rows` rows, the last one of what is left; of all rows where it is 0. Each
 * column goes out in its format, in runs where it is. All is copied. 13 for a table without columns, and for a name
 * with a zero byte. */
HV_ANSWER hv_table_export_stream(const hv_session *session, const hv_table *table, size_t chunk_rows,
                                 struct ArrowArrayStream *stream, hv_error *error) {
    hv_table_columns held = HV_TABLE_NO_COLUMNS;
    const char **names = NULL;
    hv_arrow_options *options = NULL;
    int32_t answer = hv_table_columns_of(table, &held, error);
    if (!answer && !held.count) answer = hv_table_unserved(HV_TABLE_WITHOUT_COLUMNS, error);
    if (!answer) answer = hv_table_memory(held.count, sizeof *names, &names, error);
    if (!answer) answer = hv_table_memory(held.count, sizeof *options, &options, error);
    if (!answer) answer = hv_table_lend_all(&held, names, options, error);
    if (!answer)
        answer = hv_arrow_export_stream(session, held.columns, names, held.count, chunk_rows, options, stream, error);
    hv_table_columns_free(&held);
    free(names);
    free(options);
    return answer;
}

/* ---- In ---- */

/* A column of a schema: its name, and its format, empty where this says nothing of integers. */
typedef struct hv_table_child {
    const char *name, *format;
} hv_table_child;

/* The schema's columns, of which none is read yet. */
static inline int32_t hv_table_plan(const struct ArrowSchema *schema, hv_table_child *children, uint8_t *how,
                                    hv_error *error) {
    for (int64_t i = 0; i < schema->n_children; i++) {
        const struct ArrowSchema *child = schema->children ? schema->children[i] : NULL;
        if (!child) return hv_arrow_invalid(HV_ARROW_NO_POINTER, error);
        const char *format = hv_arrow_value_format(child);
        children[i].name = child->name ? child->name : "";
        children[i].format = hv_table_is_logical_type(format) ? format : "";
        how[i] = children[i].format[0] && !children[i].format[1] ? HV_ARROW_READ_BITS : HV_ARROW_READ;
    }
    return HV_OK;
}

/* The columns that were read, under their formats, as a table. */
static inline int32_t hv_table_of_read(const hv_session *session, const hv_table_child *children, const uint8_t *how,
                                       hv_column *columns, size_t count, hv_table *out, hv_error *error) {
    hv_table made = HV_EMPTY;
    int32_t answer = hv_table_new(0, &made, error);
    for (size_t i = 0; !answer && i < count; i++) {
        const char *const format = children[i].format;
        if (how[i] == HV_ARROW_READ_BITS) answer = hv_table_of_bits(session, &columns[i], error);
        if (!answer) answer = hv_table_give_format(&columns[i], format, strlen(format), error);
        if (!answer) answer = hv_table_add(&made, children[i].name, &columns[i], error);
    }
    if (!answer) hv_table_replace(out, &made);
    hv_table_free(&made);
    return answer;
}

/* The rows of all batches after one another, where the columns have names. */
static inline int32_t hv_table_read(const hv_session *session, struct ArrowArrayStream *stream,
                                    const struct ArrowSchema *schema, char *words, size_t words_len, hv_table *out,
                                    hv_error *error) {
    const size_t count = (size_t)schema->n_children;
    hv_table_child *children = NULL;
    uint8_t *how = NULL;
    hv_column *columns = NULL;
    int32_t answer = hv_table_memory(count, sizeof *children, &children, error);
    if (!answer) answer = hv_table_memory(count, 1, &how, error);
    if (!answer) answer = hv_table_memory(count, sizeof *columns, &columns, error);
    if (!answer) answer = hv_table_plan(schema, children, how, error);
    if (!answer) answer = hv_arrow_import_stream(session, stream, columns, count, how, words, words_len, error);
    if (!answer) answer = hv_table_of_read(session, children, how, columns, count, out, error);
    for (size_t i = 0; columns && i < count; i++) hv_free(&columns[i]);
    free(children);
    free(how);
    free(columns);
    return answer;
}

/* What a stream says of its failure, as much of it as there is room for, ended by 0; empty where it says nothing. */
static inline void hv_table_hear(struct ArrowArrayStream *stream, char *words, size_t words_len) {
    const char *said = stream->release && stream->get_last_error ? stream->get_last_error(stream) : NULL;
    if (words_len) snprintf(words, words_len, "%s", said ? said : "");
}

/* All batches of a stream, which is released for its caller, also where the call is refused: 103 where it fails, 13
 * where it has arrays and not batches of columns, HV_TABLE_NAME_TWICE (place, place), and as hv_arrow_import_stream
 * and hv_table_put. What the stream said of its failure goes to `words`, as hv_arrow_import_stream has them; nothing
 * does where words_len is 0. */
HV_ANSWER hv_table_import_stream_words(const hv_session *session, struct ArrowArrayStream *stream, char *words,
                                       size_t words_len, hv_table *out, hv_error *error) {
    struct ArrowSchema schema;
    memset(&schema, 0, sizeof schema);
    if (words_len) words[0] = 0;
    int failed = stream->release ? stream->get_schema(stream, &schema) : EINVAL;
    if (failed) hv_table_hear(stream, words, words_len);
    int32_t answer = failed ? hv_table_refuse(HV_ARROW_STREAM_FAILED, (uint64_t)failed, 0, error) : HV_OK;
    const bool is_batch = !answer && schema.format && strcmp(schema.format, "+s") == 0 && schema.n_children > 0;
    if (!answer && !is_batch) answer = hv_table_unserved(HV_TABLE_WITHOUT_BATCHES, error);
    if (!answer) answer = hv_table_read(session, stream, &schema, words, words_len, out, error);
    if (schema.release) schema.release(&schema);
    if (stream->release) stream->release(stream);
    return answer;
}
HV_ANSWER hv_table_import_stream(const hv_session *session, struct ArrowArrayStream *stream, hv_table *out,
                                 hv_error *error) {
    return hv_table_import_stream_words(session, stream, NULL, 0, out, error);
}

#ifdef __cplusplus
}
#endif
#endif
