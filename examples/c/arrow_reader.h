/* A reader of Arrow arrays, one row at a time, and what has to hold of an array that someone made. It follows the
 * format's text only. */
#ifndef HIVEVIGIL_ARROW_READER_H
#define HIVEVIGIL_ARROW_READER_H
#include "arrow_model.h"

/* What a format has. A text's size is that of its offsets. */
static inline type read_type(const char *format) {
    static const struct {
        char letter;
        int what;
        size_t size;
    } letters[] = {{'c', NUMBER, 1}, {'C', NUMBER, 1}, {'s', NUMBER, 2},   {'S', NUMBER, 2}, {'e', NUMBER, 2},
                   {'i', NUMBER, 4}, {'I', NUMBER, 4}, {'f', NUMBER, 4},   {'l', NUMBER, 8}, {'L', NUMBER, 8},
                   {'g', NUMBER, 8}, {'b', TRUTH, 1},  {'d', DECIMAL, 16}, {'u', TEXT, 4},   {'z', TEXT, 4},
                   {'U', TEXT, 8},   {'Z', TEXT, 8}};
    type found = {format, NUMBER, 8};
    for (size_t i = 0; i < sizeof letters / sizeof *letters; i++)
        if (letters[i].letter == format[0]) found.what = letters[i].what, found.size = letters[i].size;
    bool narrow = strcmp(format, "tdD") == 0 || strcmp(format, "tts") == 0 || strcmp(format, "ttm") == 0;
    if (narrow || strcmp(format, "tiM") == 0) found.size = 4;
    return found;
}

static inline int64_t read_signed(const struct ArrowArray *array, int64_t buffer, size_t at, size_t size) {
    int64_t number = 0;
    memcpy(&number, (const uint8_t *)array->buffers[buffer] + at * size, size);
    unsigned unused = (unsigned)(64 - 8 * size);
    return unused ? (int64_t)((uint64_t)number << unused) >> unused : number;
}

static inline row read_row(const struct ArrowSchema *schema, const struct ArrowArray *array, size_t index);

/* The value of the first run whose end is past the row. */
static inline row read_run(const struct ArrowSchema *schema, const struct ArrowArray *array, size_t at) {
    const struct ArrowArray *ends = array->children[0];
    size_t size = read_type(schema->children[0]->format).size;
    for (int64_t run = 0; run < ends->length; run++)
        if (read_signed(ends, 1, (size_t)(ends->offset + run), size) > (int64_t)at)
            return read_row(schema->children[1], array->children[1], (size_t)run);
    fprintf(stderr, "row %zu is in no run\n", at);
    exit(1);
}

static inline row read_row(const struct ArrowSchema *schema, const struct ArrowArray *array, size_t index) {
    size_t at = (size_t)array->offset + index;
    row found = {true, 0, {0}};
    if (strcmp(schema->format, "+r") == 0) return read_run(schema, array, at);
    if (array->buffers[0] && !bit_of((const uint8_t *)array->buffers[0], at)) return found;
    type of = read_type(schema->format);
    const uint8_t *items = (const uint8_t *)array->buffers[1];
    if (schema->dictionary)
        return read_row(schema->dictionary, array->dictionary, (size_t)read_signed(array, 1, at, of.size));
    found.null = false;
    found.size = (uint8_t)of.size;
    if (of.what == TRUTH) found.bytes[0] = bit_of(items, at);
    else if (of.what != TEXT) memcpy(found.bytes, items + at * of.size, of.size);
    else {
        int64_t start = read_signed(array, 1, at, of.size), stop = read_signed(array, 1, at + 1, of.size);
        found.size = (uint8_t)(stop - start);
        if (stop > start) memcpy(found.bytes, (const uint8_t *)array->buffers[2] + start, found.size);
    }
    return found;
}

/* Why a schema and an array are none of their format, as far as this library writes such; NULL where they are. */
static inline const char *why_not_legal(const struct ArrowSchema *schema, const struct ArrowArray *array);

static inline const char *why_no_runs(const struct ArrowSchema *schema, const struct ArrowArray *array) {
    int64_t before = 0;
    if (array->n_buffers != 0 || array->n_children != 2 || schema->n_children != 2) return "parts of runs";
    const struct ArrowArray *ends = array->children[0], *values = array->children[1];
    const char *format = schema->children[0]->format;
    if (strlen(format) != 1 || !strchr("sil", format[0])) return "the format of ends";
    if (schema->children[0]->flags & ARROW_FLAG_NULLABLE || ends->null_count != 0) return "ends that may be null";
    if (ends->length != values->length) return "as many ends as values";
    for (int64_t run = 0; run < ends->length; run++) {
        int64_t end = read_signed(ends, 1, (size_t)(ends->offset + run), read_type(format).size);
        if (end <= before) return "ends in order";
        before = end;
    }
    if (array->length && before < array->offset + array->length) return "the last end";
    const char *why = why_not_legal(schema->children[0], ends);
    return why ? why : why_not_legal(schema->children[1], values);
}

static inline const char *why_not_legal(const struct ArrowSchema *schema, const struct ArrowArray *array) {
    int64_t nulls = 0;
    if (!schema->release || !array->release || !schema->format || !schema->name) return "a release callback";
    if (array->length < 0 || array->offset < 0) return "length or offset";
    if (!schema->dictionary != !array->dictionary) return "one dictionary";
    if (strcmp(schema->format, "+r") == 0) return array->null_count == 0 ? why_no_runs(schema, array) : "nulls of runs";
    bool texts = read_type(schema->format).what == TEXT;
    if (array->n_buffers != (texts ? 3 : 2) || array->n_children != 0) return "buffers or children";
    if (!array->buffers[1] || (texts && !array->buffers[2])) return "a buffer";
    if (array->null_count > 0 && !(schema->flags & ARROW_FLAG_NULLABLE)) return "nulls of a type without null";
    for (int64_t i = 0; array->buffers[0] && i < array->length; i++)
        nulls += !bit_of((const uint8_t *)array->buffers[0], (size_t)(array->offset + i));
    if (nulls != array->null_count) return "null_count";
    return schema->dictionary ? why_not_legal(schema->dictionary, array->dictionary) : NULL;
}
#endif
