/* The inward part of hivevigil_arrow.h, which includes it: the column of some rows of an array. */
#ifndef HIVEVIGIL_ARROW_IN_H
#define HIVEVIGIL_ARROW_IN_H
#include "hivevigil_arrow_rows.h"

/* ---- Flat columns ---- */

static inline int32_t hv_arrow_make_numbers(const hv_arrow_rows *rows, const void *items, hv_column *out,
                                            hv_error *error) {
#define HV_ARROW_MAKE(type, make) return make((const type *)items, rows->count, hv_arrow_validity(rows), out, error)
    switch (rows->layout.number) {
    case HV_U8: HV_ARROW_MAKE(uint8_t, hv_u8);
    case HV_U16: HV_ARROW_MAKE(uint16_t, hv_u16);
    case HV_U32: HV_ARROW_MAKE(uint32_t, hv_u32);
    case HV_U64: HV_ARROW_MAKE(uint64_t, hv_u64);
    case HV_I8: HV_ARROW_MAKE(int8_t, hv_i8);
    case HV_I16: HV_ARROW_MAKE(int16_t, hv_i16);
    case HV_I32: HV_ARROW_MAKE(int32_t, hv_i32);
    default: HV_ARROW_MAKE(int64_t, hv_i64);
    }
#undef HV_ARROW_MAKE
}

static inline int32_t hv_arrow_read_numbers(const hv_arrow_rows *rows, hv_column *out, hv_error *error) {
    const void *items;
    void *copy;
    int32_t answer = hv_arrow_items(rows, 1, rows->start, rows->count, rows->layout.width, &items, &copy, error);
    if (!answer) answer = hv_arrow_make_numbers(rows, items, out, error);
    free(copy);
    return answer;
}

static inline int32_t hv_arrow_read_truths(const hv_arrow_rows *rows, hv_column *out, hv_error *error) {
    const uint8_t *truths = (const uint8_t *)rows->array->buffers[1];
    if (rows->count == 0) return hv_bools(NULL, 0, 0, 0, hv_arrow_validity(rows), out, error);
    if (!truths) return hv_arrow_invalid(HV_ARROW_NO_POINTER, error);
    return hv_bools(truths, hv_arrow_bytes_of_bits(rows->start + rows->count), rows->start, rows->count,
                    hv_arrow_validity(rows), out, error);
}

/* Decimals of 4 or 8 bytes each, as 16. */
static inline hv_pair *hv_arrow_widened(const uint8_t *bytes, size_t count, size_t width) {
    hv_pair *pairs = (hv_pair *)malloc(count * sizeof *pairs + 1);
    for (size_t i = 0; pairs && i < count; i++) {
        int32_t narrow;
        int64_t number;
        memcpy(&narrow, bytes + i * width, sizeof narrow);
        number = narrow;
        if (width == sizeof number) memcpy(&number, bytes + i * width, sizeof number);
        pairs[i].low = (uint64_t)number;
        pairs[i].high = number < 0 ? -1 : 0;
    }
    return pairs;
}

static inline int32_t hv_arrow_read_decimals(const hv_arrow_rows *rows, hv_column *out, hv_error *error) {
    const hv_arrow_layout *layout = &rows->layout;
    const void *items;
    void *copy;
    hv_pair *wide = NULL;
    int32_t answer = hv_arrow_items(rows, 1, rows->start, rows->count, layout->width, &items, &copy, error);
    if (!answer && layout->width < sizeof *wide) {
        wide = hv_arrow_widened((const uint8_t *)items, rows->count, layout->width);
        items = wide;
        if (!wide) answer = hv_arrow_refuse(HV_OUT_OF_MEMORY, 0, 0, error);
    }
    if (!answer)
        answer = hv_decimals((const hv_pair *)items, rows->count, layout->precision, layout->scale,
                             hv_arrow_validity(rows), out, error);
    free(wide);
    free(copy);
    return answer;
}

static inline int64_t hv_arrow_offset_at(const uint8_t *offsets, size_t index, size_t width) {
    int32_t narrow;
    int64_t wide;
    memcpy(&narrow, offsets + index * width, sizeof narrow);
    if (width == sizeof narrow) return narrow;
    memcpy(&wide, offsets + index * width, sizeof wide);
    return wide;
}

/* Texts as a column. Where one is not UTF-8, the first field is its row: the first that is not null and is refused by
 * itself. */
static inline int32_t hv_arrow_make_texts(const hv_arrow_rows *rows, const int64_t *offsets, const uint8_t *bytes,
                                          size_t size, hv_column *out, hv_error *error) {
    const uint8_t binary = rows->layout.number == HV_BINARY;
    int32_t answer =
        hv_large_texts(binary, offsets, rows->count + 1, bytes, size, hv_arrow_validity(rows), out, error);
    for (size_t row = 0; answer == HV_TYPE_MISMATCH && row < rows->count; row++) {
        const int64_t one[2] = {0, offsets[row + 1] - offsets[row]};
        const size_t at = rows->start + row;
        hv_column text = HV_EMPTY;
        if (rows->nulls == HV_ARROW_NULLS_BY_BITS && !(rows->bits[at / 8] >> at % 8 & 1)) continue;
        const int32_t by_itself = hv_large_texts(0, one, 2, one[1] ? bytes + offsets[row] : NULL, (size_t)one[1],
                                                 hv_not_nullable(), &text, NULL);
        hv_free(&text);
        if (by_itself) return hv_arrow_refuse(by_itself, by_itself == HV_TYPE_MISMATCH ? row : 0, 0, error);
    }
    return answer;
}

/* Texts by offsets, which are counted from the first text shown, so that its bytes are the first that are copied.
 * An offset below the first becomes -1, and is refused as one that falls. */
static inline int32_t hv_arrow_read_texts(const hv_arrow_rows *rows, hv_column *out, hv_error *error) {
    size_t width = rows->layout.width;
    const uint8_t *stored = (const uint8_t *)rows->array->buffers[1];
    const uint8_t *bytes = (const uint8_t *)rows->array->buffers[2];
    if (rows->count > 0 && !stored) return hv_arrow_invalid(HV_ARROW_NO_POINTER, error);
    int64_t first = rows->count ? hv_arrow_offset_at(stored, rows->start, width) : 0;
    if (first < 0) return hv_arrow_refuse_offset(0, HV_ABOUT_TEXTS, error);
    int64_t *offsets = (int64_t *)malloc((rows->count + 1) * sizeof *offsets);
    if (!offsets) return hv_arrow_refuse(HV_OUT_OF_MEMORY, 0, 0, error);
    offsets[0] = 0;
    for (size_t row = 1; row <= rows->count; row++) {
        int64_t offset = hv_arrow_offset_at(stored, rows->start + row, width);
        offsets[row] = offset < first ? -1 : offset - first;
    }
    size_t size = offsets[rows->count] > 0 ? (size_t)offsets[rows->count] : 0;
    int32_t answer = size > 0 && !bytes ? hv_arrow_invalid(HV_ARROW_NO_POINTER, error) : HV_OK;
    if (!answer) answer = hv_arrow_make_texts(rows, offsets, size ? bytes + first : NULL, size, out, error);
    free(offsets);
    return answer;
}

/* Bytes of one size, one after the other. */
static inline int32_t hv_arrow_read_fixed(const hv_arrow_rows *rows, hv_column *out, hv_error *error) {
    size_t width = rows->layout.width, size = rows->count * width;
    const uint8_t *bytes = (const uint8_t *)rows->array->buffers[1];
    if (size > 0 && !bytes) return hv_arrow_invalid(HV_ARROW_NO_POINTER, error);
    int64_t *offsets = (int64_t *)malloc((rows->count + 1) * sizeof *offsets);
    if (!offsets) return hv_arrow_refuse(HV_OUT_OF_MEMORY, 0, 0, error);
    for (size_t row = 0; row <= rows->count; row++) offsets[row] = (int64_t)(row * width);
    int32_t answer = hv_large_texts(1, offsets, rows->count + 1, size ? bytes + rows->start * width : NULL, size,
                                    hv_arrow_validity(rows), out, error);
    free(offsets);
    return answer;
}

/* ---- Views of texts ---- */

enum { HV_ARROW_INLINE = 12 }; /* the most bytes that a view has in itself */

/* A view: how many bytes; then these, or the first four, the buffer, and where in it they start. */
typedef struct hv_arrow_view {
    int32_t size;
    uint8_t front[4];
    int32_t buffer, start;
} hv_arrow_view;

/* The bytes of one view, NULL where they are not within the buffers. A null is of no bytes, whatever its view says. */
static inline const uint8_t *hv_arrow_viewed(const hv_arrow_rows *rows, size_t index, size_t *size) {
    const struct ArrowArray *array = rows->array;
    size_t row = rows->start + index;
    const uint8_t *at = (const uint8_t *)array->buffers[1] + row * sizeof(hv_arrow_view);
    hv_arrow_view view;
    int64_t length;
    *size = 0;
    if (rows->nulls == HV_ARROW_NULLS_BY_BITS && !(rows->bits[row / 8] >> row % 8 & 1)) return hv_arrow_nothing();
    memcpy(&view, at, sizeof view);
    if (view.size < 0) return NULL;
    *size = (size_t)view.size;
    if (view.size <= HV_ARROW_INLINE) return at + offsetof(hv_arrow_view, front);
    const uint8_t *sizes = (const uint8_t *)array->buffers[array->n_buffers - 1];
    if (!sizes || view.buffer < 0 || view.buffer >= array->n_buffers - 3 || view.start < 0) return NULL;
    const uint8_t *bytes = (const uint8_t *)array->buffers[view.buffer + 2];
    memcpy(&length, sizes + (size_t)view.buffer * sizeof length, sizeof length);
    if (!bytes || length < view.start || length - view.start < view.size) return NULL;
    return memcmp(bytes + view.start, view.front, sizeof view.front) == 0 ? bytes + view.start : NULL;
}

/* Where each text starts once they lie one after the other, or the index of a view that is not valid. */
static inline int32_t hv_arrow_view_offsets(const hv_arrow_rows *rows, int64_t *offsets, hv_error *error) {
    offsets[0] = 0;
    for (size_t i = 0; i < rows->count; i++) {
        size_t size;
        if (!hv_arrow_viewed(rows, i, &size)) return hv_arrow_refuse(HV_ARROW_INVALID, HV_ARROW_VIEW, i, error);
        if (offsets[i] > INT64_MAX - (int64_t)size) return hv_arrow_refuse(HV_OUT_OF_MEMORY, 0, 0, error);
        offsets[i + 1] = offsets[i] + (int64_t)size;
    }
    return HV_OK;
}

static inline uint8_t *hv_arrow_view_bytes(const hv_arrow_rows *rows, const int64_t *offsets) {
    uint8_t *bytes = (uint8_t *)malloc((size_t)offsets[rows->count] + 1);
    for (size_t i = 0; bytes && i < rows->count; i++) {
        size_t size;
        const uint8_t *viewed = hv_arrow_viewed(rows, i, &size);
        memcpy(bytes + offsets[i], viewed, size);
    }
    return bytes;
}

static inline int32_t hv_arrow_read_views(const hv_arrow_rows *rows, hv_column *out, hv_error *error) {
    if (rows->count > 0 && !rows->array->buffers[1]) return hv_arrow_invalid(HV_ARROW_NO_POINTER, error);
    int64_t *offsets = (int64_t *)malloc((rows->count + 1) * sizeof *offsets);
    uint8_t *bytes = NULL;
    int32_t answer =
        offsets ? hv_arrow_view_offsets(rows, offsets, error) : hv_arrow_refuse(HV_OUT_OF_MEMORY, 0, 0, error);
    if (!answer) bytes = hv_arrow_view_bytes(rows, offsets);
    if (!answer && !bytes) answer = hv_arrow_refuse(HV_OUT_OF_MEMORY, 0, 0, error);
    if (!answer) answer = hv_arrow_make_texts(rows, offsets, bytes, (size_t)offsets[rows->count], out, error);
    free(bytes);
    free(offsets);
    return answer;
}

/* ---- Dictionaries ---- */

/* A dictionary of a stream: its column, and the array that it was last seen in, which is that of a chunk. */
typedef struct hv_arrow_dictionary {
    const struct ArrowSchema *schema;
    const struct ArrowArray *array;
    uint64_t chunk;
    hv_column values;
    struct hv_arrow_dictionary *next;
} hv_arrow_dictionary;

/* The dictionaries of a stream, and the number of the chunk that is read now. The chunk before is not released yet, so
 * that a dictionary in the same memory as one of that chunk is the same. */
typedef struct hv_arrow_dictionaries {
    hv_arrow_dictionary *first;
    uint64_t chunk;
} hv_arrow_dictionaries;

/* Whether two arrays of one schema lie in the same memory. The left one is known to be whole. */
static inline bool hv_arrow_is_same(const struct ArrowArray *left, const struct ArrowArray *right) {
    if (!right || !right->release || left->length != right->length || left->offset != right->offset) return false;
    if (left->null_count != right->null_count || left->n_buffers != right->n_buffers) return false;
    if (left->n_children != right->n_children || !left->dictionary != !right->dictionary) return false;
    if (left->n_buffers > 0 && !right->buffers) return false;
    if (left->n_children > 0 && !right->children) return false;
    size_t size = (size_t)left->n_buffers * sizeof *left->buffers;
    if (size > 0 && memcmp(left->buffers, right->buffers, size) != 0) return false;
    for (int64_t i = 0; i < left->n_children; i++)
        if (!hv_arrow_is_same(left->children[i], right->children[i])) return false;
    return !left->dictionary || hv_arrow_is_same(left->dictionary, right->dictionary);
}

/* What is known of the dictionary of this schema, made where nothing is; NULL where memory is refused. */
static inline hv_arrow_dictionary *hv_arrow_dictionary_of(hv_arrow_dictionaries *kept,
                                                          const struct ArrowSchema *schema) {
    hv_arrow_dictionary *known = kept->first;
    while (known && known->schema != schema) known = known->next;
    if (known) return known;
    known = (hv_arrow_dictionary *)calloc(1, sizeof *known);
    if (!known) return NULL;
    known->schema = schema;
    known->next = kept->first;
    kept->first = known;
    return known;
}

static inline int32_t hv_arrow_read_all(const hv_arrow_reading *reading, const struct ArrowSchema *schema,
                                        const struct ArrowArray *array, hv_column *out) {
    hv_arrow_rows rows;
    int32_t answer = hv_arrow_select(schema, array, 0, SIZE_MAX, &rows, reading->error);
    return answer ? answer : hv_arrow_read(reading, &rows, out);
}

/* The dictionary of a stream, read where the chunk before had another. *values stays the list's. */
static inline int32_t hv_arrow_read_kept(const hv_arrow_reading *reading, const struct ArrowSchema *schema,
                                         const struct ArrowArray *array, hv_column **values) {
    hv_arrow_dictionary *known = hv_arrow_dictionary_of(reading->kept, schema);
    if (!known) return hv_arrow_refuse(HV_OUT_OF_MEMORY, 0, 0, reading->error);
    bool fresh = !known->array || known->chunk + 1 != reading->kept->chunk || !hv_arrow_is_same(known->array, array);
    known->array = NULL;
    int32_t answer = fresh ? hv_arrow_read_all(reading, schema, array, &known->values) : (int32_t)HV_OK;
    if (answer) return answer;
    known->array = array;
    known->chunk = reading->kept->chunk;
    *values = &known->values;
    return HV_OK;
}

static inline int32_t hv_arrow_look_up(const hv_arrow_reading *reading, const hv_arrow_rows *rows, hv_column *codes,
                                       hv_column *out) {
    const struct ArrowSchema *schema = rows->schema->dictionary;
    const struct ArrowArray *array = rows->array->dictionary;
    hv_column own = HV_EMPTY, *values = &own;
    int32_t answer = reading->kept ? hv_arrow_read_kept(reading, schema, array, &values)
                                   : hv_arrow_read_all(reading, schema, array, &own);
    if (!answer) answer = hv_take_from(reading->session, codes, values, out, reading->error);
    hv_free(&own);
    return answer;
}

static inline int32_t hv_arrow_read_dictionary(const hv_arrow_reading *reading, const hv_arrow_rows *rows,
                                               hv_column *out) {
    hv_column codes = HV_EMPTY;
    int32_t answer = hv_arrow_read_numbers(rows, &codes, reading->error);
    if (!answer) answer = hv_arrow_look_up(reading, rows, &codes, out);
    hv_free(&codes);
    return answer;
}

/* ---- Runs ---- */

static inline int64_t hv_arrow_end_at(const hv_arrow_rows *ends, size_t run) {
    const uint8_t *items = (const uint8_t *)ends->array->buffers[1];
    int16_t narrow;
    if (ends->layout.width != sizeof narrow) return hv_arrow_offset_at(items, ends->start + run, ends->layout.width);
    memcpy(&narrow, items + (ends->start + run) * sizeof narrow, sizeof narrow);
    return narrow;
}

/* The run ends, all of them: integers of 16, 32 or 64 bits with sign, none of them null. */
static inline int32_t hv_arrow_select_ends(const struct ArrowSchema *schema, const struct ArrowArray *array,
                                           hv_arrow_rows *ends, hv_error *error) {
    int32_t answer = hv_arrow_select(schema, array, 0, SIZE_MAX, ends, error);
    if (answer) return answer == HV_UNSUPPORTED ? hv_arrow_refuse(HV_ENDS_NOT_UNSIGNED, 0, 0, error) : answer;
    if (!strchr("sil", schema->format[0]) || schema->format[1])
        return hv_arrow_refuse(HV_ENDS_NOT_UNSIGNED, 0, 0, error);
    if (schema->dictionary) return hv_arrow_invalid(HV_ARROW_DICTIONARY, error);
    if (ends->nulls == HV_ARROW_NULLS_BY_BITS) return hv_arrow_invalid(HV_ARROW_NULL_IN_RUNS, error);
    return ends->count > 0 && !array->buffers[1] ? hv_arrow_invalid(HV_ARROW_NO_POINTER, error) : (int32_t)HV_OK;
}

/* Which runs the rows are in, from *first to *stop - 1. Every end is looked at, also of runs that are not shown:
 * refused where one is not above the one before, the first not above 0, or the last below the rows. */
static inline int32_t hv_arrow_shown_runs(const hv_arrow_rows *rows, const hv_arrow_rows *ends, size_t *first,
                                          size_t *stop, hv_error *error) {
    int64_t from = (int64_t)rows->start, to = from + (int64_t)rows->count, before = 0;
    *first = *stop = 0;
    for (size_t run = 0; run < ends->count; run++) {
        int64_t end = hv_arrow_end_at(ends, run);
        if (end <= before) return hv_arrow_refuse(HV_ENDS_NOT_STRICT, run, 0, error);
        if (end <= from) *first = run + 1;
        if (before < to) *stop = run + 1;
        before = end;
    }
    if (rows->count == 0) *first = *stop = 0;
    if (rows->count == 0 || before >= to) return HV_OK;
    if (ends->count == 0) return hv_arrow_refuse(HV_NO_RUNS_WINDOW, rows->start, rows->count, error);
    return hv_arrow_refuse(HV_LAST_END_BELOW_WINDOW, (uint64_t)before, (uint64_t)to, error);
}

/* Ends `first` to `stop - 1`, which are above 0, as numbers without sign of their width. */
static inline int32_t hv_arrow_read_ends(const hv_arrow_rows *ends, size_t first, size_t stop, hv_column *out,
                                         hv_error *error) {
    size_t count = stop - first;
    const void *items;
    void *copy;
    int32_t answer = hv_arrow_items(ends, 1, ends->start + first, count, ends->layout.width, &items, &copy, error);
    if (answer) return answer;
    switch (ends->layout.width) {
    case 2: answer = hv_u16((const uint16_t *)items, count, hv_not_nullable(), out, error); break;
    case 4: answer = hv_u32((const uint32_t *)items, count, hv_not_nullable(), out, error); break;
    default: answer = hv_u64((const uint64_t *)items, count, hv_not_nullable(), out, error);
    }
    free(copy);
    return answer;
}

/* The runs that a window shows, and no others: a slice in Arrow keeps all runs, and may begin past the first of them.
 */
static inline int32_t hv_arrow_read_runs(const hv_arrow_reading *reading, const hv_arrow_rows *rows, hv_column *out) {
    struct ArrowSchema *const *schemas = rows->schema->children;
    struct ArrowArray *const *arrays = rows->array->children;
    hv_arrow_rows run_ends, run_values;
    hv_column ends = HV_EMPTY, values = HV_EMPTY;
    size_t first, stop;
    int32_t answer = hv_arrow_select_ends(schemas[0], arrays[0], &run_ends, reading->error);
    if (!answer) answer = hv_arrow_shown_runs(rows, &run_ends, &first, &stop, reading->error);
    if (answer) return answer;
    answer = hv_arrow_select(schemas[1], arrays[1], first, stop - first, &run_values, reading->error);
    if (!answer && arrays[1]->length < arrays[0]->length) answer = hv_arrow_invalid(HV_ARROW_LENGTH, reading->error);
    if (!answer) answer = hv_arrow_read_ends(&run_ends, first, stop, &ends, reading->error);
    if (!answer) answer = hv_arrow_read(reading, &run_values, &values);
    if (!answer) answer = hv_runs(&ends, &values, rows->count ? rows->start : 0, rows->count, out, reading->error);
    hv_free(&ends);
    hv_free(&values);
    return answer;
}

/* ---- Arrays and batches ---- */

static inline int32_t hv_arrow_read(const hv_arrow_reading *reading, const hv_arrow_rows *rows, hv_column *out) {
    hv_arrow_reading within = *reading;
    within.depth++;
    if (within.depth > HV_ARROW_DEPTH) return hv_arrow_refuse(HV_UNSUPPORTED, 0, 0, reading->error);
    if (rows->schema->dictionary) return hv_arrow_read_dictionary(&within, rows, out);
    switch (rows->layout.what) {
    case HV_ARROW_NUMBERS: return hv_arrow_read_numbers(rows, out, reading->error);
    case HV_ARROW_TRUTHS: return hv_arrow_read_truths(rows, out, reading->error);
    case HV_ARROW_DECIMALS: return hv_arrow_read_decimals(rows, out, reading->error);
    case HV_ARROW_TEXTS: return hv_arrow_read_texts(rows, out, reading->error);
    case HV_ARROW_VIEWS: return hv_arrow_read_views(rows, out, reading->error);
    case HV_ARROW_FIXED: return hv_arrow_read_fixed(rows, out, reading->error);
    case HV_ARROW_LISTS: return hv_arrow_read_lists(&within, rows, out);
    case HV_ARROW_RUN_ENDS: return hv_arrow_read_runs(&within, rows, out);
    case HV_ARROW_FLOATS:
        if (reading->floats) return hv_arrow_read_numbers(rows, out, reading->error);
        return hv_arrow_refuse(HV_UNSUPPORTED, 0, 0, reading->error);
    default: return hv_arrow_refuse(HV_UNSUPPORTED, 0, 0, reading->error);
    }
}

/* The column that is null also where these rows, of a batch, are. Its rows are taken by their own numbers, null at the
 * nulls of the batch. */
static inline int32_t hv_arrow_mask(const hv_session *session, hv_column *column, const hv_arrow_rows *batch,
                                    hv_column *out, hv_error *error) {
    uint64_t *numbers = (uint64_t *)malloc(batch->count * sizeof *numbers + 1);
    hv_column indices = HV_EMPTY;
    if (!numbers) return hv_arrow_refuse(HV_OUT_OF_MEMORY, 0, 0, error);
    for (size_t row = 0; row < batch->count; row++) numbers[row] = row;
    int32_t answer = hv_u64(numbers, batch->count, hv_arrow_validity(batch), &indices, error);
    if (!answer) answer = hv_take(session, column, &indices, out, error);
    free(numbers);
    hv_free(&indices);
    return answer;
}

static inline int32_t hv_arrow_read_child(const hv_arrow_reading *reading, const struct ArrowSchema *schema,
                                          const struct ArrowArray *batch, int64_t child, hv_column *out) {
    hv_arrow_rows whole, rows;
    hv_column column = HV_EMPTY;
    int32_t answer = hv_arrow_select(schema, batch, 0, SIZE_MAX, &whole, reading->error);
    if (answer) return answer;
    if (whole.layout.what != HV_ARROW_BATCH) return hv_arrow_refuse(HV_UNSUPPORTED, 0, 0, reading->error);
    if (child < 0 || child >= schema->n_children) return hv_arrow_invalid(HV_ARROW_PARTS, reading->error);
    answer = hv_arrow_select(schema->children[child], batch->children[child], whole.start, whole.count, &rows,
                             reading->error);
    if (answer || whole.null_count == 0) return answer ? answer : hv_arrow_read(reading, &rows, out);
    answer = hv_arrow_read(reading, &rows, &column);
    if (!answer) answer = hv_arrow_mask(reading->session, &column, &whole, out, reading->error);
    hv_free(&column);
    return answer;
}

static inline hv_arrow_reading hv_arrow_begin(const hv_session *session, bool floats, hv_error *error) {
    const hv_arrow_reading reading = {session, error, floats, 0, NULL};
    hv_arrow_refuse(HV_OK, 0, 0, error);
    return reading;
}

static inline int32_t hv_arrow_import(const hv_session *session, const struct ArrowSchema *schema,
                                      const struct ArrowArray *array, hv_column *out, hv_error *error) {
    const hv_arrow_reading reading = hv_arrow_begin(session, false, error);
    return hv_arrow_read_all(&reading, schema, array, out);
}

static inline int32_t hv_arrow_import_bits(const hv_session *session, const struct ArrowSchema *schema,
                                           const struct ArrowArray *array, hv_column *out, hv_error *error) {
    const hv_arrow_reading reading = hv_arrow_begin(session, true, error);
    return hv_arrow_read_all(&reading, schema, array, out);
}

static inline int32_t hv_arrow_import_child(const hv_session *session, const struct ArrowSchema *schema,
                                            const struct ArrowArray *batch, int64_t child, hv_column *out,
                                            hv_error *error) {
    const hv_arrow_reading reading = hv_arrow_begin(session, false, error);
    return hv_arrow_read_child(&reading, schema, batch, child, out);
}

static inline int32_t hv_arrow_import_child_bits(const hv_session *session, const struct ArrowSchema *schema,
                                                 const struct ArrowArray *batch, int64_t child, hv_column *out,
                                                 hv_error *error) {
    const hv_arrow_reading reading = hv_arrow_begin(session, true, error);
    return hv_arrow_read_child(&reading, schema, batch, child, out);
}

static inline const char *hv_arrow_value_format(const struct ArrowSchema *schema) {
    const char *format = NULL;
    for (int depth = 0; schema && schema->format && depth < HV_ARROW_DEPTH; depth++) {
        format = schema->format;
        if (schema->dictionary) schema = schema->dictionary;
        else if (strcmp(format, "+r") == 0 && schema->n_children == 2 && schema->children) schema = schema->children[1];
        else return format;
    }
    return NULL;
}
#endif
