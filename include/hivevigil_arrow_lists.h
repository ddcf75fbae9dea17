/* Lists in and out, a part of hivevigil_arrow.h, which includes it. In Arrow the items of a list follow those of the
 * list before it; in a column they may be anywhere among its elements. */
#ifndef HIVEVIGIL_ARROW_LISTS_H
#define HIVEVIGIL_ARROW_LISTS_H
#include "hivevigil_arrow_in.h"
#include "hivevigil_arrow_out.h"

/* ---- In ---- */

/* Offsets and sizes of the rows, counted from the first item that they have; *first and *stop say which items these
 * are. Refused where an offset is negative or falls. */
static inline int32_t hv_arrow_read_spans(const hv_arrow_rows *rows, uint64_t *offsets, uint64_t *sizes, int64_t *first,
                                          int64_t *stop, hv_error *error) {
    const uint8_t *stored = (const uint8_t *)rows->array->buffers[1];
    const size_t width = rows->layout.width;
    *first = *stop = 0;
    if (rows->count == 0) return HV_OK;
    if (!stored) return hv_arrow_invalid(HV_ARROW_NO_POINTER, error);
    *first = *stop = hv_arrow_offset_at(stored, rows->start, width);
    if (*first < 0) return hv_arrow_refuse_offset(0, HV_ABOUT_LISTS, error);
    for (size_t row = 0; row < rows->count; row++) {
        const int64_t next = hv_arrow_offset_at(stored, rows->start + row + 1, width);
        if (next < *stop) return hv_arrow_refuse_offset(row, HV_ABOUT_LISTS, error);
        offsets[row] = (uint64_t)(*stop - *first);
        sizes[row] = (uint64_t)(next - *stop);
        *stop = next;
    }
    return HV_OK;
}

/* The items that the rows have, as a flat column. */
static inline int32_t hv_arrow_read_list_items(const hv_arrow_reading *reading, const hv_arrow_rows *rows,
                                               int64_t first, int64_t stop, hv_column *out) {
    hv_arrow_rows items;
    hv_column read = HV_EMPTY;
    int32_t answer = hv_arrow_select(rows->schema->children[0], rows->array->children[0], (size_t)first,
                                     (size_t)(stop - first), &items, reading->error);
    if (!answer) answer = hv_arrow_read(reading, &items, &read);
    if (!answer) answer = hv_decode(reading->session, &read, out, reading->error);
    hv_free(&read);
    return answer;
}

static inline int32_t hv_arrow_read_lists(const hv_arrow_reading *reading, const hv_arrow_rows *rows, hv_column *out) {
    const size_t count = rows->count;
    uint64_t *offsets = (uint64_t *)malloc((2 * count + 1) * sizeof *offsets);
    hv_column elements = HV_EMPTY;
    int64_t first, stop;
    if (!offsets) return hv_arrow_refuse(HV_OUT_OF_MEMORY, 0, 0, reading->error);
    int32_t answer = hv_arrow_read_spans(rows, offsets, offsets + count, &first, &stop, reading->error);
    if (!answer) answer = hv_arrow_read_list_items(reading, rows, first, stop, &elements);
    if (!answer)
        answer = hv_lists(&elements, offsets, count, offsets + count, count, hv_arrow_validity(rows), out,
                          reading->error);
    free(offsets);
    hv_free(&elements);
    return answer;
}

/* ---- Out ---- */

/* The parts of a column of lists, of which null rows have the size 0. */
typedef struct hv_arrow_list_parts {
    hv_column elements;
    size_t rows;
    uint64_t *offsets, *sizes, *valid; /* one block, that of the offsets */
    uint64_t items;                    /* of all rows */
} hv_arrow_list_parts;

static inline int32_t hv_arrow_read_part(int32_t (*call)(hv_column *, hv_column *, hv_error *), hv_column *column,
                                         uint64_t *numbers, size_t rows, hv_error *error) {
    hv_column part = HV_EMPTY;
    hv_error ignored;
    int32_t answer = call(column, &part, error ? error : &ignored); /* an export, which writes the fields */
    if (!answer) answer = hv_read_u64(&part, 0, numbers, rows, error);
    hv_free(&part);
    return answer;
}

static inline int32_t hv_arrow_take_apart(hv_column *column, hv_arrow_list_parts *parts, hv_error *error) {
    const size_t rows = hv_length(column), words = rows / 64 + (rows % 64 != 0);
    hv_column flags = HV_EMPTY;
    parts->rows = rows;
    parts->offsets = (uint64_t *)malloc((2 * rows + words) * sizeof *parts->offsets + 1);
    if (!parts->offsets) return hv_arrow_refuse(HV_OUT_OF_MEMORY, 0, 0, error);
    parts->sizes = parts->offsets + rows;
    parts->valid = parts->sizes + rows;
    int32_t answer = hv_list_elements(column, &parts->elements, error);
    if (!answer) answer = hv_arrow_read_part(hv_list_offsets, column, parts->offsets, rows, error);
    if (!answer) answer = hv_arrow_read_part(hv_list_sizes, column, parts->sizes, rows, error);
    if (!answer) answer = hv_list_validity(column, &flags, error);
    if (!answer) answer = hv_read_bools_from(&flags, 0, rows, parts->valid, words, error);
    for (size_t row = 0; !answer && row < rows; row++) {
        if (!(parts->valid[row / 64] >> row % 64 & 1)) parts->sizes[row] = 0;
        if (parts->sizes[row] > INT64_MAX - parts->items) answer = hv_arrow_refuse(HV_OUT_OF_MEMORY, 0, 0, error);
        else parts->items += parts->sizes[row];
    }
    hv_free(&flags);
    return answer;
}

/* The items of all rows, one row after the other. */
static inline int32_t hv_arrow_gather_items(const hv_arrow_writing *writing, hv_arrow_list_parts *parts,
                                            hv_column *out) {
    hv_column indices = HV_EMPTY, taken = HV_EMPTY;
    uint64_t *numbers =
        parts->items > SIZE_MAX / 16 ? NULL : (uint64_t *)malloc((size_t)parts->items * sizeof *numbers + 1);
    size_t done = 0;
    if (!numbers) return hv_arrow_no_memory(writing);
    for (size_t row = 0; row < parts->rows; row++)
        for (uint64_t item = 0; item < parts->sizes[row]; item++) numbers[done++] = parts->offsets[row] + item;
    int32_t answer = hv_u64(numbers, done, hv_not_nullable(), &indices, writing->error);
    if (!answer) answer = hv_take(writing->session, &parts->elements, &indices, &taken, writing->error);
    if (!answer) answer = hv_decode(writing->session, &taken, out, writing->error);
    free(numbers);
    hv_free(&indices);
    hv_free(&taken);
    return answer;
}

/* Where the items of each row start among those of all, and where the last ends. */
static inline int32_t hv_arrow_write_spans(const hv_arrow_writing *writing, const hv_arrow_list_parts *parts,
                                           size_t width, struct ArrowArray *array) {
    char *offsets = (char *)hv_arrow_new_buffer(array, 1, parts->rows + 1, width);
    int64_t before = 0;
    if (!offsets) return hv_arrow_no_memory(writing);
    for (size_t row = 0; row <= parts->rows; row++) {
        memcpy(offsets + row * width, &before, width); /* the low bytes of a little-endian machine */
        if (row < parts->rows) before += (int64_t)parts->sizes[row];
    }
    return HV_OK;
}

static inline int32_t hv_arrow_write_flags(const hv_arrow_writing *writing, const hv_arrow_list_parts *parts,
                                           struct ArrowArray *array) {
    const size_t words = parts->rows / 64 + (parts->rows % 64 != 0);
    uint64_t *bits = (uint64_t *)hv_arrow_new_buffer(array, 0, words, sizeof *bits);
    if (!bits) return hv_arrow_no_memory(writing);
    memcpy(bits, parts->valid, words * sizeof *bits);
    array->null_count = (int64_t)hv_arrow_zeros((const uint8_t *)bits, 0, parts->rows);
    return HV_OK;
}

/* How many bytes an offset has: as the options say, or 4 where they suffice for all items. */
static inline int32_t hv_arrow_span_width(const hv_arrow_writing *writing, uint64_t items, size_t *width) {
    const hv_arrow_options *options = &writing->options;
    const char *format = options->format;
    if (options->bits_of_float || options->dictionary || (format && strcmp(format, "+l") && strcmp(format, "+L")))
        return hv_arrow_refuse(HV_TYPE_MISMATCH, 0, 0, writing->error);
    const int bits = format ? (format[1] == 'L' ? 64 : 32) : options->offset_bits;
    *width = bits ? (size_t)bits / 8 : items > INT32_MAX ? sizeof(int64_t) : sizeof(int32_t);
    const bool fits = *width == sizeof(int64_t) || items <= INT32_MAX;
    return fits ? HV_OK : hv_arrow_refuse(HV_CAST_OUT_OF_RANGE, 0, 0, writing->error);
}

static inline int32_t hv_arrow_write_parts(const hv_arrow_writing *writing, hv_arrow_list_parts *parts, hv_kind kind,
                                           const char *name, struct ArrowSchema *schema, struct ArrowArray *array) {
    hv_arrow_writing within = *writing;
    hv_column items = HV_EMPTY;
    size_t width = 0;
    within.options.form = HV_ARROW_AS_FLAT;
    within.options.format = NULL;
    within.depth++;
    int32_t answer = hv_arrow_span_width(writing, parts->items, &width);
    if (answer) return answer;
    if (!hv_arrow_new_array(array, parts->rows, 2, 1)) return hv_arrow_no_memory(writing);
    if (!hv_arrow_new_schema(schema, width == sizeof(int64_t) ? "+L" : "+l", name, kind.nullable, 1))
        return hv_arrow_no_memory(writing);
    answer = hv_arrow_write_spans(writing, parts, width, array);
    if (!answer && kind.nullable) answer = hv_arrow_write_flags(writing, parts, array);
    if (!answer) answer = hv_arrow_gather_items(writing, parts, &items);
    if (!answer) answer = hv_arrow_write(&within, &items, "item", schema->children[0], array->children[0]);
    hv_free(&items);
    return answer;
}

/* ---- One after the other ---- */

/* The lists of columns, which are joined. */
typedef struct hv_arrow_joined_lists {
    size_t rows, room;
    uint64_t *offsets, *sizes; /* one block, with room for all rows */
    uint8_t *bits;             /* with room for all rows */
    uint64_t items;            /* of the columns before */
    uint8_t nullable;
} hv_arrow_joined_lists;

/* Adds the rows of a column, and leaves the items that they have. */
static inline int32_t hv_arrow_add_lists(const hv_session *session, hv_arrow_joined_lists *joined, hv_column *column,
                                         hv_column *items, hv_error *error) {
    const hv_arrow_writing writing = {session, error, {0, 0, 0, 0, NULL, NULL}, 0};
    hv_arrow_list_parts parts = {HV_EMPTY, 0, NULL, NULL, NULL, 0};
    hv_column lists = HV_EMPTY;
    int32_t answer = hv_decode(session, column, &lists, error);
    if (!answer) answer = hv_arrow_take_apart(&lists, &parts, error);
    if (!answer) answer = hv_arrow_gather_items(&writing, &parts, items);
    for (size_t row = 0; !answer && row < parts.rows; row++, joined->rows++) {
        const bool valid = parts.valid[row / 64] >> row % 64 & 1;
        uint8_t *byte = &joined->bits[joined->rows / 8];
        joined->offsets[joined->rows] = joined->items;
        joined->sizes[joined->rows] = parts.sizes[row];
        joined->items += parts.sizes[row];
        *byte = (uint8_t)(*byte | valid << joined->rows % 8);
    }
    free(parts.offsets);
    hv_free(&parts.elements);
    hv_free(&lists);
    return answer;
}

/* Room for the rows of all columns. */
static inline int32_t hv_arrow_begin_lists(hv_column *columns, size_t count, hv_arrow_joined_lists *joined,
                                           hv_error *error) {
    for (size_t i = 0; i < count; i++) {
        const hv_kind kind = hv_kind_of(&columns[i]);
        if (kind.number == 255) return hv_arrow_refuse(HV_NO_COLUMN, 0, 0, error);
        if (kind.number != HV_LIST) return hv_arrow_refuse(HV_TYPE_MISMATCH, 0, 0, error);
        if (hv_length(&columns[i]) > SIZE_MAX / 32 - joined->room)
            return hv_arrow_refuse(HV_OUT_OF_MEMORY, 0, 0, error);
        joined->room += hv_length(&columns[i]);
        joined->nullable |= kind.nullable;
    }
    joined->offsets = (uint64_t *)malloc(2 * joined->room * sizeof *joined->offsets + 1);
    joined->bits = (uint8_t *)calloc(joined->room / 8 + 1, 1);
    if (!joined->offsets || !joined->bits) return hv_arrow_refuse(HV_OUT_OF_MEMORY, 0, 0, error);
    joined->sizes = joined->offsets + joined->room;
    return HV_OK;
}

static inline int32_t hv_arrow_concat_lists(const hv_session *session, hv_column *columns, size_t count, hv_column *out,
                                            hv_error *error) {
    hv_arrow_joined_lists joined = {0, 0, NULL, NULL, NULL, 0, 0};
    hv_column *items = (hv_column *)calloc(count, sizeof *items), all = HV_EMPTY, elements = HV_EMPTY;
    int32_t answer = items ? hv_arrow_begin_lists(columns, count, &joined, error)
                           : hv_arrow_refuse(HV_OUT_OF_MEMORY, 0, 0, error);
    for (size_t i = 0; !answer && i < count; i++)
        answer = hv_arrow_add_lists(session, &joined, &columns[i], &items[i], error);
    if (!answer) answer = hv_arrow_concat(session, items, count, &all, error);
    if (!answer) answer = hv_decode(session, &all, &elements, error);
    const hv_validity validity =
        joined.nullable ? hv_valid_bits(joined.bits, joined.room / 8 + 1, 0) : hv_not_nullable();
    if (!answer)
        answer = hv_lists(&elements, joined.offsets, joined.rows, joined.sizes, joined.rows, validity, out, error);
    for (size_t i = 0; items && i < count; i++) hv_free(&items[i]);
    free(items);
    free(joined.offsets);
    free(joined.bits);
    hv_free(&all);
    hv_free(&elements);
    return answer;
}

/* A column that lies as lists. */
static inline int32_t hv_arrow_write_lists(const hv_arrow_writing *writing, hv_column *column, const char *name,
                                           struct ArrowSchema *schema, struct ArrowArray *array) {
    hv_arrow_list_parts parts = {HV_EMPTY, 0, NULL, NULL, NULL, 0};
    int32_t answer = hv_arrow_take_apart(column, &parts, writing->error);
    if (!answer) answer = hv_arrow_write_parts(writing, &parts, hv_kind_of(column), name, schema, array);
    free(parts.offsets);
    hv_free(&parts.elements);
    return answer;
}
#endif
