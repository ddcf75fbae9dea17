/* Columns one after the other, a part of hivevigil_arrow.h, which includes it. */
#ifndef HIVEVIGIL_ARROW_CONCAT_H
#define HIVEVIGIL_ARROW_CONCAT_H
#include "hivevigil_arrow_lists.h"

/* Memory that grows. */
typedef struct hv_arrow_room {
    uint8_t *bytes;
    size_t size, capacity;
} hv_arrow_room;

/* So many bytes more, which are 0; NULL where memory is refused. */
static inline void *hv_arrow_grow(hv_arrow_room *room, size_t more) {
    size_t capacity = room->capacity ? room->capacity : 64;
    if (more > SIZE_MAX / 4 - room->size) return NULL;
    while (capacity < room->size + more) capacity *= 2;
    if (capacity > room->capacity) {
        uint8_t *bytes = (uint8_t *)realloc(room->bytes, capacity);
        if (!bytes) return NULL;
        room->bytes = bytes;
        room->capacity = capacity;
    }
    uint8_t *added = (uint8_t *)memset(room->bytes + room->size, 0, more);
    room->size += more;
    return added;
}

/* Flat rows that are gathered. */
typedef struct hv_arrow_gathered {
    hv_kind kind;
    size_t rows;
    hv_arrow_room items, valid, offsets, bytes; /* truths and validity as bits; texts have only offsets and bytes */
} hv_arrow_gathered;

static inline void hv_arrow_free_gathered(hv_arrow_gathered *gathered) {
    free(gathered->items.bytes);
    free(gathered->valid.bytes);
    free(gathered->offsets.bytes);
    free(gathered->bytes.bytes);
}

/* Adds bits after the `rows` bits that are there, from whole words, of which the bits past `count` are not read. */
static inline bool hv_arrow_add_bits(hv_arrow_room *room, size_t rows, const uint64_t *words, size_t count) {
    size_t needed = ((rows + count) / 64 + 2) * sizeof *words, shift = rows % 64;
    if (needed > room->size && !hv_arrow_grow(room, needed - room->size)) return false;
    uint64_t *to = (uint64_t *)(void *)room->bytes + rows / 64;
    for (size_t done = 0; done < count; done += 64, to++) {
        uint64_t word = words[done / 64];
        if (count - done < 64) word &= ((uint64_t)1 << (count - done)) - 1;
        to[0] |= word << shift;
        if (shift) to[1] |= word >> (64 - shift);
    }
    return true;
}

static inline int32_t hv_arrow_gather_bits(hv_arrow_gathered *gathered, hv_column *column, size_t rows, bool validity,
                                           hv_error *error) {
    size_t count = rows / 64 + (rows % 64 != 0);
    uint64_t *words = (uint64_t *)malloc(count * sizeof *words + 1);
    if (!words) return hv_arrow_refuse(HV_OUT_OF_MEMORY, 0, 0, error);
    int32_t answer =
        validity ? hv_read_validity(column, words, count, error) : hv_read_bools(column, words, count, error);
    hv_arrow_room *room = validity ? &gathered->valid : &gathered->items;
    if (!answer && !hv_arrow_add_bits(room, gathered->rows, words, rows))
        answer = hv_arrow_refuse(HV_OUT_OF_MEMORY, 0, 0, error);
    free(words);
    return answer;
}

/* The offset that each text has among all bytes gathered, only the first offset for the first text. */
static inline int32_t hv_arrow_gather_texts(hv_arrow_gathered *gathered, hv_column *column, size_t rows,
                                            hv_error *error) {
    int64_t base = (int64_t)gathered->bytes.size;
    if (gathered->offsets.size > 0) gathered->offsets.size -= sizeof base; /* the last is the first of these */
    int64_t *offsets = (int64_t *)hv_arrow_grow(&gathered->offsets, (rows + 1) * sizeof *offsets);
    if (!offsets) return hv_arrow_refuse(HV_OUT_OF_MEMORY, 0, 0, error);
    int32_t answer = hv_read_large_offsets(column, 0, offsets, rows + 1, error);
    if (answer) return answer;
    size_t size = (size_t)offsets[rows];
    uint8_t *bytes = (uint8_t *)hv_arrow_grow(&gathered->bytes, size);
    if (!bytes) return hv_arrow_refuse(HV_OUT_OF_MEMORY, 0, 0, error);
    for (size_t row = 0; row <= rows; row++) offsets[row] += base;
    return hv_read_bytes(column, 0, rows, bytes, size, error);
}

static inline int32_t hv_arrow_gather_numbers(hv_arrow_gathered *gathered, hv_column *column, size_t rows,
                                              hv_error *error) {
    static const uint8_t widths[] = {1, 2, 4, 8, 1, 2, 4, 8, 0, sizeof(hv_pair)};
    void *items = hv_arrow_grow(&gathered->items, rows * widths[gathered->kind.number]);
    if (!items) return hv_arrow_refuse(HV_OUT_OF_MEMORY, 0, 0, error);
    return hv_arrow_read_out(column, gathered->kind.number, rows, items, error);
}

/* Adds the rows of a column, written out flat. */
static inline int32_t hv_arrow_gather(const hv_session *session, hv_arrow_gathered *gathered, hv_column *column,
                                      hv_error *error) {
    uint8_t number = gathered->kind.number;
    hv_column own = HV_EMPTY, *flat = column;
    size_t rows = hv_length(column);
    int32_t answer = HV_OK;
    if (hv_form(column) != HV_ARROW_FLAT) {
        answer = hv_decode(session, column, &own, error);
        flat = &own;
    }
    if (!answer && gathered->kind.nullable) answer = hv_arrow_gather_bits(gathered, flat, rows, true, error);
    if (!answer) {
        if (number == HV_BOOL) answer = hv_arrow_gather_bits(gathered, flat, rows, false, error);
        else if (number > HV_DECIMAL) answer = hv_arrow_gather_texts(gathered, flat, rows, error);
        else answer = hv_arrow_gather_numbers(gathered, flat, rows, error);
    }
    gathered->rows += rows;
    hv_free(&own);
    return answer;
}

/* The gathered rows as a flat column. */
static inline int32_t hv_arrow_make_gathered(const hv_arrow_gathered *gathered, hv_column *out, hv_error *error) {
    static const int64_t no_offset = 0;
    const hv_kind *kind = &gathered->kind;
    const void *items = gathered->items.bytes;
    hv_arrow_rows rows;
    memset(&rows, 0, sizeof rows);
    rows.layout.number = kind->number;
    rows.count = gathered->rows;
    rows.nulls = kind->nullable;
    if (kind->nullable && gathered->rows > 0) rows.nulls = HV_ARROW_NULLS_BY_BITS;
    rows.bits = gathered->valid.bytes;
    rows.bits_len = gathered->valid.size;
    if (kind->number == HV_DECIMAL)
        return hv_decimals((const hv_pair *)items, rows.count, kind->precision, kind->scale, hv_arrow_validity(&rows),
                           out, error);
    if (kind->number == HV_BOOL)
        return hv_bools((const uint8_t *)items, gathered->items.size, 0, rows.count, hv_arrow_validity(&rows), out,
                        error);
    if (kind->number < HV_BOOL) return hv_arrow_make_numbers(&rows, items, out, error);
    const int64_t *offsets = rows.count ? (const int64_t *)(const void *)gathered->offsets.bytes : &no_offset;
    return hv_large_texts(kind->number == HV_BINARY, offsets, rows.count + 1, gathered->bytes.bytes,
                          gathered->bytes.size, hv_arrow_validity(&rows), out, error);
}

/* The type of all columns, nullable where one is; whether each lies as runs or a constant. */
static inline int32_t hv_arrow_common_kind(hv_column *columns, size_t count, hv_kind *kind, bool *are_runs,
                                           hv_error *error) {
    *are_runs = true;
    if (count == 0) return hv_arrow_refuse(HV_UNSUPPORTED, 0, 0, error);
    *kind = hv_kind_of(&columns[0]);
    for (size_t i = 0; i < count; i++) {
        hv_kind other = hv_kind_of(&columns[i]);
        uint8_t form = hv_form(&columns[i]);
        if (form == HV_ARROW_NO_FORM) return hv_arrow_refuse(HV_NO_COLUMN, 0, 0, error);
        if (other.number != kind->number) return hv_arrow_refuse(HV_TYPE_MISMATCH, 0, 0, error);
        if (other.number == HV_DECIMAL && (other.precision != kind->precision || other.scale != kind->scale))
            return hv_arrow_refuse(HV_TYPE_MISMATCH, 0, 0, error);
        kind->nullable |= other.nullable;
        if (form == HV_ARROW_FLAT) *are_runs = false;
    }
    return HV_OK;
}

/* Are there more than 64 rows for each run and each flat row? Then flat rows are few next to those in runs. */
static inline bool hv_arrow_are_long(const hv_column *columns, size_t count) {
    uint64_t rows = 0, pieces = 0;
    for (size_t i = 0; i < count; i++) {
        const uint8_t form = hv_form(&columns[i]);
        size_t more = form == HV_ARROW_FLAT ? hv_length(&columns[i]) : 1;
        if (form == HV_FORM_RUNS && hv_run_count(&columns[i], &more, NULL)) return false;
        rows += hv_length(&columns[i]);
        pieces += more;
    }
    return rows / 64 > pieces;
}

/* Adds the visible runs of a column, or the runs of flat rows, after those that end at `rows`. */
static inline int32_t hv_arrow_gather_runs(const hv_session *session, hv_arrow_gathered *values, hv_arrow_room *ends,
                                           hv_column *column, uint64_t rows, hv_error *error) {
    hv_column shown = HV_EMPTY, encoded = HV_EMPTY;
    uint64_t *found = NULL, *added = NULL;
    size_t count = 0;
    int32_t answer = HV_OK;
    if (hv_form(column) == HV_ARROW_FLAT) answer = hv_encode_rows(column, &encoded, error);
    if (!answer)
        answer = hv_arrow_runs_of(session, encoded.at ? &encoded : column, &found, &count, &shown, error);
    if (!answer) added = (uint64_t *)hv_arrow_grow(ends, count * sizeof *added);
    if (!answer && !added) answer = hv_arrow_refuse(HV_OUT_OF_MEMORY, 0, 0, error);
    for (size_t run = 0; !answer && run < count; run++) added[run] = rows + found[run];
    if (!answer) answer = hv_arrow_gather(session, values, &shown, error);
    free(found);
    hv_free(&shown);
    hv_free(&encoded);
    return answer;
}

/* Runs of gathered values; ends are of 32 bits where that suffices. */
static inline int32_t hv_arrow_make_runs(const hv_session *session, const hv_arrow_gathered *values,
                                         const hv_arrow_room *room, size_t rows, hv_column *out, hv_error *error) {
    hv_kind kind = {HV_U32, 0, 0, 0};
    hv_column wide = HV_EMPTY, ends = HV_EMPTY, flat = HV_EMPTY;
    if (rows > UINT32_MAX) kind.number = HV_U64;
    const uint64_t *stops = (const uint64_t *)(const void *)room->bytes;
    int32_t answer = hv_u64(stops, values->rows, hv_not_nullable(), &wide, error);
    if (!answer) answer = hv_cast(session, &wide, &kind, &ends, error);
    if (!answer) answer = hv_arrow_make_gathered(values, &flat, error);
    if (!answer) answer = hv_runs(&ends, &flat, 0, rows, out, error);
    hv_free(&wide);
    hv_free(&ends);
    hv_free(&flat);
    return answer;
}

static inline int32_t hv_arrow_concat(const hv_session *session, hv_column *columns, size_t count, hv_column *out,
                                      hv_error *error) {
    hv_arrow_gathered gathered;
    hv_arrow_room ends = {NULL, 0, 0};
    uint64_t rows = 0;
    bool are_runs;
    memset(&gathered, 0, sizeof gathered);
    hv_arrow_refuse(HV_OK, 0, 0, error);
    if (count > 0 && hv_kind_of(&columns[0]).number == HV_LIST)
        return hv_arrow_concat_lists(session, columns, count, out, error);
    int32_t answer = hv_arrow_common_kind(columns, count, &gathered.kind, &are_runs, error);
    if (!answer && !are_runs) are_runs = hv_arrow_are_long(columns, count);
    for (size_t i = 0; !answer && i < count; i++) {
        size_t more = hv_length(&columns[i]);
        if (more > INT64_MAX - rows) answer = hv_arrow_refuse(HV_WINDOW_OVERFLOW, 0, 0, error);
        else if (are_runs) answer = hv_arrow_gather_runs(session, &gathered, &ends, &columns[i], rows, error);
        else answer = hv_arrow_gather(session, &gathered, &columns[i], error);
        rows += more;
    }
    if (!answer && are_runs) answer = hv_arrow_make_runs(session, &gathered, &ends, rows, out, error);
    if (!answer && !are_runs) answer = hv_arrow_make_gathered(&gathered, out, error);
    free(ends.bytes);
    hv_arrow_free_gathered(&gathered);
    return answer;
}
#endif
