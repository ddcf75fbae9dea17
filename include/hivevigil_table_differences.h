/* Columns of integers as differences, in files of tables: of each row that is not null to the one before it that is
 * not, and of the first one to 0. docs/BYTES.md says when a file has them, and in which form a column comes back. A
 * part of hivevigil_table_file.h, which includes it. Nothing here is proved. */
#ifndef HIVEVIGIL_TABLE_DIFFERENCES_H
#define HIVEVIGIL_TABLE_DIFFERENCES_H
#include "hivevigil_table_messages.h"
#include "hivevigil_table_runs.h"
#ifdef __cplusplus
extern "C" {
#endif

/* How a column is kept, by its number in docs/table.proto: as its rows, or as the differences of a flat column, or of
 * one in runs. */
enum { HV_TABLE_KEPT_ROWS = 0, HV_TABLE_KEPT_FLAT = 1, HV_TABLE_KEPT_RUNS = 2 };

/* Rows that are written out, or runs, since a few bytes may say that there are many. */
enum { HV_TABLE_MOST_KEPT = 1 << 26 };

__extension__ typedef __int128 hv_table_wide; /* every integer, and every difference of two */

static inline hv_table_wide hv_table_wide_of(hv_pair pair) {
    return (hv_table_wide)pair.high * ((hv_table_wide)1 << 64) + (hv_table_wide)pair.low;
}

/* Has a type of integers this number? */
static inline bool hv_table_has_number(uint8_t type, hv_table_wide number) {
    const int bits = 8 << type % 4;
    const hv_table_wide least = type < HV_I8 ? 0 : -((hv_table_wide)1 << (bits - 1));
    return number >= least && number < least + ((hv_table_wide)1 << bits);
}

/* ---- Integers of a type, which are added one at a time ---- */

/* A type, the numbers of items, one after the other, a bit for each that is valid, and, of runs, where each ends. */
typedef struct hv_table_items {
    hv_kind kind;
    size_t count, nulls;
    hv_buffer numbers, valid, ends;
} hv_table_items;

static inline void hv_table_items_free(hv_table_items *items) {
    hv_buffer_free(&items->numbers);
    hv_buffer_free(&items->valid);
    hv_buffer_free(&items->ends);
}

static inline void hv_table_put_item(hv_table_items *items, hv_table_wide number, bool is_valid) {
    const uint64_t low = (uint64_t)number; /* of which the lowest bytes come first */
    const uint8_t none = 0;
    hv_buffer_put(&items->numbers, &low, (size_t)1 << items->kind.number % 4);
    if (items->count % 8 == 0) hv_buffer_put(&items->valid, &none, 1);
    if (items->valid.is_refused) return;
    uint8_t *const bits = &items->valid.at[items->count / 8];
    *bits = (uint8_t)(*bits | (unsigned)is_valid << items->count % 8);
    items->count++;
    items->nulls += !is_valid;
}

/* A run that ends there. */
static inline void hv_table_put_run(hv_table_items *items, uint64_t end, hv_table_wide number, bool is_valid) {
    hv_table_put_item(items, number, is_valid);
    hv_buffer_put(&items->ends, &end, sizeof end);
}

/* The flat column of the items: 0 is stored under null. */
static inline int32_t hv_table_flat(const hv_table_items *items, hv_column *out, hv_error *error) {
    const hv_validity valid = !items->kind.nullable ? hv_not_nullable()
                              : items->nulls        ? hv_valid_bits(items->valid.at, items->valid.size, 0)
                                                    : hv_all_valid();
    const void *const at = items->numbers.at;
    const size_t count = items->count;
    switch (items->kind.number) {
    case HV_U8: return hv_u8((const uint8_t *)at, count, valid, out, error);
    case HV_U16: return hv_u16((const uint16_t *)at, count, valid, out, error);
    case HV_U32: return hv_u32((const uint32_t *)at, count, valid, out, error);
    case HV_U64: return hv_u64((const uint64_t *)at, count, valid, out, error);
    case HV_I8: return hv_i8((const int8_t *)at, count, valid, out, error);
    case HV_I16: return hv_i16((const int16_t *)at, count, valid, out, error);
    case HV_I32: return hv_i32((const int32_t *)at, count, valid, out, error);
    default: return hv_i64((const int64_t *)at, count, valid, out, error);
    }
}

/* The column of the items: runs, as few as possible, with the narrowest ends, or flat. */
static inline int32_t hv_table_column_of(const hv_table_items *items, bool in_runs, hv_column *out, hv_error *error) {
    hv_column flat = HV_EMPTY, runs = HV_EMPTY;
    int32_t answer = hv_buffer_answer(&items->numbers, error);
    if (!answer) answer = hv_buffer_answer(&items->valid, error);
    if (!answer) answer = hv_buffer_answer(&items->ends, error);
    if (!answer) answer = hv_table_flat(items, in_runs ? &flat : out, error);
    if (!answer && in_runs)
        answer = hv_table_in_runs((const uint64_t *)(const void *)items->ends.at, &flat, items->count, &runs, error);
    if (!answer && in_runs) answer = hv_encode_rows(&runs, out, error);
    hv_free(&flat);
    hv_free(&runs);
    return answer;
}

/* ---- Written ---- */

/* The differences of runs: of each its own, then as many zeros as it has more rows. False where one does not fit. */
static inline bool hv_table_differ(const hv_table_runs *runs, hv_table_items *out) {
    hv_table_wide before = 0;
    uint64_t start = 0;
    for (size_t run = 0; run < runs->count; start = runs->stops[run++]) {
        const uint64_t stop = runs->stops[run];
        if (!hv_table_bit(runs->valid, run)) {
            hv_table_put_run(out, stop, 0, false);
            continue;
        }
        const hv_table_wide number = hv_table_wide_of(runs->numbers[run]);
        if (!hv_table_has_number(HV_I64, number - before)) return false;
        hv_table_put_run(out, start + 1, number - before, true);
        if (stop > start + 1) hv_table_put_run(out, stop, 0, true);
        before = number;
    }
    return true;
}

/* The differences of a column of integers, in runs; `out` stays where they do not fit 64 bits. */
static inline int32_t hv_table_differences_of(const hv_column *column, hv_column *out, hv_error *error) {
    hv_table_items items;
    hv_table_runs runs;
    memset(&items, 0, sizeof items);
    items.kind.number = HV_I64;
    items.kind.nullable = hv_kind_of(column).nullable;
    int32_t answer = hv_table_runs_of(column, &runs, error);
    const bool fit = !answer && hv_table_differ(&runs, &items);
    if (fit) answer = hv_table_column_of(&items, true, out, error);
    hv_table_runs_free(&runs);
    hv_table_items_free(&items);
    return answer;
}

/* ---- Read ---- */

/* Rows of a type, which are added in stretches: the running totals of differences, at most `most` items. */
typedef struct hv_table_totals {
    hv_table_items items;
    hv_table_wide total;
    uint64_t rows, most;
    bool by_runs, is_after_value;
} hv_table_totals;

/* Rows of one number, which are one run; false where there are too many. */
static inline bool hv_table_put_same(hv_table_totals *totals, hv_table_wide number, uint64_t count, bool is_valid) {
    const uint64_t items = totals->by_runs ? 1 : count;
    if (items > totals->most - totals->items.count) return false;
    for (uint64_t item = 0; item < items; item++) hv_table_put_item(&totals->items, number, is_valid);
    totals->rows += count;
    if (totals->by_runs) hv_buffer_put(&totals->items.ends, &totals->rows, sizeof totals->rows);
    return true;
}

/* Rows of which each is another. */
static inline bool hv_table_put_steps(hv_table_totals *totals, hv_table_wide difference, uint64_t count) {
    if (count > totals->most - totals->items.count) return false;
    for (uint64_t row = 1; row <= count; row++) {
        const hv_table_wide number = totals->total + difference * (hv_table_wide)row;
        if (totals->by_runs) hv_table_put_run(&totals->items, totals->rows + row, number, true);
        else hv_table_put_item(&totals->items, number, true);
    }
    totals->rows += count;
    return true;
}

/* Adds rows of which each is the one before and this difference. False where one does not fit the type, or where there
 * are too many. */
static inline bool hv_table_add_total(hv_table_totals *totals, hv_table_wide difference, uint64_t count) {
    const hv_table_wide last = totals->total + difference * (hv_table_wide)count;
    if (!hv_table_has_number(totals->items.kind.number, last)) return false; /* rows between are between */
    if (difference != 0) {
        if (!hv_table_put_steps(totals, difference, count)) return false;
    } else if (totals->by_runs && totals->is_after_value && !totals->items.ends.is_refused) {
        totals->rows += count; /* the last run goes on */
        memcpy(totals->items.ends.at + totals->items.ends.size - 8, &totals->rows, 8);
    } else if (!hv_table_put_same(totals, last, count, true)) {
        return false;
    }
    totals->total = last;
    totals->is_after_value = true;
    return true;
}

static inline bool hv_table_add_totals(hv_table_totals *totals, const hv_table_runs *runs) {
    uint64_t start = 0;
    for (size_t run = 0; run < runs->count; start = runs->stops[run++]) {
        const uint64_t count = runs->stops[run] - start;
        const bool is_valid = hv_table_bit(runs->valid, run);
        const bool fit = is_valid ? hv_table_add_total(totals, hv_table_wide_of(runs->numbers[run]), count)
                                  : hv_table_put_same(totals, 0, count, false);
        if (!fit) return false;
        totals->is_after_value = is_valid;
    }
    return true;
}

/* The column of a type, in a form, that has these differences, of at most `most` rows, or runs; 17 where there is
 * none. */
static inline int32_t hv_table_totals_of(const hv_column *differences, hv_kind kind, uint8_t kept, uint64_t most,
                                         hv_column *out, hv_error *error) {
    hv_table_totals totals;
    hv_table_runs runs;
    memset(&totals, 0, sizeof totals);
    totals.items.kind = kind;
    totals.by_runs = kept == HV_TABLE_KEPT_RUNS;
    totals.most = most < HV_TABLE_MOST_KEPT ? most : (uint64_t)HV_TABLE_MOST_KEPT;
    int32_t answer = hv_table_runs_of(differences, &runs, error);
    if (!answer && !hv_table_add_totals(&totals, &runs)) answer = hv_table_damaged(error);
    if (!answer) answer = hv_table_column_of(&totals.items, totals.by_runs, out, error);
    hv_table_runs_free(&runs);
    hv_table_items_free(&totals.items);
    return answer;
}

/* ---- Both ---- */

/* Has a column these bytes as its message? */
static inline int32_t hv_table_has_message(const hv_column *column, hv_table_span message, bool *truth,
                                           hv_error *error) {
    hv_buffer own = HV_BUFFER_EMPTY;
    const int32_t answer = hv_table_put_column(&own, column, error);
    *truth = !answer && hv_table_same_bytes(hv_table_bytes_of(&own), message);
    hv_buffer_free(&own);
    return answer;
}

/* Do differences give back the column of a message? */
static inline int32_t hv_table_gives_back(const hv_column *differences, hv_kind kind, uint8_t kept,
                                          hv_table_span message, bool *truth, hv_error *error) {
    hv_column again = HV_EMPTY;
    *truth = false;
    int32_t answer = hv_table_totals_of(differences, kind, kept, HV_TABLE_MOST_KEPT, &again, error);
    if (!answer) answer = hv_table_has_message(&again, message, truth, error);
    hv_free(&again);
    return answer == HV_BAD_METADATA ? HV_OK : answer;
}

/* The message of a column: of its differences, where these are shorter, fit 64 bits and give the column back in its
 * form, and else of its rows; *kept says which. */
static inline int32_t hv_table_put_shorter(hv_buffer *out, const hv_column *column, uint8_t *kept, hv_error *error) {
    const uint8_t form = hv_form(column);
    hv_column differences = HV_EMPTY;
    hv_buffer shorter = HV_BUFFER_EMPTY;
    const size_t start = out->size;
    bool is_same = false;
    *kept = form == HV_FORM_FLAT ? HV_TABLE_KEPT_FLAT : HV_TABLE_KEPT_RUNS;
    int32_t answer = hv_table_put_column(out, column, error);
    const bool is_tried = hv_table_is_integer(column) && (form == HV_FORM_FLAT || form == HV_FORM_RUNS);
    const hv_table_span whole = {answer ? NULL : out->at + start, out->size - start};
    if (!answer && is_tried) answer = hv_table_differences_of(column, &differences, error);
    if (!answer && !hv_is_empty(&differences)) answer = hv_table_put_column(&shorter, &differences, error);
    if (!answer && shorter.size && shorter.size < whole.size)
        answer = hv_table_gives_back(&differences, hv_kind_of(column), *kept, whole, &is_same, error);
    if (is_same) memcpy(out->at + start, shorter.at, shorter.size);
    if (is_same) out->size = start + shorter.size;
    else *kept = HV_TABLE_KEPT_ROWS;
    hv_free(&differences);
    hv_buffer_free(&shorter);
    return answer;
}

/* The column of a type, in a form, of at most `most` rows, or runs, that has the differences of a message; 17 where
 * there is none, or where they are not as they are written. */
static inline int32_t hv_table_of_differences(const hv_column *differences, hv_table_span message, hv_kind kind,
                                              uint8_t kept, uint64_t most, hv_column *out, hv_error *error) {
    const hv_kind own = hv_kind_of(differences);
    hv_column fewest = HV_EMPTY;
    bool is_same = false;
    int32_t answer = HV_OK;
    if (hv_form(differences) != HV_FORM_RUNS || own.number != HV_I64 || own.nullable != kind.nullable ||
        kind.number > HV_I64)
        return hv_table_damaged(error);
    answer = hv_encode_rows(differences, &fewest, error);
    if (!answer) answer = hv_table_has_message(&fewest, message, &is_same, error);
    if (!answer && !is_same) answer = hv_table_damaged(error);
    if (!answer) answer = hv_table_totals_of(differences, kind, kept, most, out, error);
    hv_free(&fewest);
    return answer;
}

#ifdef __cplusplus
}
#endif
#endif
