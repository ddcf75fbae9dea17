/* Columns of 2^40 rows in a few runs, and their stretches of equal rows, which share nothing with the library but the
 * rows of table_rows.h: no row is written or read. */
#ifndef HIVEVIGIL_LONG_PARTS_H
#define HIVEVIGIL_LONG_PARTS_H
#include "table_rows.h"

enum { MOST_PARTS = 64 };
static const uint64_t rows = ((uint64_t)1 << 40) + 70;

/* A column: how many rows each stretch has, and their value, which differs from the one before. */
typedef struct plain_parts {
    plain_column type; /* of which no row is read */
    size_t count;
    uint64_t lengths[MOST_PARTS];
    plain_row values[MOST_PARTS];
} plain_parts;

static void add_part(plain_parts *parts, uint64_t length, const plain_row *value) {
    if (!length) return;
    if (parts->count && are_equal(&parts->values[parts->count - 1], value, parts->type.kind)) {
        parts->lengths[parts->count - 1] += length;
        return;
    }
    CHECK(parts->count < MOST_PARTS);
    parts->lengths[parts->count] = length;
    parts->values[parts->count++] = *value;
}

/* What is made of the stretches in which two columns stay the same. */
typedef void (*parts_work)(plain_parts *made, uint64_t length, const plain_row *left, const plain_row *right);
static inline void work_parts(const plain_parts *left, const plain_parts *right, parts_work work, plain_parts *made) {
    uint64_t one_used = 0, other_used = 0;
    made->count = 0;
    for (size_t one = 0, other = 0; one < left->count && other < right->count;) {
        const uint64_t one_left = left->lengths[one] - one_used, other_left = right->lengths[other] - other_used;
        const uint64_t length = one_left < other_left ? one_left : other_left;
        work(made, length, &left->values[one], &right->values[other]);
        one_used += length;
        other_used += length;
        if (one_used == left->lengths[one]) one++, one_used = 0;
        if (other_used == right->lengths[other]) other++, other_used = 0;
    }
}

/* ---- Random columns ---- */

static int by_size(const void *left, const void *right) {
    const uint64_t one = *(const uint64_t *)left, other = *(const uint64_t *)right;
    return (one > other) - (one < other);
}

/* Where a few runs end: near both ends, near one another, at places by chance. */
static size_t random_stops(uint64_t *stops) {
    size_t count = chance(7), kept_stops = 0;
    for (size_t i = 0; i < count; i++) {
        const uint64_t near = 1 + chance(130), places[] = {near, rows - near, 1 + chance(rows - 1)};
        stops[i] = places[chance(3)];
    }
    stops[count++] = rows;
    qsort(stops, count, sizeof *stops, by_size);
    for (size_t i = 0; i < count; i++)
        if (!kept_stops || stops[kept_stops - 1] != stops[i]) stops[kept_stops++] = stops[i];
    return kept_stops;
}

/* Runs, some over runs and some in a window of longer ones, of a type that is not one of floats. */
static void random_runs(plain_parts *parts, hv_column *out) {
    static plain_row values[MOST_PARTS];
    uint64_t stops[MOST_PARTS], before = chance(2) * 3;
    const size_t count = random_stops(stops);
    hv_column ends = HV_EMPTY, flat = HV_EMPTY, encoded = HV_EMPTY;
    parts->count = 0;
    for (size_t run = 0; run < count; run++) {
        values[run] = random_value(&parts->type);
        if (parts->type.kind.nullable && chance(4) == 0) memset(&values[run], 0, sizeof values[run]);
        add_part(parts, stops[run] - (run ? stops[run - 1] : 0), &values[run]);
    }
    for (size_t run = 0; run < count; run++) stops[run] += before;
    stops[count - 1] += chance(2) << 40;
    CHECK(!hv_u64(stops, count, NOT_NULLABLE, &ends, &error));
    make_flat(values, count, parts->type.kind, &flat);
    const int joined = parts->type.kind.number != HV_LIST && chance(3) == 0;
    if (joined) CHECK(!hv_encode_rows(&flat, &encoded, &error));
    CHECK(!hv_runs(&ends, joined ? &encoded : &flat, before, rows, out, &error));
    hv_free(&encoded);
    hv_free(&ends);
    hv_free(&flat);
}
static inline void random_parts(plain_parts *parts, hv_column *out) {
    do random_column_type(&parts->type);
    while (*parts->type.format && strchr("efg", *parts->type.format));
    random_runs(parts, out);
}
static inline void random_mask(plain_parts *parts, hv_column *out) {
    parts->type.kind = (hv_kind){HV_BOOL, (uint8_t)chance(2), 0, 0};
    parts->type.format = "";
    random_runs(parts, out);
}

/* ---- Held against columns ---- */

/* Each stretch has its value in its first row and in its last, and there are as many runs as stretches. */
static inline void check_parts(const hv_column *column, const plain_parts *due) {
    uint64_t start = 0;
    size_t runs = 0;
    hv_column encoded = HV_EMPTY, lists = HV_EMPTY;
    const bool is_list = due->type.kind.number == HV_LIST;
    if (is_list) CHECK(!hv_decode(&session, column, &lists, &error));
    for (size_t part = 0; part < due->count; part++) {
        const uint64_t places[] = {start, start + due->lengths[part] - 1};
        for (int i = 0; i < 2; i++)
            if (is_list) check_list(&lists, places[i], &due->values[part]);
            else check_value(column, places[i], &due->values[part], due->type.kind);
        start += due->lengths[part];
    }
    CHECK(hv_length(column) == start && hv_kind_of(column).number == due->type.kind.number);
    if (!is_list) {
        CHECK(!hv_encode_rows(column, &encoded, &error) && !hv_run_count(&encoded, &runs, &error));
        CHECK(runs == due->count);
    }
    hv_free(&encoded);
    hv_free(&lists);
}
#endif
