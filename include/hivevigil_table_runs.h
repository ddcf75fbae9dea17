/* The runs of a column of integers in C's own arrays, by which it is kept as differences: a part of
 * hivevigil_table_differences.h, which includes it. Nothing here is proved. */
#ifndef HIVEVIGIL_TABLE_RUNS_H
#define HIVEVIGIL_TABLE_RUNS_H
#include "hivevigil_table_helpers.h"
#ifdef __cplusplus
extern "C" {
#endif

static inline bool hv_table_bit(const uint64_t *words, size_t place) { return words[place / 64] >> place % 64 & 1; }

static inline bool hv_table_is_integer(const hv_column *column) { return hv_kind_of(column).number <= HV_I64; }

/* Where the runs of an encoding stop, in memory of malloc. */
static inline int32_t hv_table_stops(const hv_column *encoding, uint64_t **stops, size_t *count, hv_error *error) {
    int32_t answer = hv_run_count(encoding, count, error);
    if (!answer) answer = hv_table_memory(*count, sizeof **stops, stops, error);
    if (!answer) answer = hv_read_ends_u64(encoding, 0, *stops, *count, error);
    return answer;
}

/* The column in runs that stop there and have these values. */
static inline int32_t hv_table_in_runs(const uint64_t *stops, const hv_column *values, size_t count, hv_column *out,
                                       hv_error *error) {
    hv_column ends = HV_EMPTY;
    int32_t answer = hv_u64(stops, count, hv_not_nullable(), &ends, error);
    if (!answer) answer = hv_runs(&ends, values, 0, count ? (size_t)stops[count - 1] : 0, out, error);
    hv_free(&ends);
    return answer;
}

/* ---- Runs of integers ---- */

/* Runs, as few as possible: where each stops, whether it has a value, by bits, and its number. */
typedef struct hv_table_runs {
    size_t count;
    uint64_t *stops, *valid;
    hv_pair *numbers;
} hv_table_runs;

static inline void hv_table_runs_free(hv_table_runs *runs) {
    free(runs->stops);
    free(runs->valid);
    free(runs->numbers);
    memset(runs, 0, sizeof *runs);
}

/* The runs of integers, which are the caller's to free, also after a refusal. The numbers go by decimals of scale 0, so
 * that one call reads them whatever their type. */
static inline int32_t hv_table_runs_of(const hv_column *column, hv_table_runs *runs, hv_error *error) {
    hv_column encoding = HV_EMPTY, values = HV_EMPTY, wide = HV_EMPTY;
    memset(runs, 0, sizeof *runs);
    int32_t answer = hv_encode_rows(column, &encoding, error);
    if (!answer) answer = hv_values(&encoding, &values, error);
    if (!answer) answer = hv_table_stops(&encoding, &runs->stops, &runs->count, error);
    const size_t words = (runs->count + 63) / 64;
    if (!answer) answer = hv_table_memory(words, sizeof *runs->valid, &runs->valid, error);
    if (!answer) answer = hv_read_validity_from(&values, 0, runs->count, runs->valid, words, error);
    if (!answer) answer = hv_table_memory(runs->count, sizeof *runs->numbers, &runs->numbers, error);
    if (!answer) answer = hv_decimal_cast(&values, 38, 0, &wide, error);
    if (!answer) answer = hv_read_decimals(&wide, 0, runs->numbers, runs->count, error);
    hv_free(&encoding);
    hv_free(&values);
    hv_free(&wide);
    return answer;
}

#ifdef __cplusplus
}
#endif
#endif
