#include "run_parts.h"
#include <stdlib.h>

void run_parts_free(run_parts *runs) {
    free(runs->stops);
    free(runs->valid);
    hv_free(&runs->values);
}

int32_t run_parts_read(const hv_column *column, run_parts *runs, hv_error *error) {
    hv_column encoding = HV_EMPTY, values = HV_EMPTY;
    hv_session session;
    int32_t answer = HV_OK;
    hv_session_initial(&session);
    if (hv_form(column) != HV_FORM_RUNS) answer = hv_encode_rows(column, &encoding, error), column = &encoding;
    if (!answer) answer = hv_run_count(column, &runs->count, error);
    if (!answer) answer = hv_values(column, &values, error);
    if (!answer) answer = hv_decode(&session, &values, &runs->values, error);
    if (!answer) {
        runs->words = (runs->count + 63) / 64;
        runs->stops = calloc(runs->count + 1, sizeof *runs->stops);
        runs->valid = calloc(runs->words + 1, sizeof *runs->valid);
        if (!runs->stops || !runs->valid) answer = HV_OUT_OF_MEMORY;
    }
    if (!answer) answer = hv_read_ends_u64(column, 0, runs->stops, runs->count, error);
    if (!answer) answer = hv_read_validity(&runs->values, runs->valid, runs->words, error);
    hv_free(&encoding);
    hv_free(&values);
    return answer;
}

int32_t run_parts_numbers(const run_parts *runs, int64_t **numbers, hv_error *error) {
    int64_t *made = calloc(runs->count + 1, sizeof *made);
    const int32_t answer = made ? hv_read_i64(&runs->values, 0, made, runs->count, error) : HV_OUT_OF_MEMORY;
    if (answer) free(made);
    else *numbers = made;
    return answer;
}
