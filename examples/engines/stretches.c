#include "stretches.h"
#include "logical_types.h"

int32_t stretch_end(const hv_column *column, size_t start, size_t *stop, hv_error *error) {
    const uint8_t form = hv_form(column);
    size_t run = 0, count = 0;
    uint64_t end = hv_length(column);
    int32_t answer = HV_OK;
    if (form == HV_FORM_FLAT && end - start > RUNS_AT_ONCE) end = start + RUNS_AT_ONCE;
    if (form == HV_FORM_RUNS && start < end) {
        answer = hv_run_count(column, &count, error);
        if (!answer) answer = hv_run_of(column, start, &run, error);
        if (!answer && count - run > RUNS_AT_ONCE)
            answer = hv_read_ends_u64(column, run + RUNS_AT_ONCE - 1, &end, 1, error);
    }
    *stop = (size_t)end;
    return answer;
}

bool is_long(const hv_column *column) {
    hv_error error;
    size_t stop = 0;
    return !stretch_end(column, 0, &stop, &error) && stop < hv_length(column);
}

/* The rows of a stretch, which belong to the column. */
static int32_t part_of(const hv_column *column, size_t start, size_t stop, hv_column *out, hv_error *error) {
    hv_session session;
    hv_session_initial(&session);
    return hv_slice(&session, column, start, stop, out, error);
}

/* What is made so far; the first stretch, whose type all have, begins the builder. */
typedef struct joined {
    make_stretch *make;
    const void *how;
    hv_builder rows;
} joined;

static int32_t add_made(joined *at, const hv_column *left, const hv_column *right, hv_error *error) {
    hv_column made = HV_EMPTY;
    int32_t answer = at->make(at->how, left, right, &made, error);
    const hv_kind kind = hv_kind_of(&made);
    if (!answer && !at->rows.at) answer = hv_builder_new(&kind, &at->rows, error);
    if (!answer) answer = hv_append(&at->rows, &made, error);
    hv_free(&made);
    return answer;
}

/* Adds what is made of the stretch that begins with row `start`, and answers where it ends. */
static int32_t add_stretch(joined *at, const hv_column *left, const hv_column *right, size_t start, size_t *stop,
                           hv_error *error) {
    hv_column first = HV_EMPTY, second = HV_EMPTY;
    size_t other = hv_length(left);
    int32_t answer = stretch_end(left, start, stop, error);
    if (!answer && right) answer = stretch_end(right, start, &other, error);
    if (other < *stop) *stop = other;
    if (!answer) answer = part_of(left, start, *stop, &first, error);
    if (!answer && right) answer = part_of(right, start, *stop, &second, error);
    if (!answer) answer = add_made(at, &first, right ? &second : NULL, error);
    if (answer == HV_CAST_OUT_OF_RANGE || answer == PAST_LOGICAL_TYPE) error->first += start;
    hv_free(&first), hv_free(&second);
    return answer;
}

static int32_t made_of_all(const hv_column *left, const hv_column *right, joined *at, hv_column *out,
                           hv_error *error) {
    const size_t rows = hv_length(left);
    int32_t answer = HV_OK;
    for (size_t start = 0, stop = 0; !answer && start < rows; start = stop) {
        answer = add_stretch(at, left, right, start, &stop, error);
        if (!answer && is_interrupted()) answer = INTERRUPTED;
    }
    if (!answer) answer = hv_finish(&at->rows, out, error);
    hv_builder_free(&at->rows);
    return answer;
}

int32_t made_by_stretches(const hv_column *left, const hv_column *right, make_stretch *make, const void *how,
                          hv_column *out, hv_error *error) {
    joined at = {make, how, HV_EMPTY};
    hv_column made = HV_EMPTY;
    const bool goes_together = !right || hv_length(left) == hv_length(right);
    if (goes_together && (is_long(left) || (right && is_long(right))))
        return made_of_all(left, right, &at, out, error);
    int32_t answer = make(how, left, right, &made, error);
    if (!answer) answer = hv_encode_rows(&made, out, error);
    hv_free(&made);
    return answer;
}

static int32_t same_rows(const void *how, const hv_column *left, const hv_column *right, hv_column *out,
                         hv_error *error) {
    (void)how, (void)right;
    return hv_clone(left, out, error);
}

int32_t encoded_by_stretches(const hv_column *column, hv_column *out, hv_error *error) {
    return is_long(column) ? made_by_stretches(column, NULL, same_rows, NULL, out, error)
                           : hv_encode_rows(column, out, error);
}

int32_t look_by_stretches(const hv_column *column, look_at_stretch *look, void *found, hv_error *error) {
    const size_t rows = hv_length(column);
    int32_t answer = HV_OK;
    if (!is_long(column)) {
        if (rows) answer = look(found, column, 0, error);
        return answer == SEEN ? HV_OK : answer;
    }
    for (size_t start = 0, stop = 0; !answer && start < rows; start = stop) {
        hv_column part = HV_EMPTY;
        answer = stretch_end(column, start, &stop, error);
        if (!answer) answer = part_of(column, start, stop, &part, error);
        if (!answer) answer = look(found, &part, start, error);
        if (!answer && is_interrupted()) answer = INTERRUPTED;
        hv_free(&part);
    }
    return answer == SEEN ? HV_OK : answer;
}
