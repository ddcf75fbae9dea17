#include "group_folds.h"
#include "hivevigil_helpers.h"
#include "stretches.h"

/* What is asked of an encoding of keys and as many values, and the answers so far. */
typedef struct fold_walk {
    const hv_column *keys, *values;
    uint8_t fold;
    nan_order nans;
    hv_builder made_keys, made_answers;
} fold_walk;

/* The builder of rows of a column's type, made where there is none, takes its rows. */
static int32_t add_rows(hv_builder *builder, const hv_column *rows, hv_error *error) {
    const hv_kind kind = hv_kind_of(rows);
    const int32_t answer = builder->at ? HV_OK : hv_builder_new(&kind, builder, error);
    return answer ? answer : hv_append(builder, rows, error);
}

/* What a fold answers of the groups of some rows. */
static int32_t fold_rows(const fold_walk *at, size_t start, size_t stop, hv_column *out_keys, hv_column *out_answers,
                         hv_error *error) {
    hv_column keys = HV_EMPTY, values = HV_EMPTY;
    hv_session session;
    hv_session_initial(&session);
    int32_t answer = hv_slice(&session, at->keys, start, stop, &keys, error);
    if (!answer) answer = hv_slice(&session, at->values, start, stop, &values, error);
    if (!answer) answer = column_fold_by(&keys, &values, at->fold, at->nans, out_keys, out_answers, error);
    hv_free(&keys), hv_free(&values);
    return answer;
}

/* ---- A group of more than a stretch ---- */

/* Is what is asked of a group also that of what is asked of its parts? Sums of floats are rounded, and their extremes
 * leave out NaNs. */
static bool is_of_parts(const fold_walk *at) {
    const bool is_of_rows = at->fold == HV_FOLD_ROWS || at->fold == HV_FOLD_COUNT;
    return is_of_rows || hv_kind_of(at->values).number == HV_I64;
}

/* The answers of the parts of one group, one after the other. */
static int32_t fold_parts(const fold_walk *at, size_t start, size_t stop, hv_builder *parts, hv_error *error) {
    int32_t answer = HV_OK;
    for (size_t end = start; !answer && start < stop; start = end) {
        hv_column key = HV_EMPTY, part = HV_EMPTY;
        answer = stretch_end(at->values, start, &end, error);
        if (end > stop) end = stop;
        if (!answer) answer = fold_rows(at, start, end, &key, &part, error);
        if (!answer) answer = add_rows(parts, &part, error);
        if (!answer && is_interrupted()) answer = INTERRUPTED;
        hv_free(&key), hv_free(&part);
    }
    return answer;
}

/* The answer of one group by those of its parts, of which a count is added up. */
static int32_t fold_long_group(const fold_walk *at, size_t start, size_t stop, hv_column *out_key,
                               hv_column *out_answer, hv_error *error) {
    const bool is_count = at->fold == HV_FOLD_ROWS || at->fold == HV_FOLD_COUNT;
    hv_builder parts = HV_EMPTY;
    hv_column answers = HV_EMPTY, same_key = HV_EMPTY;
    hv_session session;
    hv_session_initial(&session);
    int32_t answer = fold_parts(at, start, stop, &parts, error);
    if (!answer) answer = hv_finish(&parts, &answers, error);
    if (!answer) answer = hv_slice(&session, at->keys, start, start + hv_length(&answers), &same_key, error);
    if (!answer)
        answer = hv_fold_by(&same_key, &answers, is_count ? HV_FOLD_SUM : at->fold, out_key, out_answer, error);
    hv_builder_free(&parts);
    hv_free(&answers), hv_free(&same_key);
    return answer;
}

/* ---- All groups ---- */

/* Where whole groups end that begin with row `start`: a stretch of them, or one that is longer, of which it is said. */
static int32_t groups_end(const fold_walk *at, size_t start, size_t *stop, bool *is_one, hv_error *error) {
    size_t end = 0, run = 0;
    uint64_t before = 0, after = 0;
    *is_one = false;
    int32_t answer = stretch_end(at->keys, start, stop, error);
    if (!answer) answer = stretch_end(at->values, start, &end, error);
    if (end < *stop) *stop = end;
    if (!answer) answer = hv_run_of(at->keys, *stop - 1, &run, error);
    if (!answer) answer = hv_read_ends_u64(at->keys, run, &after, 1, error);
    if (!answer && run) answer = hv_read_ends_u64(at->keys, run - 1, &before, 1, error);
    if (answer || after == *stop) return answer;
    *is_one = before <= start;
    *stop = *is_one ? after : before;
    return HV_OK;
}

/* Adds the answers of the groups from row `start` on, up to row `stop`. */
static int32_t add_groups(fold_walk *at, size_t start, size_t stop, bool is_one, hv_error *error) {
    hv_column keys = HV_EMPTY, answers = HV_EMPTY;
    int32_t answer = HV_CAST_OUT_OF_RANGE;
    if (is_one && is_of_parts(at)) answer = fold_long_group(at, start, stop, &keys, &answers, error);
    if (answer == HV_CAST_OUT_OF_RANGE) answer = fold_rows(at, start, stop, &keys, &answers, error);
    if (answer == HV_CAST_OUT_OF_RANGE) error->first += hv_builder_rows(&at->made_answers);
    if (!answer) answer = add_rows(&at->made_keys, &keys, error);
    if (!answer) answer = add_rows(&at->made_answers, &answers, error);
    hv_free(&keys), hv_free(&answers);
    return answer;
}

static int32_t fold_all(fold_walk *at, hv_column *out_keys, hv_column *out_answers, hv_error *error) {
    const size_t rows = hv_length(at->keys);
    int32_t answer = HV_OK;
    for (size_t start = 0, stop = 0; !answer && start < rows; start = stop) {
        bool is_one;
        answer = groups_end(at, start, &stop, &is_one, error);
        if (!answer) answer = add_groups(at, start, stop, is_one, error);
        if (!answer && is_interrupted()) answer = INTERRUPTED;
    }
    if (!answer) answer = hv_finish(&at->made_keys, out_keys, error);
    if (!answer) answer = hv_finish(&at->made_answers, out_answers, error);
    hv_builder_free(&at->made_keys), hv_builder_free(&at->made_answers);
    return answer;
}

int32_t groups_fold_by(const hv_column *keys, const hv_column *values, uint8_t fold, nan_order nans,
                       hv_column *out_keys, hv_column *out_answers, hv_error *error) {
    hv_column encoding = HV_EMPTY;
    fold_walk at = {&encoding, values, fold, nans, HV_EMPTY, HV_EMPTY};
    if (hv_length(keys) != hv_length(values) || (!is_long(keys) && !is_long(values)))
        return column_fold_by(keys, values, fold, nans, out_keys, out_answers, error);
    int32_t answer = encoded_by_stretches(keys, &encoding, error);
    if (!answer) answer = fold_all(&at, out_keys, out_answers, error);
    hv_free(&encoding);
    return answer;
}
