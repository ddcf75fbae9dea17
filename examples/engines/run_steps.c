#include "run_steps.h"
#include "column_bytes.h"
#include "run_parts.h"
#include "stretches.h"
#include <stdlib.h>

enum { FEW = 512 };

/* A run of rows of one number. */
typedef struct number_run {
    uint64_t start, rows;
    int64_t number;
} number_run;

typedef struct walk walk;

/* Adds what is made of a run. */
typedef int32_t add_run(walk *at, const number_run *run, hv_error *error);

/* A column that is made from the runs of another, one after the other. Single rows wait, and go to the builder together,
 * which is faster. */
struct walk {
    hv_builder made;
    add_run *add;
    int64_t last; /* the number before, or the sum so far */
    bucket_grid grid;
    size_t waiting;
    int64_t few[FEW];
};

static int32_t add_batch(walk *at, hv_error *error) {
    hv_column rows = HV_EMPTY;
    int32_t answer = hv_i64(at->few, at->waiting, hv_all_valid(), &rows, error);
    if (!answer) answer = hv_append(&at->made, &rows, error);
    hv_free(&rows);
    return answer;
}

/* Adds the single rows that wait: as a column, which takes longer for few of them. */
static int32_t add_few(walk *at, hv_error *error) {
    hv_value value = {0, 0, HV_SIGNED, 0, 0};
    int32_t answer = HV_OK;
    if (hv_builder_runs(&at->made) >= MOST_RUNS) return TOO_MANY_RUNS;
    if (is_interrupted()) return INTERRUPTED;
    if (at->waiting > FEW / 32) answer = add_batch(at, error), at->waiting = 0;
    for (size_t row = 0; !answer && row < at->waiting; row++) {
        value.as_signed = at->few[row];
        answer = hv_append_value(&at->made, &value, NULL, 0, 1, error);
    }
    at->waiting = 0;
    return answer;
}

/* Adds rows of a value, after all that wait. */
static int32_t add_value(walk *at, const hv_value *value, uint64_t rows, hv_error *error) {
    const int32_t answer = add_few(at, error);
    return answer ? answer : hv_append_value(&at->made, value, NULL, 0, rows, error);
}

static int32_t add_rows(walk *at, int64_t number, uint64_t rows, hv_error *error) {
    const hv_value value = {0, number, HV_SIGNED, 0, 0};
    if (rows == 0) return HV_OK;
    if (rows > 1) return add_value(at, &value, rows, error);
    at->few[at->waiting++] = number;
    return at->waiting == FEW ? add_few(at, error) : HV_OK;
}

static int32_t past_range(uint64_t row, hv_error *error) {
    error->first = row;
    return HV_CAST_OUT_OF_RANGE;
}

/* ---- What is made of a run ---- */

static int32_t add_steps(walk *at, const number_run *run, hv_error *error) {
    int64_t step;
    if (__builtin_sub_overflow(run->number, at->last, &step)) return past_range(run->start, error);
    at->last = run->number;
    const int32_t answer = add_rows(at, step, 1, error);
    return answer ? answer : add_rows(at, 0, run->rows - 1, error);
}

static int32_t add_totals(walk *at, const number_run *run, hv_error *error) {
    const uint64_t fit = rows_that_fit(at->last, run->number);
    int32_t answer = HV_OK;
    if (run->number == 0) return add_rows(at, at->last, run->rows, error);
    if (fit < run->rows) return past_range(run->start + fit, error);
    if (run->rows > MOST_RUNS) return TOO_MANY_RUNS;
    for (uint64_t row = 0; !answer && row < run->rows; row++)
        answer = add_rows(at, at->last += run->number, 1, error);
    return answer;
}

static int64_t modulo(int64_t number, int64_t width) {
    const int64_t rest = number % width;
    return rest < 0 ? rest + width : rest;
}

/* How far into its bucket a number is, from 0 to the width - 1. */
static int64_t in_bucket(bucket_grid grid, int64_t number) {
    return modulo(modulo(number, grid.width) - modulo(grid.origin, grid.width), grid.width);
}

static int32_t add_bucket(walk *at, const number_run *run, hv_error *error) {
    int64_t begin;
    if (__builtin_sub_overflow(run->number, in_bucket(at->grid, run->number), &begin))
        return past_range(run->start, error);
    return add_rows(at, begin, run->rows, error);
}

/* How many rows, from the first of a run of steps on, are in the bucket of the first. */
static uint64_t rows_in_bucket(bucket_grid grid, int64_t first, const number_run *run) {
    const uint64_t below = (uint64_t)in_bucket(grid, first), above = (uint64_t)grid.width - 1 - below;
    const uint64_t rows = run->number > 0   ? above / (uint64_t)run->number + 1
                          : run->number < 0 ? below / (0 - (uint64_t)run->number) + 1
                                            : run->rows;
    return rows < run->rows ? rows : run->rows;
}

__extension__ typedef unsigned __int128 wide;

/* How often the bucket changes at least in a run of steps. */
static wide changes(bucket_grid grid, const number_run *run) {
    const uint64_t step = run->number < 0 ? 0 - (uint64_t)run->number : (uint64_t)run->number;
    const uint64_t width = (uint64_t)grid.width;
    return step < width ? (wide)(run->rows - 1) * step / width : run->rows - 1;
}

static int32_t add_step_buckets(walk *at, const number_run *run, hv_error *error) {
    number_run left = *run;
    int32_t answer = changes(at->grid, run) > MOST_RUNS ? TOO_MANY_RUNS : HV_OK;
    while (!answer && left.rows) {
        const uint64_t fit = rows_that_fit(at->last, left.number);
        if (fit == 0) return past_range(left.start, error);
        const number_run stretch = {left.start, rows_in_bucket(at->grid, at->last + left.number, &left),
                                    at->last + left.number};
        const uint64_t rows = stretch.rows < fit ? stretch.rows : fit;
        answer = add_bucket(at, &stretch, error);
        at->last = (int64_t)((uint64_t)at->last + (uint64_t)left.number * rows);
        left.start += rows;
        left.rows -= rows;
        if (!answer && rows < stretch.rows) answer = past_range(left.start, error);
    }
    return answer;
}

/* ---- All runs ---- */

/* Adds what is made of the runs of a stretch, which are numbers, from row `first` on. */
static int32_t add_runs(walk *at, const run_parts *runs, const int64_t *numbers, uint64_t first, hv_error *error) {
    const hv_value null = {0, 0, HV_NULL, 0, 0};
    uint64_t start = 0;
    int32_t answer = HV_OK;
    for (size_t run = 0; !answer && run < runs->count; run++) {
        const number_run next = {first + start, runs->stops[run] - start, numbers[run]};
        if (next.rows && run_is_valid(runs, run)) answer = at->add(at, &next, error);
        else if (next.rows) answer = add_value(at, &null, next.rows, error);
        start = runs->stops[run];
    }
    return answer;
}

static int32_t add_part(void *given, const hv_column *part, uint64_t start, hv_error *error) {
    run_parts runs = RUN_PARTS_EMPTY;
    int64_t *numbers = NULL;
    int32_t answer = run_parts_read(part, &runs, error);
    if (!answer) answer = run_parts_numbers(&runs, &numbers, error);
    if (!answer) answer = add_runs(given, &runs, numbers, start, error);
    free(numbers);
    run_parts_free(&runs);
    return answer;
}

/* Makes a column from one of numbers. */
static int32_t walked(const hv_column *column, bucket_grid grid, add_run *add, hv_column *out, hv_error *error) {
    const hv_kind numbers_or_null = {HV_I64, 1, 0, 0};
    walk at = {.made = HV_EMPTY, .add = add, .grid = grid};
    int32_t answer = hv_builder_new(&numbers_or_null, &at.made, error);
    if (!answer) answer = look_by_stretches(column, add_part, &at, error);
    if (!answer) answer = add_few(&at, error);
    if (!answer) answer = hv_finish(&at.made, out, error);
    hv_builder_free(&at.made);
    return answer;
}

/* The same from a column of any form; only null is null again, of whichever type it is. */
static int32_t made_of(const hv_column *column, bucket_grid grid, add_run *add, hv_column *out, hv_error *error) {
    uint8_t is_null = 0;
    if (hv_kind_of(column).number == HV_I64) return walked(column, grid, add, out, error);
    const int32_t answer = column_is_null_alone(column, &is_null, error);
    if (answer || !is_null) return answer ? answer : HV_TYPE_MISMATCH;
    return encoded_by_stretches(column, out, error);
}

static const bucket_grid no_grid = {1, 0};

int32_t column_steps(const hv_column *column, hv_column *out, hv_error *error) {
    return made_of(column, no_grid, add_steps, out, error);
}

int32_t column_totals(const hv_column *steps, hv_column *out, hv_error *error) {
    return made_of(steps, no_grid, add_totals, out, error);
}

int32_t column_buckets(const hv_column *column, bucket_grid grid, hv_column *out, hv_error *error) {
    return made_of(column, grid, add_bucket, out, error);
}

int32_t column_step_buckets(const hv_column *steps, bucket_grid grid, hv_column *out, hv_error *error) {
    return made_of(steps, grid, add_step_buckets, out, error);
}
