/* Do masks, indices, codes and comparisons in short runs lose by staying in runs? Each question is asked in two ways, in
 * turns in one process: its argument as it is, in runs; and as calls worked before they read runs, where the argument is
 * written out row by row first. Both answer the same rows, which is tested. Prints the table of bench/results:
 * the time of the first way divided by that of the second. run.sh builds and runs it. */
#include "hivevigil.h"
#include "hivevigil_helpers.h"
#include <stdio.h>
#include <stdlib.h>
#include <string.h>
#include <time.h>

enum { ROWS = 1000000, TURNS = 31, LENGTHS = 4, DICTIONARY = 1000 };
static const size_t lengths[LENGTHS] = {1, 3, 16, 200};

/* Columns of ROWS rows whose runs have `length` rows on average. */
typedef struct inputs {
    hv_column column, flat, mask, places, codes, dictionary;
    hv_value value;
    hv_session session;
} inputs;

/* Ends the process: a fault of this program. */
static void make_sure(int32_t answer, const char *what) {
    if (!answer) return;
    fprintf(stderr, "short: %s is refused as %d\n", what, (int)answer);
    exit(2);
}
#define MADE(call) make_sure((call), #call)

/* ---- Inputs ---- */

static uint64_t state = 88172645463325252u;
static uint64_t drawn(uint64_t below) {
    state ^= state << 13;
    state ^= state >> 7;
    state ^= state << 17;
    return state % below;
}

/* A number for each row, equal in runs of `length` rows on average. */
static void draw_rows(uint64_t *items, size_t rows, size_t length, uint64_t below) {
    for (size_t row = 0; row < rows; row++)
        items[row] = row && drawn(length) ? items[row - 1] : drawn(below);
}

/* The rows in runs. */
static void make_runs(const hv_session *session, const uint64_t *items, size_t rows, hv_column *out) {
    hv_column flat = HV_EMPTY;
    MADE(hv_u64(items, rows, hv_not_nullable(), &flat, NULL));
    MADE(hv_encode(session, &flat, out, NULL));
    hv_free(&flat);
}

static void make_inputs(inputs *in, size_t length) {
    static uint64_t items[ROWS];
    const hv_value half = {500, 0, HV_UNSIGNED, 0, 0}, one = {1, 0, HV_UNSIGNED, 0, 0};
    hv_column bits = HV_EMPTY;
    memset(in, 0, sizeof *in);
    hv_session_initial(&in->session);
    in->value = half;
    draw_rows(items, ROWS, length, 1000);
    MADE(hv_u64(items, ROWS, hv_not_nullable(), &in->flat, NULL));
    make_runs(&in->session, items, ROWS, &in->column);
    draw_rows(items, ROWS, length, DICTIONARY);
    make_runs(&in->session, items, ROWS, &in->codes);
    draw_rows(items, ROWS, length, 2);
    make_runs(&in->session, items, ROWS, &bits);
    MADE(hv_compare_value(&in->session, &bits, HV_EQ, &one, NULL, 0, &in->mask, NULL));
    hv_free(&bits);
    draw_rows(items, ROWS, length, ROWS);
    make_runs(&in->session, items, ROWS, &in->places);
    draw_rows(items, DICTIONARY, length, UINT64_MAX);
    make_runs(&in->session, items, DICTIONARY, &in->dictionary);
}

static void free_inputs(inputs *in) {
    hv_column *all[] = {&in->column, &in->flat, &in->mask, &in->places, &in->codes, &in->dictionary};
    for (size_t at = 0; at < sizeof all / sizeof *all; at++) hv_free(all[at]);
}

/* ---- Questions, each in two ways ---- */

typedef int32_t way(const inputs *in, hv_column *out);

/* A call whose second column is written out first. */
typedef int32_t two_columns(const hv_session *, const hv_column *, const hv_column *, hv_column *, hv_error *);
static int32_t written_out(const inputs *in, two_columns *call, const hv_column *first, const hv_column *second,
                           hv_column *out) {
    hv_column flat = HV_EMPTY;
    int32_t answer = hv_decode(&in->session, second, &flat, NULL);
    if (!answer) answer = call(&in->session, first, &flat, out, NULL);
    hv_free(&flat);
    return answer;
}

static int32_t filter_call(const hv_session *session, const hv_column *column, const hv_column *mask, hv_column *out,
                           hv_error *error) {
    return hv_filter(session, column, mask, out, error);
}
static int32_t take_call(const hv_session *session, const hv_column *column, const hv_column *places, hv_column *out,
                         hv_error *error) {
    return hv_take(session, column, places, out, error);
}
static int32_t codes_call(const hv_session *session, const hv_column *codes, const hv_column *dictionary,
                          hv_column *out, hv_error *error) {
    return hv_take_from(session, codes, dictionary, out, error);
}

static int32_t filter_runs(const inputs *in, hv_column *out) {
    return hv_filter(&in->session, &in->column, &in->mask, out, NULL);
}
static int32_t filter_bits(const inputs *in, hv_column *out) {
    return written_out(in, filter_call, &in->column, &in->mask, out);
}
static int32_t filter_flat_runs(const inputs *in, hv_column *out) {
    return hv_filter(&in->session, &in->flat, &in->mask, out, NULL);
}
static int32_t filter_flat_bits(const inputs *in, hv_column *out) {
    return written_out(in, filter_call, &in->flat, &in->mask, out);
}
static int32_t take_runs(const inputs *in, hv_column *out) {
    return hv_take(&in->session, &in->column, &in->places, out, NULL);
}
static int32_t take_rows(const inputs *in, hv_column *out) {
    return written_out(in, take_call, &in->column, &in->places, out);
}
static int32_t codes_runs(const inputs *in, hv_column *out) {
    return hv_take_from(&in->session, &in->codes, &in->dictionary, out, NULL);
}
static int32_t codes_rows(const inputs *in, hv_column *out) {
    return written_out(in, codes_call, &in->codes, &in->dictionary, out);
}

/* The rows below a value: the comparison in runs, or in rows, and then the filter. */
static int32_t below_runs(const inputs *in, hv_column *out) {
    hv_column mask = HV_EMPTY;
    int32_t answer = hv_compare_number(&in->column, HV_LT, &in->value, &mask, NULL);
    if (!answer) answer = hv_filter(&in->session, &in->column, &mask, out, NULL);
    hv_free(&mask);
    return answer;
}
static int32_t below_rows(const inputs *in, hv_column *out) {
    hv_column mask = HV_EMPTY;
    int32_t answer = hv_compare_scalar(&in->session, &in->column, HV_LT, &in->value, NULL, 0, &mask, NULL);
    if (!answer) answer = hv_filter(&in->session, &in->column, &mask, out, NULL);
    hv_free(&mask);
    return answer;
}

static const struct question {
    const char *text;
    way *runs, *rows;
} questions[] = {
    {"filter runs by a mask in runs", filter_runs, filter_bits},
    {"filter flat rows by a mask in runs", filter_flat_runs, filter_flat_bits},
    {"take by indices in runs", take_runs, take_rows},
    {"codes in runs, a dictionary in runs", codes_runs, codes_rows},
    {"the rows below a value: compare, filter", below_runs, below_rows},
};
enum { QUESTIONS = sizeof questions / sizeof *questions };

/* ---- Times ---- */

static double now(void) {
    struct timespec time;
    clock_gettime(CLOCK_THREAD_CPUTIME_ID, &time);
    return (double)time.tv_sec * 1e3 + (double)time.tv_nsec / 1e6;
}

static int by_number(const void *left, const void *right) {
    const double a = *(const double *)left, b = *(const double *)right;
    return (a > b) - (a < b);
}

static double timed(way *asked, const inputs *in) {
    hv_column out = HV_EMPTY;
    const double start = now();
    MADE(asked(in, &out));
    const double taken = now() - start;
    hv_free(&out);
    return taken;
}

static void test_same(const struct question *asked, const inputs *in) {
    hv_column runs = HV_EMPTY, rows = HV_EMPTY;
    uint8_t same = 0;
    MADE(asked->runs(in, &runs));
    MADE(asked->rows(in, &rows));
    MADE(hv_equals(&runs, &rows, &same, NULL));
    hv_free(&runs);
    hv_free(&rows);
    if (same) return;
    fprintf(stderr, "short: %s: the two ways answer differently\n", asked->text);
    exit(1);
}

/* The middle of the times in runs divided by that of the times in rows. */
static double ratio(const struct question *asked, const inputs *in) {
    static double runs[TURNS], rows[TURNS];
    test_same(asked, in);
    for (int turn = 0; turn < TURNS; turn++) {
        runs[turn] = timed(asked->runs, in);
        rows[turn] = timed(asked->rows, in);
    }
    qsort(runs, TURNS, sizeof *runs, by_number);
    qsort(rows, TURNS, sizeof *rows, by_number);
    return runs[TURNS / 2] / rows[TURNS / 2];
}

int main(void) {
    static double found[QUESTIONS][LENGTHS];
    for (int length = 0; length < LENGTHS; length++) {
        static inputs in;
        make_inputs(&in, lengths[length]);
        for (int at = 0; at < QUESTIONS; at++) found[at][length] = ratio(&questions[at], &in);
        free_inputs(&in);
    }
    puts("| In runs / row by row | 1 row | 3 rows | 16 rows | 200 rows |\n|---|---|---|---|---|");
    for (int at = 0; at < QUESTIONS; at++) {
        printf("| %s", questions[at].text);
        for (int length = 0; length < LENGTHS; length++) printf(" | %.2f", found[at][length]);
        puts(" |");
    }
    return 0;
}
