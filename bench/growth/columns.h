/* The columns that bench/growth asks: five runs of as many rows as are wanted, of each kind of rows, and what goes with
 * them. The fourth run is null. */
#ifndef GROWTH_COLUMNS_H
#define GROWTH_COLUMNS_H
#include "hivevigil.h"
#include "hivevigil_helpers.h"
#include <stdio.h>
#include <stdlib.h>
#include <string.h>

/* Kinds of rows, as bits. Nested are runs over runs of integers; decoded lists are in the form of lists, whose offsets,
 * sizes and validity are in runs. */
enum {
    INTEGERS = 1, FLOATS = 2, DECIMALS = 4, TEXTS = 8, BOOLEANS = 16, CONSTANTS = 32, NESTED = 64, LISTS = 128,
    DECODED_LISTS = 256, KINDS = 9,
    NUMBERS = INTEGERS | CONSTANTS | NESTED,
    RUNS = INTEGERS | FLOATS | DECIMALS | TEXTS | BOOLEANS | NESTED,
    PLAIN = RUNS | CONSTANTS,
    IN_RUNS = RUNS | LISTS,
    ALL = PLAIN | LISTS | DECODED_LISTS,
};
static const char *const kind_names[KINDS] = {
    "integers", "floats", "decimals", "texts", "booleans", "constants", "nested runs", "lists", "decoded lists",
};
enum { RUN_COUNT = 5, ROOM = 4096 };

/* What a call is asked with: columns of `rows` rows, and room for its answers. */
typedef struct inputs {
    size_t rows;
    unsigned kind;
    hv_session session;
    hv_column column, other;  /* of the kind, the second with runs that end elsewhere */
    hv_column dates, typed;   /* `column`, under the format of dates, and under that of its floats or decimals */
    hv_column mask, places, codes, bits, few; /* in runs, the last of five rows */
    hv_column five, all;                      /* the same five indices, flat, and a constant that is true */
    hv_column ends, values;   /* the parts of `column`, where it is in runs */
    hv_column out, second, cast; /* answers, and what the first turn of a call makes for the others */
    hv_builder builder;
    hv_value value, least, greatest;
    hv_pair pairs[RUN_COUNT];
    hv_kind type, cast_to;
    hv_error error;
    hv_total total;
    size_t size, start, stop, start_of_run, message_size, dates_size;
    uint64_t number;
    uint8_t flag, text[ROOM], bytes[ROOM], message[ROOM], dates_message[ROOM];
} inputs;

/* Ends the process where an input cannot be made: a fault of this program. */
static inline void make_sure(int32_t answer, const char *what) {
    if (!answer) return;
    fprintf(stderr, "growth: %s is refused as %d\n", what, (int)answer);
    exit(2);
}
#define MADE(call) make_sure((call), #call)

/* Runs of these values that end after each fifth of the rows, or `shift` rows before it. */
static inline void in_runs(const hv_column *values, size_t rows, size_t shift, hv_column *out) {
    uint64_t stops[RUN_COUNT];
    hv_column ends = HV_EMPTY;
    for (size_t run = 0; run < RUN_COUNT; run++) stops[run] = rows / RUN_COUNT * (run + 1) - shift;
    stops[RUN_COUNT - 1] = rows;
    MADE(hv_u64(stops, RUN_COUNT, hv_not_nullable(), &ends, NULL));
    MADE(hv_runs(&ends, values, 0, rows, out, NULL));
    hv_free(&ends);
}

static inline hv_validity fourth_null(void) {
    static const uint8_t valid[1] = {0x17};
    return hv_valid_bits(valid, 1, 0);
}

/* The value of each run, flat. */
static inline void values_of(const inputs *in, hv_column *out) {
    const int64_t numbers[RUN_COUNT] = {0, 1, -1, 0, 2};
    const double floats[RUN_COUNT] = {3, 1, -1, 0, 2};
    const hv_pair pairs[RUN_COUNT] = {{100, 0}, {200, 0}, {300, 0}, {0, 0}, {400, 0}};
    const int32_t offsets[RUN_COUNT + 1] = {0, 5, 10, 12, 12, 40};
    const char *text = "northsouthby a text that is not short...";
    const uint64_t list_offsets[RUN_COUNT] = {0, 1, 0, 0, 2}, sizes[RUN_COUNT] = {2, 1, 3, 0, 3};
    const uint8_t truths[1] = {0x15};
    uint64_t words[RUN_COUNT];
    hv_column made = HV_EMPTY, floats_of_made = HV_EMPTY;
    switch (in->kind) {
    case FLOATS:
        memcpy(words, floats, sizeof words);
        MADE(hv_u64(words, RUN_COUNT, fourth_null(), &made, NULL));
        MADE(hv_float_encode(&made, 0, &floats_of_made, NULL));
        MADE(hv_decode(&in->session, &floats_of_made, out, NULL));
        break;
    case DECIMALS: MADE(hv_decimals(pairs, RUN_COUNT, 10, 2, fourth_null(), out, NULL)); break;
    case TEXTS:
        MADE(hv_texts(0, offsets, RUN_COUNT + 1, (const uint8_t *)text, 40, fourth_null(), out, NULL));
        break;
    case BOOLEANS: MADE(hv_bools(truths, 1, 0, RUN_COUNT, fourth_null(), out, NULL)); break;
    case LISTS:
    case DECODED_LISTS:
        MADE(hv_i64(numbers, RUN_COUNT, hv_not_nullable(), &made, NULL));
        MADE(hv_lists(&made, list_offsets, RUN_COUNT, sizes, RUN_COUNT, fourth_null(), out, NULL));
        break;
    default: MADE(hv_i64(numbers, RUN_COUNT, fourth_null(), out, NULL));
    }
    hv_free(&made);
    hv_free(&floats_of_made);
}

/* The column of the kind, and another one. */
static inline void make_columns(inputs *in) {
    const hv_value one = {0, 1, HV_SIGNED, 0, 0};
    const hv_kind number = {HV_I64, 1, 0, 0};
    hv_column flat = HV_EMPTY, values = HV_EMPTY, encoded = HV_EMPTY;
    values_of(in, in->kind == NESTED ? &flat : &values);
    if (in->kind == NESTED) in_runs(&flat, RUN_COUNT, 0, &values);
    if (in->kind == CONSTANTS) {
        MADE(hv_constant(&number, &one, NULL, 0, in->rows, &in->column, NULL));
        MADE(hv_constant(&number, &one, NULL, 0, in->rows, &in->other, NULL));
    } else {
        hv_column *runs = in->kind == DECODED_LISTS ? &encoded : &in->column;
        in_runs(&values, in->rows, 0, runs);
        in_runs(&values, in->rows, 1, &in->other);
        MADE(hv_ends(runs, &in->ends, NULL));
        MADE(hv_values(runs, &in->values, NULL));
    }
    if (in->kind == DECODED_LISTS) MADE(hv_decode(&in->session, &encoded, &in->column, NULL));
    hv_free(&values);
    hv_free(&flat);
    hv_free(&encoded);
    in->type = in->cast_to = hv_kind_of(&in->column);
    if (in->kind & NUMBERS) in->cast_to.number = HV_I32;
}

/* Masks, indices, codes and bits of floats in runs, and five indices. */
static inline void make_others(inputs *in) {
    const hv_kind truth = {HV_BOOL, 0, 0, 0};
    const hv_value is_true = {0, 0, HV_TRUTH, 1, 0};
    const uint8_t truths[1] = {0x15};
    const uint64_t codes[RUN_COUNT] = {0, 3, 1, 4, 2}, words[RUN_COUNT] = {0, 1, 2, 0, 1};
    uint64_t places[RUN_COUNT];
    hv_column flat = HV_EMPTY;
    for (size_t run = 0; run < RUN_COUNT; run++) places[run] = (in->rows - 1) / (run + 1);
    MADE(hv_bools(truths, 1, 0, RUN_COUNT, fourth_null(), &flat, NULL));
    in_runs(&flat, in->rows, 2, &in->mask);
    MADE(hv_constant(&truth, &is_true, NULL, 0, in->rows, &in->all, NULL));
    MADE(hv_u64(codes, RUN_COUNT, hv_not_nullable(), &flat, NULL));
    in_runs(&flat, in->rows, 2, &in->codes);
    MADE(hv_u64(words, RUN_COUNT, hv_not_nullable(), &flat, NULL));
    in_runs(&flat, in->rows, 2, &in->bits);
    MADE(hv_u64(places, RUN_COUNT, hv_not_nullable(), &in->five, NULL));
    in_runs(&in->five, in->rows, 2, &in->places);
    MADE(hv_encode(&in->session, &in->five, &in->few, NULL));
    hv_free(&flat);
}

/* Messages of the column, a value of its type, and a window in the middle. */
static inline void make_inputs(inputs *in, unsigned kind, size_t rows) {
    memset(in, 0, sizeof *in);
    in->kind = kind;
    in->rows = rows;
    in->start = rows / 2;
    in->stop = rows / 2 + RUN_COUNT;
    hv_session_initial(&in->session);
    make_columns(in);
    make_others(in);
    if (kind & PLAIN) MADE(hv_at(&in->column, 0, &in->value, in->text, ROOM, NULL));
    MADE(hv_write(&in->column, in->message, ROOM, &in->message_size, NULL));
    MADE(hv_with_type(&in->column, (const uint8_t *)"tdD", 3, &in->dates, NULL));
    const char *meaning = kind == DECIMALS ? "d:10,2" : kind & (FLOATS | CONSTANTS) ? "g" : "";
    MADE(hv_with_type(&in->column, (const uint8_t *)meaning, strlen(meaning), &in->typed, NULL));
    MADE(hv_write(&in->dates, in->dates_message, ROOM, &in->dates_size, NULL));
}
#endif
