/* Each request for memory refused in turn while Arrow arrays and streams come in and go out: the answer is 21, or 0
 * where the call went on without; columns are as they were, nothing is left to release, and no block is lost. Linked
 * with the malloc of refusing_malloc.h. */
#include "check.h"
#include "hivevigil_arrow.h"
#include "refusing_malloc.h"

enum { ROWS = 70 };
static hv_session session;
static hv_error error;
static hv_column numbers = HV_EMPTY, texts = HV_EMPTY, runs = HV_EMPTY, codes = HV_EMPTY, nested = HV_EMPTY;
static hv_column lists = HV_EMPTY, list_runs = HV_EMPTY;
static hv_column *const lent[] = {&numbers, &texts, &runs, &codes, &nested, &lists, &list_runs};
static char rows_before[COUNT(lent)][8192];
static hv_column out[2] = {HV_EMPTY, HV_EMPTY};
static struct ArrowSchema schema;
static struct ArrowArray array;
static struct ArrowArrayStream stream;

static void make_lent(void) {
    static int64_t items[ROWS];
    static int32_t offsets[ROWS + 1];
    static uint8_t letters[2 * ROWS], bits[ROWS / 8 + 1], places[ROWS];
    static uint64_t starts[ROWS / 2], sizes[ROWS / 2];
    const uint8_t ends[3] = {30, 60, ROWS};
    hv_column outer = HV_EMPTY, inner = HV_EMPTY;
    for (int row = 0; row < ROWS; row++) {
        items[row] = row / 4;
        places[row] = (uint8_t)(row / 2);
        offsets[row + 1] = 2 * (row + 1);
        memset(letters + 2 * row, 'a' + row / 9, 2);
        bits[row / 8] = (uint8_t)(bits[row / 8] | ((row % 6 < 4) << (row % 8)));
    }
    CHECK(!hv_i64(items, ROWS, NULLS_BY(bits, 0), &numbers, &error) && !hv_encode(&session, &numbers, &runs, &error));
    CHECK(!hv_texts(0, offsets, ROWS + 1, letters, sizeof letters, NULLS_BY(bits, 0), &texts, &error));
    CHECK(!hv_u8(places, ROWS, NULLS_BY(bits, 0), &codes, &error));
    CHECK(!hv_u8(ends, 3, NOT_NULLABLE, &outer, &error) && !hv_slice(&session, &runs, 0, 3, &inner, &error));
    CHECK(!hv_runs(&outer, &inner, 0, ROWS, &nested, &error));
    for (uint64_t row = 0; row < ROWS / 2; row++) starts[row] = ROWS - 2 * row - 2, sizes[row] = row % 3;
    CHECK(!hv_lists(&numbers, starts, ROWS / 2, sizes, ROWS / 2, NULLS_BY(bits, 0), &lists, &error));
    CHECK(!hv_slice(&session, &lists, 1, 4, &inner, &error) && !hv_runs(&outer, &inner, 0, ROWS, &list_runs, &error));
    hv_free(&outer);
    hv_free(&inner);
    for (size_t i = 0; i < COUNT(lent); i++) strcpy(rows_before[i], rows_of(lent[i]));
}

/* ---- Arrays that lie in the program ---- */

static void keep_schema(struct ArrowSchema *it) { it->release = NULL; }
static void keep_array(struct ArrowArray *it) { it->release = NULL; }

typedef struct view {
    int32_t size;
    char front[4];
    int32_t buffer, start;
} view;

static const view views[3] = {{2, "ab", 0, 0}, {13, {'t', 'h', 'i', 'r'}, 0, 1}, {0, "", 0, 0}};
static const int64_t view_sizes[1] = {14};
static const uint8_t unaligned[32], last_null[1] = {0x03}, first_null[1] = {0x06};
static const int32_t narrow_decimals[3] = {1, -2, 3}, some_offsets[4] = {1, 2, 2, 4};
static const int8_t some_codes[3] = {0, 1, 0};
static const int16_t run_ends[2] = {2, 9};
static const void *view_buffers[4] = {last_null, views, "-thirteen long", view_sizes};
static const void *unaligned_buffers[2] = {NULL, unaligned + 1}, *decimal_buffers[2] = {last_null, narrow_decimals};
static const void *text_buffers[3] = {NULL, some_offsets, "abcd"}, *code_buffers[2] = {last_null, some_codes};
static const void *batch_buffers[1] = {first_null}, *end_buffers[2] = {NULL, run_ends};
static struct ArrowSchema view_schema = {.format = "vu", .release = keep_schema};
static struct ArrowSchema number_schema = {.format = "l", .release = keep_schema};
static struct ArrowSchema decimal_schema = {.format = "d:9,2,32", .release = keep_schema};
static struct ArrowSchema text_schema = {.format = "u", .release = keep_schema};
static struct ArrowSchema code_schema = {.format = "c", .dictionary = &text_schema, .release = keep_schema};
static struct ArrowSchema end_schema = {.format = "s", .release = keep_schema};
static struct ArrowSchema *run_schemas[2] = {&end_schema, &code_schema};
static struct ArrowSchema run_schema = {
    .format = "+r", .n_children = 2, .children = run_schemas, .release = keep_schema};
static struct ArrowSchema *children_schemas[2] = {&text_schema, &run_schema};
static struct ArrowSchema batch_schema = {
    .format = "+s", .n_children = 2, .children = children_schemas, .release = keep_schema};
static struct ArrowArray view_array = {3, 1, 0, 4, 0, view_buffers, NULL, NULL, keep_array, NULL};
static struct ArrowArray number_array = {3, 0, 0, 2, 0, unaligned_buffers, NULL, NULL, keep_array, NULL};
static struct ArrowArray decimal_array = {3, 1, 0, 2, 0, decimal_buffers, NULL, NULL, keep_array, NULL};
static struct ArrowArray text_array = {3, 0, 0, 3, 0, text_buffers, NULL, NULL, keep_array, NULL};
static struct ArrowArray code_array = {3, 1, 0, 2, 0, code_buffers, NULL, &text_array, keep_array, NULL};
static struct ArrowArray end_array = {2, 0, 0, 2, 0, end_buffers, NULL, NULL, keep_array, NULL};
static struct ArrowArray *run_arrays[2] = {&end_array, &code_array};
static struct ArrowArray run_array = {5, 0, 1, 0, 2, NULL, run_arrays, NULL, keep_array, NULL};
static struct ArrowArray *children_arrays[2] = {&text_array, &run_array};
static struct ArrowArray batch_array = {3, 1, 0, 1, 2, batch_buffers, children_arrays, NULL, keep_array, NULL};

/* ---- A stream of batches that lie in the program ---- */

static size_t given, chunks;
static int give_schema(struct ArrowArrayStream *from, struct ArrowSchema *to) {
    (void)from;
    *to = batch_schema;
    return 0;
}
static int give_next(struct ArrowArrayStream *from, struct ArrowArray *to) {
    (void)from;
    memset(to, 0, sizeof *to);
    if (given < chunks) *to = batch_array;
    return given++ > chunks ? 5 : 0;
}
static const char *give_words(struct ArrowArrayStream *from) {
    (void)from;
    return "past the end";
}
static void keep_stream(struct ArrowArrayStream *from) { from->release = NULL; }

static int32_t import_chunks(size_t count) {
    char words[16];
    struct ArrowArrayStream from = {give_schema, give_next, give_words, keep_stream, NULL};
    given = 0;
    chunks = count;
    int32_t answer = hv_arrow_import_stream(&session, &from, out, 2, NULL, words, sizeof words, &error);
    CHECK(!from.release);
    return answer;
}

/* ---- A step for each call ---- */

static const char *const names[2] = {"numbers", "texts"};
static const hv_arrow_options text_runs = {.form = HV_ARROW_AS_RUNS, .offset_bits = 64};
static const hv_arrow_options flat_codes = {.form = HV_ARROW_AS_FLAT, .dictionary = &texts};
static const hv_arrow_options coded_runs = {.form = HV_ARROW_AS_RUNS, .dictionary = &texts};

#define STEP(name, call) \
    static int32_t name(void) { return call; }
#define STEP_IN(name) STEP(import_##name, hv_arrow_import(&session, &name##_schema, &name##_array, &out[0], &error))
#define STEP_OUT(name, from, options) \
    STEP(export_##name, hv_arrow_export_with(&session, &from, "x", options, &schema, &array, &error))

STEP_IN(view)
STEP_IN(number)
STEP_IN(decimal)
STEP_IN(text)
STEP_IN(code)
STEP_IN(run)
STEP(import_child, hv_arrow_import_child(&session, &batch_schema, &batch_array, 0, &out[0], &error))
STEP(import_run_child, hv_arrow_import_child(&session, &batch_schema, &batch_array, 1, &out[0], &error))
STEP(import_no_chunks, import_chunks(0))
STEP(import_one_chunk, import_chunks(1))
STEP(import_many_chunks, import_chunks(9))
STEP_OUT(text_runs, texts, &text_runs)
STEP_OUT(nested, nested, &(hv_arrow_options){0})
STEP_OUT(one_level, nested, &text_runs)
STEP_OUT(codes, codes, &flat_codes)
STEP_OUT(coded_runs, codes, &coded_runs)
STEP_OUT(lists, lists, &(hv_arrow_options){0})
STEP_OUT(list_runs, list_runs, &(hv_arrow_options){0})
/* out and in again, as one step */
static int32_t lists_out_and_in(void) {
    int32_t answer = hv_arrow_export(&session, &list_runs, "x", &schema, &array, &error);
    if (!answer) answer = hv_arrow_import(&session, &schema, &array, &out[0], &error);
    if (answer) hv_arrow_release(&schema, &array);
    return answer;
}
STEP(export_stream, hv_arrow_export_stream(&session, &runs, NULL, 1, 9, NULL, &stream, &error))
STEP(export_coded_stream, hv_arrow_export_stream(&session, &codes, NULL, 1, 30, &coded_runs, &stream, &error))
STEP(export_list_stream, hv_arrow_export_stream(&session, &lists, NULL, 1, 1, NULL, &stream, &error))
STEP(export_list_run_stream, hv_arrow_export_stream(&session, &list_runs, NULL, 1, 2, NULL, &stream, &error))
/* each row is list 0, of a dictionary that the chunks share */
static int32_t export_coded_list_stream(void) {
    static const uint8_t first[3];
    const hv_arrow_options options = {.dictionary = &lists};
    hv_column own = HV_EMPTY;
    int32_t answer = hv_u8(first, 3, NOT_NULLABLE, &own, &error);
    if (!answer) answer = hv_arrow_export_stream(&session, &own, NULL, 1, 2, &options, &stream, &error);
    hv_free(&own);
    return answer;
}
static int32_t export_batches(void) {
    hv_column both[2] = {numbers, texts}; /* lent as an array, and not freed */
    return hv_arrow_export_stream(&session, both, names, 2, 40, NULL, &stream, &error);
}
static int32_t concat(void) {
    hv_column all[3] = {runs, numbers, nested};
    return hv_arrow_concat(&session, all, 3, &out[0], &error);
}
static int32_t concat_lists(void) {
    hv_column all[2] = {lists, list_runs};
    return hv_arrow_concat(&session, all, 2, &out[0], &error);
}
static int32_t concat_runs(void) {
    hv_column all[2] = {runs, nested};
    return hv_arrow_concat(&session, all, 2, &out[0], &error);
}

static const struct {
    const char *name;
    int32_t (*call)(void);
} steps[] = {
#define NAMED(name) \
    { #name, name }
    NAMED(import_view),      NAMED(import_number),    NAMED(import_decimal),      NAMED(import_text),
    NAMED(import_code),      NAMED(import_run),       NAMED(import_child),        NAMED(import_run_child),
    NAMED(import_no_chunks), NAMED(import_one_chunk), NAMED(import_many_chunks),  NAMED(export_text_runs),
    NAMED(export_nested),    NAMED(export_one_level), NAMED(export_codes),        NAMED(export_coded_runs),
    NAMED(export_stream),    NAMED(export_batches),   NAMED(export_coded_stream), NAMED(concat),
    NAMED(concat_runs),      NAMED(export_lists),     NAMED(export_list_runs),    NAMED(lists_out_and_in),
    NAMED(export_list_stream), NAMED(export_list_run_stream), NAMED(export_coded_list_stream),
    NAMED(concat_lists),
};

static void release_all(void) {
    hv_arrow_release(&schema, &array);
    if (stream.release) stream.release(&stream);
}

/* One call, in which request `number` is refused. Whether it was: a call that makes fewer requests has none refused. */
static bool try_step(size_t step, long number, bool rest) {
    const uint8_t kept[1] = {42};
    for (size_t i = 0; i < COUNT(out); i++) CHECK(!hv_u8(kept, 1, NOT_NULLABLE, &out[i], &error));
    long blocks_before = blocks, refused_before = refused;
    requests = 0, refuse_rest = rest, refuse_at = number;
    int32_t answer = steps[step].call();
    refuse_at = -1;
    bool was_refused = refused > refused_before;
    if (answer != HV_OK && !(answer == HV_OUT_OF_MEMORY && was_refused)) {
        fprintf(stderr, "%s, request %ld refused: answered %" PRId32 "\n", steps[step].name, number, answer);
        exit(1);
    }
    if (answer) {
        for (size_t i = 0; i < COUNT(out); i++) CHECK_ROWS(&out[i], "42");
        CHECK(!schema.release && !array.release && !stream.release);
        if (blocks != blocks_before)
            fprintf(stderr, "%s, request %ld refused: blocks lost\n", steps[step].name, number);
        CHECK(blocks == blocks_before && error.first == 0 && error.second == 0);
    }
    release_all();
    for (size_t i = 0; i < COUNT(lent); i++) CHECK_ROWS(lent[i], rows_before[i]);
    return was_refused;
}

int main(void) {
    hv_session_initial(&session);
    make_lent();
    for (size_t i = 0; i < COUNT(steps); i++)
        for (int rest = 0; rest < 2; rest++) {
            long number = 0;
            while (try_step(i, number, rest)) number++;
        }
    for (size_t i = 0; i < COUNT(out); i++) hv_free(&out[i]);
    for (size_t i = 0; i < COUNT(lent); i++) hv_free(lent[i]);
    CHECK(blocks == 0);
    printf("%zu calls of Arrow, %ld requests for memory refused, no column changed, no block lost\n", COUNT(steps),
           refused);
    return 0;
}
