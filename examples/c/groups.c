/* Values grouped by runs of equal neighbouring keys: each fold against a loop over the rows, and each refusal. */
#include "check.h"

enum { MOST = 60, FOLDS = 7, TRIALS = 400 };

static hv_session session;
static hv_error error;
static hv_column groups = HV_EMPTY, answers = HV_EMPTY;

/* Rows of a key and a value, each null where its flag is not set; what is stored there is -77. */
typedef struct rows {
    size_t count;
    int64_t keys[MOST], values[MOST];
    bool has_key[MOST], has_value[MOST];
} rows;

static uint64_t next(void) {
    static uint64_t seed = 11;
    seed = seed * 6364136223846793005u + 1442695040888963407u;
    return seed >> 33;
}

/* rows that often repeat the one before */
static rows random_rows(void) {
    rows it = {.count = (size_t)(next() % MOST)};
    for (size_t row = 0; row < it.count; row++) {
        const bool new_key = !row || next() % 3 == 0, new_value = !row || next() % 2 == 0;
        it.has_key[row] = new_key ? next() % 4 > 0 : it.has_key[row - 1];
        it.has_value[row] = new_value ? next() % 3 > 0 : it.has_value[row - 1];
        it.keys[row] = !it.has_key[row] ? -77 : new_key ? (int64_t)(next() % 3) - 1 : it.keys[row - 1];
        it.values[row] = !it.has_value[row] ? -77 : new_value ? (int64_t)(next() % 2000) - 1000 : it.values[row - 1];
    }
    return it;
}

/* The column of these numbers, in runs where that is asked. */
static hv_column column_of(const int64_t *items, const bool *valid, size_t count, bool in_runs) {
    uint8_t bits[MOST / 8 + 1] = {0};
    hv_column flat = HV_EMPTY, runs = HV_EMPTY;
    for (size_t row = 0; row < count; row++) bits[row / 8] = (uint8_t)(bits[row / 8] | (valid[row] << (row % 8)));
    CHECK(!hv_i64(items, count, NULLS_BY(bits, 0), &flat, &error));
    if (!in_runs) return flat;
    CHECK(!hv_encode(&session, &flat, &runs, &error));
    hv_free(&flat);
    return runs;
}

static bool is_last_of_group(const rows *it, size_t row) {
    if (row + 1 == it->count) return true;
    if (it->has_key[row] != it->has_key[row + 1]) return true;
    return it->has_key[row] && it->keys[row] != it->keys[row + 1];
}

/* the answer for rows `start` to `stop` - 1, and whether there is one */
static bool answer_for(int fold, const rows *it, size_t start, size_t stop, int64_t *answer) {
    int64_t sum = 0, least = INT64_MAX, greatest = INT64_MIN, first = 0, last = 0, count = 0;
    for (size_t row = start; row < stop; row++) {
        if (!it->has_value[row]) continue;
        const int64_t value = it->values[row];
        if (!count++) first = value;
        last = value, sum += value;
        if (value < least) least = value;
        if (value > greatest) greatest = value;
    }
    const int64_t all[FOLDS] = {sum, (int64_t)(stop - start), count, least, greatest, first, last};
    *answer = all[fold];
    return count > 0 || fold == HV_FOLD_ROWS || fold == HV_FOLD_COUNT;
}

static size_t put_number(char *to, size_t room, const char *before, bool is_there, int64_t number) {
    if (!is_there) return (size_t)snprintf(to, room, "%snull", before);
    return (size_t)snprintf(to, room, "%s%" PRId64, before, number);
}

/* Keys and answers as text, as the loop has them. */
static void write_due(int fold, const rows *it, char *keys, char *found, size_t room) {
    size_t key_used = 0, used = 0, start = 0;
    keys[0] = found[0] = 0;
    for (size_t row = 0; row < it->count; row++) {
        if (!is_last_of_group(it, row)) continue;
        int64_t answer;
        const char *blank = start ? " " : "";
        const bool some = answer_for(fold, it, start, row + 1, &answer);
        key_used += put_number(keys + key_used, room - key_used, blank, it->has_key[row], it->keys[row]);
        used += put_number(found + used, room - used, blank, some, answer);
        start = row + 1;
    }
}

static void check_trial(void) {
    const rows it = random_rows();
    hv_column keys = column_of(it.keys, it.has_key, it.count, next() % 2);
    hv_column values = column_of(it.values, it.has_value, it.count, next() % 2);
    char due_keys[4096], due[4096];
    for (int fold = 0; fold < FOLDS; fold++) {
        CHECK(!hv_fold_by(&keys, &values, (uint8_t)fold, &groups, &answers, &error));
        write_due(fold, &it, due_keys, due, sizeof due);
        CHECK_ROWS(&groups, due_keys);
        CHECK_ROWS(&answers, due);
        const bool counts = fold == HV_FOLD_ROWS || fold == HV_FOLD_COUNT;
        const hv_kind kind = hv_kind_of(&answers);
        CHECK(kind.number == (counts ? HV_U64 : HV_I64) && kind.nullable == 1 && hv_form(&answers) == FORM_FLAT);
        const hv_kind of_keys = hv_kind_of(&groups);
        CHECK(of_keys.number == HV_I64 && of_keys.nullable == 1 && hv_form(&groups) == FORM_FLAT);
    }
    hv_free(&keys);
    hv_free(&values);
}

/* Keys of texts, and values of a narrow type: sums are wide, other answers are not. */
static void check_types(void) {
    const int32_t offsets[5] = {0, 1, 2, 3, 4};
    const uint8_t small[4] = {250, 250, 7, 9};
    hv_column texts = HV_EMPTY, values = HV_EMPTY;
    CHECK(!hv_texts(0, offsets, 5, (const uint8_t *)"aaba", 4, NOT_NULLABLE, &texts, &error));
    CHECK(!hv_u8(small, 4, NOT_NULLABLE, &values, &error));
    CHECK(!hv_fold_by(&texts, &values, HV_FOLD_SUM, &groups, &answers, &error));
    CHECK_ROWS(&groups, "\"a\" \"b\" \"a\"");
    CHECK_ROWS(&answers, "500 7 9");
    CHECK(hv_kind_of(&groups).number == HV_UTF8 && hv_kind_of(&answers).number == HV_U64);
    CHECK(!hv_fold_by(&texts, &values, HV_FOLD_LAST, &groups, &answers, &error));
    CHECK_ROWS(&answers, "250 7 9");
    CHECK(hv_kind_of(&answers).number == HV_U8);
    hv_free(&texts);
    hv_free(&values);
}

/* A call is refused with these fields, and leaves both handles. */
#define CHECK_KEPT(keys, values, fold, number, a, b) \
    do { \
        CHECK_REFUSED(hv_fold_by((keys), (values), (fold), &groups, &answers, &error), (number), a, b, 0); \
        CHECK_ROWS(&groups, "4"); \
        CHECK_ROWS(&answers, "2"); \
    } while (0)

static void check_refusals(void) {
    const uint8_t four[2] = {4, 4}, three[3] = {1, 2, 2};
    const int64_t large[3] = {1, INT64_MAX, 1};
    const uint64_t ones[2] = {0, 1}, sizes[2] = {1, 1};
    const int32_t offsets[3] = {0, 1, 2};
    hv_column keys = HV_EMPTY, values = HV_EMPTY, lists = HV_EMPTY, texts = HV_EMPTY, longer = HV_EMPTY;
    hv_column none = HV_EMPTY, past = HV_EMPTY;
    CHECK(!hv_u8(four, 2, NOT_NULLABLE, &keys, &error) && !hv_u8(four, 2, NOT_NULLABLE, &values, &error));
    CHECK(!hv_u8(three, 3, NOT_NULLABLE, &longer, &error) && !hv_i64(large, 3, NOT_NULLABLE, &past, &error));
    CHECK(!hv_texts(0, offsets, 3, (const uint8_t *)"ab", 2, NOT_NULLABLE, &texts, &error));
    CHECK(!hv_lists(&values, ones, 2, sizes, 2, NOT_NULLABLE, &lists, &error));
    CHECK(!hv_fold_by(&keys, &values, HV_FOLD_COUNT, &groups, &answers, &error));

    FILL(error);
    CHECK(hv_fold_by(&none, &values, FOLDS, &groups, &answers, &error) == HV_BAD_NUMBER);
    CHECK(hv_fold_by(&none, &values, HV_FOLD_SUM, &groups, &answers, &error) == HV_NO_COLUMN);
    CHECK(hv_fold_by(&keys, &none, HV_FOLD_SUM, &groups, &answers, &error) == HV_NO_COLUMN);
    CHECK_KEPT(&lists, &texts, HV_FOLD_SUM, HV_UNSUPPORTED, 0, 0);
    CHECK_KEPT(&longer, &texts, HV_FOLD_FIRST, HV_UNSUPPORTED, 0, 0);
    CHECK_KEPT(&longer, &values, HV_FOLD_ROWS, HV_COLUMN_LENGTH, 3, 2);
    CHECK_KEPT(&longer, &past, HV_FOLD_SUM, HV_CAST_OUT_OF_RANGE, 1, 0);
    CHECK(!hv_fold_by(&longer, &past, HV_FOLD_GREATEST, &groups, &answers, NULL));
    CHECK_ROWS(&answers, "1 9223372036854775807");

    hv_column *const all[] = {&keys, &values, &lists, &texts, &longer, &past};
    for (size_t i = 0; i < COUNT(all); i++) hv_free(all[i]);
}

int main(void) {
    hv_session_initial(&session);
    for (int i = 0; i < TRIALS; i++) check_trial();
    check_types();
    check_refusals();
    hv_free(&groups);
    hv_free(&answers);
    printf("%d columns grouped by %d folds as a loop over the rows groups them\n", TRIALS, FOLDS);
    return 0;
}
