/* The rows of two columns worked place by place: each operator against a loop over the rows, and each refusal. */
#include "check.h"

enum { MOST = 60, OPERATORS = HV_GREATER + 1, TRIALS = 300 };

static hv_session session;
static hv_error error;
static hv_column answers = HV_EMPTY;

/* Rows of a type, each null where its flag is not set; what is stored there is 1. */
typedef struct rows {
    size_t count;
    int64_t items[MOST];
    bool valid[MOST];
} rows;

/* A type of integers, or of booleans, and what it can have. */
typedef struct type {
    uint8_t number;
    int64_t least, greatest;
} type;

static const type types[] = {
    {HV_U8, 0, 255}, {HV_I8, -128, 127}, {HV_I32, INT32_MIN, INT32_MAX}, {HV_I64, INT64_MIN, INT64_MAX},
};

static uint64_t next(void) {
    static uint64_t seed = 17;
    seed = seed * 6364136223846793005u + 1442695040888963407u;
    return seed >> 33;
}

/* a number of the type: mostly a small one, sometimes one near an end of it; of booleans 0 or 1 */
static int64_t random_item(const type *of) {
    const int64_t small = (int64_t)(next() % 5);
    if (of->number == HV_BOOL) return small % 2;
    switch (next() % 12) {
    case 0: return of->greatest - small;
    case 1: return of->least + small;
    case 2: return of->least < 0 ? -small : small;
    default: return small;
    }
}

/* rows that often repeat the one before */
static rows random_rows(const type *of, size_t count) {
    rows it = {.count = count};
    for (size_t row = 0; row < count; row++) {
        const bool is_new = !row || next() % 3 == 0;
        it.valid[row] = is_new ? next() % 4 > 0 : it.valid[row - 1];
        it.items[row] = !it.valid[row] ? 1 : is_new ? random_item(of) : it.items[row - 1];
    }
    return it;
}

#define MAKE(call, T) \
    do { \
        T items[MOST]; \
        for (size_t row = 0; row < it->count; row++) items[row] = (T)it->items[row]; \
        CHECK(!call(items, it->count, NULLS_BY(bits, 0), &flat, &error)); \
    } while (0)

static hv_column flat_column(uint8_t number, const rows *it) {
    uint8_t bits[MOST / 8 + 1] = {0}, truths[MOST / 8 + 1] = {0};
    hv_column flat = HV_EMPTY;
    for (size_t row = 0; row < it->count; row++) {
        bits[row / 8] = (uint8_t)(bits[row / 8] | (it->valid[row] << (row % 8)));
        truths[row / 8] = (uint8_t)(truths[row / 8] | ((it->items[row] == 1) << (row % 8)));
    }
    switch (number) {
    case HV_U8: MAKE(hv_u8, uint8_t); break;
    case HV_I8: MAKE(hv_i8, int8_t); break;
    case HV_I32: MAKE(hv_i32, int32_t); break;
    case HV_I64: MAKE(hv_i64, int64_t); break;
    default: CHECK(!hv_bools(truths, sizeof truths, 0, it->count, NULLS_BY(bits, 0), &flat, &error));
    }
    return flat;
}

/* The column of these rows: flat, in runs, or a window on runs that has a row before it. */
static hv_column column_of(uint8_t number, const rows *it) {
    hv_column flat = flat_column(number, it), runs = HV_EMPTY, window = HV_EMPTY;
    const uint64_t form = next() % 3;
    if (form == 0) return flat;
    CHECK(!hv_encode_rows(&flat, &runs, &error));
    hv_free(&flat);
    if (form == 1) return runs;
    rows longer = *it;
    if (longer.count == MOST) return runs;
    for (size_t row = longer.count++; row > 0; row--) {
        longer.items[row] = longer.items[row - 1];
        longer.valid[row] = longer.valid[row - 1];
    }
    longer.valid[0] = true, longer.items[0] = 1;
    flat = flat_column(number, &longer);
    hv_column encoded = HV_EMPTY;
    CHECK(!hv_encode_rows(&flat, &encoded, &error));
    CHECK(!hv_slice(&session, &encoded, 1, longer.count, &window, &error));
    hv_free(&flat), hv_free(&encoded), hv_free(&runs);
    return window;
}

/* the answer for two rows, whether it is null, and whether the type has it */
typedef struct answer {
    __extension__ __int128 number;
    bool is_null, is_had;
} answer;

static bool holds(int operator_, int64_t left, int64_t right) {
    switch (operator_) {
    case HV_EQ: return left == right;
    case HV_NE: return left != right;
    case HV_GT: return left > right;
    case HV_GE: return left >= right;
    case HV_LT: return left < right;
    default: return left <= right;
    }
}

/* one of the two rows: the first that is not null, the lesser, the greater */
static answer picked(int operator_, const rows *left, const rows *right, size_t row) {
    const bool both = left->valid[row] && right->valid[row];
    const int64_t a = left->items[row], b = right->items[row];
    if (operator_ == HV_COALESCE) return (answer){left->valid[row] ? a : b, !left->valid[row] && !right->valid[row], true};
    return (answer){(operator_ == HV_LESSER) == (a < b) ? a : b, !both, true};
}

static answer answer_of(int operator_, const type *of, const rows *left, const rows *right, size_t row) {
    const bool both = left->valid[row] && right->valid[row];
    const int64_t a = left->items[row], b = right->items[row];
    answer it = {0, !both, true};
    if (operator_ >= HV_COALESCE) return picked(operator_, left, right, row);
    if (operator_ == HV_AND || operator_ == HV_OR) {
        const bool decides = operator_ == HV_OR; /* the truth that one row is enough for */
        const bool is_decided = (left->valid[row] && (a == 1) == decides) || (right->valid[row] && (b == 1) == decides);
        it.number = is_decided ? decides : !decides;
        it.is_null = !is_decided && !both;
        return it;
    }
    if (!both) return it;
    it.number = a;
    if (operator_ == HV_ADD) it.number += b;
    else if (operator_ == HV_SUBTRACT) it.number -= b;
    else if (operator_ == HV_MULTIPLY) it.number *= b;
    else it.number = holds(operator_, a, b);
    it.is_had = operator_ < HV_ADD || (it.number >= of->least && it.number <= of->greatest);
    return it;
}

/* Writes the answers as text, as the loop has them, or returns the first row that the type does not have, and else the
 * number of rows. */
static size_t write_due(int operator_, const type *of, const rows *left, const rows *right, char *due, size_t room) {
    const bool of_truths = operator_ < HV_ADD || operator_ == HV_AND || operator_ == HV_OR || of->number == HV_BOOL;
    size_t used = 0;
    due[0] = 0;
    for (size_t row = 0; row < left->count; row++) {
        const answer it = answer_of(operator_, of, left, right, row);
        if (!it.is_had) return row;
        if (row) used += (size_t)snprintf(due + used, room - used, " ");
        if (it.is_null) used += (size_t)snprintf(due + used, room - used, "null");
        else if (of_truths) used += (size_t)snprintf(due + used, room - used, "%s", it.number ? "true" : "false");
        else used += (size_t)snprintf(due + used, room - used, "%" PRId64, (int64_t)it.number);
    }
    return left->count;
}

/* the runs that these answers need */
static size_t runs_of(int operator_, const type *of, const rows *left, const rows *right) {
    size_t runs = 0;
    answer before = {0, false, false};
    for (size_t row = 0; row < left->count; row++) {
        const answer it = answer_of(operator_, of, left, right, row);
        const bool same = it.is_null == before.is_null && (it.is_null || it.number == before.number);
        runs += !row || !same;
        before = it;
    }
    return runs;
}

static void check_answers(int operator_, const type *of, const rows *left, const rows *right, const hv_column *columns) {
    char due[8192];
    const size_t row = write_due(operator_, of, left, right, due, sizeof due);
    hv_column found = HV_EMPTY;
    const int32_t code = hv_combine(&columns[0], (uint8_t)operator_, &columns[1], &found, &error);
    if (row < left->count) {
        CHECK(code == HV_CAST_OUT_OF_RANGE && error.first == row && !error.second && !error.third);
        CHECK(hv_form(&found) == FORM_NONE);
        return;
    }
    CHECK(!code);
    CHECK_ROWS(&found, due);
    const bool are_constants = hv_form(&columns[0]) == FORM_CONSTANT && hv_form(&columns[1]) == FORM_CONSTANT;
    size_t runs = 1;
    CHECK(hv_form(&found) == (are_constants ? FORM_CONSTANT : FORM_RUNS));
    CHECK(are_constants || !hv_run_count(&found, &runs, &error));
    CHECK(runs == runs_of(operator_, of, left, right));
    const hv_kind kind = hv_kind_of(&found);
    const bool keeps = (operator_ >= HV_ADD && operator_ <= HV_MULTIPLY) || operator_ >= HV_COALESCE;
    CHECK(kind.nullable == 1 && kind.number == (keeps ? of->number : HV_BOOL));
    hv_free(&found);
}

static size_t put_truth(char *to, size_t room, bool is_first, const char *word) {
    return (size_t)snprintf(to, room, "%s%s", is_first ? "" : " ", word);
}

/* Which rows are null, which are not, and the other booleans. */
static void check_tests(const type *of, const rows *it, const hv_column *column) {
    char nulls[1024] = "", valid[1024] = "", others[1024] = "";
    size_t at = 0, of_valid = 0, of_others = 0;
    for (size_t row = 0; row < it->count; row++) {
        const bool is_valid = it->valid[row], is_true = it->items[row] == 1;
        at += put_truth(nulls + at, sizeof nulls - at, !row, is_valid ? "false" : "true");
        of_valid += put_truth(valid + of_valid, sizeof valid - of_valid, !row, is_valid ? "true" : "false");
        of_others += put_truth(others + of_others, sizeof others - of_others, !row,
                               !is_valid ? "null" : is_true ? "false" : "true");
    }
    hv_column found = HV_EMPTY;
    CHECK(!hv_is_null(column, &found, &error));
    CHECK_ROWS(&found, nulls);
    CHECK(hv_kind_of(&found).number == HV_BOOL && hv_kind_of(&found).nullable == 0);
    CHECK(hv_form(&found) == (hv_form(column) == FORM_CONSTANT ? FORM_CONSTANT : FORM_RUNS));
    CHECK(!hv_is_valid(column, &found, &error));
    CHECK_ROWS(&found, valid);
    if (of->number == HV_BOOL) {
        CHECK(!hv_not(column, &found, &error));
        CHECK_ROWS(&found, others);
    } else CHECK_REFUSED(hv_not(column, &found, &error), HV_UNSUPPORTED, 0, 0, 0);
    hv_free(&found);
}

/* Rows of two columns by a mask, and whether two columns are equal. */
static void check_choice(const type *of, const rows *left, const rows *right, const hv_column *columns) {
    static const type truths = {HV_BOOL, 0, 1};
    const rows flags = random_rows(&truths, left->count);
    hv_column mask = column_of(HV_BOOL, &flags), found = HV_EMPTY, due = HV_EMPTY;
    rows it = *left;
    bool same = true;
    for (size_t row = 0; row < it.count; row++) {
        const rows *from = flags.items[row] == 1 ? left : right;
        it.valid[row] = flags.valid[row] && from->valid[row];
        it.items[row] = it.valid[row] ? from->items[row] : 1;
        same = same && left->valid[row] == right->valid[row] && left->items[row] == right->items[row];
    }
    uint8_t truth;
    due = flat_column(of->number, &it);
    CHECK(!hv_if_else(&mask, &columns[0], &columns[1], &found, &error));
    CHECK(!hv_equals(&found, &due, &truth, &error) && truth == 1);
    CHECK(hv_kind_of(&found).number == of->number && hv_kind_of(&found).nullable == 1);
    CHECK(!hv_equals(&columns[0], &columns[1], &truth, &error) && truth == same);
    hv_free(&mask), hv_free(&found), hv_free(&due);
}

static void check_trial(void) {
    static const type truths = {HV_BOOL, 0, 1};
    const bool of_truths = next() % 4 == 0;
    const type *of = of_truths ? &truths : &types[next() % COUNT(types)];
    const size_t count = (size_t)(next() % MOST);
    const rows left = random_rows(of, count), right = random_rows(of, count);
    hv_column columns[2] = {column_of(of->number, &left), column_of(of->number, &right)};
    for (int operator_ = 0; operator_ < OPERATORS; operator_++) {
        const bool is_served =
            operator_ < HV_ADD || operator_ >= HV_COALESCE || of_truths == (operator_ >= HV_AND);
        if (is_served) check_answers(operator_, of, &left, &right, columns);
        else CHECK_REFUSED(hv_combine(&columns[0], (uint8_t)operator_, &columns[1], &answers, &error), HV_UNSUPPORTED, 0,
                           0, 0);
    }
    check_tests(of, &left, &columns[0]);
    check_choice(of, &left, &right, columns);
    hv_free(&columns[0]);
    hv_free(&columns[1]);
}

/* The extremes of u64 and i64, and products of more than 128 bits. */
static void check_ends(void) {
    const uint64_t most[2] = {UINT64_MAX, UINT64_MAX}, ones[2] = {0, 1};
    const int64_t low[2] = {INT64_MIN + 1, INT64_MIN}, minus[2] = {-1, -1};
    hv_column a = HV_EMPTY, b = HV_EMPTY, c = HV_EMPTY, d = HV_EMPTY, e = HV_EMPTY;
    CHECK(!hv_u64(most, 2, NOT_NULLABLE, &a, &error) && !hv_u64(ones, 2, NOT_NULLABLE, &b, &error));
    CHECK(!hv_i64(low, 2, NO_NULLS, &c, &error) && !hv_i64(minus, 2, NOT_NULLABLE, &d, &error));
    CHECK(!hv_clone(&a, &e, &error));
    CHECK(!hv_combine(&a, HV_SUBTRACT, &b, &answers, &error));
    CHECK_ROWS(&answers, "18446744073709551615 18446744073709551614");
    CHECK(hv_kind_of(&answers).nullable == 0);
    CHECK(!hv_combine(&a, HV_MULTIPLY, &b, &answers, &error));
    CHECK_ROWS(&answers, "0 18446744073709551615");
    CHECK_REFUSED(hv_combine(&a, HV_ADD, &b, &answers, &error), HV_CAST_OUT_OF_RANGE, 1, 0, 0);
    CHECK_REFUSED(hv_combine(&a, HV_MULTIPLY, &e, &answers, &error), HV_CAST_OUT_OF_RANGE, 0, 0, 0);
    CHECK_REFUSED(hv_combine(&b, HV_SUBTRACT, &a, &answers, &error), HV_CAST_OUT_OF_RANGE, 0, 0, 0);
    CHECK_REFUSED(hv_combine(&c, HV_MULTIPLY, &d, &answers, &error), HV_CAST_OUT_OF_RANGE, 1, 0, 0);
    CHECK_REFUSED(hv_combine(&c, HV_ADD, &d, &answers, &error), HV_CAST_OUT_OF_RANGE, 1, 0, 0);
    CHECK_ROWS(&answers, "0 18446744073709551615");
    hv_column *const all[] = {&a, &b, &c, &d, &e};
    for (size_t i = 0; i < COUNT(all); i++) hv_free(all[i]);
}

/* Constants of 2^60 rows make a constant; a constant and runs make runs. */
static void check_constants(void) {
    const hv_kind kind = {HV_I32, 0, 0, 0};
    const hv_value five = {0, 5, HV_SIGNED, 0, 0}, seven = {0, 7, HV_SIGNED, 0, 0};
    const int32_t items[4] = {1, 1, 1, 2};
    const size_t many = (size_t)1 << 60;
    hv_column a = HV_EMPTY, b = HV_EMPTY, flat = HV_EMPTY, four = HV_EMPTY;
    size_t runs;
    CHECK(!hv_constant(&kind, &five, NO_TEXT, many, &a, &error) && !hv_constant(&kind, &seven, NO_TEXT, many, &b, &error));
    CHECK(!hv_combine(&a, HV_MULTIPLY, &b, &answers, &error));
    CHECK(hv_form(&answers) == FORM_CONSTANT && hv_length(&answers) == many);
    hv_column two = HV_EMPTY;
    CHECK(!hv_slice(&session, &answers, 7, 9, &two, &error));
    CHECK_ROWS(&two, "35 35");
    hv_free(&two);
    CHECK(!hv_combine(&a, HV_LT, &b, &answers, &error) && hv_form(&answers) == FORM_CONSTANT);
    CHECK(!hv_i32(items, 4, NOT_NULLABLE, &flat, &error) && !hv_constant(&kind, &five, NO_TEXT, 4, &four, &error));
    CHECK(!hv_combine(&flat, HV_ADD, &four, &answers, &error));
    CHECK_ROWS(&answers, "6 6 6 7");
    CHECK(hv_form(&answers) == FORM_RUNS && !hv_run_count(&answers, &runs, &error) && runs == 2);
    hv_column *const all[] = {&a, &b, &flat, &four};
    for (size_t i = 0; i < COUNT(all); i++) hv_free(all[i]);
}

/* Texts, bytes and decimals are compared. */
static void check_kinds(void) {
    const int32_t offsets[4] = {0, 1, 2, 4};
    const hv_pair some[3] = {{1, 0}, {0, -1}, {5, 0}}, others[3] = {{2, 0}, {0, -1}, {1, 0}};
    hv_column a = HV_EMPTY, b = HV_EMPTY;
    for (uint8_t binary = 0; binary < 2; binary++) {
        CHECK(!hv_texts(binary, offsets, 4, (const uint8_t *)"abcd", 4, NOT_NULLABLE, &a, &error));
        CHECK(!hv_texts(binary, offsets, 4, (const uint8_t *)"aacd", 4, NOT_NULLABLE, &b, &error));
        CHECK(!hv_combine(&a, HV_GT, &b, &answers, &error));
        CHECK_ROWS(&answers, "false true false");
        CHECK_REFUSED(hv_combine(&a, HV_ADD, &b, &answers, &error), HV_UNSUPPORTED, 0, 0, 0);
    }
    CHECK(!hv_decimals(some, 3, 9, 2, NOT_NULLABLE, &a, &error) && !hv_decimals(others, 3, 9, 2, NOT_NULLABLE, &b, &error));
    CHECK(!hv_combine(&a, HV_LE, &b, &answers, &error));
    CHECK_ROWS(&answers, "true true false");
    CHECK_REFUSED(hv_combine(&a, HV_AND, &b, &answers, &error), HV_UNSUPPORTED, 0, 0, 0);
    CHECK_REFUSED(hv_combine(&a, HV_MULTIPLY, &b, &answers, &error), HV_CAST_OUT_OF_RANGE, 1, 0, 0);
    hv_free(&a);
    hv_free(&b);
}

/* Hashes are those of another program, of a column that is flat, and of its runs. */
static void check_hash(const hv_column *flat, uint64_t due) {
    hv_column runs = HV_EMPTY;
    uint64_t hash = 0;
    CHECK(!hv_hash(flat, &hash, &error) && hash == due);
    CHECK(!hv_encode_rows(flat, &runs, &error) && !hv_hash(&runs, &hash, &error) && hash == due);
    hv_free(&runs);
}

static void check_hashes(void) {
    const int64_t numbers[4] = {4, 4, 0, -7};
    const uint8_t valid[1] = {11}, truths[1] = {3}, known[1] = {7};
    const int32_t offsets[4] = {0, 4, 8, 14};
    hv_column it = HV_EMPTY;
    CHECK(!hv_i64(numbers, 4, NULLS_BY(valid, 0), &it, &error));
    check_hash(&it, UINT64_C(8325595506498645118));
    CHECK(!hv_bools(truths, 1, 0, 4, NULLS_BY(known, 0), &it, &error));
    check_hash(&it, UINT64_C(1476121092879757064));
    CHECK(!hv_i64(numbers, 0, NOT_NULLABLE, &it, &error));
    check_hash(&it, UINT64_C(15130871412783076140));
    const uint64_t due[2] = {UINT64_C(15208884167202354170), UINT64_C(13569658018871057169)};
    for (uint8_t binary = 0; binary < 2; binary++) {
        CHECK(!hv_texts(binary, offsets, 4, (const uint8_t *)"OsloOsloBergen", 14, NOT_NULLABLE, &it, &error));
        check_hash(&it, due[binary]);
    }
    hv_free(&it);
}

/* A call is refused with these fields, and leaves the handle that it would fill. */
#define CHECK_KEPT(left, operator_, right, number, a, b) \
    do { \
        CHECK_REFUSED(hv_combine((left), (operator_), (right), &answers, &error), (number), a, b, 0); \
        CHECK_ROWS(&answers, "8 8"); \
    } while (0)

static void check_refusals(void) {
    const uint8_t four[2] = {4, 4}, bits[1] = {1};
    const uint16_t wide[3] = {1, 2, 3};
    const uint64_t starts[2] = {0, 1}, sizes[2] = {1, 1};
    hv_column a = HV_EMPTY, b = HV_EMPTY, longer = HV_EMPTY, lists = HV_EMPTY, truths = HV_EMPTY, none = HV_EMPTY;
    hv_column three = HV_EMPTY, texts = HV_EMPTY, nothing = HV_EMPTY;
    const int32_t offsets[3] = {0, 1, 2};
    CHECK(!hv_u8(four, 2, NOT_NULLABLE, &a, &error) && !hv_u8(four, 2, NOT_NULLABLE, &b, &error));
    CHECK(!hv_u16(wide, 3, NOT_NULLABLE, &longer, &error) && !hv_bools(bits, 1, 0, 2, NOT_NULLABLE, &truths, &error));
    CHECK(!hv_lists(&a, starts, 2, sizes, 2, NOT_NULLABLE, &lists, &error));
    CHECK(!hv_bools(bits, 1, 0, 3, NOT_NULLABLE, &three, &error));
    CHECK(!hv_texts(0, offsets, 3, (const uint8_t *)"ab", 2, NOT_NULLABLE, &texts, &error));
    CHECK(!hv_combine(&a, HV_ADD, &b, &answers, &error));

    for (int number = OPERATORS; number < 256; number++)
        CHECK(hv_combine(&none, (uint8_t)number, &a, &answers, &error) == HV_BAD_NUMBER);
    CHECK(hv_combine(&none, HV_ADD, &a, &answers, &error) == HV_NO_COLUMN);
    CHECK(hv_combine(&a, HV_ADD, &none, &answers, &error) == HV_NO_COLUMN);
    CHECK(hv_combine(&none, HV_EQ, &nothing, &answers, NULL) == HV_NO_COLUMN);
    CHECK_ROWS(&answers, "8 8");
    CHECK_KEPT(&lists, HV_EQ, &longer, HV_UNSUPPORTED, 0, 0);
    CHECK_KEPT(&a, HV_EQ, &longer, HV_TYPE_MISMATCH, 0, 0);
    CHECK_KEPT(&a, HV_EQ, &truths, HV_TYPE_MISMATCH, 0, 0);
    CHECK_KEPT(&three, HV_NE, &truths, HV_COLUMN_LENGTH, 3, 2);
    CHECK_KEPT(&truths, HV_ADD, &longer, HV_UNSUPPORTED, 0, 0);
    CHECK_KEPT(&longer, HV_ADD, &truths, HV_UNSUPPORTED, 0, 0);
    CHECK_KEPT(&longer, HV_SUBTRACT, &a, HV_TYPE_MISMATCH, 0, 0);
    CHECK_KEPT(&a, HV_AND, &truths, HV_UNSUPPORTED, 0, 0);
    CHECK_KEPT(&truths, HV_OR, &longer, HV_UNSUPPORTED, 0, 0);
    CHECK_KEPT(&truths, HV_OR, &three, HV_COLUMN_LENGTH, 2, 3);
    CHECK(hv_combine(&three, HV_AND, &truths, &answers, NULL) == HV_COLUMN_LENGTH);
    CHECK_KEPT(&texts, HV_COALESCE, &longer, HV_UNSUPPORTED, 0, 0);
    CHECK_KEPT(&longer, HV_LESSER, &truths, HV_TYPE_MISMATCH, 0, 0);
    CHECK_KEPT(&truths, HV_GREATER, &three, HV_COLUMN_LENGTH, 2, 3);

    uint8_t truth = 7;
    CHECK_REFUSED(hv_is_null(&lists, &answers, &error), HV_UNSUPPORTED, 0, 0, 0);
    CHECK_REFUSED(hv_is_valid(&lists, &answers, &error), HV_UNSUPPORTED, 0, 0, 0);
    CHECK_REFUSED(hv_not(&texts, &answers, &error), HV_UNSUPPORTED, 0, 0, 0);
    CHECK_REFUSED(hv_if_else(&a, &b, &longer, &answers, &error), HV_UNSUPPORTED, 0, 0, 0);
    CHECK_REFUSED(hv_if_else(&truths, &texts, &longer, &answers, &error), HV_UNSUPPORTED, 0, 0, 0);
    CHECK_REFUSED(hv_if_else(&truths, &a, &longer, &answers, &error), HV_TYPE_MISMATCH, 0, 0, 0);
    CHECK_REFUSED(hv_if_else(&three, &a, &b, &answers, &error), HV_COLUMN_LENGTH, 3, 2, 0);
    CHECK(hv_not(&none, &answers, &error) == HV_NO_COLUMN && hv_is_null(&none, &answers, NULL) == HV_NO_COLUMN);
    CHECK(hv_is_valid(&none, &answers, &error) == HV_NO_COLUMN);
    CHECK(hv_if_else(&none, &a, &b, &answers, &error) == HV_NO_COLUMN);
    CHECK(hv_if_else(&truths, &none, &b, &answers, &error) == HV_NO_COLUMN);
    CHECK(hv_if_else(&truths, &a, &none, &answers, NULL) == HV_NO_COLUMN);
    CHECK_ROWS(&answers, "8 8");
    CHECK(hv_equals(&none, &a, &truth, &error) == HV_NO_COLUMN && hv_equals(&a, &none, &truth, NULL) == HV_NO_COLUMN);
    hv_column more = HV_EMPTY;
    CHECK(!hv_clone(&lists, &more, &error));
    CHECK_REFUSED(hv_equals(&lists, &more, &truth, &error), HV_UNSUPPORTED, 0, 0, 0);
    uint64_t hash = 9;
    CHECK_REFUSED(hv_hash(&lists, &hash, &error), HV_UNSUPPORTED, 0, 0, 0);
    CHECK(hv_hash(&none, &hash, &error) == HV_NO_COLUMN && hash == 9);
    CHECK(!hv_equals(&lists, &a, &truth, &error) && truth == 0);
    CHECK(!hv_equals(&three, &truths, &truth, &error) && truth == 0);
    CHECK(!hv_equals(&longer, &truths, &truth, &error) && truth == 0);
    CHECK(!hv_equals(&a, &b, &truth, &error) && truth == 1);
    hv_free(&more);

    hv_column *const all[] = {&a, &b, &longer, &lists, &truths, &three, &texts};
    for (size_t i = 0; i < COUNT(all); i++) hv_free(all[i]);
}

int main(void) {
    hv_session_initial(&session);
    for (int i = 0; i < TRIALS; i++) check_trial();
    check_ends();
    check_constants();
    check_kinds();
    check_hashes();
    check_refusals();
    hv_free(&answers);
    printf("the rows of two columns are worked as a loop works them\n");
    return 0;
}
