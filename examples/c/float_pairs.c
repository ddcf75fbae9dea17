/* Two columns of floats worked place by place: each operator against what the machine's own floats give, in every form,
 * over numbers, infinities, both zeros, subnormal numbers, NaNs and null; and each refusal. */
#include "check.h"
#include <math.h>

enum { MOST = 60, TRIALS = 300 };

static const uint8_t operators[] = {HV_ADD, HV_SUBTRACT, HV_MULTIPLY, HV_DIVIDE};

static hv_session session;
static hv_error error;
static hv_column out = HV_EMPTY;

/* Rows of floats of 32 or of 64 bits, null where the flag is not set; what is stored there is 1 as bits. */
typedef struct rows {
    int width;
    size_t count;
    uint64_t bits[MOST];
    bool valid[MOST];
} rows;

static uint64_t next(void) {
    static uint64_t seed = 29;
    seed = seed * 6364136223846793005u + 1442695040888963407u;
    return seed >> 20;
}

static float single_of(uint64_t bits) {
    const uint32_t narrow = (uint32_t)bits;
    float number;
    memcpy(&number, &narrow, sizeof number);
    return number;
}

static double double_of(uint64_t bits) {
    double number;
    memcpy(&number, &bits, sizeof number);
    return number;
}

/* zeros, subnormal numbers, the largest, infinities, NaNs with payloads, numbers near 1, any bits; of both signs */
static uint64_t some_bits(int width) {
    static const uint64_t doubles[] = {
        0, 1, 0x000fffffffffffff, 0x0010000000000000, 0x3ff0000000000000, 0x3fefffffffffffff, 0x7fefffffffffffff,
        0x7ff0000000000000, 0x7ff0000000000001, 0x7ff8000000000000, 0x7ff800000000beef,
    };
    static const uint32_t singles[] = {0,          1,          0x007fffff, 0x00800000, 0x3f800000, 0x3f7fffff,
                                       0x7f7fffff, 0x7f800000, 0x7f800001, 0x7fc00000, 0x7fc0beef};
    const uint64_t low = width == 32 ? 0xffffffff : UINT64_MAX, sign = (next() % 2) << (width - 1);
    const uint64_t one = width == 32 ? 0x3f800000 : 0x3ff0000000000000;
    switch (next() % 4) {
    case 0: return ((next() << 40) ^ (next() << 20) ^ next()) & low;
    case 1: return (one + next() % 4096) | sign;
    default: return (width == 32 ? singles[next() % COUNT(singles)] : doubles[next() % COUNT(doubles)]) | sign;
    }
}

/* rows that often repeat the one before */
static rows random_rows(int width, size_t count) {
    rows it = {.width = width, .count = count};
    for (size_t row = 0; row < count; row++) {
        const bool is_new = !row || next() % 3 == 0;
        it.valid[row] = is_new ? next() % 5 > 0 : it.valid[row - 1];
        it.bits[row] = !it.valid[row] ? 1 : is_new ? some_bits(width) : it.bits[row - 1];
    }
    return it;
}

static hv_column flat_bits(const rows *it) {
    uint8_t flags[MOST / 8 + 1] = {0};
    uint32_t words[MOST];
    hv_column flat = HV_EMPTY;
    for (size_t row = 0; row < it->count; row++) {
        words[row] = (uint32_t)it->bits[row];
        flags[row / 8] = (uint8_t)(flags[row / 8] | (it->valid[row] << (row % 8)));
    }
    if (it->width == 32) CHECK(!hv_u32(words, it->count, NULLS_BY(flags, 0), &flat, &error));
    else CHECK(!hv_u64(it->bits, it->count, NULLS_BY(flags, 0), &flat, &error));
    return flat;
}

/* The floats of these rows: flat, in runs, a window on runs without the first row, or the first row as a constant. */
static hv_column column_of(rows *it) {
    hv_column bits = flat_bits(it), runs = HV_EMPTY, made = HV_EMPTY;
    CHECK(!hv_float_encode(&bits, 0, &runs, &error));
    hv_free(&bits);
    switch (it->count ? next() % 4 : 0) {
    case 0: CHECK(!hv_decode(&session, &runs, &made, &error)); break;
    case 1: return runs;
    case 2:
        CHECK(!hv_slice(&session, &runs, 1, it->count, &made, &error));
        it->count--;
        memmove(it->bits, it->bits + 1, it->count * sizeof *it->bits);
        memmove(it->valid, it->valid + 1, it->count * sizeof *it->valid);
        break;
    default: {
        const hv_kind kind = hv_kind_of(&runs);
        hv_value first;
        CHECK(!hv_at(&runs, 0, &first, NO_TEXT_ROOM, &error));
        CHECK(!hv_constant(&kind, &first, NO_TEXT, it->count, &made, &error));
        for (size_t row = 1; row < it->count; row++) it->bits[row] = it->bits[0], it->valid[row] = it->valid[0];
    }
    }
    hv_free(&runs);
    return made;
}

static float single_given(uint8_t operator_, float a, float b) {
    switch (operator_) {
    case HV_ADD: return a + b;
    case HV_SUBTRACT: return a - b;
    case HV_MULTIPLY: return a * b;
    default: return a / b;
    }
}

static double double_given(uint8_t operator_, double a, double b) {
    switch (operator_) {
    case HV_ADD: return a + b;
    case HV_SUBTRACT: return a - b;
    case HV_MULTIPLY: return a * b;
    default: return a / b;
    }
}

/* what the machine gives of two floats, and for each NaN the quiet one with a plus and no payload */
static uint64_t given(uint8_t operator_, int width, uint64_t left, uint64_t right) {
    if (width == 32) {
        const float number = single_given(operator_, single_of(left), single_of(right));
        uint32_t bits;
        memcpy(&bits, &number, sizeof bits);
        return isnan(number) ? 0x7fc00000 : bits;
    }
    const double number = double_given(operator_, double_of(left), double_of(right));
    uint64_t bits;
    memcpy(&bits, &number, sizeof bits);
    return isnan(number) ? 0x7ff8000000000000 : bits;
}

/* The bits of the double that has the same number as a float: of an answer that is a NaN, the quiet one. */
static uint64_t widened(int width, uint64_t bits) {
    const double number = width == 32 ? (double)single_of(bits) : double_of(bits);
    uint64_t wide;
    memcpy(&wide, &number, sizeof wide);
    return isnan(number) ? 0x7ff8000000000000 : wide;
}

static void check_answers(uint8_t operator_, const rows *left, const rows *right, const hv_column *columns) {
    const bool are_constants = hv_form(&columns[0]) == FORM_CONSTANT && hv_form(&columns[1]) == FORM_CONSTANT;
    size_t runs = 1, due_runs = 0;
    uint64_t before = 0;
    bool valid_before = false;
    uint32_t singles[MOST + 1];
    uint64_t doubles[MOST + 1];
    hv_column typed = HV_EMPTY, read = HV_EMPTY;
    CHECK(!hv_float_combine(&columns[0], operator_, &columns[1], &out, &error));
    CHECK(!hv_with_type(&out, (const uint8_t *)(left->width == 32 ? "f" : "g"), 1, &typed, &error));
    CHECK(!hv_float_decode(&out, &read, &error));
    if (left->width == 32) CHECK(!hv_read_u32(&read, 0, singles, left->count, &error));
    else CHECK(!hv_read_u64(&read, 0, doubles, left->count, &error));
    CHECK(hv_length(&out) == left->count && hv_kind_of(&out).number == (left->width == 32 ? HV_I32 : HV_I64));
    CHECK(hv_kind_of(&out).nullable == 1 && hv_form(&out) == (are_constants ? FORM_CONSTANT : FORM_RUNS));
    for (size_t row = 0; row < left->count; row++) {
        const bool due_valid = left->valid[row] && right->valid[row];
        const uint64_t due = due_valid ? given(operator_, left->width, left->bits[row], right->bits[row]) : 0;
        hv_value value;
        FILL(value);
        CHECK(!hv_at(&typed, row, &value, NULL, 0, &error) && value.kind == (due_valid ? HV_DOUBLE : HV_NULL));
        CHECK(!due_valid || value.as_unsigned == widened(left->width, due));
        CHECK(!due_valid || (left->width == 32 ? singles[row] : doubles[row]) == due);
        due_runs += !row || due != before || due_valid != valid_before;
        before = due, valid_before = due_valid;
    }
    CHECK(are_constants || !hv_run_count(&out, &runs, &error));
    CHECK(runs == due_runs);
    hv_free(&typed), hv_free(&read);
}

static void check_trial(void) {
    const int width = next() % 2 ? 32 : 64;
    const size_t count = (size_t)(next() % MOST);
    rows left = random_rows(width, count), right = random_rows(width, count);
    hv_column columns[2] = {column_of(&left), column_of(&right)};
    if (left.count != right.count) {
        const size_t lefts = left.count, rights = right.count;
        CHECK_REFUSED(hv_float_combine(&columns[0], HV_ADD, &columns[1], &out, &error), HV_COLUMN_LENGTH, lefts, rights,
                      0);
    } else for (size_t i = 0; i < COUNT(operators); i++) check_answers(operators[i], &left, &right, columns);
    hv_free(&columns[0]), hv_free(&columns[1]);
}

/* Constants of 2^60 rows make a constant, without null where neither has it. */
static void check_constants(void) {
    const hv_kind kind = {HV_I64, 0, 0, 0};
    const hv_value one = {.kind = HV_SIGNED, .as_signed = INT64_C(0x3ff0000000000000)}, zero = {.kind = HV_SIGNED};
    const size_t many = (size_t)1 << 60;
    hv_column a = HV_EMPTY, b = HV_EMPTY, typed = HV_EMPTY;
    hv_value last;
    CHECK(!hv_constant(&kind, &one, NO_TEXT, many, &a, &error));
    CHECK(!hv_constant(&kind, &zero, NO_TEXT, many, &b, &error));
    CHECK(!hv_float_combine(&a, HV_DIVIDE, &b, &out, &error));
    CHECK(hv_form(&out) == FORM_CONSTANT && hv_length(&out) == many && hv_kind_of(&out).nullable == 0);
    CHECK(!hv_with_type(&out, (const uint8_t *)"g", 1, &typed, &error));
    CHECK(!hv_at(&typed, many - 1, &last, NULL, 0, &error) && last.kind == HV_DOUBLE);
    CHECK(double_of(last.as_unsigned) == INFINITY);
    hv_free(&a), hv_free(&b), hv_free(&typed);
}

/* Columns that are not of floats, of two formats, of 16 bits, of two lengths; no column; no operator. */
static void check_refusals(void) {
    const uint64_t words[2] = {4, 4};
    const uint32_t narrow[2] = {4, 4};
    const uint16_t halves[2] = {4, 4};
    hv_column bits = HV_EMPTY, doubles = HV_EMPTY, singles = HV_EMPTY, short_floats = HV_EMPTY;
    hv_column none = HV_EMPTY, one = HV_EMPTY, other_bits = HV_EMPTY, other_floats = HV_EMPTY;
    CHECK(!hv_u64(words, 2, NOT_NULLABLE, &bits, &error) && !hv_float_encode(&bits, 0, &doubles, &error));
    CHECK(!hv_u32(narrow, 2, NOT_NULLABLE, &bits, &error) && !hv_float_encode(&bits, 0, &singles, &error));
    CHECK(!hv_u16(halves, 2, NOT_NULLABLE, &bits, &error) && !hv_float_encode(&bits, 0, &short_floats, &error));
    CHECK(!hv_slice(&session, &doubles, 0, 1, &one, &error) && !hv_clone(&bits, &out, &error));
    CHECK(!hv_clone(&bits, &other_bits, &error) && !hv_clone(&short_floats, &other_floats, &error));
    CHECK_REFUSED(hv_float_combine(&bits, HV_ADD, &other_bits, &out, &error), HV_TYPE_MISMATCH, 0, 0, 0);
    CHECK_REFUSED(hv_float_combine(&doubles, HV_ADD, &singles, &out, &error), HV_TYPE_MISMATCH, 0, 0, 0);
    CHECK_REFUSED(hv_float_combine(&short_floats, HV_ADD, &one, &out, &error), HV_TYPE_MISMATCH, 0, 0, 0);
    CHECK_REFUSED(hv_float_combine(&short_floats, HV_DIVIDE, &other_floats, &out, &error), HV_UNSUPPORTED, 0, 0, 0);
    CHECK_REFUSED(hv_float_combine(&doubles, HV_DIVIDE, &one, &out, &error), HV_COLUMN_LENGTH, 2, 1, 0);
    for (int number = 0; number < 256; number++) {
        const bool is_served = (number >= HV_ADD && number <= HV_MULTIPLY) || number == HV_DIVIDE;
        const int32_t due = is_served ? HV_NO_COLUMN : HV_BAD_NUMBER;
        CHECK(hv_float_combine(&none, (uint8_t)number, &doubles, &out, &error) == due);
        CHECK(hv_float_combine(&doubles, (uint8_t)number, &none, &out, &error) == due);
    }
    CHECK_ROWS(&out, "4 4");
    hv_column *const all[] = {&bits, &doubles, &singles, &short_floats, &one, &other_bits, &other_floats};
    for (size_t i = 0; i < COUNT(all); i++) hv_free(all[i]);
}

int main(void) {
    hv_session_initial(&session);
    for (int i = 0; i < TRIALS; i++) check_trial();
    check_constants();
    check_refusals();
    hv_free(&out);
    printf("%d pairs of columns of floats give what the machine's floats give\n", TRIALS);
    return 0;
}
