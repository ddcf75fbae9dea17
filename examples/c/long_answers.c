/* What columns of 2^40 rows in a few runs answer, held against their stretches of equal rows: arithmetic, sums, running
 * totals, groups, counts of values, rows at indices, floats, and the bytes of a column. No row is written or read. */
#include "hivevigil_helpers.h"
#include "long_parts.h"

enum { TURNS = 1000, PLACES = 5 };
static plain_parts asked, other, flags, due;
static hv_column left = HV_EMPTY, right = HV_EMPTY, mask = HV_EMPTY, made = HV_EMPTY, second = HV_EMPTY;
static const plain_row null_row;

static bool is_integer(const plain_column *type) { return type->kind.number <= HV_I64 && !*type->format; }

/* Integers of the type of a column, which may be any. */
static void random_integers(plain_parts *parts, hv_column *out) {
    do random_column_type(&parts->type);
    while (!is_integer(&parts->type));
    random_runs(parts, out);
}

/* ---- Two columns ---- */

static uint8_t operator_;
static hv_kind worked_kind;
static uint64_t row_reached, refused_row;

static bool fits(plain_number number, hv_kind kind) {
    const int bits = 8 << kind.number % 4;
    const plain_number one = 1, low = kind.number >= HV_I8 ? -(one << (bits - 1)) : 0;
    return number >= low && number < low + (one << bits);
}

/* What HV_ADD to HV_MULTIPLY, HV_COALESCE, HV_LESSER and HV_GREATER give; the first row that does not fit is kept. */
static void work_numbers(plain_parts *to, uint64_t length, const plain_row *one, const plain_row *two) {
    const plain_number a = one->number, b = two->number;
    plain_row row = {one->is_valid && two->is_valid, 0, 0, {0}};
    if (operator_ == HV_COALESCE) row = one->is_valid ? *one : *two;
    else if (row.is_valid)
        row.number = operator_ == HV_ADD      ? a + b
                     : operator_ == HV_SUBTRACT ? a - b
                     : operator_ == HV_MULTIPLY ? a * b
                     : operator_ == HV_LESSER   ? (a < b ? a : b)
                                                : (a > b ? a : b);
    if (row.is_valid && !fits(row.number, worked_kind) && refused_row > row_reached) refused_row = row_reached;
    row_reached += length;
    add_part(to, length, &row);
}

static void check_numbers(void) {
    static const uint8_t operators[] = {HV_ADD, HV_SUBTRACT, HV_MULTIPLY, HV_COALESCE, HV_LESSER, HV_GREATER};
    random_integers(&asked, &left);
    other.type = due.type = asked.type;
    random_runs(&other, &right);
    operator_ = operators[chance(COUNT(operators))];
    worked_kind = asked.type.kind;
    row_reached = 0;
    refused_row = rows;
    work_parts(&asked, &other, work_numbers, &due);
    const int32_t answer = hv_combine(&left, operator_, &right, &made, &error);
    if (refused_row < rows) CHECK(answer == HV_CAST_OUT_OF_RANGE && error.first == refused_row);
    else CHECK(!answer), check_parts(&made, &due);
}

static void connect(plain_parts *to, uint64_t length, const plain_row *one, const plain_row *two) {
    const bool decides = operator_ == HV_OR;
    plain_row row = {one->is_valid && two->is_valid, !decides, 0, {0}};
    if ((one->is_valid && one->number == decides) || (two->is_valid && two->number == decides))
        row = (plain_row){true, decides, 0, {0}};
    if (!row.is_valid) row.number = 0;
    add_part(to, length, &row);
}

/* Conditions connected, and rows of two columns chosen by one: both sides are null where the mask is. */
static void choose_left(plain_parts *to, uint64_t length, const plain_row *flag, const plain_row *row) {
    add_part(to, length, flag->is_valid && flag->number ? row : &null_row);
}
static void choose_right(plain_parts *to, uint64_t length, const plain_row *flag, const plain_row *row) {
    add_part(to, length, flag->is_valid && !flag->number ? row : &null_row);
}
static void either(plain_parts *to, uint64_t length, const plain_row *one, const plain_row *two) {
    add_part(to, length, one->is_valid ? one : two);
}

static void check_masks(void) {
    static plain_parts of_left, of_right;
    random_mask(&asked, &left);
    random_mask(&other, &right);
    due.type.kind = (hv_kind){HV_BOOL, 1, 0, 0};
    operator_ = chance(2) ? HV_AND : HV_OR;
    CHECK(!hv_combine(&left, operator_, &right, &made, &error));
    work_parts(&asked, &other, connect, &due);
    check_parts(&made, &due);
    random_mask(&flags, &mask);
    random_integers(&asked, &left);
    other.type = of_left.type = of_right.type = due.type = asked.type;
    random_runs(&other, &right);
    CHECK(!hv_if_else(&mask, &left, &right, &made, &error));
    work_parts(&flags, &asked, choose_left, &of_left);
    work_parts(&flags, &other, choose_right, &of_right);
    work_parts(&of_left, &of_right, either, &due);
    check_parts(&made, &due);
}

/* ---- Questions ---- */

static void check_same(void) {
    uint8_t truth = 2;
    uint64_t hash = 0, again = 1;
    do random_parts(&asked, &left);
    while (asked.type.kind.number == HV_LIST);
    CHECK(!hv_encode_rows(&left, &made, &error) && !hv_equals(&left, &made, &truth, &error) && truth == 1);
    CHECK(!hv_hash(&left, &hash, &error) && !hv_hash(&made, &again, &error) && hash == again);
    other.type = asked.type;
    random_runs(&other, &right);
    bool same = asked.count == other.count;
    for (size_t part = 0; same && part < asked.count; part++)
        same = asked.lengths[part] == other.lengths[part] &&
               are_equal(&asked.values[part], &other.values[part], asked.type.kind);
    CHECK(!hv_equals(&left, &right, &truth, &error) && truth == same);
    CHECK(!hv_is_constant(&session, &left, &truth, &error) && truth == (asked.count == 1));
}

static plain_number number_of(hv_pair pair, bool has_sign) {
    const plain_number high = has_sign ? (plain_number)pair.high : (plain_number)(uint64_t)pair.high;
    return high * ((plain_number)1 << 64) + (plain_number)pair.low;
}

/* Sums up to each run, which no row of these types brings past 64 bits. */
static void check_sums(void) {
    plain_number total = 0, least = 0, greatest = 0;
    uint64_t ends = 0, nulls = 0;
    hv_pair found[3];
    hv_total sum;
    bool has_valid = false;
    random_integers(&asked, &left);
    const bool has_sign = asked.type.kind.number >= HV_I8;
    CHECK(!hv_running_totals(&left, &made, &second, &error) && hv_length(&made) == asked.count);
    CHECK(!hv_cast(&session, &made, &(hv_kind){HV_U64, 0, 0, 0}, &mask, &error));
    for (size_t part = 0; part < asked.count; part++) {
        const plain_row *const row = &asked.values[part];
        uint64_t end = 0;
        ends += asked.lengths[part];
        if (row->is_valid) total += row->number * (plain_number)asked.lengths[part], has_valid = true;
        else nulls += asked.lengths[part];
        least = total < least ? total : least;
        greatest = total > greatest ? total : greatest;
        CHECK(!hv_read_u64(&mask, part, &end, 1, &error) && end == ends);
        check_value(&second, part, &(plain_row){has_valid, total, 0, {0}}, asked.type.kind);
    }
    CHECK(!hv_sum_parts(&left, &found[0], &found[1], &found[2], &error) && hv_null_count(&left) == nulls);
    CHECK(number_of(found[0], has_sign) == total && number_of(found[1], has_sign) == least);
    CHECK(number_of(found[2], has_sign) == greatest && !hv_sum(&session, &left, &sum, &error));
    CHECK(sum.empty == !has_valid && (has_sign ? sum.as_signed == (int64_t)total : sum.as_unsigned == (uint64_t)total));
}

/* Each value, and in how many rows it is. */
static void check_counts(void) {
    size_t found = 0;
    do random_parts(&asked, &left);
    while (asked.type.kind.number == HV_LIST);
    CHECK(!hv_value_counts(&left, &made, &second, &error));
    for (size_t part = 0; part < asked.count; part++) {
        uint64_t count = 0, of_value = 0;
        bool is_first = true;
        for (size_t at = 0; at < asked.count; at++) {
            if (!are_equal(&asked.values[part], &asked.values[at], asked.type.kind)) continue;
            is_first &= at >= part;
            count += asked.lengths[at];
        }
        for (size_t at = 0; is_first && at < hv_length(&made); at++) {
            hv_column one = HV_EMPTY;
            uint8_t truth = 0;
            make_flat(&asked.values[part], 1, asked.type.kind, &mask);
            CHECK(!hv_slice(&session, &made, at, at + 1, &one, &error) && !hv_equals(&one, &mask, &truth, &error));
            if (truth) CHECK(!hv_read_u64(&second, at, &of_value, 1, &error));
            hv_free(&one);
        }
        CHECK(!is_first || of_value == count);
        found += is_first;
    }
    CHECK(found == hv_length(&made));
}

/* ---- Groups ---- */

enum { FOLDS = HV_FOLD_LAST + 1 };
typedef struct group {
    plain_row key, answers[FOLDS];
} group;
static group groups[2 * MOST_PARTS];
static size_t group_count;

static void add_to_group(plain_parts *keys, uint64_t length, const plain_row *key, const plain_row *value) {
    if (!group_count || !are_equal(&groups[group_count - 1].key, key, keys->type.kind)) {
        memset(&groups[group_count], 0, sizeof *groups);
        groups[group_count].answers[HV_FOLD_ROWS].is_valid = groups[group_count].answers[HV_FOLD_COUNT].is_valid = true;
        groups[group_count++].key = *key;
    }
    plain_row *const answers = groups[group_count - 1].answers;
    answers[HV_FOLD_ROWS].number += (plain_number)length;
    if (!value->is_valid) return;
    const bool is_first = !answers[HV_FOLD_COUNT].number;
    answers[HV_FOLD_COUNT].number += (plain_number)length;
    answers[HV_FOLD_SUM] = (plain_row){true, answers[HV_FOLD_SUM].number + value->number * (plain_number)length, 0, {0}};
    if (is_first || value->number < answers[HV_FOLD_LEAST].number) answers[HV_FOLD_LEAST] = *value;
    if (is_first || value->number > answers[HV_FOLD_GREATEST].number) answers[HV_FOLD_GREATEST] = *value;
    if (is_first) answers[HV_FOLD_FIRST] = *value;
    answers[HV_FOLD_LAST] = *value;
}

static void check_groups(void) {
    const uint8_t fold = (uint8_t)chance(FOLDS);
    do random_parts(&asked, &left);
    while (asked.type.kind.number == HV_LIST);
    random_integers(&other, &right);
    group_count = 0;
    due.type = asked.type;
    work_parts(&asked, &other, add_to_group, &due);
    CHECK(!hv_fold_by(&left, &right, fold, &made, &second, &error));
    CHECK(hv_length(&made) == group_count && hv_length(&second) == group_count);
    for (size_t at = 0; at < group_count; at++) {
        check_value(&made, at, &groups[at].key, asked.type.kind);
        check_value(&second, at, &groups[at].answers[fold], other.type.kind);
    }
}

/* ---- Rows at places, floats, bytes ---- */

static const plain_row *row_at_place(const plain_parts *parts, uint64_t place) {
    size_t part = 0;
    for (uint64_t end = parts->lengths[0]; end <= place; end += parts->lengths[++part]) continue;
    return &parts->values[part];
}

/* Rows at a few indices, and as many rows of them as there are codes in runs. */
static void check_places(void) {
    uint64_t places[PLACES];
    do random_parts(&asked, &left);
    while (asked.type.kind.number == HV_LIST);
    for (size_t i = 0; i < PLACES; i++) places[i] = chance(2) ? chance(rows) : rows - 1 - chance(200);
    CHECK(!hv_u64(places, PLACES, NOT_NULLABLE, &mask, &error) && !hv_take(&session, &left, &mask, &made, &error));
    CHECK(hv_length(&made) == PLACES && !hv_take_from(&session, &mask, &left, &second, &error));
    for (size_t i = 0; i < PLACES; i++) {
        check_value(&made, i, row_at_place(&asked, places[i]), asked.type.kind);
        check_value(&second, i, row_at_place(&asked, places[i]), asked.type.kind);
    }
}

static double double_of(uint64_t bits) {
    double number;
    memcpy(&number, &bits, sizeof number);
    return number;
}

/* The double of a key of 64 bits. */
static double number_of_key(plain_number key) {
    return double_of(key < 0 ? (uint64_t)(-1 - key) | (uint64_t)1 << 63 : (uint64_t)key);
}

static double compared_with;
static void compare_floats(plain_parts *to, uint64_t length, const plain_row *one, const plain_row *none) {
    const double a = number_of_key(one->number), b = compared_with;
    const bool holds[] = {a == b, a != b, a > b, a >= b, a < b, a <= b};
    const plain_row flag = {one->is_valid, one->is_valid && holds[operator_], 0, {0}};
    (void)none;
    add_part(to, length, &flag);
}

static void check_floats(void) {
    const double numbers[] = {0.0, 0.25, -1.5, 7.0, double_of((uint64_t)0x7FF8 << 48)};
    uint64_t bits;
    asked.type.kind = (hv_kind){HV_I64, (uint8_t)chance(2), 0, 0};
    asked.type.format = "g";
    random_runs(&asked, &left);
    compared_with = numbers[chance(COUNT(numbers))];
    memcpy(&bits, &compared_with, sizeof bits);
    operator_ = (uint8_t)chance(6);
    due.type.kind = (hv_kind){HV_BOOL, 1, 0, 0};
    work_parts(&asked, &asked, compare_floats, &due);
    CHECK(!hv_float_compare(&left, operator_, bits, 1, &mask, &error));
    check_parts(&mask, &due);
    CHECK(!hv_with_type(&left, (const uint8_t *)"g", 1, &made, &error));
    const hv_value value = {bits, 0, HV_DOUBLE, 0, 0};
    CHECK(!hv_compare_number(&made, operator_, &value, &mask, &error));
    check_parts(&mask, &due);
}

static void check_bytes(void) {
    uint8_t bytes[4096];
    size_t size = 0;
    do random_parts(&asked, &left);
    while (asked.type.kind.number == HV_LIST);
    CHECK(!hv_write_size(&left, &size, &error) && size <= sizeof bytes);
    CHECK(!hv_write(&left, bytes, sizeof bytes, &size, &error) && !hv_read_column(bytes, size, &made, &error));
    CHECK(hv_form(&made) == hv_form(&left));
    check_parts(&made, &asked);
}

int main(void) {
    hv_session_initial(&session);
    for (int turn = 0; turn < TURNS; turn++) {
        check_numbers();
        check_masks();
        check_same();
        check_sums();
        check_counts();
        check_groups();
        check_places();
        check_floats();
        check_bytes();
    }
    hv_column *const all[] = {&left, &right, &mask, &made, &second};
    for (size_t i = 0; i < COUNT(all); i++) hv_free(all[i]);
    printf("%d times answers about columns of 2^40 rows as their stretches have them\n", TURNS);
    return 0;
}
