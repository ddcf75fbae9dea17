/* What columns add to a sum, against a loop over their rows in 128 bits, and the sums of joined parts. */
#include "check.h"

enum { MOST = 60, TRIALS = 400 };

__extension__ typedef __int128 wide;
__extension__ typedef unsigned __int128 unsigned_wide;

static hv_session session;
static hv_error error;

typedef struct parts {
    wide total, least, greatest;
} parts;

static uint64_t next(void) {
    static uint64_t seed = 23;
    seed = seed * 6364136223846793005u + 1442695040888963407u;
    return seed >> 33;
}

/* rows that often repeat the one before, some of them as far from 0 as there are, and some null */
static size_t random_rows(int64_t *rows, uint8_t *bits) {
    const size_t count = (size_t)(next() % MOST);
    bool valid = true;
    for (size_t i = 0; i < count; i++) {
        if (!i || next() % 3 == 0) {
            const int64_t far = next() % 2 ? INT64_MAX : INT64_MIN;
            rows[i] = next() % 2 ? far : (int64_t)(next() % 9) - 4;
            valid = next() % 4 > 0;
        } else {
            rows[i] = rows[i - 1];
        }
        bits[i / 8] = (uint8_t)((i % 8 ? bits[i / 8] : 0) | (valid << (i % 8)));
    }
    return count;
}

static parts parts_of_rows(const int64_t *rows, const uint8_t *bits, size_t start, size_t stop) {
    parts found = {0, 0, 0};
    for (size_t i = start; i < stop; i++) {
        if (!(bits[i / 8] >> (i % 8) & 1)) continue;
        found.total += rows[i];
        if (found.total < found.least) found.least = found.total;
        if (found.total > found.greatest) found.greatest = found.total;
    }
    return found;
}

static size_t nulls_of_rows(const uint8_t *bits, size_t start, size_t stop) {
    size_t nulls = 0;
    for (size_t i = start; i < stop; i++) nulls += !(bits[i / 8] >> (i % 8) & 1);
    return nulls;
}

static wide number_of(hv_pair pair) { return (wide)(((unsigned_wide)(uint64_t)pair.high << 64) | pair.low); }

static bool are_same(parts left, parts right) {
    return left.total == right.total && left.least == right.least && left.greatest == right.greatest;
}

static parts parts_of(const hv_column *column) {
    hv_pair total, least, greatest;
    CHECK(!hv_sum_parts(column, &total, &least, &greatest, &error));
    return (parts){number_of(total), number_of(least), number_of(greatest)};
}

/* The three numbers of two parts, one after the other. */
static parts joined(parts left, parts right) {
    const wide least = left.total + right.least, greatest = left.total + right.greatest;
    return (parts){left.total + right.total, least < left.least ? least : left.least,
                   greatest > left.greatest ? greatest : left.greatest};
}

static void check_trial(void) {
    int64_t rows[MOST + 1];
    uint8_t bits[MOST / 8 + 1] = {0};
    hv_column flat = HV_EMPTY, runs = HV_EMPTY, before = HV_EMPTY, after = HV_EMPTY;
    hv_total total;
    const size_t count = random_rows(rows, bits), cut = (size_t)next() % (count + 1);
    const parts due = parts_of_rows(rows, bits, 0, count);
    CHECK(!hv_i64(rows, count, NULLS_BY(bits, 0), &flat, &error) && !hv_encode(&session, &flat, &runs, &error));
    CHECK(are_same(parts_of(&flat), due) && are_same(parts_of(&runs), due));
    CHECK(!hv_slice(&session, &runs, 0, cut, &before, &error) && !hv_slice(&session, &runs, cut, count, &after, &error));
    CHECK(are_same(parts_of(&after), parts_of_rows(rows, bits, cut, count)));
    CHECK(are_same(joined(parts_of(&before), parts_of(&after)), due));
    CHECK(hv_null_count(&flat) == nulls_of_rows(bits, 0, count) && hv_null_count(&runs) == hv_null_count(&flat));
    CHECK(hv_null_count(&after) == nulls_of_rows(bits, cut, count));
    CHECK(!hv_sum(&session, &runs, &total, &error));
    CHECK((total.kind != HV_NULL) == (due.least >= INT64_MIN && due.greatest <= INT64_MAX));
    CHECK(total.kind == HV_NULL || total.as_signed == due.total);
    hv_free(&flat), hv_free(&runs), hv_free(&before), hv_free(&after);
}

/* Constants of as many rows as there can be, of the numbers furthest from 0. */
static void check_constants(void) {
    const hv_kind wide_kind = {HV_U64, 0, 0, 0}, signed_kind = {HV_I64, 0, 0, 0};
    const hv_value most = {.kind = HV_UNSIGNED, .as_unsigned = UINT64_MAX};
    const hv_value least = {.kind = HV_SIGNED, .as_signed = INT64_MIN};
    hv_column column = HV_EMPTY;
    CHECK(!hv_constant(&wide_kind, &most, NO_TEXT, SIZE_MAX, &column, &error));
    const unsigned_wide due = (unsigned_wide)UINT64_MAX * SIZE_MAX;
    CHECK(are_same(parts_of(&column), (parts){(wide)due, 0, (wide)due}));
    CHECK(!hv_constant(&signed_kind, &least, NO_TEXT, SIZE_MAX, &column, &error));
    const wide low = (wide)INT64_MIN * (wide)SIZE_MAX;
    CHECK(are_same(parts_of(&column), (parts){low, low, 0}) && hv_null_count(&column) == 0);
    const hv_value null = {.kind = HV_NULL};
    const hv_kind nullable = {HV_I64, 1, 0, 0};
    CHECK(!hv_constant(&nullable, &null, NO_TEXT, SIZE_MAX, &column, &error) && hv_null_count(&column) == SIZE_MAX);
    CHECK(are_same(parts_of(&column), (parts){0, 0, 0}));
    hv_free(&column);
}

/* Rows that are not integers are refused, and an empty handle is; nothing is written. */
static void check_refusals(void) {
    const uint8_t truths[1] = {1};
    hv_column flags = HV_EMPTY, none = HV_EMPTY;
    hv_pair total = {1, 2}, least = {3, 4}, greatest = {5, 6};
    CHECK(!hv_bools(truths, 1, 0, 1, NOT_NULLABLE, &flags, &error));
    CHECK_REFUSED(hv_sum_parts(&flags, &total, &least, &greatest, &error), HV_UNSUPPORTED, 0, 0, 0);
    CHECK(hv_null_count(&flags) == 0 && hv_null_count(&none) == 0);
    CHECK(hv_sum_parts(&none, &total, &least, &greatest, NULL) == HV_NO_COLUMN);
    CHECK(total.low == 1 && total.high == 2 && least.low == 3 && least.high == 4);
    CHECK(greatest.low == 5 && greatest.high == 6);
    hv_free(&flags);
}

int main(void) {
    hv_session_initial(&session);
    for (int i = 0; i < TRIALS; i++) check_trial();
    check_constants();
    check_refusals();
    printf("%d columns add to a sum what a loop over the rows adds\n", TRIALS);
    return 0;
}
