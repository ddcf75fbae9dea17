/* Running totals at the ends of runs, against a loop over the rows in 128 bits, and each refusal. */
#include "check.h"

enum { MOST = 60, TRIALS = 600 };

__extension__ typedef __int128 wide;

static hv_session session;
static hv_error error;
static hv_column ends = HV_EMPTY, totals = HV_EMPTY;

/* Rows of a number, null where its flag is not set; what is stored there is -77. */
typedef struct rows {
    size_t count;
    int64_t numbers[MOST];
    bool valid[MOST];
} rows;

static uint64_t next(void) {
    static uint64_t seed = 31;
    seed = seed * 6364136223846793005u + 1442695040888963407u;
    return seed >> 33;
}

/* rows that often repeat the one before, a few of them as far from 0 as there are */
static rows random_rows(void) {
    rows it = {.count = (size_t)(next() % MOST)};
    const bool has_large = next() % 3 == 0;
    for (size_t row = 0; row < it.count; row++) {
        const bool is_new = !row || next() % 3 == 0;
        const int64_t far = next() % 2 ? INT64_MAX : INT64_MIN;
        it.valid[row] = is_new ? next() % 4 > 0 : it.valid[row - 1];
        if (!it.valid[row]) it.numbers[row] = -77;
        else if (!is_new) it.numbers[row] = it.numbers[row - 1];
        else it.numbers[row] = has_large && next() % 4 == 0 ? far : (int64_t)(next() % 2000) - 1000;
    }
    return it;
}

/* The column of these rows, flat, in runs, or as a window of runs that have other rows next to it. */
static hv_column column_of(const rows *it, uint64_t form) {
    uint8_t bits[MOST / 8 + 2] = {0};
    int64_t numbers[MOST + 2] = {5};
    hv_column flat = HV_EMPTY, runs = HV_EMPTY, part = HV_EMPTY;
    memcpy(numbers + 1, it->numbers, it->count * sizeof *numbers);
    numbers[it->count + 1] = 5;
    bits[0] = 1;
    for (size_t i = 0; i <= it->count; i++) {
        const bool valid = i == it->count || it->valid[i];
        bits[(i + 1) / 8] = (uint8_t)(bits[(i + 1) / 8] | (valid << ((i + 1) % 8)));
    }
    CHECK(!hv_i64(numbers, it->count + 2, NULLS_BY(bits, 0), &flat, &error));
    if (form > 0) CHECK(!hv_encode(&session, &flat, &runs, &error));
    CHECK(!hv_slice(&session, form > 0 ? &runs : &flat, 1, it->count + 1, &part, &error));
    hv_free(&flat);
    hv_free(&runs);
    return part;
}

static bool is_last_of_run(const rows *it, size_t row) {
    if (row + 1 == it->count) return true;
    if (it->valid[row] != it->valid[row + 1]) return true;
    return it->valid[row] && it->numbers[row] != it->numbers[row + 1];
}

static bool fits(wide total) { return total >= INT64_MIN && total <= INT64_MAX; }

/* What is due of some rows: as text, up to the first run whose total does not fit 64 bits. */
typedef struct due {
    char ends[4096], totals[4096];
    size_t runs;
    bool fits;
} due;

static due due_of(const rows *it) {
    due found = {.fits = true};
    size_t ends_used = 0, used = 0;
    wide total = 0;
    bool some = false;
    for (size_t row = 0; row < it->count; row++) {
        if (it->valid[row]) total += it->numbers[row], some = true;
        if (!is_last_of_run(it, row)) continue;
        found.fits = fits(total);
        if (!found.fits) return found;
        const char *blank = found.runs ? " " : "";
        ends_used += (size_t)snprintf(found.ends + ends_used, sizeof found.ends - ends_used, "%s%zu", blank, row + 1);
        used += some ? (size_t)snprintf(found.totals + used, sizeof found.totals - used, "%s%" PRId64, blank, (int64_t)total)
                     : (size_t)snprintf(found.totals + used, sizeof found.totals - used, "%snull", blank);
        found.runs++;
    }
    return found;
}

/* Whether the totals overflow. */
static bool check_trial(void) {
    const rows it = random_rows();
    const due wanted = due_of(&it);
    hv_column column = column_of(&it, next() % 2), column_again = HV_EMPTY;
    CHECK(!hv_clone(&column, &column_again, &error));
    if (wanted.fits) {
        CHECK(!hv_running_totals(&column, &ends, &totals, &error));
        CHECK_ROWS(&ends, wanted.ends);
        CHECK_ROWS(&totals, wanted.totals);
        CHECK(hv_kind_of(&ends).number == HV_U8 && !hv_kind_of(&ends).nullable && hv_form(&ends) == FORM_FLAT);
        const hv_kind kind = hv_kind_of(&totals);
        CHECK(kind.number == HV_I64 && kind.nullable == 1 && hv_form(&totals) == FORM_FLAT);
    } else {
        CHECK_REFUSED(hv_running_totals(&column, &ends, &totals, &error), HV_CAST_OUT_OF_RANGE, wanted.runs, 0, 0);
    }
    uint8_t same = 0;
    CHECK(!hv_equals(&column, &column_again, &same, &error) && same);
    hv_free(&column);
    hv_free(&column_again);
    return !wanted.fits;
}

/* The total before each row, from the two columns, as the header says it. */
static void check_rows_between(void) {
    const int16_t numbers[7] = {4, 4, 4, -9, 0, 0, 2};
    const int64_t before[7] = {4, 8, 12, 3, 3, 3, 5}; /* up to each row, and with it */
    hv_column column = HV_EMPTY, runs = HV_EMPTY;
    CHECK(!hv_i16(numbers, 7, NOT_NULLABLE, &column, &error) && !hv_encode(&session, &column, &runs, &error));
    CHECK(!hv_running_totals(&column, &ends, &totals, &error));
    for (size_t row = 0; row < 7; row++) {
        size_t run = 0;
        hv_value end, total;
        CHECK(!hv_run_of(&runs, row, &run, &error));
        CHECK(!hv_at(&ends, run, &end, NO_TEXT_ROOM, &error) && !hv_at(&totals, run, &total, NO_TEXT_ROOM, &error));
        CHECK(total.as_signed - (int64_t)(end.as_unsigned - 1 - row) * numbers[row] == before[row]);
    }
    hv_free(&column);
    hv_free(&runs);
}

/* Types: totals are wide, and the ends are of the least type that has the number of rows. */
static void check_types(void) {
    const uint8_t small[3] = {250, 250, 7};
    hv_column column = HV_EMPTY;
    const hv_value value = {.kind = HV_UNSIGNED, .as_unsigned = 7};
    const hv_kind u8 = {HV_U8, 0, 0, 0};
    CHECK(!hv_u8(small, 3, NOT_NULLABLE, &column, &error));
    CHECK(!hv_running_totals(&column, &ends, &totals, &error));
    CHECK_ROWS(&ends, "2 3");
    CHECK_ROWS(&totals, "500 507");
    CHECK(hv_kind_of(&totals).number == HV_U64 && hv_kind_of(&totals).nullable == 1);
    CHECK(!hv_constant(&u8, &value, NO_TEXT, (size_t)1 << 60, &column, &error));
    CHECK(!hv_running_totals(&column, &ends, &totals, &error));
    CHECK_ROWS(&ends, "1152921504606846976");
    CHECK_ROWS(&totals, "8070450532247928832");
    CHECK(hv_kind_of(&ends).number == HV_U64);
    CHECK(!hv_constant(&u8, &value, NO_TEXT, 300, &column, &error));
    CHECK(!hv_running_totals(&column, &ends, &totals, &error) && hv_kind_of(&ends).number == HV_U16);
    CHECK(!hv_constant(&u8, &value, NO_TEXT, (size_t)1 << 62, &column, &error));
    CHECK_REFUSED(hv_running_totals(&column, &ends, &totals, &error), HV_CAST_OUT_OF_RANGE, 0, 0, 0);
    CHECK_ROWS(&ends, "300");
    CHECK_ROWS(&totals, "2100");
    hv_free(&column);
}

/* A call is refused with these fields, and leaves both handles. */
static void check_kept(const hv_column *column, int32_t number, uint64_t run) {
    CHECK_REFUSED(hv_running_totals(column, &ends, &totals, &error), number, run, 0, 0);
    CHECK_ROWS(&ends, "2");
    CHECK_ROWS(&totals, "8");
}

static void check_refusals(void) {
    const uint8_t four[2] = {4, 4}, truths[1] = {1};
    const uint64_t large[4] = {1, 2, UINT64_MAX - 3, 1}, ones[2] = {0, 1}, sizes[2] = {1, 1};
    const int32_t offsets[3] = {0, 1, 2};
    hv_column fours = HV_EMPTY, lists = HV_EMPTY, texts = HV_EMPTY, booleans = HV_EMPTY, past = HV_EMPTY;
    hv_column none = HV_EMPTY, empty = HV_EMPTY;
    CHECK(!hv_u8(four, 2, NOT_NULLABLE, &fours, &error) && !hv_u64(large, 4, NOT_NULLABLE, &past, &error));
    CHECK(!hv_texts(0, offsets, 3, (const uint8_t *)"ab", 2, NOT_NULLABLE, &texts, &error));
    CHECK(!hv_lists(&fours, ones, 2, sizes, 2, NOT_NULLABLE, &lists, &error));
    CHECK(!hv_bools(truths, 1, 0, 2, NOT_NULLABLE, &booleans, &error));
    CHECK(!hv_running_totals(&fours, &ends, &totals, &error));

    FILL(error);
    CHECK(hv_running_totals(&none, &ends, &totals, &error) == HV_NO_COLUMN);
    check_kept(&lists, HV_UNSUPPORTED, 0);
    check_kept(&texts, HV_UNSUPPORTED, 0);
    check_kept(&booleans, HV_UNSUPPORTED, 0);
    check_kept(&past, HV_CAST_OUT_OF_RANGE, 3);
    CHECK(hv_running_totals(&past, &ends, &totals, NULL) == HV_CAST_OUT_OF_RANGE);
    CHECK(!hv_u8(NULL, 0, NOT_NULLABLE, &empty, &error) && !hv_running_totals(&empty, &ends, &totals, NULL));
    CHECK(hv_length(&ends) == 0 && hv_length(&totals) == 0 && hv_kind_of(&totals).number == HV_U64);

    hv_column *const all[] = {&fours, &lists, &texts, &booleans, &past, &empty};
    for (size_t i = 0; i < COUNT(all); i++) hv_free(all[i]);
}

int main(void) {
    int refused = 0;
    hv_session_initial(&session);
    for (int i = 0; i < TRIALS; i++) refused += check_trial();
    CHECK(refused > 0 && refused < TRIALS);
    check_rows_between();
    check_types();
    check_refusals();
    hv_free(&ends);
    hv_free(&totals);
    printf("running totals of %d columns as a loop over the rows has them, %d of them past 64 bits\n", TRIALS, refused);
    return 0;
}
