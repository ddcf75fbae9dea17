/* Masks, indices and windows of rows in any form, and the runs of a column, against plain arrays of rows: the same rows
 * lie flat, as runs, as runs over runs, and as a window over longer runs. */
#include "check.h"

static hv_session session;
static hv_error error;

/* ---- Random rows, in stretches ---- */

enum { MOST = 200 };
typedef struct rows {
    size_t len;
    int64_t number[MOST]; /* 0 under null */
    bool valid[MOST];
} rows;

static uint64_t state = 88172645463325252u;

static size_t below(size_t bound) {
    state ^= state << 13, state ^= state >> 7, state ^= state << 17;
    return (size_t)(state % bound);
}

static rows random_rows(size_t len, int64_t numbers) {
    rows made = {.len = len};
    for (size_t row = 0; row < len; row++) {
        bool same = row > 0 && below(4) > 0;
        made.valid[row] = same ? made.valid[row - 1] : below(5) > 0;
        made.number[row] = same ? made.number[row - 1] : made.valid[row] ? (int64_t)below((size_t)numbers) : 0;
    }
    return made;
}

static bool same_row(const rows *of, size_t a, size_t b) {
    return of->valid[a] == of->valid[b] && of->number[a] == of->number[b];
}

/* ---- The same rows in each form ---- */

enum { FLAT, RUNS, NESTED, WINDOW, FORMS };

static void put_bit(uint8_t *bits, size_t at, bool bit) { bits[at / 8] = (uint8_t)(bits[at / 8] | bit << at % 8); }

static void make_flat(const rows *of, hv_column *out) {
    uint8_t bits[MOST / 8] = {0};
    for (size_t row = 0; row < of->len; row++) put_bit(bits, row, of->valid[row]);
    CHECK(!hv_i64(of->number, of->len, NULLS_BY(bits, 0), out, &error));
}

static void make_truths(const rows *of, hv_column *out) {
    uint8_t bits[MOST / 8] = {0}, truths[MOST / 8] = {0};
    for (size_t row = 0; row < of->len; row++) {
        put_bit(bits, row, of->valid[row]);
        put_bit(truths, row, of->number[row] & 1);
    }
    CHECK(!hv_bools(truths, sizeof truths, 0, of->len, NULLS_BY(bits, 0), out, &error));
}

/* row `row` is its number in decimal digits, and null has no bytes */
static size_t make_text(const rows *of, size_t row, char *to) {
    return of->valid[row] ? (size_t)sprintf(to, "%" PRId64, of->number[row]) : 0;
}

static void make_texts(const rows *of, hv_column *out) {
    uint8_t bits[MOST / 8] = {0};
    int32_t offsets[MOST + 1] = {0};
    char letters[MOST * 24];
    for (size_t row = 0; row < of->len; row++) {
        put_bit(bits, row, of->valid[row]);
        offsets[row + 1] = offsets[row] + (int32_t)make_text(of, row, letters + offsets[row]);
    }
    CHECK(!hv_texts(0, offsets, of->len + 1, (const uint8_t *)letters, (size_t)offsets[of->len], NULLS_BY(bits, 0), out, &error));
}

static void make_decimals(const rows *of, hv_column *out) {
    uint8_t bits[MOST / 8] = {0};
    hv_pair pairs[MOST];
    for (size_t row = 0; row < of->len; row++) {
        put_bit(bits, row, of->valid[row]);
        pairs[row] = (hv_pair){(uint64_t)of->number[row], -of->number[row]};
    }
    CHECK(!hv_decimals(pairs, of->len, 20, 2, NULLS_BY(bits, 0), out, &error));
}

/* The runs with these ends over `values`, of which `count` rows from row `offset` on are shown. */
static void make_runs(hv_column *values, const uint32_t *ends, size_t runs, size_t offset, size_t count, hv_column *out) {
    hv_column flat = HV_EMPTY;
    CHECK(!hv_u32(ends, runs, NOT_NULLABLE, &flat, &error));
    CHECK(!hv_runs(&flat, values, offset, count, out, &error));
    hv_free(&flat);
}

typedef void maker(const rows *, hv_column *);

/* the rows in this form: runs have one value for each row but where rows are equal */
static void make(maker *flat, const rows *of, int form, hv_column *out) {
    uint32_t ends[MOST + 1];
    size_t runs = 0, ahead = form == WINDOW ? 3 : 0;
    hv_column values = HV_EMPTY, inner = HV_EMPTY;
    rows kept = {0};
    if (form == FLAT) {
        flat(of, out);
        return;
    }
    for (size_t row = 0; row < of->len; row++) {
        if (runs && same_row(of, row - 1, row) && form != NESTED) {
            ends[runs - 1]++;
            continue;
        }
        kept.number[kept.len] = of->number[row], kept.valid[kept.len++] = of->valid[row];
        ends[runs++] = (uint32_t)(ahead + row + 1);
    }
    if (form == WINDOW) { /* a run more that no row shows */
        kept.number[kept.len] = 77, kept.valid[kept.len++] = true;
        ends[runs] = (uint32_t)(ahead + of->len + 9), runs++;
    }
    if (form == NESTED) { /* a run for each row, over values that are runs */
        make(flat, &kept, RUNS, &inner);
        make_runs(&inner, ends, runs, 0, of->len, out);
    } else {
        flat(&kept, &values);
        make_runs(&values, ends, runs, ahead, of->len, out);
    }
    hv_free(&values), hv_free(&inner);
}

/* ---- Windows ---- */

static void check_numbers(hv_column *column, const rows *of, size_t start, size_t len) {
    int64_t items[MOST];
    FILL(items), FILL(error);
    CHECK(!hv_read_i64(column, start, items, len, &error));
    for (size_t k = 0; k < len; k++) CHECK(!of->valid[start + k] || items[k] == of->number[start + k]);
}

static void check_bits(hv_column *numbers, hv_column *truths, const rows *of, size_t start, size_t len) {
    uint64_t valid[MOST / 64 + 1], bits[MOST / 64 + 1];
    FILL(valid), FILL(bits), FILL(error);
    CHECK(!hv_read_validity_from(numbers, start, len, valid, (len + 63) / 64, &error));
    CHECK(!hv_read_bools_from(truths, start, len, bits, (len + 63) / 64, &error));
    for (size_t k = 0; k < len; k++) {
        CHECK((valid[k / 64] >> k % 64 & 1) == of->valid[start + k]);
        CHECK(!of->valid[start + k] || (bits[k / 64] >> k % 64 & 1) == (uint64_t)(of->number[start + k] & 1));
    }
    for (size_t k = len; k % 64; k++) CHECK(!(valid[k / 64] >> k % 64 & 1) && !(bits[k / 64] >> k % 64 & 1));
}

static void check_decimals(hv_column *column, const rows *of, size_t start, size_t len) {
    hv_pair pairs[MOST];
    FILL(pairs), FILL(error);
    CHECK(!hv_read_decimals(column, start, pairs, len, &error));
    for (size_t k = 0; k < len; k++)
        CHECK(!of->valid[start + k] || (pairs[k].low == (uint64_t)of->number[start + k] && pairs[k].high == -of->number[start + k]));
}

static void check_texts(hv_column *column, const rows *of, size_t start, size_t len) {
    int32_t offsets[MOST + 1];
    int64_t large[MOST + 1];
    char wanted[MOST * 24];
    uint8_t found[MOST * 24];
    size_t used = 0;
    FILL(offsets), FILL(large), FILL(found), FILL(error);
    CHECK(!hv_read_offsets(column, start, offsets, len + 1, &error) && offsets[0] == 0);
    CHECK(!hv_read_large_offsets(column, start, large, len + 1, &error) && large[0] == 0);
    for (size_t k = 0; k < len; k++) {
        used += make_text(of, start + k, wanted + used);
        CHECK(offsets[k + 1] == (int32_t)used && large[k + 1] == (int64_t)used);
    }
    CHECK(!hv_read_bytes(column, start, len, found, used, &error) && !memcmp(found, wanted, used));
    CHECK_REFUSED(hv_read_bytes(column, start, len, found, used + 1, &error), HV_COLUMN_LENGTH, used, used + 1, 0);
}

static void check_windows(const rows *of, int form) {
    hv_column numbers = HV_EMPTY, truths = HV_EMPTY, texts = HV_EMPTY, decimals = HV_EMPTY;
    make(make_flat, of, form, &numbers), make(make_truths, of, form, &truths);
    make(make_texts, of, form, &texts), make(make_decimals, of, form, &decimals);
    for (int time = 0; time < 6; time++) {
        size_t start = below(of->len + 1), len = below(of->len - start + 1);
        check_numbers(&numbers, of, start, len), check_bits(&numbers, &truths, of, start, len);
        check_decimals(&decimals, of, start, len), check_texts(&texts, of, start, len);
    }
    hv_column *all[] = {&numbers, &truths, &texts, &decimals};
    for (size_t i = 0; i < COUNT(all); i++) hv_free(all[i]);
}

/* ---- What commands leave ---- */

static size_t least_seen;

/* a run column of whole numbers that a command leaves has one run for each stretch of equal rows, from row 0 on */
static void check_least(hv_column *column, const rows *of) {
    size_t stretches = of->len > 0, runs = 0;
    if (hv_form(column) != HV_FORM_RUNS) return;
    for (size_t row = 1; row < of->len; row++) stretches += !same_row(of, row - 1, row);
    CHECK(!hv_run_count(column, &runs, &error) && runs == stretches && hv_offset(column) == 0);
    least_seen++;
}

static void check_casts_and_fills(const rows *of, int form) {
    const hv_kind narrow = {HV_I32, 1, 0, 0};
    const hv_value seven = {.kind = HV_SIGNED, .as_signed = 7};
    hv_column column = HV_EMPTY, out = HV_EMPTY;
    rows filled = *of;
    make(make_flat, of, form, &column);
    CHECK(!hv_cast(&session, &column, &narrow, &out, &error) && hv_kind_of(&out).number == HV_I32);
    check_least(&out, of);
    for (size_t row = 0; row < of->len; row++)
        if (!of->valid[row]) filled.valid[row] = true, filled.number[row] = 7;
    CHECK(!hv_fill(&session, &column, &seven, NO_TEXT, &out, &error) && hv_kind_of(&out).nullable == 0);
    check_least(&out, &filled);
    hv_free(&column), hv_free(&out);
}

/* ---- Masks and indices ---- */

static void check_filter(const rows *of, const rows *mask, int form, int mask_form) {
    hv_column column = HV_EMPTY, selects = HV_EMPTY, out = HV_EMPTY, wanted = HV_EMPTY;
    rows kept = {0};
    make(make_flat, of, form, &column), make(make_truths, mask, mask_form, &selects);
    for (size_t row = 0; row < of->len; row++)
        if (mask->valid[row] && mask->number[row] & 1)
            kept.number[kept.len] = of->number[row], kept.valid[kept.len++] = of->valid[row];
    FILL(error);
    CHECK(!hv_filter(&session, &column, &selects, &out, &error));
    make_flat(&kept, &wanted), check_least(&out, &kept);
    char text[1 << 13];
    CHECK(strlen(rows_of(&wanted)) < sizeof text), strcpy(text, rows_of(&wanted));
    CHECK_ROWS(&out, text);
    hv_free(&column), hv_free(&selects), hv_free(&out), hv_free(&wanted);
}

static void check_take(const rows *of, const rows *indices, int form, int index_form) {
    hv_column column = HV_EMPTY, places = HV_EMPTY, out = HV_EMPTY, wanted = HV_EMPTY;
    rows taken = {.len = indices->len};
    make(make_flat, of, form, &column), make(make_flat, indices, index_form, &places);
    for (size_t k = 0; k < indices->len; k++) {
        size_t row = (size_t)indices->number[k];
        taken.valid[k] = indices->valid[k] && of->valid[row];
        taken.number[k] = taken.valid[k] ? of->number[row] : 0;
    }
    FILL(error);
    CHECK(!hv_take(&session, &column, &places, &out, &error));
    make_flat(&taken, &wanted), check_least(&out, &taken);
    char text[1 << 13];
    CHECK(strlen(rows_of(&wanted)) < sizeof text), strcpy(text, rows_of(&wanted));
    CHECK_ROWS(&out, text);
    hv_free(&column), hv_free(&places), hv_free(&out), hv_free(&wanted);
}

/* a mask and indices that are constants take memory for one value */
static void check_constants(void) {
    const hv_kind truth = {HV_BOOL, 1, 0, 0}, index = {HV_U8, 1, 0, 0}, text = {HV_UTF8, 0, 0, 0};
    const hv_value yes = {.kind = HV_TRUTH, .truth = 7}, no = {.kind = HV_TRUTH}, two = {.kind = HV_UNSIGNED, .as_unsigned = 2};
    const hv_value null = {.kind = HV_NULL}, large = {.kind = HV_UNSIGNED, .as_unsigned = 256}, string = {.kind = HV_TEXT};
    const int64_t items[3] = {5, 6, 7};
    hv_column column = HV_EMPTY, other = HV_EMPTY, out = HV_EMPTY;
    CHECK(!hv_i64(items, 3, NOT_NULLABLE, &column, &error));
    CHECK(!hv_constant(&truth, &yes, NO_TEXT, 3, &other, &error) && hv_form(&other) == HV_FORM_CONSTANT);
    CHECK_ROWS(&other, "true true true");
    CHECK(!hv_filter(&session, &column, &other, &out, &error));
    CHECK_ROWS(&out, "5 6 7");
    CHECK(!hv_constant(&truth, &no, NO_TEXT, 3, &other, &error) && !hv_filter(&session, &column, &other, &out, &error));
    CHECK_ROWS(&out, "");
    CHECK(!hv_constant(&truth, &null, NO_TEXT, 3, &other, &error) && !hv_filter(&session, &column, &other, &out, &error));
    CHECK_ROWS(&out, "");
    CHECK(!hv_constant(&index, &two, NO_TEXT, 2, &other, &error) && !hv_take(&session, &column, &other, &out, &error));
    CHECK_ROWS(&out, "7 7");
    CHECK(!hv_constant(&index, &null, NO_TEXT, 2, &other, &error) && !hv_take(&session, &column, &other, &out, &error));
    CHECK_ROWS(&out, "null null");
    CHECK(!hv_constant(&truth, &yes, NO_TEXT, (size_t)1 << 60, &other, &error) && hv_length(&other) == (size_t)1 << 60);
    CHECK_REFUSED(hv_filter(&session, &column, &other, &out, &error), HV_MASK_LENGTH, UINT64_C(1) << 60, 3, 0);
    CHECK_ROWS(&out, "null null");
    CHECK(!hv_constant(&text, &string, (const uint8_t *)"ab", 2, 2, &other, &error));
    CHECK_ROWS(&other, "\"ab\" \"ab\"");
    CHECK_REFUSED(hv_filter(&session, &column, &other, &out, &error), HV_TYPE_MISMATCH, 0, 0, 0);
    CHECK_REFUSED(hv_take(&session, &column, &other, &out, &error), HV_TYPE_MISMATCH, 0, 0, 0);
    CHECK_REFUSED(hv_constant(&text, &null, NO_TEXT, 1, &out, &error), HV_NULL_NOT_ALLOWED, 0, 0, 0);
    CHECK_REFUSED(hv_constant(&text, &two, NO_TEXT, 1, &out, &error), HV_TYPE_MISMATCH, 0, 0, 0);
    CHECK_REFUSED(hv_constant(&text, &string, (const uint8_t *)"\xff", 1, 1, &out, &error), HV_TYPE_MISMATCH, 0, 0, 0);
    CHECK_REFUSED(hv_constant(&index, &large, NO_TEXT, 1, &out, &error), HV_TYPE_MISMATCH, 0, 0, 0);
    CHECK(hv_constant(&(hv_kind){HV_LIST, 1, 0, 0}, &null, NO_TEXT, 1, &out, &error) == HV_BAD_NUMBER);
    CHECK_ROWS(&out, "null null");
    hv_free(&column), hv_free(&other), hv_free(&out);
}

/* ---- Runs ---- */

/* each run as the rows have it: `form` says which runs there are */
static void check_runs(const rows *of, int form) {
    hv_column column = HV_EMPTY;
    size_t count, start, stop, run, runs = 0, first[MOST + 2];
    hv_value value;
    uint64_t ends[MOST + 2];
    make(make_flat, of, form, &column);
    for (size_t row = 0; row < of->len; row++)
        if (row == 0 || form == NESTED || !same_row(of, row - 1, row)) first[runs++] = row;
    first[runs] = of->len;
    size_t hidden = form == WINDOW;
    FILL(count), FILL(error);
    CHECK(!hv_run_count(&column, &count, &error) && count == runs + hidden);
    CHECK(!hv_read_ends_u64(&column, 0, ends, count, &error));
    for (size_t k = 0; k < runs; k++) {
        FILL(start), FILL(stop), FILL(value), FILL(error);
        CHECK(!hv_run(&column, k, &start, &stop, &value, NO_TEXT_ROOM, &error));
        CHECK(start == first[k] && stop == first[k + 1] && ends[k] == stop);
        CHECK(of->valid[start] ? value.kind == HV_SIGNED && value.as_signed == of->number[start] : value.kind == HV_NULL);
        for (size_t row = start; row < stop; row++) CHECK(!hv_run_of(&column, row, &run, &error) && run == k);
        CHECK(!hv_read_ends_u64(&column, k, ends + k, 1, &error) && ends[k] == stop);
    }
    if (hidden) {
        CHECK(!hv_run(&column, runs, &start, &stop, &value, NO_TEXT_ROOM, &error));
        CHECK(start == of->len && stop == of->len && value.as_signed == 77 && ends[runs] == of->len);
    }
    CHECK_REFUSED(hv_run(&column, count, &start, &stop, &value, NO_TEXT_ROOM, &error), HV_OUT_OF_BOUNDS, count, count, 0);
    CHECK_REFUSED(hv_run_of(&column, of->len, &run, &error), HV_OUT_OF_BOUNDS, of->len, of->len, 0);
    CHECK_REFUSED(hv_read_ends_u64(&column, 1, ends, count, &error), HV_BAD_RANGE, 1, count + 1, count);
    CHECK_REFUSED(hv_read_ends_u64(&column, SIZE_MAX, ends, 1, &error), HV_BAD_RANGE, SIZE_MAX, UINT64_MAX, count);
    hv_free(&column);
}

/* what no run column is, and a text that has no room */
static void check_other_runs(void) {
    const int64_t items[2] = {5, 6};
    const int32_t offsets[3] = {0, 3, 3};
    const uint32_t ends[2] = {2, 5};
    hv_column flat = HV_EMPTY, texts = HV_EMPTY, runs = HV_EMPTY, none = HV_EMPTY;
    size_t count, start, stop;
    uint64_t stops[1];
    hv_value value;
    uint8_t text[3];
    CHECK(!hv_i64(items, 2, NOT_NULLABLE, &flat, &error));
    CHECK_REFUSED(hv_run_count(&flat, &count, &error), HV_UNSUPPORTED, 0, 0, 0);
    CHECK_REFUSED(hv_run(&flat, 0, &start, &stop, &value, text, 3, &error), HV_UNSUPPORTED, 0, 0, 0);
    CHECK_REFUSED(hv_run_of(&flat, 0, &start, &error), HV_UNSUPPORTED, 0, 0, 0);
    CHECK_REFUSED(hv_read_ends_u64(&flat, 0, stops, 1, &error), HV_UNSUPPORTED, 0, 0, 0);
    CHECK(!hv_texts(0, offsets, 3, (const uint8_t *)"abc", 3, NOT_NULLABLE, &texts, &error));
    make_runs(&texts, ends, 2, 1, 3, &runs);
    FILL(value), FILL(text);
    CHECK(!hv_run(&runs, 0, &start, &stop, &value, text, 3, &error) && start == 0 && stop == 1);
    CHECK(value.kind == HV_TEXT && value.as_unsigned == 3 && !memcmp(text, "abc", 3));
    CHECK_REFUSED(hv_run(&runs, 0, &start, &stop, &value, text, 2, &error), HV_COLUMN_LENGTH, 3, 2, 0);
    CHECK(!hv_run(&runs, 1, &start, &stop, &value, text, 0, &error) && start == 1 && stop == 3 && value.as_unsigned == 0);
    CHECK(hv_run_count(&none, &count, &error) == HV_NO_COLUMN && hv_run_of(&none, 0, &start, &error) == HV_NO_COLUMN);
    CHECK(hv_run(&none, 0, &start, &stop, &value, text, 3, &error) == HV_NO_COLUMN);
    CHECK(hv_read_ends_u64(&none, 0, stops, 1, &error) == HV_NO_COLUMN);
    hv_free(&flat), hv_free(&texts), hv_free(&runs);
}

/* ---- The least and the greatest row ---- */

static void check_extremes(const rows *of, int form) {
    hv_column column = HV_EMPTY;
    hv_value least, greatest;
    int64_t low = INT64_MAX, high = INT64_MIN;
    make(make_flat, of, form, &column);
    for (size_t row = 0; row < of->len; row++) {
        if (!of->valid[row]) continue;
        low = of->number[row] < low ? of->number[row] : low;
        high = of->number[row] > high ? of->number[row] : high;
    }
    FILL(least), FILL(greatest), FILL(error);
    CHECK(!hv_min_max(&session, &column, &least, NO_TEXT_ROOM, &greatest, NO_TEXT_ROOM, &error));
    if (low > high) CHECK(least.kind == HV_NULL && greatest.kind == HV_NULL);
    else CHECK(least.kind == HV_SIGNED && least.as_signed == low && greatest.kind == HV_SIGNED && greatest.as_signed == high);
    hv_free(&column);
}

static void check_text_extremes(void) {
    const int32_t offsets[4] = {0, 2, 5, 6};
    hv_column texts = HV_EMPTY, none = HV_EMPTY;
    hv_value least, greatest;
    uint8_t low[3], high[3];
    CHECK(!hv_texts(0, offsets, 4, (const uint8_t *)"bbcccb", 6, NOT_NULLABLE, &texts, &error));
    FILL(least), FILL(greatest), FILL(low), FILL(high);
    CHECK(!hv_min_max(&session, &texts, &least, low, 1, &greatest, high, 3, &error));
    CHECK(least.kind == HV_TEXT && least.as_unsigned == 1 && low[0] == 'b');
    CHECK(greatest.kind == HV_TEXT && greatest.as_unsigned == 3 && !memcmp(high, "ccc", 3));
    CHECK_REFUSED(hv_min_max(&session, &texts, &least, low, 0, &greatest, high, 3, &error), HV_COLUMN_LENGTH, 1, 0, 0);
    CHECK_REFUSED(hv_min_max(&session, &texts, &least, low, 1, &greatest, high, 2, &error), HV_COLUMN_LENGTH, 3, 2, 0);
    CHECK_REFUSED(hv_min_max(&session, &texts, &least, low, 0, &greatest, high, 2, &error), HV_COLUMN_LENGTH, 1, 0, 0);
    CHECK(hv_min_max(&session, &none, &least, low, 1, &greatest, high, 3, &error) == HV_NO_COLUMN);
    hv_free(&texts);
}

/* ---- Reads of other types, and past the end ---- */

static void check_refusals(int form) {
    rows five = random_rows(5, 9);
    hv_column numbers = HV_EMPTY, texts = HV_EMPTY, truths = HV_EMPTY, none = HV_EMPTY;
    int64_t items[5];
    int32_t narrow[5];
    hv_pair pairs[2];
    uint64_t words[2];
    uint8_t bytes[1];
    make(make_flat, &five, form, &numbers), make(make_texts, &five, form, &texts), make(make_truths, &five, form, &truths);
    CHECK_REFUSED(hv_read_i64(&texts, 9, items, 1, &error), HV_UNSUPPORTED, 0, 0, 0);
    CHECK_REFUSED(hv_read_i32(&numbers, 9, narrow, 1, &error), HV_TYPE_MISMATCH, 0, 0, 0);
    CHECK_REFUSED(hv_read_i64(&numbers, 3, items, 3, &error), HV_BAD_RANGE, 3, 6, 5);
    CHECK_REFUSED(hv_read_i64(&numbers, 6, items, 0, &error), HV_BAD_RANGE, 6, 6, 5);
    CHECK_REFUSED(hv_read_i64(&numbers, SIZE_MAX, items, 2, &error), HV_BAD_RANGE, SIZE_MAX, UINT64_MAX, 5);
    CHECK_REFUSED(hv_read_decimals(&numbers, 0, pairs, 1, &error), HV_UNSUPPORTED, 0, 0, 0);
    CHECK_REFUSED(hv_read_bools_from(&numbers, 9, 1, words, 9, &error), HV_UNSUPPORTED, 0, 0, 0);
    CHECK_REFUSED(hv_read_bools_from(&truths, 4, 2, words, 9, &error), HV_BAD_RANGE, 4, 6, 5);
    CHECK_REFUSED(hv_read_bools_from(&truths, 0, 5, words, 2, &error), HV_COLUMN_LENGTH, 1, 2, 0);
    CHECK_REFUSED(hv_read_validity_from(&texts, 6, 0, words, 0, &error), HV_BAD_RANGE, 6, 6, 5);
    CHECK_REFUSED(hv_read_validity_from(&texts, 0, 5, words, 0, &error), HV_COLUMN_LENGTH, 1, 0, 0);
    CHECK_REFUSED(hv_read_offsets(&numbers, 0, narrow, 0, &error), HV_UNSUPPORTED, 0, 0, 0);
    CHECK_REFUSED(hv_read_offsets(&texts, 9, narrow, 0, &error), HV_BAD_RANGE, 9, 9, 5);
    CHECK_REFUSED(hv_read_large_offsets(&texts, 3, items, 4, &error), HV_BAD_RANGE, 3, 6, 5);
    CHECK_REFUSED(hv_read_bytes(&truths, 0, 1, bytes, 1, &error), HV_UNSUPPORTED, 0, 0, 0);
    CHECK_REFUSED(hv_read_bytes(&texts, 5, 1, bytes, 0, &error), HV_BAD_RANGE, 5, 6, 5);
    CHECK(hv_read_bools_from(&none, 0, 0, words, 0, &error) == HV_NO_COLUMN);
    CHECK(hv_read_validity_from(&none, 0, 0, words, 0, &error) == HV_NO_COLUMN);
    CHECK(!hv_read_i64(&numbers, 5, items, 0, &error) && !hv_read_bools_from(&truths, 5, 0, words, 0, &error));
    hv_column *all[] = {&numbers, &texts, &truths};
    for (size_t i = 0; i < COUNT(all); i++) hv_free(all[i]);
}

int main(void) {
    hv_session_initial(&session);
    CHECK(hv_version() == HV_VERSION && hv_abi() == HV_ABI);
    for (int time = 0; time < 60; time++) {
        rows of = random_rows(1 + below(MOST - 1), 30), mask = random_rows(of.len, 2);
        rows indices = random_rows(below(MOST), (int64_t)of.len);
        for (int form = FLAT; form < FORMS; form++) {
            check_windows(&of, form), check_extremes(&of, form), check_casts_and_fills(&of, form);
            if (form != FLAT) check_runs(&of, form);
            for (int other = FLAT; other < FORMS; other++)
                check_filter(&of, &mask, form, other), check_take(&of, &indices, form, other);
        }
    }
    for (int form = FLAT; form < FORMS; form++) check_refusals(form);
    check_constants(), check_other_runs(), check_text_extremes();
    CHECK(least_seen > 1000);
    puts("60 times 4 forms: windows, masks and indices in 4 forms each, runs, least and greatest");
    return 0;
}
