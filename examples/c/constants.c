/* Constants and runs of far more rows than memory holds: what maps or selects the rows of a constant leaves a constant,
 * and hv_encode looks at runs, not at rows. The answers were worked out by hand. */
#include "check.h"

static hv_session session;
static hv_error error;

static const hv_kind i64 = {HV_I64, 0, 0, 0}, i64_or_null = {HV_I64, 1, 0, 0}, u8 = {HV_U8, 0, 0, 0};
static const hv_kind boolean = {HV_BOOL, 1, 0, 0};
#define MANY (UINT64_C(1) << 60)

/* the column is a constant of this many rows, of this type, and its last row is this */
static void check_constant(hv_column *column, uint64_t rows, uint8_t number, uint8_t nullable, const char *last) {
    hv_value value;
    uint8_t text[8];
    char shown[64];
    FILL(value), FILL(text);
    CHECK(hv_form(column) == HV_FORM_CONSTANT && hv_length(column) == rows);
    CHECK(hv_kind_of(column).number == number && hv_kind_of(column).nullable == nullable);
    CHECK(!hv_at(column, rows - 1, &value, text, sizeof text, &error));
    print_value(shown, sizeof shown, value, text);
    check_text(shown, last, "the last row", __FILE__, __LINE__);
}

/* cast, filled, compared and filtered */
static void mapped(void) {
    const hv_value seven = {.kind = HV_SIGNED, .as_signed = 7}, large = {.kind = HV_SIGNED, .as_signed = 300};
    const hv_value null = {.kind = HV_NULL}, yes = {.kind = HV_TRUTH, .truth = 1};
    hv_column column = HV_EMPTY, other = HV_EMPTY, out = HV_EMPTY;
    CHECK(!hv_constant(&i64_or_null, &seven, NO_TEXT, MANY, &column, &error));
    CHECK(!hv_cast(&session, &column, &u8, &out, &error));
    check_constant(&out, MANY, HV_U8, 0, "7");
    CHECK(!hv_fill(&session, &column, &large, NO_TEXT, &out, &error));
    check_constant(&out, MANY, HV_I64, 0, "7");
    CHECK(!hv_compare_scalar(&session, &column, HV_LT, &large, NO_TEXT, &out, &error));
    check_constant(&out, MANY, HV_BOOL, 1, "true");
    CHECK(!hv_constant(&i64, &large, NO_TEXT, MANY, &other, &error));
    CHECK(!hv_compare(&session, &column, HV_GE, &other, &out, &error));
    check_constant(&out, MANY, HV_BOOL, 1, "false");
    CHECK_REFUSED(hv_cast(&session, &other, &u8, &out, &error), HV_CAST_OUT_OF_RANGE, 0, 0, 0);
    CHECK(!hv_constant(&i64, &large, NO_TEXT, MANY - 1, &other, &error));
    CHECK_REFUSED(hv_compare(&session, &column, HV_GE, &other, &out, &error), HV_COLUMN_LENGTH, MANY, MANY - 1, 0);
    check_constant(&out, MANY, HV_BOOL, 1, "false");

    CHECK(!hv_constant(&boolean, &yes, NO_TEXT, MANY, &other, &error));
    CHECK(!hv_filter(&session, &column, &other, &out, &error));
    check_constant(&out, MANY, HV_I64, 1, "7");
    CHECK(!hv_constant(&boolean, &yes, NO_TEXT, 3, &other, &error));
    CHECK_REFUSED(hv_filter(&session, &column, &other, &out, &error), HV_MASK_LENGTH, 3, MANY, 0);

    CHECK(!hv_constant(&i64_or_null, &null, NO_TEXT, MANY, &column, &error));
    CHECK(!hv_fill(&session, &column, &seven, NO_TEXT, &out, &error));
    check_constant(&out, MANY, HV_I64, 0, "7");
    CHECK(!hv_compare_scalar(&session, &column, HV_EQ, &seven, NO_TEXT, &out, &error));
    check_constant(&out, MANY, HV_BOOL, 1, "null");
    CHECK_REFUSED(hv_cast(&session, &column, &u8, &out, &error), HV_NULL_NOT_ALLOWED, 0, 0, 0);
    CHECK(!hv_constant(&i64, &seven, NO_TEXT, MANY, &other, &error));
    CHECK(!hv_compare(&session, &column, HV_EQ, &other, &out, &error));
    check_constant(&out, MANY, HV_BOOL, 1, "null");
    CHECK(!hv_compare(&session, &other, HV_NE, &column, &out, &error));
    check_constant(&out, MANY, HV_BOOL, 1, "null");
    hv_free(&column), hv_free(&other), hv_free(&out);
}

/* selected by masks in runs, of which the true rows are counted: through a window, over runs, and in one run */
static void counted(void) {
    const uint64_t stops[4] = {UINT64_C(1) << 58, MANY - 8, MANY - 3, MANY + 9}, twice[2] = {2, 4}, all[1] = {MANY};
    const uint8_t truths[1] = {0x07}, but_one[1] = {0x0D};
    const hv_value seven = {.kind = HV_SIGNED, .as_signed = 7};
    hv_column column = HV_EMPTY, ends = HV_EMPTY, values = HV_EMPTY, mask = HV_EMPTY, part = HV_EMPTY, out = HV_EMPTY;
    CHECK(!hv_constant(&i64_or_null, &seven, NO_TEXT, MANY, &column, &error));
    CHECK(!hv_u64(stops, 4, NOT_NULLABLE, &ends, &error)); /* true, null where true is stored, true, false */
    CHECK(!hv_bools(truths, 1, 0, 4, NULLS_BY(but_one, 0), &values, &error));
    CHECK(!hv_runs(&ends, &values, 6, MANY, &mask, &error) && !hv_filter(&session, &column, &mask, &out, &error));
    check_constant(&out, (UINT64_C(1) << 58) - 6 + 5, HV_I64, 1, "7");
    CHECK(!hv_runs(&ends, &values, 6, MANY - 1, &mask, &error));
    CHECK_REFUSED(hv_filter(&session, &column, &mask, &out, &error), HV_MASK_LENGTH, MANY - 1, MANY, 0);

    CHECK(!hv_u64(twice, 2, NOT_NULLABLE, &part, &error)); /* true true false false, of which each is a run */
    CHECK(!hv_bools(truths, 1, 2, 2, NO_NULLS, &mask, &error) && !hv_runs(&part, &mask, 0, 4, &values, &error));
    CHECK(!hv_runs(&ends, &values, 6, MANY, &mask, &error) && !hv_filter(&session, &column, &mask, &out, &error));
    check_constant(&out, MANY - 8 - 6, HV_I64, 1, "7");

    CHECK(!hv_u64(all, 1, NOT_NULLABLE, &ends, &error) && !hv_bools(truths, 1, 3, 1, NO_NULLS, &values, &error));
    CHECK(!hv_runs(&ends, &values, 0, MANY, &mask, &error) && !hv_filter(&session, &column, &mask, &out, &error));
    CHECK(hv_form(&out) == HV_FORM_CONSTANT && hv_length(&out) == 0 && hv_kind_of(&out).number == HV_I64);
    CHECK(!hv_slice(&session, &column, 0, 1, &part, &error) && !hv_runs(&ends, &part, 0, MANY, &mask, &error));
    CHECK_REFUSED(hv_filter(&session, &column, &mask, &out, &error), HV_TYPE_MISMATCH, 0, 0, 0);
    CHECK(hv_form(&out) == HV_FORM_CONSTANT && hv_length(&out) == 0);
    hv_free(&column), hv_free(&ends), hv_free(&values), hv_free(&mask), hv_free(&part), hv_free(&out);
}

/* without rows no row is refused; selected row by row, as many are left as bits are set */
static void few(void) {
    const hv_value large = {.kind = HV_SIGNED, .as_signed = 300};
    const uint8_t truths[1] = {0x05};
    hv_column column = HV_EMPTY, mask = HV_EMPTY, out = HV_EMPTY;
    CHECK(!hv_constant(&i64, &large, NO_TEXT, 0, &column, &error));
    CHECK(!hv_cast(&session, &column, &u8, &out, &error) && hv_length(&out) == 0 && hv_kind_of(&out).number == HV_U8);
    CHECK(!hv_constant(&i64, &large, NO_TEXT, 3, &column, &error));
    CHECK(!hv_bools(truths, 1, 0, 3, NOT_NULLABLE, &mask, &error));
    CHECK(!hv_filter(&session, &column, &mask, &out, &error));
    check_constant(&out, 2, HV_I64, 0, "300");
    hv_free(&column), hv_free(&mask), hv_free(&out);
}

/* a slice within one run is a constant, which is filled without its rows */
static void sliced(void) {
    const uint32_t stops[2] = {4282276972u, 4282276973u};
    const int64_t numbers[2] = {5, 6};
    const hv_value three = {.kind = HV_SIGNED, .as_signed = 3};
    hv_column ends = HV_EMPTY, values = HV_EMPTY, column = HV_EMPTY, part = HV_EMPTY, out = HV_EMPTY;
    CHECK(!hv_u32(stops, 2, NOT_NULLABLE, &ends, &error) && !hv_i64(numbers, 2, NO_NULLS, &values, &error));
    CHECK(!hv_runs(&ends, &values, 0, 4282276973u, &column, &error));
    CHECK(!hv_slice(&session, &column, 906268788u, 2103571225u, &part, &error));
    check_constant(&part, 1197302437u, HV_I64, 1, "5");
    CHECK(!hv_fill(&session, &part, &three, NO_TEXT, &out, &error));
    check_constant(&out, 1197302437u, HV_I64, 0, "5");
    hv_free(&ends), hv_free(&values), hv_free(&column), hv_free(&part), hv_free(&out);
}

/* the column is runs with these ends, of this type, over these values */
static void check_encoded(hv_column *column, uint8_t ends_number, const char *ends, const char *values) {
    hv_column part = HV_EMPTY;
    CHECK(hv_form(column) == HV_FORM_RUNS && hv_offset(column) == 0);
    CHECK(!hv_ends(column, &part, &error) && hv_kind_of(&part).number == ends_number);
    check_text(rows_of(&part), ends, "the ends", __FILE__, __LINE__);
    CHECK(!hv_values(column, &part, &error));
    check_text(rows_of(&part), values, "the values", __FILE__, __LINE__);
    hv_free(&part);
}

/* runs of which neighbours are equal and the first is hidden, runs over runs, and constants */
static void encoded(void) {
    const uint64_t stops[5] = {5, 7, 10, UINT64_C(1) << 40, MANY + 24}, once[5] = {1, 3, 4, 5, 6};
    const int64_t numbers[5] = {1, 7, 7, 4, 9};
    const uint8_t but_three[1] = {0x17};
    const hv_value null = {.kind = HV_NULL}, seven = {.kind = HV_SIGNED, .as_signed = 7};
    const hv_value yes = {.kind = HV_TRUTH, .truth = 1};
    hv_column ends = HV_EMPTY, values = HV_EMPTY, column = HV_EMPTY, out = HV_EMPTY, nested = HV_EMPTY;
    CHECK(!hv_u64(stops, 5, NOT_NULLABLE, &ends, &error));
    CHECK(!hv_i64(numbers, 5, NULLS_BY(but_three, 0), &values, &error));
    CHECK(!hv_runs(&ends, &values, 5, MANY, &column, &error) && !hv_encode(&session, &column, &out, &error));
    check_encoded(&out, HV_U64, "5 1099511627771 1152921504606846976", "7 null 9");
    CHECK(!hv_u64(once, 5, NOT_NULLABLE, &ends, &error) && !hv_runs(&ends, &values, 0, 5, &nested, &error));
    CHECK(!hv_u64(stops, 5, NOT_NULLABLE, &ends, &error) && !hv_runs(&ends, &nested, 5, MANY, &column, &error));
    CHECK(!hv_encode(&session, &column, &out, &error)); /* rows of the values: 1 7 7 7 null */
    check_encoded(&out, HV_U64, "1099511627771 1152921504606846976", "7 null");
    CHECK(!hv_values(&out, &values, &error) && hv_form(&values) == HV_FORM_FLAT);
    CHECK(!hv_constant(&i64_or_null, &seven, NO_TEXT, MANY, &column, &error));
    CHECK(!hv_encode(&session, &column, &out, &error));
    check_encoded(&out, HV_U64, "1152921504606846976", "7");
    CHECK(!hv_constant(&i64_or_null, &seven, NO_TEXT, 255, &column, &error));
    CHECK(!hv_encode(&session, &column, &out, &error));
    check_encoded(&out, HV_U8, "255", "7");
    CHECK(!hv_constant(&i64_or_null, &null, NO_TEXT, 3, &column, &error));
    CHECK(!hv_encode(&session, &column, &out, &error));
    check_encoded(&out, HV_U64, "3", "null");
    CHECK(!hv_constant(&boolean, &yes, NO_TEXT, MANY, &column, &error));
    CHECK_REFUSED(hv_encode(&session, &column, &out, &error), HV_ONLY_PRIMITIVE, 0, 0, 0);
    check_encoded(&out, HV_U64, "3", "null");
    hv_free(&ends), hv_free(&values), hv_free(&column), hv_free(&out), hv_free(&nested);
}

int main(void) {
    hv_session_initial(&session);
    mapped();
    counted();
    few();
    sliced();
    encoded();
    memset(&session, 0, sizeof session); /* and so where no kernel is registered, but for the slice of runs */
    mapped();
    counted();
    few();
    encoded();
    puts("constants: kept by casts, fills, comparisons and filters; constants and runs encoded by their runs");
    return 0;
}
