/* Columns of lists: made, read back, cut, selected, put into runs, and refused; and how many bytes columns take. The
 * rows that are due are written here by hand. */
#include "check.h"

static hv_session session;
static hv_error error;

/* ---- The rows of a column of lists as text: "[1 2] null []" ---- */

/* the items of a list: a window of the elements */
static size_t print_items(char *to, size_t room, hv_column *elements, uint64_t offset, uint64_t size) {
    hv_column items = HV_EMPTY;
    CHECK(!hv_slice(&session, elements, offset, offset + size, &items, &error));
    size_t used = (size_t)snprintf(to, room, "[%s]", rows_of(&items));
    hv_free(&items);
    return used;
}

static const char *lists_of(hv_column *column) {
    static char shown[4096];
    hv_column elements = HV_EMPTY, offsets = HV_EMPTY, sizes = HV_EMPTY, flags = HV_EMPTY;
    const size_t rows = hv_length(column);
    uint64_t starts[64], counts[64], valid[1] = {0};
    size_t used = 0;
    CHECK(rows <= 64);
    CHECK(!hv_list_elements(column, &elements, &error) && !hv_list_offsets(column, &offsets, &error));
    CHECK(!hv_list_sizes(column, &sizes, &error) && !hv_list_validity(column, &flags, &error));
    CHECK(hv_length(&offsets) == rows && hv_length(&sizes) == rows && hv_length(&flags) == rows);
    CHECK(!hv_read_u64(&offsets, 0, starts, rows, &error) && !hv_read_u64(&sizes, 0, counts, rows, &error));
    CHECK(!hv_read_bools_from(&flags, 0, rows, valid, rows > 0, &error));
    shown[0] = 0;
    for (size_t row = 0; row < rows; row++) {
        if (row) shown[used++] = ' ';
        if (valid[0] >> row & 1) used += print_items(shown + used, sizeof shown - used, &elements, starts[row], counts[row]);
        else used += (size_t)snprintf(shown + used, sizeof shown - used, "null");
    }
    hv_free(&elements), hv_free(&offsets), hv_free(&sizes), hv_free(&flags);
    return shown;
}
#define CHECK_LISTS(column, rows) check_text(lists_of(column), (rows), #column, __FILE__, __LINE__)

/* ---- What the tests are over ---- */

static const int32_t numbers[6] = {1, 2, 3, 4, 5, 6};
static const uint64_t offsets[5] = {0, 2, 9, 3, 1}, sizes[5] = {2, 0, 9, 3, 3};
static const uint8_t all_but_row_2[1] = {0x1B};
#define FIVE offsets, 5, sizes, 5

static hv_column elements = HV_EMPTY, lists = HV_EMPTY, out = HV_EMPTY;

/* rows [1 2] [] null [4 5 6] [2 3 4]; the null one points outside of the elements, and the last overlaps others */
static void make_lists(void) {
    CHECK(!hv_i32(numbers, 6, NOT_NULLABLE, &elements, &error));
    CHECK(!hv_lists(&elements, FIVE, NULLS_BY(all_but_row_2, 0), &lists, &error));
    CHECK(hv_form(&lists) == HV_FORM_LISTS && hv_length(&lists) == 5);
    const hv_kind kind = hv_kind_of(&lists);
    CHECK(kind.number == HV_LIST && kind.nullable == 1);
    CHECK_LISTS(&lists, "[1 2] [] null [4 5 6] [2 3 4]");
    CHECK_ROWS(&elements, "1 2 3 4 5 6");
}

static void commands(void) {
    hv_column places = HV_EMPTY, mask = HV_EMPTY, ends = HV_EMPTY, runs = HV_EMPTY;
    const uint8_t bits[1] = {0x15}, ends_of_runs[5] = {1, 3, 4, 6, 7};
    const uint16_t rows[4] = {4, 0, 4, 1};
    CHECK(!hv_slice(&session, &lists, 1, 4, &out, &error));
    CHECK_LISTS(&out, "[] null [4 5 6]");
    CHECK(!hv_u16(rows, 4, NOT_NULLABLE, &places, &error) && !hv_take(&session, &lists, &places, &out, &error));
    hv_column flat = HV_EMPTY;
    CHECK(!hv_decode(&session, &out, &flat, &error));
    CHECK_LISTS(&flat, "[2 3 4] [1 2] [2 3 4] []");
    CHECK(!hv_bools(bits, 1, 0, 5, NOT_NULLABLE, &mask, &error) && !hv_filter(&session, &lists, &mask, &out, &error));
    CHECK(!hv_decode(&session, &out, &flat, &error));
    CHECK_LISTS(&flat, "[1 2] null [2 3 4]");
    CHECK(!hv_u8(ends_of_runs, 5, NOT_NULLABLE, &ends, &error) && !hv_runs(&ends, &lists, 1, 6, &runs, &error));
    CHECK(hv_form(&runs) == HV_FORM_RUNS);
    CHECK_REFUSED(hv_list_elements(&runs, &out, &error), HV_UNSUPPORTED, 0, 0, 0);
    CHECK(!hv_decode(&session, &runs, &flat, &error));
    CHECK_LISTS(&flat, "[] [] null [4 5 6] [4 5 6] [2 3 4]");
    CHECK(!hv_clone(&lists, &out, &error));
    CHECK_LISTS(&out, "[1 2] [] null [4 5 6] [2 3 4]");
    hv_free(&places), hv_free(&mask), hv_free(&ends), hv_free(&runs), hv_free(&flat);
}

/* each validity, other elements, no rows */
static void kinds(void) {
    const uint8_t letters[4] = {'a', 'b', 'c', 'd'};
    const int32_t cuts[4] = {0, 2, 3, 4};
    const uint64_t two[2] = {1, 0}, counts[2] = {2, 1}, none[1] = {0};
    hv_column texts = HV_EMPTY;
    CHECK(!hv_lists(&elements, two, 2, counts, 2, NOT_NULLABLE, &out, &error));
    CHECK_LISTS(&out, "[2 3] [1]");
    CHECK(hv_kind_of(&out).nullable == 0);
    CHECK(!hv_lists(&elements, two, 2, counts, 2, NO_NULLS, &out, &error) && hv_kind_of(&out).nullable == 1);
    CHECK_LISTS(&out, "[2 3] [1]");
    CHECK(!hv_texts(0, cuts, 4, letters, 4, NOT_NULLABLE, &texts, &error));
    CHECK(!hv_lists(&texts, two, 2, counts, 2, NOT_NULLABLE, &out, &error));
    CHECK_LISTS(&out, "[\"c\" \"d\"] [\"ab\"]");
    CHECK(!hv_lists(&elements, none, 0, none, 0, NOT_NULLABLE, &out, &error) && hv_length(&out) == 0);
    CHECK_LISTS(&out, "");
    hv_free(&texts);
}

/* the first fault by its fields, and `out` as it was */
static void refusals(void) {
    const uint64_t past[2] = {0, 5}, two[2] = {1, 2}, huge[2] = {UINT64_MAX, 0};
    hv_column runs = HV_EMPTY, empty = HV_EMPTY;
    CHECK(!hv_lists(&elements, FIVE, NULLS_BY(all_but_row_2, 0), &out, &error));
    CHECK_REFUSED(hv_lists(&elements, FIVE, NULLS_BY(all_but_row_2, 4), &out, &error), HV_COLUMN_LENGTH, 5, 1, 0);
    CHECK_REFUSED(hv_lists(&elements, offsets, 5, sizes, 4, NOT_NULLABLE, &out, &error), HV_COLUMN_LENGTH, 5, 4, 0);
    CHECK_REFUSED(hv_lists(&elements, past, 2, two, 2, NOT_NULLABLE, &out, &error), HV_OUT_OF_BOUNDS, 1, 6, HV_ABOUT_LISTS);
    CHECK_REFUSED(hv_lists(&elements, huge, 2, two, 2, NOT_NULLABLE, &out, &error), HV_OUT_OF_BOUNDS, 0, 6, HV_ABOUT_LISTS);
    CHECK_REFUSED(hv_lists(&elements, FIVE, NOT_NULLABLE, &out, &error), HV_OUT_OF_BOUNDS, 2, 6, HV_ABOUT_LISTS);
    CHECK(!hv_encode(&session, &elements, &runs, &error));
    CHECK_REFUSED(hv_lists(&runs, FIVE, NOT_NULLABLE, &out, &error), HV_UNSUPPORTED, 0, 0, 0);
    CHECK_REFUSED(hv_lists(&lists, FIVE, NOT_NULLABLE, &out, &error), HV_UNSUPPORTED, 0, 0, 0);
    CHECK(hv_lists(&empty, FIVE, NOT_NULLABLE, &out, &error) == HV_NO_COLUMN);
    CHECK_REFUSED(hv_list_elements(&elements, &out, &error), HV_UNSUPPORTED, 0, 0, 0);
    CHECK_REFUSED(hv_list_offsets(&elements, &out, &error), HV_UNSUPPORTED, 0, 0, 0);
    CHECK_REFUSED(hv_list_sizes(&runs, &out, &error), HV_UNSUPPORTED, 0, 0, 0);
    CHECK_REFUSED(hv_list_validity(&runs, &out, &error), HV_UNSUPPORTED, 0, 0, 0);
    CHECK(hv_list_validity(&empty, &out, &error) == HV_NO_COLUMN);
    CHECK_LISTS(&out, "[1 2] [] null [4 5 6] [2 3 4]");
    hv_free(&runs);
}

/* ---- How many bytes columns take ---- */

static void bytes_of_flat_columns(void) {
    const uint8_t bits[2] = {0xFF, 0x01}, letters[7] = {'a', 'b', 'c', 'd', 'e', 'f', 'g'}, first_null[1] = {0x06};
    const int32_t cuts[4] = {0, 3, 3, 7};
    const uint16_t short_numbers[9] = {0};
    const hv_pair pairs[3] = {{1, 0}, {2, 0}, {3, 0}};
    hv_column part = HV_EMPTY;
    CHECK(hv_bytes_used(&elements) == 6 * 4);
    CHECK(!hv_i32(numbers, 6, NO_NULLS, &out, &error) && hv_bytes_used(&out) == 6 * 4); /* no bit is stored */
    CHECK(!hv_i32(numbers, 6, NULLS_BY(first_null, 0), &out, &error) && hv_bytes_used(&out) == 6 * 4 + 1);
    CHECK(!hv_u16(short_numbers, 9, NULLS_BY(bits, 0), &out, &error) && hv_bytes_used(&out) == 9 * 2 + 2);
    CHECK(!hv_bools(bits, 2, 0, 9, NOT_NULLABLE, &out, &error) && hv_bytes_used(&out) == 2);
    CHECK(!hv_decimals(pairs, 3, 10, 2, NOT_NULLABLE, &out, &error) && hv_bytes_used(&out) == 3 * 16);
    CHECK(!hv_texts(0, cuts, 4, letters, 7, NOT_NULLABLE, &out, &error) && hv_bytes_used(&out) == 3 * 24 + 7);
    CHECK(!hv_slice(&session, &out, 0, 2, &part, &error) && hv_bytes_used(&part) == 2 * 24 + 3);
    CHECK(!hv_texts(1, cuts, 4, letters, 7, NULLS_BY(first_null, 0), &out, &error) && hv_bytes_used(&out) == 3 * 24 + 4 + 1);
    hv_free(&out), hv_free(&part);
    CHECK(hv_bytes_used(&out) == 0);
}

static void bytes_of_other_forms(void) {
    const int64_t rows[300] = {0}; /* two runs, of 200 and 100 rows */
    int64_t items[300];
    const hv_kind text = {HV_UTF8, 0, 0, 0}, number = {HV_I64, 1, 0, 0};
    const hv_value letters = {.kind = HV_TEXT}, null = {.kind = HV_NULL}, seven = {.kind = HV_SIGNED, .as_signed = 7};
    hv_column flat = HV_EMPTY, nested = HV_EMPTY, ends = HV_EMPTY;
    const uint32_t outer[2] = {250, 1000};
    memcpy(items, rows, sizeof items);
    for (int row = 200; row < 300; row++) items[row] = 7;
    CHECK(!hv_i64(items, 300, NOT_NULLABLE, &flat, &error) && hv_bytes_used(&flat) == 300 * 8);
    CHECK(!hv_encode(&session, &flat, &out, &error) && hv_bytes_used(&out) == 2 * 2 + 2 * 8); /* ends of 16 bits */
    CHECK(!hv_slice(&session, &flat, 100, 110, &nested, &error) && hv_bytes_used(&nested) == 10 * 8);
    CHECK(!hv_slice(&session, &out, 100, 250, &nested, &error) && hv_bytes_used(&nested) == 2 * 2 + 2 * 8);
    CHECK(!hv_slice(&session, &out, 0, 2, &flat, &error) && hv_form(&flat) == HV_FORM_CONSTANT && hv_bytes_used(&flat) == 8);
    CHECK(!hv_slice(&session, &out, 199, 201, &flat, &error) && hv_length(&flat) == 2);
    CHECK(!hv_u32(outer, 2, NOT_NULLABLE, &ends, &error) && !hv_runs(&ends, &flat, 0, 1000, &nested, &error));
    CHECK(hv_bytes_used(&nested) == 2 * 4 + 2 * 2 + 2 * 8);
    CHECK(!hv_constant(&text, &letters, (const uint8_t *)"abcde", 5, 1000000, &out, &error) && hv_bytes_used(&out) == 5);
    CHECK(!hv_constant(&number, &seven, NO_TEXT, SIZE_MAX, &out, &error) && hv_bytes_used(&out) == 8);
    CHECK(!hv_constant(&number, &null, NO_TEXT, 9, &out, &error) && hv_bytes_used(&out) == 0);
    CHECK(hv_bytes_used(&lists) == 6 * 4 + 5 * 8 + 5 * 8 + 1);
    hv_free(&flat), hv_free(&nested), hv_free(&ends);
}

int main(void) {
    hv_session_initial(&session);
    make_lists();
    commands();
    kinds();
    refusals();
    bytes_of_flat_columns();
    bytes_of_other_forms();
    hv_free(&elements), hv_free(&lists), hv_free(&out);
    puts("lists are made, read, cut, selected and refused; bytes of columns in every form");
    return 0;
}
