/* Columns of millions of runs: every row of four million runs of one row each is read, and all are taken in reverse
 * order, by a table of all rows and by binary searches; slices and clones of a million runs copy none of them, and a
 * compact copy holds what it shows. How many bytes the library asks for is counted: the linker hands these functions to
 * all of the program, cc .. -Wl,--wrap=malloc,--wrap=calloc,--wrap=realloc */
#include "check.h"

void *__real_malloc(size_t size);
void *__real_calloc(size_t count, size_t size);
void *__real_realloc(void *block, size_t size);

static size_t bytes_asked;

void *__wrap_malloc(size_t size) {
    bytes_asked += size;
    return __real_malloc(size);
}

void *__wrap_calloc(size_t count, size_t size) {
    bytes_asked += count * size;
    return __real_calloc(count, size);
}

void *__wrap_realloc(void *block, size_t size) {
    bytes_asked += size;
    return __real_realloc(block, size);
}

/* a slice shares bits where it starts at a whole word of 64 */
enum { RUNS = 1 << 22, SHARED_RUNS = 1024000, SLICE_START = 256000, SLICE_STOP = 768000, MOST_BYTES = 1024 };

static uint32_t counted[RUNS], counted_from_one[RUNS], counted_down[RUNS], rows_taken[RUNS];
static uint8_t two_of_three[RUNS / 8];
static hv_session session;
static hv_error error;

/* run k is row k, of the number k */
static void make_runs(uint32_t count, hv_validity validity, hv_column *runs) {
    hv_column ends = HV_EMPTY, values = HV_EMPTY;
    CHECK(!hv_u32(counted_from_one, count, NOT_NULLABLE, &ends, &error));
    CHECK(!hv_u32(counted, count, validity, &values, &error));
    CHECK(!hv_runs(&ends, &values, 0, count, runs, &error));
    hv_free(&ends);
    hv_free(&values);
}

static void every_row_is_read(const hv_column *runs) {
    for (uint32_t row = 0; row < RUNS; row++) {
        hv_value value;
        FILL(value);
        CHECK(!hv_at(runs, row, &value, NO_TEXT_ROOM, &error));
        CHECK(value.kind == HV_UNSIGNED && value.as_unsigned == row);
    }
}

static void all_are_taken(const hv_column *runs) {
    hv_column indices = HV_EMPTY, taken = HV_EMPTY;
    CHECK(!hv_u32(counted_down, RUNS, NOT_NULLABLE, &indices, &error));
    CHECK(!hv_take(&session, runs, &indices, &taken, &error));
    CHECK(hv_length(&taken) == RUNS);
    memset(rows_taken, 0xA5, sizeof rows_taken);
    CHECK(!hv_read_u32(&taken, 0, rows_taken, RUNS, &error));
    CHECK(memcmp(rows_taken, counted_down, sizeof counted_down) == 0);
    hv_free(&indices);
    hv_free(&taken);
}

static void many_runs(void) {
    hv_column runs = HV_EMPTY;
    make_runs(RUNS, NOT_NULLABLE, &runs);
    CHECK(hv_form(&runs) == FORM_RUNS && hv_length(&runs) == RUNS);
    every_row_is_read(&runs);
    all_are_taken(&runs);
    /* no index is worth a table, so each is searched for */
    session.table_len_per_index = session.sorted_runs_per_index = 0;
    session.unsorted_min_runs = session.unsorted_runs_per_index = 0;
    all_are_taken(&runs);
    hv_session_initial(&session);
    hv_free(&runs);
}

/* the rows of the slice, of which each third is null */
static void check_slice(const hv_column *slice) {
    CHECK(hv_form(slice) == FORM_RUNS && hv_length(slice) == SLICE_STOP - SLICE_START);
    for (uint32_t row = SLICE_START; row < SLICE_STOP; row++) {
        hv_value value;
        FILL(value);
        CHECK(!hv_at(slice, row - SLICE_START, &value, NO_TEXT_ROOM, &error));
        CHECK(row % 3 == 0 ? value.kind == HV_NULL : value.kind == HV_UNSIGNED && value.as_unsigned == row);
    }
}

static void runs_are_shared(void) {
    hv_column runs = HV_EMPTY, slice = HV_EMPTY, other = HV_EMPTY;
    make_runs(SHARED_RUNS, NULLS_BY(two_of_three, 0), &runs);
    bytes_asked = 0;
    CHECK(!hv_slice(&session, &runs, SLICE_START, SLICE_STOP, &slice, &error));
    CHECK(0 < bytes_asked && bytes_asked < MOST_BYTES);
    check_slice(&slice);
    bytes_asked = 0;
    CHECK(!hv_clone(&slice, &other, &error));
    CHECK(0 < bytes_asked && bytes_asked < MOST_BYTES);
    hv_free(&runs); /* what they share stays */
    check_slice(&slice);
    check_slice(&other);
    /* an end and a value of four bytes for each run */
    bytes_asked = 0;
    CHECK(!hv_compact(&slice, &other, &error));
    CHECK(bytes_asked >= 8 * (size_t)(SLICE_STOP - SLICE_START));
    hv_free(&slice);
    check_slice(&other);
    hv_free(&other);
}

int main(void) {
    for (uint32_t row = 0; row < RUNS; row++) {
        counted[row] = row;
        counted_from_one[row] = row + 1;
        counted_down[row] = RUNS - 1 - row;
        if (row % 3 != 0) two_of_three[row / 8] = (uint8_t)(two_of_three[row / 8] | 1 << row % 8);
    }
    hv_session_initial(&session);
    many_runs();
    runs_are_shared();
    printf("%d runs read and taken, slices and clones of %d without a copy\n", RUNS, SHARED_RUNS);
    return 0;
}
