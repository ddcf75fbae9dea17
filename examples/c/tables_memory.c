/* Each request for memory refused in turn, in every call on tables: the answer is 21, or 0 where the call went on
 * without; every table and column is as it was, and no block is lost. Then what a filter costs that walks runs. The
 * linker hands our malloc, calloc, realloc and free to all of the program:
 * cc .. -Wl,--wrap=malloc,--wrap=calloc,--wrap=realloc,--wrap=free */
#include "plain_rows.h"
#include "refusing_malloc.h"
#include <time.h>

/* What the calls are lent. */
static hv_table lent = HV_EMPTY, other = HV_EMPTY;
static hv_column mask = HV_EMPTY, mask_runs = HV_EMPTY, indices = HV_EMPTY, index_runs = HV_EMPTY, some = HV_EMPTY,
                 no_names = HV_EMPTY, others = HV_EMPTY, column = HV_EMPTY;
static plain_table plain, plain_other;
static hv_session session;
/* What they make. */
static hv_table made = HV_EMPTY;
static hv_column made_column = HV_EMPTY;
static const uint8_t *const name = (const uint8_t *)"level";

/* Fills a table of four columns, one of each kind, with 100 rows. */
static void fill(hv_table *table, plain_table *of) {
    of->rows = 100;
    CHECK(!hv_table_new(0, table, &error));
    for (int kind = 0; kind < KINDS; kind++) {
        plain_column next = random_column(of->rows);
        hv_column given = HV_EMPTY;
        while (next.kind != kind) next = random_column(of->rows);
        next.name = names[kind], next.format = formats[kind % 3];
        make_column(&next, of->rows, &given);
        CHECK(!hv_table_put(table, (const uint8_t *)next.name, strlen(next.name), &given, &error));
        of->columns[of->count++] = next;
        hv_free(&given);
    }
}

static void make_names(const char *first, const char *second, hv_column *out) {
    char letters[32];
    const int32_t end = (int32_t)strlen(first), offsets[3] = {0, end, end + (int32_t)strlen(second)};
    snprintf(letters, sizeof letters, "%s%s", first, second);
    CHECK(!hv_texts(0, offsets, 3, (const uint8_t *)letters, (size_t)offsets[2], NOT_NULLABLE, out, &error));
}

static void make_lent(void) {
    uint16_t places[100];
    uint8_t truths[13];
    fill(&lent, &plain), fill(&other, &plain_other);
    for (int row = 0; row < 100; row++) places[row] = (uint16_t)(row / 10);
    for (int byte = 0; byte < 13; byte++) truths[byte] = byte % 3 ? 0xFF : 0;
    CHECK(!hv_bools(truths, 13, 0, 100, NOT_NULLABLE, &mask, &error));
    CHECK(!hv_encode_rows(&mask, &mask_runs, &error));
    CHECK(!hv_u16(places, 100, NOT_NULLABLE, &indices, &error));
    CHECK(!hv_encode_rows(&indices, &index_runs, &error));
    CHECK(!hv_with_type(&indices, name, 5, &column, &error));
    make_names("level", "a", &some), make_names("new name", "c", &others);
    CHECK(!hv_slice(&session, &some, 0, 0, &no_names, &error));
}

/* ---- The calls ---- */

static int32_t call_new(void) { return hv_table_new(5, &made, &error); }
static int32_t call_clone(void) { return hv_table_clone(&lent, &made, &error); }
static int32_t call_column(void) { return hv_table_column(&lent, 3, &made_column, &error); }
static int32_t call_slice(void) { return hv_table_slice(&lent, 3, 70, &made, &error); }
static int32_t call_filter(void) { return hv_table_filter(&lent, &mask, &made, &error); }
static int32_t call_filter_runs(void) { return hv_table_filter(&lent, &mask_runs, &made, &error); }
static int32_t call_filter_by(void) {
    const hv_value least = {.kind = HV_TEXT};
    return hv_table_filter_by(&lent, name, 5, HV_GE, &least, (const uint8_t *)"b", 1, &made, &error);
}
static int32_t call_filter_by_number(void) {
    const hv_value tenths = {.as_unsigned = 25, .kind = HV_SCALED, .scale = 1};
    return hv_table_filter_by(&lent, (const uint8_t *)"a", 1, HV_LT, &tenths, NO_TEXT, &made, &error);
}
static int32_t call_take(void) { return hv_table_take(&lent, &indices, &made, &error); }
static int32_t call_take_runs(void) { return hv_table_take(&lent, &index_runs, &made, &error); }
static int32_t call_append(void) { return hv_table_append(&lent, &other, &made, &error); }
static int32_t call_select(void) { return hv_table_select(&lent, &some, &made, &error); }
static int32_t call_rename(void) { return hv_table_rename(&lent, &some, &others, &made, &error); }
static int32_t call_sort(void) {
    static const uint8_t flags[2] = {HV_TABLE_DESCENDING, HV_TABLE_NULLS_LAST};
    return hv_table_sort(&lent, &some, flags, 2, &made, &error);
}
static int32_t call_drop_null(void) { return hv_table_drop_null(&lent, &some, &made, &error); }
static int32_t call_drop_any_null(void) { return hv_table_drop_null(&lent, &no_names, &made, &error); }
/* a column more, and another one in the place of a column: of a table that is made anew before each try */
static int32_t call_put(void) { return hv_table_put(&made, (const uint8_t *)"new", 3, &column, &error); }
static int32_t call_replace(void) { return hv_table_put(&made, name, 5, &column, &error); }

typedef struct try {
    int32_t (*call)(void);
    const char *name;
    bool puts; /* the call changes the table that it is given */
} try;
static const try tries[] = {{call_new, "new", false},         {call_clone, "clone", false},
                            {call_column, "column", false},   {call_slice, "slice", false},
                            {call_filter, "filter", false},   {call_filter_runs, "filter by runs", false},
                            {call_filter_by, "filter_by", false}, {call_take, "take", false},
                            {call_filter_by_number, "filter_by, a number", false},
                            {call_take_runs, "take by runs", false}, {call_append, "append", false},
                            {call_select, "select", false},   {call_rename, "rename", false},
                            {call_sort, "sort", false},       {call_drop_null, "drop_null", false},
                            {call_drop_any_null, "drop_null of all", false},
                            {call_put, "put", true},          {call_replace, "replace", true}};

static void check_lent(void) {
    check_table(&lent, &plain), check_table(&other, &plain_other);
    CHECK(hv_length(&mask) == 100 && hv_length(&mask_runs) == 100 && hv_length(&indices) == 100);
    CHECK(hv_length(&index_runs) == 100 && hv_length(&column) == 100);
    CHECK_ROWS(&some, "\"level\" \"a\"");
    CHECK_ROWS(&others, "\"new name\" \"c\"");
}

/* The call with the request of this number refused, or it and all after it. Says whether there is such a request. */
static bool refuse_one(const try *tried, long number, bool rest) {
    hv_table_free(&made), hv_free(&made_column);
    if (tried->puts) CHECK(!hv_table_clone(&lent, &made, &error));
    const long before = blocks;
    requests = refused = 0, refuse_at = number, refuse_rest = rest;
    const int32_t answer = tried->call();
    refuse_at = -1;
    if (answer) {
        CHECK(answer == HV_OUT_OF_MEMORY && refused && blocks == before && !made_column.at);
        if (tried->puts) check_table(&made, &plain);
        else CHECK(!made.at);
    }
    check_lent();
    return refused != 0;
}

static void check_memory(void) {
    size_t count = 0;
    for (size_t i = 0; i < COUNT(tries); i++) {
        long number = 0;
        while (refuse_one(&tries[i], number, false)) refuse_one(&tries[i], number, true), number++, count++;
        CHECK(number > 0);
    }
    printf("%zu requests refused\n", count);
}

/* Looking takes no memory. */
static void check_looks(void) {
    uint8_t room[8];
    size_t size = 0, place = 0;
    requests = 0;
    CHECK(hv_table_len(&lent) == 100 && hv_table_width(&lent) == KINDS);
    CHECK(!hv_table_name(&lent, 3, room, sizeof room, &size, &error));
    CHECK(!hv_table_place(&lent, room, size, &place, &error));
    CHECK(place == 3 && requests == 0);
}

/* ---- Cost ---- */

enum { COLUMNS = 8, MOST_RUNS = 5, TRIES = 20 };

static double seconds(void) {
    struct timespec now;
    CHECK(timespec_get(&now, TIME_UTC) == TIME_UTC);
    return (double)now.tv_sec + 1e-9 * (double)now.tv_nsec;
}

/* 20,000,000 rows of these values, in as many runs of one length. */
static void make_long(const hv_column *values, hv_column *out) {
    uint64_t stops[MOST_RUNS];
    const size_t count = hv_length(values);
    hv_column ends = HV_EMPTY;
    for (size_t run = 0; run < count; run++) stops[run] = 20000000 / count * (run + 1);
    CHECK(!hv_u64(stops, count, NOT_NULLABLE, &ends, &error) && !hv_runs(&ends, values, 0, 20000000, out, &error));
    hv_free(&ends);
}

/* 8 columns of 20,000,000 rows in some runs, filtered by a mask in runs, of which each other one is true */
static void check_cost(size_t runs, size_t mask_runs, size_t due) {
    const int64_t numbers[MOST_RUNS] = {5, 6, 7, 8, 9};
    const uint8_t truths[1] = {0x15};
    hv_column values = HV_EMPTY, rows = HV_EMPTY, bits = HV_EMPTY, long_mask = HV_EMPTY;
    hv_table table = HV_EMPTY;
    double best = 1;
    CHECK(!hv_i64(numbers, runs, NO_NULLS, &values, &error));
    CHECK(!hv_bools(truths, 1, 0, mask_runs, NOT_NULLABLE, &bits, &error));
    make_long(&values, &rows), make_long(&bits, &long_mask);
    CHECK(!hv_table_new(0, &table, &error));
    for (int i = 0; i < COLUMNS; i++) CHECK(!hv_table_put(&table, (const uint8_t *)"abcdefgh" + i, 1, &rows, &error));
    for (int i = 0; i < TRIES; i++) {
        const double start = seconds();
        CHECK(!hv_table_filter(&table, &long_mask, &made, &error));
        const double taken = seconds() - start;
        if (taken < best) best = taken;
    }
    CHECK(hv_table_len(&made) == due && hv_table_width(&made) == COLUMNS && best < 0.01);
    printf("8 columns of 20,000,000 rows in %zu runs filtered by a mask in %zu in %.0f microseconds\n", runs, mask_runs,
           best * 1e6);
    hv_free(&values), hv_free(&rows), hv_free(&bits), hv_free(&long_mask), hv_table_free(&table);
}

int main(void) {
    hv_session_initial(&session);
    make_lent();
    check_looks();
    check_memory();
    check_cost(1, 2, 10000000);
    check_cost(5, 5, 12000000);
    hv_table_free(&lent), hv_table_free(&other), hv_table_free(&made), hv_free(&made_column);
    hv_free(&mask), hv_free(&mask_runs), hv_free(&indices), hv_free(&index_runs), hv_free(&some), hv_free(&others);
    hv_free(&column), hv_free(&no_names);
    CHECK(blocks == 0);
    return 0;
}
