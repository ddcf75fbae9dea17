/* Levels of runs, one in the other: there are 64 at most, every call answers over 64, and none leaves more. */
#include "check.h"

enum { MOST = 64 };

static hv_session session;
static hv_error error;
static hv_column ends = HV_EMPTY, numbers = HV_EMPTY, truths = HV_EMPTY, texts = HV_EMPTY, lists = HV_EMPTY,
                 out = HV_EMPTY, spare = HV_EMPTY;

static void move_to(hv_column *to, hv_column *from) {
    hv_free(to);
    *to = *from;
    from->at = NULL;
}

/* Puts runs over the column until that is refused, which leaves it as it was, and answers how many there are. */
static size_t nest(hv_column *column) {
    size_t levels = 0;
    hv_column more = HV_EMPTY;
    int32_t answer = HV_OK;
    while (levels < 5000 && !(answer = hv_runs(&ends, column, 0, 2, &more, &error))) {
        move_to(column, &more);
        levels++;
    }
    CHECK(levels == 5000 || answer == HV_UNSUPPORTED);
    return levels;
}

/* how many levels of runs are seen from outside */
static size_t levels_of(const hv_column *column) {
    size_t levels = 0;
    hv_column at = HV_EMPTY, values = HV_EMPTY;
    CHECK(!hv_clone(column, &at, &error));
    for (; hv_form(&at) == FORM_RUNS; levels++) {
        CHECK(!hv_values(&at, &values, &error));
        move_to(&at, &values);
    }
    hv_free(&at);
    return levels;
}

static void make_columns(void) {
    const uint8_t growing[2] = {1, 2}, bits[1] = {2};
    const int64_t items[2] = {0, 1};
    const int32_t offsets[3] = {0, 3, 5};
    const uint64_t first[2] = {0, 1}, sizes[2] = {2, 1};
    hv_column elements = HV_EMPTY;
    CHECK(!hv_u8(growing, 2, NOT_NULLABLE, &ends, &error));
    CHECK(!hv_i64(items, 2, NO_NULLS, &numbers, &error) && !hv_clone(&numbers, &elements, &error));
    CHECK(!hv_bools(bits, 1, 0, 2, NOT_NULLABLE, &truths, &error));
    CHECK(!hv_texts(0, offsets, 3, (const uint8_t *)"onetw", 5, NOT_NULLABLE, &texts, &error));
    CHECK(!hv_lists(&elements, first, 2, sizes, 2, NOT_NULLABLE, &lists, &error));
    hv_column *all[] = {&numbers, &truths, &texts, &lists};
    for (size_t i = 0; i < COUNT(all); i++) {
        CHECK(nest(all[i]) == MOST && levels_of(all[i]) == MOST);
        CHECK_REFUSED(hv_runs(&ends, all[i], 0, 2, &out, &error), HV_UNSUPPORTED, 0, 0, 0);
        CHECK(levels_of(all[i]) == MOST && hv_form(&out) == FORM_NONE);
    }
    hv_free(&elements);
}

/* Ends may be lent with their faults: levels are counted first. */
static void check_one_more(void) {
    const hv_kind i64 = {HV_I64, 1, 0, 0};
    const uint8_t record[2] = {0x10, 0x02}, none[1] = {0xff};
    CHECK_REFUSED(hv_runs(&texts, &numbers, 0, 9, &out, &error), HV_UNSUPPORTED, 0, 0, 0);
    CHECK_REFUSED(hv_deserialize(&i64, 2, record, 2, &ends, &numbers, &out, &error), HV_UNSUPPORTED, 0, 0, 0);
    CHECK_REFUSED(hv_deserialize(&i64, 2, none, 1, &ends, &numbers, &out, &error), HV_UNSUPPORTED, 0, 0, 0);
    CHECK(!hv_values(&numbers, &spare, &error));
    CHECK(!hv_deserialize(&i64, 2, record, 2, &ends, &spare, &out, &error) && levels_of(&out) == MOST);
    CHECK_ROWS(&out, "0 1");
}

#define LEAVES(call, rows) \
    do { \
        CHECK((call) == HV_OK && levels_of(&out) <= MOST); \
        CHECK_ROWS(&out, rows); \
    } while (0)

static void check_commands(void) {
    const hv_kind i8 = {HV_I8, 1, 0, 0};
    const hv_value one = {.kind = HV_SIGNED, .as_signed = 1};
    LEAVES(hv_clone(&numbers, &out, &error), "0 1");
    LEAVES(hv_compact(&numbers, &out, &error), "0 1");
    LEAVES(hv_encode(&session, &numbers, &out, &error), "0 1");
    LEAVES(hv_decode(&session, &texts, &out, &error), "\"one\" \"tw\"");
    LEAVES(hv_slice(&session, &numbers, 1, 2, &out, &error), "1");
    LEAVES(hv_cast(&session, &numbers, &i8, &out, &error), "0 1");
    LEAVES(hv_fill(&session, &numbers, &one, NO_TEXT, &out, &error), "0 1");
    LEAVES(hv_filter(&session, &numbers, &truths, &out, &error), "1");
    LEAVES(hv_take_from(&session, &numbers, &truths, &out, &error), "false true");
    LEAVES(hv_take_from(&session, &numbers, &texts, &out, &error), "\"one\" \"tw\"");
    CHECK(!hv_clone(&numbers, &spare, &error));
    LEAVES(hv_take(&session, &numbers, &spare, &out, &error), "0 1");
    LEAVES(hv_take_from(&session, &numbers, &spare, &out, &error), "0 1");
    LEAVES(hv_compare(&session, &numbers, HV_EQ, &spare, &out, &error), "true true");
    LEAVES(hv_compare_scalar(&session, &numbers, HV_GE, &one, NO_TEXT, &out, &error), "false true");
    LEAVES(hv_encode_rows(&texts, &out, &error), "\"one\" \"tw\"");
    LEAVES(hv_ends(&numbers, &out, &error), "1 2");
    LEAVES(hv_values(&numbers, &out, &error), "0 1");
}

static void check_builder(void) {
    const hv_kind i64 = {HV_I64, 1, 0, 0};
    hv_builder builder = HV_EMPTY;
    CHECK(!hv_builder_new(&i64, &builder, &error) && !hv_append(&builder, &numbers, &error));
    LEAVES(hv_finish(&builder, &out, &error), "0 1");
    hv_builder_free(&builder);
}

static void check_questions(void) {
    hv_total total;
    hv_value least, greatest;
    size_t size, start, stop;
    uint8_t truth, low[3], high[3];
    FILL(total), FILL(least), FILL(greatest), FILL(size), FILL(start), FILL(stop), FILL(truth);
    CHECK(!hv_sum(&session, &numbers, &total, &error) && total.as_signed == 1);
    CHECK(!hv_is_constant(&session, &numbers, &truth, &error) && truth == 0);
    CHECK(!hv_is_sorted(&session, &numbers, 1, &truth, &error) && truth == 1);
    CHECK(!hv_extreme(&session, &numbers, 1, &greatest, high, 3, &error) && greatest.as_signed == 1);
    CHECK(!hv_min_max(&session, &texts, &least, low, 3, &greatest, high, 3, &error) && !memcmp(high, "tw", 2));
    CHECK(hv_length(&numbers) == 2 && hv_kind_of(&lists).number == HV_LIST && hv_offset(&texts) == 0);
    CHECK(hv_bytes_used(&numbers) == 2 * MOST + 16 && hv_bytes_used(&texts) == 2 * MOST + 53);
    CHECK(!hv_run_count(&numbers, &size, &error) && size == 2 && !hv_run_of(&numbers, 1, &size, &error) && size == 1);
    CHECK(!hv_run(&numbers, 1, &start, &stop, &least, low, 3, &error) && least.as_signed == 1 && stop == 2);
    CHECK_REFUSED(hv_write_size(&numbers, &size, &error), HV_UNSUPPORTED, 0, 0, 0);
}

static void check_reads(void) {
    int64_t items[2];
    uint64_t words[1], stops[2];
    int32_t offsets[3];
    uint8_t bytes[5];
    size_t size;
    FILL(items), FILL(words), FILL(stops), FILL(offsets), FILL(bytes), FILL(size);
    CHECK(!hv_read_i64(&numbers, 0, items, 2, &error) && items[0] == 0 && items[1] == 1);
    CHECK(!hv_read_bools_from(&truths, 0, 2, words, 1, &error) && words[0] == 2);
    CHECK(!hv_read_validity_from(&numbers, 0, 2, words, 1, &error) && words[0] == 3);
    CHECK(!hv_read_offsets(&texts, 0, offsets, 3, &error) && offsets[2] == 5);
    CHECK(!hv_read_bytes(&texts, 0, 2, bytes, 5, &error) && !memcmp(bytes, "onetw", 5));
    CHECK(!hv_read_ends_u64(&numbers, 0, stops, 2, &error) && stops[1] == 2);
    CHECK(!hv_serialize(&numbers, bytes, 5, &size, &error) && size == 2);
}

/* Lists that runs are decoded to have their offsets and sizes in runs, which count as two levels. */
static void check_lists(void) {
    CHECK(!hv_decode(&session, &lists, &out, &error) && hv_length(&out) == 2);
    const size_t over = nest(&out);
    CHECK(over <= MOST && over + 2 >= MOST && levels_of(&out) == over);
    CHECK(!hv_slice(&session, &out, 1, 2, &spare, &error) && hv_length(&spare) == 1);
    CHECK(!hv_decode(&session, &out, &spare, &error) && hv_length(&spare) == 2);
    CHECK(!hv_list_elements(&spare, &out, &error));
    CHECK_ROWS(&out, "0 1");
}

int main(void) {
    const hv_session plain = {0};
    hv_session_initial(&session);
    make_columns();
    check_one_more();
    for (int pass = 0; pass < 2; pass++) {
        check_commands();
        check_builder();
        check_questions();
        check_reads();
        check_lists();
        session = plain; /* no kernel */
    }
    hv_column *all[] = {&ends, &numbers, &truths, &texts, &lists, &out, &spare};
    for (size_t i = 0; i < COUNT(all); i++) hv_free(all[i]);
    puts("64 levels of runs are answered, and one more is refused");
    return 0;
}
