/* Formats: which one the column has that each call makes, by a table of calls, with each request for memory refused in
 * turn; and how the two calls end that set and read one. The linker hands our malloc, calloc, realloc and free to all
 * of the program: cc .. -Wl,--wrap=malloc,--wrap=calloc,--wrap=realloc,--wrap=free */
#include "check.h"
#include "refusing_malloc.h"

enum { ROWS = 40 };
static hv_session session;
static hv_error error;
static hv_column out = HV_EMPTY, out_second = HV_EMPTY;

/* What calls are lent: each column has a format of its own, but `again` that of `times`, and `plain` none. Formats are
 * kept whatever they say. */
typedef struct lent {
    hv_column column;
    const char *format;
} lent;
static lent times = {HV_EMPTY, "tsu:UTC"}, again = {HV_EMPTY, "tsu:UTC"}, lengths = {HV_EMPTY, "tDs"};
static lent plain = {HV_EMPTY, ""}, runs = {HV_EMPTY, "ttn"}, keys = {HV_EMPTY, "g"}, bits = {HV_EMPTY, "of bits"};
static lent mask = {HV_EMPTY, "of a mask"}, places = {HV_EMPTY, "of places"}, ends = {HV_EMPTY, "of ends"};
static lent texts = {HV_EMPTY, "u"}, prices = {HV_EMPTY, "d:10,2"}, lists = {HV_EMPTY, "+l"};
static lent pair = {HV_EMPTY, "tdm"}, minutes = {HV_EMPTY, "tDm"}, keys_again = {HV_EMPTY, "g"};
static lent *const all[] = {&times,  &again, &lengths, &plain,  &runs,  &keys, &bits,    &mask,
                            &places, &ends,  &texts,   &prices, &lists, &pair, &minutes, &keys_again};
static char rows_before[COUNT(all)][8192];
static uint8_t message[4096], plain_message[4096], record[64];
static size_t message_len, plain_len, record_len;

static const char *format_of(const hv_column *column) {
    static char text[64];
    size_t size = 99;
    CHECK(!hv_type(column, (uint8_t *)text, sizeof text - 1, &size, &error) && size < sizeof text);
    text[size] = 0;
    return text;
}

static void check_format(const char *call, const hv_column *column, const char *wanted) {
    if (strcmp(format_of(column), wanted) == 0) return;
    fprintf(stderr, "%s: the format is \"%s\" and should be \"%s\"\n", call, format_of(column), wanted);
    exit(1);
}

static void give(lent *to) {
    hv_column untyped = to->column;
    to->column = (hv_column)HV_EMPTY;
    CHECK_ROWS(&untyped, rows_of(&untyped));
    check_format("a column that was made", &untyped, "");
    CHECK(!hv_with_type(&untyped, (const uint8_t *)to->format, strlen(to->format), &to->column, &error));
    hv_free(&untyped);
}

static void make_lent(void) {
    int64_t items[ROWS], more[ROWS];
    uint64_t patterns[ROWS], offsets[2] = {0, 2}, sizes[2] = {2, 3};
    uint16_t some[5] = {1, 3, 30, 39, 0};
    uint8_t truths[ROWS / 8] = {0x5B, 0xC4, 0x13, 0xFF, 0x0A}, last[2] = {5, 9};
    int32_t cuts[4] = {0, 1, 3, 3};
    const hv_pair pairs[2] = {{5, 0}, {UINT64_MAX, -1}};
    for (int row = 0; row < ROWS; row++) items[row] = row / 3, more[row] = row, patterns[row] = (uint64_t)(row / 4);
    hv_session_initial(&session);
    CHECK(!hv_i64(items, ROWS, NULLS_BY(truths, 0), &times.column, &error));
    CHECK(!hv_i64(more, ROWS, NO_NULLS, &again.column, &error));
    CHECK(!hv_i64(more, ROWS, NO_NULLS, &lengths.column, &error));
    CHECK(!hv_i64(more, ROWS, NO_NULLS, &plain.column, &error));
    CHECK(!hv_encode(&session, &times.column, &runs.column, &error));
    CHECK(!hv_i64(more, ROWS, NO_NULLS, &keys.column, &error));
    CHECK(!hv_u64(patterns, ROWS, NO_NULLS, &bits.column, &error));
    CHECK(!hv_bools(truths, sizeof truths, 0, ROWS, NO_NULLS, &mask.column, &error));
    CHECK(!hv_u16(some, 5, NOT_NULLABLE, &places.column, &error));
    CHECK(!hv_u8(last, 2, NOT_NULLABLE, &ends.column, &error));
    CHECK(!hv_texts(0, cuts, 4, (const uint8_t *)"abc", 3, NO_NULLS, &texts.column, &error));
    CHECK(!hv_decimals(pairs, 2, 10, 2, NO_NULLS, &prices.column, &error));
    CHECK(!hv_i64(more, 2, NO_NULLS, &pair.column, &error) && !hv_i64(more, 3, NO_NULLS, &minutes.column, &error));
    CHECK(!hv_i64(items, ROWS, NO_NULLS, &keys_again.column, &error));
    CHECK(!hv_lists(&plain.column, offsets, 2, sizes, 2, NO_NULLS, &lists.column, &error));
    for (size_t i = 0; i < COUNT(all); i++) {
        give(all[i]);
        CHECK(strlen(rows_of(&all[i]->column)) < sizeof rows_before[i]);
        strcpy(rows_before[i], rows_of(&all[i]->column));
    }
    CHECK(!hv_runs(&ends.column, &pair.column, 0, 9, &out, &error));
    CHECK(!hv_serialize(&out, record, sizeof record, &record_len, &error));
    CHECK(!hv_write(&times.column, message, sizeof message, &message_len, &error));
    CHECK(!hv_write(&plain.column, plain_message, sizeof plain_message, &plain_len, &error));
}

static void check_lent(const char *call) {
    for (size_t i = 0; i < COUNT(all); i++) {
        CHECK_ROWS(&all[i]->column, rows_before[i]);
        check_format(call, &all[i]->column, all[i]->format);
    }
}

/* ---- The calls ---- */

static const hv_kind i32_or_null = {HV_I32, 1, 0, 0}, i64_or_null = {HV_I64, 1, 0, 0};
static const hv_value five = {.kind = HV_SIGNED, .as_signed = 5};
#define CALL(name, call) \
    static int32_t name(void) { return call; }
CALL(clone, hv_clone(&times.column, &out, &error))
CALL(clone_lists, hv_clone(&lists.column, &out, &error))
CALL(compact, hv_compact(&times.column, &out, &error))
CALL(encode, hv_encode(&session, &times.column, &out, &error))
CALL(decode, hv_decode(&session, &runs.column, &out, &error))
CALL(encode_rows, hv_encode_rows(&texts.column, &out, &error))
CALL(slice, hv_slice(&session, &times.column, 3, 30, &out, &error))
CALL(slice_runs, hv_slice(&session, &runs.column, 3, 30, &out, &error))
CALL(slice_lists, hv_slice(&session, &lists.column, 1, 2, &out, &error))
CALL(take, hv_take(&session, &runs.column, &places.column, &out, &error))
CALL(take_from, hv_take_from(&session, &places.column, &times.column, &out, &error))
CALL(filter, hv_filter(&session, &runs.column, &mask.column, &out, &error))
CALL(fill, hv_fill(&session, &times.column, &five, NO_TEXT, &out, &error))
CALL(reverse, hv_reverse(&times.column, &out, &error))
CALL(sort, hv_sort(&runs.column, &out, &error))
CALL(run_values, hv_values(&runs.column, &out, &error))
CALL(run_ends, hv_ends(&runs.column, &out, &error))
CALL(give_format, hv_with_type(&times.column, (const uint8_t *)"tdD", 3, &out, &error))
CALL(take_format, hv_with_type(&times.column, NULL, 0, &out, &error))
CALL(choose_same, hv_if_else(&mask.column, &times.column, &again.column, &out, &error))
CALL(choose_other, hv_if_else(&mask.column, &times.column, &lengths.column, &out, &error))
CALL(choose_plain, hv_if_else(&mask.column, &plain.column, &times.column, &out, &error))
CALL(cast, hv_cast(&session, &times.column, &i32_or_null, &out, &error))
CALL(compare, hv_compare(&session, &times.column, HV_LT, &again.column, &out, &error))
CALL(compare_scalar, hv_compare_scalar(&session, &times.column, HV_LT, &five, NO_TEXT, &out, &error))
CALL(compare_number, hv_compare_number(&keys.column, HV_LT, &five, &out, &error))
CALL(add, hv_combine(&times.column, HV_ADD, &again.column, &out, &error))
CALL(coalesce, hv_combine(&times.column, HV_COALESCE, &again.column, &out, &error))
CALL(negate, hv_not(&mask.column, &out, &error))
CALL(nulls, hv_is_null(&times.column, &out, &error))
CALL(valid, hv_is_valid(&times.column, &out, &error))
CALL(float_encode, hv_float_encode(&bits.column, 0, &out, &error))
CALL(float_decode, hv_float_decode(&keys.column, &out, &error))
CALL(float_compare, hv_float_compare(&keys.column, HV_LT, 7, 1, &out, &error))
CALL(float_cast, hv_float_cast(&keys.column, HV_I32, 1, &out, &error))
CALL(float_of_integers, hv_float_of_integers(&times.column, HV_I64, 0, &out, &error))
CALL(float_add, hv_float_combine(&keys.column, HV_ADD, &keys_again.column, &out, &error))
CALL(decimal_cast, hv_decimal_cast(&prices.column, 12, 3, &out, &error))
CALL(decimal_of_integers, hv_decimal_cast(&times.column, 12, 2, &out, &error))
CALL(elements, hv_list_elements(&lists.column, &out, &error))
CALL(offsets_of_lists, hv_list_offsets(&lists.column, &out, &error))
CALL(sizes_of_lists, hv_list_sizes(&lists.column, &out, &error))
CALL(flags_of_lists, hv_list_validity(&lists.column, &out, &error))
CALL(constant, hv_constant(&i64_or_null, &five, NO_TEXT, 9, &out, &error))
CALL(counts, hv_value_counts(&times.column, &out, &out_second, &error))
CALL(totals, hv_running_totals(&times.column, &out, &out_second, &error))
#define FOLD(name, fold) CALL(name, hv_fold_by(&times.column, &lengths.column, fold, &out, &out_second, &error))
FOLD(sum_by, HV_FOLD_SUM)
FOLD(rows_by, HV_FOLD_ROWS)
FOLD(count_by, HV_FOLD_COUNT)
FOLD(least_by, HV_FOLD_LEAST)
FOLD(greatest_by, HV_FOLD_GREATEST)
FOLD(first_by, HV_FOLD_FIRST)
FOLD(last_by, HV_FOLD_LAST)
CALL(first_by_texts, hv_fold_by(&texts.column, &minutes.column, HV_FOLD_FIRST, &out, &out_second, &error))
CALL(make_runs, hv_runs(&ends.column, &pair.column, 0, 9, &out, &error))
CALL(of_record, hv_deserialize(&i64_or_null, 9, record, record_len, &ends.column, &pair.column, &out, &error))
CALL(make_lists, hv_lists(&times.column, (const uint64_t[]){3}, 1, (const uint64_t[]){4}, 1, NO_NULLS, &out, &error))

CALL(read_message, hv_read_column(message, message_len, &out, &error))
CALL(read_plain, hv_read_column(plain_message, plain_len, &out, &error))

static int32_t build(bool ends_builder) {
    hv_builder builder = HV_EMPTY;
    int32_t answer = hv_builder_new(&i64_or_null, &builder, &error);
    if (!answer) answer = hv_append(&builder, &times.column, &error);
    if (!answer) answer = ends_builder ? hv_finish(&builder, &out, &error) : hv_encoding(&builder, &out, &error);
    hv_builder_free(&builder);
    return answer;
}
static int32_t encoding(void) { return build(false); }
static int32_t finish(void) { return build(true); }

/* Each call, the format that its column has then, and that of the second where it makes two. */
typedef struct made {
    const char *name;
    int32_t (*call)(void);
    const char *format, *second;
} made;
#define MADE(name, ...) {#name, name, __VA_ARGS__}
static const made table[] = {
    MADE(clone, "tsu:UTC", NULL), MADE(clone_lists, "+l", NULL), MADE(compact, "tsu:UTC", NULL),
    MADE(encode, "tsu:UTC", NULL), MADE(decode, "ttn", NULL), MADE(encode_rows, "u", NULL),
    MADE(slice, "tsu:UTC", NULL), MADE(slice_runs, "ttn", NULL), MADE(slice_lists, "+l", NULL),
    MADE(take, "ttn", NULL), MADE(take_from, "tsu:UTC", NULL), MADE(filter, "ttn", NULL), MADE(fill, "tsu:UTC", NULL),
    MADE(reverse, "tsu:UTC", NULL), MADE(sort, "ttn", NULL), MADE(run_values, "ttn", NULL), MADE(run_ends, "", NULL),
    MADE(give_format, "tdD", NULL), MADE(take_format, "", NULL), MADE(choose_same, "tsu:UTC", NULL),
    MADE(choose_other, "", NULL), MADE(choose_plain, "", NULL), MADE(make_runs, "tdm", NULL),
    MADE(of_record, "tdm", NULL), MADE(counts, "tsu:UTC", ""), MADE(totals, "", ""), MADE(sum_by, "tsu:UTC", ""),
    MADE(rows_by, "tsu:UTC", ""), MADE(count_by, "tsu:UTC", ""), MADE(least_by, "tsu:UTC", "tDs"),
    MADE(greatest_by, "tsu:UTC", "tDs"), MADE(first_by, "tsu:UTC", "tDs"), MADE(last_by, "tsu:UTC", "tDs"),
    MADE(first_by_texts, "u", "tDm"), MADE(cast, "", NULL), MADE(compare, "", NULL), MADE(compare_scalar, "", NULL),
    MADE(compare_number, "", NULL),
    MADE(add, "", NULL), MADE(coalesce, "", NULL), MADE(negate, "", NULL), MADE(nulls, "", NULL), MADE(valid, "", NULL),
    MADE(float_encode, "", NULL), MADE(float_decode, "", NULL), MADE(float_compare, "", NULL),
    MADE(float_cast, "", NULL), MADE(float_of_integers, "", NULL), MADE(float_add, "", NULL),
    MADE(decimal_cast, "", NULL), MADE(decimal_of_integers, "", NULL), MADE(elements, "", NULL),
    MADE(offsets_of_lists, "", NULL), MADE(sizes_of_lists, "", NULL), MADE(flags_of_lists, "", NULL),
    MADE(make_lists, "", NULL), MADE(constant, "", NULL), MADE(read_message, "tsu:UTC", NULL),
    MADE(read_plain, "", NULL), MADE(encoding, "", NULL), MADE(finish, "", NULL),
};

/* Both columns hold 42 under a format of their own before each call, and after a refusal. */
static const char *const kept = "of a column before";
static void reset(hv_column *column) {
    const uint8_t answer[1] = {42};
    hv_column untyped = HV_EMPTY;
    CHECK(!hv_u8(answer, 1, NOT_NULLABLE, &untyped, &error));
    CHECK(!hv_with_type(&untyped, (const uint8_t *)kept, strlen(kept), column, &error));
    hv_free(&untyped);
}

static void check_kept(const char *call, const hv_column *column) {
    CHECK_ROWS(column, "42");
    check_format(call, column, kept);
}

/* One call, in which request `number` is refused, and with `rest` all after it. Whether it was. */
static bool try_call(const made *it, long number, bool rest) {
    reset(&out), reset(&out_second);
    const long blocks_before = blocks, refused_before = refused;
    requests = 0, refuse_rest = rest, refuse_at = number;
    const int32_t answer = it->call();
    refuse_at = -1;
    const bool was_refused = refused > refused_before;
    if (answer && !(answer == HV_OUT_OF_MEMORY && was_refused)) {
        fprintf(stderr, "%s, request %ld refused: answered %" PRId32 "\n", it->name, number, answer);
        exit(1);
    }
    if (answer) {
        check_kept(it->name, &out), check_kept(it->name, &out_second);
        CHECK(blocks == blocks_before);
    } else {
        check_format(it->name, &out, it->format);
        if (it->second) check_format(it->name, &out_second, it->second);
        else check_kept(it->name, &out_second);
    }
    check_lent(it->name);
    return was_refused;
}

/* ---- How the two calls end ---- */

static void check_reading(void) {
    uint8_t room[16];
    hv_column empty = HV_EMPTY;
    for (size_t len = 0; len < 7; len++) {
        size_t size = 99;
        memset(room, 'x', sizeof room);
        CHECK_REFUSED(hv_type(&times.column, room, len, &size, &error), HV_COLUMN_LENGTH, 7, len, 0);
        CHECK(size == 99 && room[0] == 'x');
    }
    for (size_t len = 7; len <= sizeof room; len++) {
        size_t size = 99;
        memset(room, 'x', sizeof room);
        requests = 0;
        CHECK(!hv_type(&times.column, room, len, &size, &error) && size == 7 && memcmp(room, "tsu:UTC", 7) == 0);
        CHECK(requests == 0 && memcmp(room + 7, "xxxxxxxxx", sizeof room - 7) == 0);
    }
    size_t size = 99;
    CHECK(!hv_type(&plain.column, NULL, 0, &size, &error) && size == 0);
    size = 99;
    CHECK(hv_type(&empty, room, sizeof room, &size, &error) == HV_NO_COLUMN && size == 99);
    CHECK_REFUSED(hv_type(&times.column, NULL, 9, &size, &error), HV_COLUMN_LENGTH, 9, 0, HV_ABOUT_NULL);
}

static void check_setting(void) {
    static const struct {
        const char *bytes;
        size_t len;
    } wrong[] = {{"\xff", 1}, {"ts\xc3", 3}, {"\xed\xa0\x80", 3}, {"\xf4\x90\x80\x80", 4}, {"\xc0\x80", 2}};
    hv_column empty = HV_EMPTY;
    reset(&out);
    for (size_t i = 0; i < COUNT(wrong); i++) {
        const uint8_t *text = (const uint8_t *)wrong[i].bytes;
        requests = 0;
        CHECK_REFUSED(hv_with_type(&times.column, text, wrong[i].len, &out, &error), HV_TYPE_MISMATCH, 0, 0, 0);
        CHECK(requests == 0);
        CHECK(hv_with_type(&empty, text, wrong[i].len, &out, &error) == HV_NO_COLUMN);
        check_kept("hv_with_type", &out);
    }
    CHECK(hv_with_type(&empty, NULL, 0, &out, &error) == HV_NO_COLUMN);
    CHECK_REFUSED(hv_with_type(&times.column, NULL, 3, &out, &error), HV_COLUMN_LENGTH, 3, 0, HV_ABOUT_NULL);
    check_kept("hv_with_type", &out);
    /* any other text is kept, with a 0 in it, and longer than the one before */
    size_t size = 0;
    uint8_t room[8];
    CHECK(!hv_with_type(&times.column, (const uint8_t *)"a\0\xc3\xa9", 4, &out, &error));
    CHECK(!hv_type(&out, room, sizeof room, &size, &error) && size == 4 && memcmp(room, "a\0\xc3\xa9", 4) == 0);
    CHECK_ROWS(&out, rows_before[0]);
    check_lent("hv_with_type");
}

int main(void) {
    make_lent();
    for (size_t i = 0; i < COUNT(table); i++)
        for (int rest = 0; rest < 2; rest++)
            for (long number = 0; try_call(&table[i], number, rest); number++) continue;
    check_reading();
    check_setting();
    hv_free(&out), hv_free(&out_second);
    for (size_t i = 0; i < COUNT(all); i++) hv_free(&all[i]->column);
    CHECK(blocks == 0);
    printf("%zu calls, %ld requests for memory refused, each format as it should be, no block lost\n", COUNT(table),
           refused);
    return 0;
}
