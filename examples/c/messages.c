/* Columns as bytes, and back. What each message has to be is here byte by byte, from the page on bytes. */
#include "check.h"

static hv_session session;
static hv_error error;

/* 7, null over a stored 0, of i16, with a bit for each row */
static const uint8_t flat_message[] = {0x08, 1, 0x10, 6, 0x18, 1, 0x20, 2, 0x28, 4, 0x32, 1, 1, 0x3a, 4, 7, 0, 0, 0};
/* 7, 7, 7, null, null: runs over them, with ends of u8 */
static const uint8_t runs_message[] = {0x08, 1, 0x10, 6, 0x18, 2, 0x20, 5, 0x40, 0, 0x48, 1, 0x52, 2, 3, 2, 0x5a, 19,
                                       0x08, 1, 0x10, 6, 0x18, 1, 0x20, 2, 0x28, 4, 0x32, 1, 1, 0x3a, 4, 7, 0, 0, 0};
/* 7, null: rows 2 and 3 of these, whose first run has three rows; the window of two rows is kept */
static const uint8_t window_message[] = {0x08, 1, 0x10, 6, 0x18, 2, 0x20, 2, 0x40, 2, 0x48, 1, 0x52, 2, 3, 2, 0x5a, 19,
                                         0x08, 1, 0x10, 6, 0x18, 1, 0x20, 2, 0x28, 4, 0x32, 1, 1, 0x3a, 4, 7, 0, 0, 0};

/* decimals -1.50 and 1.50 of precision 5 and scale 2, of a type without null */
#define ONES_4 0xff, 0xff, 0xff, 0xff
#define ZEROS_5 0, 0, 0, 0, 0
static const uint8_t decimals_message[] = {0x08, 1, 0x10, 10, 0x18, 1, 0x20, 2, 0x28, 1, 0x3a, 32,
                                           0x6a, 0xff, 0xff, 0xff, ONES_4, ONES_4, ONES_4,
                                           0x96, ZEROS_5, ZEROS_5, ZEROS_5, 0x70, 5, 0x78, 4};
/* "ab" in each of 2^60 rows, of a type without null; 258 of u16 in three rows, of one with null; null of bytes in two */
static const uint8_t text_message[] = {0x08, 1, 0x10, 11, 0x18, 3, 0x20, 0x80, 0x80, 0x80, 0x80, 0x80, 0x80, 0x80, 0x80,
                                       0x10, 0x28, 1, 0x3a, 2, 'a', 'b'};
/* "ab", null, "" and "c" */
static const uint8_t texts_message[] = {0x08, 1, 0x10, 11, 0x18, 1, 0x20, 4, 0x28, 4, 0x32, 1, 0x0d,
                                        0x62, 4, 2, 0, 0, 1, 0x6a, 3, 'a', 'b', 'c'};
static const uint8_t number_message[] = {0x08, 1, 0x10, 2, 0x18, 3, 0x20, 3, 0x28, 2, 0x3a, 2, 2, 1};
static const uint8_t null_message[] = {0x08, 1, 0x10, 12, 0x18, 3, 0x20, 2, 0x28, 3, 0x3a, 0};
/* the decimal 0.50 of precision 5 and scale 2 in two rows, of a type without null; null of these in three */
static const uint8_t half_message[] = {0x08, 1, 0x10, 10, 0x18, 3, 0x20, 2, 0x28, 1, 0x3a, 16,
                                       50, ZEROS_5, ZEROS_5, ZEROS_5, 0x70, 5, 0x78, 4};
static const uint8_t no_decimal_message[] = {0x08, 1, 0x10, 10, 0x18, 3, 0x20, 3, 0x28, 3, 0x3a, 0, 0x70, 5, 0x78, 4};
/* [1 2], null from item 9 on, [2], over the items 1 and 2 of i8, with a bit for each list */
#define WORD(number) number, 0, 0, 0, 0, 0, 0, 0
#define THREE_WORDS(a, b, c) \
    0x08, 1, 0x10, 4, 0x18, 1, 0x20, 3, 0x28, 1, 0x3a, 24, WORD(a), WORD(b), WORD(c)
static const uint8_t lists_message[] = {0x08, 1, 0x10, 13, 0x18, 4, 0x20, 3, 0x28, 4, 0x32, 1, 5,
                                        0x8a, 1, 14, 0x08, 1, 0x10, 5, 0x18, 1, 0x20, 2, 0x28, 1, 0x3a, 2, 1, 2,
                                        0x92, 1, 36, THREE_WORDS(0, 9, 1), 0x9a, 1, 36, THREE_WORDS(2, 3, 1)};
/* null of lists in each of two rows, whose elements are of i8 without null */
static const uint8_t null_lists_message[] = {0x08, 1, 0x10, 13, 0x18, 3, 0x20, 2, 0x28, 3, 0x3a, 0,
                                             0xa0, 1, 5, 0xa8, 1, 1};
enum { LONGEST = 128 }; /* bytes */

static hv_column flat = HV_EMPTY, runs = HV_EMPTY, window = HV_EMPTY, decimals = HV_EMPTY;

static void make_columns(void) {
    const int16_t two[2] = {7, 0};
    const hv_pair pairs[2] = {{UINT64_MAX - 149, -1}, {150, 0}};
    const uint8_t first[1] = {1}, two_ends[2] = {3, 5};
    hv_column ends = HV_EMPTY;
    CHECK(!hv_i16(two, 2, NULLS_BY(first, 0), &flat, &error) && !hv_u8(two_ends, 2, NOT_NULLABLE, &ends, &error));
    CHECK(!hv_runs(&ends, &flat, 0, 5, &runs, &error) && !hv_slice(&session, &runs, 2, 4, &window, &error));
    CHECK(!hv_decimals(pairs, 2, 5, 2, NOT_NULLABLE, &decimals, &error));
    hv_free(&ends);
}

/* Is each of these bytes as FILL left it? */
static bool is_filled(const uint8_t *bytes, size_t len) {
    for (size_t at = 0; at < len; at++)
        if (bytes[at] != 0xA5) return false;
    return true;
}

static bool is_message(const uint8_t *bytes, size_t len) {
    uint8_t truth;
    FILL(truth);
    CHECK(!hv_is_message(bytes, len, &truth, &error) && truth <= 1);
    return truth;
}

/* The message of a column is these bytes, after which nothing is written; with room for one less there is none, and
 * nothing is written at all; what is read of it has these rows. */
static void check_message(hv_column *column, const uint8_t *message, size_t len, const char *rows) {
    uint8_t written[LONGEST];
    size_t size;
    FILL(size);
    CHECK(!hv_write_size(column, &size, &error) && size == len);
    FILL(size), FILL(written);
    CHECK(!hv_write(column, written, len, &size, &error) && size == len && memcmp(written, message, len) == 0);
    CHECK(is_filled(written + len, sizeof written - len));
    FILL(written);
    CHECK_REFUSED(hv_write(column, written, len - 1, &size, &error), 11, len, len - 1, 0);
    CHECK(is_filled(written, sizeof written));
    CHECK_ROWS(column, rows);

    hv_column read = HV_EMPTY;
    uint8_t form, read_form;
    CHECK(is_message(message, len) && !hv_read_column(message, len, &read, &error));
    CHECK_ROWS(&read, rows);
    form = hv_form(column), read_form = hv_form(&read);
    CHECK(form == read_form && hv_offset(column) == hv_offset(&read));
    hv_free(&read);
}

/* What is cut short or goes on is none, and leaves what the handle holds; each changed byte has an answer. */
static void check_damaged(const uint8_t *message, size_t len) {
    uint8_t damaged[LONGEST];
    hv_column out = HV_EMPTY;
    CHECK(!hv_clone(&flat, &out, &error));
    for (size_t kept = 0; kept < len; kept++) {
        memcpy(damaged, message, len);
        CHECK_REFUSED(hv_read_column(damaged, kept, &out, &error), 17, 0, 0, 0);
        CHECK(!is_message(damaged, kept));
    }
    damaged[len] = 0;
    CHECK_REFUSED(hv_read_column(damaged, len + 1, &out, &error), 17, 0, 0, 0);
    CHECK(!is_message(damaged, len + 1));
    CHECK_ROWS(&out, "7 null");
    for (size_t at = 0; at < len; at++)
        for (int bit = 0; bit < 8; bit++) {
            memcpy(damaged, message, len);
            damaged[at] = (uint8_t)(damaged[at] ^ 1 << bit);
            int32_t answer = hv_read_column(damaged, len, &out, &error);
            CHECK((answer == 0 || answer == 17) && is_message(damaged, len) == (answer == 0));
            if (answer) continue;
            /* what was read has these bytes, and no others */
            uint8_t again[LONGEST];
            size_t size;
            CHECK(!hv_write(&out, again, sizeof again, &size, &error) && size == len && !memcmp(again, damaged, len));
        }
    hv_free(&out);
}

/* Constants: what is written of them, and what is read. */
static void check_constants(void) {
    const hv_kind text = {HV_UTF8, 0, 0, 0}, number = {HV_U16, 1, 0, 0};
    const hv_kind bytes = {HV_BINARY, 1, 0, 0}, decimal = {HV_DECIMAL, 0, 5, 2}, no_decimal = {HV_DECIMAL, 1, 5, 2};
    const hv_value ab = {.kind = HV_TEXT, .as_unsigned = 2}, large = {.kind = HV_UNSIGNED, .as_unsigned = 258};
    const hv_value null = {.kind = HV_NULL}, half = {.kind = HV_DECIMAL_VALUE, .as_unsigned = 50};
    hv_column column = HV_EMPTY, read = HV_EMPTY;
    uint8_t written[64];
    size_t size;
    CHECK(!hv_constant(&text, &ab, (const uint8_t *)"ab", 2, (size_t)1 << 60, &column, &error));
    CHECK(!hv_write(&column, written, sizeof written, &size, &error) && size == sizeof text_message);
    CHECK(memcmp(written, text_message, size) == 0 && !hv_read_column(written, size, &read, &error));
    CHECK(hv_length(&read) == (size_t)1 << 60 && hv_form(&read) == HV_FORM_CONSTANT);
    CHECK(!hv_slice(&session, &read, 5, 7, &column, &error));
    CHECK_ROWS(&column, "\"ab\" \"ab\"");
    CHECK(!hv_constant(&number, &large, NO_TEXT, 3, &column, &error));
    check_message(&column, number_message, sizeof number_message, "258 258 258");
    CHECK(!hv_constant(&bytes, &null, NO_TEXT, 2, &column, &error));
    check_message(&column, null_message, sizeof null_message, "null null");
    CHECK(!hv_constant(&decimal, &half, NO_TEXT, 2, &column, &error));
    check_message(&column, half_message, sizeof half_message, "0:50 0:50");
    CHECK(!hv_constant(&no_decimal, &null, NO_TEXT, 3, &column, &error));
    check_message(&column, no_decimal_message, sizeof no_decimal_message, "null null null");
    hv_free(&column), hv_free(&read);
}

/* Flat texts: what null covers, and what no row shows, is not written. */
static void check_texts(void) {
    const int32_t offsets[5] = {1, 3, 5, 5, 6};
    const uint8_t valid[1] = {0x0d};
    hv_column texts = HV_EMPTY;
    CHECK(!hv_texts(0, offsets, 5, (const uint8_t *)"-abxxc-", 7, NULLS_BY(valid, 0), &texts, &error));
    check_message(&texts, texts_message, sizeof texts_message, "\"ab\" null \"\" \"c\"");
    hv_free(&texts);
}

/* Lists, of which a null one may lie anywhere: their parts are those that were written. */
static void check_lists(void) {
    const int8_t items[2] = {1, 2};
    const uint64_t offsets[3] = {0, 9, 1}, sizes[3] = {2, 3, 1};
    const uint8_t valid[1] = {5};
    hv_column elements = HV_EMPTY, lists = HV_EMPTY, read = HV_EMPTY, part = HV_EMPTY;
    CHECK(!hv_i8(items, 2, NOT_NULLABLE, &elements, &error));
    CHECK(!hv_lists(&elements, offsets, 3, sizes, 3, NULLS_BY(valid, 0), &lists, &error));
    const char *const no_value = "refused:13 refused:13 refused:13"; /* hv_at has no lists */
    check_message(&lists, lists_message, sizeof lists_message, no_value);
    CHECK(!hv_read_column(lists_message, sizeof lists_message, &read, &error));
    CHECK(hv_form(&read) == HV_FORM_LISTS && hv_length(&read) == 3 && hv_kind_of(&read).nullable == 1);
    CHECK(!hv_list_elements(&read, &part, &error) && hv_kind_of(&part).number == HV_I8);
    CHECK_ROWS(&part, "1 2");
    CHECK(!hv_list_offsets(&read, &part, &error));
    CHECK_ROWS(&part, "0 9 1");
    CHECK(!hv_list_sizes(&read, &part, &error));
    CHECK_ROWS(&part, "2 3 1");
    CHECK(!hv_list_validity(&read, &part, &error));
    CHECK_ROWS(&part, "true false true");
    hv_free(&elements), hv_free(&lists), hv_free(&read), hv_free(&part);
}

/* What `levels` more levels of runs over the column are written as: read again, or refused, and nothing is written. */
static void check_levels(hv_column *column, int levels, int32_t answer) {
    const uint8_t last[1] = {1};
    uint8_t room[1024];
    size_t size;
    hv_column ends = HV_EMPTY, over = HV_EMPTY, next = HV_EMPTY, read = HV_EMPTY;
    CHECK(!hv_u8(last, 1, NOT_NULLABLE, &ends, &error) && !hv_clone(column, &over, &error));
    for (int level = 0; level < levels; level++)
        CHECK(!hv_runs(&ends, &over, 0, 1, &next, &error) && !hv_clone(&next, &over, &error));
    CHECK(hv_write_size(&over, &size, &error) == answer);
    FILL(room);
    CHECK(hv_write(&over, room, sizeof room, &size, &error) == answer);
    if (answer) CHECK(is_filled(room, sizeof room));
    else CHECK(!hv_read_column(room, size, &read, &error) && hv_length(&read) == 1);
    hv_free(&ends), hv_free(&over), hv_free(&next), hv_free(&read);
}

/* Rows of lists that no index names are a constant, null: its bytes say of which type the elements would be. */
static void check_null_lists(void) {
    const int8_t items[2] = {1, 2};
    const uint64_t offsets[1] = {0}, sizes[1] = {2};
    const uint8_t last[1] = {1}, indices[2] = {0, 0}, none[1] = {0};
    hv_column elements = HV_EMPTY, lists = HV_EMPTY, ends = HV_EMPTY, over = HV_EMPTY, places = HV_EMPTY;
    hv_column taken = HV_EMPTY, read = HV_EMPTY, decoded = HV_EMPTY, part = HV_EMPTY;
    CHECK(!hv_i8(items, 2, NOT_NULLABLE, &elements, &error));
    CHECK(!hv_lists(&elements, offsets, 1, sizes, 1, NOT_NULLABLE, &lists, &error));
    CHECK(!hv_u8(last, 1, NOT_NULLABLE, &ends, &error) && !hv_runs(&ends, &lists, 0, 1, &over, &error));
    CHECK(!hv_u8(indices, 2, NULLS_BY(none, 0), &places, &error));
    CHECK(!hv_take(&session, &over, &places, &taken, &error) && hv_form(&taken) == HV_FORM_CONSTANT);
    check_message(&taken, null_lists_message, sizeof null_lists_message, "refused:13 refused:13");
    CHECK(!hv_read_column(null_lists_message, sizeof null_lists_message, &read, &error));
    CHECK(hv_kind_of(&read).number == HV_LIST && hv_kind_of(&read).nullable == 1 && hv_length(&read) == 2);
    CHECK(!hv_decode(&session, &read, &decoded, &error) && hv_form(&decoded) == HV_FORM_LISTS);
    CHECK(!hv_list_elements(&decoded, &part, &error) && hv_kind_of(&part).number == HV_I8);
    CHECK(hv_kind_of(&part).nullable == 0 && hv_length(&part) == 0);
    CHECK(!hv_list_validity(&decoded, &part, &error));
    CHECK_ROWS(&part, "false false");
    CHECK(!hv_slice(&session, &read, 1, 2, &part, &error));
    check_levels(&part, 16, HV_OK), check_levels(&part, 17, HV_UNSUPPORTED);
    hv_free(&elements), hv_free(&lists), hv_free(&ends), hv_free(&over), hv_free(&places);
    hv_free(&taken), hv_free(&read), hv_free(&decoded), hv_free(&part);
}

/* A seventeenth level of runs has no message; lists that runs are decoded to have two levels. An empty handle has no
 * column. */
static void check_none(void) {
    const uint64_t offsets[1] = {0}, sizes[1] = {2};
    const uint8_t last[1] = {1};
    hv_column lists = HV_EMPTY, ends = HV_EMPTY, runs_of_lists = HV_EMPTY, decoded = HV_EMPTY, none = HV_EMPTY;
    uint8_t room[64];
    size_t size;
    CHECK(!hv_lists(&flat, offsets, 1, sizes, 1, NOT_NULLABLE, &lists, &error));
    CHECK(!hv_u8(last, 1, NOT_NULLABLE, &ends, &error) && !hv_runs(&ends, &lists, 0, 1, &runs_of_lists, &error));
    CHECK(!hv_decode(&session, &runs_of_lists, &decoded, &error) && hv_form(&decoded) == HV_FORM_LISTS);
    check_levels(&lists, 16, HV_OK), check_levels(&lists, 17, HV_UNSUPPORTED);
    check_levels(&decoded, 14, HV_OK), check_levels(&decoded, 15, HV_UNSUPPORTED);
    CHECK(hv_write_size(&none, &size, &error) == 22 && hv_write(&none, room, sizeof room, &size, &error) == 22);
    hv_free(&lists), hv_free(&ends), hv_free(&runs_of_lists), hv_free(&decoded);
}

int main(void) {
    hv_session_initial(&session);
    make_columns();
    check_message(&flat, flat_message, sizeof flat_message, "7 null");
    check_message(&runs, runs_message, sizeof runs_message, "7 7 7 null null");
    check_message(&window, window_message, sizeof window_message, "7 null");
    check_message(&decimals, decimals_message, sizeof decimals_message, "-1:18446744073709551466 0:150");
    check_constants();
    check_texts();
    check_lists();
    check_null_lists();
    check_damaged(flat_message, sizeof flat_message);
    check_damaged(runs_message, sizeof runs_message);
    check_damaged(window_message, sizeof window_message);
    check_damaged(decimals_message, sizeof decimals_message);
    check_damaged(text_message, sizeof text_message);
    check_damaged(half_message, sizeof half_message);
    check_damaged(no_decimal_message, sizeof no_decimal_message);
    check_damaged(texts_message, sizeof texts_message);
    check_damaged(lists_message, sizeof lists_message);
    check_damaged(null_lists_message, sizeof null_lists_message);
    check_none();
    hv_free(&flat), hv_free(&runs), hv_free(&window), hv_free(&decimals);
    puts("columns and their bytes agree");
    return 0;
}
