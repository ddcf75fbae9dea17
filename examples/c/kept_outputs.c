/* A refused call writes nothing but its error: each number, text, word and column holds what it held before. And what
 * no line of vectors asks: long texts as messages, the bytes of lists, sums of no rows, and null rows of windows. */
#include "check.h"

enum { LONG_TEXT = 70000, PART = 65536, PARTS = 32768, MARK = 0xA5 };

static hv_error error;
static hv_session session;
static hv_column out = HV_EMPTY, empty = HV_EMPTY;

/* whether each byte is the mark that FILL puts there */
static bool is_kept(const void *what, size_t size) {
    for (size_t i = 0; i < size; i++)
        if (((const uint8_t *)what)[i] != MARK) return false;
    return true;
}

#define CHECK_KEPT(what) CHECK(is_kept(&(what), sizeof(what)))

static void make_texts(hv_column *texts) {
    const int32_t offsets[4] = {0, 1, 6, 9};
    CHECK(!hv_texts(0, offsets, 4, (const uint8_t *)"abbbbbccc", 9, NOT_NULLABLE, texts, &error));
}

/* lists [7] [8], with sizes in runs of u8 ends where they are to be: the message that is in docs/BYTES.md, shortened */
static void make_lists(hv_column *lists) {
    const uint8_t message[] = {
        0x08, 1, 0x10, 13, 0x18, 4, 0x20, 2, 0x28, 1,                                              /* two lists */
        0x8a, 1, 14, 0x08, 1, 0x10, 1, 0x18, 1, 0x20, 2, 0x28, 1, 0x3a, 2, 7, 8,                   /* of 7 and 8 */
        0x92, 1, 28, 0x08, 1, 0x10, 4, 0x18, 1, 0x20, 2, 0x28, 1, 0x3a, 16, 0, 0, 0, 0, 0, 0, 0, 0, /* from 0 */
        1, 0, 0, 0, 0, 0, 0, 0,                                                                    /* and from 1 on */
        0x9a, 1, 37, 0x08, 1, 0x10, 4, 0x18, 2, 0x20, 2, 0x40, 0, 0x48, 1, 0x52, 1, 2,            /* a run of sizes */
        0x5a, 20, 0x08, 1, 0x10, 4, 0x18, 1, 0x20, 1, 0x28, 1, 0x3a, 8, 1, 0, 0, 0, 0, 0, 0, 0,    /* each of 1 */
    };
    CHECK(!hv_read_column(message, sizeof message, lists, &error));
}

static void check_texts_and_words(void) {
    hv_column texts = HV_EMPTY;
    hv_value least, greatest;
    uint8_t text[2], room[3];
    make_texts(&texts);
    FILL(least), FILL(greatest), FILL(text), FILL(room);
    CHECK_REFUSED(hv_at(&texts, 1, &least, text, 2, &error), HV_COLUMN_LENGTH, 5, 2, 0);
    CHECK_KEPT(least);
    CHECK_KEPT(text);
    /* there is room for the least, and none for the greatest */
    CHECK_REFUSED(hv_min_max(&session, &texts, &least, text, 2, &greatest, room, 2, &error), HV_COLUMN_LENGTH, 3, 2, 0);
    CHECK_KEPT(least);
    CHECK_KEPT(greatest);
    CHECK_KEPT(text);
    CHECK_KEPT(room);
    CHECK_REFUSED(hv_min_max(&session, &texts, &least, text, 0, &greatest, room, 3, &error), HV_COLUMN_LENGTH, 1, 0, 0);
    CHECK_KEPT(least);
    CHECK_KEPT(greatest);
    CHECK_KEPT(room);
    uint64_t words[2];
    FILL(words);
    CHECK_REFUSED(hv_read_validity(&texts, words, 2, &error), HV_COLUMN_LENGTH, 1, 2, 0);
    CHECK_KEPT(words);
    size_t start, stop;
    FILL(start), FILL(stop);
    hv_column runs = HV_EMPTY;
    CHECK(!hv_encode_rows(&texts, &runs, &error));
    CHECK_REFUSED(hv_run(&runs, 3, &start, &stop, &least, room, 3, &error), HV_OUT_OF_BOUNDS, 3, 3, 0);
    CHECK_REFUSED(hv_run(&runs, 1, &start, &stop, &least, room, 3, &error), HV_COLUMN_LENGTH, 5, 3, 0);
    CHECK_KEPT(start);
    CHECK_KEPT(stop);
    CHECK_KEPT(least);
    CHECK_KEPT(room);
    hv_free(&texts);
    hv_free(&runs);
}

/* 2^31 bytes in all, of which no int32_t has the last offset */
static void check_offsets(void) {
    static uint8_t part[PART];
    static int32_t offsets[PARTS + 1];
    const hv_kind utf8 = {HV_UTF8, 0, 0, 0};
    const hv_value value = {PART, 0, HV_TEXT, 0, 0};
    hv_column texts = HV_EMPTY;
    memset(part, 'a', sizeof part);
    CHECK(!hv_constant(&utf8, &value, part, PART, PARTS, &texts, &error));
    FILL(offsets);
    CHECK_REFUSED(hv_read_offsets(&texts, 0, offsets, PARTS + 1, &error), HV_CAST_OUT_OF_RANGE, 0, 0, 0);
    CHECK_KEPT(offsets);
    CHECK(!hv_read_offsets(&texts, 0, offsets, PARTS, &error) && offsets[PARTS - 1] == INT32_MAX - PART + 1);
    hv_free(&texts);
}

static void check_truths_and_columns(void) {
    const int64_t keys[2] = {1, 2};
    hv_column lists = HV_EMPTY, others = HV_EMPTY, numbers = HV_EMPTY, answers = HV_EMPTY;
    uint8_t truth;
    make_lists(&lists);
    CHECK(!hv_clone(&lists, &others, &error) && !hv_i64(keys, 2, NOT_NULLABLE, &numbers, &error));
    FILL(truth);
    CHECK_REFUSED(hv_equals(&lists, &others, &truth, &error), HV_UNSUPPORTED, 0, 0, 0);
    CHECK(hv_equals(&numbers, &empty, &truth, &error) == HV_NO_COLUMN);
    CHECK_KEPT(truth);
    CHECK_ROWS(&numbers, "1 2");
    CHECK(hv_float_combine(&numbers, HV_ADD, &empty, &out, &error) == HV_NO_COLUMN);
    CHECK(hv_float_combine(&empty, HV_ADD, &numbers, &out, &error) == HV_NO_COLUMN);
    CHECK(hv_fold_by(&numbers, &empty, HV_FOLD_SUM, &out, &answers, &error) == HV_NO_COLUMN);
    CHECK(hv_fold_by(&empty, &numbers, HV_FOLD_SUM, &out, &answers, &error) == HV_NO_COLUMN);
    CHECK_ROWS(&numbers, "1 2");
    CHECK(hv_form(&out) == FORM_NONE && hv_form(&answers) == FORM_NONE && hv_form(&empty) == FORM_NONE);
    hv_column *all[] = {&lists, &others, &numbers};
    for (size_t i = 0; i < COUNT(all); i++) hv_free(all[i]);
}

/* elements of 1 byte each, offsets of 8 each, and of the sizes an end of 1 byte and a value of 8 */
static void check_bytes_of_lists(void) {
    hv_column lists = HV_EMPTY;
    make_lists(&lists);
    CHECK(hv_bytes_used(&lists) == 2 + 2 * 8 + 1 + 8);
    hv_free(&lists);
}

/* a text of more bytes than two bytes count, and a logical type whose name has as many */
static void check_long_texts(void) {
    static uint8_t text[LONG_TEXT], message[2 * LONG_TEXT], found[LONG_TEXT];
    const hv_kind utf8 = {HV_UTF8, 0, 0, 0};
    const hv_value value = {LONG_TEXT, 0, HV_TEXT, 0, 0};
    hv_column texts = HV_EMPTY, read = HV_EMPTY;
    hv_value row;
    size_t size, written;
    memset(text, 'b', sizeof text);
    CHECK(!hv_constant(&utf8, &value, text, LONG_TEXT, 2, &texts, &error));
    /* version, type, form, rows and validity take 2 bytes each, the length of the text 3 after its key */
    CHECK(!hv_write_size(&texts, &size, &error) && size == 10 + 4 + LONG_TEXT);
    CHECK(!hv_write(&texts, message, sizeof message, &written, &error) && written == size);
    CHECK(memcmp(message, "\x08\x01\x10\x0b\x18\x03\x20\x02\x28\x01\x3a\xf0\xa2\x04", 14) == 0);
    CHECK(memcmp(message + 14, text, LONG_TEXT) == 0);
    CHECK(!hv_read_column(message, written, &read, &error) && hv_length(&read) == 2);
    CHECK(!hv_at(&read, 1, &row, found, LONG_TEXT, &error) && row.as_unsigned == LONG_TEXT);
    CHECK(memcmp(found, text, LONG_TEXT) == 0);
    hv_free(&texts);
    hv_free(&read);
}

static void check_sums_and_nulls(void) {
    const int32_t offsets[1] = {0};
    const uint8_t bits[1] = {0x06}, ends[3] = {3, 5, 9}, values[3] = {1, 2, 3};
    hv_column texts = HV_EMPTY, ends_of = HV_EMPTY, values_of = HV_EMPTY, runs = HV_EMPTY;
    hv_pair total, least, greatest;
    FILL(total), FILL(least), FILL(greatest);
    CHECK(!hv_texts(0, offsets, 1, NULL, 0, NOT_NULLABLE, &texts, &error) && hv_length(&texts) == 0);
    CHECK_REFUSED(hv_sum_parts(&texts, &total, &least, &greatest, &error), HV_UNSUPPORTED, 0, 0, 0);
    CHECK_KEPT(total);
    CHECK_KEPT(least);
    CHECK_KEPT(greatest);
    /* the first run, of null, lies before the window */
    CHECK(!hv_u8(ends, 3, NOT_NULLABLE, &ends_of, &error) && !hv_u8(values, 3, NULLS_BY(bits, 0), &values_of, &error));
    CHECK(!hv_runs(&ends_of, &values_of, 3, 5, &runs, &error) && hv_null_count(&runs) == 0);
    CHECK(!hv_runs(&ends_of, &values_of, 2, 5, &runs, &error) && hv_null_count(&runs) == 1);
    hv_column *all[] = {&texts, &ends_of, &values_of, &runs};
    for (size_t i = 0; i < COUNT(all); i++) hv_free(all[i]);
}

int main(void) {
    hv_session_initial(&session);
    check_texts_and_words();
    check_offsets();
    check_truths_and_columns();
    check_bytes_of_lists();
    check_long_texts();
    check_sums_and_nulls();
    puts("kept_outputs: what a refused call would write holds what it held");
    return 0;
}
