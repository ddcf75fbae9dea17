/* Columns under a format as bytes, and back. What a message has to be is put together here from the page on bytes:
 * version 2, the format, and the message of the column. */
#include "check.h"

static hv_session session;
static hv_error error;

enum { ROOM = 512, FRONT = 16 }; /* bytes: of a message, and of what is before the format or the column's message */

/* A format, which may have a 0 in it. */
typedef struct name {
    const uint8_t *bytes;
    size_t len;
} name;
#define NAME(text) ((name){(const uint8_t *)(text), sizeof(text) - 1})
#define NO_NAME ((name){NULL, 0})
static const char letters_200[] =
    "tsn:12345678901234567890123456789012345678901234567890123456789012345678901234567890123456789012345678901234567890"
    "12345678901234567890123456789012345678901234567890123456789012345678901234567890123456";

/* 100, 160 and null over a stored 0 of i64; and these as time stamps in seconds of UTC, byte by byte */
#define WORD(number) number, 0, 0, 0, 0, 0, 0, 0
#define TIMES 0x08, 1, 0x10, 8, 0x18, 1, 0x20, 3, 0x28, 4, 0x32, 1, 3, 0x3a, 24, WORD(100), WORD(160), WORD(0)
static const uint8_t times_stored[] = {TIMES};
static const uint8_t times_message[] = {0x08, 2, 0xb2, 1, 7, 't', 's', 's', ':', 'U', 'T', 'C', 0xba, 1, 39, TIMES};
/* 1.5 in each of 2^60 rows, a constant of floats of 64 bits, whose key is 0x3ff8 << 48 */
static const uint8_t float_message[] = {0x08, 2, 0xb2, 1, 1, 'g', 0xba, 1, 28,
                                        0x08, 1, 0x10, 8, 0x18, 3, 0x20, 0x80, 0x80, 0x80, 0x80, 0x80, 0x80, 0x80, 0x80,
                                        0x10, 0x28, 1, 0x3a, 8, 0, 0, 0, 0, 0, 0, 0xf8, 0x3f};
/* the texts "ab" and "c", of a type that no format of Arrow names */
static const uint8_t text_message[] = {0x08, 2, 0xb2, 1, 3, 0xc3, 0xa9, '!', 0xba, 1, 19,
                                       0x08, 1, 0x10, 11, 0x18, 1, 0x20, 2, 0x28, 1, 0x62, 2, 2, 1, 0x6a, 3, 'a', 'b',
                                       'c'};

static bool is_filled(const uint8_t *bytes, size_t len) {
    for (size_t at = 0; at < len; at++)
        if (bytes[at] != 0xA5) return false;
    return true;
}

static bool is_message(const uint8_t *bytes, size_t len) {
    uint8_t truth;
    FILL(truth);
    CHECK(!hv_is_message(bytes, len, &truth, &error) && truth <= 1);
    return truth;
}

static hv_column under(const hv_column *column, name format) {
    hv_column typed = HV_EMPTY;
    CHECK(!hv_with_type(column, format.bytes, format.len, &typed, &error));
    return typed;
}

static void check_format(const hv_column *column, name format) {
    uint8_t room[ROOM];
    size_t size;
    CHECK(!hv_type(column, room, sizeof room, &size, &error) && size == format.len);
    CHECK(!size || memcmp(room, format.bytes, size) == 0);
}

static size_t put_size(uint8_t *to, size_t number) {
    size_t used = 0;
    for (; number > 127; number >>= 7) to[used++] = (uint8_t)(number | 128);
    to[used++] = (uint8_t)number;
    return used;
}

/* The message that is due. */
static size_t put_due(uint8_t *to, name format, const uint8_t *stored, size_t stored_len) {
    size_t used = 4;
    if (format.len == 0) return memcpy(to, stored, stored_len), stored_len;
    memcpy(to, "\x08\x02\xb2\x01", 4);
    used += put_size(to + used, format.len);
    memcpy(to + used, format.bytes, format.len), used += format.len;
    memcpy(to + used, "\xba\x01", 2), used += 2;
    used += put_size(to + used, stored_len);
    memcpy(to + used, stored, stored_len);
    return used + stored_len;
}

/* What is read of a message has this format and, written without one, the bytes of the column. */
static void check_read(const uint8_t *message, size_t len, name format, const uint8_t *stored, size_t stored_len) {
    uint8_t again[ROOM];
    size_t size;
    hv_column read = HV_EMPTY;
    CHECK(is_message(message, len) && !hv_read_column(message, len, &read, &error));
    check_format(&read, format);
    hv_column plain = under(&read, NO_NAME);
    CHECK(!hv_write(&plain, again, sizeof again, &size, &error) && size == stored_len && !memcmp(again, stored, size));
    hv_free(&read), hv_free(&plain);
}

/* The message of a column under this format, which is refused where one byte too few is there, and leaves them. */
static void check_message(const hv_column *column, name format) {
    uint8_t stored[ROOM], due[ROOM], written[ROOM + 1];
    size_t stored_len, size;
    hv_column plain = under(column, NO_NAME), typed = under(column, format);
    CHECK(!hv_write(&plain, stored, sizeof stored, &stored_len, &error) && stored_len + format.len + FRONT <= ROOM);
    const size_t len = put_due(due, format, stored, stored_len);
    FILL(size);
    CHECK(!hv_write_size(&typed, &size, &error) && size == len);
    FILL(size), FILL(written);
    CHECK(!hv_write(&typed, written, len, &size, &error) && size == len);
    CHECK(memcmp(written, due, len) == 0 && is_filled(written + len, sizeof written - len));
    FILL(size), FILL(written);
    CHECK(!hv_write(&typed, written, sizeof written, &size, &error) && size == len && memcmp(written, due, len) == 0);
    CHECK(is_filled(written + len, sizeof written - len));
    for (size_t room = 0; room < len; room++) {
        FILL(written);
        CHECK_REFUSED(hv_write(&typed, written, room, &size, &error), 11, len, room, 0);
        CHECK(is_filled(written, sizeof written));
    }
    check_format(&typed, format);
    check_read(due, len, format, stored, stored_len);
    hv_free(&plain), hv_free(&typed);
}

/* under formats of one byte, of a zone, of a 0, of other letters, and of a length in two bytes, and without one */
static void check_names(hv_column *column) {
    const name names[] = {NO_NAME, NAME(""), NAME("g"), NAME("tsu:Europe/Berlin"), NAME("\0"), NAME("\xf0\x9f\x90\x9d"),
                          {(const uint8_t *)letters_200, 127}, {(const uint8_t *)letters_200, 128}, NAME(letters_200)};
    for (size_t i = 0; i < COUNT(names); i++) check_message(column, names[i]);
    hv_free(column);
}

#define CHECK_NUMBERS(suffix, type) \
    do { \
        const type numbers[3] = {1, 0, (type)-1}; \
        CHECK(!hv_##suffix(numbers, 3, NULLS_BY(bits, 0), &column, &error)); \
        check_names(&column); \
        CHECK(!hv_##suffix(numbers, 3, NOT_NULLABLE, &column, &error)); \
        check_names(&column); \
    } while (0)

/* A column of each type: flat, a constant, runs and a window of them, and lists. */
static void check_types(void) {
    const uint8_t bits[1] = {5}, ends_of_two[2] = {3, 5};
    const hv_pair pairs[2] = {{UINT64_MAX - 149, -1}, {150, 0}};
    const int32_t offsets[3] = {0, 2, 3};
    const uint64_t starts[2] = {0, 1}, counts[2] = {2, 1};
    const hv_kind text = {HV_UTF8, 1, 0, 0};
    const hv_value null = {.kind = HV_NULL};
    hv_column column = HV_EMPTY, values = HV_EMPTY, ends = HV_EMPTY, runs = HV_EMPTY;
    CHECK_NUMBERS(u8, uint8_t);
    CHECK_NUMBERS(u16, uint16_t);
    CHECK_NUMBERS(u32, uint32_t);
    CHECK_NUMBERS(u64, uint64_t);
    CHECK_NUMBERS(i8, int8_t);
    CHECK_NUMBERS(i16, int16_t);
    CHECK_NUMBERS(i32, int32_t);
    CHECK_NUMBERS(i64, int64_t);
    CHECK(!hv_bools(bits, 1, 0, 3, NO_NULLS, &column, &error));
    check_names(&column);
    CHECK(!hv_decimals(pairs, 2, 5, -2, NOT_NULLABLE, &column, &error));
    check_names(&column);
    for (uint8_t is_binary = 0; is_binary < 2; is_binary++) {
        CHECK(!hv_texts(is_binary, offsets, 3, (const uint8_t *)"abc", 3, NOT_NULLABLE, &column, &error));
        check_names(&column);
    }
    CHECK(!hv_constant(&text, &null, NO_TEXT, (size_t)1 << 60, &column, &error));
    check_names(&column);
    CHECK(!hv_i64((const int64_t[2]){7, -7}, 2, NOT_NULLABLE, &values, &error));
    CHECK(!hv_u8(ends_of_two, 2, NOT_NULLABLE, &ends, &error) && !hv_runs(&ends, &values, 0, 5, &runs, &error));
    CHECK(!hv_slice(&session, &runs, 2, 4, &column, &error));
    check_names(&column);
    CHECK(!hv_lists(&values, starts, 2, counts, 2, NOT_NULLABLE, &column, &error));
    check_names(&column);
    CHECK(!hv_i64(NULL, 0, NOT_NULLABLE, &column, &error));
    check_names(&column);
    check_names(&runs);
    hv_free(&values), hv_free(&ends);
}

/* Times and floats, in the bytes of the page. */
static void check_times(void) {
    const uint8_t bits[1] = {3};
    const int64_t times[3] = {100, 160, 0};
    hv_column column = HV_EMPTY, read = HV_EMPTY;
    uint8_t written[ROOM];
    size_t size;
    CHECK(!hv_i64(times, 3, NULLS_BY(bits, 0), &column, &error));
    hv_column typed = under(&column, NAME("tss:UTC"));
    CHECK(!hv_write(&typed, written, sizeof written, &size, &error));
    CHECK(size == sizeof times_message && memcmp(written, times_message, size) == 0);
    CHECK(!hv_read_column(times_message, sizeof times_message, &read, &error));
    check_format(&read, NAME("tss:UTC"));
    CHECK_ROWS(&read, "100 160 null");
    CHECK(!hv_read_column(times_stored, sizeof times_stored, &read, &error));
    check_format(&read, NO_NAME);
    CHECK_ROWS(&read, "100 160 null");
    hv_free(&column), hv_free(&typed), hv_free(&read);
}

static void check_floats(void) {
    const uint64_t bits[3] = {UINT64_C(0x3ff8) << 48, UINT64_C(1) << 63, UINT64_C(0x7ff0000000000001)};
    const hv_kind keys = {HV_I64, 0, 0, 0};
    const hv_value key = {.kind = HV_SIGNED, .as_signed = INT64_C(0x3ff8) << 48};
    hv_column column = HV_EMPTY, of_bits = HV_EMPTY, read = HV_EMPTY;
    uint8_t written[ROOM];
    hv_total total;
    size_t size;
    CHECK(!hv_constant(&keys, &key, NO_TEXT, (size_t)1 << 60, &column, &error));
    hv_column typed = under(&column, NAME("g"));
    CHECK(!hv_write(&typed, written, sizeof written, &size, &error));
    CHECK(size == sizeof float_message && memcmp(written, float_message, size) == 0);
    CHECK(!hv_read_column(float_message, sizeof float_message, &read, &error));
    check_format(&read, NAME("g"));
    CHECK(hv_length(&read) == (size_t)1 << 60 && hv_null_count(&read) == 0);
    CHECK(!hv_sum(&session, &read, &total, &error) && total.kind == HV_DOUBLE && !total.empty);
    CHECK(total.as_unsigned == UINT64_C(0x43b8) << 48); /* 1.5 * 2^60 */
    /* 1.5, -0.0 and a NaN that signals keep their bits */
    CHECK(!hv_u64(bits, 3, NOT_NULLABLE, &of_bits, &error) && !hv_float_encode(&of_bits, 0, &column, &error));
    CHECK(!hv_with_type(&column, (const uint8_t *)"g", 1, &typed, &error));
    CHECK(!hv_write(&typed, written, sizeof written, &size, &error));
    CHECK(!hv_read_column(written, size, &read, &error) && !hv_float_decode(&read, &of_bits, &error));
    CHECK_ROWS(&of_bits, "4609434218613702656 9223372036854775808 9218868437227405313");
    check_names(&column);
    hv_free(&of_bits), hv_free(&typed), hv_free(&read);
}

/* What is cut short, goes on, or is none leaves what the handle holds, and its format. */
static void check_none(const uint8_t *bytes, size_t len) {
    uint8_t *message = malloc(len ? len : 1); /* of just this length, for the sanitizer */
    const uint8_t one[1] = {42};
    hv_column plain = HV_EMPTY;
    CHECK(message && !hv_u8(one, 1, NOT_NULLABLE, &plain, &error));
    hv_column out = under(&plain, NAME("of a column before"));
    memcpy(message, bytes, len);
    CHECK_REFUSED(hv_read_column(message, len, &out, &error), HV_BAD_METADATA, 0, 0, 0);
    CHECK(!is_message(message, len));
    CHECK_ROWS(&out, "42");
    check_format(&out, NAME("of a column before"));
    free(message), hv_free(&plain), hv_free(&out);
}

/* What is read of changed bytes is written as these very bytes again; whether it was. */
static bool check_changed(const uint8_t *bytes, size_t len) {
    uint8_t again[ROOM];
    size_t size;
    hv_column out = HV_EMPTY;
    int32_t answer = hv_read_column(bytes, len, &out, &error);
    CHECK((answer == HV_OK || answer == HV_BAD_METADATA) && is_message(bytes, len) == (answer == HV_OK));
    if (answer) return check_none(bytes, len), false;
    CHECK(!hv_write(&out, again, sizeof again, &size, &error) && size == len && memcmp(again, bytes, len) == 0);
    hv_free(&out);
    return true;
}

/* each prefix, one byte more, and each bit that is another; the format and the rows are the only bytes that may be any */
static void check_damaged(const uint8_t *message, size_t len, size_t least_read) {
    uint8_t damaged[ROOM];
    size_t read = 0;
    for (size_t kept = 0; kept < len; kept++) check_none(message, kept);
    memcpy(damaged, message, len), damaged[len] = 0;
    check_none(damaged, len + 1);
    for (size_t at = 0; at < len; at++)
        for (int bit = 0; bit < 8; bit++) {
            memcpy(damaged, message, len);
            damaged[at] = (uint8_t)(damaged[at] ^ 1 << bit);
            read += check_changed(damaged, len);
        }
    CHECK(read >= least_read);
}

/* Two rows of null bytes, and the parts around them. */
#define NULLS 0x08, 1, 0x10, 12, 0x18, 3, 0x20, 2, 0x28, 3, 0x3a, 0
#define OF_G 0xb2, 1, 1, 'g'
#define STORED 0xba, 1, 12, NULLS
#define CHECK_NONE(...) check_none((const uint8_t[]){__VA_ARGS__}, sizeof((const uint8_t[]){__VA_ARGS__}))

/* Messages that are put together as no writer does, after the one that they are made of. */
static void check_no_messages(void) {
    static const uint8_t stored[] = {NULLS}, message[] = {0x08, 2, OF_G, STORED};
    check_read(message, sizeof message, NAME("g"), stored, sizeof stored);
    CHECK_NONE(0x08, 2);
    CHECK_NONE(0x08, 2, OF_G);
    CHECK_NONE(0x08, 2, 0xb2, 1, 0, STORED); /* an empty format */
    CHECK_NONE(0x08, 2, STORED);             /* none */
    CHECK_NONE(0x08, 2, 0xb2, 1, 1, 0xff, STORED);
    CHECK_NONE(0x08, 2, 0xb2, 1, 2, 0xc3, 'g', STORED);
    CHECK_NONE(0x08, 2, OF_G, 0xba, 1, 0);
    CHECK_NONE(0x08, 2, OF_G, 0xba, 1, 11, NULLS);
    CHECK_NONE(0x08, 2, OF_G, 0xba, 1, 13, NULLS);
    CHECK_NONE(0x08, 2, OF_G, 0xba, 1, 13, NULLS, 0);
    CHECK_NONE(0x08, 2, OF_G, STORED, STORED);
    CHECK_NONE(0x08, 2, OF_G, OF_G, STORED);
    CHECK_NONE(0x08, 2, STORED, OF_G);
    CHECK_NONE(0x08, 2, OF_G, NULLS);
    /* longer numbers */
    CHECK_NONE(0x08, 0x82, 0, OF_G, STORED);
    CHECK_NONE(0x88, 0, 2, OF_G, STORED);
    CHECK_NONE(0x08, 2, 0xb2, 1, 0x81, 0, 'g', STORED);
    CHECK_NONE(0x08, 2, OF_G, 0xba, 1, 0x8c, 0, NULLS);
    CHECK_NONE(0x08, 2, 0xb2, 0x81, 0, 1, 'g', STORED);
    /* other versions, and a field before the version */
    CHECK_NONE(0x08, 0, OF_G, STORED);
    CHECK_NONE(0x08, 1, OF_G, STORED);
    CHECK_NONE(0x08, 3, OF_G, STORED);
    CHECK_NONE(OF_G, STORED);
    CHECK_NONE(0x08, 2, 0x08, 2, OF_G, STORED);
    CHECK_NONE(0x08, 2, NULLS);
    CHECK_NONE(0x08, 2, 0x10, 12, 0x18, 3, 0x20, 2, 0x28, 3, 0x3a, 0);
    CHECK_NONE(NULLS, OF_G);
    /* a column with a format as the storage of another, as the values of runs, and as the elements of lists */
    CHECK_NONE(0x08, 2, OF_G, 0xba, 1, 21, 0x08, 2, OF_G, STORED);
    CHECK_NONE(0x08, 1, 0x10, 12, 0x18, 2, 0x20, 2, 0x40, 0, 0x48, 1, 0x52, 2, 1, 1, 0x5a, 21, 0x08, 2, OF_G, STORED);
    CHECK_NONE(0x08, 1, 0x10, 13, 0x18, 4, 0x20, 0, 0x28, 1, 0x8a, 1, 19, 0x08, 2, OF_G, 0xba, 1, 10,
               0x08, 1, 0x10, 1, 0x18, 1, 0x28, 1, 0x3a, 0);
}

/* No format is made of bytes that are not UTF-8, whatever the column is; an empty handle comes first. */
static void check_refused_names(const hv_column *deep, const hv_column *column) {
    const name broken[] = {NAME("\xff"), NAME("ts\xc3"), NAME("\xed\xa0\x80"), NAME("\xc0\x80"), NAME("a\x80")};
    const hv_column none = HV_EMPTY;
    hv_column out = HV_EMPTY;
    for (size_t i = 0; i < COUNT(broken); i++) {
        const uint8_t *text = broken[i].bytes;
        const size_t len = broken[i].len;
        CHECK_REFUSED(hv_with_type(column, text, len, &out, &error), HV_TYPE_MISMATCH, 0, 0, 0);
        CHECK_REFUSED(hv_with_type(deep, text, len, &out, &error), HV_TYPE_MISMATCH, 0, 0, 0);
        CHECK(hv_with_type(&none, text, len, &out, &error) == HV_NO_COLUMN);
    }
    CHECK(hv_form(&out) == FORM_NONE);
}

/* What has no message is refused under a format as it is without one, whatever room there is. */
static void check_refused_columns(const hv_column *deep) {
    const hv_column none = HV_EMPTY;
    hv_column typed = under(deep, NAME("g"));
    uint8_t room[ROOM];
    size_t size;
    FILL(size), FILL(room);
    CHECK(hv_write_size(&none, &size, &error) == HV_NO_COLUMN);
    CHECK(hv_write(&none, room, sizeof room, &size, &error) == HV_NO_COLUMN);
    CHECK_REFUSED(hv_write_size(deep, &size, &error), HV_UNSUPPORTED, 0, 0, 0);
    CHECK_REFUSED(hv_write_size(&typed, &size, &error), HV_UNSUPPORTED, 0, 0, 0);
    CHECK_REFUSED(hv_write(&typed, room, 1, &size, &error), HV_UNSUPPORTED, 0, 0, 0);
    CHECK_REFUSED(hv_write(&typed, room, sizeof room, &size, &error), HV_UNSUPPORTED, 0, 0, 0);
    CHECK_REFUSED(hv_write(deep, room, sizeof room, &size, &error), HV_UNSUPPORTED, 0, 0, 0);
    CHECK(is_filled(room, sizeof room) && is_filled((uint8_t *)&size, sizeof size));
    hv_free(&typed);
}

/* A format takes no level: sixteen levels of runs have a message under it, and seventeen none. */
static void check_levels(void) {
    const uint8_t last[1] = {1};
    hv_column ends = HV_EMPTY, over = HV_EMPTY, next = HV_EMPTY, column = HV_EMPTY;
    CHECK(!hv_u8(last, 1, NOT_NULLABLE, &ends, &error) && !hv_clone(&ends, &over, &error));
    for (int level = 0; level < 16; level++)
        CHECK(!hv_runs(&ends, &over, 0, 1, &next, &error) && !hv_clone(&next, &over, &error));
    check_message(&over, NAME("tsn:UTC"));
    CHECK(!hv_clone(&over, &column, &error) && !hv_runs(&ends, &over, 0, 1, &next, &error));
    check_refused_names(&next, &column);
    check_refused_columns(&next);
    hv_free(&ends), hv_free(&over), hv_free(&next), hv_free(&column);
}

int main(void) {
    hv_session_initial(&session);
    check_types();
    check_times();
    check_floats();
    check_damaged(times_message, sizeof times_message, 24 * 8 + 40);
    check_damaged(float_message, sizeof float_message, 8 * 8 + 4);
    check_damaged(text_message, sizeof text_message, 24);
    check_damaged(times_stored, sizeof times_stored, 24 * 8);
    check_no_messages();
    check_levels();
    puts("columns under a format and their bytes agree");
    return 0;
}
