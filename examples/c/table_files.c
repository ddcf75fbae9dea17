/* Files of tables in C: the stored ones of examples/corpus and those that docs/BYTES.md shows, read as their rows and
 * written as their bytes; each truncated, longer or changed one; files that are replaced whole or not at all; footers;
 * limits; and each request for memory refused in turn (linked with the malloc of refusing_malloc.h).
 *
 *     table_files FOLDER      FOLDER: examples/corpus */
#include "hivevigil_table_file.h"
#include "refusing_malloc.h"
#include "table_checks.h"
#include <dirent.h>
#include <signal.h>
#include <sys/resource.h>

enum { LINE = 1 << 17 };
static hv_session session;
static hv_error error;
static char folder[] = "/tmp/hivevigil_tables_XXXXXX";
static char path[128], link_path[128];

static size_t bytes_of(const char *digits, uint8_t *bytes) {
    size_t len = 0;
    for (const char *at = digits; *at && *at != '\n'; at += *at == ' ' ? 1 : 2)
        if (*at != ' ') sscanf(at, "%2" SCNx8, &bytes[len++]);
    return len;
}

static bool has_bytes(const hv_buffer *buffer, const uint8_t *bytes, size_t size) {
    return buffer->size == size && memcmp(buffer->at, bytes, size) == 0;
}

/* Is this what a table is written as? */
static bool is_written(const hv_table *table, uint8_t differences, const uint8_t *bytes, size_t size) {
    hv_buffer made = HV_BUFFER_EMPTY;
    CHECK(!hv_table_to_bytes(table, differences, &made, &error));
    const bool found = has_bytes(&made, bytes, size);
    hv_buffer_free(&made);
    return found;
}

/* ---- The stored tables ---- */

static FILE *opened(const char *folder, const char *name) {
    char path[1024];
    snprintf(path, sizeof path, "%s/%s", folder, name);
    FILE *const file = fopen(path, "r");
    CHECK(file);
    return file;
}

/* The parts of a line, with a tab between them. */
static void split(char *line, char **parts, size_t count) {
    parts[0] = line;
    for (size_t i = 1; i < count; i++) {
        parts[i] = strchr(parts[i - 1], '\t');
        CHECK(parts[i]);
        *parts[i]++ = 0;
    }
}

/* Is a column that which messages.txt has under this name? */
static void check_stored_column(const char *folder, const char *name, const hv_column *column) {
    static char line[LINE];
    static uint8_t bytes[LINE], written[LINE];
    FILE *const file = opened(folder, "messages.txt");
    size_t size = 0, found = 0;
    hv_column untyped = HV_EMPTY; /* the format is in the footer */
    while (!size && fgets(line, sizeof line, file)) {
        char *parts[4];
        split(line, parts, 4);
        if (!strcmp(parts[0], name)) size = bytes_of(parts[3], bytes);
    }
    CHECK(size && !hv_with_type(column, NULL, 0, &untyped, &error));
    CHECK(!hv_write(&untyped, written, sizeof written, &found, &error));
    CHECK(found == size && !memcmp(written, bytes, size));
    hv_free(&untyped);
    fclose(file);
}

/* "name type form row row .." */
static void check_described_column(char *words, const char *name, const hv_column *column) {
    static const char *const types[] = {"u8", "u16", "u32", "u64", "i8", "i16", "i32", "i64"};
    char *const found_name = strtok(words, " "), *const type = strtok(NULL, " "), *const form = strtok(NULL, " ");
    const hv_kind kind = hv_kind_of(column);
    CHECK(!strcmp(found_name, name));
    CHECK(!strncmp(type, types[kind.number], strlen(types[kind.number])));
    CHECK((strchr(type, '?') != NULL) == kind.nullable);
    CHECK(hv_form(column) == (!strcmp(form, "flat") ? HV_FORM_FLAT : HV_FORM_RUNS));
    CHECK_ROWS(column, form + strlen(form) + 1);
}

static size_t check_stored(const char *folder, bool differences) {
    static char line[LINE];
    static uint8_t bytes[LINE];
    FILE *const file = opened(folder, differences ? "differences.txt" : "tables.txt");
    size_t count = 0;
    for (; fgets(line, sizeof line, file); count++) {
        char *parts[3];
        hv_table table = HV_EMPTY;
        split(line, parts, 3);
        const size_t size = bytes_of(parts[2], bytes);
        CHECK(!hv_table_from_bytes(bytes, size, &table, &error));
        CHECK(hv_table_len(&table) == strtoul(parts[0], NULL, 10) && is_written(&table, differences, bytes, size));
        hv_table_columns held = HV_TABLE_NO_COLUMNS;
        CHECK(!hv_table_columns_of(&table, &held, &error));
        char *words = parts[1];
        for (size_t i = 0; i < held.count; i++) {
            char *const end = strstr(words, differences ? ", " : ",");
            if (end) *end = 0;
            if (differences) check_described_column(words, held.names[i].at, &held.columns[i]);
            else CHECK(!strcmp(words, held.names[i].at));
            if (!differences) check_stored_column(folder, words, &held.columns[i]);
            words = end ? end + (differences ? 2 : 1) : NULL;
        }
        CHECK(held.count == 0 || !words);
        hv_table_columns_free(&held);
        hv_table_free(&table);
    }
    fclose(file);
    return count;
}

/* ---- Those of docs/BYTES.md ---- */

static const char *const days_digits =
    "0a0968697665766967696c 1001 1a29 08011007 18022003 40004801 52020201 5a17 08011007 18012002 28043201 01 3a08"
    "07000000 00000000 1a0e 0801100b 18032003 2801 3a026162 2251 0803 1226 0a03646179 1203746444 1829 20012802 3214"
    "08011007 18012002 2802 3a08 07000000 07000000 1225 0a05706c616365 1200 180e 20002801 3214 0801100b 18012002 2801"
    "62020202 6a0461626162 29 5100000000000000";
static const char *const times_digits =
    "0a0968697665766967696c 1002 1a2e 08011008 18022006 40004801 52020105 5a1c 08011008 18012002 2801 3a10"
    "6400000000000000 3c00000000000000 2237 0806 1233 0a026174 12077473733a555443 182e 20002806 321c 08011008 18012002"
    "2801 3a10 6400000000000000 9001000000000000 3801 29 3700000000000000";
static uint8_t days[256], times[256];
static size_t days_size, times_size;

/* The days 7, 7 and null, as i32 in runs, and the text "ab" three times. */
static void make_days(hv_table *table) {
    const char *const names[] = {"day", "place"};
    const int32_t items[] = {7, 7, 0};
    const uint8_t valid[] = {0x03};
    const hv_kind text = {HV_UTF8, 0, 0, 0};
    const hv_value value = {2, 0, HV_TEXT, 0, 0};
    hv_column columns[2] = {HV_EMPTY, HV_EMPTY}, flat = HV_EMPTY;
    CHECK(!hv_i32(items, 3, NULLS_BY(valid, 0), &flat, &error) && !hv_encode_rows(&flat, &columns[0], &error));
    CHECK(!hv_constant(&text, &value, (const uint8_t *)"ab", 2, 3, &columns[1], &error));
    give_format(&columns[0], "tdD");
    CHECK(!hv_table_of(names, columns, 2, table, &error));
    hv_free(&flat);
    hv_free(&columns[0]);
    hv_free(&columns[1]);
}

static void make_times(hv_table *table) {
    const char *const name[] = {"at"};
    const int64_t items[] = {100, 160, 220, 280, 340, 400};
    hv_column column = HV_EMPTY;
    CHECK(!hv_i64(items, 6, NOT_NULLABLE, &column, &error));
    give_format(&column, "tss:UTC");
    CHECK(!hv_table_of(name, &column, 1, table, &error));
    hv_free(&column);
}

static void check_documented(void) {
    hv_table table = HV_EMPTY;
    days_size = bytes_of(days_digits, days);
    times_size = bytes_of(times_digits, times);
    CHECK(days_size == 164 && times_size == 127);
    make_days(&table);
    CHECK(is_written(&table, 0, days, days_size) && is_written(&table, 1, days, days_size)); /* no shorter */
    make_times(&table);
    CHECK(is_written(&table, 1, times, times_size) && !is_written(&table, 0, times, times_size));
    CHECK(!hv_table_from_bytes(days, days_size, &table, &error) && form_at(&table, 1) == HV_FORM_CONSTANT);
    CHECK_TABLE(&table, "3 | day:tdD 7 7 null | place: \"ab\" \"ab\" \"ab\"");
    CHECK(!hv_table_from_bytes(times, times_size, &table, &error) && form_at(&table, 0) == HV_FORM_FLAT);
    CHECK_TABLE(&table, "6 | at:tss:UTC 100 160 220 280 340 400");
    hv_table_free(&table);
}

/* ---- Damaged ---- */

static hv_table kept = HV_EMPTY; /* stays after a refusal */
static long with_zeros = 0;            /* tables that have a zero byte in a name or a logical type */

static bool is_text(const hv_table_text *text) {
    const int32_t offsets[] = {0, (int32_t)text->size};
    hv_column column = HV_EMPTY;
    const int32_t answer =
        hv_texts(0, offsets, 2, (const uint8_t *)text->at, text->size, NOT_NULLABLE, &column, &error);
    hv_free(&column);
    return !answer;
}

static bool has_zero(const hv_table_text *text) { return strlen(text->at) != text->size; }

/* Bytes are refused, or are those of a table that is written so. */
static bool is_refused_table(const uint8_t *bytes, size_t size) {
    const void *const at = kept.at;
    FILL(error);
    const int32_t answer = hv_table_from_bytes(bytes, size, &kept, &error);
    if (!answer) {
        const bool is_second = bytes[12] == 2; /* of which the writer chooses what is kept as differences */
        CHECK(is_second || is_written(&kept, 0, bytes, size));
        hv_table_columns held = HV_TABLE_NO_COLUMNS;
        CHECK(!hv_table_columns_of(&kept, &held, &error));
        for (size_t i = 0; i < held.count; i++) {
            CHECK(is_text(&held.names[i]) && is_text(&held.formats[i]));
            CHECK(hv_length(&held.columns[i]) == hv_table_len(&kept));
            with_zeros += has_zero(&held.names[i]) + has_zero(&held.formats[i]);
        }
        hv_table_columns_free(&held);
        make_times(&kept);
        return false;
    }
    CHECK(answer == HV_BAD_METADATA && !error.first && !error.second && !error.third);
    CHECK(kept.at == at && has_shape(&kept, 6, 1));
    return true;
}

static void check_damaged(const uint8_t *whole, size_t size, long *refused_files, long *tried) {
    static uint8_t bytes[1 << 12];
    for (size_t shorter = 0; shorter < size; shorter++, ++*tried) CHECK(is_refused_table(whole, shorter));
    memcpy(bytes, whole, size);
    for (int byte = 0; byte < 256; byte++, ++*tried) {
        bytes[size] = (uint8_t)byte;
        CHECK(is_refused_table(bytes, size + 1));
    }
    *refused_files += (long)size + 256;
    for (size_t at = 0; at < size; at++, bytes[at - 1] = whole[at - 1])
        for (int byte = 0; byte < 256; byte++) {
            bytes[at] = (uint8_t)byte;
            if (bytes[at] == whole[at]) continue;
            *refused_files += is_refused_table(bytes, size);
            ++*tried;
        }
}

/* A file in which bytes at a place are left out, and others are put there; sizes stay. Its size. */
static size_t replaced(const uint8_t *from, size_t size, size_t at, size_t out, const char *in, uint8_t *to) {
    uint8_t bytes[64];
    const size_t count = bytes_of(in, bytes);
    memcpy(to, from, at);
    memcpy(to + at, bytes, count);
    memcpy(to + at + count, from + at + out, size - at - out);
    return size + count - out;
}

/* Fields that a reader may not pass over, by the places of docs/BYTES.md. */
static void check_spellings(void) {
    static uint8_t bytes[512];
    const size_t footer = 13 + 43 + 16, rows = footer + 2; /* where the footer's field is, and its first */
    CHECK(days[footer] == 0x22 && days[rows] == 0x08);
    size_t size = replaced(days, days_size, rows + 1, 1, "8300", bytes); /* 3 as a longer varint */
    bytes[footer + 1]++, bytes[size - 8]++;
    CHECK(is_refused_table(bytes, size));
    size = replaced(days, days_size, footer, 0, "1a00", bytes); /* an empty column, of which nothing is said */
    CHECK(is_refused_table(bytes, size));
    size = replaced(days, days_size, rows + 2, 0, "1000", bytes); /* one more field of the footer */
    bytes[footer + 1] += 2, bytes[size - 8] += 2;
    CHECK(is_refused_table(bytes, size));
    memcpy(bytes, days, days_size);
    bytes[rows + 2 + 2 + 2] = 'p'; /* "pay" and "place" */
    CHECK(!is_refused_table(bytes, days_size));
    memcpy(bytes, times, times_size);
    bytes[12] = 1; /* a column in differences in version 1 */
    CHECK(is_refused_table(bytes, times_size));
    memcpy(bytes, times, times_size);
    bytes[times_size - 10] = 2; /* the same rows in runs */
    CHECK(is_refused_table(bytes, times_size) == false);
    bytes[times_size - 10] = 3;
    CHECK(is_refused_table(bytes, times_size));
    bytes[times_size - 10] = 0; /* as rows, in version 2, whose columns are others than these */
    CHECK(is_refused_table(bytes, times_size));
}

/* Is a file a table by its footer, of which no column is read? */
static bool has_footer(const char *digits) {
    static uint8_t bytes[128];
    hv_table_footer footer = HV_TABLE_FOOTER_EMPTY;
    const hv_stored_file file = hv_stored_bytes(bytes, bytes_of(digits, bytes));
    const int32_t answer = hv_table_footer_of(&file, &footer, &error);
    CHECK((!answer || answer == HV_BAD_METADATA) && footer.count == !answer);
    CHECK(is_refused_table(bytes, file.size) == (answer != 0));
    hv_table_footer_free(&footer);
    return !answer;
}

/* Two rows in one run: bounds are flat rows of which all are valid, by the validity of the whole. */
static void check_bounds(void) {
#define SEVENS "0a0968697665766967696c 1001 1a0e 0801100118012002 28023a020707 "
#define NULLS "0a0968697665766967696c 1001 1a0c 0801100118032002 28033a00 "
#define TEXTS "1a0d 0801100b18032002 28013a0161 "
#define TEXTS_BOUNDS "3212 0801100b18012002 2801620201016a026161 "
    CHECK(has_footer(SEVENS "221f 0802 121b 0a016112 00180e 20002801 "
                     "320e 0801100118012002 28023a020707 29 1f00000000000000"));
    CHECK(!has_footer(SEVENS "2222 0802 121e 0a016112 00180e 20002801 "
                      "3211 0801100118012002 28043201033a020707 29 2200000000000000"));
    CHECK(!has_footer(SEVENS "221e 0802 121a 0a016112 00180e 20002801 "
                      "320d 0801100118032002 28023a0107 29 1e00000000000000"));
    CHECK(has_footer(NULLS "221d 0802 1219 0a016112 00180c 20022801 "
                     "320c 0801100118012000 28023a00 29 1d00000000000000"));
    CHECK(!has_footer(NULLS "221d 0802 1219 0a016112 00180c 20022801 "
                      "320c 0801100118012000 28033a00 29 1d00000000000000"));
    CHECK(!has_footer(NULLS "221f 0802 121b 0a016112 00180c 20022801 "
                      "320e 0801100118012000 280432003a00 29 1f00000000000000"));
    CHECK(has_footer("0a0968697665766967696c 1001 " TEXTS "2223 0802 121f 0a01611200180d 20002801 " TEXTS_BOUNDS
                     "29 2300000000000000"));
    CHECK(!has_footer("0a0968697665766967696c 1002 " TEXTS "2225 0802 1221 0a01611200180d 20002801 " TEXTS_BOUNDS
                      "3801 29 2500000000000000")); /* as differences, which texts do not have */
#undef SEVENS
#undef NULLS
#undef TEXTS
#undef TEXTS_BOUNDS
}

/* Two columns of one name. */
static void check_names_twice(void) {
    static uint8_t bytes[512];
    const char *const names[] = {"a", "b"};
    hv_column pair[2] = {HV_EMPTY, HV_EMPTY};
    hv_table table = HV_EMPTY;
    hv_buffer made = HV_BUFFER_EMPTY;
    make_days(&table);
    for (int i = 0; i < 2; i++) CHECK(!hv_table_column(&table, 0, &pair[i], &error));
    CHECK(!hv_table_of(names, pair, 2, &table, &error) && !hv_table_to_bytes(&table, 0, &made, &error));
    CHECK(made.size < sizeof bytes);
    memcpy(bytes, made.at, made.size);
    size_t changed = 0;
    for (size_t at = 0; at + 2 < made.size; at++)
        if (bytes[at] == 0x0a && bytes[at + 1] == 1 && bytes[at + 2] == 'b') bytes[at + 2] = 'a', changed++;
    CHECK(changed == 1 && is_refused_table(bytes, made.size));
    hv_buffer_free(&made);
    hv_table_free(&table);
    hv_free(&pair[0]);
    hv_free(&pair[1]);
}

/* ---- Files of one column in differences, put together ---- */

static void put_message(hv_buffer *out, unsigned field, const hv_column *column) {
    uint8_t bytes[512];
    size_t size = 0;
    CHECK(!hv_write(column, bytes, sizeof bytes, &size, &error));
    hv_table_put_sized(out, field, (hv_table_span){bytes, size});
}

/* A table of rows that have these differences, in this form, and these bounds, in this number of runs. */
static void put_differences(hv_buffer *out, const hv_column *differences, const hv_column *bounds, uint64_t runs,
                            uint8_t form) {
    hv_buffer column = HV_BUFFER_EMPTY, footer = HV_BUFFER_EMPTY;
    size_t size = 0;
    out->size = 0;
    CHECK(!hv_write_size(differences, &size, &error));
    hv_table_put_head(out, 2);
    put_message(out, 3, differences);
    hv_table_put_sized(&column, 1, hv_table_span_of("a"));
    hv_table_put_sized(&column, 2, hv_table_span_of(""));
    hv_table_put_number(&column, 3, size);
    hv_table_put_number(&column, 4, 0);
    hv_table_put_number(&column, 5, runs);
    put_message(&column, 6, bounds);
    hv_table_put_number(&column, 7, form);
    hv_table_put_number(&footer, 1, hv_length(differences));
    hv_table_put_sized(&footer, 2, (hv_table_span){column.at, column.size});
    hv_table_put_sized(out, 4, (hv_table_span){footer.at, footer.size});
    const uint64_t footer_size = footer.size;
    hv_buffer_put(out, "\x29", 1);
    hv_buffer_put(out, &footer_size, 8);
    hv_buffer_free(&column);
    hv_buffer_free(&footer);
}

/* `rows` equal differences in one run, as they are written, or with one run more than there has to be. */
static void make_differences(int64_t each, uint64_t rows, bool is_fewest, hv_column *out) {
    const uint64_t ends[] = {rows - 1, rows};
    const int64_t values[] = {each, each};
    hv_column parts[2] = {HV_EMPTY, HV_EMPTY}, runs = HV_EMPTY;
    CHECK(!hv_u64(ends, 2, NOT_NULLABLE, &parts[0], &error) && !hv_i64(values, 2, NOT_NULLABLE, &parts[1], &error));
    CHECK(!hv_runs(&parts[0], &parts[1], 0, rows, &runs, &error));
    if (is_fewest) CHECK(!hv_encode_rows(&runs, out, &error));
    else CHECK(!hv_clone(&runs, out, &error));
    hv_free(&parts[0]);
    hv_free(&parts[1]);
    hv_free(&runs);
}

static void check_steps(const hv_buffer *bytes, int32_t each, uint64_t rows, uint8_t form) {
    const uint64_t places[] = {0, rows / 2, rows - 1};
    hv_table table = HV_EMPTY;
    hv_column column = HV_EMPTY;
    CHECK(!hv_table_from_bytes(bytes->at, bytes->size, &table, &error) && has_shape(&table, rows, 1));
    CHECK(!hv_table_column(&table, 0, &column, &error));
    CHECK(hv_form(&column) == (form == HV_TABLE_KEPT_FLAT ? HV_FORM_FLAT : HV_FORM_RUNS));
    for (size_t i = 0; i < COUNT(places); i++) {
        hv_value value;
        CHECK(!hv_at(&column, places[i], &value, NO_TEXT_ROOM, &error));
        CHECK(value.kind == HV_SIGNED && value.as_signed == each * (int64_t)(places[i] + 1));
    }
    hv_free(&column);
    hv_table_free(&table);
}

/* Is a table refused of rows of i32, each of them the one before and this much? */
static bool is_refused_steps(int32_t each, uint64_t rows, uint8_t form, bool is_fewest, size_t bounds_rows) {
    const int32_t last = (int32_t)(each * (int64_t)rows), before = (int32_t)(each * (int64_t)(rows - 1));
    const int32_t least = each < last ? each : last, greatest = each < last ? last : each; /* also past 2^31 */
    const int32_t ends[] = {before < least ? before : least, before > greatest ? before : greatest, 0};
    hv_column differences = HV_EMPTY, bounds = HV_EMPTY;
    hv_buffer bytes = HV_BUFFER_EMPTY;
    hv_table_footer footer = HV_TABLE_FOOTER_EMPTY;
    make_differences(each, rows, is_fewest, &differences);
    CHECK(!hv_i32(ends, bounds_rows, NOT_NULLABLE, &bounds, &error));
    put_differences(&bytes, &differences, &bounds, each ? rows : 1, form);
    const bool is_refused = is_refused_table(bytes.at, bytes.size);
    if (!is_refused) check_steps(&bytes, each, rows, form);
    const hv_stored_file file = hv_stored_bytes(bytes.at, bytes.size);
    const int32_t answer = hv_table_footer_of(&file, &footer, &error);
    CHECK(!answer || answer == HV_BAD_METADATA);
    CHECK((answer != 0) == (bounds_rows != 2)); /* the end says nothing that it could not say of rows */
    hv_table_footer_free(&footer);
    hv_free(&differences);
    hv_free(&bounds);
    hv_buffer_free(&bytes);
    return is_refused;
}

/* Version 2, in which no column is in differences, is not written. */
static void check_no_differences(void) {
    const int64_t both[] = {7, 7};
    hv_column column = HV_EMPTY, bounds = HV_EMPTY;
    hv_buffer bytes = HV_BUFFER_EMPTY;
    make_differences(7, 1000, true, &column);
    CHECK(!hv_i64(both, 2, NOT_NULLABLE, &bounds, &error));
    put_differences(&bytes, &column, &bounds, 1, HV_TABLE_KEPT_ROWS);
    CHECK(is_refused_table(bytes.at, bytes.size));
    hv_free(&column);
    hv_free(&bounds);
    hv_buffer_free(&bytes);
}

static void check_differences(void) {
    const uint64_t most = (uint64_t)1 << 26;
    CHECK(!is_refused_steps(7, 1000, HV_TABLE_KEPT_FLAT, true, 2));
    CHECK(!is_refused_steps(-7, 1000, HV_TABLE_KEPT_RUNS, true, 2));
    CHECK(is_refused_steps(7, 1000, HV_TABLE_KEPT_FLAT, false, 2)); /* in two runs, and one would do */
    CHECK(is_refused_steps(7, 1000, HV_TABLE_KEPT_FLAT, true, 1) && is_refused_steps(7, 1000, 1, true, 3));
    CHECK(is_refused_steps(1 << 22, 512, HV_TABLE_KEPT_FLAT, true, 2)); /* 2^31 is not an i32 */
    CHECK(!is_refused_steps(1 << 22, 511, HV_TABLE_KEPT_FLAT, true, 2));
    CHECK(!is_refused_steps(-(1 << 22), 512, HV_TABLE_KEPT_RUNS, true, 2)); /* -2^31 is one */
    CHECK(is_refused_steps(1, most + 1, HV_TABLE_KEPT_RUNS, true, 2) && is_refused_steps(0, most + 1, 1, true, 2));
    CHECK(!is_refused_steps(0, most + 1, HV_TABLE_KEPT_RUNS, true, 2)); /* one run */
}

/* A few bytes that say that there are many rows are refused before any of them is made, by what the rows would take:
 * `rows` of 4 bytes, or `runs` of 4 and 8, as the footer says it, whatever the differences are. */
static void check_limit(uint64_t rows, uint64_t runs, uint8_t form, uint64_t due) {
    const int32_t ends[] = {7, 7};
    const uint64_t limits[] = {0, due / 2, due - 1, due, due + 1, UINT64_MAX};
    hv_column differences = HV_EMPTY, bounds = HV_EMPTY;
    hv_buffer bytes = HV_BUFFER_EMPTY;
    hv_table found = HV_EMPTY;
    make_differences(7, rows, true, &differences);
    CHECK(!hv_i32(ends, 2, NOT_NULLABLE, &bounds, &error));
    put_differences(&bytes, &differences, &bounds, runs, form);
    CHECK(bytes.size < 200);
    for (size_t i = 0; i < COUNT(limits); i++) {
        if (due > limits[i])
            CHECK_REFUSED(hv_table_from_bytes_within(bytes.at, bytes.size, limits[i], &found, &error),
                          HV_TABLE_OVER_LIMIT, due, limits[i], 0);
        else CHECK(hv_table_from_bytes_within(bytes.at, bytes.size, limits[i], &found, &error) == HV_BAD_METADATA);
    }
    const int32_t usual = hv_table_from_bytes(bytes.at, bytes.size, &found, &error);
    CHECK(usual == (due > 1 << 30 ? HV_TABLE_OVER_LIMIT : HV_BAD_METADATA) && !found.at);
    hv_free(&differences);
    hv_free(&bounds);
    hv_buffer_free(&bytes);
}

static void check_limits(void) {
    const char *const only[] = {"at"};
    char text[HV_ERROR_TEXT];
    hv_table found = HV_EMPTY;
    check_limit(1000, 1000, HV_TABLE_KEPT_FLAT, 4000);
    check_limit(1000, 1000, HV_TABLE_KEPT_RUNS, 12000);
    check_limit(1000, 3, HV_TABLE_KEPT_RUNS, 36); /* and there are more runs than the footer says */
    check_limit((uint64_t)1 << 28, 1, HV_TABLE_KEPT_FLAT, (uint64_t)1 << 30);
    check_limit(((uint64_t)1 << 28) + 1, 1, HV_TABLE_KEPT_FLAT, ((uint64_t)1 << 30) + 4);
    check_limit((uint64_t)1 << 61, 1, HV_TABLE_KEPT_FLAT, (uint64_t)1 << 63);
    check_limit(9, (uint64_t)1 << 61, HV_TABLE_KEPT_RUNS, UINT64_MAX); /* 2^61 * 12 is past 64 bits */
    CHECK(!hv_table_from_bytes_within(times, times_size, 48, &found, &error) && has_shape(&found, 6, 1)); /* of i64 */
    CHECK_REFUSED(hv_table_from_bytes_within(times, times_size, 47, &found, &error), HV_TABLE_OVER_LIMIT, 48, 47, 0);
    CHECK(!strcmp(hv_table_error_text(HV_TABLE_OVER_LIMIT, &error, text),
                  "the columns kept as differences take 48 bytes in memory, above the limit of 47"));
    CHECK(!strcmp(hv_table_error_name(HV_TABLE_OVER_LIMIT), "HV_TABLE_OVER_LIMIT"));
    CHECK(!hv_table_from_bytes_within(days, days_size, 0, &found, &error)); /* as its rows */
    CHECK(!hv_save_bytes(times, times_size, path, &error));
    CHECK(!hv_table_load_within(path, only, 1, 48, &found, &error));
    CHECK(!hv_table_load_within(path, NULL, 0, 48, &found, &error));
    CHECK_REFUSED(hv_table_load_within(path, only, 1, 9, &found, &error), HV_TABLE_OVER_LIMIT, 48, 9, 0);
    CHECK(!hv_table_load_within(path, only, 0, 0, &found, &error) && has_shape(&found, 6, 0));
    CHECK(!unlink(path));
    hv_table_free(&found);
}

/* A name may have a zero byte: it is read, and written as it was. */
static void check_zero_byte(const char *path) {
    static uint8_t bytes[256];
    hv_table_footer footer = HV_TABLE_FOOTER_EMPTY;
    const char *const place[] = {"place"};
    hv_table_text name = HV_TABLE_NO_TEXT;
    memcpy(bytes, days, days_size);
    bytes[13 + 43 + 16 + 2 + 2 + 2 + 3] = 0; /* the second letter of "day" */
    CHECK(!hv_table_from_bytes(bytes, days_size, &kept, &error) && is_written(&kept, 0, bytes, days_size));
    CHECK(!hv_table_name_of(&kept, 0, &name, &error) && name.size == 3 && !memcmp(name.at, "d\0y", 4));
    free(name.at);
    bytes[13 + 43 + 15] ^= 1; /* the last letter of the second column, which is damaged, so that this is not a table */
    CHECK_REFUSED(hv_table_from_bytes(bytes, days_size, &kept, &error), HV_BAD_METADATA, 0, 0, 0);
    bytes[13 + 43 + 15] ^= 1;
    CHECK(!hv_save_bytes(bytes, days_size, path, &error) && !hv_table_load_footer(path, &footer, &error));
    CHECK(footer.columns[0].name_size == 3 && !memcmp(footer.columns[0].name, "d\0y", 4));
    CHECK(!hv_table_load_columns(path, place, 1, &kept, &error) && has_shape(&kept, 3, 1));
    make_times(&kept);
    hv_table_footer_free(&footer);
}

/* ---- Files ---- */

/* Linked with --wrap=umask: the mask is one of the process, whose other threads may make files, so that no call of a
 * header may change it for a moment. */
static long masks_set = 0;
mode_t __real_umask(mode_t mask);
mode_t __wrap_umask(mode_t mask);
mode_t __wrap_umask(mode_t mask) {
    masks_set++;
    return __real_umask(mask);
}

static size_t files_there(void) {
    DIR *const open_folder = opendir(folder);
    size_t count = 0;
    CHECK(open_folder);
    while (readdir(open_folder)) count++;
    closedir(open_folder);
    return count - 2; /* . and .. */
}

static mode_t mode_of(const char *of) {
    struct stat found;
    CHECK(!lstat(of, &found));
    return found.st_mode;
}

static bool has_table(const char *of, const uint8_t *bytes, size_t size) {
    hv_stored_file file = HV_STORED_FILE_EMPTY;
    hv_buffer found = HV_BUFFER_EMPTY;
    CHECK(!hv_stored_file_open(of, &file, &error) && !hv_stored_file_read(&file, 0, SIZE_MAX, &found, &error));
    const bool is_it = has_bytes(&found, bytes, size);
    hv_stored_file_close(&file);
    hv_buffer_free(&found);
    return is_it;
}

static void check_files(void) {
    const char *const turned[] = {"place", "day"}, *const twice[] = {"day", "day"}, *const gone[] = {"day", "at"};
    hv_table table = HV_EMPTY, out = HV_EMPTY;
    const mode_t before = umask(027);
    make_days(&table);
    CHECK(!hv_table_save(&table, path, 0, &error) && has_table(path, days, days_size));
    CHECK(mode_of(path) == (S_IFREG | 0640) && files_there() == 1);
    CHECK(!chmod(path, 0604) && !hv_table_save(&kept, path, 1, &error) && has_table(path, times, times_size));
    CHECK(mode_of(path) == (S_IFREG | 0604) && files_there() == 1);
    CHECK(!symlink("table.hv", link_path) && !hv_table_save(&table, link_path, 0, &error));
    CHECK(S_ISLNK(mode_of(link_path)) && has_table(path, days, days_size) && files_there() == 2);
    CHECK(mode_of(path) == (S_IFREG | 0604));
    CHECK(!hv_table_load(link_path, &out, &error) && is_written(&out, 0, days, days_size));
    CHECK(!hv_table_load_columns(path, turned, 2, &out, &error));
    CHECK_TABLE(&out, "3 | place: \"ab\" \"ab\" \"ab\" | day:tdD 7 7 null");
    CHECK(!hv_table_load_columns(path, turned + 1, 1, &out, &error) && has_shape(&out, 3, 1));
    CHECK_REFUSED(hv_table_load_columns(path, twice, 2, &out, &error), HV_TABLE_NAME_TWICE, 0, 1, 0);
    CHECK_REFUSED(hv_table_load_columns(path, gone, 2, &out, &error), HV_TABLE_UNKNOWN_NAME, 1, 0, 0);
    CHECK(has_shape(&out, 3, 1));
    CHECK(!hv_table_load_columns(path, NULL, 0, &out, &error) && has_shape(&out, 3, 0));
    CHECK(!hv_table_save(&out, path, 0, &error) && !hv_table_load(path, &out, &error) && has_shape(&out, 3, 0));
    CHECK(masks_set == 1); /* by this test */
    umask(before);
    hv_table_free(&table);
    hv_table_free(&out);
}

/* What the system refuses, after which the file is as it was, and no part of another is left. */
static void check_refused_files(void) {
    char missing[160];
    const struct rlimit few = {10, RLIM_INFINITY};
    struct rlimit before;
    snprintf(missing, sizeof missing, "%s/none/table.hv", folder);
    CHECK(!hv_save_bytes(times, times_size, path, &error));
    const size_t there = files_there();
    CHECK_REFUSED(hv_table_load(missing, &kept, &error), HV_TABLE_FILE_REFUSED, ENOENT, 0, 0);
    CHECK_REFUSED(hv_table_save(&kept, missing, 0, &error), HV_TABLE_FILE_REFUSED, ENOENT, 0, 0);
    CHECK_REFUSED(hv_table_load(folder, &kept, &error), HV_TABLE_FILE_REFUSED, EISDIR, 0, 0);
    CHECK_REFUSED(hv_table_save(&kept, folder, 0, &error), HV_TABLE_FILE_REFUSED, EISDIR, 0, 0);
    CHECK_REFUSED(hv_table_save(&kept, "/dev/full", 0, &error), HV_TABLE_FILE_REFUSED, ENOSPC, 0, 0);
    CHECK(!getrlimit(RLIMIT_FSIZE, &before) && signal(SIGXFSZ, SIG_IGN) != SIG_ERR);
    CHECK(!setrlimit(RLIMIT_FSIZE, &few));
    const int32_t answer = hv_save_bytes(days, days_size, path, &error);
    CHECK(!setrlimit(RLIMIT_FSIZE, &before));
    CHECK(answer == HV_TABLE_FILE_REFUSED && error.first == EFBIG && has_table(path, times, times_size));
    CHECK(files_there() == there && has_shape(&kept, 6, 1));
}

/* A pipe is read at once. */
static void check_pipe(void) {
    int ends[2];
    char name[32];
    hv_table table = HV_EMPTY;
    hv_table_footer footer = HV_TABLE_FOOTER_EMPTY;
    for (int turn = 0; turn < 2; turn++) {
        CHECK(!pipe(ends) && write(ends[1], days, days_size) == (ssize_t)days_size && !close(ends[1]));
        snprintf(name, sizeof name, "/dev/fd/%d", ends[0]);
        if (turn == 0) CHECK(!hv_table_load(name, &table, &error));
        else CHECK(!hv_table_load_footer(name, &footer, &error));
        close(ends[0]);
    }
    CHECK(is_written(&table, 0, days, days_size) && footer.rows == 3 && footer.count == 2);
    hv_table_free(&table);
    hv_table_footer_free(&footer);
}

/* ---- Footers ---- */

/* level  3 8 null 5        i16
 * name   "b" null "c" "b"
 * price  0.5 -1.5 2.5 0.5  floats of 32 bits
 * odd    NaN 1 1 1         floats of 64 bits
 * low    -NaN 1 1 1
 * none   null null null null
 * lists  [1] [] [1] [] */
static void make_measures(hv_table *table) {
    const char *const names[] = {"level", "name", "price", "odd", "none", "lists", "low"};
    const int16_t levels[] = {3, 8, 0, 5};
    const int32_t offsets[] = {0, 1, 1, 2, 3};
    const uint8_t levels_valid[] = {0x0B}, names_valid[] = {0x0D}, none[] = {0}, items[] = {1};
    const float prices[] = {0.5F, -1.5F, 2.5F, 0.5F};
    const double odd[] = {0, 1, 1, 1};
    const uint64_t starts[4] = {0}, sizes[] = {1, 0, 1, 0};
    uint32_t price_bits[4];
    uint64_t odd_bits[4];
    hv_column columns[7] = {HV_EMPTY}, flat = HV_EMPTY;
    memcpy(price_bits, prices, sizeof prices);
    memcpy(odd_bits, odd, sizeof odd);
    odd_bits[0] = 0x7FF8000000000000;
    CHECK(!hv_i16(levels, 4, NULLS_BY(levels_valid, 0), &columns[0], &error));
    CHECK(!hv_texts(0, offsets, 5, (const uint8_t *)"bcb", 3, NULLS_BY(names_valid, 0), &columns[1], &error));
    CHECK(!hv_u32(price_bits, 4, NOT_NULLABLE, &flat, &error) && !hv_float_encode(&flat, 0, &columns[2], &error));
    CHECK(!hv_u64(odd_bits, 4, NOT_NULLABLE, &flat, &error) && !hv_float_encode(&flat, 0, &columns[3], &error));
    odd_bits[0] |= (uint64_t)1 << 63;
    CHECK(!hv_u64(odd_bits, 4, NOT_NULLABLE, &flat, &error) && !hv_float_encode(&flat, 0, &columns[6], &error));
    CHECK(!hv_i16(levels, 4, NULLS_BY(none, 0), &columns[4], &error));
    CHECK(!hv_u8(items, 1, NOT_NULLABLE, &flat, &error));
    CHECK(!hv_lists(&flat, starts, 4, sizes, 4, NOT_NULLABLE, &columns[5], &error));
    give_format(&columns[2], "f"), give_format(&columns[3], "g"), give_format(&columns[6], "g");
    CHECK(!hv_table_of(names, columns, 7, table, &error));
    for (int i = 0; i < 7; i++) hv_free(&columns[i]);
    hv_free(&flat);
}

static hv_value double_value(double number) {
    hv_value value = {0, 0, HV_DOUBLE, 0, 0};
    memcpy(&value.as_unsigned, &number, sizeof number);
    return value;
}

/* Is a row the value by a comparison, of those in the order of the operators? */
static bool compares(uint8_t operator_, double row, double value) {
    const bool found[] = {row == value, row != value, row > value, row >= value, row < value, row <= value};
    return found[operator_];
}

/* Conditions of numbers: what may be said by the least and the greatest row. */
static void check_conditions(const hv_table_footer *footer, const char *column, double least, double greatest,
                             bool is_float) {
    for (int half = -8; half < 22; half++)
        for (uint8_t operator_ = HV_EQ; operator_ <= HV_LE; operator_++) {
            const double number = is_float ? half / 2.0 : half;
            const hv_value value = {0, half, HV_SIGNED, 0, 0}, real = double_value(number);
            const hv_table_condition asked = {column, operator_, is_float ? &real : &value, NULL, 0};
            const bool is_within = number >= least && number <= greatest;
            const bool is_bound = compares(operator_, least, number) || compares(operator_, greatest, number);
            const bool due = operator_ == HV_EQ ? is_within : is_bound;
            uint8_t truth = 9;
            CHECK(!hv_table_may_have(footer, &asked, &truth, &error));
            CHECK(truth == due);
        }
}

static bool may_have(const hv_table_footer *footer, hv_table_condition asked) {
    uint8_t truth = 9;
    CHECK(!hv_table_may_have(footer, &asked, &truth, &error) && truth < 2);
    return truth;
}

static void check_footers(void) {
    const hv_value text = {0, 0, HV_TEXT, 0, 0}, nine = {0, 9, HV_SIGNED, 0, 0}, null = {0, 0, HV_NULL, 0, 0};
    const hv_value seven = double_value(7);
    const uint8_t *const letters = (const uint8_t *)"abcd";
    hv_table table = HV_EMPTY;
    hv_table_footer footer = HV_TABLE_FOOTER_EMPTY;
    uint8_t truth = 9;
    make_measures(&table);
    CHECK(!hv_table_save(&table, path, 0, &error) && !hv_table_load_footer(path, &footer, &error));
    CHECK(footer.rows == 4 && footer.count == 7 && !strcmp(footer.columns[2].logical_type, "f"));
    CHECK(footer.columns[0].nulls == 1 && footer.columns[0].runs == 4 && footer.columns[3].runs == 2);
    CHECK_ROWS(&footer.columns[0].bounds, "3 8");
    CHECK_ROWS(&footer.columns[1].bounds, "\"b\" \"c\"");
    CHECK(hv_length(&footer.columns[4].bounds) == 0 && hv_is_empty(&footer.columns[5].bounds));
    check_conditions(&footer, "level", 3, 8, false);
    check_conditions(&footer, "price", -1.5, 2.5, true);
    for (uint8_t by = HV_EQ; by <= HV_LE; by++) {
        CHECK(may_have(&footer, (hv_table_condition){"odd", by, &seven, NULL, 0}));
        const bool is_low = by == HV_NE || by == HV_LT || by == HV_LE; /* numbers up to 1 */
        CHECK(may_have(&footer, (hv_table_condition){"low", by, &seven, NULL, 0}) == is_low);
        CHECK(!may_have(&footer, (hv_table_condition){"none", by, &nine, NULL, 0}));
        CHECK(!may_have(&footer, (hv_table_condition){"level", by, &null, NULL, 0}));
        CHECK(may_have(&footer, (hv_table_condition){"lists", by, &nine, NULL, 0}));
        for (int letter = 0; letter < 4; letter++) {
            const bool least = compares(by, 'b', 'a' + letter), greatest = compares(by, 'c', 'a' + letter);
            const hv_table_condition asked = {"name", by, &text, letters + letter, 1};
            CHECK(may_have(&footer, asked) == (least || greatest)); /* no text is between */
        }
    }
    const hv_table_condition gone = {"to", HV_EQ, &nine, NULL, 0}, other = {"none", HV_EQ, &text, letters, 1};
    const hv_table_condition floats = {"price", HV_EQ, &text, letters, 1}, none = {"name", HV_EQ, &seven, NULL, 0};
    CHECK_REFUSED(hv_table_may_have(&footer, &gone, &truth, &error), HV_TABLE_UNKNOWN_NAME, 0, 0, 0);
    CHECK(hv_table_may_have(&footer, &other, &truth, &error) == HV_TYPE_MISMATCH);
    CHECK(hv_table_may_have(&footer, &floats, &truth, &error) == HV_TYPE_MISMATCH);
    CHECK(hv_table_may_have(&footer, &none, &truth, &error) == HV_TYPE_MISMATCH);
    const hv_table_condition past = {"level", HV_LE + 1, &nine, NULL, 0}, by = {"odd", HV_LE + 1, &seven, NULL, 0};
    CHECK(hv_table_may_have(&footer, &past, &truth, &error) == HV_BAD_NUMBER);
    CHECK(hv_table_may_have(&footer, &by, &truth, &error) == HV_BAD_NUMBER);
    hv_table_footer_free(&footer);
    hv_table_footer_free(&footer);
    hv_table_footer_free(NULL);
    hv_table_free(&table);
}

/* ---- Each request for memory refused in turn ---- */

static hv_table lent = HV_EMPTY, out = HV_EMPTY;
static hv_table_footer end = HV_TABLE_FOOTER_EMPTY, read_end = HV_TABLE_FOOTER_EMPTY;
static hv_buffer written = HV_BUFFER_EMPTY;
static const char *const two_names[] = {"price", "name"};

static hv_error *fields = &error; /* or null: the calls answer the same */

static int32_t calls_to_bytes(void) { return hv_table_to_bytes(&kept, 1, &written, fields); }
static int32_t calls_to_rows(void) { return hv_table_to_bytes(&lent, 0, &written, fields); }
static int32_t calls_from_bytes(void) { return hv_table_from_bytes(times, times_size, &out, fields); }
static int32_t calls_save(void) { return hv_table_save(&lent, path, 0, fields); }
static int32_t calls_load(void) { return hv_table_load(path, &out, fields); }
static int32_t calls_load_columns(void) { return hv_table_load_columns(path, two_names, 2, &out, fields); }
static int32_t calls_load_footer(void) { return hv_table_load_footer(path, &read_end, fields); }
static int32_t calls_may_have(void) {
    const hv_value half = double_value(0.5);
    const hv_table_condition asked = {"price", HV_EQ, &half, NULL, 0};
    uint8_t truth = 0;
    return hv_table_may_have(&end, &asked, &truth, fields);
}
static int32_t calls_load_pipe(void) {
    char name[32];
    int ends[2];
    CHECK(!pipe(ends) && write(ends[1], days, days_size) == (ssize_t)days_size && !close(ends[1]));
    snprintf(name, sizeof name, "/dev/fd/%d", ends[0]);
    const int32_t answer = hv_table_load(name, &out, fields);
    close(ends[0]);
    return answer;
}

static long refuse_each(int32_t (*call)(void)) {
    const size_t there = files_there();
    long tried = 0;
    for (long at = 0;; at++) {
        CHECK(!hv_table_slice(&lent, 0, 1, &out, &error));
        written.size = 0;
        hv_buffer_put(&written, "kept", 4);
        hv_table_footer_free(&read_end);
        const long before = blocks;
        requests = refused = 0, refuse_at = at;
        const int32_t answer = call();
        refuse_at = -1;
        CHECK(files_there() == there);
        if (refused == 0) {
            CHECK(!answer);
            return tried;
        }
        tried++;
        CHECK(answer == HV_OUT_OF_MEMORY || !answer);
        if (!answer) continue;
        CHECK(blocks == before && has_shape(&out, 1, 7) && read_end.rows == 0);
        CHECK(has_bytes(&written, (const uint8_t *)"kept", 4));
        CHECK_ROWS_AT(&out, 1, "\"b\"");
    }
}

static void check_memory(void) {
    int32_t (*const calls[])(void) = {calls_to_bytes, calls_to_rows,      calls_from_bytes,  calls_save,     calls_load,
                                      calls_load_pipe, calls_load_columns, calls_load_footer, calls_may_have};
    long tried = 0;
    make_measures(&lent);
    CHECK(!hv_table_save(&lent, path, 0, &error) && !hv_table_load_footer(path, &end, &error));
    for (size_t i = 0; i < COUNT(calls); i++) tried += refuse_each(calls[i]);
    fields = NULL;
    for (size_t i = 0; i < COUNT(calls); i++) tried += refuse_each(calls[i]);
    CHECK(tried > 400);
    hv_table_free(&lent);
    hv_table_free(&out);
    hv_table_footer_free(&end);
    hv_table_footer_free(&read_end);
    hv_buffer_free(&written);
    printf("%ld requests for memory refused\n", tried);
}

int main(int count, char **given) {
    long refused_files = 0, tried = 0;
    CHECK(count == 2 && mkdtemp(folder));
    snprintf(path, sizeof path, "%s/table.hv", folder);
    snprintf(link_path, sizeof link_path, "%s/link.hv", folder);
    hv_session_initial(&session);
    const size_t stored = check_stored(given[1], false) + check_stored(given[1], true);
    check_documented();
    make_times(&kept);
    check_damaged(days, days_size, &refused_files, &tried);
    check_damaged(times, times_size, &refused_files, &tried);
    CHECK(with_zeros == (long)strlen("day" "tdD" "place" "at" "tss:UTC")); /* each letter once */
    check_spellings();
    check_bounds();
    check_names_twice();
    check_differences();
    check_no_differences();
    check_limits();
    check_files();
    check_zero_byte(path);
    check_refused_files();
    check_pipe();
    check_footers();
    check_memory();
    hv_table_free(&kept);
    CHECK(!unlink(path) && !unlink(link_path) && !rmdir(folder) && blocks == 0);
    printf("%zu stored tables, %ld of %ld damaged files refused\n", stored, refused_files, tried);
    return 0;
}
