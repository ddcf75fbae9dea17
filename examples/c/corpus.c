/* The stored messages of examples/corpus, each of which is read, shown, written again, and made anew by calls:
 * corpus messages.txt [typed.txt]. A line has a name, in typed.txt that of the logical type too, how the column is made,
 * its rows and its bytes (examples/corpus/make.py). */
#include "check.h"
#include "hivevigil_helpers.h"
#include <inttypes.h>
#include <stdlib.h>

enum { LINE = 1 << 14, TEXT = 1 << 10, ITEMS = 64, SHOWN = 10 };
__extension__ typedef __int128 wide;
__extension__ typedef unsigned __int128 uwide;

static hv_session session;
static hv_error error;

/* ---- rows as text ---- */

static char shown[LINE];
static size_t used;

static void put(const char *text) {
    size_t len = strlen(text);
    CHECK(used + len < sizeof shown);
    memcpy(shown + used, text, len + 1);
    used += len;
}
static void put_number(uint64_t number) {
    char text[24];
    snprintf(text, sizeof text, "%" PRIu64, number);
    put(text);
}
/* high * 2^64 + low */
static void put_wide(int64_t high, uint64_t low) {
    uwide number = (uwide)high << 64 | low;
    char digits[48] = {0}, *at = digits + sizeof digits - 1;
    if (high < 0) number = -number, put("-");
    do *--at = (char)('0' + (int)(number % 10));
    while (number /= 10);
    put(at);
}
static void put_text(const uint8_t *text, size_t len) {
    put("\"");
    for (size_t at = 0; at < len; at++) {
        char letter[3] = {(char)text[at], 0, 0};
        const char *escaped = strchr("\\\\\"\" s\tt\nn", letter[0]);
        if (letter[0] && escaped && strchr("\\\" \t\n", letter[0])) letter[1] = escaped[1], letter[0] = '\\';
        put(letter);
    }
    put("\"");
}
static void put_bytes(const uint8_t *bytes, size_t len) {
    char digits[3];
    put("x");
    for (size_t at = 0; at < len; at++) snprintf(digits, sizeof digits, "%02x", bytes[at]), put(digits);
}

static void put_row(const hv_column *column, size_t row) {
    static uint8_t text[TEXT];
    hv_value value;
    CHECK(!hv_at(column, row, &value, text, sizeof text, &error));
    switch (value.kind) {
    case HV_UNSIGNED: put_number(value.as_unsigned); break;
    case HV_SIGNED: put_wide(value.as_signed < 0 ? -1 : 0, (uint64_t)value.as_signed); break;
    case HV_TRUTH: put(value.truth ? "true" : "false"); break;
    case HV_DECIMAL_VALUE: put_wide(value.as_signed, value.as_unsigned); break;
    case HV_TEXT: put_text(text, (size_t)value.as_unsigned); break;
    case HV_BYTES: put_bytes(text, (size_t)value.as_unsigned); break;
    default: put("null");
    }
}

static uint64_t number_at(const hv_column *numbers, size_t row) {
    hv_value value;
    CHECK(!hv_at(numbers, row, &value, NULL, 0, &error));
    return value.kind == HV_TRUTH ? value.truth : value.as_unsigned;
}

static void put_lists(const hv_column *column, size_t rows) {
    hv_column first = HV_EMPTY, lists = HV_EMPTY;
    hv_column elements = HV_EMPTY, offsets = HV_EMPTY, sizes = HV_EMPTY, valid = HV_EMPTY;
    CHECK(!hv_slice(&session, column, 0, rows, &first, &error) && !hv_decode(&session, &first, &lists, &error));
    CHECK(!hv_list_elements(&lists, &elements, &error) && !hv_list_offsets(&lists, &offsets, &error));
    CHECK(!hv_list_sizes(&lists, &sizes, &error) && !hv_list_validity(&lists, &valid, &error));
    for (size_t row = 0; row < rows; row++) {
        const bool is_valid = number_at(&valid, row);
        const uint64_t start = number_at(&offsets, row), size = number_at(&sizes, row);
        put(is_valid ? " [" : " null");
        for (uint64_t item = 0; is_valid && item < size; item++) {
            if (item) put(" ");
            put_row(&elements, (size_t)(start + item));
        }
        if (is_valid) put("]");
    }
    hv_free(&first), hv_free(&lists), hv_free(&elements), hv_free(&offsets), hv_free(&sizes), hv_free(&valid);
}

static void show(const hv_column *column) {
    const size_t rows = hv_length(column), count = rows < SHOWN ? rows : SHOWN;
    used = 0;
    put_number(rows), put(" rows:");
    if (hv_kind_of(column).number == HV_LIST) put_lists(column, count);
    else
        for (size_t row = 0; row < count; row++) put(" "), put_row(column, row);
}

/* ---- columns made by calls, from words ---- */

static char *words[LINE / 2];
static size_t word, word_count;

static const char *next(void) {
    CHECK(word < word_count);
    return words[word++];
}
static bool is_next(const char *text) { return word < word_count && !strcmp(words[word], text); }
static void skip(const char *text) { CHECK(!strcmp(next(), text)); }

static hv_kind kind_of_word(const char *text) {
    static const char *const names[] = {"u8",  "u16", "u32",  "u64", "i8",   "i16",
                                        "i32", "i64", "bool", "",    "utf8", "binary"};
    hv_kind kind = {255, (uint8_t)(text[strlen(text) - 1] == '?'), 0, 0};
    const size_t len = strlen(text) - kind.nullable;
    int precision, scale;
    for (uint8_t at = 0; at < COUNT(names); at++)
        if (strlen(names[at]) == len && !strncmp(names[at], text, len)) kind.number = at;
    if (sscanf(text, "decimal(%d,%d)", &precision, &scale) == 2)
        kind.number = HV_DECIMAL, kind.precision = (uint8_t)precision, kind.scale = (int8_t)scale;
    CHECK(kind.number != 255);
    return kind;
}

static wide wide_of_word(const char *text) {
    const bool is_negative = *text == '-';
    uwide number = 0;
    for (const char *at = text + is_negative; *at; at++) {
        CHECK(*at >= '0' && *at <= '9');
        number = number * 10 + (uwide)(*at - '0');
    }
    return (wide)(is_negative ? -number : number);
}

/* the bytes of "a\sb" or x6120 */
static size_t text_of_word(const char *text, uint8_t *bytes) {
    size_t len = 0;
    for (const char *at = text + 1; *text == 'x' && *at; at += 2) sscanf(at, "%2" SCNx8, &bytes[len++]);
    for (const char *at = text + 1; *text == '"' && at[1]; at++) {
        const bool is_escaped = *at == '\\';
        at += is_escaped;
        const char *meant = strchr("s t\tn\n", *at);
        bytes[len++] = (uint8_t)(is_escaped && meant && strchr("stn", *at) ? meant[1] : *at);
    }
    return len;
}

static hv_value value_of_word(const char *text, hv_kind kind, uint8_t *bytes, size_t *len) {
    hv_value value = {0, 0, HV_NULL, 0, 0};
    *len = 0;
    if (!strcmp(text, "null")) return value;
    if (kind.number == HV_BOOL) value.kind = HV_TRUTH, value.truth = *text == 't';
    else if (kind.number == HV_UTF8 || kind.number == HV_BINARY) {
        value.kind = kind.number == HV_UTF8 ? HV_TEXT : HV_BYTES;
        value.as_unsigned = *len = text_of_word(text, bytes);
    } else {
        const wide number = wide_of_word(text);
        value.kind = kind.number == HV_DECIMAL ? HV_DECIMAL_VALUE : kind.number < HV_I8 ? HV_UNSIGNED : HV_SIGNED;
        value.as_unsigned = (uint64_t)number;
        value.as_signed = (int64_t)(kind.number == HV_DECIMAL ? number >> 64 : number);
    }
    return value;
}

/* Rows of one type, as C passes them. */
typedef struct rows_t {
    union {
        uint8_t u8[ITEMS], bits[ITEMS];
        uint16_t u16[ITEMS];
        uint32_t u32[ITEMS];
        uint64_t u64[ITEMS];
        hv_pair pairs[ITEMS];
    } as;
    int64_t offsets[ITEMS + 1];
    uint8_t text[TEXT], valid[ITEMS];
    size_t count, text_len;
} rows_t;

static void set_number(rows_t *rows, size_t row, hv_kind kind, wide number) {
    switch (kind.number) {
    case HV_U8: case HV_I8: rows->as.u8[row] = (uint8_t)number; break;
    case HV_U16: case HV_I16: rows->as.u16[row] = (uint16_t)number; break;
    case HV_U32: case HV_I32: rows->as.u32[row] = (uint32_t)number; break;
    case HV_U64: case HV_I64: rows->as.u64[row] = (uint64_t)number; break;
    default: rows->as.pairs[row] = (hv_pair){(uint64_t)number, (int64_t)(number >> 64)};
    }
}

/* One word: a value, null, or null over a number that is stored. */
static void add_row(rows_t *rows, hv_kind kind, const char *text) {
    const size_t row = rows->count++;
    const bool is_null = !strncmp(text, "null", 4);
    CHECK(row < ITEMS);
    if (!is_null) rows->valid[row / 8] |= (uint8_t)(1 << row % 8);
    if (kind.number == HV_UTF8 || kind.number == HV_BINARY) {
        if (!is_null) rows->text_len += text_of_word(text, rows->text + rows->text_len);
        rows->offsets[row + 1] = (int64_t)rows->text_len;
    } else if (kind.number == HV_BOOL) {
        if (*text == 't') rows->as.bits[row / 8] |= (uint8_t)(1 << row % 8);
    } else set_number(rows, row, kind, is_null ? text[4] ? wide_of_word(text + 5) : 0 : wide_of_word(text));
}

static void make_rows(const rows_t *rows, hv_kind kind, hv_validity valid, hv_column *out) {
    const size_t count = rows->count;
    int32_t answer = 0;
    switch (kind.number) {
    case HV_U8: answer = hv_u8(rows->as.u8, count, valid, out, &error); break;
    case HV_U16: answer = hv_u16(rows->as.u16, count, valid, out, &error); break;
    case HV_U32: answer = hv_u32(rows->as.u32, count, valid, out, &error); break;
    case HV_U64: answer = hv_u64(rows->as.u64, count, valid, out, &error); break;
    case HV_I8: answer = hv_i8((const int8_t *)rows->as.u8, count, valid, out, &error); break;
    case HV_I16: answer = hv_i16((const int16_t *)rows->as.u16, count, valid, out, &error); break;
    case HV_I32: answer = hv_i32((const int32_t *)rows->as.u32, count, valid, out, &error); break;
    case HV_I64: answer = hv_i64((const int64_t *)rows->as.u64, count, valid, out, &error); break;
    case HV_BOOL: answer = hv_bools(rows->as.bits, (count + 7) / 8, 0, count, valid, out, &error); break;
    case HV_DECIMAL: answer = hv_decimals(rows->as.pairs, count, kind.precision, kind.scale, valid, out, &error); break;
    default:
        answer = hv_large_texts(kind.number == HV_BINARY, rows->offsets, count + 1, rows->text, rows->text_len, valid,
                                out, &error);
    }
    CHECK(!answer);
}

/* flat TYPE VALIDITY ROW .. */
static void make_flat(hv_column *out) {
    const hv_kind kind = kind_of_word(next());
    const char *validity = next();
    static rows_t rows;
    memset(&rows, 0, sizeof rows);
    while (word < word_count && !is_next("}")) add_row(&rows, kind, next());
    if (!strcmp(validity, "all-null")) { /* what a constant null is written out as */
        const hv_value null = {0, 0, HV_NULL, 0, 0};
        hv_column nulls = HV_EMPTY;
        CHECK(!hv_constant(&kind, &null, NULL, 0, rows.count, &nulls, &error));
        CHECK(!hv_decode(&session, &nulls, out, &error));
        hv_free(&nulls);
        return;
    }
    const bool by_bits = !strcmp(validity, "bits");
    const hv_validity bits = hv_valid_bits(rows.valid, (rows.count + 7) / 8, 0);
    make_rows(&rows, kind, by_bits ? bits : kind.nullable ? hv_all_valid() : hv_not_nullable(), out);
}

static bool make(hv_column *out);

/* { FORM }; false where no call makes it */
static bool make_part(hv_column *out) {
    skip("{");
    if (!make(out)) return false;
    skip("}");
    return true;
}

/* runs TYPE OFFSET ROWS END .. { VALUES } */
static bool make_runs(hv_column *out) {
    const hv_kind kind = kind_of_word(next());
    const size_t offset = (size_t)wide_of_word(next()), count = (size_t)wide_of_word(next());
    hv_column ends = HV_EMPTY, values = HV_EMPTY;
    rows_t rows = {0};
    while (!is_next("{")) add_row(&rows, kind, next());
    make_rows(&rows, kind, hv_not_nullable(), &ends);
    const bool is_made = make_part(&values);
    if (is_made) CHECK(!hv_runs(&ends, &values, offset, count, out, &error));
    hv_free(&ends), hv_free(&values);
    return is_made;
}

/* constant TYPE VALUE ROWS */
static bool make_constant(hv_column *out) {
    uint8_t bytes[TEXT];
    size_t len;
    if (!strncmp(words[word], "list", 4)) return false;
    const hv_kind kind = kind_of_word(next());
    const hv_value value = value_of_word(next(), kind, bytes, &len);
    CHECK(!hv_constant(&kind, &value, bytes, len, (size_t)wide_of_word(next()), out, &error));
    return true;
}

/* lists { ELEMENTS } { OFFSETS } { SIZES } VALIDITY: no call makes parts in runs, or lists that are null by their form */
static bool make_lists(hv_column *out) {
    hv_column elements = HV_EMPTY, offsets = HV_EMPTY, sizes = HV_EMPTY;
    uint64_t starts[ITEMS] = {0}, counts[ITEMS] = {0};
    uint8_t bits[ITEMS / 8] = {0};
    CHECK(make_part(&elements) && make_part(&offsets) && make_part(&sizes));
    const size_t len = hv_length(&offsets);
    const char *validity = next();
    bool is_made = hv_form(&offsets) == HV_FORM_FLAT && hv_form(&sizes) == HV_FORM_FLAT;
    is_made = is_made && strcmp(validity, "all-null") && strcmp(validity, "runs");
    hv_validity valid = strcmp(validity, "no-null") ? hv_all_valid() : hv_not_nullable();
    if (is_made && !strcmp(validity, "bits")) {
        const char *flags = next();
        for (size_t row = 0; row < len; row++) bits[row / 8] |= (uint8_t)((flags[row] == '1') << row % 8);
        valid = hv_valid_bits(bits, (len + 7) / 8, 0);
    }
    CHECK(!hv_read_u64(&offsets, 0, starts, len, &error) && !hv_read_u64(&sizes, 0, counts, len, &error));
    if (is_made) CHECK(!hv_lists(&elements, starts, len, counts, len, valid, out, &error));
    hv_free(&elements), hv_free(&offsets), hv_free(&sizes);
    return is_made;
}

static bool make(hv_column *out) {
    const char *form = next();
    if (!strcmp(form, "runs")) return make_runs(out);
    if (!strcmp(form, "constant")) return make_constant(out);
    if (!strcmp(form, "lists")) return make_lists(out);
    CHECK(!strcmp(form, "flat"));
    make_flat(out);
    return true;
}

/* ---- the stored lines ---- */

static void expect_bytes(const hv_column *column, const char *type, const uint8_t *bytes, size_t len) {
    static uint8_t written[LINE];
    size_t size = 0, needed = 0;
    hv_column typed = HV_EMPTY;
    CHECK(!hv_with_type(column, (const uint8_t *)type, strlen(type), &typed, &error));
    CHECK(!hv_write_size(&typed, &needed, &error) && needed == len);
    CHECK(!hv_write(&typed, written, sizeof written, &size, &error) && size == len && !memcmp(written, bytes, len));
    hv_free(&typed);
}

/* What is read has this logical type as its format. */
static void read_bytes(const uint8_t *bytes, size_t len, const char *type, hv_column *out) {
    static uint8_t format[LINE];
    size_t count;
    CHECK(!hv_read_column(bytes, len, out, &error));
    CHECK(!hv_type(out, format, sizeof format, &count, &error));
    CHECK(count == strlen(type) && !memcmp(format, type, count));
}

/* Writes the rows as they are stored, whatever the format says of them. */
static void show_stored(const hv_column *column) {
    hv_column stored = HV_EMPTY;
    CHECK(!hv_with_type(column, (const uint8_t *)"", 0, &stored, &error));
    show(&stored);
    hv_free(&stored);
}

/* Is the column made by calls too? */
static bool check_line(const char *type, char *form, const char *rows, const char *digits) {
    static uint8_t bytes[LINE];
    const size_t len = strlen(digits) / 2;
    hv_column column = HV_EMPTY, made = HV_EMPTY;
    for (size_t at = 0; at < len; at++) sscanf(digits + 2 * at, "%2" SCNx8, &bytes[at]);
    read_bytes(bytes, len, type, &column);
    show_stored(&column);
    CHECK(!strcmp(shown, rows));
    expect_bytes(&column, type, bytes, len);
    word = word_count = 0;
    for (char *at = strtok(form, " "); at; at = strtok(NULL, " ")) words[word_count++] = at;
    const bool is_made = make(&made);
    if (is_made) expect_bytes(&made, type, bytes, len);
    CHECK(!is_made || word == word_count);
    hv_free(&column), hv_free(&made);
    return is_made;
}

/* Reads the lines of a file with this number of parts, of which the second is a logical type where there are five. */
static void check_file(const char *name, size_t parts, size_t *count, size_t *made) {
    static char line[LINE];
    FILE *file = fopen(name, "r");
    CHECK(file);
    for (; fgets(line, sizeof line, file); ++*count) {
        char *part[5] = {line};
        for (size_t at = 1; at < parts; at++) {
            part[at] = strchr(part[at - 1], '\t');
            CHECK(part[at]);
            *part[at]++ = 0;
        }
        part[parts - 1][strcspn(part[parts - 1], "\n")] = 0;
        fprintf(stderr, "%s\n", part[0]); /* the one that a check which does not hold is about */
        *made += check_line(parts == 5 ? part[1] : "", part[parts - 3], part[parts - 2], part[parts - 1]);
    }
    fclose(file);
}

int main(int argc, char **argv) {
    size_t count = 0, typed = 0, made = 0;
    CHECK(argc == 2 || argc == 3);
    hv_session_initial(&session);
    check_file(argv[1], 4, &count, &made);
    if (argc == 3) check_file(argv[2], 5, &typed, &made);
    printf("%zu messages, and %zu with a logical type, are read as their rows and written as their bytes; calls make %zu "
           "of them\n", count, typed, made);
    return count > 0 && (typed > 0 || argc == 2) ? 0 : 1;
}
