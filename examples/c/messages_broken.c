/* Messages of random columns, one in three of which has a logical type, in which bytes are changed, left out, put in or
 * moved: each has an answer, and under a sanitizer no byte is read that is not the message's. What is read is written as
 * these very bytes again; what is refused leaves the handle as it was. Reading holds at most 24 bytes for each byte of
 * the message, and 4 KiB.
 * messages_broken [COUNT [SEED]], linked with -Wl,--wrap=malloc,--wrap=calloc,--wrap=realloc,--wrap=free */
#include "check.h"
#include "hivevigil_helpers.h"
#include <malloc.h>

void *__real_malloc(size_t size);
void *__real_calloc(size_t count, size_t size);
void *__real_realloc(void *block, size_t size);
void __real_free(void *block);

static size_t held, most_held; /* bytes */

static void *took(void *block, size_t before) {
    size_t now = block ? malloc_usable_size(block) : 0;
    if (held + now > most_held) most_held = held + now;
    if (block) held += now - before;
    return block;
}

void *__wrap_malloc(size_t size) { return took(__real_malloc(size), 0); }
void *__wrap_calloc(size_t count, size_t size) { return took(__real_calloc(count, size), 0); }
void *__wrap_realloc(void *block, size_t size) {
    size_t before = block ? malloc_usable_size(block) : 0;
    return took(__real_realloc(block, size), before);
}
void __wrap_free(void *block) {
    if (block) held -= malloc_usable_size(block);
    __real_free(block);
}

static uint64_t state = 1;

static uint64_t chance(void) {
    state ^= state << 13, state ^= state >> 7, state ^= state << 17;
    return state * 0x2545F4914F6CDD1D >> 16;
}
static size_t below(size_t limit) { return (size_t)(chance() % limit); }

enum { ROWS = 40, LEVELS = 4, MESSAGE = 1 << 14, EDITS = 4 };

static hv_session session;
static hv_error error;

/* texts or bytes of at most seven bytes each, some of two bytes a letter */
static void make_texts(size_t rows, hv_validity some, hv_column *out) {
    static const uint8_t letters[] = "ab\xc3\xa9 cd\xc3\xbc ef\xc3\xa8 gh\xc3\xb6";
    uint8_t text[ROWS * sizeof letters];
    int32_t offsets[ROWS + 1] = {0};
    for (size_t row = 0; row < rows; row++) {
        static const uint8_t cuts[] = {0, 1, 2, 4, 5, 6, 7};
        size_t len = cuts[below(COUNT(cuts))], start = (size_t)offsets[row];
        memcpy(text + start, letters, len);
        offsets[row + 1] = (int32_t)(start + len);
    }
    CHECK(!hv_texts((uint8_t)below(2), offsets, rows + 1, text, (size_t)offsets[rows], some, out, &error));
}

/* one number, boolean or text in each row, or null */
static void make_constant(size_t rows, hv_column *out) {
    static const uint8_t kinds[] = {HV_U8, HV_U64, HV_I16, HV_I64, HV_BOOL, HV_UTF8, HV_BINARY};
    hv_kind kind = {kinds[below(COUNT(kinds))], (uint8_t)below(2), 0, 0};
    hv_value value = {.kind = HV_NULL};
    size_t len = 0;
    if (!kind.nullable || below(4)) {
        bool is_text = kind.number == HV_UTF8 || kind.number == HV_BINARY;
        bool is_signed = kind.number == HV_I16 || kind.number == HV_I64;
        len = is_text ? below(9) : 0;
        value.kind = kind.number == HV_BOOL ? HV_TRUTH : is_signed ? HV_SIGNED : HV_UNSIGNED;
        if (is_text) value.kind = kind.number == HV_UTF8 ? HV_TEXT : HV_BYTES;
        value.as_unsigned = is_text ? len : below(256), value.as_signed = (int64_t)below(9) - 4;
        value.truth = (uint8_t)below(2);
    }
    CHECK(!hv_constant(&kind, &value, (const uint8_t *)"constant", len, rows, out, &error));
}

/* a flat column or a constant, with null given in one of the four ways */
static void make_flat(size_t rows, hv_column *out) {
    uint64_t items[2 * ROWS], bits[2];
    for (size_t i = 0; i < COUNT(items); i++) items[i] = below(2) ? below(9) : chance();
    bits[0] = below(4) ? chance() : 0, bits[1] = below(2) ? bits[0] : chance();
    hv_validity some = hv_valid_bits((const uint8_t *)bits, sizeof bits, below(64));
    some.nulls = (uint8_t)below(3);
    switch (below(14)) {
    case 0: CHECK(!hv_u8((const uint8_t *)items, rows, some, out, &error)); break;
    case 1: CHECK(!hv_u16((const uint16_t *)items, rows, some, out, &error)); break;
    case 2: CHECK(!hv_u32((const uint32_t *)items, rows, some, out, &error)); break;
    case 3: CHECK(!hv_u64(items, rows, some, out, &error)); break;
    case 4: CHECK(!hv_i8((const int8_t *)items, rows, some, out, &error)); break;
    case 5: CHECK(!hv_i16((const int16_t *)items, rows, some, out, &error)); break;
    case 6: CHECK(!hv_i32((const int32_t *)items, rows, some, out, &error)); break;
    case 7: CHECK(!hv_i64((const int64_t *)items, rows, some, out, &error)); break;
    case 8: CHECK(!hv_bools((const uint8_t *)bits, sizeof bits, below(64), rows, some, out, &error)); break;
    case 9:
    case 10: make_texts(rows, some, out); break;
    case 11:
    case 12: make_constant(rows, out); break;
    default: {
        hv_pair pairs[ROWS];
        for (size_t i = 0; i < ROWS; i++) pairs[i] = (hv_pair){items[i], below(2) ? 0 : -1};
        CHECK(!hv_decimals(pairs, rows, 38, (int8_t)(below(9) - 4), some, out, &error));
    }
    }
}

/* A window of runs over the lists, decoded: their offsets and sizes, and validity where it was by bits, are in runs. */
static void put_into_runs(hv_column *lists) {
    uint16_t stops[ROWS];
    size_t rows = hv_length(lists), reached = 0;
    hv_column ends = HV_EMPTY, runs = HV_EMPTY, decoded = HV_EMPTY;
    for (size_t row = 0; row < rows; row++) stops[row] = (uint16_t)(reached += 1 + below(3));
    size_t offset = rows ? below(stops[0] + 1u) : 0, left = reached - offset;
    CHECK(!hv_u16(stops, rows, NOT_NULLABLE, &ends, &error));
    CHECK(!hv_runs(&ends, lists, offset, below((left < ROWS ? left : ROWS - 1) + 1), &runs, &error));
    CHECK(!hv_decode(&session, &runs, &decoded, &error));
    hv_put(lists, &decoded);
    hv_free(&ends), hv_free(&runs);
}

/* As many rows of lists of this type that no index names: a constant, which is null. */
static void put_nulls(hv_column *lists) {
    const uint8_t zeros[ROWS] = {0};
    uint16_t stops[ROWS];
    size_t rows = hv_length(lists);
    hv_column ends = HV_EMPTY, runs = HV_EMPTY, places = HV_EMPTY, nulls = HV_EMPTY;
    for (size_t row = 0; row < rows; row++) stops[row] = (uint16_t)(row + 1);
    CHECK(!hv_u16(stops, rows, NOT_NULLABLE, &ends, &error) && !hv_runs(&ends, lists, 0, rows, &runs, &error));
    CHECK(!hv_u8(zeros, rows, hv_valid_bits(zeros, sizeof zeros, 0), &places, &error));
    CHECK(!hv_take(&session, &runs, &places, &nulls, &error));
    CHECK(rows == 0 || hv_form(&nulls) == HV_FORM_CONSTANT);
    hv_put(lists, &nulls);
    hv_free(&ends), hv_free(&runs), hv_free(&places);
}

/* lists anywhere in some elements, where a null one may lie outside; or null in each row */
static void make_lists(size_t rows, hv_column *out) {
    uint64_t offsets[ROWS], sizes[ROWS], bits = chance();
    hv_column any = HV_EMPTY, elements = HV_EMPTY;
    make_flat(below(ROWS), &any);
    CHECK(!hv_decode(&session, &any, &elements, &error));
    hv_validity some = hv_valid_bits((const uint8_t *)&bits, sizeof bits, 0);
    some.nulls = (uint8_t)below(3);
    size_t count = hv_length(&elements);
    for (size_t row = 0; row < rows; row++) {
        bool is_null = some.nulls == 2 && !(bits >> row & 1);
        offsets[row] = is_null ? chance() : below(count + 1);
        sizes[row] = is_null ? chance() : below(count - offsets[row] + 1);
    }
    CHECK(!hv_lists(&elements, offsets, rows, sizes, rows, some, out, &error));
    switch (below(4)) {
    case 0: put_nulls(out); break;
    case 1: break;
    default: put_into_runs(out);
    }
    hv_free(&any), hv_free(&elements);
}

/* at most ROWS rows, flat, as lists, or in runs over another column */
static void make_column(size_t levels, hv_column *out) {
    if (levels == 0) {
        if (below(3)) make_flat(below(ROWS), out);
        else make_lists(below(ROWS), out);
        return;
    }
    hv_column values = HV_EMPTY, wide = HV_EMPTY, ends = HV_EMPTY;
    make_column(levels - 1, &values);
    uint64_t stops[ROWS + 1] = {0};
    size_t runs = hv_length(&values), reached = 0;
    for (size_t run = 0; run < runs; run++) stops[run] = reached += below(9) + (run > 0);
    CHECK(!hv_u64(stops, runs, NOT_NULLABLE, &wide, &error));
    hv_kind kind = {reached < 256 ? (uint8_t)below(4) : HV_U64, 0, 0, 0};
    CHECK(!hv_cast(&session, &wide, &kind, &ends, &error));
    size_t offset = below(stops[0] + 1), left = reached - offset;
    CHECK(!hv_runs(&ends, &values, offset, below((left < ROWS ? left : ROWS) + 1), out, &error));
    hv_free(&wide);
    hv_free(&values), hv_free(&ends);
}

static size_t make_message(uint8_t *message) {
    static const char *const types[] = {"g", "tss:UTC", "tsu:Europe/Z\xc3\xbcrich", "\xf0\x9f\x90\x9d"};
    const char *type = below(3) ? "" : types[below(COUNT(types))];
    hv_column column = HV_EMPTY, typed = HV_EMPTY;
    size_t size, written;
    make_column(below(LEVELS), &column);
    CHECK(!hv_with_type(&column, (const uint8_t *)type, strlen(type), &typed, &error));
    CHECK(!hv_write_size(&typed, &size, &error) && size <= MESSAGE / 2);
    CHECK(!hv_write(&typed, message, MESSAGE, &written, &error) && written == size);
    hv_free(&column), hv_free(&typed);
    return size;
}

static size_t edit(uint8_t *bytes, size_t len) {
    static const uint8_t numbers[] = {0, 1, 2, 0x7f, 0x80, 0xff, 0x52, 0x5a, 0x3a};
    static const uint8_t huge[] = {0x80, 0x80, 0x80, 0x80, 0x80, 0x80, 0x80, 0x80, 0x10};
    size_t at = below(len), count = 1 + below(8);
    switch (below(7)) {
    case 0: bytes[at] ^= (uint8_t)(1 << below(8)); return len;
    case 1: bytes[at] = numbers[below(COUNT(numbers))]; return len;
    case 2: return 1 + at; /* cut short */
    case 3: /* put in, a copy of what is elsewhere */
        memmove(bytes + at + count, bytes + at, len - at);
        memmove(bytes + at, bytes + below(len), count);
        return len + count;
    case 4: /* left out */
        if (at + count >= len) return len;
        memmove(bytes + at, bytes + at + count, len - at - count);
        return len - count;
    case 5: /* a number of 60 bits */
        memmove(bytes + at + sizeof huge, bytes + at, len - at);
        memcpy(bytes + at, huge, sizeof huge);
        return len + sizeof huge;
    default: /* goes on */
        bytes[len] = numbers[below(COUNT(numbers))];
        return len + 1;
    }
}

static void read_rows(hv_column *column) {
    static uint8_t text[MESSAGE];
    size_t rows = hv_length(column);
    for (size_t row = 0; row < rows && row < ROWS; row++) {
        hv_value value;
        CHECK(!hv_at(column, row, &value, text, sizeof text, &error));
    }
}

/* Of lists the elements, and what the first rows show of them. */
static void read_lists(hv_column *column) {
    hv_column first = HV_EMPTY, lists = HV_EMPTY;
    hv_column elements = HV_EMPTY, offsets = HV_EMPTY, sizes = HV_EMPTY, flags = HV_EMPTY;
    size_t rows = hv_length(column), count = rows < ROWS ? rows : ROWS;
    uint64_t starts[ROWS], counts[ROWS], bits[1] = {0};
    CHECK(!hv_slice(&session, column, 0, count, &first, &error) && !hv_decode(&session, &first, &lists, &error));
    CHECK(!hv_list_elements(&lists, &elements, &error) && !hv_list_validity(&lists, &flags, &error));
    CHECK(!hv_list_offsets(&lists, &offsets, &error) && !hv_read_u64(&offsets, 0, starts, count, &error));
    CHECK(!hv_list_sizes(&lists, &sizes, &error) && !hv_read_u64(&sizes, 0, counts, count, &error));
    CHECK(!hv_read_bools_from(&flags, 0, count, bits, count > 0, &error));
    read_rows(&elements);
    size_t there = hv_length(&elements);
    for (size_t row = 0; row < count; row++)
        CHECK(!(bits[0] >> row & 1) || (starts[row] <= there && counts[row] <= there - starts[row]));
    hv_free(&first), hv_free(&lists), hv_free(&elements), hv_free(&offsets), hv_free(&sizes), hv_free(&flags);
}

/* whether it was read */
static bool check_answer(const uint8_t *bytes, size_t len, hv_column *kept) {
    uint8_t *message = __real_malloc(len); /* of just this length, for the sanitizer */
    CHECK(message != NULL);
    memcpy(message, bytes, len);
    hv_column out = HV_EMPTY;
    size_t before = held, size;
    most_held = held;
    int32_t answer = hv_read_column(message, len, &out, &error);
    CHECK(answer == 0 || answer == HV_BAD_METADATA);
    CHECK(most_held - before <= 24 * len + 4096);
    uint8_t is_message;
    most_held = held;
    CHECK(!hv_is_message(message, len, &is_message, &error) && is_message == (answer == 0) && most_held == held);
    if (answer != 0) {
        CHECK(held == before);
        CHECK_REFUSED(hv_read_column(message, len, kept, &error), HV_BAD_METADATA, 0, 0, 0);
    } else {
        static uint8_t again[MESSAGE];
        CHECK(!hv_write(&out, again, sizeof again, &size, &error) && size == len && memcmp(again, message, len) == 0);
        if (hv_kind_of(&out).number == HV_LIST) read_lists(&out);
        else read_rows(&out);
        hv_free(&out);
    }
    __real_free(message);
    return answer == 0;
}

int main(int words, char **word) {
    size_t count = words > 1 ? strtoull(word[1], NULL, 10) : 100000, read = 0;
    if (words > 2) state = 0x9E3779B97F4A7C15 ^ strtoull(word[2], NULL, 10);
    static uint8_t message[MESSAGE], bytes[MESSAGE];
    hv_session_initial(&session);
    hv_column kept = HV_EMPTY;
    CHECK(!hv_u8((const uint8_t[]){7}, 1, NOT_NULLABLE, &kept, &error));
    size_t size = 0;
    for (size_t i = 0; i < count; i++) {
        if (i % 16 == 0) size = make_message(message);
        memcpy(bytes, message, size);
        size_t len = size;
        for (size_t edits = 1 + below(EDITS); edits > 0 && len < MESSAGE / 2 + 64; edits--) len = edit(bytes, len);
        read += check_answer(bytes, len, &kept);
    }
    CHECK_ROWS(&kept, "7");
    hv_free(&kept);
    CHECK(read > 0 && read < count);
    printf("%zu broken messages: %zu read, %zu refused\n", count, read, count - read);
    return 0;
}
