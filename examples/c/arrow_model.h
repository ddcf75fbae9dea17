/* Random rows, for arrow_layouts.h, which lays them out as Arrow arrays, and arrow_reader.h, which reads such arrays.
 * The three follow only the format's text: nothing of the library is used but the structs of the interface. */
#ifndef HIVEVIGIL_ARROW_MODEL_H
#define HIVEVIGIL_ARROW_MODEL_H
#include "hivevigil_arrow.h"
#include <stdbool.h>
#include <stdint.h>
#include <stdio.h>
#include <stdlib.h>
#include <string.h>

/* ---- Rows ---- */

/* A row: null, or its bytes. A number has those of its type, a decimal 16, a boolean one. */
typedef struct row {
    bool null;
    uint8_t size;
    uint8_t bytes[22];
} row;

typedef struct rows {
    size_t count;
    row *at;
} rows;

static inline bool same_row(const row *left, const row *right) {
    if (left->null || right->null) return left->null && right->null;
    return left->size == right->size && memcmp(left->bytes, right->bytes, left->size) == 0;
}

/* ---- Chance ---- */

static uint64_t chance_state = 1;

/* xorshift64* */
static inline uint64_t chance(void) {
    chance_state ^= chance_state >> 12;
    chance_state ^= chance_state << 25;
    chance_state ^= chance_state >> 27;
    return chance_state * 2685821657736338717u;
}

static inline size_t below(size_t limit) { return (size_t)(chance() >> 20) % limit; }

static inline bool one_in(size_t times) { return below(times) == 0; }

/* ---- Memory of one array ---- */

/* Everything of an array is kept here, and freed at once: a buffer ends where its last item does, so that a sanitizer
 * sees each byte that is read past it. `slack` items more are there, of 16 bytes each, for arrays that are broken. */
static void *memory_blocks[4096];
static size_t memory_count, memory_slack;

static inline void *kept(size_t size) {
    void *block = calloc(size + (size == 0), 1);
    if (!block || memory_count == sizeof memory_blocks / sizeof *memory_blocks) exit(2);
    memory_blocks[memory_count++] = block;
    return block;
}

static inline void free_kept(void) {
    while (memory_count) free(memory_blocks[--memory_count]);
}

/* A buffer, now and then one that is not aligned. */
static inline uint8_t *new_buffer(size_t size) {
    size_t shift = one_in(8) ? 1 + below(7) : 0;
    return (uint8_t *)kept(size + shift + memory_slack * 16) + shift;
}

static inline void set_bit(uint8_t *bits, size_t at) { bits[at / 8] |= (uint8_t)(1 << at % 8); }

static inline bool bit_of(const uint8_t *bits, size_t at) { return bits[at / 8] >> at % 8 & 1; }

/* ---- Types ---- */

enum { NUMBER, TRUTH, DECIMAL, FIXED, TEXT, VIEW };

/* A format, and of what size its items are: of texts and bytes their offsets. */
typedef struct type {
    const char *format;
    int what;
    size_t size;
} type;

static const type types[] = {
    {"C", NUMBER, 1},
    {"S", NUMBER, 2},
    {"I", NUMBER, 4},
    {"L", NUMBER, 8},
    {"c", NUMBER, 1},
    {"s", NUMBER, 2},
    {"i", NUMBER, 4},
    {"l", NUMBER, 8},
    {"tdD", NUMBER, 4},
    {"tts", NUMBER, 4},
    {"ttm", NUMBER, 4},
    {"tiM", NUMBER, 4},
    {"tdm", NUMBER, 8},
    {"ttu", NUMBER, 8},
    {"ttn", NUMBER, 8},
    {"tss:", NUMBER, 8},
    {"tsm:UTC", NUMBER, 8},
    {"tDs", NUMBER, 8},
    {"tDm", NUMBER, 8},
    {"tDu", NUMBER, 8},
    {"tDn", NUMBER, 8},
    {"tsu:Asia/Tokyo", NUMBER, 8},
    {"tsn:", NUMBER, 8},
    {"b", TRUTH, 1},
    {"d:10,2", DECIMAL, 16},
    {"d:38,-3,128", DECIMAL, 16},
    {"d:18,4,64", DECIMAL, 8},
    {"d:9,0,32", DECIMAL, 4},
    {"u", TEXT, 4},
    {"U", TEXT, 8},
    {"z", TEXT, 4},
    {"Z", TEXT, 8},
    {"vu", VIEW, 16},
    {"vz", VIEW, 16},
    {"w:3", FIXED, 3},
    {"w:0", FIXED, 0},
};
enum { TYPES = sizeof types / sizeof *types };

static inline const type *type_of_format(const char *format) {
    for (size_t i = 0; i < TYPES; i++)
        if (strcmp(types[i].format, format) == 0) return &types[i];
    return NULL;
}

static inline bool is_utf8(const type *of) {
    return of->what >= TEXT && strchr("uU", of->format[strlen(of->format) - 1]);
}

/* A text of letters, now and then of two bytes. */
static inline row random_text(bool utf8) {
    row made = {false, (uint8_t)below(one_in(3) ? 22 : 5), {0}};
    for (size_t i = 0; i < made.size; i++) made.bytes[i] = (uint8_t)(utf8 ? 'a' + below(3) : chance() >> 30);
    if (utf8 && made.size > 1 && one_in(3)) memcpy(made.bytes, "\xc3\xa9", 2);
    return made;
}

/* A number of few, so that rows are often equal, or of any bits. Narrow decimals are widened by their sign. */
static inline row random_number(const type *of) {
    row made = {false, (uint8_t)of->size, {0}};
    uint64_t bits = one_in(4) ? chance() : one_in(2) ? below(3) : (uint64_t)0 - below(3);
    memcpy(made.bytes, &bits, of->size < 8 ? of->size : 8);
    if (of->what == DECIMAL) {
        int fill = made.bytes[(of->size < 8 ? of->size : 8) - 1] & 0x80 ? 0xff : 0;
        memset(made.bytes + (of->size < 8 ? of->size : 8), fill, 16 - (of->size < 8 ? of->size : 8));
        made.size = 16;
    }
    return made;
}

static inline row random_row(const type *of, size_t nulls) {
    row made = {true, 0, {0}};
    if (nulls && one_in(nulls)) return made;
    if (of->what >= TEXT) return random_text(is_utf8(of));
    if (of->what == NUMBER || of->what == DECIMAL) return random_number(of);
    made.null = false;
    made.size = (uint8_t)of->size;
    for (size_t i = 0; i < of->size; i++) made.bytes[i] = (uint8_t)below(2);
    return made;
}

static inline rows new_rows(size_t count) {
    rows made = {count, (row *)kept(count * sizeof(row))};
    return made;
}

/* Rows of which some are as the row before; one in `nulls` is null, none where that is 0. */
static inline rows random_rows(const type *of, size_t count, size_t nulls) {
    rows made = new_rows(count);
    size_t again = 1 + below(4);
    for (size_t i = 0; i < count; i++) made.at[i] = i && !one_in(again) ? made.at[i - 1] : random_row(of, nulls);
    return made;
}

/* `first` before `second` before `third`. */
static inline rows joined(rows first, rows second, rows third) {
    rows made = new_rows(first.count + second.count + third.count);
    if (first.count) memcpy(made.at, first.at, first.count * sizeof(row));
    if (second.count) memcpy(made.at + first.count, second.at, second.count * sizeof(row));
    if (third.count) memcpy(made.at + first.count + second.count, third.at, third.count * sizeof(row));
    return made;
}

static inline bool has_null(rows all) {
    for (size_t i = 0; i < all.count; i++)
        if (all.at[i].null) return true;
    return false;
}
#endif
