/* What a C program may want around the calls of hivevigil_tables.h: names as texts of C, tables that are made of
 * several columns at once, and what a table holds in C's own memory. Only a header, C11 and C++17, which passes
 * arguments on. Nothing here is proved.
 *
 *     const char *const names[] = {"station", "level"};
 *     hv_column texts = HV_EMPTY;
 *     int32_t answer = hv_table_of(names, columns, 2, &table, &error);
 *     if (!answer) answer = hv_table_names(names, 1, &texts, &error);
 *     if (!answer) answer = hv_table_select(&table, &texts, &part, &error);
 */
#ifndef HIVEVIGIL_TABLE_HELPERS_H
#define HIVEVIGIL_TABLE_HELPERS_H
#include "hivevigil_helpers.h"
#include "hivevigil_tables.h"
#include <stdbool.h>
#include <stdlib.h>
#include <string.h>
#ifdef __cplusplus
extern "C" {
#endif

/* The number of a refusal, with these fields. */
static inline int32_t hv_table_refuse(int32_t number, uint64_t first, uint64_t second, hv_error *error) {
    const hv_error fields = {first, second, 0};
    if (error) *error = fields;
    return number;
}

/* Puts the table of `from` into `to`, whose own is freed. To itself nothing is done. */
static inline void hv_table_replace(hv_table *to, hv_table *from) {
    if (to == from) return;
    hv_table_free(to);
    *to = *from;
    from->at = NULL;
}

/* ---- Names ---- */

/* The column of texts as which calls on tables take several names; HV_TYPE_MISMATCH where one is not UTF-8. */
HV_ANSWER hv_table_names(const char *const *names, size_t count, hv_column *out, hv_error *error) {
    const hv_kind kind = {HV_UTF8, 0, 0, 0};
    hv_builder builder = HV_EMPTY;
    int32_t answer = hv_builder_new(&kind, &builder, error);
    for (size_t i = 0; !answer && i < count; i++) {
        const size_t size = strlen(names[i]);
        const hv_value text = {size, 0, HV_TEXT, 0, 0};
        answer = hv_append_value(&builder, &text, (const uint8_t *)names[i], size, 1, error);
    }
    if (!answer) answer = hv_finish(&builder, out, error);
    hv_builder_free(&builder);
    return answer;
}

/* A copy of the column of a name; HV_TABLE_UNKNOWN_NAME (0). */
HV_ANSWER hv_table_column_named(const hv_table *table, const char *name, hv_column *out, hv_error *error) {
    size_t place = 0;
    const int32_t answer = hv_table_place(table, (const uint8_t *)name, strlen(name), &place, error);
    return answer ? answer : hv_table_column(table, place, out, error);
}

/* Puts a copy of a column under a name, as hv_table_put does. */
HV_ANSWER hv_table_put_named(hv_table *table, const char *name, const hv_column *column, hv_error *error) {
    return hv_table_put(table, (const uint8_t *)name, strlen(name), column, error);
}

/* The same under a name that no column has: HV_TABLE_NAME_TWICE (place of the one that has it, its own), then as
 * hv_table_put. */
HV_ANSWER hv_table_add(hv_table *table, const char *name, const hv_column *column, hv_error *error) {
    size_t place = 0;
    const int32_t answer = hv_table_place(table, (const uint8_t *)name, strlen(name), &place, error);
    if (!answer) return hv_table_refuse(HV_TABLE_NAME_TWICE, place, hv_table_width(table), error);
    return answer == HV_TABLE_UNKNOWN_NAME ? hv_table_put_named(table, name, column, error) : answer;
}

/* The table of copies of these columns, each under the name at its place: HV_TABLE_NAME_TWICE (place, place), and as
 * hv_table_put. */
HV_ANSWER hv_table_of(const char *const *names, const hv_column *columns, size_t count, hv_table *out,
                      hv_error *error) {
    hv_table made = HV_EMPTY;
    int32_t answer = hv_table_new(0, &made, error);
    for (size_t i = 0; !answer && i < count; i++) answer = hv_table_add(&made, names[i], &columns[i], error);
    if (!answer) hv_table_replace(out, &made);
    hv_table_free(&made);
    return answer;
}

/* ---- What a table holds, in memory of malloc ---- */

/* Memory for `count` items of this size, all bytes 0, of which there may be none; 21. */
static inline int32_t hv_table_memory(size_t count, size_t size, void *out, hv_error *error) {
    void *const memory = calloc(count ? count : 1, size);
    memcpy(out, &memory, sizeof memory);
    return memory ? HV_OK : hv_table_refuse(HV_OUT_OF_MEMORY, 0, 0, error);
}

/* A text of malloc's memory, with a zero byte after it: it may have others. */
typedef struct hv_table_text {
    char *at;
    size_t size;
} hv_table_text;
#define HV_TABLE_NO_TEXT {NULL, 0}

/* The name of the column of a place; HV_OUT_OF_BOUNDS (place, columns). */
static inline int32_t hv_table_name_of(const hv_table *table, size_t place, hv_table_text *out, hv_error *error) {
    hv_error fields = {0, 0, 0};
    const int32_t asked = hv_table_name(table, place, NULL, 0, &out->size, &fields);
    if (asked && asked != HV_COLUMN_LENGTH) return hv_table_refuse(asked, fields.first, fields.second, error);
    const size_t room = asked ? (size_t)fields.first : 0;
    const int32_t answer = hv_table_memory(room + 1, 1, &out->at, error);
    return answer ? answer : hv_table_name(table, place, (uint8_t *)out->at, room, &out->size, error);
}

/* The format of a column, empty where it has none. */
static inline int32_t hv_table_format_of(const hv_column *column, hv_table_text *out, hv_error *error) {
    hv_error fields = {0, 0, 0};
    const int32_t asked = hv_type(column, NULL, 0, &out->size, &fields);
    if (asked && asked != HV_COLUMN_LENGTH) return hv_table_refuse(asked, fields.first, fields.second, error);
    const size_t room = asked ? (size_t)fields.first : 0;
    const int32_t answer = hv_table_memory(room + 1, 1, &out->at, error);
    return answer ? answer : hv_type(column, (uint8_t *)out->at, room, &out->size, error);
}

/* The column under a format, in its own place. */
static inline int32_t hv_table_give_format(hv_column *column, const char *format, size_t size, hv_error *error) {
    hv_column typed = HV_EMPTY;
    const int32_t answer = hv_with_type(column, (const uint8_t *)format, size, &typed, error);
    if (!answer) hv_put(column, &typed);
    return answer;
}

/* Copies of the columns of a table, with their names and their formats. */
typedef struct hv_table_columns {
    size_t count;
    hv_column *columns;
    hv_table_text *names, *formats;
} hv_table_columns;
#define HV_TABLE_NO_COLUMNS {0, NULL, NULL, NULL}

static inline void hv_table_columns_free(hv_table_columns *held) {
    for (size_t i = 0; i < held->count; i++) {
        hv_free(&held->columns[i]);
        free(held->names[i].at);
        free(held->formats[i].at);
    }
    free(held->columns);
    free(held->names);
    free(held->formats);
    memset(held, 0, sizeof *held);
}

/* What a table holds, which is the caller's to free, also after a refusal. */
static inline int32_t hv_table_columns_of(const hv_table *table, hv_table_columns *out, hv_error *error) {
    const size_t count = hv_table_width(table);
    int32_t answer = table->at ? HV_OK : hv_table_refuse(HV_NO_COLUMN, 0, 0, error);
    if (!answer) answer = hv_table_memory(count, sizeof *out->columns, &out->columns, error);
    if (!answer) answer = hv_table_memory(count, sizeof *out->names, &out->names, error);
    if (!answer) answer = hv_table_memory(count, sizeof *out->formats, &out->formats, error);
    if (!answer) out->count = count;
    for (size_t i = 0; !answer && i < count; i++) {
        answer = hv_table_column(table, i, &out->columns[i], error);
        if (!answer) answer = hv_table_name_of(table, i, &out->names[i], error);
        if (!answer) answer = hv_table_format_of(&out->columns[i], &out->formats[i], error);
    }
    return answer;
}

#ifdef __cplusplus
}
#endif
#endif
