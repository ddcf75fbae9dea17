/* The rows of two tables whose columns have other types: a header only, C11 and C++17, over hivevigil_tables.h, whose
 * hv_table_append takes tables of the same types; nothing here is proved. */
#ifndef HIVEVIGIL_TABLE_CONCAT_H
#define HIVEVIGIL_TABLE_CONCAT_H
#include "hivevigil_arrow.h"
#include "hivevigil_decimals.h"
#include "hivevigil_table_errors.h"
#include "hivevigil_table_helpers.h"
#ifdef __cplusplus
extern "C" {
#endif

/* The rows of a table, then those of another that has columns of the same names, in any order. Where these have the
 * same types and formats, this is hv_table_append; else a type has null where it has in one of them, decimals of two
 * types become decimals of hv_decimal_common_kind, and lists are joined. `other` may be the table itself.
 * HV_TABLE_OTHER_NAMES where one has a column that the other has not, HV_TABLE_OTHER_TYPE (column) for two formats or
 * types that are not joined, HV_CAST_OUT_OF_RANGE (row, 0) as hv_decimal_aligned has it, HV_WINDOW_OVERFLOW for 2^64
 * rows or more, of columns that are joined so for 2^63. */
HV_ANSWER hv_table_concat(const hv_session *session, const hv_table *table, const hv_table *other, hv_table *out,
                          hv_error *error);

/* The names of all columns. */
static inline int32_t hv_table_all_names(const hv_table *table, hv_column *out, hv_error *error) {
    const hv_kind kind = {HV_UTF8, 0, 0, 0};
    hv_builder builder = HV_EMPTY;
    int32_t answer = hv_builder_new(&kind, &builder, error);
    for (size_t place = 0; !answer && place < hv_table_width(table); place++) {
        hv_table_text name = HV_TABLE_NO_TEXT;
        answer = hv_table_name_of(table, place, &name, error);
        const hv_value text = {name.size, 0, HV_TEXT, 0, 0};
        if (!answer) answer = hv_append_value(&builder, &text, (const uint8_t *)name.at, name.size, 1, error);
        free(name.at);
    }
    if (!answer) answer = hv_finish(&builder, out, error);
    hv_builder_free(&builder);
    return answer;
}

/* The columns of the other table in the order of those of the first. */
static inline int32_t hv_table_turned(const hv_table *table, const hv_table *other, hv_table *out, hv_error *error) {
    hv_column names = HV_EMPTY;
    int32_t answer = table->at && other->at ? HV_OK : hv_table_refuse(HV_NO_COLUMN, 0, 0, error);
    if (!answer) answer = hv_table_all_names(table, &names, error);
    if (!answer) answer = hv_table_select(other, &names, out, error);
    hv_free(&names);
    const bool has_more = !answer && hv_table_width(table) != hv_table_width(other);
    if (!has_more && answer != HV_TABLE_UNKNOWN_NAME) return answer;
    hv_table_free(out);
    return hv_table_refuse(HV_TABLE_OTHER_NAMES, 0, 0, error);
}

/* ---- Columns of two types ---- */

/* The rows of two columns as one, of decimals as decimals of one type. */
static inline int32_t hv_table_joined(const hv_session *session, hv_column *pair, hv_column *out, hv_error *error) {
    hv_column same[2] = {HV_EMPTY, HV_EMPTY};
    const bool are_decimals = hv_kind_of(&pair[0]).number == HV_DECIMAL && hv_kind_of(&pair[1]).number == HV_DECIMAL;
    int32_t answer = are_decimals ? hv_decimal_aligned(&pair[0], &pair[1], &same[0], &same[1], error) : HV_OK;
    if (!answer) answer = hv_arrow_concat(session, are_decimals ? same : pair, 2, out, error);
    hv_free(&same[0]);
    hv_free(&same[1]);
    return answer;
}

/* The column of a place in both tables, which have the same names, put into the table that is made. */
static inline int32_t hv_table_join_column(const hv_session *session, const hv_table_columns *first,
                                           const hv_table_columns *second, size_t place, hv_table *made,
                                           hv_error *error) {
    const hv_table_text *const name = &first->names[place], *const format = &first->formats[place];
    const hv_table_text *const other = &second->formats[place];
    hv_column pair[2] = {first->columns[place], second->columns[place]}, joined = HV_EMPTY; /* lent */
    if (format->size != other->size || memcmp(format->at, other->at, format->size) != 0)
        return hv_table_refuse(HV_TABLE_OTHER_TYPE, place, 0, error);
    int32_t answer = hv_table_joined(session, pair, &joined, error);
    if (answer == HV_TYPE_MISMATCH) answer = hv_table_refuse(HV_TABLE_OTHER_TYPE, place, 0, error);
    if (!answer) answer = hv_table_give_format(&joined, format->at, format->size, error);
    if (!answer) answer = hv_table_put(made, (const uint8_t *)name->at, name->size, &joined, error);
    hv_free(&joined);
    return answer;
}

static inline int32_t hv_table_join_columns(const hv_session *session, const hv_table *table, const hv_table *other,
                                            hv_table *out, hv_error *error) {
    hv_table_columns first = HV_TABLE_NO_COLUMNS, second = HV_TABLE_NO_COLUMNS;
    hv_table made = HV_EMPTY;
    int32_t answer = hv_table_columns_of(table, &first, error);
    if (!answer) answer = hv_table_columns_of(other, &second, error);
    if (!answer) answer = hv_table_new(0, &made, error);
    for (size_t place = 0; !answer && place < first.count; place++)
        answer = hv_table_join_column(session, &first, &second, place, &made, error);
    if (!answer) hv_table_replace(out, &made);
    hv_table_free(&made);
    hv_table_columns_free(&first);
    hv_table_columns_free(&second);
    return answer;
}

HV_ANSWER hv_table_concat(const hv_session *session, const hv_table *table, const hv_table *other, hv_table *out,
                          hv_error *error) {
    hv_table turned = HV_EMPTY;
    int32_t answer = hv_table_turned(table, other, &turned, error);
    if (!answer) answer = hv_table_append(table, &turned, out, error);
    if (answer == HV_TABLE_OTHER_TYPE || answer == HV_UNSUPPORTED)
        answer = hv_table_join_columns(session, table, &turned, out, error);
    hv_table_free(&turned);
    return answer;
}

#ifdef __cplusplus
}
#endif
#endif
