/* Tables: named columns of one number of rows, each with its format of Arrow, which the library holds. What each call
 * makes, answers and refuses is proved, as for the calls of hivevigil.h, which this header includes; C11 and C++17.
 *
 *     hv_table table = HV_EMPTY, high = HV_EMPTY;
 *     int32_t answer = hv_table_new(0, &table, &error);
 *     if (!answer) answer = hv_table_put(&table, (const uint8_t *)"level", 5, &levels, &error);
 *     if (!answer) answer = hv_table_filter(&table, &mask, &high, &error);
 *     hv_table_free(&high);
 *     hv_table_free(&table);
 *
 * A handle, hv_table, owns its table, and what hivevigil.h says of hv_column holds of it: who owns what, what may be
 * null, what a caller owes, and one call at a time. `out` is another handle than those that are lent. A call answers 0,
 * a number of hivevigil.h, or one of those below; after 0 `out` has the table that was made, and after a refusal every
 * table and column is as it was. HV_NO_COLUMN means an empty handle of either kind, before every other refusal but
 * those of a null pointer and of a number.
 *
 * A name is UTF-8 without a zero at its end, is counted in bytes, and may be empty; a list of names is a column of
 * texts in any form (hv_texts). A column is copied as hv_clone does, with its format: what it shares is shared. No call
 * takes a session: all kernels are used.
 *
 * Headers next to this one are over these calls, and not proved: names as texts of C in hivevigil_table_helpers.h,
 * sentences in hivevigil_table_errors.h, groups in hivevigil_table_groups.h, files in hivevigil_table_file.h, streams of
 * Arrow in hivevigil_table_arrow.h, and rows of two types that are joined in hivevigil_table_concat.h. */
#ifndef HIVEVIGIL_TABLES_H
#define HIVEVIGIL_TABLES_H
#include "hivevigil.h"
#ifdef __cplusplus
extern "C" {
#endif

/* A handle: a table that the library owns, or none. It starts as HV_EMPTY. */
typedef struct hv_table { void *at; } hv_table;

/* The refusals that only tables have, and their files, with their fields: hivevigil_table_errors.h has them in words.
 * Columns, and names in a list, are counted from 0. */
enum {
    HV_TABLE_UNKNOWN_NAME = 201,      /* name: the first of the given names that no column has */
    HV_TABLE_NAME_TWICE = 202,        /* earlier, name: the first of the given names that an earlier one is equal to */
    HV_TABLE_FILE_REFUSED = 203,      /* number: the system refused a file, for a reason of errno.h */
    HV_TABLE_OVER_LIMIT = 204,        /* bytes, limit: the columns of a file that are kept as differences take more
                                         bytes in memory than the caller lets them */
    HV_TABLE_NAME_COUNT = 205,        /* names, columns; no call answers it yet */
    HV_TABLE_ROW_COUNT = 206,         /* column, rows, wanted: its place, its rows, and those of the table */
    HV_TABLE_NEW_NAME_COUNT = 207,    /* names, new names */
    HV_TABLE_OTHER_NAMES = 208,       /* the other table has not the same names in the same order */
    HV_TABLE_OTHER_TYPE = 209,        /* column: the first whose type or format the other table's has not */
    HV_TABLE_NEW_NAME_TWICE = 210,    /* earlier, column: the first column whose name an earlier one would have too */
    HV_TABLE_NO_KEYS = 211,           /* rows are put in order, and in groups, by at least one column */
    HV_TABLE_KEY_OF_LISTS = 212,      /* key: the first whose column has lists */
    HV_TABLE_UNKNOWN_COLUMN = 213,    /* answer: the first that is of a column that is not there */
    HV_TABLE_UNSUPPORTED_ANSWER = 214, /* answer: the first that its column does not have */
    HV_TABLE_ANSWER_TWICE = 215,      /* earlier, answer: the first whose name a key or an earlier answer has; answers
                                         come after the keys in the first number */
    HV_TABLE_SUM_OVERFLOW = 216       /* answer, group: the first group whose sum does not fit */
};

#ifndef HV_EXPORTS_ALONE
/* the handle of a table that is lent, as hv_lent has that of a column */
static inline hv_table *hv_lent_table(const hv_table *table) { return (hv_table *)(uintptr_t)table; }

/* as in hivevigil_calls.h */
#define HV_FIELDS (error ? error : &ignored)
#define HV_ITEMS(type, items, len) \
    do { \
        if (!items && len) return hv_missing(len, HV_FIELDS); \
        if (!items) items = (type *)hv_nowhere(); \
    } while (0)
#endif

/* made by tools/declarations.py from hivevigil_tables.h */
/* Tables */
HV_EXPORT int32_t hv_table_new(size_t count, hv_table *out, hv_error *error);
HV_EXPORT int32_t hv_table_put(hv_table *table, const uint8_t *name, size_t name_len, hv_column *column,
                               hv_error *error);
HV_EXPORT size_t hv_table_len(hv_table *table);
HV_EXPORT size_t hv_table_width(hv_table *table);
HV_EXPORT int32_t hv_table_name(hv_table *table, size_t place, uint8_t *name, size_t name_len, size_t *size,
                                hv_error *error);
HV_EXPORT int32_t hv_table_place(hv_table *table, const uint8_t *name, size_t name_len, size_t *place, hv_error *error);
HV_EXPORT int32_t hv_table_column(hv_table *table, size_t place, hv_column *out, hv_error *error);
HV_EXPORT int32_t hv_table_clone(hv_table *table, hv_table *out, hv_error *error);
HV_EXPORT int32_t hv_table_select(hv_table *table, hv_column *names, hv_table *out, hv_error *error);
HV_EXPORT int32_t hv_table_rename(hv_table *table, hv_column *names, hv_column *new_names, hv_table *out,
                                  hv_error *error);
HV_EXPORT int32_t hv_table_slice(hv_table *table, size_t start, size_t stop, hv_table *out, hv_error *error);
HV_EXPORT int32_t hv_table_filter(hv_table *table, hv_column *mask, hv_table *out, hv_error *error);
HV_EXPORT int32_t hv_table_filter_by(hv_table *table, const uint8_t *name, size_t name_len, uint8_t operator_,
                                     const hv_value *value, const uint8_t *text, size_t text_len, hv_table *out,
                                     hv_error *error);
HV_EXPORT int32_t hv_table_take(hv_table *table, hv_column *indices, hv_table *out, hv_error *error);
HV_EXPORT int32_t hv_table_append(hv_table *table, hv_table *other, hv_table *out, hv_error *error);
HV_EXPORT int32_t hv_table_drop_null(hv_table *table, hv_column *names, hv_table *out, hv_error *error);
HV_EXPORT int32_t hv_table_sort(hv_table *table, hv_column *names, const uint8_t *flags, size_t flags_len,
                                hv_table *out, hv_error *error);
HV_EXPORT int32_t hv_table_group_by(hv_table *table, hv_column *keys, hv_column *answers, hv_column *columns,
                                    const uint8_t *folds, size_t folds_len, hv_table *out, hv_error *error);
HV_EXPORT void hv_table_free(hv_table *table);

#ifndef HV_EXPORTS_ALONE
#define hv_table_new(...) hv_call_table_new(__VA_ARGS__)
#define hv_table_put(...) hv_call_table_put(__VA_ARGS__)
#define hv_table_len(...) hv_call_table_len(__VA_ARGS__)
#define hv_table_width(...) hv_call_table_width(__VA_ARGS__)
#define hv_table_name(...) hv_call_table_name(__VA_ARGS__)
#define hv_table_place(...) hv_call_table_place(__VA_ARGS__)
#define hv_table_column(...) hv_call_table_column(__VA_ARGS__)
#define hv_table_clone(...) hv_call_table_clone(__VA_ARGS__)
#define hv_table_select(...) hv_call_table_select(__VA_ARGS__)
#define hv_table_rename(...) hv_call_table_rename(__VA_ARGS__)
#define hv_table_slice(...) hv_call_table_slice(__VA_ARGS__)
#define hv_table_filter(...) hv_call_table_filter(__VA_ARGS__)
#define hv_table_filter_by(...) hv_call_table_filter_by(__VA_ARGS__)
#define hv_table_take(...) hv_call_table_take(__VA_ARGS__)
#define hv_table_append(...) hv_call_table_append(__VA_ARGS__)
#define hv_table_drop_null(...) hv_call_table_drop_null(__VA_ARGS__)
#define hv_table_sort(...) hv_call_table_sort(__VA_ARGS__)
#define hv_table_group_by(...) hv_call_table_group_by(__VA_ARGS__)
#define hv_table_free(...) hv_call_table_free(__VA_ARGS__)
#endif
#ifndef HV_EXPORTS_ALONE
HV_CALL void hv_table_free(hv_table *table) {
    if (table) (hv_table_free)(table);
}
/* Tables */
HV_ANSWER hv_table_new(size_t count, hv_table *out, hv_error *error) {
    hv_error ignored;
    return (hv_table_new)(count, out, HV_FIELDS);
}
HV_ANSWER hv_table_put(hv_table *table, const uint8_t *name, size_t name_len, const hv_column *column,
                       hv_error *error) {
    hv_error ignored;
    HV_ITEMS(const uint8_t, name, name_len);
    return (hv_table_put)(table, name, name_len, hv_lent(column), HV_FIELDS);
}
HV_CALL size_t hv_table_len(const hv_table *table) {
    return (hv_table_len)(hv_lent_table(table));
}
HV_CALL size_t hv_table_width(const hv_table *table) {
    return (hv_table_width)(hv_lent_table(table));
}
HV_ANSWER hv_table_name(const hv_table *table, size_t place, uint8_t *name, size_t name_len, size_t *size,
                        hv_error *error) {
    hv_error ignored;
    HV_ITEMS(uint8_t, name, name_len);
    return (hv_table_name)(hv_lent_table(table), place, name, name_len, size, HV_FIELDS);
}
HV_ANSWER hv_table_place(const hv_table *table, const uint8_t *name, size_t name_len, size_t *place, hv_error *error) {
    hv_error ignored;
    HV_ITEMS(const uint8_t, name, name_len);
    return (hv_table_place)(hv_lent_table(table), name, name_len, place, HV_FIELDS);
}
HV_ANSWER hv_table_column(const hv_table *table, size_t place, hv_column *out, hv_error *error) {
    hv_error ignored;
    return (hv_table_column)(hv_lent_table(table), place, out, HV_FIELDS);
}
HV_ANSWER hv_table_clone(const hv_table *table, hv_table *out, hv_error *error) {
    hv_error ignored;
    return (hv_table_clone)(hv_lent_table(table), out, HV_FIELDS);
}
HV_ANSWER hv_table_select(const hv_table *table, const hv_column *names, hv_table *out, hv_error *error) {
    hv_error ignored;
    return (hv_table_select)(hv_lent_table(table), hv_lent(names), out, HV_FIELDS);
}
HV_ANSWER hv_table_rename(const hv_table *table, const hv_column *names, const hv_column *new_names, hv_table *out,
                          hv_error *error) {
    hv_error ignored;
    return (hv_table_rename)(hv_lent_table(table), hv_lent(names), hv_lent(new_names), out, HV_FIELDS);
}
HV_ANSWER hv_table_slice(const hv_table *table, size_t start, size_t stop, hv_table *out, hv_error *error) {
    hv_error ignored;
    return (hv_table_slice)(hv_lent_table(table), start, stop, out, HV_FIELDS);
}
HV_ANSWER hv_table_filter(const hv_table *table, const hv_column *mask, hv_table *out, hv_error *error) {
    hv_error ignored;
    return (hv_table_filter)(hv_lent_table(table), hv_lent(mask), out, HV_FIELDS);
}
HV_ANSWER hv_table_filter_by(const hv_table *table, const uint8_t *name, size_t name_len, uint8_t operator_,
                             const hv_value *value, const uint8_t *text, size_t text_len, hv_table *out,
                             hv_error *error) {
    hv_error ignored;
    HV_ITEMS(const uint8_t, name, name_len);
    HV_ITEMS(const uint8_t, text, text_len);
    return (hv_table_filter_by)(hv_lent_table(table), name, name_len, operator_, value, text, text_len, out, HV_FIELDS);
}
HV_ANSWER hv_table_take(const hv_table *table, const hv_column *indices, hv_table *out, hv_error *error) {
    hv_error ignored;
    return (hv_table_take)(hv_lent_table(table), hv_lent(indices), out, HV_FIELDS);
}
HV_ANSWER hv_table_append(const hv_table *table, const hv_table *other, hv_table *out, hv_error *error) {
    hv_error ignored;
    return (hv_table_append)(hv_lent_table(table), hv_lent_table(other), out, HV_FIELDS);
}
HV_ANSWER hv_table_drop_null(const hv_table *table, const hv_column *names, hv_table *out, hv_error *error) {
    hv_error ignored;
    return (hv_table_drop_null)(hv_lent_table(table), hv_lent(names), out, HV_FIELDS);
}
HV_ANSWER hv_table_sort(const hv_table *table, const hv_column *names, const uint8_t *flags, size_t flags_len,
                        hv_table *out, hv_error *error) {
    hv_error ignored;
    HV_ITEMS(const uint8_t, flags, flags_len);
    return (hv_table_sort)(hv_lent_table(table), hv_lent(names), flags, flags_len, out, HV_FIELDS);
}
HV_ANSWER hv_table_group_by(const hv_table *table, const hv_column *keys, const hv_column *answers,
                            const hv_column *columns, const uint8_t *folds, size_t folds_len, hv_table *out,
                            hv_error *error) {
    hv_error ignored;
    HV_ITEMS(const uint8_t, folds, folds_len);
    return (hv_table_group_by)(hv_lent_table(table), hv_lent(keys), hv_lent(answers), hv_lent(columns), folds,
                               folds_len, out, HV_FIELDS);
}
#endif
/* end of what tools/declarations.py makes */
#undef HV_FIELDS
#undef HV_ITEMS
#ifndef HV_EXPORTS_ALONE

/* ---- Tables: making them, and what they hold ---- */

/* The table without columns that has `count` rows. */
HV_ANSWER hv_table_new(size_t count, hv_table *out, hv_error *error);
/* Puts a copy of a column under a name: in the place of the column of this name, or after the last where none has it. A
 * table that has neither columns nor rows takes a column of any number of rows, and has that number then.
 * HV_TYPE_MISMATCH where the name is not UTF-8, then HV_TABLE_ROW_COUNT where the table has another number of rows. */
HV_ANSWER hv_table_put(hv_table *table, const uint8_t *name, size_t name_len, const hv_column *column, hv_error *error);
/* How many rows each column has, and how many columns there are; 0 of no table. */
HV_CALL size_t hv_table_len(const hv_table *table);
HV_CALL size_t hv_table_width(const hv_table *table);
/* The name of the column of a place: its bytes go to the front of `name`, and `size` says how many they are.
 * HV_OUT_OF_BOUNDS (place, columns), then HV_COLUMN_LENGTH (needed, room). */
HV_ANSWER hv_table_name(const hv_table *table, size_t place, uint8_t *name, size_t name_len, size_t *size,
                        hv_error *error);
/* The place of the column of a name; HV_TABLE_UNKNOWN_NAME (0), also for bytes that are not UTF-8. */
HV_ANSWER hv_table_place(const hv_table *table, const uint8_t *name, size_t name_len, size_t *place, hv_error *error);
/* A copy of the column of a place, in the same form and with its format; HV_OUT_OF_BOUNDS (place, columns). */
HV_ANSWER hv_table_column(const hv_table *table, size_t place, hv_column *out, hv_error *error);
/* The same table, each column in the same form. */
HV_ANSWER hv_table_clone(const hv_table *table, hv_table *out, hv_error *error);

/* ---- Tables: some of their columns and rows ----
 * Refused exactly as is said here, in this order and with these fields, or as HV_OUT_OF_MEMORY. */

/* The columns of these names, in their order. HV_TYPE_MISMATCH unless the names are texts, HV_NULL_NOT_ALLOWED where
 * one is null, HV_TABLE_NAME_TWICE, HV_TABLE_UNKNOWN_NAME. */
HV_ANSWER hv_table_select(const hv_table *table, const hv_column *names, hv_table *out, hv_error *error);
/* The same columns, those of `names` each under the new name at its place. HV_TYPE_MISMATCH and HV_NULL_NOT_ALLOWED as
 * above for the names, then for the new ones, HV_TABLE_NEW_NAME_COUNT, HV_TABLE_NAME_TWICE, HV_TABLE_UNKNOWN_NAME,
 * HV_TABLE_NEW_NAME_TWICE. */
HV_ANSWER hv_table_rename(const hv_table *table, const hv_column *names, const hv_column *new_names, hv_table *out,
                          hv_error *error);
/* The rows from start to stop - 1 of each column; HV_BAD_RANGE (start, stop, rows). */
HV_ANSWER hv_table_slice(const hv_table *table, size_t start, size_t stop, hv_table *out, hv_error *error);
/* The rows at which the mask, booleans in any form, is true: null selects nothing. The mask is read once, for all
 * columns, by its runs where it is in runs. HV_TYPE_MISMATCH unless the mask is of booleans, HV_MASK_LENGTH (mask,
 * rows). */
HV_ANSWER hv_table_filter(const hv_table *table, const hv_column *mask, hv_table *out, hv_error *error);
/* The rows at which the operator (HV_EQ to HV_LE) holds of the row of the column of this name and a value: null selects
 * nothing. Integers, decimals and floats, by the column's format, are compared with a number of any type (HV_UNSIGNED,
 * HV_SIGNED, HV_DOUBLE, HV_SCALED) as hv_compare_number compares them; any other value has to be of the column's type,
 * and next to dates and times HV_SIGNED is what these are stored as. HV_BAD_NUMBER for no operator, before
 * HV_NO_COLUMN; HV_TABLE_UNKNOWN_NAME (0); HV_UNSUPPORTED where that column has lists; HV_TYPE_MISMATCH where the value
 * is neither, or a text not UTF-8. */
HV_ANSWER hv_table_filter_by(const hv_table *table, const uint8_t *name, size_t name_len, uint8_t operator_,
                             const hv_value *value, const uint8_t *text, size_t text_len, hv_table *out,
                             hv_error *error);
/* The row of each column at each index, integers in any form: null at a null index, in types that have null where that
 * of the indices has. HV_TYPE_MISMATCH unless these are integers, HV_OUT_OF_BOUNDS (index, rows). */
HV_ANSWER hv_table_take(const hv_table *table, const hv_column *indices, hv_table *out, hv_error *error);
/* The rows of both, those of `other` last, each column in runs, as few as possible. HV_TABLE_OTHER_NAMES,
 * HV_TABLE_OTHER_TYPE (column), HV_UNSUPPORTED where a column has lists, HV_WINDOW_OVERFLOW for 2^64 rows or more. */
HV_ANSWER hv_table_append(const hv_table *table, const hv_table *other, hv_table *out, hv_error *error);

/* The rows at which no column of these names is null, or no column at all where none is named: the column of names
 * has texts, also where it has no row. Refused as hv_table_select. */
HV_ANSWER hv_table_drop_null(const hv_table *table, const hv_column *names, hv_table *out, hv_error *error);

/* The rows in order by the column of the first name, those that are equal in it by that of the second, and so on, and
 * those that are equal in all as they are. Each name has a number of flags: HV_TABLE_DESCENDING, greater rows first,
 * and HV_TABLE_NULLS_LAST; 0 is lesser rows first, and nulls before them. Rows go by value as they are stored, whatever
 * the format says. HV_TYPE_MISMATCH unless the names are texts, HV_COLUMN_LENGTH (names, flags), HV_NULL_NOT_ALLOWED
 * where a name is null, HV_TABLE_NO_KEYS, HV_TABLE_NAME_TWICE, HV_TABLE_UNKNOWN_NAME, HV_TABLE_KEY_OF_LISTS. */
enum { HV_TABLE_DESCENDING = 1, HV_TABLE_NULLS_LAST = 2 };
HV_ANSWER hv_table_sort(const hv_table *table, const hv_column *names, const uint8_t *flags, size_t flags_len,
                        hv_table *out, hv_error *error);

/* A row for each group of neighbouring rows that are equal in the columns of all keys, null equal to null: sort first
 * where each key is to come once. It has the keys under their names and formats, and then for each name in `answers`
 * what is answered of the rows of the group: by the fold of its number, HV_FOLD_SUM to HV_FOLD_LAST (hivevigil.h), in
 * the column that `columns` names at its place, by what its format says that it means. Answers are flat, of a type that
 * has null, and null where the group has no value (a count: 0): rows, and the values of any type, in u64; the sum of
 * integers in i64 or u64, of lengths of time in their unit, of floats exactly, as doubles that are rounded once, of
 * decimals in 38 digits; the least, greatest, first or last value of all but lists, in the order of hv_min_max, where
 * NaN is neither the least nor the greatest. Dates, times of a day and timestamps have no sum. The least, greatest,
 * first and last, and sums of lengths of time, keep the format, sums of floats have "g", other sums and numbers none.
 * HV_BAD_NUMBER for no fold, before HV_NO_COLUMN; HV_TYPE_MISMATCH and HV_NULL_NOT_ALLOWED as for hv_table_select for
 * the keys; HV_TYPE_MISMATCH unless the answers are texts, HV_COLUMN_LENGTH (answers, folds), the same for the columns,
 * HV_NULL_NOT_ALLOWED where one of these is null;
 * HV_TABLE_NO_KEYS, HV_TABLE_NAME_TWICE, HV_TABLE_UNKNOWN_NAME, HV_TABLE_KEY_OF_LISTS, HV_TABLE_ANSWER_TWICE, then
 * HV_TABLE_UNKNOWN_COLUMN or HV_TABLE_UNSUPPORTED_ANSWER for the first answer that its column does not have, then
 * HV_TABLE_SUM_OVERFLOW for the first sum that does not fit 64 bits, or 38 digits, before which memory may be refused.
 */
HV_ANSWER hv_table_group_by(const hv_table *table, const hv_column *keys, const hv_column *answers,
                            const hv_column *columns, const uint8_t *folds, size_t folds_len, hv_table *out,
                            hv_error *error);

/* Frees the table of a handle, which is empty then; nothing where there is none, or the pointer is null. */
HV_CALL void hv_table_free(hv_table *table);
#endif

#ifdef __cplusplus
}
#endif
#endif
