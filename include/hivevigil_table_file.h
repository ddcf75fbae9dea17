/* Tables in C in files: the messages of their columns and a footer, as docs/table.proto and docs/BYTES.md say it. A
 * header only, C11 and C++17, POSIX, over hivevigil_tables.h; nothing here is proved.
 *
 *     answer = hv_table_save(&table, "readings.hv", 0, &error);
 *     answer = hv_table_load_columns("readings.hv", names, 2, &part, &error);
 *
 *     hv_table_footer footer = HV_TABLE_FOOTER_EMPTY;
 *     const hv_table_condition high = {"level", HV_GT, &number, NULL, 0};
 *     answer = hv_table_load_footer("readings.hv", &footer, &error);
 *     if (!answer) answer = hv_table_may_have(&footer, &high, &truth, &error);
 *     hv_table_footer_free(&footer);
 *
 * 203 (errno) where the system refuses a file; 17 for bytes that are not those of a table, as of a file that was cut
 * short, or in which a byte was changed; 204 (bytes, limit) where the columns that are read and kept as differences
 * would take more bytes in memory than HV_TABLE_LIMIT, or the limit that is given: a few bytes may say that there are
 * many rows. That is tested before a column is read. */
#ifndef HIVEVIGIL_TABLE_FILE_H
#define HIVEVIGIL_TABLE_FILE_H
#include "hivevigil_table_footer.h"
#include "hivevigil_table_formats.h"
#ifdef __cplusplus
extern "C" {
#endif

/* How many bytes the columns of a file that are kept as differences may take in memory, all together. */
#define HV_TABLE_LIMIT ((uint64_t)1 << 30)

/* Puts the bytes of a table in place of those of a buffer, version 1; where `differences` is not 0, each column of
 * integers as the differences of its rows where that is shorter, and version 2 where one is. 13 for a column of more
 * than 16 levels of runs. */
HV_ANSWER hv_table_to_bytes(const hv_table *table, uint8_t differences, hv_buffer *out, hv_error *error);
/* The table that was written so, each column in its form; 17, 204. */
HV_ANSWER hv_table_from_bytes(const uint8_t *bytes, size_t size, hv_table *out, hv_error *error);
/* The same within another limit. */
HV_ANSWER hv_table_from_bytes_within(const uint8_t *bytes, size_t size, uint64_t limit, hv_table *out,
                                     hv_error *error);
/* Writes the bytes to a file, which is replaced whole or not at all; 203. */
HV_ANSWER hv_table_save(const hv_table *table, const char *path, uint8_t differences, hv_error *error);
/* The table of a file; 203, and as hv_table_from_bytes. */
HV_ANSWER hv_table_load(const char *path, hv_table *out, hv_error *error);
/* Its columns of these names, in this order, which are read without the others; also HV_TABLE_NAME_TWICE (place, place)
 * and HV_TABLE_UNKNOWN_NAME (place). */
HV_ANSWER hv_table_load_columns(const char *path, const char *const *names, size_t count, hv_table *out,
                                hv_error *error);
/* The same within another limit; all columns where `names` is null. */
HV_ANSWER hv_table_load_within(const char *path, const char *const *names, size_t count, uint64_t limit, hv_table *out,
                               hv_error *error);
/* What the end of a file says, where no column is read. */
HV_ANSWER hv_table_load_footer(const char *path, hv_table_footer *out, hv_error *error);

/* What rows of a column are compared with: the arguments of hv_table_filter_by. */
typedef struct hv_table_condition {
    const char *column;
    uint8_t operator_; /* HV_EQ to HV_LE: `row operator value` */
    const hv_value *value;
    const uint8_t *text;
    size_t text_len;
} hv_table_condition;

/* Whether a condition may hold for a row, as hv_table_filter_by has it: where not (0), the column need not be read.
 * HV_TABLE_UNKNOWN_NAME (0), and as hv_table_filter_by. Lists may have any row. */
HV_ANSWER hv_table_may_have(const hv_table_footer *footer, const hv_table_condition *condition, uint8_t *truth,
                            hv_error *error);
/* The same of the least and the greatest row of a column, under its format, or of no row where all are null. */
HV_ANSWER hv_table_may_hold(const hv_column *bounds, const hv_table_condition *condition, uint8_t *truth,
                            hv_error *error);

/* ---- Written ---- */

/* The message of each column, what comes in front of it, its size, and how it is kept. */
static inline int32_t hv_table_put_columns(hv_buffer *out, const hv_table_part *parts, size_t count, bool differences,
                                           size_t *sizes, uint8_t *kept, hv_error *error) {
    hv_buffer message = HV_BUFFER_EMPTY;
    int32_t answer = HV_OK;
    for (size_t i = 0; !answer && i < count; i++) {
        message.size = 0;
        answer = differences ? hv_table_put_shorter(&message, parts[i].column, &kept[i], error)
                             : hv_table_put_column(&message, parts[i].column, error);
        sizes[i] = message.size;
        if (!answer) hv_table_put_sized(out, HV_TABLE_COLUMN_FIELD, hv_table_bytes_of(&message));
    }
    hv_buffer_free(&message);
    return answer;
}

/* The footer of all columns. */
static inline int32_t hv_table_put_footers(hv_buffer *out, const hv_table_part *parts, size_t count, size_t rows,
                                           uint64_t version, const size_t *sizes, const uint8_t *kept,
                                           hv_error *error) {
    hv_buffer one = HV_BUFFER_EMPTY;
    int32_t answer = HV_OK;
    hv_table_put_number(out, 1, rows);
    for (size_t i = 0; !answer && i < count; i++) {
        one.size = 0;
        answer = hv_table_put_footer(&one, &parts[i], sizes[i], version, kept[i], error);
        if (!answer) answer = hv_buffer_answer(&one, error);
        hv_table_put_sized(out, 2, hv_table_bytes_of(&one));
    }
    hv_buffer_free(&one);
    return answer ? answer : hv_buffer_answer(out, error);
}

/* Appends the bytes of a table of these columns. */
static inline int32_t hv_table_put_parts(hv_buffer *out, const hv_table_part *parts, size_t count, size_t rows,
                                         bool differences, hv_error *error) {
    hv_buffer footer = HV_BUFFER_EMPTY;
    const uint8_t tail_key = HV_TABLE_TAIL_KEY;
    const size_t version_byte = out->size + HV_TABLE_HEAD_BYTES - 1;
    size_t *sizes = NULL;
    uint8_t *kept = NULL;
    uint64_t version = 1;
    hv_table_put_head(out, version);
    int32_t answer = hv_table_memory(count, sizeof *sizes, &sizes, error);
    if (!answer) answer = hv_table_memory(count, 1, &kept, error);
    if (!answer) answer = hv_table_put_columns(out, parts, count, differences, sizes, kept, error);
    for (size_t i = 0; !answer && i < count; i++) version = kept[i] ? 2 : version;
    if (!answer) answer = hv_table_put_footers(&footer, parts, count, rows, version, sizes, kept, error);
    const uint64_t footer_size = footer.size;
    hv_table_put_sized(out, HV_TABLE_FOOTER_FIELD, hv_table_bytes_of(&footer));
    hv_buffer_put(out, &tail_key, 1);
    hv_buffer_put(out, &footer_size, 8); /* the lowest byte first */
    if (!answer) answer = hv_buffer_answer(out, error);
    if (!answer) out->at[version_byte] = (uint8_t)version;
    hv_buffer_free(&footer);
    free(sizes);
    free(kept);
    return answer;
}

HV_ANSWER hv_table_to_bytes(const hv_table *table, uint8_t differences, hv_buffer *out, hv_error *error) {
    hv_buffer made = HV_BUFFER_EMPTY;
    hv_table_columns held = HV_TABLE_NO_COLUMNS;
    hv_table_part *parts = NULL;
    int32_t answer = hv_table_columns_of(table, &held, error);
    if (!answer) answer = hv_table_memory(held.count, sizeof *parts, &parts, error);
    for (size_t i = 0; !answer && i < held.count; i++) {
        parts[i].name = hv_table_span_in(&held.names[i]);
        parts[i].logical_type = hv_table_span_in(&held.formats[i]);
        parts[i].column = &held.columns[i];
    }
    if (!answer) answer = hv_table_put_parts(&made, parts, held.count, hv_table_len(table), differences != 0, error);
    free(parts);
    hv_table_columns_free(&held);
    if (answer) return hv_buffer_free(&made), answer;
    hv_buffer_free(out);
    *out = made;
    return HV_OK;
}

HV_ANSWER hv_table_save(const hv_table *table, const char *path, uint8_t differences, hv_error *error) {
    hv_buffer bytes = HV_BUFFER_EMPTY;
    int32_t answer = hv_table_to_bytes(table, differences, &bytes, error);
    if (!answer) answer = hv_save_bytes(bytes.at, bytes.size, path, error);
    hv_buffer_free(&bytes);
    return answer;
}

/* ---- Read ---- */

HV_ANSWER hv_table_load_footer(const char *path, hv_table_footer *out, hv_error *error) {
    hv_stored_file file = HV_STORED_FILE_EMPTY;
    int32_t answer = hv_stored_file_open(path, &file, error);
    if (!answer) answer = hv_table_footer_of(&file, out, error);
    hv_stored_file_close(&file);
    return answer;
}

/* ---- Columns of a file ---- */

/* 17 where a column is not of these rows, or is not what the footer says of it. */
static inline int32_t hv_table_check_column(const hv_column *column, const hv_column_footer *known, size_t rows,
                                            uint64_t version, hv_error *error) {
    const hv_table_span name = {(const uint8_t *)known->name, known->name_size};
    const hv_table_span logical_type = {(const uint8_t *)known->logical_type, known->logical_type_size};
    const hv_table_part part = {name, logical_type, column};
    hv_buffer due = HV_BUFFER_EMPTY;
    int32_t answer = hv_table_put_footer(&due, &part, known->size, version, known->kept, error);
    if (!answer) answer = hv_buffer_answer(&due, error);
    const bool is_said = !answer && hv_table_same_bytes(hv_table_bytes_of(&due), known->said);
    if (!answer && (!is_said || hv_length(column) != rows)) answer = hv_table_damaged(error);
    hv_buffer_free(&due);
    return answer;
}

/* A column of a file that is open, which is held against what the footer says of it. */
static inline int32_t hv_table_column_at(const hv_stored_file *file, const hv_table_footer *footer, size_t place,
                                         hv_column *out, hv_error *error) {
    const hv_column_footer *const known = &footer->columns[place];
    const bool is_kept = known->kept != HV_TABLE_KEPT_ROWS;
    hv_buffer message = HV_BUFFER_EMPTY;
    hv_column read = HV_EMPTY, column = HV_EMPTY;
    int32_t answer = hv_table_read_field(file, known->start, HV_TABLE_COLUMN_FIELD, known->size, &message, error);
    if (!answer) answer = hv_table_column_in(hv_table_bytes_of(&message), &read, error);
    if (!answer && is_kept)
        answer = hv_table_of_differences(&read, hv_table_bytes_of(&message), hv_kind_of(&known->bounds), known->kept,
                                         hv_table_kept_items(footer, known), &column, error);
    if (!is_kept) hv_put(&column, &read);
    if (!answer) answer = hv_table_check_column(&column, known, footer->rows, footer->version, error);
    if (!answer) hv_put(out, &column);
    hv_free(&read);
    hv_free(&column);
    hv_buffer_free(&message);
    return answer;
}

/* Puts a column of a file into a table, under its name and its format. */
static inline int32_t hv_table_put_stored(hv_table *made, const hv_stored_file *file, const hv_table_footer *footer,
                                          size_t place, hv_error *error) {
    const hv_column_footer *const known = &footer->columns[place];
    hv_column column = HV_EMPTY;
    int32_t answer = hv_table_column_at(file, footer, place, &column, error);
    if (!answer) answer = hv_table_give_format(&column, known->logical_type, known->logical_type_size, error);
    if (!answer) answer = hv_table_put(made, (const uint8_t *)known->name, known->name_size, &column, error);
    hv_free(&column);
    return answer;
}

/* 202 (place, place) for a name that is given twice. */
static inline int32_t hv_table_check_twice(const char *const *names, size_t count, hv_error *error) {
    for (size_t i = 0; i < count; i++)
        for (size_t before = 0; before < i; before++)
            if (strcmp(names[before], names[i]) == 0)
                return hv_table_refuse(HV_TABLE_NAME_TWICE, before, i, error);
    return HV_OK;
}

/* The places of the columns of these names, or, where `names` is null, of all, in memory of malloc; 202, 201. */
static inline int32_t hv_table_places(const hv_table_footer *footer, const char *const *names, size_t count,
                                      size_t **places, hv_error *error) {
    int32_t answer = hv_table_memory(count, sizeof **places, places, error);
    if (!answer && names) answer = hv_table_check_twice(names, count, error);
    for (size_t i = 0; !answer && i < count; i++) {
        (*places)[i] = i;
        if (names) answer = hv_table_find_footer(footer, names[i], &(*places)[i], error);
        if (answer) hv_table_refuse(answer, i, 0, error);
    }
    return answer;
}

/* The columns of these names of a file that is open, or, where `names` is null, all, within a limit. */
static inline int32_t hv_table_of_file(const hv_stored_file *file, const char *const *names, size_t count,
                                       uint64_t limit, hv_table *out, hv_error *error) {
    hv_table_footer footer = HV_TABLE_FOOTER_EMPTY;
    hv_table made = HV_EMPTY;
    size_t *places = NULL;
    int32_t answer = hv_table_footer_of(file, &footer, error);
    const size_t columns = names ? count : footer.count;
    if (!answer) answer = hv_table_places(&footer, names, columns, &places, error);
    if (!answer) answer = hv_table_check_limit(&footer, places, columns, limit, error);
    if (!answer) answer = hv_table_new(footer.rows, &made, error);
    for (size_t i = 0; !answer && i < columns; i++)
        answer = hv_table_put_stored(&made, file, &footer, places[i], error);
    if (!answer) hv_table_replace(out, &made);
    free(places);
    hv_table_footer_free(&footer);
    hv_table_free(&made);
    return answer;
}

HV_ANSWER hv_table_from_bytes_within(const uint8_t *bytes, size_t size, uint64_t limit, hv_table *out,
                                     hv_error *error) {
    const hv_stored_file file = hv_stored_bytes(bytes, size);
    return hv_table_of_file(&file, NULL, 0, limit, out, error);
}

HV_ANSWER hv_table_from_bytes(const uint8_t *bytes, size_t size, hv_table *out, hv_error *error) {
    return hv_table_from_bytes_within(bytes, size, HV_TABLE_LIMIT, out, error);
}

HV_ANSWER hv_table_load_within(const char *path, const char *const *names, size_t count, uint64_t limit, hv_table *out,
                               hv_error *error) {
    hv_stored_file file = HV_STORED_FILE_EMPTY;
    int32_t answer = hv_stored_file_open(path, &file, error);
    if (!answer) answer = hv_table_of_file(&file, names, count, limit, out, error);
    hv_stored_file_close(&file);
    return answer;
}

HV_ANSWER hv_table_load_columns(const char *path, const char *const *names, size_t count, hv_table *out,
                                hv_error *error) {
    const char *const none[] = {""};
    return hv_table_load_within(path, count ? names : none, count, HV_TABLE_LIMIT, out, error);
}

HV_ANSWER hv_table_load(const char *path, hv_table *out, hv_error *error) {
    return hv_table_load_within(path, NULL, 0, HV_TABLE_LIMIT, out, error);
}

/* ---- May a row be there? ---- */

/* Does the operator hold of one of the bounds from `start` to `stop` - 1? */
static inline int32_t hv_table_holds(const hv_table *bounds, size_t start, size_t stop, uint8_t operator_,
                                     const hv_table_condition *condition, bool *truth, hv_error *error) {
    hv_table some = HV_EMPTY, found = HV_EMPTY;
    int32_t answer = hv_table_slice(bounds, start, stop, &some, error);
    if (!answer)
        answer = hv_table_filter_by(&some, NULL, 0, operator_, condition->value, condition->text,
                                    condition->text_len, &found, error);
    *truth = hv_table_len(&found) != 0;
    hv_table_free(&some);
    hv_table_free(&found);
    return answer;
}

/* The table of bounds, whose column has the empty name. NaN is unequal to all, and does not bound the numbers. */
static inline int32_t hv_table_of_bounds(const hv_column *bounds, uint8_t operator_, hv_table *out, hv_error *error) {
    hv_column numbers = HV_EMPTY;
    bool is_float = false;
    int32_t answer = hv_table_new(0, out, error);
    if (!answer && operator_ != HV_NE) answer = hv_table_is_float(bounds, &is_float, error);
    if (!answer && is_float) answer = hv_table_number_bounds(bounds, &numbers, error);
    if (!answer) answer = hv_table_put(out, NULL, 0, is_float ? &numbers : bounds, error);
    hv_free(&numbers);
    return answer;
}

HV_ANSWER hv_table_may_hold(const hv_column *bounds, const hv_table_condition *condition, uint8_t *truth,
                            hv_error *error) {
    const uint8_t operator_ = condition->operator_;
    const bool is_between = operator_ == HV_EQ;
    hv_table table = HV_EMPTY;
    bool holds = false, least = true, greatest = true;
    int32_t answer = hv_table_of_bounds(bounds, operator_, &table, error);
    const size_t count = hv_table_len(&table);
    if (!answer) answer = hv_table_holds(&table, 0, count, operator_, condition, &holds, error);
    if (!answer && is_between && count) {
        answer = hv_table_holds(&table, 0, 1, HV_LE, condition, &least, error);
        if (!answer) answer = hv_table_holds(&table, 1, 2, HV_GE, condition, &greatest, error);
        holds = least && greatest;
    }
    if (!answer) *truth = holds;
    hv_table_free(&table);
    return answer;
}

HV_ANSWER hv_table_may_have(const hv_table_footer *footer, const hv_table_condition *condition, uint8_t *truth,
                            hv_error *error) {
    hv_column bounds = HV_EMPTY;
    size_t place = 0;
    int32_t answer = hv_table_find_footer(footer, condition->column, &place, error);
    if (answer) return answer;
    const hv_column_footer *const known = &footer->columns[place];
    const hv_table_span format = {(const uint8_t *)known->logical_type, known->logical_type_size};
    if (hv_is_empty(&known->bounds)) {
        *truth = 1;
        return HV_OK;
    }
    answer = hv_with_type(&known->bounds, format.at, format.size, &bounds, error);
    if (!answer) answer = hv_table_may_hold(&bounds, condition, truth, error);
    hv_free(&bounds);
    return answer;
}

#ifdef __cplusplus
}
#endif
#endif
