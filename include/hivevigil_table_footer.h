/* What the footer of the file of a table says of its columns: written, and read from the end of a file. A part of
 * hivevigil_table_file.h, which includes it. Nothing here is proved. */
#ifndef HIVEVIGIL_TABLE_FOOTER_H
#define HIVEVIGIL_TABLE_FOOTER_H
#include "hivevigil_stored_file.h" /* before all headers of the system, which then declare POSIX in strict C */
#include "hivevigil_table_differences.h"
#ifdef __cplusplus
extern "C" {
#endif

/* What the footer of a file says of a column. Texts are of malloc's memory, end in a zero byte, and may have others. */
typedef struct hv_column_footer {
    char *name, *logical_type;
    size_t name_size, logical_type_size;
    size_t size;          /* of its message in bytes */
    uint64_t nulls, runs; /* rows that are null, and runs into which its rows can be put; 0 of lists */
    uint8_t kept;         /* HV_TABLE_KEPT_ROWS, or as differences: HV_TABLE_KEPT_FLAT, HV_TABLE_KEPT_RUNS */
    hv_column bounds;     /* the least and the greatest row that are not null, no row where all are; empty of lists */
    size_t start;         /* in the file, of its field */
    hv_table_span said;   /* all this, within the bytes of the footer */
} hv_column_footer;

/* What the footer of a file says; only these calls write it. */
typedef struct hv_table_footer {
    size_t rows, count; /* of each column; of columns */
    hv_column_footer *columns;
    uint64_t version;
    hv_buffer bytes;
} hv_table_footer;
#define HV_TABLE_FOOTER_EMPTY {0, 0, NULL, 0, HV_BUFFER_EMPTY}

/* Frees what a footer has, after which it has no columns; nothing is done where it is null. */
static inline void hv_table_footer_free(hv_table_footer *footer) {
    if (!footer) return;
    for (size_t i = 0; footer->columns && i < footer->count; i++) {
        free(footer->columns[i].name);
        free(footer->columns[i].logical_type);
        hv_free(&footer->columns[i].bounds);
    }
    free(footer->columns);
    hv_buffer_free(&footer->bytes);
    memset(footer, 0, sizeof *footer);
}

/* How many rows of a column are written out, or runs, where it comes back from its differences. */
static inline uint64_t hv_table_kept_items(const hv_table_footer *footer, const hv_column_footer *known) {
    return known->kept == HV_TABLE_KEPT_FLAT ? footer->rows : known->kept == HV_TABLE_KEPT_RUNS ? known->runs : 0;
}

/* The bytes that these take in memory: each as wide as its type, and 8 for the end of a run; 2^64 - 1 for more. */
static inline uint64_t hv_table_kept_bytes(const hv_table_footer *footer, const hv_column_footer *known) {
    const uint64_t items = hv_table_kept_items(footer, known);
    const unsigned width = 1u << hv_kind_of(&known->bounds).number % 4;
    const uint64_t each = width + (known->kept == HV_TABLE_KEPT_RUNS ? 8 : 0);
    return items > UINT64_MAX / each ? UINT64_MAX : items * each;
}

/* 204 (bytes, limit) where the columns at these places, or, where `places` is null, the first `count`, would take more
 * bytes together than the limit. */
static inline int32_t hv_table_check_limit(const hv_table_footer *footer, const size_t *places, size_t count,
                                           uint64_t limit, hv_error *error) {
    uint64_t bytes = 0;
    for (size_t i = 0; i < count; i++) {
        const uint64_t more = hv_table_kept_bytes(footer, &footer->columns[places ? places[i] : i]);
        bytes = more > UINT64_MAX - bytes ? UINT64_MAX : bytes + more;
    }
    return bytes <= limit ? HV_OK : hv_table_refuse(HV_TABLE_OVER_LIMIT, bytes, limit, error);
}

/* The place of a column by its name; 201 (0). */
static inline int32_t hv_table_find_footer(const hv_table_footer *footer, const char *name, size_t *place,
                                           hv_error *error) {
    for (*place = 0; *place < footer->count; ++*place) {
        const hv_column_footer *const known = &footer->columns[*place];
        if (strlen(name) == known->name_size && memcmp(name, known->name, known->name_size) == 0) return HV_OK;
    }
    return hv_table_refuse(HV_TABLE_UNKNOWN_NAME, 0, 0, error);
}

/* ---- Written ---- */

enum { HV_TABLE_COLUMN_FIELD = 3, HV_TABLE_FOOTER_FIELD = 4, HV_TABLE_SIZE_FIELD = 5 };
enum { HV_TABLE_HEAD_BYTES = 13, HV_TABLE_TAIL_BYTES = 9 };
enum { HV_TABLE_TAIL_KEY = HV_TABLE_SIZE_FIELD * 8 + HV_TABLE_FIXED };

/* A column as it is written: its name, its logical type and its rows, which are lent. */
typedef struct hv_table_part {
    hv_table_span name, logical_type;
    const hv_column *column;
} hv_table_part;

/* By the version: 2 where a column is kept as differences, which readers of version 1 refuse. */
static inline void hv_table_put_head(hv_buffer *out, uint64_t version) {
    hv_table_put_sized(out, 1, hv_table_span_of("hivevigil"));
    hv_table_put_number(out, 2, version);
}

/* Appends what a footer says of a column; of how it is kept only in version 2. */
static inline int32_t hv_table_put_footer(hv_buffer *out, const hv_table_part *part, size_t size, uint64_t version,
                                          uint8_t kept, hv_error *error) {
    hv_column runs = HV_EMPTY, bounds = HV_EMPTY;
    hv_buffer message = HV_BUFFER_EMPTY;
    hv_session session;
    size_t count = 0;
    hv_session_initial(&session);
    hv_table_put_sized(out, 1, part->name);
    hv_table_put_sized(out, 2, part->logical_type);
    hv_table_put_number(out, 3, size);
    if (hv_kind_of(part->column).number == HV_LIST) return HV_OK;
    int32_t answer = hv_encode_rows(part->column, &runs, error);
    if (!answer) answer = hv_run_count(&runs, &count, error);
    if (!answer) answer = hv_table_bounds(&session, &runs, &bounds, error);
    if (!answer) answer = hv_table_put_column(&message, &bounds, error);
    hv_table_put_number(out, 4, hv_null_count(&runs));
    hv_table_put_number(out, 5, count);
    hv_table_put_sized(out, 6, hv_table_bytes_of(&message));
    if (version == 2) hv_table_put_number(out, 7, kept);
    hv_free(&runs);
    hv_free(&bounds);
    hv_buffer_free(&message);
    return answer;
}

/* ---- Read ---- */

/* A text with a zero byte after it; 17 for one that is not UTF-8. */
static inline int32_t hv_table_text_of(hv_table_span span, char **out, size_t *size, hv_error *error) {
    int32_t answer = hv_table_check_span(span, error);
    if (!answer) answer = hv_table_memory(span.size + 1, 1, out, error);
    if (!answer && span.size) memcpy(*out, span.at, span.size);
    *size = span.size;
    return answer;
}

/* The column of a message that has no format; 17. */
static inline int32_t hv_table_column_in(hv_table_span message, hv_column *out, hv_error *error) {
    hv_column read = HV_EMPTY;
    size_t format_size = 0;
    int32_t answer = hv_read_column(message.at, message.size, &read, error);
    if (!answer) answer = hv_type(&read, NULL, 0, &format_size, error);
    if (!answer) hv_put(out, &read);
    hv_free(&read);
    return answer == HV_BAD_METADATA || answer == HV_COLUMN_LENGTH ? hv_table_damaged(error) : answer;
}

/* Is a message that of a flat column of no row or two, which says of all its rows that they are valid? */
static inline bool hv_table_is_of_bounds(hv_table_span message) {
    enum { FORM = 3, ROWS = 4, VALIDITY = 5, FLAT = 1, NEVER_NULL = 1, NONE_NULL = 2 }; /* of docs/column.proto */
    hv_table_fields fields = hv_table_fields_of(message);
    uint64_t said[VALIDITY + 1] = {0};
    for (unsigned field = 1; field <= VALIDITY; field++) said[field] = hv_table_number(&fields, field);
    return !fields.is_damaged && said[FORM] == FLAT && (said[ROWS] == 0 || said[ROWS] == 2) &&
           (said[VALIDITY] == NEVER_NULL || said[VALIDITY] == NONE_NULL);
}

/* What is said of all columns but lists. */
static inline int32_t hv_table_read_known(hv_table_fields *fields, uint64_t version, hv_column_footer *out,
                                          hv_error *error) {
    out->nulls = hv_table_number(fields, 4);
    out->runs = hv_table_number(fields, 5);
    const hv_table_span bounds = hv_table_content(fields, 6);
    const uint64_t kept = version == 2 ? hv_table_number(fields, 7) : 0; /* as its rows */
    if (fields->is_damaged || fields->left.size || kept > HV_TABLE_KEPT_RUNS) return hv_table_damaged(error);
    out->kept = (uint8_t)kept;
    const int32_t answer = hv_table_column_in(bounds, &out->bounds, error);
    if (answer) return answer;
    const bool may_be_kept = kept == HV_TABLE_KEPT_ROWS || hv_kind_of(&out->bounds).number <= HV_I64;
    return may_be_kept && hv_table_is_of_bounds(bounds) ? HV_OK : hv_table_damaged(error);
}

static inline int32_t hv_table_read_said(hv_table_span said, uint64_t version, hv_column_footer *out,
                                         hv_error *error) {
    hv_table_fields fields = hv_table_fields_of(said);
    const hv_table_span name = hv_table_content(&fields, 1), logical_type = hv_table_content(&fields, 2);
    const uint64_t size = hv_table_number(&fields, 3);
    if (fields.is_damaged) return hv_table_damaged(error);
    out->said = said;
    out->size = (size_t)size;
    int32_t answer = hv_table_text_of(name, &out->name, &out->name_size, error);
    if (!answer) answer = hv_table_text_of(logical_type, &out->logical_type, &out->logical_type_size, error);
    return answer || !fields.left.size ? answer : hv_table_read_known(&fields, version, out, error);
}

/* The version of a file, by its first bytes; 17. */
static inline int32_t hv_table_read_version(const hv_stored_file *file, uint64_t *version, hv_error *error) {
    hv_buffer found = HV_BUFFER_EMPTY, due = HV_BUFFER_EMPTY;
    int32_t answer = hv_stored_file_read(file, 0, HV_TABLE_HEAD_BYTES, &found, error);
    *version = !answer && found.size && found.at[found.size - 1] == 2 ? 2 : 1;
    hv_table_put_head(&due, *version);
    if (!answer) answer = hv_buffer_answer(&due, error);
    const bool is_head = !answer && hv_table_same_bytes(hv_table_bytes_of(&found), hv_table_bytes_of(&due));
    if (!answer && (!is_head || file->size < HV_TABLE_HEAD_BYTES + HV_TABLE_TAIL_BYTES))
        answer = hv_table_damaged(error);
    hv_buffer_free(&found);
    hv_buffer_free(&due);
    return answer;
}

/* How many bytes come in front of a message of a size, which has 64 bits. */
static inline uint64_t hv_table_front_bytes(uint64_t size) {
    uint64_t bytes = 2;
    for (; size > 127; size >>= 7) bytes++;
    return bytes;
}

/* Puts the content of a field at a place in place of what a buffer has; 17 where there is another field, or less. */
static inline int32_t hv_table_read_field(const hv_stored_file *file, size_t start, unsigned field, size_t size,
                                          hv_buffer *out, hv_error *error) {
    const size_t front = (size_t)hv_table_front_bytes(size);
    hv_buffer due = HV_BUFFER_EMPTY;
    hv_table_put_front(&due, field, size);
    int32_t answer = hv_buffer_answer(&due, error);
    if (!answer) answer = hv_stored_file_read(file, start, front, out, error);
    if (!answer && !hv_table_same_bytes(hv_table_bytes_of(out), hv_table_bytes_of(&due)))
        answer = hv_table_damaged(error);
    hv_buffer_free(&due);
    if (!answer) answer = hv_stored_file_read(file, start + front, size, out, error);
    return answer || out->size == size ? answer : hv_table_damaged(error);
}

/* The bytes of the footer, which is found from the end of the file, and where its field begins. */
static inline int32_t hv_table_read_footer_bytes(const hv_stored_file *file, hv_buffer *out, size_t *start,
                                                 hv_error *error) {
    const size_t end = file->size - HV_TABLE_TAIL_BYTES;
    uint64_t size = 0;
    const int32_t answer = hv_stored_file_read(file, end, HV_TABLE_TAIL_BYTES, out, error);
    if (answer) return answer;
    if (out->size != HV_TABLE_TAIL_BYTES || out->at[0] != HV_TABLE_TAIL_KEY) return hv_table_damaged(error);
    memcpy(&size, out->at + 1, 8); /* the lowest byte first */
    const uint64_t room = end - HV_TABLE_HEAD_BYTES, front = hv_table_front_bytes(size);
    if (size > room || front > room - size) return hv_table_damaged(error);
    *start = end - (size_t)(size + front);
    return hv_table_read_field(file, *start, HV_TABLE_FOOTER_FIELD, (size_t)size, out, error);
}

static inline int hv_table_compare_names(const void *left, const void *right) {
    const hv_table_span *const one = (const hv_table_span *)left, *const other = (const hv_table_span *)right;
    if (one->size != other->size) return one->size < other->size ? -1 : 1;
    return one->size ? memcmp(one->at, other->at, one->size) : 0;
}

/* 17 where two columns have one name. */
static inline int32_t hv_table_check_footer_names(const hv_table_footer *footer, hv_error *error) {
    hv_table_span *names = NULL;
    int32_t answer = hv_table_memory(footer->count, sizeof *names, &names, error);
    for (size_t i = 0; !answer && i < footer->count; i++) {
        names[i].at = (const uint8_t *)footer->columns[i].name;
        names[i].size = footer->columns[i].name_size;
    }
    if (!answer) qsort(names, footer->count, sizeof *names, hv_table_compare_names);
    for (size_t i = 1; !answer && i < footer->count; i++)
        if (hv_table_compare_names(&names[i - 1], &names[i]) == 0) answer = hv_table_damaged(error);
    free(names);
    return answer;
}

/* Reads what is said of each column, whose fields lie one after the other up to `end`. */
static inline int32_t hv_table_read_columns(hv_table_footer *footer, hv_table_fields fields, size_t end,
                                            hv_error *error) {
    size_t start = HV_TABLE_HEAD_BYTES;
    bool in_differences = false;
    for (size_t i = 0; i < footer->count; i++) {
        hv_column_footer *const column = &footer->columns[i];
        const int32_t answer = hv_table_read_said(hv_table_content(&fields, 2), footer->version, column, error);
        if (answer) return answer;
        const uint64_t front = hv_table_front_bytes(column->size);
        if (column->size > end - start || front > end - start - column->size) return hv_table_damaged(error);
        column->start = start;
        start += (size_t)front + column->size;
        in_differences |= column->kept != HV_TABLE_KEPT_ROWS;
    }
    if (start != end || in_differences != (footer->version == 2)) return hv_table_damaged(error);
    return hv_table_check_footer_names(footer, error);
}

/* What is said by the bytes of a footer, whose field begins at `end`. */
static inline int32_t hv_table_read_footer(hv_table_footer *footer, size_t end, hv_error *error) {
    hv_table_fields fields = hv_table_fields_of(hv_table_bytes_of(&footer->bytes));
    footer->rows = (size_t)hv_table_number(&fields, 1);
    hv_table_fields counted = fields;
    size_t count = 0;
    for (; !counted.is_damaged && counted.left.size; count++) hv_table_content(&counted, 2);
    if (counted.is_damaged) return hv_table_damaged(error);
    const int32_t answer = hv_table_memory(count, sizeof *footer->columns, &footer->columns, error);
    if (answer) return answer;
    footer->count = count;
    return hv_table_read_columns(footer, fields, end, error);
}

/* The footer of a file that is open. */
static inline int32_t hv_table_footer_of(const hv_stored_file *file, hv_table_footer *out, hv_error *error) {
    hv_table_footer footer = HV_TABLE_FOOTER_EMPTY;
    size_t end = 0;
    int32_t answer = hv_table_read_version(file, &footer.version, error);
    if (!answer) answer = hv_table_read_footer_bytes(file, &footer.bytes, &end, error);
    if (!answer) answer = hv_table_read_footer(&footer, end, error);
    if (answer) return hv_table_footer_free(&footer), answer;
    hv_table_footer_free(out);
    *out = footer;
    return HV_OK;
}

#ifdef __cplusplus
}
#endif
#endif
