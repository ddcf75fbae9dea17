/* The parts of the file of a table as messages of Protocol Buffers, each in its one spelling, by docs/table.proto and
 * docs/BYTES.md: a part of hivevigil_table_file.h, which includes it. Nothing here is proved. */
#ifndef HIVEVIGIL_TABLE_MESSAGES_H
#define HIVEVIGIL_TABLE_MESSAGES_H
#include "hivevigil_stored_file.h"
#include "hivevigil_table_helpers.h"
#ifdef __cplusplus
extern "C" {
#endif

/* Bytes that belong to another. */
typedef struct hv_table_span {
    const uint8_t *at;
    size_t size;
} hv_table_span;

static inline hv_table_span hv_table_span_of(const char *text) {
    const hv_table_span span = {(const uint8_t *)text, strlen(text)};
    return span;
}
static inline hv_table_span hv_table_span_in(const hv_table_text *text) {
    const hv_table_span span = {(const uint8_t *)text->at, text->size};
    return span;
}
static inline hv_table_span hv_table_bytes_of(const hv_buffer *buffer) {
    const hv_table_span span = {buffer->at, buffer->size};
    return span;
}

static inline bool hv_table_same_bytes(hv_table_span left, hv_table_span right) {
    return left.size == right.size && (left.size == 0 || memcmp(left.at, right.at, left.size) == 0);
}

/* 17: the bytes are not those of a table. */
static inline int32_t hv_table_damaged(hv_error *error) { return hv_table_refuse(HV_BAD_METADATA, 0, 0, error); }

/* ---- Written ---- */

enum { HV_TABLE_VARINT = 0, HV_TABLE_FIXED = 1, HV_TABLE_SIZED = 2 };

static inline void hv_table_put_varint(hv_buffer *out, uint64_t number) {
    uint8_t byte;
    for (; number > 127; number >>= 7) {
        byte = (uint8_t)(number | 128);
        hv_buffer_put(out, &byte, 1);
    }
    byte = (uint8_t)number;
    hv_buffer_put(out, &byte, 1);
}

static inline void hv_table_put_number(hv_buffer *out, unsigned field, uint64_t number) {
    hv_table_put_varint(out, field * 8 + HV_TABLE_VARINT);
    hv_table_put_varint(out, number);
}

/* What comes in front of a message, a text or bytes of this size. */
static inline void hv_table_put_front(hv_buffer *out, unsigned field, size_t size) {
    hv_table_put_varint(out, field * 8 + HV_TABLE_SIZED);
    hv_table_put_varint(out, size);
}

static inline void hv_table_put_sized(hv_buffer *out, unsigned field, hv_table_span content) {
    hv_table_put_front(out, field, content.size);
    hv_buffer_put(out, content.at, content.size);
}

/* Appends the message of a column without its format, which is in the footer; 13 for more than 16 levels of runs. */
static inline int32_t hv_table_put_column(hv_buffer *out, const hv_column *column, hv_error *error) {
    hv_column stored = HV_EMPTY;
    uint8_t *at = NULL;
    size_t size = 0, written = 0;
    int32_t answer = hv_with_type(column, NULL, 0, &stored, error);
    if (!answer) answer = hv_write_size(&stored, &size, error);
    if (!answer) at = hv_buffer_more(out, size);
    if (!answer) answer = hv_buffer_answer(out, error);
    if (!answer) answer = hv_write(&stored, at, size, &written, error);
    hv_free(&stored);
    return answer;
}

/* ---- Read ---- */

/* The fields of a message, which are read in turn. Once one is not as it is written, none is left. */
typedef struct hv_table_fields {
    hv_table_span left;
    bool is_damaged;
} hv_table_fields;

static inline hv_table_fields hv_table_fields_of(hv_table_span content) {
    const hv_table_fields fields = {content, false};
    return fields;
}

/* The next bytes, none where there are fewer. */
static inline hv_table_span hv_table_next(hv_table_fields *fields, uint64_t size) {
    const hv_table_span none = {NULL, 0};
    if (fields->is_damaged || size > fields->left.size) {
        fields->is_damaged = true;
        fields->left = none;
        return none;
    }
    const hv_table_span found = {fields->left.at, (size_t)size};
    fields->left.at += size;
    fields->left.size -= (size_t)size;
    return found;
}

/* The shortest varint of a number, which has 64 bits. */
static inline uint64_t hv_table_varint(hv_table_fields *fields) {
    uint64_t number = 0;
    for (unsigned shift = 0; shift < 64; shift += 7) {
        const hv_table_span next = hv_table_next(fields, 1);
        const uint8_t byte = next.size ? *next.at : 0;
        number |= (uint64_t)(byte & 127) << shift;
        if (byte & 128) continue;
        fields->is_damaged |= (byte == 0 && shift > 0) || (shift == 63 && byte > 1);
        return number;
    }
    fields->is_damaged = true;
    return 0;
}

static inline void hv_table_expect(hv_table_fields *fields, unsigned key) {
    const hv_table_span next = hv_table_next(fields, 1);
    fields->is_damaged |= next.size == 0 || *next.at != key;
}

static inline uint64_t hv_table_number(hv_table_fields *fields, unsigned field) {
    hv_table_expect(fields, field * 8 + HV_TABLE_VARINT);
    return hv_table_varint(fields);
}

static inline hv_table_span hv_table_content(hv_table_fields *fields, unsigned field) {
    hv_table_expect(fields, field * 8 + HV_TABLE_SIZED);
    return hv_table_next(fields, hv_table_varint(fields));
}

/* 17 for bytes that are not UTF-8. */
static inline int32_t hv_table_check_span(hv_table_span text, hv_error *error) {
    const int64_t offsets[2] = {0, (int64_t)text.size};
    hv_column column = HV_EMPTY;
    const int32_t answer =
        hv_large_texts(0, offsets, 2, text.at, text.size, hv_not_nullable(), &column, error);
    hv_free(&column);
    return answer == HV_TYPE_MISMATCH ? hv_table_damaged(error) : answer;
}

/* ---- The least and the greatest row ---- */

/* The least and the greatest row that are not null, flat, of the column's type; no row where all are null. */
static inline int32_t hv_table_bounds_of(const hv_session *session, const hv_column *column, const hv_value ends[2],
                                         const hv_buffer texts[2], hv_column *out, hv_error *error) {
    const hv_kind kind = hv_kind_of(column);
    hv_builder builder = HV_EMPTY;
    hv_column both = HV_EMPTY;
    int32_t answer = hv_builder_new(&kind, &builder, error);
    for (int i = 0; !answer && i < 2 && ends[0].kind != HV_NULL; i++) {
        const bool is_text = ends[i].kind == HV_TEXT || ends[i].kind == HV_BYTES;
        answer = hv_append_value(&builder, &ends[i], texts[i].at, is_text ? (size_t)ends[i].as_unsigned : 0, 1, error);
    }
    if (!answer) answer = hv_finish(&builder, &both, error);
    if (!answer) answer = hv_decode(session, &both, out, error);
    hv_builder_free(&builder);
    hv_free(&both);
    return answer;
}

/* The same, looked for in a column of any type but lists: by what is stored, whatever it means. */
static inline int32_t hv_table_bounds(const hv_session *session, const hv_column *column, hv_column *out,
                                      hv_error *error) {
    hv_buffer texts[2] = {HV_BUFFER_EMPTY, HV_BUFFER_EMPTY};
    hv_column stored = HV_EMPTY;
    hv_value ends[2];
    hv_error own;
    size_t room = 64;
    if (!error) error = &own; /* whose fields are read here */
    int32_t answer = hv_with_type(column, NULL, 0, &stored, error);
    for (;;) {
        for (int i = 0; !answer && i < 2; i++) {
            texts[i].size = 0;
            hv_buffer_more(&texts[i], room);
            answer = hv_buffer_answer(&texts[i], error);
        }
        if (!answer)
            answer = hv_min_max(session, &stored, &ends[0], texts[0].at, room, &ends[1], texts[1].at, room, error);
        if (answer != HV_COLUMN_LENGTH) break;
        answer = HV_OK;
        room = (size_t)error->first; /* a text has more bytes */
    }
    if (!answer) answer = hv_table_bounds_of(session, column, ends, texts, out, error);
    hv_free(&stored);
    hv_buffer_free(&texts[0]);
    hv_buffer_free(&texts[1]);
    return answer;
}

#ifdef __cplusplus
}
#endif
#endif
