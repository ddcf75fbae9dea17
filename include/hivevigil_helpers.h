/* What a C program may want around the calls of hivevigil.h: columns that are moved and joined, and masks and
 * indices that lie in C's own buffers. Only a header, C11 and C++17. Nothing here is proved. */
#ifndef HIVEVIGIL_HELPERS_H
#define HIVEVIGIL_HELPERS_H
#include "hivevigil.h"
#ifdef __cplusplus
extern "C" {
#endif

/* The column of a handle, which is empty afterwards: hv_column kept = hv_moved(&made). Empty where `from` is null. */
static inline hv_column hv_moved(hv_column *from) {
    hv_column column = HV_EMPTY;
    if (from) {
        column = *from;
        from->at = 0;
    }
    return column;
}

/* Puts the column of `from` into `to`, whose own is freed. To itself nothing is done. */
static inline void hv_put(hv_column *to, hv_column *from) {
    if (to == from) return;
    hv_free(to);
    *to = hv_moved(from);
}

/* Is there no column in the handle, or no handle? */
static inline int hv_is_empty(const hv_column *column) { return !column || !column->at; }

/* Row by row whether `row operator value`, with the answers and refusals of hv_compare_scalar. For a column in runs it
 * costs runs and no row is written: the answer is in as few runs as it has. */
HV_ANSWER hv_compare_value(const hv_session *session, const hv_column *column, uint8_t operator_, const hv_value *value,
                           const uint8_t *text, size_t text_len, hv_column *out, hv_error *error) {
    hv_column constant = HV_EMPTY;
    hv_kind kind = hv_kind_of(column);
    if (hv_form(column) != HV_FORM_RUNS || kind.number == HV_LIST || operator_ > HV_LE || !value)
        return hv_compare_scalar(session, column, operator_, value, text, text_len, out, error);
    kind.nullable = value->kind == HV_NULL;
    int32_t answer = hv_constant(&kind, value, text, text_len, hv_length(column), &constant, error);
    if (!answer) answer = hv_combine(column, operator_, &constant, out, error);
    hv_free(&constant);
    return answer;
}

/* The rows whose bit is 1: that of row i is bit `first + i` of `bits`. 11 (rows, bytes) where there are fewer bits. */
HV_ANSWER hv_filter_bits(const hv_session *session, const hv_column *column, const uint8_t *bits, size_t bits_len,
                         size_t first, hv_column *out, hv_error *error) {
    hv_column mask = HV_EMPTY;
    int32_t answer = hv_bools(bits, bits_len, first, hv_length(column), hv_not_nullable(), &mask, error);
    if (!answer) answer = hv_filter(session, column, &mask, out, error);
    hv_free(&mask);
    return answer;
}

/* The rows whose flag is not 0; 10 (flags, length) unless there is one for each row. */
HV_ANSWER hv_filter_flags(const hv_session *session, const hv_column *column, const uint8_t *flags, size_t len,
                          hv_column *out, hv_error *error) {
    const hv_value zero = {0, 0, HV_UNSIGNED, 0, 0};
    hv_column numbers = HV_EMPTY, mask = HV_EMPTY;
    int32_t answer = hv_u8(flags, len, hv_not_nullable(), &numbers, error);
    if (!answer) answer = hv_compare_scalar(session, &numbers, HV_NE, &zero, NULL, 0, &mask, error);
    if (!answer) answer = hv_filter(session, column, &mask, out, error);
    hv_free(&numbers);
    hv_free(&mask);
    return answer;
}

/* The rows at indices of any native type, hv_take_u8 to hv_take_i64; null where the validity says so, and refused as
 * hv_take. */
#define HV_TAKE_OF(type, suffix) \
    HV_ANSWER hv_take_##suffix(const hv_session *session, const hv_column *column, const type *indices, size_t len, \
                               hv_validity validity, hv_column *out, hv_error *error) { \
        hv_column places = HV_EMPTY; \
        int32_t answer = hv_##suffix(indices, len, validity, &places, error); \
        if (!answer) answer = hv_take(session, column, &places, out, error); \
        hv_free(&places); \
        return answer; \
    }
HV_TAKE_OF(uint8_t, u8)
HV_TAKE_OF(uint16_t, u16)
HV_TAKE_OF(uint32_t, u32)
HV_TAKE_OF(uint64_t, u64)
HV_TAKE_OF(int8_t, i8)
HV_TAKE_OF(int16_t, i16)
HV_TAKE_OF(int32_t, i32)
HV_TAKE_OF(int64_t, i64)
#undef HV_TAKE_OF

/* The encoding of the rows of `count` columns of one type, which is not a list, one after the other: 12 for a column of
 * another type than the first, 22 where there is none, 11 (count, 0) where `columns` is a null pointer to some, 13 for
 * lists, 5 for 2^64 rows or more. What is held goes by runs and not by rows. */
HV_ANSWER hv_concat(const hv_column *columns, size_t count, hv_column *out, hv_error *error) {
    hv_builder builder = HV_EMPTY;
    hv_error ignored;
    int32_t answer = HV_NO_COLUMN;
    if (!columns && count) return hv_missing(count, error ? error : &ignored);
    if (count && columns->at) {
        const hv_kind kind = hv_kind_of(columns);
        answer = kind.number == HV_LIST ? hv_encode_rows(columns, out, error) /* which is refused */
                                        : hv_builder_new(&kind, &builder, error);
    }
    for (size_t i = 0; i < count && !answer; i++) answer = hv_append(&builder, columns + i, error);
    if (!answer) answer = hv_finish(&builder, out, error);
    hv_builder_free(&builder);
    return answer;
}

#ifdef __cplusplus
}
#endif
#endif
