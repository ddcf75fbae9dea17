/* The calls of hivevigil.h, which includes this one and says what each answers: inline functions over the exports of
 * the same names, which are in parentheses here. A null pointer for no items becomes an address, and so does an `error`
 * that is null; a null pointer with a length above 0 is refused. Nothing here is proved. */
#ifndef HIVEVIGIL_CALLS_H
#define HIVEVIGIL_CALLS_H
#ifndef HIVEVIGIL_EXPORTS_H
#error "include hivevigil.h, which includes this part"
#endif

/* an address for no items, at which nothing is read or written */
static inline void *hv_nowhere(void) {
    static const uint64_t nothing = 0;
    return (void *)(uintptr_t)&nothing;
}
/* the refusal of a null pointer next to a length above 0: the call expects that many items, and there are none */
static inline int32_t hv_missing(size_t len, hv_error *error) {
    error->first = len;
    error->second = 0;
    error->third = HV_ABOUT_NULL;
    return HV_COLUMN_LENGTH;
}
/* the answer of a call that makes texts or lists, where a refusal of offsets, or of a row, is about these */
static inline int32_t hv_about(uint64_t what, int32_t answer, hv_error *error) {
    if (answer == HV_NO_RUNS_WINDOW || answer == HV_ENDS_NOT_STRICT || answer == HV_OUT_OF_BOUNDS) error->third = what;
    return answer;
}
#define HV_FIELDS (error ? error : &ignored)
/* Each call has one for each pointer to items that it takes, before all else. */
#define HV_ITEMS(type, items, len) \
    do { \
        if (!items && len) return hv_missing(len, HV_FIELDS); \
        if (!items) items = (type *)hv_nowhere(); \
    } while (0)
#define HV_BITS(of) HV_ITEMS(const uint8_t, of.bits, of.bits_len)
#define HV_PARTS(of) of.nulls, of.bits, of.bits_len, of.first

/* the handle of a column that is lent: an export takes the column out, and puts it back before it returns */
static inline hv_column *hv_lent(const hv_column *column) { return (hv_column *)(uintptr_t)column; }
static inline hv_builder *hv_lent_builder(const hv_builder *builder) { return (hv_builder *)(uintptr_t)builder; }

/* the part of a session that the exports read, which follows its size */
static inline hv_settings *hv_settings_of(const hv_session *session) {
    return (hv_settings *)((uintptr_t)session + offsetof(hv_session, prefill_runs));
}

HV_CALL void hv_session_initial(hv_session *session) {
    session->size = sizeof *session;
    (hv_session_initial)(hv_settings_of(session));
}
HV_CALL void hv_free(hv_column *column) {
    if (column) (hv_free)(column);
}
HV_CALL void hv_builder_free(hv_builder *builder) {
    if (builder) (hv_builder_free)(builder);
}

/* made by tools/declarations.py from hivevigil.h */
/* Making columns */
HV_ANSWER hv_u8(const uint8_t *items, size_t len, hv_validity validity, hv_column *out, hv_error *error) {
    hv_error ignored;
    HV_ITEMS(const uint8_t, items, len);
    HV_BITS(validity);
    return (hv_u8)(items, len, HV_PARTS(validity), out, HV_FIELDS);
}
HV_ANSWER hv_u16(const uint16_t *items, size_t len, hv_validity validity, hv_column *out, hv_error *error) {
    hv_error ignored;
    HV_ITEMS(const uint16_t, items, len);
    HV_BITS(validity);
    return (hv_u16)(items, len, HV_PARTS(validity), out, HV_FIELDS);
}
HV_ANSWER hv_u32(const uint32_t *items, size_t len, hv_validity validity, hv_column *out, hv_error *error) {
    hv_error ignored;
    HV_ITEMS(const uint32_t, items, len);
    HV_BITS(validity);
    return (hv_u32)(items, len, HV_PARTS(validity), out, HV_FIELDS);
}
HV_ANSWER hv_u64(const uint64_t *items, size_t len, hv_validity validity, hv_column *out, hv_error *error) {
    hv_error ignored;
    HV_ITEMS(const uint64_t, items, len);
    HV_BITS(validity);
    return (hv_u64)(items, len, HV_PARTS(validity), out, HV_FIELDS);
}
HV_ANSWER hv_i8(const int8_t *items, size_t len, hv_validity validity, hv_column *out, hv_error *error) {
    hv_error ignored;
    HV_ITEMS(const int8_t, items, len);
    HV_BITS(validity);
    return (hv_i8)(items, len, HV_PARTS(validity), out, HV_FIELDS);
}
HV_ANSWER hv_i16(const int16_t *items, size_t len, hv_validity validity, hv_column *out, hv_error *error) {
    hv_error ignored;
    HV_ITEMS(const int16_t, items, len);
    HV_BITS(validity);
    return (hv_i16)(items, len, HV_PARTS(validity), out, HV_FIELDS);
}
HV_ANSWER hv_i32(const int32_t *items, size_t len, hv_validity validity, hv_column *out, hv_error *error) {
    hv_error ignored;
    HV_ITEMS(const int32_t, items, len);
    HV_BITS(validity);
    return (hv_i32)(items, len, HV_PARTS(validity), out, HV_FIELDS);
}
HV_ANSWER hv_i64(const int64_t *items, size_t len, hv_validity validity, hv_column *out, hv_error *error) {
    hv_error ignored;
    HV_ITEMS(const int64_t, items, len);
    HV_BITS(validity);
    return (hv_i64)(items, len, HV_PARTS(validity), out, HV_FIELDS);
}
HV_ANSWER hv_bools(const uint8_t *truths, size_t truths_len, size_t start, size_t count, hv_validity validity,
                   hv_column *out, hv_error *error) {
    hv_error ignored;
    HV_ITEMS(const uint8_t, truths, truths_len);
    HV_BITS(validity);
    return (hv_bools)(truths, truths_len, start, count, HV_PARTS(validity), out, HV_FIELDS);
}
HV_ANSWER hv_decimals(const hv_pair *pairs, size_t len, uint8_t precision, int8_t scale, hv_validity validity,
                      hv_column *out, hv_error *error) {
    hv_error ignored;
    HV_ITEMS(const hv_pair, pairs, len);
    HV_BITS(validity);
    return (hv_decimals)(pairs, len, precision, scale, HV_PARTS(validity), out, HV_FIELDS);
}
HV_ANSWER hv_texts(uint8_t binary, const int32_t *offsets, size_t offsets_len, const uint8_t *bytes, size_t bytes_len,
                   hv_validity validity, hv_column *out, hv_error *error) {
    hv_error ignored;
    HV_ITEMS(const int32_t, offsets, offsets_len);
    HV_ITEMS(const uint8_t, bytes, bytes_len);
    HV_BITS(validity);
    return hv_about(HV_ABOUT_TEXTS, (hv_texts)(binary, offsets, offsets_len, bytes, bytes_len, HV_PARTS(validity), out,
                                               HV_FIELDS), HV_FIELDS);
}
HV_ANSWER hv_large_texts(uint8_t binary, const int64_t *offsets, size_t offsets_len, const uint8_t *bytes,
                         size_t bytes_len, hv_validity validity, hv_column *out, hv_error *error) {
    hv_error ignored;
    HV_ITEMS(const int64_t, offsets, offsets_len);
    HV_ITEMS(const uint8_t, bytes, bytes_len);
    HV_BITS(validity);
    return hv_about(HV_ABOUT_TEXTS, (hv_large_texts)(binary, offsets, offsets_len, bytes, bytes_len, HV_PARTS(validity),
                                                     out, HV_FIELDS), HV_FIELDS);
}
HV_ANSWER hv_constant(const hv_kind *kind, const hv_value *value, const uint8_t *text, size_t text_len, size_t count,
                      hv_column *out, hv_error *error) {
    hv_error ignored;
    HV_ITEMS(const uint8_t, text, text_len);
    return (hv_constant)(kind, value, text, text_len, count, out, HV_FIELDS);
}
HV_ANSWER hv_runs(const hv_column *ends, const hv_column *values, size_t offset, size_t count, hv_column *out,
                  hv_error *error) {
    hv_error ignored;
    return (hv_runs)(hv_lent(ends), hv_lent(values), offset, count, out, HV_FIELDS);
}
HV_ANSWER hv_lists(const hv_column *elements, const uint64_t *offsets, size_t offsets_len, const uint64_t *sizes,
                   size_t sizes_len, hv_validity validity, hv_column *out, hv_error *error) {
    hv_error ignored;
    HV_ITEMS(const uint64_t, offsets, offsets_len);
    HV_ITEMS(const uint64_t, sizes, sizes_len);
    HV_BITS(validity);
    return hv_about(HV_ABOUT_LISTS, (hv_lists)(hv_lent(elements), offsets, offsets_len, sizes, sizes_len,
                                               HV_PARTS(validity), out, HV_FIELDS), HV_FIELDS);
}
HV_ANSWER hv_clone(const hv_column *column, hv_column *out, hv_error *error) {
    hv_error ignored;
    return (hv_clone)(hv_lent(column), out, HV_FIELDS);
}
HV_ANSWER hv_compact(const hv_column *column, hv_column *out, hv_error *error) {
    hv_error ignored;
    return (hv_compact)(hv_lent(column), out, HV_FIELDS);
}

/* Commands */
HV_ANSWER hv_encode(const hv_session *session, const hv_column *column, hv_column *out, hv_error *error) {
    hv_error ignored;
    return (hv_encode)(hv_settings_of(session), hv_lent(column), out, HV_FIELDS);
}
HV_ANSWER hv_decode(const hv_session *session, const hv_column *column, hv_column *out, hv_error *error) {
    hv_error ignored;
    return (hv_decode)(hv_settings_of(session), hv_lent(column), out, HV_FIELDS);
}
HV_ANSWER hv_slice(const hv_session *session, const hv_column *column, size_t start, size_t stop, hv_column *out,
                   hv_error *error) {
    hv_error ignored;
    return (hv_slice)(hv_settings_of(session), hv_lent(column), start, stop, out, HV_FIELDS);
}
HV_ANSWER hv_cast(const hv_session *session, const hv_column *column, const hv_kind *kind, hv_column *out,
                  hv_error *error) {
    hv_error ignored;
    return (hv_cast)(hv_settings_of(session), hv_lent(column), kind, out, HV_FIELDS);
}
HV_ANSWER hv_take(const hv_session *session, const hv_column *column, const hv_column *indices, hv_column *out,
                  hv_error *error) {
    hv_error ignored;
    return (hv_take)(hv_settings_of(session), hv_lent(column), hv_lent(indices), out, HV_FIELDS);
}
HV_ANSWER hv_filter(const hv_session *session, const hv_column *column, const hv_column *mask, hv_column *out,
                    hv_error *error) {
    hv_error ignored;
    return (hv_filter)(hv_settings_of(session), hv_lent(column), hv_lent(mask), out, HV_FIELDS);
}
HV_ANSWER hv_take_from(const hv_session *session, const hv_column *codes, const hv_column *dictionary, hv_column *out,
                       hv_error *error) {
    hv_error ignored;
    return (hv_take_from)(hv_settings_of(session), hv_lent(codes), hv_lent(dictionary), out, HV_FIELDS);
}
HV_ANSWER hv_compare(const hv_session *session, const hv_column *column, uint8_t operator_, const hv_column *right,
                     hv_column *out, hv_error *error) {
    hv_error ignored;
    return (hv_compare)(hv_settings_of(session), hv_lent(column), operator_, hv_lent(right), out, HV_FIELDS);
}
HV_ANSWER hv_compare_scalar(const hv_session *session, const hv_column *column, uint8_t operator_,
                            const hv_value *value, const uint8_t *text, size_t text_len, hv_column *out,
                            hv_error *error) {
    hv_error ignored;
    HV_ITEMS(const uint8_t, text, text_len);
    return (hv_compare_scalar)(hv_settings_of(session), hv_lent(column), operator_, value, text, text_len, out,
                               HV_FIELDS);
}
HV_ANSWER hv_compare_number(const hv_column *column, uint8_t operator_, const hv_value *value, hv_column *out,
                            hv_error *error) {
    hv_error ignored;
    return (hv_compare_number)(hv_lent(column), operator_, value, out, HV_FIELDS);
}
HV_ANSWER hv_fill(const hv_session *session, const hv_column *column, const hv_value *value, const uint8_t *text,
                  size_t text_len, hv_column *out, hv_error *error) {
    hv_error ignored;
    HV_ITEMS(const uint8_t, text, text_len);
    return (hv_fill)(hv_settings_of(session), hv_lent(column), value, text, text_len, out, HV_FIELDS);
}
HV_ANSWER hv_combine(const hv_column *left, uint8_t operator_, const hv_column *right, hv_column *out,
                     hv_error *error) {
    hv_error ignored;
    return (hv_combine)(hv_lent(left), operator_, hv_lent(right), out, HV_FIELDS);
}
HV_ANSWER hv_not(const hv_column *column, hv_column *out, hv_error *error) {
    hv_error ignored;
    return (hv_not)(hv_lent(column), out, HV_FIELDS);
}
HV_ANSWER hv_is_null(const hv_column *column, hv_column *out, hv_error *error) {
    hv_error ignored;
    return (hv_is_null)(hv_lent(column), out, HV_FIELDS);
}
HV_ANSWER hv_is_valid(const hv_column *column, hv_column *out, hv_error *error) {
    hv_error ignored;
    return (hv_is_valid)(hv_lent(column), out, HV_FIELDS);
}
HV_ANSWER hv_if_else(const hv_column *mask, const hv_column *left, const hv_column *right, hv_column *out,
                     hv_error *error) {
    hv_error ignored;
    return (hv_if_else)(hv_lent(mask), hv_lent(left), hv_lent(right), out, HV_FIELDS);
}
HV_ANSWER hv_equals(const hv_column *left, const hv_column *right, uint8_t *truth, hv_error *error) {
    hv_error ignored;
    return (hv_equals)(hv_lent(left), hv_lent(right), truth, HV_FIELDS);
}
HV_ANSWER hv_hash(const hv_column *column, uint64_t *hash, hv_error *error) {
    hv_error ignored;
    return (hv_hash)(hv_lent(column), hash, HV_FIELDS);
}
HV_ANSWER hv_fold_by(const hv_column *keys, const hv_column *values, uint8_t fold, hv_column *out_keys,
                     hv_column *out_answers, hv_error *error) {
    hv_error ignored;
    return (hv_fold_by)(hv_lent(keys), hv_lent(values), fold, out_keys, out_answers, HV_FIELDS);
}
HV_ANSWER hv_running_totals(const hv_column *column, hv_column *out_ends, hv_column *out_totals, hv_error *error) {
    hv_error ignored;
    return (hv_running_totals)(hv_lent(column), out_ends, out_totals, HV_FIELDS);
}
HV_ANSWER hv_reverse(const hv_column *column, hv_column *out, hv_error *error) {
    hv_error ignored;
    return (hv_reverse)(hv_lent(column), out, HV_FIELDS);
}
HV_ANSWER hv_sort(const hv_column *column, hv_column *out, hv_error *error) {
    hv_error ignored;
    return (hv_sort)(hv_lent(column), out, HV_FIELDS);
}
HV_ANSWER hv_value_counts(const hv_column *column, hv_column *out_values, hv_column *out_counts, hv_error *error) {
    hv_error ignored;
    return (hv_value_counts)(hv_lent(column), out_values, out_counts, HV_FIELDS);
}

/* Questions */
HV_ANSWER hv_sum(const hv_session *session, const hv_column *column, hv_total *total, hv_error *error) {
    hv_error ignored;
    return (hv_sum)(hv_settings_of(session), hv_lent(column), total, HV_FIELDS);
}
HV_ANSWER hv_sum_parts(const hv_column *column, hv_pair *total, hv_pair *least, hv_pair *greatest, hv_error *error) {
    hv_error ignored;
    return (hv_sum_parts)(hv_lent(column), total, least, greatest, HV_FIELDS);
}
HV_ANSWER hv_is_constant(const hv_session *session, const hv_column *column, uint8_t *truth, hv_error *error) {
    hv_error ignored;
    return (hv_is_constant)(hv_settings_of(session), hv_lent(column), truth, HV_FIELDS);
}
HV_ANSWER hv_is_sorted(const hv_session *session, const hv_column *column, uint8_t strict, uint8_t *truth,
                       hv_error *error) {
    hv_error ignored;
    return (hv_is_sorted)(hv_settings_of(session), hv_lent(column), strict, truth, HV_FIELDS);
}
HV_ANSWER hv_extreme(const hv_session *session, const hv_column *column, uint8_t greatest, hv_value *value,
                     uint8_t *text, size_t text_len, hv_error *error) {
    hv_error ignored;
    HV_ITEMS(uint8_t, text, text_len);
    return (hv_extreme)(hv_settings_of(session), hv_lent(column), greatest, value, text, text_len, HV_FIELDS);
}
HV_ANSWER hv_min_max(const hv_session *session, const hv_column *column, hv_value *least, uint8_t *least_text,
                     size_t least_text_len, hv_value *greatest, uint8_t *greatest_text, size_t greatest_text_len,
                     hv_error *error) {
    hv_error ignored;
    HV_ITEMS(uint8_t, least_text, least_text_len);
    HV_ITEMS(uint8_t, greatest_text, greatest_text_len);
    return (hv_min_max)(hv_settings_of(session), hv_lent(column), least, least_text, least_text_len, greatest,
                        greatest_text, greatest_text_len, HV_FIELDS);
}
HV_ANSWER hv_at(const hv_column *column, size_t row, hv_value *value, uint8_t *text, size_t text_len, hv_error *error) {
    hv_error ignored;
    HV_ITEMS(uint8_t, text, text_len);
    return (hv_at)(hv_lent(column), row, value, text, text_len, HV_FIELDS);
}
HV_CALL size_t hv_length(const hv_column *column) {
    return (hv_length)(hv_lent(column));
}
HV_CALL size_t hv_null_count(const hv_column *column) {
    return (hv_null_count)(hv_lent(column));
}
HV_CALL hv_kind hv_kind_of(const hv_column *column) {
    return (hv_kind_of)(hv_lent(column));
}
HV_CALL uint8_t hv_form(const hv_column *column) {
    return (hv_form)(hv_lent(column));
}
HV_CALL size_t hv_offset(const hv_column *column) {
    return (hv_offset)(hv_lent(column));
}
HV_CALL size_t hv_bytes_used(const hv_column *column) {
    return (hv_bytes_used)(hv_lent(column));
}

/* Decimals */
HV_ANSWER hv_decimal_cast(const hv_column *column, uint8_t precision, int8_t scale, hv_column *out, hv_error *error) {
    hv_error ignored;
    return (hv_decimal_cast)(hv_lent(column), precision, scale, out, HV_FIELDS);
}
HV_ANSWER hv_decimal_to_integers(const hv_column *decimals, uint8_t to, hv_column *out, hv_error *error) {
    hv_error ignored;
    return (hv_decimal_to_integers)(hv_lent(decimals), to, out, HV_FIELDS);
}

/* Floats */
HV_ANSWER hv_float_encode(const hv_column *bits, uint8_t is_canonical, hv_column *out, hv_error *error) {
    hv_error ignored;
    return (hv_float_encode)(hv_lent(bits), is_canonical, out, HV_FIELDS);
}
HV_ANSWER hv_float_decode(const hv_column *floats, hv_column *out, hv_error *error) {
    hv_error ignored;
    return (hv_float_decode)(hv_lent(floats), out, HV_FIELDS);
}
HV_ANSWER hv_float_compare(const hv_column *floats, uint8_t operator_, uint64_t constant, uint8_t is_ieee,
                           hv_column *out, hv_error *error) {
    hv_error ignored;
    return (hv_float_compare)(hv_lent(floats), operator_, constant, is_ieee, out, HV_FIELDS);
}
HV_ANSWER hv_float_cast(const hv_column *floats, uint8_t to, uint8_t is_rounded, hv_column *out, hv_error *error) {
    hv_error ignored;
    return (hv_float_cast)(hv_lent(floats), to, is_rounded, out, HV_FIELDS);
}
HV_ANSWER hv_float_of_integers(const hv_column *integers, uint8_t to, uint8_t is_rounded, hv_column *out,
                               hv_error *error) {
    hv_error ignored;
    return (hv_float_of_integers)(hv_lent(integers), to, is_rounded, out, HV_FIELDS);
}
HV_ANSWER hv_float_to_integers(const hv_column *floats, uint8_t to, hv_column *out, hv_error *error) {
    hv_error ignored;
    return (hv_float_to_integers)(hv_lent(floats), to, out, HV_FIELDS);
}
HV_ANSWER hv_float_combine(const hv_column *left, uint8_t operator_, const hv_column *right, hv_column *out,
                           hv_error *error) {
    hv_error ignored;
    return (hv_float_combine)(hv_lent(left), operator_, hv_lent(right), out, HV_FIELDS);
}

/* Reading many rows */
HV_ANSWER hv_read_u8(const hv_column *column, size_t start, uint8_t *items, size_t len, hv_error *error) {
    hv_error ignored;
    HV_ITEMS(uint8_t, items, len);
    return (hv_read_u8)(hv_lent(column), start, items, len, HV_FIELDS);
}
HV_ANSWER hv_read_u16(const hv_column *column, size_t start, uint16_t *items, size_t len, hv_error *error) {
    hv_error ignored;
    HV_ITEMS(uint16_t, items, len);
    return (hv_read_u16)(hv_lent(column), start, items, len, HV_FIELDS);
}
HV_ANSWER hv_read_u32(const hv_column *column, size_t start, uint32_t *items, size_t len, hv_error *error) {
    hv_error ignored;
    HV_ITEMS(uint32_t, items, len);
    return (hv_read_u32)(hv_lent(column), start, items, len, HV_FIELDS);
}
HV_ANSWER hv_read_u64(const hv_column *column, size_t start, uint64_t *items, size_t len, hv_error *error) {
    hv_error ignored;
    HV_ITEMS(uint64_t, items, len);
    return (hv_read_u64)(hv_lent(column), start, items, len, HV_FIELDS);
}
HV_ANSWER hv_read_i8(const hv_column *column, size_t start, int8_t *items, size_t len, hv_error *error) {
    hv_error ignored;
    HV_ITEMS(int8_t, items, len);
    return (hv_read_i8)(hv_lent(column), start, items, len, HV_FIELDS);
}
HV_ANSWER hv_read_i16(const hv_column *column, size_t start, int16_t *items, size_t len, hv_error *error) {
    hv_error ignored;
    HV_ITEMS(int16_t, items, len);
    return (hv_read_i16)(hv_lent(column), start, items, len, HV_FIELDS);
}
HV_ANSWER hv_read_i32(const hv_column *column, size_t start, int32_t *items, size_t len, hv_error *error) {
    hv_error ignored;
    HV_ITEMS(int32_t, items, len);
    return (hv_read_i32)(hv_lent(column), start, items, len, HV_FIELDS);
}
HV_ANSWER hv_read_i64(const hv_column *column, size_t start, int64_t *items, size_t len, hv_error *error) {
    hv_error ignored;
    HV_ITEMS(int64_t, items, len);
    return (hv_read_i64)(hv_lent(column), start, items, len, HV_FIELDS);
}
HV_ANSWER hv_read_decimals(const hv_column *column, size_t start, hv_pair *pairs, size_t len, hv_error *error) {
    hv_error ignored;
    HV_ITEMS(hv_pair, pairs, len);
    return (hv_read_decimals)(hv_lent(column), start, pairs, len, HV_FIELDS);
}
HV_ANSWER hv_read_bools(const hv_column *column, uint64_t *words, size_t len, hv_error *error) {
    hv_error ignored;
    HV_ITEMS(uint64_t, words, len);
    return (hv_read_bools)(hv_lent(column), words, len, HV_FIELDS);
}
HV_ANSWER hv_read_validity(const hv_column *column, uint64_t *words, size_t len, hv_error *error) {
    hv_error ignored;
    HV_ITEMS(uint64_t, words, len);
    return (hv_read_validity)(hv_lent(column), words, len, HV_FIELDS);
}
HV_ANSWER hv_read_bools_from(const hv_column *column, size_t start, size_t rows, uint64_t *words, size_t len,
                             hv_error *error) {
    hv_error ignored;
    HV_ITEMS(uint64_t, words, len);
    return (hv_read_bools_from)(hv_lent(column), start, rows, words, len, HV_FIELDS);
}
HV_ANSWER hv_read_validity_from(const hv_column *column, size_t start, size_t rows, uint64_t *words, size_t len,
                                hv_error *error) {
    hv_error ignored;
    HV_ITEMS(uint64_t, words, len);
    return (hv_read_validity_from)(hv_lent(column), start, rows, words, len, HV_FIELDS);
}
HV_ANSWER hv_read_offsets(const hv_column *column, size_t start, int32_t *offsets, size_t len, hv_error *error) {
    hv_error ignored;
    HV_ITEMS(int32_t, offsets, len);
    return (hv_read_offsets)(hv_lent(column), start, offsets, len, HV_FIELDS);
}
HV_ANSWER hv_read_large_offsets(const hv_column *column, size_t start, int64_t *offsets, size_t len, hv_error *error) {
    hv_error ignored;
    HV_ITEMS(int64_t, offsets, len);
    return (hv_read_large_offsets)(hv_lent(column), start, offsets, len, HV_FIELDS);
}
HV_ANSWER hv_read_bytes(const hv_column *column, size_t start, size_t rows, uint8_t *bytes, size_t len,
                        hv_error *error) {
    hv_error ignored;
    HV_ITEMS(uint8_t, bytes, len);
    return (hv_read_bytes)(hv_lent(column), start, rows, bytes, len, HV_FIELDS);
}

/* Run columns */
HV_ANSWER hv_ends(const hv_column *column, hv_column *out, hv_error *error) {
    hv_error ignored;
    return (hv_ends)(hv_lent(column), out, HV_FIELDS);
}
HV_ANSWER hv_values(const hv_column *column, hv_column *out, hv_error *error) {
    hv_error ignored;
    return (hv_values)(hv_lent(column), out, HV_FIELDS);
}
HV_ANSWER hv_run_count(const hv_column *column, size_t *count, hv_error *error) {
    hv_error ignored;
    return (hv_run_count)(hv_lent(column), count, HV_FIELDS);
}
HV_ANSWER hv_run(const hv_column *column, size_t run, size_t *start, size_t *stop, hv_value *value, uint8_t *text,
                 size_t text_len, hv_error *error) {
    hv_error ignored;
    HV_ITEMS(uint8_t, text, text_len);
    return (hv_run)(hv_lent(column), run, start, stop, value, text, text_len, HV_FIELDS);
}
HV_ANSWER hv_run_of(const hv_column *column, size_t row, size_t *run, hv_error *error) {
    hv_error ignored;
    return (hv_run_of)(hv_lent(column), row, run, HV_FIELDS);
}
HV_ANSWER hv_read_ends_u64(const hv_column *column, size_t first, uint64_t *stops, size_t len, hv_error *error) {
    hv_error ignored;
    HV_ITEMS(uint64_t, stops, len);
    return (hv_read_ends_u64)(hv_lent(column), first, stops, len, HV_FIELDS);
}
HV_ANSWER hv_serialize(const hv_column *column, uint8_t *bytes, size_t bytes_len, size_t *size, hv_error *error) {
    hv_error ignored;
    HV_ITEMS(uint8_t, bytes, bytes_len);
    return (hv_serialize)(hv_lent(column), bytes, bytes_len, size, HV_FIELDS);
}
HV_ANSWER hv_deserialize(const hv_kind *kind, size_t count, const uint8_t *bytes, size_t bytes_len,
                         const hv_column *ends, const hv_column *values, hv_column *out, hv_error *error) {
    hv_error ignored;
    HV_ITEMS(const uint8_t, bytes, bytes_len);
    return (hv_deserialize)(kind, count, bytes, bytes_len, hv_lent(ends), hv_lent(values), out, HV_FIELDS);
}

/* Lists */
HV_ANSWER hv_list_elements(const hv_column *column, hv_column *out, hv_error *error) {
    hv_error ignored;
    return (hv_list_elements)(hv_lent(column), out, HV_FIELDS);
}
HV_ANSWER hv_list_offsets(const hv_column *column, hv_column *out, hv_error *error) {
    hv_error ignored;
    return (hv_list_offsets)(hv_lent(column), out, HV_FIELDS);
}
HV_ANSWER hv_list_sizes(const hv_column *column, hv_column *out, hv_error *error) {
    hv_error ignored;
    return (hv_list_sizes)(hv_lent(column), out, HV_FIELDS);
}
HV_ANSWER hv_list_validity(const hv_column *column, hv_column *out, hv_error *error) {
    hv_error ignored;
    return (hv_list_validity)(hv_lent(column), out, HV_FIELDS);
}

/* Encodings of any column, and of rows that come batch by batch */
HV_ANSWER hv_encode_rows(const hv_column *column, hv_column *out, hv_error *error) {
    hv_error ignored;
    return (hv_encode_rows)(hv_lent(column), out, HV_FIELDS);
}
HV_ANSWER hv_builder_new(const hv_kind *kind, hv_builder *builder, hv_error *error) {
    hv_error ignored;
    return (hv_builder_new)(kind, builder, HV_FIELDS);
}
HV_ANSWER hv_append(hv_builder *builder, const hv_column *column, hv_error *error) {
    hv_error ignored;
    return (hv_append)(builder, hv_lent(column), HV_FIELDS);
}
HV_ANSWER hv_append_value(hv_builder *builder, const hv_value *value, const uint8_t *text, size_t text_len,
                          size_t count, hv_error *error) {
    hv_error ignored;
    HV_ITEMS(const uint8_t, text, text_len);
    return (hv_append_value)(builder, value, text, text_len, count, HV_FIELDS);
}
HV_ANSWER hv_encoding(const hv_builder *builder, hv_column *out, hv_error *error) {
    hv_error ignored;
    return (hv_encoding)(hv_lent_builder(builder), out, HV_FIELDS);
}
HV_ANSWER hv_finish(hv_builder *builder, hv_column *out, hv_error *error) {
    hv_error ignored;
    return (hv_finish)(builder, out, HV_FIELDS);
}
HV_CALL size_t hv_builder_rows(const hv_builder *builder) {
    return (hv_builder_rows)(hv_lent_builder(builder));
}
HV_CALL size_t hv_builder_runs(const hv_builder *builder) {
    return (hv_builder_runs)(hv_lent_builder(builder));
}
HV_ANSWER hv_write_size(const hv_column *column, size_t *size, hv_error *error) {
    hv_error ignored;
    return (hv_write_size)(hv_lent(column), size, HV_FIELDS);
}
HV_ANSWER hv_write(const hv_column *column, uint8_t *bytes, size_t bytes_len, size_t *size, hv_error *error) {
    hv_error ignored;
    HV_ITEMS(uint8_t, bytes, bytes_len);
    return (hv_write)(hv_lent(column), bytes, bytes_len, size, HV_FIELDS);
}
HV_ANSWER hv_read_column(const uint8_t *bytes, size_t bytes_len, hv_column *out, hv_error *error) {
    hv_error ignored;
    HV_ITEMS(const uint8_t, bytes, bytes_len);
    return (hv_read_column)(bytes, bytes_len, out, HV_FIELDS);
}
HV_ANSWER hv_is_message(const uint8_t *bytes, size_t bytes_len, uint8_t *truth, hv_error *error) {
    hv_error ignored;
    HV_ITEMS(const uint8_t, bytes, bytes_len);
    return (hv_is_message)(bytes, bytes_len, truth, HV_FIELDS);
}

/* What the rows mean */
HV_ANSWER hv_with_type(const hv_column *column, const uint8_t *format, size_t format_len, hv_column *out,
                       hv_error *error) {
    hv_error ignored;
    HV_ITEMS(const uint8_t, format, format_len);
    return (hv_with_type)(hv_lent(column), format, format_len, out, HV_FIELDS);
}
HV_ANSWER hv_type(const hv_column *column, uint8_t *format, size_t format_len, size_t *size, hv_error *error) {
    hv_error ignored;
    HV_ITEMS(uint8_t, format, format_len);
    return (hv_type)(hv_lent(column), format, format_len, size, HV_FIELDS);
}
/* end of what tools/declarations.py makes */

#undef HV_ITEMS
#undef HV_BITS
#undef HV_FIELDS
#undef HV_PARTS
#endif
