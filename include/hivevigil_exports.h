/* The calls as the library exports them, for hivevigil.h, which includes this one, and for other languages. hivevigil.h
 * says under its name what a call answers. Here each call has the parameters of the library: no pointer that is null,
 * also where a length is 0; the part of a session that follows its size; and a validity in four parts, of which `nulls`
 * is 0 for a type without null, 1 where no row is null, and any other number where the bits from bit `first` on say
 * which rows are valid.
 *
 * In C and C++ the same names are inline functions over the exports (hivevigil_calls.h), by the macros below.
 * Parentheses reach the export, as for functions of C's own library: (hv_length)(&column); so does a name that no
 * arguments follow, such as that of a function pointer, where hv_call_length is the inline function. A program that
 * defines HV_EXPORTS_ALONE before it includes hivevigil.h has the types and the exports, and nothing over them. */
#ifndef HIVEVIGIL_EXPORTS_H
#define HIVEVIGIL_EXPORTS_H
#ifndef HIVEVIGIL_H
#error "include hivevigil.h, which includes this part"
#endif

#ifdef __GNUC__
#define HV_EXPORT __attribute__((nonnull))
#else
#define HV_EXPORT
#endif

/* What an export reads of a session. */
typedef struct hv_settings {
    size_t prefill_runs, min_run_filter_rows, filter_factor, sorted_runs_per_index;
    size_t table_len_per_index, unsorted_min_runs, unsorted_runs_per_index;
    uint8_t kernels[12];
} hv_settings;

/* made by tools/declarations.py from hivevigil.h */
HV_EXPORT void hv_session_initial(hv_settings *settings);

/* Making columns */
HV_EXPORT int32_t hv_u8(const uint8_t *items, size_t len, uint8_t nulls, const uint8_t *bits, size_t bits_len,
                        size_t first, hv_column *out, hv_error *error);
HV_EXPORT int32_t hv_u16(const uint16_t *items, size_t len, uint8_t nulls, const uint8_t *bits, size_t bits_len,
                         size_t first, hv_column *out, hv_error *error);
HV_EXPORT int32_t hv_u32(const uint32_t *items, size_t len, uint8_t nulls, const uint8_t *bits, size_t bits_len,
                         size_t first, hv_column *out, hv_error *error);
HV_EXPORT int32_t hv_u64(const uint64_t *items, size_t len, uint8_t nulls, const uint8_t *bits, size_t bits_len,
                         size_t first, hv_column *out, hv_error *error);
HV_EXPORT int32_t hv_i8(const int8_t *items, size_t len, uint8_t nulls, const uint8_t *bits, size_t bits_len,
                        size_t first, hv_column *out, hv_error *error);
HV_EXPORT int32_t hv_i16(const int16_t *items, size_t len, uint8_t nulls, const uint8_t *bits, size_t bits_len,
                         size_t first, hv_column *out, hv_error *error);
HV_EXPORT int32_t hv_i32(const int32_t *items, size_t len, uint8_t nulls, const uint8_t *bits, size_t bits_len,
                         size_t first, hv_column *out, hv_error *error);
HV_EXPORT int32_t hv_i64(const int64_t *items, size_t len, uint8_t nulls, const uint8_t *bits, size_t bits_len,
                         size_t first, hv_column *out, hv_error *error);
HV_EXPORT int32_t hv_bools(const uint8_t *truths, size_t truths_len, size_t start, size_t count, uint8_t nulls,
                           const uint8_t *bits, size_t bits_len, size_t first, hv_column *out, hv_error *error);
HV_EXPORT int32_t hv_decimals(const hv_pair *pairs, size_t len, uint8_t precision, int8_t scale, uint8_t nulls,
                              const uint8_t *bits, size_t bits_len, size_t first, hv_column *out, hv_error *error);
HV_EXPORT int32_t hv_texts(uint8_t binary, const int32_t *offsets, size_t offsets_len, const uint8_t *bytes,
                           size_t bytes_len, uint8_t nulls, const uint8_t *bits, size_t bits_len, size_t first,
                           hv_column *out, hv_error *error);
HV_EXPORT int32_t hv_large_texts(uint8_t binary, const int64_t *offsets, size_t offsets_len, const uint8_t *bytes,
                                 size_t bytes_len, uint8_t nulls, const uint8_t *bits, size_t bits_len, size_t first,
                                 hv_column *out, hv_error *error);
HV_EXPORT int32_t hv_constant(const hv_kind *kind, const hv_value *value, const uint8_t *text, size_t text_len,
                              size_t count, hv_column *out, hv_error *error);
HV_EXPORT int32_t hv_runs(hv_column *ends, hv_column *values, size_t offset, size_t count, hv_column *out,
                          hv_error *error);
HV_EXPORT int32_t hv_lists(hv_column *elements, const uint64_t *offsets, size_t offsets_len, const uint64_t *sizes,
                           size_t sizes_len, uint8_t nulls, const uint8_t *bits, size_t bits_len, size_t first,
                           hv_column *out, hv_error *error);
HV_EXPORT int32_t hv_clone(hv_column *column, hv_column *out, hv_error *error);
HV_EXPORT int32_t hv_compact(hv_column *column, hv_column *out, hv_error *error);

/* Commands */
HV_EXPORT int32_t hv_encode(const hv_settings *settings, hv_column *column, hv_column *out, hv_error *error);
HV_EXPORT int32_t hv_decode(const hv_settings *settings, hv_column *column, hv_column *out, hv_error *error);
HV_EXPORT int32_t hv_slice(const hv_settings *settings, hv_column *column, size_t start, size_t stop, hv_column *out,
                           hv_error *error);
HV_EXPORT int32_t hv_cast(const hv_settings *settings, hv_column *column, const hv_kind *kind, hv_column *out,
                          hv_error *error);
HV_EXPORT int32_t hv_take(const hv_settings *settings, hv_column *column, hv_column *indices, hv_column *out,
                          hv_error *error);
HV_EXPORT int32_t hv_filter(const hv_settings *settings, hv_column *column, hv_column *mask, hv_column *out,
                            hv_error *error);
HV_EXPORT int32_t hv_take_from(const hv_settings *settings, hv_column *codes, hv_column *dictionary, hv_column *out,
                               hv_error *error);
HV_EXPORT int32_t hv_compare(const hv_settings *settings, hv_column *column, uint8_t operator_, hv_column *right,
                             hv_column *out, hv_error *error);
HV_EXPORT int32_t hv_compare_scalar(const hv_settings *settings, hv_column *column, uint8_t operator_,
                                    const hv_value *value, const uint8_t *text, size_t text_len, hv_column *out,
                                    hv_error *error);
HV_EXPORT int32_t hv_compare_number(hv_column *column, uint8_t operator_, const hv_value *value, hv_column *out,
                                    hv_error *error);
HV_EXPORT int32_t hv_fill(const hv_settings *settings, hv_column *column, const hv_value *value, const uint8_t *text,
                          size_t text_len, hv_column *out, hv_error *error);
HV_EXPORT int32_t hv_combine(hv_column *left, uint8_t operator_, hv_column *right, hv_column *out, hv_error *error);
HV_EXPORT int32_t hv_not(hv_column *column, hv_column *out, hv_error *error);
HV_EXPORT int32_t hv_is_null(hv_column *column, hv_column *out, hv_error *error);
HV_EXPORT int32_t hv_is_valid(hv_column *column, hv_column *out, hv_error *error);
HV_EXPORT int32_t hv_if_else(hv_column *mask, hv_column *left, hv_column *right, hv_column *out, hv_error *error);
HV_EXPORT int32_t hv_equals(hv_column *left, hv_column *right, uint8_t *truth, hv_error *error);
HV_EXPORT int32_t hv_hash(hv_column *column, uint64_t *hash, hv_error *error);
HV_EXPORT int32_t hv_fold_by(hv_column *keys, hv_column *values, uint8_t fold, hv_column *out_keys,
                             hv_column *out_answers, hv_error *error);
HV_EXPORT int32_t hv_running_totals(hv_column *column, hv_column *out_ends, hv_column *out_totals, hv_error *error);
HV_EXPORT int32_t hv_reverse(hv_column *column, hv_column *out, hv_error *error);
HV_EXPORT int32_t hv_sort(hv_column *column, hv_column *out, hv_error *error);
HV_EXPORT int32_t hv_value_counts(hv_column *column, hv_column *out_values, hv_column *out_counts, hv_error *error);

/* Questions */
HV_EXPORT int32_t hv_sum(const hv_settings *settings, hv_column *column, hv_total *total, hv_error *error);
HV_EXPORT int32_t hv_sum_parts(hv_column *column, hv_pair *total, hv_pair *least, hv_pair *greatest, hv_error *error);
HV_EXPORT int32_t hv_is_constant(const hv_settings *settings, hv_column *column, uint8_t *truth, hv_error *error);
HV_EXPORT int32_t hv_is_sorted(const hv_settings *settings, hv_column *column, uint8_t strict, uint8_t *truth,
                               hv_error *error);
HV_EXPORT int32_t hv_extreme(const hv_settings *settings, hv_column *column, uint8_t greatest, hv_value *value,
                             uint8_t *text, size_t text_len, hv_error *error);
HV_EXPORT int32_t hv_min_max(const hv_settings *settings, hv_column *column, hv_value *least, uint8_t *least_text,
                             size_t least_text_len, hv_value *greatest, uint8_t *greatest_text,
                             size_t greatest_text_len, hv_error *error);
HV_EXPORT int32_t hv_at(hv_column *column, size_t row, hv_value *value, uint8_t *text, size_t text_len,
                        hv_error *error);
HV_EXPORT size_t hv_length(hv_column *column);
HV_EXPORT size_t hv_null_count(hv_column *column);
HV_EXPORT hv_kind hv_kind_of(hv_column *column);
HV_EXPORT uint8_t hv_form(hv_column *column);
HV_EXPORT size_t hv_offset(hv_column *column);
HV_EXPORT size_t hv_bytes_used(hv_column *column);

/* Decimals */
HV_EXPORT int32_t hv_decimal_cast(hv_column *column, uint8_t precision, int8_t scale, hv_column *out, hv_error *error);
HV_EXPORT int32_t hv_decimal_to_integers(hv_column *decimals, uint8_t to, hv_column *out, hv_error *error);

/* Floats */
HV_EXPORT int32_t hv_float_encode(hv_column *bits, uint8_t is_canonical, hv_column *out, hv_error *error);
HV_EXPORT int32_t hv_float_decode(hv_column *floats, hv_column *out, hv_error *error);
HV_EXPORT int32_t hv_float_compare(hv_column *floats, uint8_t operator_, uint64_t constant, uint8_t is_ieee,
                                   hv_column *out, hv_error *error);
HV_EXPORT int32_t hv_float_cast(hv_column *floats, uint8_t to, uint8_t is_rounded, hv_column *out, hv_error *error);
HV_EXPORT int32_t hv_float_of_integers(hv_column *integers, uint8_t to, uint8_t is_rounded, hv_column *out,
                                       hv_error *error);
HV_EXPORT int32_t hv_float_to_integers(hv_column *floats, uint8_t to, hv_column *out, hv_error *error);
HV_EXPORT int32_t hv_float_combine(hv_column *left, uint8_t operator_, hv_column *right, hv_column *out,
                                   hv_error *error);

/* Reading many rows */
HV_EXPORT int32_t hv_read_u8(hv_column *column, size_t start, uint8_t *items, size_t len, hv_error *error);
HV_EXPORT int32_t hv_read_u16(hv_column *column, size_t start, uint16_t *items, size_t len, hv_error *error);
HV_EXPORT int32_t hv_read_u32(hv_column *column, size_t start, uint32_t *items, size_t len, hv_error *error);
HV_EXPORT int32_t hv_read_u64(hv_column *column, size_t start, uint64_t *items, size_t len, hv_error *error);
HV_EXPORT int32_t hv_read_i8(hv_column *column, size_t start, int8_t *items, size_t len, hv_error *error);
HV_EXPORT int32_t hv_read_i16(hv_column *column, size_t start, int16_t *items, size_t len, hv_error *error);
HV_EXPORT int32_t hv_read_i32(hv_column *column, size_t start, int32_t *items, size_t len, hv_error *error);
HV_EXPORT int32_t hv_read_i64(hv_column *column, size_t start, int64_t *items, size_t len, hv_error *error);
HV_EXPORT int32_t hv_read_decimals(hv_column *column, size_t start, hv_pair *pairs, size_t len, hv_error *error);
HV_EXPORT int32_t hv_read_bools(hv_column *column, uint64_t *words, size_t len, hv_error *error);
HV_EXPORT int32_t hv_read_validity(hv_column *column, uint64_t *words, size_t len, hv_error *error);
HV_EXPORT int32_t hv_read_bools_from(hv_column *column, size_t start, size_t rows, uint64_t *words, size_t len,
                                     hv_error *error);
HV_EXPORT int32_t hv_read_validity_from(hv_column *column, size_t start, size_t rows, uint64_t *words, size_t len,
                                        hv_error *error);
HV_EXPORT int32_t hv_read_offsets(hv_column *column, size_t start, int32_t *offsets, size_t len, hv_error *error);
HV_EXPORT int32_t hv_read_large_offsets(hv_column *column, size_t start, int64_t *offsets, size_t len, hv_error *error);
HV_EXPORT int32_t hv_read_bytes(hv_column *column, size_t start, size_t rows, uint8_t *bytes, size_t len,
                                hv_error *error);

/* Run columns */
HV_EXPORT int32_t hv_ends(hv_column *column, hv_column *out, hv_error *error);
HV_EXPORT int32_t hv_values(hv_column *column, hv_column *out, hv_error *error);
HV_EXPORT int32_t hv_run_count(hv_column *column, size_t *count, hv_error *error);
HV_EXPORT int32_t hv_run(hv_column *column, size_t run, size_t *start, size_t *stop, hv_value *value, uint8_t *text,
                         size_t text_len, hv_error *error);
HV_EXPORT int32_t hv_run_of(hv_column *column, size_t row, size_t *run, hv_error *error);
HV_EXPORT int32_t hv_read_ends_u64(hv_column *column, size_t first, uint64_t *stops, size_t len, hv_error *error);
HV_EXPORT int32_t hv_serialize(hv_column *column, uint8_t *bytes, size_t bytes_len, size_t *size, hv_error *error);
HV_EXPORT int32_t hv_deserialize(const hv_kind *kind, size_t count, const uint8_t *bytes, size_t bytes_len,
                                 hv_column *ends, hv_column *values, hv_column *out, hv_error *error);

/* Lists */
HV_EXPORT int32_t hv_list_elements(hv_column *column, hv_column *out, hv_error *error);
HV_EXPORT int32_t hv_list_offsets(hv_column *column, hv_column *out, hv_error *error);
HV_EXPORT int32_t hv_list_sizes(hv_column *column, hv_column *out, hv_error *error);
HV_EXPORT int32_t hv_list_validity(hv_column *column, hv_column *out, hv_error *error);

/* Encodings of any column, and of rows that come batch by batch */
HV_EXPORT int32_t hv_encode_rows(hv_column *column, hv_column *out, hv_error *error);
HV_EXPORT int32_t hv_builder_new(const hv_kind *kind, hv_builder *builder, hv_error *error);
HV_EXPORT int32_t hv_append(hv_builder *builder, hv_column *column, hv_error *error);
HV_EXPORT int32_t hv_append_value(hv_builder *builder, const hv_value *value, const uint8_t *text, size_t text_len,
                                  size_t count, hv_error *error);
HV_EXPORT int32_t hv_encoding(hv_builder *builder, hv_column *out, hv_error *error);
HV_EXPORT int32_t hv_finish(hv_builder *builder, hv_column *out, hv_error *error);
HV_EXPORT size_t hv_builder_rows(hv_builder *builder);
HV_EXPORT size_t hv_builder_runs(hv_builder *builder);
HV_EXPORT void hv_builder_free(hv_builder *builder);
HV_EXPORT int32_t hv_write_size(hv_column *column, size_t *size, hv_error *error);
HV_EXPORT int32_t hv_write(hv_column *column, uint8_t *bytes, size_t bytes_len, size_t *size, hv_error *error);
HV_EXPORT int32_t hv_read_column(const uint8_t *bytes, size_t bytes_len, hv_column *out, hv_error *error);
HV_EXPORT int32_t hv_is_message(const uint8_t *bytes, size_t bytes_len, uint8_t *truth, hv_error *error);

/* What the rows mean */
HV_EXPORT int32_t hv_with_type(hv_column *column, const uint8_t *format, size_t format_len, hv_column *out,
                               hv_error *error);
HV_EXPORT int32_t hv_type(hv_column *column, uint8_t *format, size_t format_len, size_t *size, hv_error *error);
HV_EXPORT void hv_free(hv_column *column);

#ifndef HV_EXPORTS_ALONE
#define hv_session_initial(...) hv_call_session_initial(__VA_ARGS__)
#define hv_u8(...) hv_call_u8(__VA_ARGS__)
#define hv_u16(...) hv_call_u16(__VA_ARGS__)
#define hv_u32(...) hv_call_u32(__VA_ARGS__)
#define hv_u64(...) hv_call_u64(__VA_ARGS__)
#define hv_i8(...) hv_call_i8(__VA_ARGS__)
#define hv_i16(...) hv_call_i16(__VA_ARGS__)
#define hv_i32(...) hv_call_i32(__VA_ARGS__)
#define hv_i64(...) hv_call_i64(__VA_ARGS__)
#define hv_bools(...) hv_call_bools(__VA_ARGS__)
#define hv_decimals(...) hv_call_decimals(__VA_ARGS__)
#define hv_texts(...) hv_call_texts(__VA_ARGS__)
#define hv_large_texts(...) hv_call_large_texts(__VA_ARGS__)
#define hv_constant(...) hv_call_constant(__VA_ARGS__)
#define hv_runs(...) hv_call_runs(__VA_ARGS__)
#define hv_lists(...) hv_call_lists(__VA_ARGS__)
#define hv_clone(...) hv_call_clone(__VA_ARGS__)
#define hv_compact(...) hv_call_compact(__VA_ARGS__)
#define hv_encode(...) hv_call_encode(__VA_ARGS__)
#define hv_decode(...) hv_call_decode(__VA_ARGS__)
#define hv_slice(...) hv_call_slice(__VA_ARGS__)
#define hv_cast(...) hv_call_cast(__VA_ARGS__)
#define hv_take(...) hv_call_take(__VA_ARGS__)
#define hv_filter(...) hv_call_filter(__VA_ARGS__)
#define hv_take_from(...) hv_call_take_from(__VA_ARGS__)
#define hv_compare(...) hv_call_compare(__VA_ARGS__)
#define hv_compare_scalar(...) hv_call_compare_scalar(__VA_ARGS__)
#define hv_compare_number(...) hv_call_compare_number(__VA_ARGS__)
#define hv_fill(...) hv_call_fill(__VA_ARGS__)
#define hv_combine(...) hv_call_combine(__VA_ARGS__)
#define hv_not(...) hv_call_not(__VA_ARGS__)
#define hv_is_null(...) hv_call_is_null(__VA_ARGS__)
#define hv_is_valid(...) hv_call_is_valid(__VA_ARGS__)
#define hv_if_else(...) hv_call_if_else(__VA_ARGS__)
#define hv_equals(...) hv_call_equals(__VA_ARGS__)
#define hv_hash(...) hv_call_hash(__VA_ARGS__)
#define hv_fold_by(...) hv_call_fold_by(__VA_ARGS__)
#define hv_running_totals(...) hv_call_running_totals(__VA_ARGS__)
#define hv_reverse(...) hv_call_reverse(__VA_ARGS__)
#define hv_sort(...) hv_call_sort(__VA_ARGS__)
#define hv_value_counts(...) hv_call_value_counts(__VA_ARGS__)
#define hv_sum(...) hv_call_sum(__VA_ARGS__)
#define hv_sum_parts(...) hv_call_sum_parts(__VA_ARGS__)
#define hv_is_constant(...) hv_call_is_constant(__VA_ARGS__)
#define hv_is_sorted(...) hv_call_is_sorted(__VA_ARGS__)
#define hv_extreme(...) hv_call_extreme(__VA_ARGS__)
#define hv_min_max(...) hv_call_min_max(__VA_ARGS__)
#define hv_at(...) hv_call_at(__VA_ARGS__)
#define hv_length(...) hv_call_length(__VA_ARGS__)
#define hv_null_count(...) hv_call_null_count(__VA_ARGS__)
#define hv_kind_of(...) hv_call_kind_of(__VA_ARGS__)
#define hv_form(...) hv_call_form(__VA_ARGS__)
#define hv_offset(...) hv_call_offset(__VA_ARGS__)
#define hv_bytes_used(...) hv_call_bytes_used(__VA_ARGS__)
#define hv_decimal_cast(...) hv_call_decimal_cast(__VA_ARGS__)
#define hv_decimal_to_integers(...) hv_call_decimal_to_integers(__VA_ARGS__)
#define hv_float_encode(...) hv_call_float_encode(__VA_ARGS__)
#define hv_float_decode(...) hv_call_float_decode(__VA_ARGS__)
#define hv_float_compare(...) hv_call_float_compare(__VA_ARGS__)
#define hv_float_cast(...) hv_call_float_cast(__VA_ARGS__)
#define hv_float_of_integers(...) hv_call_float_of_integers(__VA_ARGS__)
#define hv_float_to_integers(...) hv_call_float_to_integers(__VA_ARGS__)
#define hv_float_combine(...) hv_call_float_combine(__VA_ARGS__)
#define hv_read_u8(...) hv_call_read_u8(__VA_ARGS__)
#define hv_read_u16(...) hv_call_read_u16(__VA_ARGS__)
#define hv_read_u32(...) hv_call_read_u32(__VA_ARGS__)
#define hv_read_u64(...) hv_call_read_u64(__VA_ARGS__)
#define hv_read_i8(...) hv_call_read_i8(__VA_ARGS__)
#define hv_read_i16(...) hv_call_read_i16(__VA_ARGS__)
#define hv_read_i32(...) hv_call_read_i32(__VA_ARGS__)
#define hv_read_i64(...) hv_call_read_i64(__VA_ARGS__)
#define hv_read_decimals(...) hv_call_read_decimals(__VA_ARGS__)
#define hv_read_bools(...) hv_call_read_bools(__VA_ARGS__)
#define hv_read_validity(...) hv_call_read_validity(__VA_ARGS__)
#define hv_read_bools_from(...) hv_call_read_bools_from(__VA_ARGS__)
#define hv_read_validity_from(...) hv_call_read_validity_from(__VA_ARGS__)
#define hv_read_offsets(...) hv_call_read_offsets(__VA_ARGS__)
#define hv_read_large_offsets(...) hv_call_read_large_offsets(__VA_ARGS__)
#define hv_read_bytes(...) hv_call_read_bytes(__VA_ARGS__)
#define hv_ends(...) hv_call_ends(__VA_ARGS__)
#define hv_values(...) hv_call_values(__VA_ARGS__)
#define hv_run_count(...) hv_call_run_count(__VA_ARGS__)
#define hv_run(...) hv_call_run(__VA_ARGS__)
#define hv_run_of(...) hv_call_run_of(__VA_ARGS__)
#define hv_read_ends_u64(...) hv_call_read_ends_u64(__VA_ARGS__)
#define hv_serialize(...) hv_call_serialize(__VA_ARGS__)
#define hv_deserialize(...) hv_call_deserialize(__VA_ARGS__)
#define hv_list_elements(...) hv_call_list_elements(__VA_ARGS__)
#define hv_list_offsets(...) hv_call_list_offsets(__VA_ARGS__)
#define hv_list_sizes(...) hv_call_list_sizes(__VA_ARGS__)
#define hv_list_validity(...) hv_call_list_validity(__VA_ARGS__)
#define hv_encode_rows(...) hv_call_encode_rows(__VA_ARGS__)
#define hv_builder_new(...) hv_call_builder_new(__VA_ARGS__)
#define hv_append(...) hv_call_append(__VA_ARGS__)
#define hv_append_value(...) hv_call_append_value(__VA_ARGS__)
#define hv_encoding(...) hv_call_encoding(__VA_ARGS__)
#define hv_finish(...) hv_call_finish(__VA_ARGS__)
#define hv_builder_rows(...) hv_call_builder_rows(__VA_ARGS__)
#define hv_builder_runs(...) hv_call_builder_runs(__VA_ARGS__)
#define hv_builder_free(...) hv_call_builder_free(__VA_ARGS__)
#define hv_write_size(...) hv_call_write_size(__VA_ARGS__)
#define hv_write(...) hv_call_write(__VA_ARGS__)
#define hv_read_column(...) hv_call_read_column(__VA_ARGS__)
#define hv_is_message(...) hv_call_is_message(__VA_ARGS__)
#define hv_with_type(...) hv_call_with_type(__VA_ARGS__)
#define hv_type(...) hv_call_type(__VA_ARGS__)
#define hv_free(...) hv_call_free(__VA_ARGS__)
#endif
/* end of what tools/declarations.py makes */
#endif
