/* What the formats of columns say of their rows, as far as tables in C ask: which are floats, dates, times, timestamps
 * and durations. A part of hivevigil_table_file.h and _arrow.h, which include it. Nothing here is proved. */
#ifndef HIVEVIGIL_TABLE_FORMATS_H
#define HIVEVIGIL_TABLE_FORMATS_H
#include "hivevigil_table_errors.h"
#include "hivevigil_table_helpers.h"
#ifdef __cplusplus
extern "C" {
#endif

/* The format as a text of C: empty for one with a zero byte, which is none of Arrow. */
static inline const char *hv_table_format_in(const hv_table_text *format) {
    return strlen(format->at) == format->size ? format->at : "";
}

/* Does a format of Arrow say what integers mean: dates, times, timestamps, durations, or floats by their keys? */
static inline bool hv_table_is_logical_type(const char *format) {
    const char *units = "smun";
    if (!format || !format[0]) return false;
    if (!format[1]) return strchr("efg", format[0]) != NULL;
    if (format[0] != 't' || !format[2]) return false;
    if (format[1] == 'd') return (format[2] == 'D' || format[2] == 'm') && !format[3];
    if (!strchr(units, format[2])) return false;
    return format[1] == 's' ? format[3] == ':' : strchr("tD", format[1]) && !format[3];
}

/* ---- Floats by their keys ---- */

/* Are the rows of a column floats, by its format? Then the sum of none of them is a double. */
static inline int32_t hv_table_is_float(const hv_column *column, bool *truth, hv_error *error) {
    hv_total total = {0, 0, HV_NULL, 1, 0};
    hv_column none = HV_EMPTY;
    hv_session session;
    hv_session_initial(&session);
    int32_t answer = hv_slice(&session, column, 0, 0, &none, error);
    if (!answer) answer = hv_sum(&session, &none, &total, error);
    hv_free(&none);
    *truth = total.kind == HV_DOUBLE;
    return answer == HV_UNSUPPORTED ? HV_OK : answer;
}

/* The bits of infinity among floats of a width. */
static inline uint64_t hv_table_infinity(const hv_column *floats) {
    const uint8_t number = hv_kind_of(floats).number;
    return number == HV_I16 ? 0x7C00 : number == HV_I32 ? 0x7F800000 : 0x7FF0000000000000;
}

/* The bounds of floats, under their format, with the infinity on its side in place of a NaN: up to there numbers may
 * reach. No row where both are NaNs of one sign, between which no number is. */
static inline int32_t hv_table_number_bounds(const hv_column *bounds, hv_column *out, hv_error *error) {
    const int64_t infinity = (int64_t)hv_table_infinity(bounds);
    const hv_kind kind = hv_kind_of(bounds);
    const size_t count = hv_length(bounds);
    hv_column keys = HV_EMPTY, ends = HV_EMPTY;
    hv_builder builder = HV_EMPTY;
    hv_table_text format = HV_TABLE_NO_TEXT;
    hv_value found[2] = {{0, 0, HV_NULL, 0, 0}, {0, 0, HV_NULL, 0, 0}};
    int32_t answer = hv_builder_new(&kind, &builder, error);
    if (!answer) answer = hv_table_format_of(bounds, &format, error);
    if (!answer) answer = hv_with_type(bounds, NULL, 0, &keys, error);
    for (size_t row = 0; !answer && row < count; row++) answer = hv_at(&keys, row, &found[row], NULL, 0, error);
    const bool is_any = count && found[0].as_signed <= infinity && found[1].as_signed >= -1 - infinity;
    for (size_t row = 0; is_any && !answer && row < count; row++) {
        if (found[row].as_signed > infinity) found[row].as_signed = infinity;
        if (found[row].as_signed < -1 - infinity) found[row].as_signed = -1 - infinity;
        answer = hv_append_value(&builder, &found[row], NULL, 0, 1, error);
    }
    if (!answer) answer = hv_finish(&builder, &ends, error);
    if (!answer) answer = hv_with_type(&ends, (const uint8_t *)format.at, format.size, out, error);
    free(format.at);
    hv_free(&keys);
    hv_free(&ends);
    hv_builder_free(&builder);
    return answer;
}

#ifdef __cplusplus
}
#endif
#endif
