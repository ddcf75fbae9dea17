#include "logical_types.h"
#include "column_bytes.h"
#include "float_columns.h"
#include "run_parts.h"
#include "stretches.h"
#include <stdlib.h>
#include <string.h>

bool is_same_logical_type(const logical_type *one, const logical_type *other) {
    return one->len == other->len && one->stored == other->stored &&
           (one->len == 0 || memcmp(one->format, other->format, one->len) == 0);
}

/* ---- Formats ---- */

/* What is counted: points in time with a zone or without, times of a day, lengths of time; and in which unit. */
typedef enum time_sort { INSTANT, ZONED_INSTANT, TIME_OF_DAY, DURATION } time_sort;
typedef struct time_unit {
    time_sort sort;
    int64_t nanoseconds;
    uint8_t stored;
} time_unit;

/* The nanoseconds of a unit by its letter, or 0. */
static int64_t nanoseconds_of(uint8_t letter) {
    return letter == 's' ? 1000000000 : letter == 'm' ? 1000000 : letter == 'u' ? 1000 : letter == 'n';
}

/* Reads a format of times; false for any other name. */
static bool is_time_unit(const uint8_t *format, size_t len, time_unit *out) {
    if (len < 3 || format[0] != 't') return false;
    const int64_t nanoseconds = nanoseconds_of(format[2]);
    *out = (time_unit){INSTANT, nanoseconds, HV_I64};
    if (format[1] == 'd' && format[2] == 'D') *out = (time_unit){INSTANT, INT64_C(86400000000000), HV_I32};
    if (format[1] == 'd') return len == 3 && (format[2] == 'D' || format[2] == 'm');
    if (format[1] == 's' && len > 4) out->sort = ZONED_INSTANT;
    if (format[1] == 's') return nanoseconds && len > 3 && format[3] == ':';
    out->sort = format[1] == 't' ? TIME_OF_DAY : DURATION;
    if (out->sort == TIME_OF_DAY && nanoseconds >= 1000000) out->stored = HV_I32;
    return len == 3 && nanoseconds && (format[1] == 't' || format[1] == 'D');
}

int32_t logical_type_named(const uint8_t *format, size_t len, logical_type *out) {
    time_unit unit = {INSTANT, 1, HV_I64};
    if (len && !is_time_unit(format, len, &unit)) return NO_TIME_FORMAT;
    *out = (logical_type){format, len, unit.stored};
    return HV_OK;
}

/* ---- Numbers of another unit ---- */

__extension__ typedef __int128 wide;

/* Does a type of integers have a number? */
static bool is_in(uint8_t stored, wide number) {
    static const int bits[] = {8, 16, 32, 64, 7, 15, 31, 63};
    const wide above = (wide)1 << bits[stored];
    return number < above && number >= (stored < HV_I8 ? 0 : -above);
}

/* The values of runs counted in another unit, in place; PAST_LOGICAL_TYPE for the first that is none of the unit. */
static int32_t count_anew(const run_parts *runs, int64_t *numbers, time_unit from, time_unit to, hv_error *error) {
    for (size_t run = 0; run < runs->count; run++) {
        const wide length = (wide)numbers[run] * from.nanoseconds;
        if (!run_is_valid(runs, run)) continue;
        if (length % to.nanoseconds != 0 || !is_in(to.stored, length / to.nanoseconds)) {
            error->first = run ? runs->stops[run - 1] : 0;
            return PAST_LOGICAL_TYPE;
        }
        numbers[run] = (int64_t)(length / to.nanoseconds);
    }
    return HV_OK;
}

/* The runs of an encoding with other numbers, each another as before. */
static int32_t with_numbers(const hv_column *encoding, const run_parts *runs, const int64_t *numbers, hv_column *out,
                            hv_error *error) {
    const hv_validity validity = hv_valid_bits((const uint8_t *)runs->valid, 8 * runs->words, 0);
    hv_column ends = HV_EMPTY, values = HV_EMPTY;
    int32_t answer = hv_ends(encoding, &ends, error);
    if (!answer) answer = hv_i64(numbers, runs->count, validity, &values, error);
    if (!answer) answer = hv_runs(&ends, &values, 0, hv_length(encoding), out, error);
    hv_free(&ends), hv_free(&values);
    return answer;
}

/* From which unit to which numbers are counted. */
typedef struct unit_change {
    time_unit from, to;
} unit_change;

static int32_t recounted(const void *how, const hv_column *column, const hv_column *none, hv_column *out,
                         hv_error *error) {
    const unit_change *units = how;
    hv_column encoding = HV_EMPTY;
    run_parts runs = RUN_PARTS_EMPTY;
    int64_t *numbers = NULL;
    (void)none;
    int32_t answer = hv_encode_rows(column, &encoding, error);
    if (!answer) answer = run_parts_read(&encoding, &runs, error);
    if (!answer) answer = run_parts_numbers(&runs, &numbers, error);
    if (!answer) answer = count_anew(&runs, numbers, units->from, units->to, error);
    if (!answer) answer = with_numbers(&encoding, &runs, numbers, out, error);
    free(numbers);
    run_parts_free(&runs);
    hv_free(&encoding);
    return answer;
}

int32_t column_recount(const hv_column *column, const logical_type *from, const logical_type *to, hv_column *out,
                       hv_error *error) {
    unit_change units = {{INSTANT, 1, HV_I64}, {INSTANT, 1, HV_I64}};
    uint8_t is_null = 0;
    const uint8_t kind = hv_kind_of(column).number;
    int32_t answer = column_is_null_alone(column, &is_null, error);
    if (answer) return answer;
    if (!to->len || is_null) return is_float_type(kind) && !is_null ? HV_TYPE_MISMATCH : hv_clone(column, out, error);
    if (kind != HV_I64 || !is_time_unit(to->format, to->len, &units.to)) return HV_TYPE_MISMATCH;
    if (!from->len) units.from = units.to;
    else if (!is_time_unit(from->format, from->len, &units.from) || units.from.sort != units.to.sort)
        return HV_TYPE_MISMATCH;
    return made_by_stretches(column, NULL, recounted, &units, out, error);
}

static int32_t as_stored(const void *how, const hv_column *runs, const hv_column *none, hv_column *out,
                         hv_error *error) {
    const uint8_t stored = *(const uint8_t *)how;
    const unit_change units = {{INSTANT, 1, HV_I64}, {INSTANT, 1, stored}};
    const hv_kind kind = {stored, hv_kind_of(runs).nullable, 0, 0};
    hv_column numbers = HV_EMPTY;
    int32_t answer = recounted(&units, runs, none, &numbers, error);
    if (!answer) answer = column_cast(&numbers, &kind, out, error);
    hv_free(&numbers);
    return answer;
}

int32_t column_as_stored(const hv_column *runs, uint8_t stored, hv_column *out, hv_error *error) {
    return made_by_stretches(runs, NULL, as_stored, &stored, out, error);
}
