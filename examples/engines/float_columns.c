#include "float_columns.h"
#include "hivevigil_helpers.h"
#include "stretches.h"
#include <stdlib.h>
#include <string.h>

static const char line_start[] = "hivevigil type 1 ";

const uint8_t *float_format(uint8_t number) { return (const uint8_t *)(number == HV_U32 ? "f" : "g"); }

uint8_t float_keys_of(const uint8_t *format, size_t len) {
    static const char letters[] = "efg";
    static const uint8_t keys[] = {HV_I16, HV_I32, HV_I64};
    const char *letter = len == 1 && *format ? strchr(letters, *format) : NULL;
    return letter ? keys[letter - letters] : HV_LIST;
}

uint8_t float_line_read(const uint8_t *bytes, size_t size) {
    const size_t start = sizeof line_start - 1;
    if (size < FLOAT_LINE || memcmp(bytes, line_start, start) != 0 || bytes[start + 1] != '\n') return HV_LIST;
    return float_keys_of(bytes + start, 1);
}

size_t float_line_of(const uint8_t *bytes, size_t size, uint8_t line[FLOAT_LINE]) {
    /* version 2, a name of one letter, and the length of the message of the keys in some bytes */
    static const uint8_t front[] = {0x08, 2, 0xb2, 1, 1}, key[] = {0xba, 1};
    size_t start = sizeof front + 1 + sizeof key;
    if (size <= start || memcmp(bytes, front, sizeof front) != 0 || memcmp(bytes + start - 2, key, 2) != 0) return 0;
    while (start < size && bytes[start++] > 127) continue;
    memcpy(line, line_start, sizeof line_start - 1);
    line[FLOAT_LINE - 2] = bytes[sizeof front], line[FLOAT_LINE - 1] = '\n';
    return start;
}

uint64_t bits_of_float(double number) {
    uint64_t bits;
    memcpy(&bits, &number, sizeof bits);
    return bits;
}

double float_of_bits(uint64_t bits) {
    double number;
    memcpy(&number, &bits, sizeof number);
    return number;
}

/* ---- The values of runs, each made another ---- */

typedef uint64_t convert(uint64_t bits);

static int32_t read_words(const hv_column *values, uint64_t *words, size_t count, hv_error *error) {
    const uint8_t number = hv_kind_of(values).number;
    if (number == HV_U64) return hv_read_u64(values, 0, words, count, error);
    uint32_t *narrow = calloc(count + 1, sizeof *narrow);
    uint16_t *least = calloc(count + 1, sizeof *least);
    int32_t answer = narrow && least ? HV_OK : HV_OUT_OF_MEMORY;
    if (!answer && number == HV_U32) answer = hv_read_u32(values, 0, narrow, count, error);
    if (!answer && number == HV_U16) answer = hv_read_u16(values, 0, least, count, error);
    for (size_t i = 0; !answer && i < count; i++) words[i] = number == HV_U32 ? narrow[i] : least[i];
    free(narrow), free(least);
    return answer;
}

/* The flat words that a function makes of flat ones, as a column of u64, or of i64 where they are keys. */
static int32_t converted_values(const hv_column *values, convert *by, bool to_keys, hv_column *out, hv_error *error) {
    const size_t count = hv_length(values), bytes = (count + 63) / 64 * 8;
    uint64_t *words = calloc(count + 1, sizeof *words), *valid = calloc(bytes + 8, 1);
    int32_t answer = words && valid ? HV_OK : HV_OUT_OF_MEMORY;
    if (!answer) answer = read_words(values, words, count, error);
    if (!answer) answer = hv_read_validity(values, valid, bytes / 8, error);
    for (size_t i = 0; !answer && i < count; i++) words[i] = by(words[i]);
    const hv_validity validity = hv_valid_bits((const uint8_t *)valid, bytes, 0);
    if (!answer && to_keys) answer = hv_i64((const int64_t *)words, count, validity, out, error);
    else if (!answer) answer = hv_u64(words, count, validity, out, error);
    free(words), free(valid);
    return answer;
}

/* The same of values in any form; without a function they are keys, which become bits. */
static int32_t converted_rows(const hv_column *values, convert *by, bool to_keys, hv_column *out, hv_error *error) {
    hv_column flat = HV_EMPTY;
    hv_session session;
    hv_session_initial(&session);
    if (!by) return hv_float_decode(values, out, error);
    int32_t answer = hv_decode(&session, values, &flat, error);
    if (!answer) answer = converted_values(&flat, by, to_keys, out, error);
    hv_free(&flat);
    return answer;
}

/* The same of a column, of which runs have only their values made others. */
static int32_t converted(const hv_column *column, convert *by, bool to_keys, hv_column *out, hv_error *error) {
    hv_column encoding = HV_EMPTY, ends = HV_EMPTY, values = HV_EMPTY, made = HV_EMPTY;
    int32_t answer = HV_OK;
    if (hv_form(column) == HV_FORM_FLAT) return converted_rows(column, by, to_keys, out, error);
    if (hv_form(column) != HV_FORM_RUNS) answer = hv_encode_rows(column, &encoding, error), column = &encoding;
    if (!answer) answer = hv_ends(column, &ends, error);
    if (!answer) answer = hv_values(column, &values, error);
    if (!answer) answer = converted_rows(&values, by, to_keys, &made, error);
    if (!answer) answer = hv_runs(&ends, &made, hv_offset(column), hv_length(column), out, error);
    hv_column *const all[] = {&encoding, &ends, &values, &made};
    for (size_t i = 0; i < sizeof all / sizeof *all; i++) hv_free(all[i]);
    return answer;
}

/* The key of a float of 64 bits, as hv_float_encode has it, without looking for runs. */
static uint64_t key_of(uint64_t bits) { return bits >> 63 ? ~(bits << 1 >> 1) : bits; }

/* A float with this many bits of exponent and of fraction as one of 64. */
static uint64_t widened(uint64_t bits, int exponents, int fractions) {
    const uint64_t sign = bits >> (exponents + fractions) << 63, most = ((uint64_t)1 << exponents) - 1;
    uint64_t exponent = bits >> fractions & most, fraction = bits << (64 - fractions) >> 12;
    if (exponent == most) return sign | (uint64_t)0x7FF << 52 | fraction;
    if (exponent == 0 && fraction == 0) return sign;
    const uint64_t bias = 1023 - (most >> 1);
    if (exponent != 0) return sign | (exponent + bias) << 52 | fraction;
    uint64_t places = 0; /* below the least number with a leading 1 */
    for (; !(fraction >> 52); places++) fraction <<= 1;
    return sign | (bias + 1 - places) << 52 | (fraction & (((uint64_t)1 << 52) - 1));
}

static uint64_t widened_16(uint64_t bits) { return widened(bits, 5, 10); }
static uint64_t widened_32(uint64_t bits) { return widened(bits, 8, 23); }

int32_t float_column_widened(const hv_column *column, hv_column *out, hv_error *error) {
    return hv_kind_of(column).number == HV_U32 ? converted(column, widened_32, false, out, error)
                                               : hv_clone(column, out, error);
}

int32_t float_column_of_keys(const hv_column *column, uint8_t keys, hv_column *out, hv_error *error) {
    hv_column bits = HV_EMPTY;
    if (hv_kind_of(column).number != keys) return HV_BAD_METADATA;
    int32_t answer = converted(column, NULL, false, &bits, error);
    if (!answer && keys == HV_I16) answer = converted(&bits, widened_16, false, out, error);
    else if (!answer) hv_put(out, &bits);
    hv_free(&bits);
    return answer;
}

static int32_t canonical(const void *how, const hv_column *column, const hv_column *none, hv_column *out,
                         hv_error *error) {
    hv_column keys = HV_EMPTY;
    (void)how, (void)none;
    int32_t answer = hv_float_encode(column, 1, &keys, error);
    if (!answer) answer = converted(&keys, NULL, false, out, error);
    hv_free(&keys);
    return answer;
}

int32_t float_column_canonical(const hv_column *column, hv_column *out, hv_error *error) {
    return made_by_stretches(column, NULL, canonical, NULL, out, error);
}

/* ---- Comparisons ---- */

float_question float_question_of(uint8_t operator_, int64_t number) {
    const double nearest = (double)number;
    float_question asked = {nearest, operator_};
    /* 2^63 is past all integers */
    const bool above = nearest >= 0x1p63 || (int64_t)nearest > number;
    if (!above && (int64_t)nearest == number) return asked;
    if (operator_ == HV_EQ || operator_ == HV_NE) asked.number = float_of_bits((uint64_t)0x7FF8 << 48);
    else if (operator_ == HV_GT || operator_ == HV_GE) asked.operator_ = above ? HV_GE : HV_GT;
    else asked.operator_ = above ? HV_LT : HV_LE;
    return asked;
}

/* The key of a number, one for both zeros, with each NaN above or below all. */
static uint64_t place(uint64_t bits, int64_t of_nan) {
    const uint64_t size = bits << 1 >> 1;
    if (size > (uint64_t)0x7FF << 52) return (uint64_t)of_nan;
    return size ? key_of(bits) : 0;
}

static uint64_t place_above(uint64_t bits) { return place(bits, INT64_MAX); }
static uint64_t place_below(uint64_t bits) { return place(bits, INT64_MIN); }

int32_t float_mask(const hv_column *column, float_question asked, nan_order nans, hv_column *out, hv_error *error) {
    hv_column wide = HV_EMPTY, keys = HV_EMPTY;
    const bool sorted = nans == NAN_GREATEST;
    uint64_t bits = bits_of_float(asked.number);
    if (asked.number == 0) bits = 0;
    if (asked.number != asked.number) bits = INT64_MAX; /* the NaN that is above all */
    int32_t answer = float_column_widened(column, &wide, error);
    if (!answer) answer = converted(&wide, sorted ? place_above : key_of, true, &keys, error);
    if (!answer) answer = hv_float_compare(&keys, asked.operator_, bits, !sorted, out, error);
    hv_free(&wide), hv_free(&keys);
    return answer;
}

/* Unordered NaNs are on that side of all other rows on which nothing holds but that they are unequal. */
int32_t float_columns_mask(const hv_column *left, uint8_t operator_, const hv_column *right, nan_order nans,
                           hv_column *out, hv_error *error) {
    hv_column sides[2] = {HV_EMPTY, HV_EMPTY}, places[2] = {HV_EMPTY, HV_EMPTY};
    const bool is_above = operator_ == HV_GT || operator_ == HV_GE, sorted = nans == NAN_GREATEST;
    convert *const of_left = sorted || !is_above ? place_above : place_below;
    convert *const of_right = sorted || is_above ? place_above : place_below;
    int32_t answer = float_column_widened(left, &sides[0], error);
    if (!answer) answer = float_column_widened(right, &sides[1], error);
    if (!answer) answer = converted(&sides[0], of_left, true, &places[0], error);
    if (!answer) answer = converted(&sides[1], of_right, true, &places[1], error);
    if (!answer) answer = hv_combine(&places[0], operator_, &places[1], out, error);
    for (int i = 0; i < 2; i++) hv_free(&sides[i]), hv_free(&places[i]);
    return answer;
}

/* ---- Extremes and sums ---- */

static bool is_nan_of(uint8_t keys, uint64_t bits) {
    return keys == HV_I32 ? (bits & 0x7FFFFFFF) > 0x7F800000 : bits << 1 > (uint64_t)0x7FF << 53;
}

/* The keys under the format of their floats. */
static int32_t typed_keys(const hv_column *keys, hv_column *out, hv_error *error) {
    return hv_with_type(keys, float_format(hv_kind_of(keys).number == HV_I32 ? HV_U32 : HV_U64), 1, out, error);
}

/* The bits, in the width of the keys, of what the library answers: of a number, or in the total order of a key. */
static uint64_t bits_of_answer(uint8_t keys, const hv_value *answered) {
    const uint64_t sign = (uint64_t)1 << (keys == HV_I32 ? 31 : 63);
    const float narrow = (float)float_of_bits(answered->as_unsigned);
    uint32_t bits;
    if (answered->kind == HV_SIGNED)
        return answered->as_signed < 0 ? (uint64_t)(-1 - answered->as_signed) | sign : (uint64_t)answered->as_signed;
    memcpy(&bits, &narrow, sizeof bits);
    return keys == HV_I32 ? bits : answered->as_unsigned;
}

/* The extremes of a column of keys: of numbers under the format of floats, of all in the total order without one. */
static int32_t answered_extremes(const hv_column *column, float_extremes *found, hv_error *error) {
    const uint8_t number = hv_kind_of(column).number;
    hv_value least, greatest;
    hv_session session;
    hv_session_initial(&session);
    const int32_t answer = hv_min_max(&session, column, &least, NULL, 0, &greatest, NULL, 0, error);
    *found = (float_extremes){false, 0, 0};
    if (!answer && least.kind != HV_NULL)
        *found = (float_extremes){true, bits_of_answer(number, &least), bits_of_answer(number, &greatest)};
    return answer;
}

/* The same of keys. In the total order NaNs are outside of all numbers, so one at an end says whether there are any. */
static int32_t extremes_of_keys(const hv_column *keys, nan_order nans, float_extremes *found, hv_error *error) {
    const uint8_t number = hv_kind_of(keys).number;
    hv_column floats = HV_EMPTY;
    int32_t answer = answered_extremes(keys, found, error);
    const uint64_t first = found->least, last = found->greatest;
    if (answer || !found->found || (!is_nan_of(number, first) && !is_nan_of(number, last))) return answer;
    answer = typed_keys(keys, &floats, error);
    if (!answer) answer = answered_extremes(&floats, found, error);
    if (nans == NAN_GREATEST) found->greatest = is_nan_of(number, last) ? last : first;
    if (!found->found) found->least = found->greatest;
    found->found |= nans == NAN_GREATEST;
    hv_free(&floats);
    return answer;
}

/* The keys in the width of the floats. */
static int32_t keys_of(const hv_column *column, hv_column *out, hv_error *error) {
    return hv_kind_of(column).number == HV_U64 ? converted(column, key_of, true, out, error)
                                               : hv_float_encode(column, 0, out, error);
}

/* The same of a column of one stretch. */
static int32_t extremes_of_part(const hv_column *part, nan_order nans, float_extremes *found, hv_error *error) {
    hv_column keys = HV_EMPTY;
    int32_t answer = keys_of(part, &keys, error);
    if (!answer) answer = extremes_of_keys(&keys, nans, found, error);
    hv_free(&keys);
    return answer;
}

/* The extremes of stretches, whose extremes are those of all. */
typedef struct part_extremes {
    nan_order nans;
    hv_builder of_parts;
} part_extremes;

static int32_t add_extremes(void *given, const hv_column *part, uint64_t start, hv_error *error) {
    part_extremes *at = given;
    float_extremes found = {false, 0, 0};
    int32_t answer = extremes_of_part(part, at->nans, &found, error);
    const hv_value least = {.kind = HV_UNSIGNED, .as_unsigned = found.least};
    const hv_value greatest = {.kind = HV_UNSIGNED, .as_unsigned = found.greatest};
    (void)start;
    if (!answer && found.found) answer = hv_append_value(&at->of_parts, &least, NULL, 0, 1, error);
    if (!answer && found.found) answer = hv_append_value(&at->of_parts, &greatest, NULL, 0, 1, error);
    return answer;
}

int32_t float_column_extremes(const hv_column *column, nan_order nans, float_extremes *found, hv_error *error) {
    part_extremes at = {nans, HV_EMPTY};
    const hv_kind kind = hv_kind_of(column);
    hv_column few = HV_EMPTY;
    if (!is_long(column)) return extremes_of_part(column, nans, found, error);
    int32_t answer = hv_builder_new(&kind, &at.of_parts, error);
    if (!answer) answer = look_by_stretches(column, add_extremes, &at, error);
    if (!answer) answer = hv_finish(&at.of_parts, &few, error);
    if (!answer) answer = extremes_of_part(&few, nans, found, error);
    hv_builder_free(&at.of_parts), hv_free(&few);
    return answer;
}

/* The keys of a sum, which are of 64 bits. */
static int32_t wide_keys(const hv_column *column, hv_column *out, hv_error *error) {
    hv_column wide = HV_EMPTY;
    int32_t answer = float_column_widened(column, &wide, error);
    if (!answer) answer = keys_of(&wide, out, error);
    hv_free(&wide);
    return answer;
}

/* Is a sum infinite, and no row? */
static int32_t overflows(const hv_column *keys, uint64_t sum, bool *answer_is, hv_error *error) {
    float_extremes found = {false, 0, 0};
    int32_t answer = HV_OK;
    *answer_is = sum << 1 == (uint64_t)0x7FF << 53;
    if (*answer_is) answer = extremes_of_keys(keys, NAN_UNORDERED, &found, error);
    if (found.least == sum || found.greatest == sum) *answer_is = false;
    return answer;
}

static int32_t sum_of_keys(const hv_column *keys, nan_order nans, uint64_t *count, uint64_t *bits, hv_error *error) {
    bool is_past = false;
    hv_column floats = HV_EMPTY;
    hv_session session;
    hv_total total = {0, 0, HV_NULL, 1, 0};
    hv_session_initial(&session);
    int32_t answer = typed_keys(keys, &floats, error);
    if (!answer) answer = hv_sum(&session, &floats, &total, error);
    *count = hv_length(keys) - hv_null_count(keys);
    *bits = total.as_unsigned;
    hv_free(&floats);
    if (!answer && nans == NAN_GREATEST) answer = overflows(keys, *bits, &is_past, error);
    return !answer && is_past ? HV_CAST_OUT_OF_RANGE : answer;
}

int32_t float_column_sum(const hv_column *column, nan_order nans, uint64_t *count, uint64_t *bits, hv_error *error) {
    hv_column keys = HV_EMPTY;
    int32_t answer = wide_keys(column, &keys, error);
    if (!answer) answer = sum_of_keys(&keys, nans, count, bits, error);
    hv_free(&keys);
    return answer;
}

/* ---- Groups ---- */

/* What a fold answers of the floats of one group; false where all are null. */
static int32_t fold_group(const hv_column *keys, uint8_t fold, nan_order nans, bool *valid, uint64_t *bits,
                          hv_error *error) {
    float_extremes found = {false, 0, 0};
    uint64_t count = 0;
    int32_t answer;
    if (fold == HV_FOLD_SUM) {
        answer = sum_of_keys(keys, nans, &count, bits, error);
        *valid = count > 0;
    } else {
        answer = extremes_of_keys(keys, nans, &found, error);
        *valid = found.found;
        *bits = fold == HV_FOLD_LEAST ? found.least : found.greatest;
    }
    return answer;
}

/* The answers of groups of as many rows as `rows` says, in the width of the keys. */
static int32_t fold_groups(const hv_column *keys, const uint64_t *rows, size_t count, uint8_t fold, nan_order nans,
                           hv_column *out, hv_error *error) {
    const size_t bytes = (count + 7) / 8;
    uint64_t *wide = calloc(count + 1, sizeof *wide);
    uint32_t *narrow = calloc(count + 1, sizeof *narrow);
    uint8_t *valid = calloc(bytes + 1, 1);
    hv_session session;
    hv_session_initial(&session);
    int32_t answer = wide && narrow && valid ? HV_OK : HV_OUT_OF_MEMORY;
    for (size_t group = 0, start = 0; !answer && group < count; start += rows[group], group++) {
        hv_column part = HV_EMPTY;
        bool is_valid = false;
        answer = hv_slice(&session, keys, start, start + rows[group], &part, error);
        if (!answer) answer = fold_group(&part, fold, nans, &is_valid, &wide[group], error);
        if (answer == HV_CAST_OUT_OF_RANGE) error->first = group;
        if (!answer && is_valid) valid[group / 8] |= (uint8_t)(1 << group % 8);
        narrow[group] = (uint32_t)wide[group];
        if (!answer && is_interrupted()) answer = INTERRUPTED;
        hv_free(&part);
    }
    const hv_validity validity = hv_valid_bits(valid, bytes, 0);
    if (!answer && hv_kind_of(keys).number == HV_I32) answer = hv_u32(narrow, count, validity, out, error);
    else if (!answer) answer = hv_u64(wide, count, validity, out, error);
    free(wide), free(narrow), free(valid);
    return answer;
}

int32_t column_fold_by(const hv_column *keys, const hv_column *values, uint8_t fold, nan_order nans,
                       hv_column *out_keys, hv_column *out_answers, hv_error *error) {
    const bool is_number = fold == HV_FOLD_SUM || fold == HV_FOLD_LEAST || fold == HV_FOLD_GREATEST;
    if (!is_float_type(hv_kind_of(values).number) || !is_number)
        return hv_fold_by(keys, values, fold, out_keys, out_answers, error);
    hv_column counts = HV_EMPTY, floats = HV_EMPTY;
    uint64_t *rows = NULL;
    int32_t answer = hv_fold_by(keys, values, HV_FOLD_ROWS, out_keys, &counts, error);
    const size_t count = answer ? 0 : hv_length(&counts);
    if (!answer) answer = fold == HV_FOLD_SUM ? wide_keys(values, &floats, error) : keys_of(values, &floats, error);
    if (!answer) rows = calloc(count + 1, sizeof *rows);
    if (!answer) answer = rows ? hv_read_u64(&counts, 0, rows, count, error) : HV_OUT_OF_MEMORY;
    if (!answer) answer = fold_groups(&floats, rows, count, fold, nans, out_answers, error);
    free(rows);
    hv_free(&counts), hv_free(&floats);
    return answer;
}
