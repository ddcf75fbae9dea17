#include "float_total.h"
#include "column_bytes.h"
#include "float_columns.h"
#include "run_parts.h"
#include "stretches.h"
#include <stdlib.h>

__extension__ typedef unsigned __int128 wide;

static const uint64_t minus_zero = (uint64_t)1 << 63, infinity = (uint64_t)0x7FF << 52;
static const uint64_t not_a_number = (uint64_t)0x7FF8 << 48;

/* Adds a number of units that is shifted by whole limbs, or subtracts it. */
static void add_units(uint64_t *limbs, const uint64_t *units, size_t count, size_t from, bool is_negative) {
    uint64_t carry = is_negative;
    for (size_t i = from; i < FLOAT_LIMBS; i++) {
        const uint64_t unit = i - from < count ? units[i - from] : 0;
        const wide sum = (wide)limbs[i] + (is_negative ? ~unit : unit) + carry;
        limbs[i] = (uint64_t)sum;
        carry = (uint64_t)(sum >> 64);
        if (i - from >= count && carry == is_negative) break; /* what comes after stays */
    }
}

/* Adds `rows` rows of a finite float. */
static void add_finite(float_total *total, uint64_t bits, uint64_t rows) {
    const uint64_t exponent = bits >> 52 & 0x7FF, fraction = bits << 12 >> 12;
    const uint64_t units = exponent ? fraction | (uint64_t)1 << 52 : fraction, places = exponent ? exponent - 1 : 0;
    const wide all = (wide)units * rows;
    const unsigned shift = places % 64;
    const uint64_t low = (uint64_t)all, high = (uint64_t)(all >> 64);
    const uint64_t limbs[3] = {low << shift, high << shift | (shift ? low >> (64 - shift) : 0),
                               shift ? high >> (64 - shift) : 0};
    add_units(total->limbs, limbs, 3, places / 64, bits >> 63);
}

static void add_rows(float_total *total, uint64_t bits, uint64_t rows) {
    const uint64_t size = bits << 1 >> 1;
    if (rows == 0) return;
    total->any = true;
    if (bits != minus_zero) total->not_minus_zero = true;
    if (size > infinity) total->nan = true;
    else if (bits == infinity) total->plus_infinity = true;
    else if (size == infinity) total->minus_infinity = true;
    else add_finite(total, bits, rows);
}

static void add_runs(float_total *total, const run_parts *runs, const uint64_t *bits) {
    uint64_t start = 0;
    for (size_t run = 0; run < runs->count; run++) {
        if (run_is_valid(runs, run)) add_rows(total, bits[run], runs->stops[run] - start);
        start = runs->stops[run];
    }
}

static int32_t add_part(void *total, const hv_column *part, uint64_t start, hv_error *error) {
    run_parts runs = RUN_PARTS_EMPTY;
    hv_column wide_column = HV_EMPTY;
    uint64_t *bits = NULL;
    (void)start;
    int32_t answer = float_column_widened(part, &wide_column, error);
    if (!answer) answer = run_parts_read(&wide_column, &runs, error);
    if (!answer) bits = calloc(runs.count + 1, sizeof *bits);
    if (!answer) answer = bits ? hv_read_u64(&runs.values, 0, bits, runs.count, error) : HV_OUT_OF_MEMORY;
    if (!answer) add_runs(total, &runs, bits);
    free(bits);
    hv_free(&wide_column);
    run_parts_free(&runs);
    return answer;
}

int32_t float_total_add(float_total *total, const hv_column *column, hv_error *error) {
    float_total made = *total;
    uint8_t is_null = 0;
    int32_t answer = HV_OK;
    if (!is_float_type(hv_kind_of(column).number)) {
        answer = column_is_null_alone(column, &is_null, error);
        return answer || is_null ? answer : HV_TYPE_MISMATCH;
    }
    answer = look_by_stretches(column, add_part, &made, error);
    if (!answer) *total = made;
    return answer;
}

void float_total_join(float_total *total, const float_total *other) {
    add_units(total->limbs, other->limbs, FLOAT_LIMBS, 0, false);
    total->any |= other->any;
    total->nan |= other->nan;
    total->plus_infinity |= other->plus_infinity;
    total->minus_infinity |= other->minus_infinity;
    total->not_minus_zero |= other->not_minus_zero;
}

/* Is the bit of a number one? */
static bool bit_of(const uint64_t *limbs, size_t bit) { return limbs[bit / 64] >> bit % 64 & 1; }

/* Is a bit below this one? */
static bool any_below(const uint64_t *limbs, size_t bit) {
    for (size_t i = 0; i < bit / 64; i++)
        if (limbs[i]) return true;
    return bit % 64 && limbs[bit / 64] << (64 - bit % 64);
}

/* The nearest float to a number of units that is not negative, at a tie the even one. */
static uint64_t rounded(const uint64_t *limbs) {
    size_t top = 64 * FLOAT_LIMBS;
    while (top && !bit_of(limbs, top - 1)) top--;
    if (top <= 53) return limbs[0]; /* units are their own bits up to the first binade */
    const size_t places = top - 53;
    uint64_t digits = limbs[places / 64] >> places % 64;
    if (places % 64) digits |= limbs[places / 64 + 1] << (64 - places % 64);
    digits = digits << 11 >> 11;
    const bool is_up = bit_of(limbs, places - 1) && (digits & 1 || any_below(limbs, places - 1));
    const uint64_t bits = ((uint64_t)places << 52) + digits + is_up; /* the leading 1 adds 1 to the exponent */
    return places >= 0x7FF || bits > infinity ? infinity : bits;
}

static uint64_t finite_bits(const float_total *total) {
    float_total size = {{0}, false, false, false, false, false};
    const bool is_negative = total->limbs[FLOAT_LIMBS - 1] >> 63;
    add_units(size.limbs, total->limbs, FLOAT_LIMBS, 0, is_negative);
    return (is_negative ? minus_zero : 0) | rounded(size.limbs);
}

uint64_t float_total_bits(const float_total *total) {
    if (total->nan || (total->plus_infinity && total->minus_infinity)) return not_a_number;
    if (total->plus_infinity) return infinity;
    if (total->minus_infinity) return minus_zero | infinity;
    return total->any && !total->not_minus_zero ? minus_zero : finite_bits(total);
}

bool float_total_overflows(const float_total *total) {
    const bool is_finite = !total->nan && !total->plus_infinity && !total->minus_infinity;
    return is_finite && finite_bits(total) << 1 >> 1 == infinity;
}
