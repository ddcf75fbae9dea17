#include "wide_sum.h"
#include "column_bytes.h"
#include "run_parts.h"
#include "stretches.h"
#include <stdlib.h>

__extension__ typedef __int128 wide;

/* Adds with a carry, which is returned. */
static uint64_t add_limb(uint64_t *to, uint64_t limb, uint64_t carry) {
    const uint64_t sum = *to + limb, all = sum + carry;
    *to = all;
    return (sum < limb) + (all < carry);
}

static void add_wide(wide_sum *sum, wide number) {
    const uint64_t sign = number < 0 ? UINT64_MAX : 0;
    uint64_t carry = add_limb(&sum->limbs[0], (uint64_t)number, 0);
    carry = add_limb(&sum->limbs[1], (uint64_t)(number >> 64), carry);
    add_limb(&sum->limbs[2], sign, carry);
}

static void add_runs(wide_sum *sum, const run_parts *runs, const int64_t *numbers) {
    uint64_t start = 0;
    for (size_t run = 0; run < runs->count; run++) {
        const uint64_t rows = runs->stops[run] - start;
        start = runs->stops[run];
        if (!run_is_valid(runs, run)) continue;
        add_wide(sum, (wide)numbers[run] * (wide)rows);
        sum->any |= rows > 0;
    }
}

static int32_t add_part(void *sum, const hv_column *part, uint64_t start, hv_error *error) {
    run_parts runs = RUN_PARTS_EMPTY;
    int64_t *numbers = NULL;
    (void)start;
    int32_t answer = run_parts_read(part, &runs, error);
    if (!answer) answer = run_parts_numbers(&runs, &numbers, error);
    if (!answer) add_runs(sum, &runs, numbers);
    free(numbers);
    run_parts_free(&runs);
    return answer;
}

int32_t wide_sum_add(wide_sum *sum, const hv_column *column, hv_error *error) {
    wide_sum made = *sum;
    uint8_t is_null = 0;
    int32_t answer = HV_OK;
    if (hv_kind_of(column).number != HV_I64) {
        answer = column_is_null_alone(column, &is_null, error);
        return answer || is_null ? answer : HV_TYPE_MISMATCH;
    }
    answer = look_by_stretches(column, add_part, &made, error);
    if (!answer) *sum = made;
    return answer;
}

bool wide_sum_number(const wide_sum *sum, int64_t *number) {
    const uint64_t sign = sum->limbs[0] >> 63 ? UINT64_MAX : 0;
    *number = (int64_t)sum->limbs[0];
    return sum->limbs[1] == sign && sum->limbs[2] == sign;
}

hv_pair wide_sum_pair(const wide_sum *sum) { return (hv_pair){sum->limbs[0], (int64_t)sum->limbs[1]}; }
