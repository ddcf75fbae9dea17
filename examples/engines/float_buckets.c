#include "float_buckets.h"
#include "float_columns.h"
#include "hivevigil_helpers.h"
#include "stretches.h"
#include <math.h>

/* Division rounds, so that the bucket before or after may be the one. */
static double bucket_of(double number, float_grid grid) {
    const double place = floor((number - grid.origin) / grid.width);
    const double begin = fma(place, grid.width, grid.origin), after = fma(place + 1, grid.width, grid.origin);
    if (begin > number) return fma(place - 1, grid.width, grid.origin) + 0.0; /* no -0.0 */
    return (after <= number ? after : begin) + 0.0;
}

/* Appends the buckets of a run. */
static int32_t add_run(hv_builder *builder, const hv_column *runs, size_t run, float_grid grid, hv_error *error) {
    size_t start = 0, stop = 0;
    hv_value value;
    const int32_t answer = hv_run(runs, run, &start, &stop, &value, NULL, 0, error);
    const double number = answer || value.kind == HV_NULL ? 0 : float_of_bits(value.as_unsigned);
    if (answer) return answer;
    if (value.kind != HV_NULL && isfinite(number)) {
        const double bucket = bucket_of(number, grid);
        *error = (hv_error){start, 0, 0};
        if (!isfinite(bucket)) return HV_CAST_OUT_OF_RANGE;
        value.as_unsigned = bits_of_float(bucket);
    }
    return hv_append_value(builder, &value, NULL, 0, stop - start, error);
}

static int32_t buckets_of(const void *how, const hv_column *column, const hv_column *none, hv_column *out,
                          hv_error *error) {
    const float_grid grid = *(const float_grid *)how;
    const hv_kind kind = {HV_U64, 1, 0, 0};
    hv_column runs = HV_EMPTY;
    hv_builder builder = HV_EMPTY;
    size_t count = 0;
    (void)none;
    int32_t answer = hv_encode_rows(column, &runs, error);
    if (!answer) answer = hv_run_count(&runs, &count, error);
    if (!answer) answer = hv_builder_new(&kind, &builder, error);
    for (size_t run = 0; !answer && run < count; run++) answer = add_run(&builder, &runs, run, grid, error);
    if (!answer) answer = hv_finish(&builder, out, error);
    hv_builder_free(&builder);
    hv_free(&runs);
    return answer;
}

int32_t float_column_buckets(const hv_column *column, float_grid grid, hv_column *out, hv_error *error) {
    return made_by_stretches(column, NULL, buckets_of, &grid, out, error);
}
