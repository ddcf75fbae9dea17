/* The runs of a column as arrays of C: where each stops, whether it is null, and its value. */
#ifndef HIVEVIGIL_RUN_PARTS_H
#define HIVEVIGIL_RUN_PARTS_H
#include "hivevigil.h"
#include <stdbool.h>

typedef struct run_parts {
    size_t count, words;
    uint64_t *stops, *valid; /* a bit for each run */
    hv_column values;        /* flat */
} run_parts;

#define RUN_PARTS_EMPTY                                                                                                \
    { 0 }

/* The runs of a column of any form; a run of one that is in runs may be hidden, with no row. 13 for lists, 21. What was
 * made is freed by run_parts_free, also where it is refused. */
int32_t run_parts_read(const hv_column *column, run_parts *runs, hv_error *error);

/* The numbers of the runs, 0 or any other where one is null, in memory of malloc's; 12 for texts or bytes, 21. */
int32_t run_parts_numbers(const run_parts *runs, int64_t **numbers, hv_error *error);

void run_parts_free(run_parts *runs);

/* Is this run one of rows that are not null? */
static inline bool run_is_valid(const run_parts *runs, size_t run) { return runs->valid[run / 64] >> run % 64 & 1; }

/* How many rows of a number are added to a sum until it would leave the range of 64 bits. */
static inline uint64_t rows_that_fit(int64_t sum, int64_t number) {
    const uint64_t up = (uint64_t)INT64_MAX - (uint64_t)sum, down = (uint64_t)sum - (uint64_t)INT64_MIN;
    if (number == 0) return UINT64_MAX;
    return number > 0 ? up / (uint64_t)number : down / (0 - (uint64_t)number);
}

#endif
