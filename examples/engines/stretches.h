/* Columns of many runs, worked stretch by stretch: a database may end the statement after each, and what is held for the
 * work goes by a stretch. */
#ifndef HIVEVIGIL_STRETCHES_H
#define HIVEVIGIL_STRETCHES_H
#include "hivevigil.h"
#include <stdbool.h>

/* A refusal of these files, next to those of hivevigil.h: the database ends the statement. And what a look answers that
 * needs no further stretch. */
enum { INTERRUPTED = 1004, SEEN = 1005 };

/* How many runs, or rows of a flat column, a stretch has at most; a test may have fewer. */
#ifndef RUNS_AT_ONCE
#define RUNS_AT_ONCE 65536
#endif

/* Does the database end the statement? Each database has a function of its own; after true all is freed, and the call
 * ends with INTERRUPTED. */
bool is_interrupted(void);

/* Is it a column of more than one stretch? */
bool is_long(const hv_column *column);

/* The row before which the stretch ends that begins with row `start`. */
int32_t stretch_end(const hv_column *column, size_t start, size_t *stop, hv_error *error);

/* Makes a column of a stretch, or of one of each of two columns, where else `right` is null. */
typedef int32_t make_stretch(const void *how, const hv_column *left, const hv_column *right, hv_column *out,
                             hv_error *error);

/* The encoding of what is made of all rows, in their order. Two columns of another number of rows are given as they are,
 * so that they are refused. As what is made is refused, where 14 and PAST_LOGICAL_TYPE have the row of the column;
 * INTERRUPTED, 21. */
int32_t made_by_stretches(const hv_column *left, const hv_column *right, make_stretch *make, const void *how,
                          hv_column *out, hv_error *error);

/* The encoding of the rows, which may not be lists; INTERRUPTED, 21. */
int32_t encoded_by_stretches(const hv_column *column, hv_column *out, hv_error *error);

/* Looks at a stretch that begins with row `start`. */
typedef int32_t look_at_stretch(void *found, const hv_column *part, uint64_t start, hv_error *error);

/* Looks at each stretch of a column that has rows, up to the first that is refused or SEEN, which refuses nothing;
 * INTERRUPTED, 21. */
int32_t look_by_stretches(const hv_column *column, look_at_stretch *look, void *found, hv_error *error);

#endif
