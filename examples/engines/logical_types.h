/* What the numbers of a column mean: its logical type, by the format of Arrow that a message keeps (docs/TYPES.md,
 * docs/BYTES.md). In a database the rows are numbers of 64 bits, or texts or bytes, and the type is next to them;
 * floats have columns of their own (float_columns.h). */
#ifndef HIVEVIGIL_LOGICAL_TYPES_H
#define HIVEVIGIL_LOGICAL_TYPES_H
#include "hivevigil.h"
#include <stdbool.h>

/* Refusals of these files, next to those of hivevigil.h: columns of two logical types, a row that the type does not
 * have (row), a name of no type of times. */
enum { OTHER_LOGICAL_TYPE = 1001, PAST_LOGICAL_TYPE = 1002, NO_TIME_FORMAT = 1003 };

/* The name is borrowed; one of no bytes says that a column has none. */
typedef struct logical_type {
    const uint8_t *format;
    size_t len;
    uint8_t stored; /* the type of the rows in a message, HV_I32 for "tdD" */
} logical_type;

#define NO_LOGICAL_TYPE                                                                                                \
    { 0 }

bool is_same_logical_type(const logical_type *one, const logical_type *other);

/* The logical type of dates, times of a day, timestamps or durations with this name, or none for no bytes;
 * NO_TIME_FORMAT for any other name. */
int32_t logical_type_named(const uint8_t *format, size_t len, logical_type *out);

/* The rows, numbers of one logical type, as numbers that count the same in another. Numbers without a type mean what
 * the other says; as ones without a type they remain as they are. By runs; 12 where the types are of two sorts, one has
 * a zone and the other none, or the rows are not numbers; PAST_LOGICAL_TYPE for the first row without such a count,
 * INTERRUPTED, 21. */
int32_t column_recount(const hv_column *column, const logical_type *from, const logical_type *to, hv_column *out,
                       hv_error *error);

/* Numbers in the type that the message of a logical type has, as an encoding; PAST_LOGICAL_TYPE, INTERRUPTED, 21. */
int32_t column_as_stored(const hv_column *runs, uint8_t stored, hv_column *out, hv_error *error);

#endif
