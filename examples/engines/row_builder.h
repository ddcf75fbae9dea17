/* Rows as they come to an aggregate of a database: the library's builder, and the kind of the rows, which is not known
 * before the first one that is not null. Numbers of 64 bits, floats, texts and bytes, with null. Memory goes by runs
 * and not by rows.
 *
 * A call answers 0, or the number of an error of hivevigil.h, and then the rows are those that there were. */
#ifndef HIVEVIGIL_ROW_BUILDER_H
#define HIVEVIGIL_ROW_BUILDER_H
#include "logical_types.h"

/* Kinds of rows next to HV_SIGNED, HV_TEXT and HV_BYTES: floats, of which `number` has the bits. */
enum { ROW_FLOAT32 = 32, ROW_FLOAT64 = 64 };

/* The type of a column of rows of this kind, and back; HV_NULL of any other type. */
uint8_t type_of_rows(uint8_t kind);
uint8_t kind_of_rows(uint8_t type);

typedef struct row_builder {
    uint8_t kind;    /* of the rows, and HV_NULL as long as each is null */
    uint64_t rows;   /* all of them */
    hv_builder runs; /* of the rows; none as long as each row is null */
    logical_type type; /* of the rows, with a name in memory of malloc's */
} row_builder;

/* No rows. */
#define ROW_BUILDER_EMPTY                                                                                              \
    { 0 }

/* One row. A text is borrowed. */
typedef struct row_value {
    uint8_t kind; /* as of a builder */
    int64_t number;
    const uint8_t *bytes;
    size_t len;
} row_value;

/* The value as the library takes it; the bytes of a text are apart from it. */
hv_value value_of_row(const row_value *value);

/* Adds `count` rows of a value, as one run. 12 where the rows are of another type, or where the text is not UTF-8, also
 * for a count of 0; 5 for 2^64 rows, 21. */
int32_t row_builder_add(row_builder *rows, const row_value *value, uint64_t count, hv_error *error);

/* Adds all rows of a column of any form; one of only null goes with rows of every type. Refused as above, and as 13
 * unless the column is one of signed numbers of 64 bits, floats, texts or bytes; as INTERRUPTED. Where a long column is
 * refused as this or as 21, some of its rows may be added. */
int32_t row_builder_add_column(row_builder *rows, const hv_column *column, hv_error *error);

/* The same with the logical type of the column, after which all rows are of it: rows without one are taken to be of the
 * type of the others. OTHER_LOGICAL_TYPE where the rows are of two. */
int32_t row_builder_add_typed(row_builder *rows, const hv_column *column, const logical_type *type, hv_error *error);

/* Adds all rows of another builder, which has none after; where it is refused, the other may have none too. */
int32_t row_builder_append(row_builder *rows, row_builder *others, hv_error *error);

/* The encoding of all rows, which are kept. Rows of only null are numbers. */
int32_t row_builder_encoding(row_builder *rows, hv_column *out, hv_error *error);

/* The same, made of the builder's own memory where that can be: it has no rows afterwards. */
int32_t row_builder_finish(row_builder *rows, hv_column *out, hv_error *error);

void row_builder_free(row_builder *rows);

/* The rows of a column, and `count` rows of a value after them, by the runs of the column; refused as what is added
 * to rows, and as 5 for 2^63 rows. */
int32_t column_append(const hv_column *column, const row_value *value, uint64_t count, hv_column *out, hv_error *error);

#endif
