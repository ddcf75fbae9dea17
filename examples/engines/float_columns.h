/* Columns of floats of a database. As bytes they are columns of keys (docs/TYPES.md), in a message that keeps their
 * logical type, as Python's `to_bytes` writes it; earlier versions wrote a line that names the type before the message of
 * the keys, which is read still. Between, they are columns of bits, in u32 or u64, which no other column of a database
 * has: what moves rows serves them as they are, and keeps -0.0 and each NaN.
 *
 * Everything goes by runs. In a comparison numbers are those of IEEE 754, so 0.0 equals -0.0; what a NaN is, the
 * database says. */
#ifndef HIVEVIGIL_FLOAT_COLUMNS_H
#define HIVEVIGIL_FLOAT_COLUMNS_H
#include "hivevigil.h"
#include <stdbool.h>

/* IEEE 754, where a NaN is only unequal; or the order of PostgreSQL, where all NaNs are equal and above all numbers. */
typedef enum nan_order { NAN_UNORDERED, NAN_GREATEST } nan_order;

/* Does a column of this type have floats? */
static inline bool is_float_type(uint8_t number) { return number == HV_U32 || number == HV_U64; }

/* The format of Arrow, one letter, of floats of these bits, HV_U32 or HV_U64. */
const uint8_t *float_format(uint8_t number);

/* The type of the keys, HV_I16, HV_I32 or HV_I64, of floats with this format; HV_LIST where it is of no floats. */
uint8_t float_keys_of(const uint8_t *format, size_t len);

/* The bytes of the line that named a type of floats in earlier versions. */
enum { FLOAT_LINE = 19 };

/* The type of the keys of bytes that begin with such a line; HV_LIST where they do not. */
uint8_t float_line_read(const uint8_t *bytes, size_t size);

/* Bytes of floats, which a function of these files wrote, as earlier versions wrote them: puts the line to `line`, and
 * answers how many bytes come before the message that was after it. 0 for the bytes of any other column. */
size_t float_line_of(const uint8_t *bytes, size_t size, uint8_t line[FLOAT_LINE]);

/* The column of bits of one of keys; of 16 bits each is one of 64. 17 unless its type is that of these keys, 21. */
int32_t float_column_of_keys(const hv_column *column, uint8_t keys, hv_column *out, hv_error *error);

/* Floats of 32 bits as those of 64: the same numbers, and NaNs with their payload. Any other column as it is. 21. */
int32_t float_column_widened(const hv_column *column, hv_column *out, hv_error *error);

/* The encoding of the same rows with one zero and one NaN in place of all; INTERRUPTED, 21. */
int32_t float_column_canonical(const hv_column *column, hv_column *out, hv_error *error);

/* The bits of a float, and back. */
uint64_t bits_of_float(double number);
double float_of_bits(uint64_t bits);

/* A number that floats are compared with, and how: an integer that no float has lies between two. */
typedef struct float_question {
    double number;
    uint8_t operator_;
} float_question;
float_question float_question_of(uint8_t operator_, int64_t number);

/* Row by row whether `float operator number`, as booleans, null where the row is; 21. */
int32_t float_mask(const hv_column *column, float_question asked, nan_order nans, hv_column *out, hv_error *error);

/* Row by row whether `left operator right`, as booleans, of floats of any width; 11 (left, right), 21. */
int32_t float_columns_mask(const hv_column *left, uint8_t operator_, const hv_column *right, nan_order nans,
                           hv_column *out, hv_error *error);

/* The least and the greatest float, by their bits; none where each row is null. */
typedef struct float_extremes {
    bool found;
    uint64_t least, greatest;
} float_extremes;

/* The extremes of the numbers, where -0.0 is below 0.0. Where NaNs are unordered they are left out; else one is the
 * greatest where there is one, and the least where there is nothing else. INTERRUPTED, 21. */
int32_t float_column_extremes(const hv_column *column, nan_order nans, float_extremes *found, hv_error *error);

/* How many rows are not null, and the bits, of 64, of their exact sum, as hv_sum. Where NaNs are the greatest, 14
 * for a sum of finite rows that is past the finite floats, as PostgreSQL refuses it. 21. */
int32_t float_column_sum(const hv_column *column, nan_order nans, uint64_t *count, uint64_t *bits, hv_error *error);

/* What hv_fold_by answers of keys and values of any type, where values may be floats: their sum has 64 bits, and is
 * refused as above with its group; INTERRUPTED. */
int32_t column_fold_by(const hv_column *keys, const hv_column *values, uint8_t fold, nan_order nans,
                       hv_column *out_keys, hv_column *out_answers, hv_error *error);

#endif
