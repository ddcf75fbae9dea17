/* Run-end encoded columns for C, over libhivevigil.a. Each call is an exported function of the library, and in C and
 * C++ an inline function over it, which takes null where there is nothing. Where no arguments follow, for example where
 * its address is taken, a name is the name of the export (hivevigil_exports.h), and hv_u8 has eight arguments;
 * hv_call_u8 is the inline function.
 *
 * A column is a list of rows of one type, each a value or null. It may be flat, one constant, lists, or runs, which
 * store each stretch of equal rows once. Calls that ask about rows answer the same in every form.
 *
 * ANSWERS. A call that can be refused returns an int32_t: 0 when it is done, else the number of an error (below). After
 * an error only `*error` is written, which for 1 to 21 has the fields of the error: every column is as it was, `out` too,
 * and so is each number, flag, value, item and byte that the call writes when it is done. After 0 `out` has the column
 * that was made, and the one that it held before is freed. Nothing is printed, nothing ends the process, and after a
 * refused malloc the call returns 21.
 *
 * OWNERSHIP. A handle, hv_column, owns its column. A call that is lent columns leaves them as they are; it makes a
 * column of its own. What C passes (numbers, bits, bytes) is copied, and belongs to C again when the call returns.
 *
 * WHAT IS PROVED. It is proved of the library what a call leaves, what it answers, and with which number and fields it
 * is refused, where callers do what they owe (below): crates/hivevigil/README.md. docs/PROVED.md says what is tested.
 *
 * WHAT MAY BE NULL: a pointer to no items, where its length is 0; `error`, where the caller does not need the fields;
 * the handle that hv_free or hv_builder_free is given, which then does nothing. A pointer to items, to bits of validity
 * or to room for either that is null with a length above 0 is refused as 11 (length, 0), before any other refusal.
 *
 * WHAT A CALLER OWES:
 *  - a handle starts as HV_EMPTY, only this library writes it, and hv_free empties it; a copy of the struct is not a
 *    second handle (to move one, copy it and set the old one to HV_EMPTY), and `at` is never followed;
 *  - any other pointer is not null, and each is valid for what it points to, and aligned for its type; a length times
 *    the width of an item is below 2^63;
 *  - what a call writes, and each handle that it is given, overlaps no other argument: to compare a column with itself
 *    lend hv_clone's result. A handle that is lent (const hv_column *) is the same when the call returns, but is
 *    written while it runs: it is not an object that is defined const;
 *  - input is initialised; what a call only writes may hold any bytes before, except for `out`, which is a handle;
 *  - one call at a time on each column, also where it only reads. Any thread may make it: columns that were made one
 *    from the other share buffers, whose owners are counted by atomics, and threads may use them at once (tested). This
 *    does not hold for lists and for runs over lists: those made one from the other are used by one thread at a time,
 *    also where one is freed;
 *  - malloc, realloc and free are one allocator, aligned to 16 bytes; no call comes from a signal handler, or from the
 *    forked child of a process with threads.
 *
 * A flag is a uint8_t: as input 0 is false and any other number true, as output it is 0 or 1. */
#ifndef HIVEVIGIL_H
#define HIVEVIGIL_H
#include <stddef.h>
#include <stdint.h>
#if UINTPTR_MAX != UINT64_MAX || (defined(__BYTE_ORDER__) && __BYTE_ORDER__ != __ORDER_LITTLE_ENDIAN__)
#error "hivevigil is for little-endian machines of 64 bits alone"
#endif
#ifdef __cplusplus
extern "C" {
#endif

/* Calls are inline functions; the compiler warns where the answer of one is not used. */
#define HV_CALL static inline
#ifdef __GNUC__
#define HV_ANSWER __attribute__((warn_unused_result)) static inline int32_t
#else
#define HV_ANSWER static inline int32_t
#endif

/* The version of this header, and the number of its binary interface. hv_version returns the version of the library, as
 * major * 1000000 + minor * 1000 + patch, and hv_abi its interface: a program runs with a library of its own HV_ABI,
 * and finds there every call of a header that is not newer than the library. */
#define HV_VERSION_MAJOR 2
#define HV_VERSION_MINOR 0
#define HV_VERSION_PATCH 0
#define HV_VERSION (HV_VERSION_MAJOR * 1000000 + HV_VERSION_MINOR * 1000 + HV_VERSION_PATCH)
#define HV_ABI 2
uint32_t hv_version(void);
uint32_t hv_abi(void);

/* A handle: a column that the library owns, or none. */
typedef struct hv_column { void *at; } hv_column;
/* The handle of a builder, likewise. */
typedef struct hv_builder { void *at; } hv_builder;
#define HV_EMPTY {0}

/* The fields of an error, in the order of the list below, and 0 for each that it does not have. */
typedef struct hv_error { uint64_t first, second, third; } hv_error;

enum {
    HV_OK = 0,
    HV_ENDS_NOT_UNSIGNED = 1,       /* ends of runs are a flat column of an unsigned type without null */
    HV_LENGTHS_DIFFER = 2,          /* ends, values: there is not one value for each run */
    HV_NO_RUNS_WINDOW = 3,          /* offset, length: there is no run, yet a window; no offset of texts: 0, 0 */
    HV_ENDS_NOT_STRICT = 4,         /* run: its end is not above the end before; of offsets of texts, the row whose stop
                                       is below its start, or whose offset is negative */
    HV_WINDOW_OVERFLOW = 5,         /* offset and length, or all rows together, are 2^64 or more */
    HV_FIRST_END_BELOW_OFFSET = 6,  /* end, offset; never where no row is shown, which 7 is not either */
    HV_LAST_END_BELOW_WINDOW = 7,   /* end, required */
    HV_OUT_OF_BOUNDS = 8,           /* index (2^64 - 1 for one that no uint64_t has), length */
    HV_BAD_RANGE = 9,               /* start, stop, length */
    HV_MASK_LENGTH = 10,            /* mask, length */
    HV_COLUMN_LENGTH = 11,          /* left, right: two lengths that belong together; of room: needed, there; of a
                                       null pointer to items: their number, 0 */
    HV_TYPE_MISMATCH = 12,
    HV_UNSUPPORTED = 13,            /* the call does not serve columns of this type or of this form, or there would be
                                       more than 64 levels of runs */
    HV_CAST_OUT_OF_RANGE = 14,
    HV_NULL_NOT_ALLOWED = 15,
    HV_NULL_FILL = 16,
    HV_BAD_METADATA = 17,
    HV_ENDS_TYPE_NUMBER = 18,       /* number */
    HV_RUN_COUNT = 19,              /* stated, found */
    HV_ONLY_PRIMITIVE = 20,         /* only integers are encoded */
    HV_OUT_OF_MEMORY = 21,
    HV_NO_COLUMN = 22,              /* a handle that is lent has no column; no fields */
    HV_BAD_NUMBER = 23              /* a number that names no type, or no operator; no fields */
};

/* The third field of 3, 4, 8 and 11 says what these are about where it is neither runs nor rows: offsets of texts (4
 * and 8 have their row), lists that are not within their elements, or a null pointer to items, whose number 11 has. The
 * calls of this header set it; an export leaves 0. hv_error_text (hivevigil_errors.h, which this header includes at its
 * end) writes each refusal as a sentence, and hv_error_name returns the names above. */
enum { HV_ABOUT_TEXTS = 1, HV_ABOUT_LISTS = 2, HV_ABOUT_NULL = 3 };

/* Types by number. Only decimals have precision and scale. HV_LIST says nothing of the items, whose type is that of
 * hv_list_elements: hv_lists and hv_read_column make lists, and a call that is given this number refuses it. */
enum { HV_U8, HV_U16, HV_U32, HV_U64, HV_I8, HV_I16, HV_I32, HV_I64, HV_BOOL, HV_DECIMAL, HV_UTF8, HV_BINARY, HV_LIST };
typedef struct hv_kind { uint8_t number, nullable, precision; int8_t scale; } hv_kind;

/* A value. kind HV_NULL: null; HV_UNSIGNED: as_unsigned; HV_SIGNED: as_signed; HV_TRUTH: truth; HV_DECIMAL_VALUE:
 * as_signed * 2^64 + as_unsigned; HV_TEXT and HV_BYTES: as_unsigned bytes, which are in a separate buffer; HV_DOUBLE:
 * the double whose bits are as_unsigned, which only hv_min_max and hv_at answer; HV_SCALED: the decimal
 * as_signed * 2^64 + as_unsigned, with `scale` of its digits after the point, which no call answers. A value of an
 * unsigned type is HV_UNSIGNED, one of a signed type HV_SIGNED. Where C passes a text, its bytes are those of the
 * buffer, and as_unsigned is not read. A column takes no value of the kinds HV_DOUBLE and HV_SCALED. */
enum { HV_NULL, HV_UNSIGNED, HV_SIGNED, HV_TRUTH, HV_DECIMAL_VALUE, HV_TEXT, HV_BYTES, HV_DOUBLE, HV_SCALED };
typedef struct hv_value { uint64_t as_unsigned; int64_t as_signed; uint8_t kind, truth; int8_t scale; } hv_value;

/* A sum. kind HV_UNSIGNED: as_unsigned; HV_SIGNED: as_signed; HV_NULL: the sum left the range of 64 bits; HV_DOUBLE:
 * the double whose bits are as_unsigned; HV_SCALED: the decimal as_signed * 2^64 + as_unsigned, with `scale` of its
 * digits after the point. empty: no row is valid, and the sum is 0. */
typedef struct hv_total { uint64_t as_unsigned; int64_t as_signed; uint8_t kind, empty; int8_t scale; } hv_total;

/* A number of 128 bits: high * 2^64 + low, as in the buffers of Arrow's decimal128 on little-endian machines. */
typedef struct hv_pair { uint64_t low; int64_t high; } hv_pair;

/* The form of a column, as hv_form returns it. */
enum { HV_FORM_FLAT, HV_FORM_CONSTANT, HV_FORM_LISTS, HV_FORM_RUNS, HV_FORM_NONE = 255 };

/* Which kernels are registered, a flag for each in this order, and the numbers by which they choose. A session decides
 * which form is left and at what cost, and never changes an answer. {0} has no kernel; hv_session_initial sets all
 * kernels and the numbers of the crate that is ported. */
enum {
    HV_SLICE,
    HV_FILTER,
    HV_TAKE,
    HV_TAKE_FROM,
    HV_COMPARE,
    HV_CAST,
    HV_FILL_NULL,
    HV_SCALAR_FN,
    HV_SUM,
    HV_MIN_MAX,
    HV_IS_CONSTANT,
    HV_IS_SORTED
};
/* `size` is sizeof(hv_session), or 0, which means the size of the first version, 80. A later header may have more after
 * `kernels`, which counts where `size` says that it is there; what was compiled before runs as it did. */
typedef struct hv_session {
    size_t size;
    size_t prefill_runs, min_run_filter_rows, filter_factor, sorted_runs_per_index;
    size_t table_len_per_index, unsorted_min_runs, unsorted_runs_per_index;
    uint8_t kernels[12];
} hv_session;

/* Which rows are null. */
typedef struct hv_validity {
    const uint8_t *bits;
    size_t bits_len, first;
    uint8_t nulls;
} hv_validity;

#include "hivevigil_exports.h"
#ifndef HV_EXPORTS_ALONE

HV_CALL void hv_session_initial(hv_session *session);

/* ---- Making columns ---- */

/* The validity of a type without null. */
HV_CALL hv_validity hv_not_nullable(void) {
    hv_validity validity = {NULL, 0, 0, 0};
    return validity;
}
/* The validity of a type with null where no row is null. */
HV_CALL hv_validity hv_all_valid(void) {
    hv_validity validity = {NULL, 0, 0, 1};
    return validity;
}
/* The validity by bits: row i is null where bit `first + i` is 0, and bit k is bit k % 8 of byte k / 8, as in Arrow. A
 * call is refused as HV_COLUMN_LENGTH (rows, bytes) where these are fewer bits than rows. */
HV_CALL hv_validity hv_valid_bits(const uint8_t *bits, size_t bits_len, size_t first) {
    hv_validity validity = {bits, bits_len, first, 2};
    return validity;
}

HV_ANSWER hv_u8(const uint8_t *items, size_t len, hv_validity validity, hv_column *out, hv_error *error);
HV_ANSWER hv_u16(const uint16_t *items, size_t len, hv_validity validity, hv_column *out, hv_error *error);
HV_ANSWER hv_u32(const uint32_t *items, size_t len, hv_validity validity, hv_column *out, hv_error *error);
HV_ANSWER hv_u64(const uint64_t *items, size_t len, hv_validity validity, hv_column *out, hv_error *error);
HV_ANSWER hv_i8(const int8_t *items, size_t len, hv_validity validity, hv_column *out, hv_error *error);
HV_ANSWER hv_i16(const int16_t *items, size_t len, hv_validity validity, hv_column *out, hv_error *error);
HV_ANSWER hv_i32(const int32_t *items, size_t len, hv_validity validity, hv_column *out, hv_error *error);
HV_ANSWER hv_i64(const int64_t *items, size_t len, hv_validity validity, hv_column *out, hv_error *error);
/* `count` booleans, row i by bit `start + i` of `truths`; HV_COLUMN_LENGTH (rows, bytes) where there are fewer bits */
HV_ANSWER hv_bools(const uint8_t *truths, size_t truths_len, size_t start, size_t count, hv_validity validity,
                   hv_column *out, hv_error *error);
/* Numbers of more digits than the precision says are taken as they are, also where they come from Arrow: no call
 * checks. */
HV_ANSWER hv_decimals(const hv_pair *pairs, size_t len, uint8_t precision, int8_t scale, hv_validity validity,
                      hv_column *out, hv_error *error);
/* Row i is the bytes from offsets[i] to offsets[i + 1] - 1; there is one offset more than rows. HV_ENDS_NOT_STRICT for
 * offsets that fall, HV_OUT_OF_BOUNDS (row, rows) for a row that is not within the bytes, HV_TYPE_MISMATCH for a text
 * that is not UTF-8. binary: bytes, not texts. */
HV_ANSWER hv_texts(uint8_t binary, const int32_t *offsets, size_t offsets_len, const uint8_t *bytes, size_t bytes_len,
                   hv_validity validity, hv_column *out, hv_error *error);
HV_ANSWER hv_large_texts(uint8_t binary, const int64_t *offsets, size_t offsets_len, const uint8_t *bytes,
                         size_t bytes_len, hv_validity validity, hv_column *out, hv_error *error);
/* The value, of this type, in each of `count` rows, in memory for one: HV_NULL_NOT_ALLOWED for null in a type without
 * null, HV_TYPE_MISMATCH for a value that is not of the type, or a text that is not UTF-8; HV_BAD_NUMBER where kind
 * names no type, or lists. */
HV_ANSWER hv_constant(const hv_kind *kind, const hv_value *value, const uint8_t *text, size_t text_len, size_t count,
                      hv_column *out, hv_error *error);
/* The run column of these ends and one value for each; it shows `count` rows from row `offset` on. Ends are a flat
 * column of an unsigned type without null, each above the one before. The column is over clones of both. HV_UNSUPPORTED
 * where there would be more than 64 nested levels of runs: every call serves 64, and no call makes more (lists whose
 * offsets, sizes or validity are in runs count as two); then the first fault of HV_ENDS_NOT_UNSIGNED to
 * HV_LAST_END_BELOW_WINDOW in their order, or HV_OUT_OF_MEMORY. Where `count` is 0 neither HV_FIRST_END_BELOW_OFFSET
 * nor HV_LAST_END_BELOW_WINDOW comes: any offset is allowed then. */
HV_ANSWER hv_runs(const hv_column *ends, const hv_column *values, size_t offset, size_t count, hv_column *out,
                  hv_error *error);
/* Lists: row i is the sizes[i] items of `elements` from item offsets[i] on, and lists may lie in any order and overlap.
 * `elements` is a flat column, which is shared; HV_COLUMN_LENGTH (rows, bytes) as above, then HV_UNSUPPORTED unless it
 * is flat, HV_COLUMN_LENGTH (offsets, sizes) for another number of sizes, HV_OUT_OF_BOUNDS (row, elements) for the
 * first row that is not null and not within the elements. */
HV_ANSWER hv_lists(const hv_column *elements, const uint64_t *offsets, size_t offsets_len, const uint64_t *sizes,
                   size_t sizes_len, hv_validity validity, hv_column *out, hv_error *error);
/* The same column in the same form. What holds 32 items or more is shared and not copied. */
HV_ANSWER hv_clone(const hv_column *column, hv_column *out, hv_error *error);
/* The same column in the same form, in buffers that no other column shares, except for the bytes of texts. A slice of a
 * few rows keeps the whole buffers that it is a part of; its compact copy lets them be freed. */
HV_ANSWER hv_compact(const hv_column *column, hv_column *out, hv_error *error);

/* ---- Commands: what they leave goes to `out` ----
 * Refused exactly as is said here, with these fields, or as HV_OUT_OF_MEMORY. The session decides in which form rows
 * are left. A run column of integers that is left has as few runs as possible, from row 0 on; hv_slice keeps the
 * existing runs. A constant stays one, whatever the session, under hv_slice and hv_filter, and, where it has a row,
 * under hv_cast, hv_fill, hv_compare_scalar, and hv_compare with another constant: no row is written. */
/* as few runs as possible, with ends of the least type, which may be u64 where all rows are null; HV_ONLY_PRIMITIVE
 * unless the rows are integers. In runs and constants it looks only at the runs that the column shows. */
HV_ANSWER hv_encode(const hv_session *session, const hv_column *column, hv_column *out, hv_error *error);
/* the rows written out in a flat form */
HV_ANSWER hv_decode(const hv_session *session, const hv_column *column, hv_column *out, hv_error *error);
/* the rows from start to stop - 1; HV_BAD_RANGE (start, stop, length) where start is above stop, or stop above the
 * length */
HV_ANSWER hv_slice(const hv_session *session, const hv_column *column, size_t start, size_t stop, hv_column *out,
                   hv_error *error);
/* each row as the same value of this type: HV_UNSUPPORTED unless both types are of integers or of one kind that is not
 * a list; at the first row that is not a value of the type HV_NULL_NOT_ALLOWED for null and HV_CAST_OUT_OF_RANGE for a
 * number; HV_BAD_NUMBER where kind names no type, or lists */
HV_ANSWER hv_cast(const hv_session *session, const hv_column *column, const hv_kind *kind, hv_column *out,
                  hv_error *error);
/* the rows at the indices, integers in any form (else HV_TYPE_MISMATCH): null at a null index; HV_OUT_OF_BOUNDS (index,
 * length) */
HV_ANSWER hv_take(const hv_session *session, const hv_column *column, const hv_column *indices, hv_column *out,
                  hv_error *error);
/* the rows at which the mask, booleans in any form (else HV_TYPE_MISMATCH), is true: a null in the mask selects
 * nothing, as in SQL's WHERE; HV_MASK_LENGTH (mask, length). Runs, and a mask of at most a run for 64 rows, take a step
 * for each run of both. */
HV_ANSWER hv_filter(const hv_session *session, const hv_column *column, const hv_column *mask, hv_column *out,
                    hv_error *error);
/* each row of `codes` is replaced by the row of the dictionary that it numbers from 0, null stays null;
 * HV_TYPE_MISMATCH unless the codes are integers, HV_OUT_OF_BOUNDS (code, length of the dictionary) */
HV_ANSWER hv_take_from(const hv_session *session, const hv_column *codes, const hv_column *dictionary, hv_column *out,
                       hv_error *error);
/* row by row whether `left operator right`, null where either is null; HV_UNSUPPORTED for lists, HV_TYPE_MISMATCH for
 * two types that differ in more than null, HV_COLUMN_LENGTH (left, right) for another number of rows, HV_BAD_NUMBER for
 * no operator. The answer is flat but for two constants, and hv_combine has the same in runs */
enum { HV_EQ, HV_NE, HV_GT, HV_GE, HV_LT, HV_LE };
HV_ANSWER hv_compare(const hv_session *session, const hv_column *column, uint8_t operator_, const hv_column *right,
                     hv_column *out, hv_error *error);
/* the same against one value, of the column's type or null; HV_TYPE_MISMATCH where it is not of that type, or a text
 * that is not UTF-8. Of runs hv_compare_value (hivevigil_helpers.h) has the same in runs */
HV_ANSWER hv_compare_scalar(const hv_session *session, const hv_column *column, uint8_t operator_,
                            const hv_value *value, const uint8_t *text, size_t text_len, hv_column *out,
                            hv_error *error);
/* the same against one number of any type (HV_UNSIGNED, HV_SIGNED, HV_DOUBLE, HV_SCALED), for columns of integers,
 * decimals and floats, which are those whose format says so (hv_with_type): row and number are compared as the exact
 * numbers that they are, by IEEE 754 where one is a NaN or an infinity, nothing rounded, at the cost of the runs.
 * HV_BAD_NUMBER for no operator, before HV_NO_COLUMN; HV_UNSUPPORTED for lists, then HV_TYPE_MISMATCH for other rows
 * that are not numbers, dates and times among them, and for a value of another kind, all of which take no memory. The
 * answer for integers and decimals is in the runs of the column, or flat where it is; for floats in the fewest runs */
HV_ANSWER hv_compare_number(const hv_column *column, uint8_t operator_, const hv_value *value, hv_column *out,
                            hv_error *error);
/* a value in place of each null, after which the type has no null; HV_TYPE_MISMATCH as above, HV_UNSUPPORTED for lists,
 * HV_NULL_FILL for null */
HV_ANSWER hv_fill(const hv_session *session, const hv_column *column, const hv_value *value, const uint8_t *text,
                  size_t text_len, hv_column *out, hv_error *error);

/* What is answered of the two rows at each place: whether a comparison holds (HV_EQ to HV_LE); the sum, difference or
 * product of two integers of one type, in that type, or of two decimals, exactly; two booleans connected; one of two
 * integers, decimals or booleans of one type: the left one, or the right one where that is null, the lesser, the
 * greater. Null where either row is null, but `false and null` is false, `true or null` is true, and HV_COALESCE takes
 * the row that is not null. */
enum { HV_ADD = 6, HV_SUBTRACT, HV_MULTIPLY, HV_AND, HV_OR, HV_COALESCE, HV_LESSER, HV_GREATER };
/* The rows of two columns worked place by place, at the cost of the runs of both and not of the rows: a constant where
 * both are constants that have a row, else runs, as few as possible. HV_UNSUPPORTED for lists, for HV_ADD to
 * HV_MULTIPLY unless both are of integers or both of decimals, for HV_AND and HV_OR unless both are of booleans, for
 * HV_COALESCE to HV_GREATER unless each is of integers, decimals or booleans; then HV_TYPE_MISMATCH for two types that
 * differ in more than null, then HV_COLUMN_LENGTH (left, right) for another number of rows, then HV_CAST_OUT_OF_RANGE
 * (row) for the first row whose answer the type does not have; HV_BAD_NUMBER for no operator. The session of hv_compare
 * has no part in it: only the form of its answer differs.
 *
 * Sums and differences of decimals are at the scale of both columns, in one digit more than the greater precision;
 * products at the sum of the scales, in one digit more than both precisions together; in 38 digits at most. Here the
 * two types may differ: HV_TYPE_MISMATCH is for sums of two scales, which hivevigil_decimals.h brings to one, and for a
 * product whose scale is not from -128 to 127; HV_CAST_OUT_OF_RANGE for the first row whose answer has more digits. */
HV_ANSWER hv_combine(const hv_column *left, uint8_t operator_, const hv_column *right, hv_column *out, hv_error *error);

/* The other boolean of each row, null for null, HV_UNSUPPORTED unless the rows are booleans; whether each row is null,
 * and whether it is not, in booleans without null, HV_UNSUPPORTED for lists. Runs, as few as possible, or a constant of
 * a constant. */
HV_ANSWER hv_not(const hv_column *column, hv_column *out, hv_error *error);
HV_ANSWER hv_is_null(const hv_column *column, hv_column *out, hv_error *error);
HV_ANSWER hv_is_valid(const hv_column *column, hv_column *out, hv_error *error);
/* The left row where the mask is true, the right one where it is false, null where it is null, in the type of both with
 * null; runs, as few as possible, or a constant of three. HV_UNSUPPORTED unless the mask is of booleans and each column
 * of integers, decimals or booleans, then HV_TYPE_MISMATCH for two types that differ in more than null, then
 * HV_COLUMN_LENGTH (left, right) or (mask, left). */
HV_ANSWER hv_if_else(const hv_column *mask, const hv_column *left, const hv_column *right, hv_column *out,
                     hv_error *error);

/* whether two columns are of one type, but for null, and have the same rows, null equal to null; by runs, up to the
 * first row that differs; HV_UNSUPPORTED for two columns of lists of one type */
HV_ANSWER hv_equals(const hv_column *left, const hv_column *right, uint8_t *truth, hv_error *error);
/* a hash of the rows, the same for all columns that have these rows, in whatever forms: the SipHash-1-3, with keys 0,
 * of the ends and the values of their runs, as few as possible; HV_UNSUPPORTED for lists */
HV_ANSWER hv_hash(const hv_column *column, uint64_t *hash, hv_error *error);

/* what is answered of the values in each group: their sum, in i64 or u64; the number of rows, or of values that are not
 * null, in u64; the least, greatest, first or last value that is not null, of the values' type */
enum { HV_FOLD_SUM, HV_FOLD_ROWS, HV_FOLD_COUNT, HV_FOLD_LEAST, HV_FOLD_GREATEST, HV_FOLD_FIRST, HV_FOLD_LAST };
/* The rows of `values` are grouped by runs of equal neighbouring rows of `keys`, null equal to null: the key of each
 * group, and what is answered of it, null where it has no value that is not null (a count: 0), both flat, and the
 * answers of a type that has null. HV_UNSUPPORTED where keys are lists or values are not integers, then
 * HV_COLUMN_LENGTH (keys, values) for another number of rows, then HV_CAST_OUT_OF_RANGE (group, from 0) for the first
 * sum that does not fit 64 bits; HV_BAD_NUMBER for no fold. */
HV_ANSWER hv_fold_by(const hv_column *keys, const hv_column *values, uint8_t fold, hv_column *out_keys,
                     hv_column *out_answers, hv_error *error);
/* Where each run of equal neighbouring rows ends, null equal to null, in the least unsigned type that has the number of
 * rows; and the sum of all rows before that end, in i64 for signed rows and in u64 for unsigned ones, null only where
 * all rows so far are null, which are skipped. Both flat, at the cost of the runs. A run of a value grows by it from
 * row to row: up to row r of the run that ends before e, the total is that at e less (e - 1 - r) * value.
 * HV_UNSUPPORTED unless the rows are integers, and never HV_OUT_OF_MEMORY for others, then HV_CAST_OUT_OF_RANGE (run,
 * from 0) for the first total that does not fit 64 bits. */
HV_ANSWER hv_running_totals(const hv_column *column, hv_column *out_ends, hv_column *out_totals, hv_error *error);

/* The rows in reverse order; and in order, as hv_is_sorted has it: null first, then numbers by value, false before
 * true, texts and bytes by their bytes. At the cost of the runs and not of the rows: a constant stays one, any other
 * column becomes runs, as few as possible. HV_UNSUPPORTED for lists, and never HV_OUT_OF_MEMORY for them. */
HV_ANSWER hv_reverse(const hv_column *column, hv_column *out, hv_error *error);
HV_ANSWER hv_sort(const hv_column *column, hv_column *out, hv_error *error);
/* The distinct rows in that order, and how many rows are equal to each, in u64, both flat, at the cost of the runs.
 * HV_UNSUPPORTED for lists, and never HV_OUT_OF_MEMORY for them. */
HV_ANSWER hv_value_counts(const hv_column *column, hv_column *out_values, hv_column *out_counts, hv_error *error);

/* ---- Questions ----
 * Refused exactly as is said here, with these fields, or, except for hv_at, as HV_OUT_OF_MEMORY: never as that over a
 * flat column, nor, where the question's kernel is registered, over runs or a constant, except for hv_sum of floats and
 * of decimals, hv_min_max of floats, and hv_extreme and hv_min_max of texts or bytes. */
/* The sum of the rows that are not null, by the format of the column ("What the rows mean", below). Integers, and
 * lengths of time by their counts, are added one at a time in 64 bits. Floats are added exactly, and rounded once, to a
 * double: NaN where a row is, or both infinities are, an infinity past the finite floats, -0.0 where there are rows and
 * all are -0.0. Decimals are added exactly, at the scale of the column and whatever its precision: HV_CAST_OUT_OF_RANGE
 * (row) for the first row such that the rows up to it add up to more than 38 digits, also where later rows would bring
 * the sum back. Floats and decimals at the cost of the runs. HV_UNSUPPORTED for dates, times of a day and timestamps,
 * and unless the rows are integers or decimals, before any memory is taken. */
HV_ANSWER hv_sum(const hv_session *session, const hv_column *column, hv_total *total, hv_error *error);
/* What the rows add to a sum, by which the sum of joined rows is known, also where it overflows on the way: their
 * total, and the least and the greatest sum on the way from row to row, one of which is the 0 before the first row. The
 * total of joined rows is total + total2, their least min(least, total + least2), their greatest max(greatest, total +
 * greatest2); hv_sum has a sum exactly where least and greatest are in its range, and then it is the total. For
 * unsigned types the bits of `high` are those of a uint64_t. At the cost of the runs, and of encoding a flat column;
 * HV_UNSUPPORTED unless the rows are integers, and never HV_OUT_OF_MEMORY for them. */
HV_ANSWER hv_sum_parts(const hv_column *column, hv_pair *total, hv_pair *least, hv_pair *greatest, hv_error *error);
/* whether all rows are equal, null equal to null; HV_UNSUPPORTED for lists */
HV_ANSWER hv_is_constant(const hv_session *session, const hv_column *column, uint8_t *truth, hv_error *error);
/* whether no row is above the next (strict: whether each is below it), with null below all else; HV_UNSUPPORTED for
 * lists */
HV_ANSWER hv_is_sorted(const hv_session *session, const hv_column *column, uint8_t strict, uint8_t *truth,
                       hv_error *error);
/* the least (greatest: the greatest) row that is not null, as it is stored whatever the format says, HV_NULL where all
 * are; HV_UNSUPPORTED for lists, HV_COLUMN_LENGTH as with hv_at */
HV_ANSWER hv_extreme(const hv_session *session, const hv_column *column, uint8_t greatest, hv_value *value,
                     uint8_t *text, size_t text_len, hv_error *error);
/* both at once, each with a buffer of its own; HV_NULL twice where all rows are null. Where the rows are floats by the
 * format of the column, as with hv_sum, the least and the greatest number, as HV_DOUBLE: NaNs have no place, and -0.0
 * is below 0.0. HV_UNSUPPORTED for lists, HV_COLUMN_LENGTH for the one that has no room in its buffer, and for the
 * least where neither has. */
HV_ANSWER hv_min_max(const hv_session *session, const hv_column *column, hv_value *least, uint8_t *least_text,
                     size_t least_text_len, hv_value *greatest, uint8_t *greatest_text, size_t greatest_text_len,
                     hv_error *error);
/* row `row`, which takes no memory; HV_UNSUPPORTED for lists, then HV_OUT_OF_BOUNDS (row, length). A float by the
 * format of the column, as with hv_sum, is HV_DOUBLE, of 16 and 32 bits too: a NaN keeps its sign and its payload. A
 * text goes to the front of `text`: HV_COLUMN_LENGTH (bytes of the text, text_len) where it has no room there. */
HV_ANSWER hv_at(const hv_column *column, size_t row, hv_value *value, uint8_t *text, size_t text_len, hv_error *error);
HV_CALL size_t hv_length(const hv_column *column);     /* rows; 0 without a column */
/* how many rows are null, by runs and without memory; 0 without a column */
HV_CALL size_t hv_null_count(const hv_column *column);
HV_CALL hv_kind hv_kind_of(const hv_column *column);   /* the type; number 255 without a column */
HV_CALL uint8_t hv_form(const hv_column *column);      /* HV_FORM_FLAT to HV_FORM_RUNS; HV_FORM_NONE without a column */
HV_CALL size_t hv_offset(const hv_column *column);     /* for runs: how many rows lie before the window; else 0 */

/* How many bytes the column takes for what it shows, in its form: numbers as wide as their type, decimals 16 each, bits
 * eight to a byte, texts and bytes 24 for each row and what the rows show. Bits of validity count where there are some.
 * Runs take their ends and their values, a constant its value, lists an offset and a size of 8 each and all elements.
 * What columns share counts for each of them; 2^64 - 1 where there are more, 0 without a column. The call takes no
 * memory. */
HV_CALL size_t hv_bytes_used(const hv_column *column);

/* ---- Decimals ---- */
/* Integers or decimals, the same numbers as decimals of up to `precision` digits, at most 38, with `scale` of them
 * after the point, or -scale zeros before it, in as few runs as possible and at the cost of the runs; null where the
 * row is. HV_BAD_NUMBER for a precision that is not 1 to 38; HV_UNSUPPORTED unless they are integers or decimals, which
 * takes no memory; then HV_CAST_OUT_OF_RANGE (row, why) for the first row that is not such a decimal: why is 1 where
 * the scale has no place for a digit of it, and 0 where it has too many digits; HV_OUT_OF_MEMORY */
HV_ANSWER hv_decimal_cast(const hv_column *column, uint8_t precision, int8_t scale, hv_column *out, hv_error *error);
/* the integers that decimals are, of a type from HV_U8 to HV_I64; HV_UNSUPPORTED unless they are decimals, then
 * HV_CAST_OUT_OF_RANGE (row, why) for the first row that is not such an integer: why is 1 where it has a fraction, and
 * 0 where the type does not have it; HV_BAD_NUMBER for another type, HV_OUT_OF_MEMORY */
HV_ANSWER hv_decimal_to_integers(const hv_column *decimals, uint8_t to, hv_column *out, hv_error *error);

/* ---- Floats ----
 * Floats of 16, 32 and 64 bits are columns of their keys, in i16, i32 and i64: a key is the place of a float in the
 * total order of IEEE 754, counted from 0.0, so slices, filters, fills, bytes and so on of these integers are those of
 * the floats. Bits are the patterns of floats, in u16, u32 and u64, as memcpy makes them of a float. In calls that take
 * is_ieee, 1 compares numbers by IEEE 754, so that 0.0 equals -0.0, and NaN differs from every number, itself too; 0
 * takes the total order, in which only equal bits are equal, -0.0 is below 0.0, and NaNs lie below and above all
 * numbers, by their signs. Under their format hv_sum, hv_min_max and hv_at answer numbers, and without one keys: so the
 * least and the greatest float by the total order are those of the keys. */
/* the floats with these bits, in as few runs as possible: as they are, or, where is_canonical is not 0, with one zero
 * and one NaN in place of all; HV_TYPE_MISMATCH unless the bits are u16, u32 or u64, which takes no memory,
 * HV_OUT_OF_MEMORY */
HV_ANSWER hv_float_encode(const hv_column *bits, uint8_t is_canonical, hv_column *out, hv_error *error);
/* their bits, flat, null where the row is; HV_TYPE_MISMATCH unless the column is of i16, i32 or i64, which takes no
 * memory, HV_OUT_OF_MEMORY */
HV_ANSWER hv_float_decode(const hv_column *floats, hv_column *out, hv_error *error);
/* row by row whether `float operator constant`, null where the row is, in as few runs as the answers have, each run
 * looked at once; the constant is given by its bits, of the width of the column. HV_TYPE_MISMATCH as above, then
 * HV_CAST_OUT_OF_RANGE for a constant with more bits, both of which take no memory, HV_OUT_OF_MEMORY; HV_BAD_NUMBER for
 * no operator */
HV_ANSWER hv_float_compare(const hv_column *floats, uint8_t operator_, uint64_t constant, uint8_t is_ieee,
                           hv_column *out, hv_error *error);
/* The same floats in another format, named by the type of its keys, HV_I16, HV_I32 or HV_I64, in as few runs as
 * possible and at the cost of the runs, null where the row is. A NaN keeps its payload. With is_rounded 0 they are
 * exactly the same: HV_TYPE_MISMATCH as above, then HV_CAST_OUT_OF_RANGE where the format does not have a float; else
 * each is the nearest one, at a tie the even one: past the finite floats by half a step or more an infinity, and a NaN
 * whose payload the format does not have the quiet one without. HV_BAD_NUMBER for another type, HV_OUT_OF_MEMORY */
HV_ANSWER hv_float_cast(const hv_column *floats, uint8_t to, uint8_t is_rounded, hv_column *out, hv_error *error);
/* the floats that integers are, of such a format, or the nearest with is_rounded; HV_TYPE_MISMATCH unless they are
 * integers, then HV_CAST_OUT_OF_RANGE where the format does not have one and nothing is rounded; HV_BAD_NUMBER for
 * another type, HV_OUT_OF_MEMORY */
HV_ANSWER hv_float_of_integers(const hv_column *integers, uint8_t to, uint8_t is_rounded, hv_column *out,
                               hv_error *error);
/* the integers that floats are, of a type from HV_U8 to HV_I64; HV_TYPE_MISMATCH unless the column is one of floats,
 * then HV_CAST_OUT_OF_RANGE for a float that is not an integer of the type, as one with a fraction, an infinity and a
 * NaN are not; HV_BAD_NUMBER for another type, HV_OUT_OF_MEMORY */
HV_ANSWER hv_float_to_integers(const hv_column *floats, uint8_t to, hv_column *out, hv_error *error);
/* what HV_ADD, HV_SUBTRACT, HV_MULTIPLY or this operator gives of two floats of one format */
enum { HV_DIVIDE = 14 };
/* The floats of two columns worked place by place, at the cost of the runs of both: as IEEE 754 says in their format,
 * rounded once, at a tie to the even one, so past the finite floats and divided by zero an infinity; of every NaN the
 * quiet one with a plus and no payload; null where either row is null. A constant where both are constants that have a
 * row, else runs, as few as possible. HV_TYPE_MISMATCH unless both are of i32 or both of i64, HV_UNSUPPORTED where both
 * are of i16 (hv_float_cast to 32 bits, and back rounded, gives what IEEE 754 says of 16), then HV_COLUMN_LENGTH (left,
 * right) for another number of rows, which take no memory, HV_OUT_OF_MEMORY; HV_BAD_NUMBER for no operator */
HV_ANSWER hv_float_combine(const hv_column *left, uint8_t operator_, const hv_column *right, hv_column *out,
                           hv_error *error);

/* ---- Reading many rows ----
 * These calls read columns in any form. Reading a flat column takes no memory, and what is stored under null is read as
 * it is. In any other form only these rows are written flat first, which may be refused as HV_OUT_OF_MEMORY; under null
 * there may be any number. Refused exactly as is said here, with these fields; HV_BAD_RANGE also where no row is asked
 * for, from a row past the end on, and its stop is 2^64 - 1 where no uint64_t has it. */
/* as many integers as there is room for, from row `start` on: HV_UNSUPPORTED unless the rows are integers,
 * HV_TYPE_MISMATCH where they are of another type, HV_BAD_RANGE (start, stop, length) past the end; for
 * hv_read_decimals HV_UNSUPPORTED unless the rows are decimals, then HV_BAD_RANGE */
HV_ANSWER hv_read_u8(const hv_column *column, size_t start, uint8_t *items, size_t len, hv_error *error);
HV_ANSWER hv_read_u16(const hv_column *column, size_t start, uint16_t *items, size_t len, hv_error *error);
HV_ANSWER hv_read_u32(const hv_column *column, size_t start, uint32_t *items, size_t len, hv_error *error);
HV_ANSWER hv_read_u64(const hv_column *column, size_t start, uint64_t *items, size_t len, hv_error *error);
HV_ANSWER hv_read_i8(const hv_column *column, size_t start, int8_t *items, size_t len, hv_error *error);
HV_ANSWER hv_read_i16(const hv_column *column, size_t start, int16_t *items, size_t len, hv_error *error);
HV_ANSWER hv_read_i32(const hv_column *column, size_t start, int32_t *items, size_t len, hv_error *error);
HV_ANSWER hv_read_i64(const hv_column *column, size_t start, int64_t *items, size_t len, hv_error *error);
HV_ANSWER hv_read_decimals(const hv_column *column, size_t start, hv_pair *pairs, size_t len, hv_error *error);
/* Bits, 64 to a word, for all rows of the column, and 0 after the last: HV_UNSUPPORTED unless they are flat booleans,
 * for validity unless the column is flat; HV_COLUMN_LENGTH (needed, len) unless len is (length + 63) / 64. No memory is
 * taken. On a little-endian machine the words are the bytes of Arrow's bitmaps. */
HV_ANSWER hv_read_bools(const hv_column *column, uint64_t *words, size_t len, hv_error *error);
HV_ANSWER hv_read_validity(const hv_column *column, uint64_t *words, size_t len, hv_error *error);
/* The same for `rows` rows from row `start` on, in any form, the bit of row `start` first: HV_UNSUPPORTED unless they
 * are booleans, for validity HV_UNSUPPORTED for lists; HV_BAD_RANGE, then HV_COLUMN_LENGTH (needed, len) unless len is
 * (rows + 63) / 64, or HV_OUT_OF_MEMORY. */
HV_ANSWER hv_read_bools_from(const hv_column *column, size_t start, size_t rows, uint64_t *words, size_t len,
                             hv_error *error);
HV_ANSWER hv_read_validity_from(const hv_column *column, size_t start, size_t rows, uint64_t *words, size_t len,
                                hv_error *error);
/* Texts and bytes, in two calls: HV_UNSUPPORTED unless the rows are texts or bytes. First the offsets of `len - 1` rows
 * from row `start` on, from 0: row k is bytes offsets[k] to offsets[k + 1] - 1, and the last offset is the number of
 * bytes; a null has no bytes. HV_BAD_RANGE (start, start, length) where len is 0, HV_BAD_RANGE past the end,
 * HV_CAST_OUT_OF_RANGE where the type has no such offset. Then the bytes of `rows` rows one after the other:
 * HV_BAD_RANGE, and HV_COLUMN_LENGTH (needed, len) unless len is their number; needed is 2^64 - 1 where no uint64_t has
 * that number. */
HV_ANSWER hv_read_offsets(const hv_column *column, size_t start, int32_t *offsets, size_t len, hv_error *error);
HV_ANSWER hv_read_large_offsets(const hv_column *column, size_t start, int64_t *offsets, size_t len, hv_error *error);
HV_ANSWER hv_read_bytes(const hv_column *column, size_t start, size_t rows, uint8_t *bytes, size_t len,
                        hv_error *error);

/* ---- Run columns ---- (HV_UNSUPPORTED of other forms) */
/* the ends, shared: flat, of an unsigned type, without null; and the values, shared */
HV_ANSWER hv_ends(const hv_column *column, hv_column *out, hv_error *error);
HV_ANSWER hv_values(const hv_column *column, hv_column *out, hv_error *error);
/* How many runs there are. Runs are counted from 0, as hv_ends and hv_values have them, and rows are those of the
 * column: run k shows the rows from its start to its stop - 1, and starts where run k - 1 stops. A run that the column
 * does not reach shows no rows. None of these calls takes memory. */
HV_ANSWER hv_run_count(const hv_column *column, size_t *count, hv_error *error);
/* The rows of run `run` and the value that they have; HV_UNSUPPORTED also for lists, HV_OUT_OF_BOUNDS (run, runs),
 * HV_COLUMN_LENGTH as with hv_at. */
HV_ANSWER hv_run(const hv_column *column, size_t run, size_t *start, size_t *stop, hv_value *value, uint8_t *text,
                 size_t text_len, hv_error *error);
/* The run of row `row`; HV_OUT_OF_BOUNDS (row, length). */
HV_ANSWER hv_run_of(const hv_column *column, size_t row, size_t *run, hv_error *error);
/* Where `len` runs stop, from run `first` on; HV_BAD_RANGE (first, stop, runs) past the last run. */
HV_ANSWER hv_read_ends_u64(const hv_column *column, size_t first, uint64_t *stops, size_t len, hv_error *error);
/* Writes the metadata record to the front of `bytes`, and its number of bytes to *size; HV_COLUMN_LENGTH (needed,
 * bytes_len) where it does not fit. */
HV_ANSWER hv_serialize(const hv_column *column, uint8_t *bytes, size_t bytes_len, size_t *size, hv_error *error);
/* The run column of `count` rows of this type by its record, over clones of these ends and values; HV_BAD_METADATA for
 * bytes that are not a record, HV_ENDS_TYPE_NUMBER (number), HV_TYPE_MISMATCH for ends that are not of the type that it
 * states or values that are not of this one, HV_RUN_COUNT (stated, found), HV_BAD_NUMBER where kind names no type, or
 * as hv_runs, whose HV_UNSUPPORTED comes before these. */
HV_ANSWER hv_deserialize(const hv_kind *kind, size_t count, const uint8_t *bytes, size_t bytes_len,
                         const hv_column *ends, const hv_column *values, hv_column *out, hv_error *error);

/* ---- Lists ---- (HV_UNSUPPORTED of other forms: hv_decode writes runs and constants of lists as lists)
 * Row i is the items of the elements from its offset on, as many as its size; a null row may have any offset and size.
 * Offsets and sizes are u64 without null, flat or in runs, and hv_read_u64 reads them. All are shared. */
HV_ANSWER hv_list_elements(const hv_column *column, hv_column *out, hv_error *error);  /* of all lists, flat */
HV_ANSWER hv_list_offsets(const hv_column *column, hv_column *out, hv_error *error);
HV_ANSWER hv_list_sizes(const hv_column *column, hv_column *out, hv_error *error);
HV_ANSWER hv_list_validity(const hv_column *column, hv_column *out, hv_error *error);  /* booleans: is the row valid? */

/* ---- Encodings of any column, and of rows that come batch by batch ----
 * An encoding is a run column of as few runs as possible, with ends of the least type and with flat values. */
/* The rows, of any type except lists (HV_UNSUPPORTED), encoded. In runs and in a constant it looks only at the runs
 * that the column shows, and not at the rows. */
HV_ANSWER hv_encode_rows(const hv_column *column, hv_column *out, hv_error *error);

/* A builder takes rows batch by batch, joins runs of equal rows across the seams of the batches, and holds an end and a
 * value for each run, and nothing for a row. Its handle owns it as a column's handle owns a column. Where a call is
 * refused, the builder is as it was. */
/* A builder of rows of this type, without rows; the one that the handle held before is freed. HV_BAD_NUMBER where kind
 * names no type, or lists. */
HV_ANSWER hv_builder_new(const hv_kind *kind, hv_builder *builder, hv_error *error);
/* Appends the rows of a column, in any form, to those of the builder: HV_TYPE_MISMATCH unless its type is the builder's
 * (null or not belongs to a type), then HV_WINDOW_OVERFLOW for 2^64 rows or more in all. */
HV_ANSWER hv_append(hv_builder *builder, const hv_column *column, hv_error *error);
/* Appends `count` rows of one value of the builder's type: HV_NULL_NOT_ALLOWED for null in a type without null,
 * HV_TYPE_MISMATCH for a value that is not of the type, or a text that is not UTF-8, also for a count of 0; then
 * HV_WINDOW_OVERFLOW as above. */
HV_ANSWER hv_append_value(hv_builder *builder, const hv_value *value, const uint8_t *text, size_t text_len,
                          size_t count, hv_error *error);
/* The encoding of all rows so far, which the builder keeps. */
HV_ANSWER hv_encoding(const hv_builder *builder, hv_column *out, hv_error *error);
/* The encoding of all rows so far, which leave the builder: it has no rows afterwards, and takes rows of its type
 * again. It is made from the builder's own memory where possible: ends are narrowed, bits packed, all else is moved. */
HV_ANSWER hv_finish(hv_builder *builder, hv_column *out, hv_error *error);
HV_CALL size_t hv_builder_rows(const hv_builder *builder);  /* 0 without a builder */
HV_CALL size_t hv_builder_runs(const hv_builder *builder);  /* as many as the encoding has; 0 without a builder */
/* Frees the builder, if there is one; the handle is empty afterwards. */
HV_CALL void hv_builder_free(hv_builder *builder);

/* A column as bytes, in any form, to keep or to send: a message of the Protocol Buffers encoding (docs/column.proto),
 * in the form that the column has, with its window and its format; for flat texts and bytes the rows, which are read
 * into one buffer. Equal forms under equal formats have equal bytes. HV_UNSUPPORTED exactly for more than 16 levels of
 * runs, where lists that runs were decoded to, whose offsets, sizes or validity are in runs, count as two. */
/* How many bytes the message has, by a pass over lengths that takes no memory; HV_OUT_OF_MEMORY only for 2^64 bytes or
 * more. */
HV_ANSWER hv_write_size(const hv_column *column, size_t *size, hv_error *error);
/* Writes the message to the front of `bytes`, which takes no memory, and its number of bytes to *size; HV_COLUMN_LENGTH
 * (needed, bytes_len) where it does not fit. The bytes after it stay as they were. HV_OUT_OF_MEMORY only for 2^64 bytes
 * or more. */
HV_ANSWER hv_write(const hv_column *column, uint8_t *bytes, size_t bytes_len, size_t *size, hv_error *error);
/* The column that was written so, in its form and under its format; HV_BAD_METADATA exactly for bytes that are the
 * message of no column, so HV_OUT_OF_MEMORY only for a message. */
HV_ANSWER hv_read_column(const uint8_t *bytes, size_t bytes_len, hv_column *out, hv_error *error);
/* Are the bytes the message of a column, with or without a format? 1, or 0. Takes no memory, and refuses nothing: for
 * bytes of a stranger before any of them is read. */
HV_ANSWER hv_is_message(const uint8_t *bytes, size_t bytes_len, uint8_t *truth, hv_error *error);

/* ---- What the rows mean ----
 * A column may have a format: the format string of Arrow's C data interface that says what its rows mean, such as "g"
 * or "tsu:UTC", in UTF-8, with no 0 at the end. Any text is kept, also one that names no type. hv_clone, hv_compact,
 * hv_encode, hv_decode, hv_encode_rows, hv_slice, hv_take, hv_filter, hv_fill, hv_reverse, hv_sort and hv_values keep
 * the format of the column, hv_runs and hv_deserialize that of the values, and hv_take_from that of the dictionary;
 * hv_if_else keeps one that both columns have, hv_fold_by that of the keys and, for the least, greatest, first and last
 * row, that of the values, and hv_value_counts that of the values. A message keeps the format, and hv_read_column makes
 * the column under it. Every other call makes columns without a format. hv_sum, hv_min_max and hv_at ask what a format
 * says: the rows are floats under "e", "f" and "g", and dates, times of a day, timestamps or durations under a format
 * of these (docs/TYPES.md), where they are the integers that such rows are stored in. Under any other format, and in
 * all other calls, rows are compared, added and written as they are stored. */
/* The column under this format; an empty one says that it has none. HV_TYPE_MISMATCH exactly for one that is not UTF-8,
 * so HV_OUT_OF_MEMORY only for one that is. */
HV_ANSWER hv_with_type(const hv_column *column, const uint8_t *format, size_t format_len, hv_column *out,
                       hv_error *error);
/* Writes the format to the front of `format`, which takes no memory, and its number of bytes to *size: 0 where the
 * column has none. HV_COLUMN_LENGTH (needed, format_len) where it does not fit. The bytes after it stay as they
 * were. */
HV_ANSWER hv_type(const hv_column *column, uint8_t *format, size_t format_len, size_t *size, hv_error *error);

/* Frees the column, if there is one; the handle is empty afterwards. */
HV_CALL void hv_free(hv_column *column);

#include "hivevigil_calls.h"
#endif

#ifdef __cplusplus
}
#endif
#ifndef HV_EXPORTS_ALONE
#include "hivevigil_errors.h"
#endif
#endif
