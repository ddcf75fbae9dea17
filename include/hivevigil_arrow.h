/* Columns in and out of Arrow's C data interface and C stream interface, over hivevigil.h. Plain C in headers, which
 * C++ reads too; nothing here is proved. Only for little-endian machines, as hivevigil.h.
 *
 * IN come integers of 8 to 64 bits, dates, times, timestamps, durations and months (as the integers that they
 * are), booleans, decimals of 32, 64 and 128 bits, texts and bytes (with offsets of 32 or 64 bits, as views, or of
 * one size), lists of any of these ("+l", "+L"), a dictionary over any of these, and run ends ("+r") over any of these,
 * to a depth of HV_ARROW_DEPTH. Only the rows that an array shows are copied; the array stays the producer's.
 *
 * OUT goes a flat column as a flat array, runs as "+r" with ends that count from the first row shown, a constant as one
 * run, lists as lists, whose items are flat and follow one another row by row. What goes out is memory of malloc, which
 * the release callbacks free on any thread; a child that was moved out is the mover's.
 *
 * NEITHER in nor out go lists of lists, views of lists, structs (but as batches), maps, unions, the null type,
 * intervals of more than months, and decimals of 256 bits: HV_UNSUPPORTED; nor do lists that lie flat go out as runs.
 *
 * DECIMALS are not tested against their precision, here as in every call of hivevigil.h: 123.45 in an array of
 * "d:4,2", which Arrow does not allow, comes in and goes out as the number that it is.
 *
 * FLOATING-POINT numbers come in by hv_arrow_import_bits, as integers without sign of the same bits, and go out by
 * hv_arrow_export_bits: equal bits are equal rows (so 0.0 and -0.0 differ, and a NaN equals the same NaN), while sums,
 * order, least and greatest of such a column are those of the integers and say nothing of the floats. hv_float_encode
 * makes a column of floats of the bits, and hv_float_decode bits again.
 *
 * Columns that are lent in an array may be lent by copies of their handles, which are not used after the call.
 *
 * A call answers 0, a number of hivevigil.h, or one of those below, and then `*error` has the fields, unless `error` is
 * null; what the number has no field for is 0. 12 (row) says which text that comes in is not UTF-8, as a row of the array that has the texts,
 * which may be that of the values of runs, a dictionary or the items of lists. On a refusal every column is as it was,
 * and nothing is left to release. */
#ifndef HIVEVIGIL_ARROW_H
#define HIVEVIGIL_ARROW_H
#include "hivevigil.h"
#include <stdbool.h>
#include <stdio.h>
#include <stdlib.h>
#include <string.h>

#ifndef ARROW_C_DATA_INTERFACE
#define ARROW_C_DATA_INTERFACE
#define ARROW_FLAG_DICTIONARY_ORDERED 1
#define ARROW_FLAG_NULLABLE 2
#define ARROW_FLAG_MAP_KEYS_SORTED 4

struct ArrowSchema {
    const char *format;
    const char *name;
    const char *metadata;
    int64_t flags;
    int64_t n_children;
    struct ArrowSchema **children;
    struct ArrowSchema *dictionary;
    void (*release)(struct ArrowSchema *);
    void *private_data;
};

struct ArrowArray {
    int64_t length;
    int64_t null_count;
    int64_t offset;
    int64_t n_buffers;
    int64_t n_children;
    const void **buffers;
    struct ArrowArray **children;
    struct ArrowArray *dictionary;
    void (*release)(struct ArrowArray *);
    void *private_data;
};
#endif

#ifndef ARROW_C_STREAM_INTERFACE
#define ARROW_C_STREAM_INTERFACE
struct ArrowArrayStream {
    int (*get_schema)(struct ArrowArrayStream *, struct ArrowSchema *out);
    int (*get_next)(struct ArrowArrayStream *, struct ArrowArray *out);
    const char *(*get_last_error)(struct ArrowArrayStream *);
    void (*release)(struct ArrowArrayStream *);
    void *private_data;
};
#endif

enum {
    HV_ARROW_INVALID = 101,        /* why: not an array of its format, by the first number that fits of those below */
    HV_ARROW_ENDS_TOO_LARGE = 102, /* end, greatest: a run ends past the greatest end of the width that was asked for */
    HV_ARROW_STREAM_FAILED = 103   /* number: the stream's own, as of errno.h; hv_arrow_words has its words */
};

/* The first field of HV_ARROW_INVALID. */
enum {
    HV_ARROW_RELEASED = 1,     /* a struct is missing, or its release callback, which says that it was released */
    HV_ARROW_NO_POINTER = 2,   /* format, buffers, children or a buffer is null where the format needs it */
    HV_ARROW_PARTS = 3,        /* n_buffers or n_children is not what the format has */
    HV_ARROW_LENGTH = 4,       /* a length or an offset is negative, or past what memory or a child has */
    HV_ARROW_NULL_COUNT = 5,   /* null_count is not the number of nulls in the bitmap */
    HV_ARROW_NULL_IN_RUNS = 6, /* an array of runs has a bitmap, or a run end is null */
    HV_ARROW_DICTIONARY = 7,   /* schema and array differ in having a dictionary, or the codes are not integers */
    HV_ARROW_VIEW = 8          /* a view of texts is not within its buffers, or begins otherwise than they do */
};

/* How many arrays may be nested, as values of runs or as dictionaries, in and out: the 64 levels of runs that a column
 * may have, and their values. */
enum { HV_ARROW_DEPTH = 65 };

/* ---- In ---- */

/* The column of all rows of an array. */
static inline int32_t hv_arrow_import(const hv_session *session, const struct ArrowSchema *schema,
                                      const struct ArrowArray *array, hv_column *out, hv_error *error);
/* The same, and floats, at any depth, as integers of 16, 32 or 64 bits without sign that have their bits. */
static inline int32_t hv_arrow_import_bits(const hv_session *session, const struct ArrowSchema *schema,
                                           const struct ArrowArray *array, hv_column *out, hv_error *error);
/* The column of one child of a batch ("+s"): the rows that the batch shows, null also where the batch's row is null. */
static inline int32_t hv_arrow_import_child(const hv_session *session, const struct ArrowSchema *schema,
                                            const struct ArrowArray *batch, int64_t child, hv_column *out,
                                            hv_error *error);
static inline int32_t hv_arrow_import_child_bits(const hv_session *session, const struct ArrowSchema *schema,
                                                 const struct ArrowArray *batch, int64_t child, hv_column *out,
                                                 hv_error *error);

/* ---- Out ---- */

/* How a column goes out. {0}, or no options at all (null): as it lies, in the least widths that suffice, in the format
 * of its type. */
enum { HV_ARROW_AS_IT_LIES = 0, HV_ARROW_AS_RUNS = 1, HV_ARROW_AS_FLAT = 2 };
typedef struct hv_arrow_options {
    uint8_t form;          /* HV_ARROW_AS_RUNS: one level of runs over flat values; HV_ARROW_AS_FLAT: flat */
    uint8_t end_bits;      /* of run ends: 16, 32 or 64; 0: the least that has the last end */
    uint8_t offset_bits;   /* of offsets of texts and bytes: 32 or 64; 0: 32 where they suffice */
    uint8_t bits_of_float; /* not 0: u16, u32, u64 go out as the floats of these bits */
    const char *format;    /* of the values, as "tsu:UTC" of an i64; NULL: that of their type, or of floats */
    hv_column *dictionary; /* of which the column has the codes; NULL: none */
} hv_arrow_options;

/* The column as an array with its schema, both the caller's to release; `name` may be null. The column stays.
 * 102 and 14 (CAST_OUT_OF_RANGE) where ends or offsets do not fit the width that was asked for; 12 where `format` is
 * not one of the column's type; 13 (precision) for decimals of a precision that Arrow has not, 0 or past 38; 23 for a
 * number of `options` that is none of those above. With a dictionary: 12 unless the codes are integers, and 8
 * (code, length of the dictionary) where a code that is not null numbers no row of it. */
static inline int32_t hv_arrow_export_with(const hv_session *session, hv_column *column, const char *name,
                                           const hv_arrow_options *options, struct ArrowSchema *schema,
                                           struct ArrowArray *array, hv_error *error);
/* with options that are null */
static inline int32_t hv_arrow_export(const hv_session *session, hv_column *column, const char *name,
                                      struct ArrowSchema *schema, struct ArrowArray *array, hv_error *error);
/* in a format, as of dates, times, timestamps and durations; of runs it is that of their values */
static inline int32_t hv_arrow_export_as(const hv_session *session, hv_column *column, const char *name,
                                         const char *format, struct ArrowSchema *schema, struct ArrowArray *array,
                                         hv_error *error);
/* integers of 16, 32 or 64 bits without sign as the floats of these bits */
static inline int32_t hv_arrow_export_bits(const hv_session *session, hv_column *column, const char *name,
                                           struct ArrowSchema *schema, struct ArrowArray *array, hv_error *error);
/* codes, or runs of codes, over their dictionary */
static inline int32_t hv_arrow_export_dictionary(const hv_session *session, hv_column *codes, hv_column *dictionary,
                                                 const char *name, struct ArrowSchema *schema, struct ArrowArray *array,
                                                 hv_error *error);
/* Releases both, as far as they are there. */
static inline void hv_arrow_release(struct ArrowSchema *schema, struct ArrowArray *array);
/* The format of the values below runs and dictionaries, for hv_arrow_export_as; NULL of a schema that has none. */
static inline const char *hv_arrow_value_format(const struct ArrowSchema *schema);

/* ---- Streams in ----
 * A reader takes the stream over: *stream is released for its caller, also where the call is refused. Its chunks are
 * batches, with a column for each child, or arrays, with one column. A dictionary that chunks share is read once. */
typedef struct hv_arrow_reader hv_arrow_reader;

/* 103 where the stream gives no schema. *reader is to be closed also then; it is null only under 21. */
static inline int32_t hv_arrow_open(struct ArrowArrayStream *stream, hv_arrow_reader **reader, hv_error *error);
/* The schema of every chunk, the reader's. */
static inline const struct ArrowSchema *hv_arrow_schema_of(const hv_arrow_reader *reader);
/* How many columns a chunk has. */
static inline size_t hv_arrow_width(const hv_arrow_reader *reader);
/* How a column of the chunks that follow is read; at first each is HV_ARROW_READ. The handle of one that is left out
 * stays as it is. A number that no column has is ignored. */
enum { HV_ARROW_READ = 0, HV_ARROW_LEAVE_OUT = 1, HV_ARROW_READ_BITS = 2 };
static inline void hv_arrow_choose(hv_arrow_reader *reader, size_t column, uint8_t how);
/* The next chunk as columns; *more is 0 where there was none, and then they stay. `count` is their number, else 11
 * (columns of a chunk, count). 103 where the stream fails; after a refusal the chunk is gone, and a stream that failed
 * has no more. */
static inline int32_t hv_arrow_next(const hv_session *session, hv_arrow_reader *reader, hv_column *columns,
                                    size_t count, uint8_t *more, hv_error *error);
/* What the stream said of its failure; empty where it said nothing. Good until the reader is closed. */
static inline const char *hv_arrow_words(const hv_arrow_reader *reader);
/* Releases the stream, and frees the reader, if there is one. */
static inline void hv_arrow_close(hv_arrow_reader *reader);

/* All chunks, one column of all rows for each column of a chunk, without rows where the stream has no chunk: runs where
 * each chunk came as runs, or as hv_arrow_concat has it, else flat. `how` says for each column how it is read, all are
 * read where it is null. What the stream said of its failure goes to `words`, as much of it as there is room for, ended
 * by 0; nothing does where words_len is 0. The stream is released in all cases. */
static inline int32_t hv_arrow_import_stream(const hv_session *session, struct ArrowArrayStream *stream,
                                             hv_column *columns, size_t count, const uint8_t *how, char *words,
                                             size_t words_len, hv_error *error);
/* Columns of one type, but for null, one after the other: runs over flat values where each is runs or a constant, or
 * where there are more than 64 rows for each run and each flat row; else flat; lists as lists, whose elements follow
 * one another. 12 for two types, 13 for no columns. */
static inline int32_t hv_arrow_concat(const hv_session *session, hv_column *columns, size_t count, hv_column *out,
                                      hv_error *error);

/* ---- Streams out ----
 * The columns as a stream of chunks of `chunk_rows` rows, the last one of what is left; of all rows where it is 0.
 * Batches with these names, or, where `names` is null, arrays of the one column. All is copied now, so that the stream
 * is free of the columns and their thread. Every chunk has the schema of the first: options (one for each column, or
 * null) that are 0 are of 32 bits here, run ends of chunks of 2^31 rows or more of 64; a column that lies as runs or a
 * constant goes out as runs over flat values, and one of lists as lists. 11 (rows of the first, rows) where columns
 * differ in their number of rows; 13 for no columns, or for arrays of more than one; else as hv_arrow_export_with. A
 * dictionary goes out once, and the chunks share it. */
static inline int32_t hv_arrow_export_stream(const hv_session *session, hv_column *columns, const char *const *names,
                                             size_t count, size_t chunk_rows, const hv_arrow_options *options,
                                             struct ArrowArrayStream *stream, hv_error *error);

/* what the calls above are made of */
#include "hivevigil_arrow_in.h"
#include "hivevigil_arrow_out.h"
#include "hivevigil_arrow_lists.h"
#include "hivevigil_arrow_stream_in.h"
#include "hivevigil_arrow_stream_out.h"
#endif
