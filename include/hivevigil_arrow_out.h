/* The outward part of hivevigil_arrow.h, which includes it: arrays of malloc's memory that hold what a column shows. */
#ifndef HIVEVIGIL_ARROW_OUT_H
#define HIVEVIGIL_ARROW_OUT_H
#include "hivevigil_arrow_rows.h"
#include "hivevigil_arrow_structs.h"

/* ---- What is chosen ---- */

/* What an export is done with. */
typedef struct hv_arrow_writing {
    const hv_session *session;
    hv_error *error;
    hv_arrow_options options;
    int depth; /* runs around what is written now */
} hv_arrow_writing;

static inline int32_t hv_arrow_no_memory(const hv_arrow_writing *writing) {
    return hv_arrow_refuse(HV_OUT_OF_MEMORY, 0, 0, writing->error);
}

static inline bool hv_arrow_are_options(const hv_arrow_options *options) {
    uint8_t ends = options->end_bits, offsets = options->offset_bits;
    if (ends != 0 && ends != 16 && ends != 32 && ends != 64) return false;
    return options->form <= HV_ARROW_AS_FLAT && (offsets == 0 || offsets == 32 || offsets == 64);
}

/* Whether a format is one of this type. Decimals are written only in 128 bits, and texts only by offsets. */
static inline bool hv_arrow_is_format_of(const char *format, hv_kind kind, hv_arrow_layout *layout) {
    if (!hv_arrow_layout_of(format, layout) || layout->number != kind.number) return false;
    if (layout->what == HV_ARROW_FLOATS || layout->what == HV_ARROW_VIEWS || layout->what == HV_ARROW_FIXED)
        return false;
    if (layout->what != HV_ARROW_DECIMALS) return true;
    return layout->width == sizeof(hv_pair) && layout->precision == kind.precision && layout->scale == kind.scale;
}

/* The format of a column of this type by the options, in which `offset_bits` then are what the format says. For texts
 * whose width is left open it is the narrow one. */
static inline int32_t hv_arrow_choose_format(hv_arrow_writing *writing, hv_kind kind, char room[16],
                                             const char **format) {
    static const char *const natives[] = {"C", "S", "I", "L", "c", "s", "i", "l", "b"};
    static const char *const floats[] = {NULL, "e", "f", "g"};
    hv_arrow_options *options = &writing->options;
    hv_arrow_layout layout;
    if (kind.number == HV_DECIMAL && (kind.precision < 1 || kind.precision > 38))
        return hv_arrow_refuse(HV_UNSUPPORTED, kind.precision, 0, writing->error);
    *format = options->bits_of_float ? (kind.number <= HV_U64 ? floats[kind.number] : NULL) : options->format;
    if (options->bits_of_float) return *format ? HV_OK : hv_arrow_refuse(HV_TYPE_MISMATCH, 0, 0, writing->error);
    if (*format) {
        if (!hv_arrow_is_format_of(*format, kind, &layout))
            return hv_arrow_refuse(HV_TYPE_MISMATCH, 0, 0, writing->error);
        if (layout.what == HV_ARROW_TEXTS) options->offset_bits = layout.width == sizeof(int64_t) ? 64 : 32;
        return HV_OK;
    }
    if (kind.number <= HV_BOOL) *format = natives[kind.number];
    else if (kind.number == HV_UTF8) *format = options->offset_bits == 64 ? "U" : "u";
    else if (kind.number == HV_BINARY) *format = options->offset_bits == 64 ? "Z" : "z";
    else snprintf(room, 16, "d:%d,%d", kind.precision, kind.scale), *format = room;
    return HV_OK;
}

/* ---- Flat arrays ---- */

static inline int32_t hv_arrow_write_validity(const hv_arrow_writing *writing, hv_column *column, size_t rows,
                                              struct ArrowArray *array) {
    size_t words = rows / 64 + (rows % 64 != 0);
    uint64_t *bits = (uint64_t *)hv_arrow_new_buffer(array, 0, words, sizeof *bits);
    if (!bits) return hv_arrow_no_memory(writing);
    int32_t answer = hv_read_validity(column, bits, words, writing->error);
    if (!answer) array->null_count = (int64_t)hv_arrow_zeros((const uint8_t *)bits, 0, rows);
    return answer;
}

static inline int32_t hv_arrow_read_out(hv_column *column, uint8_t number, size_t rows, void *items, hv_error *error) {
    switch (number) {
    case HV_U8: return hv_read_u8(column, 0, (uint8_t *)items, rows, error);
    case HV_U16: return hv_read_u16(column, 0, (uint16_t *)items, rows, error);
    case HV_U32: return hv_read_u32(column, 0, (uint32_t *)items, rows, error);
    case HV_U64: return hv_read_u64(column, 0, (uint64_t *)items, rows, error);
    case HV_I8: return hv_read_i8(column, 0, (int8_t *)items, rows, error);
    case HV_I16: return hv_read_i16(column, 0, (int16_t *)items, rows, error);
    case HV_I32: return hv_read_i32(column, 0, (int32_t *)items, rows, error);
    case HV_I64: return hv_read_i64(column, 0, (int64_t *)items, rows, error);
    case HV_DECIMAL: return hv_read_decimals(column, 0, (hv_pair *)items, rows, error);
    default: return hv_read_bools(column, (uint64_t *)items, rows / 64 + (rows % 64 != 0), error);
    }
}

static inline int32_t hv_arrow_write_items(const hv_arrow_writing *writing, hv_column *column, uint8_t number,
                                           size_t rows, struct ArrowArray *array) {
    static const uint8_t widths[] = {1, 2, 4, 8, 1, 2, 4, 8};
    bool truths = number == HV_BOOL;
    size_t count = truths ? rows / 64 + (rows % 64 != 0) : rows;
    size_t width = truths ? sizeof(uint64_t) : number == HV_DECIMAL ? sizeof(hv_pair) : widths[number];
    void *items = hv_arrow_new_buffer(array, 1, count, width);
    if (!items) return hv_arrow_no_memory(writing);
    return hv_arrow_read_out(column, number, rows, items, writing->error);
}

/* Where each text starts, from 0 on, by 32 bits, or by 64 where the options say so or leave it open and 32 have no such
 * offset. */
static inline int32_t hv_arrow_write_offsets(const hv_arrow_writing *writing, hv_column *column, size_t rows,
                                             struct ArrowArray *array, bool *wide) {
    *wide = writing->options.offset_bits == 64;
    if (!*wide) {
        int32_t *offsets = (int32_t *)hv_arrow_new_buffer(array, 1, rows + 1, sizeof *offsets);
        if (!offsets) return hv_arrow_no_memory(writing);
        int32_t answer = hv_read_offsets(column, 0, offsets, rows + 1, writing->error);
        if (answer != HV_CAST_OUT_OF_RANGE || writing->options.offset_bits) return answer;
        free(offsets);
        *wide = true;
    }
    int64_t *offsets = (int64_t *)hv_arrow_new_buffer(array, 1, rows + 1, sizeof *offsets);
    return offsets ? hv_read_large_offsets(column, 0, offsets, rows + 1, writing->error) : hv_arrow_no_memory(writing);
}

static inline int32_t hv_arrow_write_texts(const hv_arrow_writing *writing, hv_column *column, size_t rows,
                                           struct ArrowArray *array, bool *wide) {
    int32_t answer = hv_arrow_write_offsets(writing, column, rows, array, wide);
    if (answer) return answer;
    const void *offsets = array->buffers[1];
    size_t size = *wide ? (size_t)((const int64_t *)offsets)[rows] : (size_t)((const int32_t *)offsets)[rows];
    uint8_t *bytes = (uint8_t *)hv_arrow_new_buffer(array, 2, size, 1);
    return bytes ? hv_read_bytes(column, 0, rows, bytes, size, writing->error) : hv_arrow_no_memory(writing);
}

/* A flat column; with a format for the values that are not codes. */
static inline int32_t hv_arrow_write_plain(const hv_arrow_writing *given, hv_column *column, hv_kind kind,
                                           const char *name, struct ArrowSchema *schema, struct ArrowArray *array) {
    hv_arrow_writing writing = *given;
    size_t rows = hv_length(column);
    bool texts = kind.number == HV_UTF8 || kind.number == HV_BINARY, wide = false;
    char room[16];
    const char *format;
    int32_t answer = hv_arrow_choose_format(&writing, kind, room, &format);
    if (answer) return answer;
    if (!hv_arrow_new_array(array, rows, texts ? 3 : 2, 0)) return hv_arrow_no_memory(given);
    if (kind.nullable) answer = hv_arrow_write_validity(&writing, column, rows, array);
    if (!answer && texts) answer = hv_arrow_write_texts(&writing, column, rows, array, &wide);
    if (!answer && !texts) answer = hv_arrow_write_items(&writing, column, kind.number, rows, array);
    if (wide) format = kind.number == HV_UTF8 ? "U" : "Z";
    if (!answer && !hv_arrow_new_schema(schema, format, name, kind.nullable, 0)) answer = hv_arrow_no_memory(given);
    return answer;
}

static inline int32_t hv_arrow_write(const hv_arrow_writing *writing, hv_column *column, const char *name,
                                     struct ArrowSchema *schema, struct ArrowArray *array);

/* Whether each code that is not null numbers a row of the dictionary, by the least and the greatest of them. */
static inline int32_t hv_arrow_check_codes(const hv_arrow_writing *writing, hv_column *codes, uint64_t length) {
    uint8_t none;
    for (uint8_t greatest = 0; greatest < 2; greatest++) {
        hv_value code;
        int32_t answer = hv_extreme(writing->session, codes, greatest, &code, &none, 0, writing->error);
        if (answer) return answer;
        if (code.kind == HV_SIGNED && code.as_signed < 0)
            return hv_arrow_refuse(HV_OUT_OF_BOUNDS, UINT64_MAX, length, writing->error);
        uint64_t number = code.kind == HV_SIGNED ? (uint64_t)code.as_signed : code.as_unsigned;
        if (code.kind != HV_NULL && number >= length)
            return hv_arrow_refuse(HV_OUT_OF_BOUNDS, number, length, writing->error);
    }
    return HV_OK;
}

/* Flat codes with their dictionary, to which format and offsets of the options belong. */
static inline int32_t hv_arrow_write_coded(const hv_arrow_writing *writing, hv_column *codes, hv_kind kind,
                                           const char *name, struct ArrowSchema *schema, struct ArrowArray *array) {
    static const hv_arrow_options none = {0, 0, 0, 0, NULL, NULL};
    hv_arrow_writing plain = *writing, beside = *writing;
    plain.options = none;
    beside.options.dictionary = NULL;
    beside.depth++;
    int32_t answer = hv_arrow_write_plain(&plain, codes, kind, name, schema, array);
    if (answer) return answer;
    schema->dictionary = (struct ArrowSchema *)calloc(1, sizeof *schema);
    array->dictionary = (struct ArrowArray *)calloc(1, sizeof *array);
    if (!schema->dictionary || !array->dictionary) return hv_arrow_no_memory(writing);
    return hv_arrow_write(&beside, writing->options.dictionary, "", schema->dictionary, array->dictionary);
}

/* ---- Runs ---- */

/* Makes of all ends those of the rows that a window shows, counted from its first row, so that the last is the number
 * of rows. Answers how many they are; the first is of run *first. */
static inline size_t hv_arrow_trim(uint64_t *ends, size_t count, uint64_t offset, uint64_t rows, size_t *first) {
    size_t shown = 0;
    *first = 0;
    for (size_t run = 0; run < count && (shown == 0 || ends[shown - 1] < rows) && rows > 0; run++) {
        uint64_t end = ends[run];
        if (end <= offset) *first = run + 1;
        else ends[shown++] = end - offset < rows ? end - offset : rows;
    }
    return shown;
}

/* How many bits ends have that go up to `last`. */
static inline uint8_t hv_arrow_end_bits(const hv_arrow_options *options, uint64_t last) {
    if (options->end_bits) return options->end_bits;
    return last <= INT16_MAX ? 16 : last <= INT32_MAX ? 32 : 64;
}

static inline int32_t hv_arrow_write_ends(const hv_arrow_writing *writing, const uint64_t *ends, size_t count,
                                          struct ArrowSchema *schema, struct ArrowArray *array) {
    uint64_t last = count ? ends[count - 1] : 0;
    uint8_t bits = hv_arrow_end_bits(&writing->options, last);
    uint64_t greatest = bits == 16 ? INT16_MAX : bits == 32 ? INT32_MAX : INT64_MAX;
    size_t width = bits / 8;
    if (last > greatest) return hv_arrow_refuse(HV_ARROW_ENDS_TOO_LARGE, last, greatest, writing->error);
    if (!hv_arrow_new_schema(schema, bits == 16 ? "s" : bits == 32 ? "i" : "l", "run_ends", 0, 0))
        return hv_arrow_no_memory(writing);
    if (!hv_arrow_new_array(array, count, 2, 0)) return hv_arrow_no_memory(writing);
    char *items = (char *)hv_arrow_new_buffer(array, 1, count, width);
    if (!items) return hv_arrow_no_memory(writing);
    for (size_t run = 0; run < count; run++) memcpy(items + run * width, &ends[run], width);
    return HV_OK;
}

/* The children of an array of runs: these ends, and one value for each. */
static inline int32_t hv_arrow_write_runs(const hv_arrow_writing *writing, const uint64_t *ends, size_t count,
                                          hv_column *values, struct ArrowSchema *schema, struct ArrowArray *array) {
    hv_arrow_writing within = *writing;
    if (within.options.form == HV_ARROW_AS_RUNS) within.options.form = HV_ARROW_AS_FLAT;
    within.depth++;
    int32_t answer = hv_arrow_write_ends(writing, ends, count, schema->children[0], array->children[0]);
    if (answer) return answer;
    return hv_arrow_write(&within, values, "values", schema->children[1], array->children[1]);
}

/* Run ends of any unsigned type, as 64 bits. */
static inline int32_t hv_arrow_wide_ends(const hv_session *session, hv_column *ends, uint64_t *items, size_t count,
                                         hv_error *error) {
    const hv_kind wide_kind = {HV_U64, 0, 0, 0};
    hv_column wide = HV_EMPTY, flat = HV_EMPTY;
    int32_t answer = hv_cast(session, ends, &wide_kind, &wide, error);
    if (!answer) answer = hv_decode(session, &wide, &flat, error);
    if (!answer) answer = hv_read_u64(&flat, 0, items, count, error);
    hv_free(&wide);
    hv_free(&flat);
    return answer;
}

/* The runs of a run column that its window shows: their ends, which are the caller's to free, and their values. */
static inline int32_t hv_arrow_visible_runs(const hv_session *session, hv_column *column, uint64_t **ends,
                                            size_t *count, hv_column *values, hv_error *error) {
    hv_column stored = HV_EMPTY, all = HV_EMPTY;
    size_t first, runs;
    int32_t answer = hv_ends(column, &stored, error);
    if (!answer) answer = hv_values(column, &all, error);
    runs = hv_length(&stored);
    *ends = answer ? NULL : (uint64_t *)malloc(runs * sizeof **ends + 1);
    if (!answer && !*ends) answer = hv_arrow_refuse(HV_OUT_OF_MEMORY, 0, 0, error);
    if (!answer) answer = hv_arrow_wide_ends(session, &stored, *ends, runs, error);
    if (!answer) {
        *count = hv_arrow_trim(*ends, runs, hv_offset(column), hv_length(column), &first);
        answer = hv_slice(session, &all, first, first + *count, values, error);
    }
    hv_free(&stored);
    hv_free(&all);
    return answer;
}

/* The same of a constant, which is one run, and of no rows none. */
static inline int32_t hv_arrow_constant_run(const hv_session *session, hv_column *column, uint64_t **ends,
                                            size_t *count, hv_column *values, hv_error *error) {
    hv_column one = HV_EMPTY;
    *count = hv_length(column) > 0;
    *ends = (uint64_t *)malloc(sizeof **ends);
    if (!*ends) return hv_arrow_refuse(HV_OUT_OF_MEMORY, 0, 0, error);
    **ends = hv_length(column);
    int32_t answer = hv_slice(session, column, 0, *count, &one, error);
    if (!answer) answer = hv_decode(session, &one, values, error);
    hv_free(&one);
    return answer;
}

/* The runs that a column shows which lies as runs or a constant. */
static inline int32_t hv_arrow_runs_of(const hv_session *session, hv_column *column, uint64_t **ends, size_t *count,
                                       hv_column *values, hv_error *error) {
    if (hv_form(column) == HV_ARROW_CONSTANT) return hv_arrow_constant_run(session, column, ends, count, values, error);
    return hv_arrow_visible_runs(session, column, ends, count, values, error);
}

static inline int32_t hv_arrow_write_run_column(const hv_arrow_writing *writing, hv_column *column,
                                                struct ArrowSchema *schema, struct ArrowArray *array) {
    hv_column values = HV_EMPTY;
    uint64_t *ends = NULL;
    size_t count = 0;
    int32_t answer = hv_arrow_runs_of(writing->session, column, &ends, &count, &values, writing->error);
    if (!answer) answer = hv_arrow_write_runs(writing, ends, count, &values, schema, array);
    free(ends);
    hv_free(&values);
    return answer;
}

/* Whether row i and the next are equal, null equal to null, as bits of which there is one less than rows. */
static inline int32_t hv_arrow_equal_neighbours(const hv_arrow_writing *writing, hv_column *column, size_t rows,
                                                uint64_t *equal, uint64_t *both_valid, uint64_t *valid) {
    const hv_session *session = writing->session;
    hv_column left = HV_EMPTY, right = HV_EMPTY, compared = HV_EMPTY, flat = HV_EMPTY;
    size_t words = rows / 64 + (rows % 64 != 0), pair_words = (rows - 1) / 64 + ((rows - 1) % 64 != 0);
    int32_t answer = hv_slice(session, column, 0, rows - 1, &left, writing->error);
    if (!answer) answer = hv_slice(session, column, 1, rows, &right, writing->error);
    if (!answer) answer = hv_compare(session, &left, HV_EQ, &right, &compared, writing->error);
    if (!answer) answer = hv_decode(session, &compared, &flat, writing->error);
    if (!answer) answer = hv_read_bools(&flat, equal, pair_words, writing->error);
    if (!answer) answer = hv_read_validity(&flat, both_valid, pair_words, writing->error);
    if (!answer) answer = hv_read_validity(column, valid, words, writing->error);
    hv_free(&left);
    hv_free(&right);
    hv_free(&compared);
    hv_free(&flat);
    return answer;
}

static inline bool hv_arrow_bit(const uint64_t *words, size_t at) { return words[at / 64] >> at % 64 & 1; }

/* The ends of the runs of a flat column of at least one row, and how many there are; `ends` has room for one each row.
 */
static inline int32_t hv_arrow_find_ends(const hv_arrow_writing *writing, hv_column *column, size_t rows,
                                         uint64_t *ends, size_t *count) {
    size_t words = rows / 64 + 1;
    uint64_t *bits = (uint64_t *)calloc(words, 3 * sizeof *bits);
    if (!bits) return hv_arrow_no_memory(writing);
    uint64_t *equal = bits, *both_valid = bits + words, *valid = bits + 2 * words;
    int32_t answer = hv_arrow_equal_neighbours(writing, column, rows, equal, both_valid, valid);
    *count = 0;
    for (size_t row = 0; !answer && row < rows; row++) {
        bool same = row + 1 < rows &&
                    (hv_arrow_bit(both_valid, row) ? hv_arrow_bit(equal, row)
                                                   : !hv_arrow_bit(valid, row) && !hv_arrow_bit(valid, row + 1));
        if (!same) ends[(*count)++] = row + 1;
    }
    free(bits);
    return answer;
}

/* The first value of each run, by the ends before. */
static inline int32_t hv_arrow_first_values(const hv_arrow_writing *writing, hv_column *column, const uint64_t *ends,
                                            size_t count, hv_column *out) {
    uint64_t *starts = (uint64_t *)malloc(count * sizeof *starts);
    hv_column indices = HV_EMPTY, taken = HV_EMPTY;
    if (!starts) return hv_arrow_no_memory(writing);
    for (size_t run = 0; run < count; run++) starts[run] = run ? ends[run - 1] : 0;
    int32_t answer = hv_u64(starts, count, hv_not_nullable(), &indices, writing->error);
    if (!answer) answer = hv_take(writing->session, column, &indices, &taken, writing->error);
    if (!answer) answer = hv_decode(writing->session, &taken, out, writing->error);
    free(starts);
    hv_free(&indices);
    hv_free(&taken);
    return answer;
}

/* A flat column as runs: each as long as rows are equal. */
static inline int32_t hv_arrow_write_encoded(const hv_arrow_writing *writing, hv_column *column,
                                             struct ArrowSchema *schema, struct ArrowArray *array) {
    size_t rows = hv_length(column), count = 0;
    uint64_t *ends = (uint64_t *)malloc(rows * sizeof *ends + 1);
    hv_column values = HV_EMPTY;
    if (!ends) return hv_arrow_no_memory(writing);
    int32_t answer = rows ? hv_arrow_find_ends(writing, column, rows, ends, &count) : (int32_t)HV_OK;
    if (!answer && rows) answer = hv_arrow_first_values(writing, column, ends, count, &values);
    if (!answer) answer = hv_arrow_write_runs(writing, ends, count, rows ? &values : column, schema, array);
    free(ends);
    hv_free(&values);
    return answer;
}

/* ---- Any column ---- */

static inline int32_t hv_arrow_write_flat(const hv_arrow_writing *writing, hv_column *column, const char *name,
                                          struct ArrowSchema *schema, struct ArrowArray *array) {
    hv_kind kind = hv_kind_of(column);
    if (writing->options.dictionary) return hv_arrow_write_coded(writing, column, kind, name, schema, array);
    return hv_arrow_write_plain(writing, column, kind, name, schema, array);
}

static inline int32_t hv_arrow_write_lists(const hv_arrow_writing *writing, hv_column *column, const char *name,
                                           struct ArrowSchema *schema, struct ArrowArray *array);

static inline int32_t hv_arrow_write_decoded(const hv_arrow_writing *writing, hv_column *column, const char *name,
                                             struct ArrowSchema *schema, struct ArrowArray *array) {
    hv_column flat = HV_EMPTY;
    int32_t answer = hv_decode(writing->session, column, &flat, writing->error);
    if (!answer)
        answer = hv_form(&flat) == HV_ARROW_OF_LISTS ? hv_arrow_write_lists(writing, &flat, name, schema, array)
                                                     : hv_arrow_write_flat(writing, &flat, name, schema, array);
    hv_free(&flat);
    return answer;
}

/* What was made before a refusal is left for the caller to release. */
static inline int32_t hv_arrow_write(const hv_arrow_writing *writing, hv_column *column, const char *name,
                                     struct ArrowSchema *schema, struct ArrowArray *array) {
    hv_kind kind = hv_kind_of(column);
    uint8_t form = hv_form(column), wanted = writing->options.form;
    size_t rows = hv_length(column);
    if (form == HV_ARROW_NO_FORM) return hv_arrow_refuse(HV_NO_COLUMN, 0, 0, writing->error);
    if (kind.number > HV_LIST || rows > INT64_MAX || writing->depth >= HV_ARROW_DEPTH)
        return hv_arrow_refuse(HV_UNSUPPORTED, 0, 0, writing->error);
    if (form == HV_ARROW_OF_LISTS && wanted == HV_ARROW_AS_RUNS)
        return hv_arrow_refuse(HV_UNSUPPORTED, 0, 0, writing->error);
    if (form == HV_ARROW_OF_LISTS) return hv_arrow_write_lists(writing, column, name, schema, array);
    if (form == HV_ARROW_FLAT && wanted != HV_ARROW_AS_RUNS)
        return hv_arrow_write_flat(writing, column, name, schema, array);
    if (wanted == HV_ARROW_AS_FLAT) return hv_arrow_write_decoded(writing, column, name, schema, array);
    if (!hv_arrow_new_schema(schema, "+r", name, kind.nullable, 2)) return hv_arrow_no_memory(writing);
    if (!hv_arrow_new_array(array, rows, 0, 2)) return hv_arrow_no_memory(writing);
    if (form == HV_ARROW_FLAT) return hv_arrow_write_encoded(writing, column, schema, array);
    return hv_arrow_write_run_column(writing, column, schema, array);
}

/* Codes are integers, and within their dictionary. */
static inline int32_t hv_arrow_check_dictionary(const hv_arrow_writing *writing, hv_column *codes) {
    hv_column *dictionary = writing->options.dictionary;
    if (!dictionary || hv_form(codes) == HV_ARROW_NO_FORM) return HV_OK;
    if (hv_form(dictionary) == HV_ARROW_NO_FORM) return hv_arrow_refuse(HV_NO_COLUMN, 0, 0, writing->error);
    if (hv_kind_of(codes).number > HV_I64) return hv_arrow_refuse(HV_TYPE_MISMATCH, 0, 0, writing->error);
    return hv_arrow_check_codes(writing, codes, hv_length(dictionary));
}

static inline int32_t hv_arrow_export_with(const hv_session *session, hv_column *column, const char *name,
                                           const hv_arrow_options *options, struct ArrowSchema *schema,
                                           struct ArrowArray *array, hv_error *error) {
    const hv_arrow_options none = {0, 0, 0, 0, NULL, NULL};
    const hv_arrow_writing writing = {session, error, options ? *options : none, 0};
    memset(schema, 0, sizeof *schema);
    memset(array, 0, sizeof *array);
    hv_arrow_refuse(HV_OK, 0, 0, error);
    if (!hv_arrow_are_options(&writing.options)) return HV_BAD_NUMBER;
    int32_t answer = hv_arrow_check_dictionary(&writing, column);
    if (!answer) answer = hv_arrow_write(&writing, column, name ? name : "", schema, array);
    if (answer) hv_arrow_release(schema, array);
    return answer;
}

static inline int32_t hv_arrow_export(const hv_session *session, hv_column *column, const char *name,
                                      struct ArrowSchema *schema, struct ArrowArray *array, hv_error *error) {
    return hv_arrow_export_with(session, column, name, NULL, schema, array, error);
}

static inline int32_t hv_arrow_export_as(const hv_session *session, hv_column *column, const char *name,
                                         const char *format, struct ArrowSchema *schema, struct ArrowArray *array,
                                         hv_error *error) {
    const hv_arrow_options options = {0, 0, 0, 0, format, NULL};
    return hv_arrow_export_with(session, column, name, &options, schema, array, error);
}

static inline int32_t hv_arrow_export_bits(const hv_session *session, hv_column *column, const char *name,
                                           struct ArrowSchema *schema, struct ArrowArray *array, hv_error *error) {
    const hv_arrow_options options = {0, 0, 0, 1, NULL, NULL};
    return hv_arrow_export_with(session, column, name, &options, schema, array, error);
}

static inline int32_t hv_arrow_export_dictionary(const hv_session *session, hv_column *codes, hv_column *dictionary,
                                                 const char *name, struct ArrowSchema *schema, struct ArrowArray *array,
                                                 hv_error *error) {
    const hv_arrow_options options = {0, 0, 0, 0, NULL, dictionary};
    return hv_arrow_export_with(session, codes, name, &options, schema, array, error);
}
#endif
