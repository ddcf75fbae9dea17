/* Formats, bits, and rows of an array, for the other parts of hivevigil_arrow.h, which includes this one: what a format
 * says, whether an array is one of its format, and which of its rows are null. No pointer is followed before it is
 * known not to be null, and none is formed that is not aligned for its type: buffers are read by memcpy, or copied
 * where hivevigil.h wants them aligned. */
#ifndef HIVEVIGIL_ARROW_ROWS_H
#define HIVEVIGIL_ARROW_ROWS_H
#include "hivevigil_arrow.h"

/* Which rows are null, and what hv_form answers. */
enum { HV_ARROW_NOT_NULLABLE = 0, HV_ARROW_NO_NULLS = 1, HV_ARROW_NULLS_BY_BITS = 2 };
enum { HV_ARROW_FLAT = 0, HV_ARROW_CONSTANT = 1, HV_ARROW_OF_LISTS = 2, HV_ARROW_RUNS = 3, HV_ARROW_NO_FORM = 255 };

/* No items, by an address that is not null: nothing is read there. */
static inline const uint8_t *hv_arrow_nothing(void) {
    static const uint64_t nothing = 0;
    return (const uint8_t *)&nothing;
}

/* The number of a refusal, whose fields are written where there is an error to write them to. */
static inline int32_t hv_arrow_refuse(int32_t number, uint64_t first, uint64_t second, hv_error *error) {
    if (error) error->first = first, error->second = second, error->third = 0;
    return number;
}

/* The refusal of a row's offsets, of texts or of lists. */
static inline int32_t hv_arrow_refuse_offset(uint64_t row, uint64_t about, hv_error *error) {
    hv_arrow_refuse(HV_OK, row, 0, error);
    if (error) error->third = about;
    return HV_ENDS_NOT_STRICT;
}

static inline int32_t hv_arrow_invalid(uint64_t why, hv_error *error) {
    return hv_arrow_refuse(HV_ARROW_INVALID, why, 0, error);
}

/* ---- Formats ---- */

enum {
    HV_ARROW_NUMBERS,
    HV_ARROW_TRUTHS,
    HV_ARROW_DECIMALS,
    HV_ARROW_FLOATS,
    HV_ARROW_TEXTS,
    HV_ARROW_VIEWS,
    HV_ARROW_FIXED,
    HV_ARROW_LISTS,
    HV_ARROW_RUN_ENDS,
    HV_ARROW_BATCH
};

/* What a format says of an array: what it has, the type of a column of it, and the bytes of an item (of an offset, for
 * texts and lists; of a view, for views). */
typedef struct hv_arrow_layout {
    uint8_t what, number;
    uint32_t width;
    uint8_t precision;
    int8_t scale;
} hv_arrow_layout;

typedef struct hv_arrow_named_layout {
    char format[4];
    hv_arrow_layout layout;
} hv_arrow_named_layout;

/* The formats that are one word each. */
static inline const hv_arrow_named_layout *hv_arrow_layouts(size_t *count) {
    static const hv_arrow_named_layout layouts[] = {
        {"C", {HV_ARROW_NUMBERS, HV_U8, 1, 0, 0}},     {"S", {HV_ARROW_NUMBERS, HV_U16, 2, 0, 0}},
        {"I", {HV_ARROW_NUMBERS, HV_U32, 4, 0, 0}},    {"L", {HV_ARROW_NUMBERS, HV_U64, 8, 0, 0}},
        {"c", {HV_ARROW_NUMBERS, HV_I8, 1, 0, 0}},     {"s", {HV_ARROW_NUMBERS, HV_I16, 2, 0, 0}},
        {"i", {HV_ARROW_NUMBERS, HV_I32, 4, 0, 0}},    {"l", {HV_ARROW_NUMBERS, HV_I64, 8, 0, 0}},
        {"tdD", {HV_ARROW_NUMBERS, HV_I32, 4, 0, 0}},  {"tts", {HV_ARROW_NUMBERS, HV_I32, 4, 0, 0}},
        {"ttm", {HV_ARROW_NUMBERS, HV_I32, 4, 0, 0}},  {"tiM", {HV_ARROW_NUMBERS, HV_I32, 4, 0, 0}},
        {"tdm", {HV_ARROW_NUMBERS, HV_I64, 8, 0, 0}},  {"ttu", {HV_ARROW_NUMBERS, HV_I64, 8, 0, 0}},
        {"ttn", {HV_ARROW_NUMBERS, HV_I64, 8, 0, 0}},  {"tDs", {HV_ARROW_NUMBERS, HV_I64, 8, 0, 0}},
        {"tDm", {HV_ARROW_NUMBERS, HV_I64, 8, 0, 0}},  {"tDu", {HV_ARROW_NUMBERS, HV_I64, 8, 0, 0}},
        {"tDn", {HV_ARROW_NUMBERS, HV_I64, 8, 0, 0}},  {"b", {HV_ARROW_TRUTHS, HV_BOOL, 1, 0, 0}},
        {"e", {HV_ARROW_FLOATS, HV_U16, 2, 0, 0}},     {"f", {HV_ARROW_FLOATS, HV_U32, 4, 0, 0}},
        {"g", {HV_ARROW_FLOATS, HV_U64, 8, 0, 0}},     {"u", {HV_ARROW_TEXTS, HV_UTF8, 4, 0, 0}},
        {"U", {HV_ARROW_TEXTS, HV_UTF8, 8, 0, 0}},     {"z", {HV_ARROW_TEXTS, HV_BINARY, 4, 0, 0}},
        {"Z", {HV_ARROW_TEXTS, HV_BINARY, 8, 0, 0}},   {"vu", {HV_ARROW_VIEWS, HV_UTF8, 16, 0, 0}},
        {"vz", {HV_ARROW_VIEWS, HV_BINARY, 16, 0, 0}}, {"+r", {HV_ARROW_RUN_ENDS, HV_LIST, 1, 0, 0}},
        {"+s", {HV_ARROW_BATCH, HV_LIST, 1, 0, 0}},    {"+l", {HV_ARROW_LISTS, HV_LIST, 4, 0, 0}},
        {"+L", {HV_ARROW_LISTS, HV_LIST, 8, 0, 0}},
    };
    *count = sizeof layouts / sizeof *layouts;
    return layouts;
}

/* An integer of up to nine digits at the front of a text, which then begins after it. */
static inline bool hv_arrow_take_number(const char **text, int *number) {
    bool negative = **text == '-';
    const char *digits = *text + negative, *end = digits;
    *number = 0;
    for (; *end >= '0' && *end <= '9' && end - digits < 9; end++) *number = *number * 10 + (*end - '0');
    *text = end;
    if (negative) *number = -*number;
    return end > digits;
}

static inline bool hv_arrow_take_comma(const char **text) { return *(*text)++ == ','; }

/* "d:precision,scale", of 128 bits, or "d:precision,scale,bits". */
static inline bool hv_arrow_decimal_layout(const char *format, hv_arrow_layout *layout) {
    int precision, scale, bits = 128;
    const char *rest = format + 2;
    if (strncmp(format, "d:", 2) != 0 || !hv_arrow_take_number(&rest, &precision)) return false;
    if (!hv_arrow_take_comma(&rest) || !hv_arrow_take_number(&rest, &scale)) return false;
    if (*rest && (!hv_arrow_take_comma(&rest) || !hv_arrow_take_number(&rest, &bits))) return false;
    int most = bits == 128 ? 38 : bits == 64 ? 18 : bits == 32 ? 9 : 0;
    if (*rest || precision < 1 || precision > most || scale < INT8_MIN || scale > INT8_MAX) return false;
    const hv_arrow_layout found = {HV_ARROW_DECIMALS, HV_DECIMAL, (uint32_t)bits / 8, (uint8_t)precision,
                                   (int8_t)scale};
    *layout = found;
    return true;
}

/* "w:bytes", bytes of one size. */
static inline bool hv_arrow_fixed_layout(const char *format, hv_arrow_layout *layout) {
    int width;
    const char *rest = format + 2;
    if (strncmp(format, "w:", 2) != 0 || !hv_arrow_take_number(&rest, &width) || *rest || width < 0) return false;
    const hv_arrow_layout found = {HV_ARROW_FIXED, HV_BINARY, (uint32_t)width, 0, 0};
    *layout = found;
    return true;
}

/* False for a format that does not come in, and for a text that is not a format. */
static inline bool hv_arrow_layout_of(const char *format, hv_arrow_layout *layout) {
    static const hv_arrow_layout timestamps = {HV_ARROW_NUMBERS, HV_I64, 8, 0, 0};
    size_t count;
    const hv_arrow_named_layout *named = hv_arrow_layouts(&count);
    for (size_t i = 0; i < count; i++)
        if (strcmp(format, named[i].format) == 0) {
            *layout = named[i].layout;
            return true;
        }
    if (strncmp(format, "ts", 2) == 0 && format[2] && strchr("smun", format[2]) && format[3] == ':') {
        *layout = timestamps; /* any zone may follow */
        return true;
    }
    return hv_arrow_decimal_layout(format, layout) || hv_arrow_fixed_layout(format, layout);
}

/* ---- Bits ---- */

static inline size_t hv_arrow_bytes_of_bits(size_t bits) { return bits / 8 + (bits % 8 != 0); }

/* How many of the bits are 1: neighbours are added, then pairs of them, and so on. */
static inline size_t hv_arrow_ones(uint64_t word) {
    word -= word >> 1 & 0x5555555555555555u;
    word = (word & 0x3333333333333333u) + (word >> 2 & 0x3333333333333333u);
    word = (word + (word >> 4)) & 0x0f0f0f0f0f0f0f0fu;
    return (size_t)(word * 0x0101010101010101u >> 56);
}

/* Up to 64 bits from bit `start` on. No byte but theirs is read. */
static inline uint64_t hv_arrow_bits_at(const uint8_t *bits, size_t start, size_t count) {
    size_t shift = start % 8, bytes = hv_arrow_bytes_of_bits(shift + count);
    uint64_t low = 0, word;
    memcpy(&low, bits + start / 8, bytes < 8 ? bytes : 8);
    word = low >> shift;
    if (bytes > 8) word |= (uint64_t)bits[start / 8 + 8] << (64 - shift);
    return count < 64 ? word & (((uint64_t)1 << count) - 1) : word;
}

static inline size_t hv_arrow_zeros(const uint8_t *bits, size_t start, size_t count) {
    size_t ones = 0;
    for (size_t done = 0; done < count; done += 64)
        ones += hv_arrow_ones(hv_arrow_bits_at(bits, start + done, count - done < 64 ? count - done : 64));
    return count - ones;
}

/* ---- Rows of an array ---- */

/* What an import is done with. */
typedef struct hv_arrow_reading {
    const hv_session *session;
    hv_error *error;
    bool floats;                        /* come in as their bits */
    int depth;                          /* runs and dictionaries around what is read now */
    struct hv_arrow_dictionaries *kept; /* those of a stream; NULL outside of one */
} hv_arrow_reading;

/* Some rows of an array: where they start in its buffers, and which of them are null. */
typedef struct hv_arrow_rows {
    const struct ArrowSchema *schema;
    const struct ArrowArray *array;
    hv_arrow_layout layout;
    size_t start, count, null_count;
    uint8_t nulls;
    const uint8_t *bits;
    size_t bits_len;
} hv_arrow_rows;

/* The nulls as the makers of hivevigil.h take them. */
static inline hv_validity hv_arrow_validity(const hv_arrow_rows *rows) {
    if (rows->nulls == HV_ARROW_NULLS_BY_BITS) return hv_valid_bits(rows->bits, rows->bits_len, rows->start);
    return rows->nulls == HV_ARROW_NO_NULLS ? hv_all_valid() : hv_not_nullable();
}

static inline int32_t hv_arrow_read(const hv_arrow_reading *reading, const hv_arrow_rows *rows, hv_column *out);
static inline int32_t hv_arrow_read_lists(const hv_arrow_reading *reading, const hv_arrow_rows *rows, hv_column *out);

/* Whether both are there, and what the format is; 13 for one that is not served. */
static inline int32_t hv_arrow_check_structs(const struct ArrowSchema *schema, const struct ArrowArray *array,
                                             hv_arrow_layout *layout, hv_error *error) {
    if (!schema || !array || !schema->release || !array->release) return hv_arrow_invalid(HV_ARROW_RELEASED, error);
    if (!schema->format) return hv_arrow_invalid(HV_ARROW_NO_POINTER, error);
    if (!hv_arrow_layout_of(schema->format, layout)) return hv_arrow_refuse(HV_UNSUPPORTED, 0, 0, error);
    if (!schema->dictionary != !array->dictionary) return hv_arrow_invalid(HV_ARROW_DICTIONARY, error);
    bool codes = layout->what == HV_ARROW_NUMBERS && !schema->format[1]; /* integers, and no times */
    return schema->dictionary && !codes ? hv_arrow_invalid(HV_ARROW_DICTIONARY, error) : (int32_t)HV_OK;
}

/* Whether there are as many buffers as the layout has. An array of runs has none; some producers write a missing
 * bitmap. */
static inline bool hv_arrow_has_buffers(const struct ArrowArray *array, uint8_t what) {
    switch (what) {
    case HV_ARROW_RUN_ENDS: return array->n_buffers == 0 || array->n_buffers == 1;
    case HV_ARROW_BATCH: return array->n_buffers == 1;
    case HV_ARROW_TEXTS: return array->n_buffers == 3;
    case HV_ARROW_VIEWS: return array->n_buffers >= 3;
    default: return array->n_buffers == 2;
    }
}

static inline bool hv_arrow_has_children(const struct ArrowSchema *schema, const struct ArrowArray *array,
                                         uint8_t what) {
    if (what == HV_ARROW_BATCH) return schema->n_children >= 0 && array->n_children == schema->n_children;
    int64_t due = what == HV_ARROW_RUN_ENDS ? 2 : what == HV_ARROW_LISTS ? 1 : 0;
    return schema->n_children == due && array->n_children == due;
}

static inline int32_t hv_arrow_check_parts(const struct ArrowSchema *schema, const struct ArrowArray *array,
                                           uint8_t what, hv_error *error) {
    if (!hv_arrow_has_buffers(array, what)) return hv_arrow_invalid(HV_ARROW_PARTS, error);
    if (!hv_arrow_has_children(schema, array, what)) return hv_arrow_invalid(HV_ARROW_PARTS, error);
    if (array->n_buffers > 0 && !array->buffers) return hv_arrow_invalid(HV_ARROW_NO_POINTER, error);
    if (array->n_children > 0 && (!schema->children || !array->children))
        return hv_arrow_invalid(HV_ARROW_NO_POINTER, error);
    return HV_OK;
}

/* How many rows an array may have with those before its offset: as many as memory could hold of its items, of which no
 * machine has 2^56 bytes. Runs, and batches without a bitmap, have no items. */
static inline int64_t hv_arrow_most_rows(const struct ArrowArray *array, const hv_arrow_layout *layout) {
    bool no_items = layout->what == HV_ARROW_RUN_ENDS || (layout->what == HV_ARROW_BATCH && !array->buffers[0]);
    return no_items ? INT64_MAX : ((int64_t)1 << 56) / (layout->width ? layout->width : 1) - 1;
}

/* Whether length, offset and null_count are numbers that an array may have. */
static inline int32_t hv_arrow_check_length(const struct ArrowArray *array, const hv_arrow_layout *layout,
                                            hv_error *error) {
    int64_t most = hv_arrow_most_rows(array, layout);
    if (array->length < 0 || array->offset < 0 || array->offset > most - array->length || array->length > most)
        return hv_arrow_invalid(HV_ARROW_LENGTH, error);
    if (array->null_count < -1 || array->null_count > array->length)
        return hv_arrow_invalid(HV_ARROW_NULL_COUNT, error);
    return HV_OK;
}

/* Which of the rows are null. The count that the array gives is of all its rows; that it is wrong is seen where these
 * are all of them, and where these have more. */
static inline int32_t hv_arrow_select_nulls(hv_arrow_rows *rows, hv_error *error) {
    const struct ArrowArray *array = rows->array;
    const uint8_t *bits = array->n_buffers > 0 ? (const uint8_t *)array->buffers[0] : NULL;
    rows->nulls = rows->schema->flags & ARROW_FLAG_NULLABLE ? HV_ARROW_NO_NULLS : HV_ARROW_NOT_NULLABLE;
    rows->bits = NULL;
    rows->bits_len = 0;
    rows->null_count = 0;
    if (rows->layout.what == HV_ARROW_RUN_ENDS && (bits || array->null_count > 0))
        return hv_arrow_invalid(HV_ARROW_NULL_IN_RUNS, error);
    if (bits) rows->null_count = hv_arrow_zeros(bits, rows->start, rows->count);
    int64_t found = (int64_t)rows->null_count, stated = array->null_count;
    bool all = rows->count == (size_t)array->length;
    if (!bits && stated > 0) return hv_arrow_invalid(HV_ARROW_NULL_COUNT, error);
    if (stated >= 0 && (found > stated || (all && found < stated))) return hv_arrow_invalid(HV_ARROW_NULL_COUNT, error);
    if (found == 0) return HV_OK;
    rows->nulls = HV_ARROW_NULLS_BY_BITS;
    rows->bits = bits;
    rows->bits_len = hv_arrow_bytes_of_bits(rows->start + rows->count);
    return HV_OK;
}

/* Rows `from` to `from + count - 1` of an array, or all rows where `count` is SIZE_MAX. */
static inline int32_t hv_arrow_select(const struct ArrowSchema *schema, const struct ArrowArray *array, size_t from,
                                      size_t count, hv_arrow_rows *rows, hv_error *error) {
    int32_t answer = hv_arrow_check_structs(schema, array, &rows->layout, error);
    if (!answer) answer = hv_arrow_check_parts(schema, array, rows->layout.what, error);
    if (!answer) answer = hv_arrow_check_length(array, &rows->layout, error);
    if (answer) return answer;
    size_t length = (size_t)array->length;
    if (count == SIZE_MAX) count = length;
    if (from > length || count > length - from) return hv_arrow_invalid(HV_ARROW_LENGTH, error);
    rows->schema = schema;
    rows->array = array;
    rows->start = (size_t)array->offset + from;
    rows->count = count;
    return hv_arrow_select_nulls(rows, error);
}

/* Items `first` to `first + count - 1` of a buffer, of `width` bytes each, where they can be read as such: in the
 * buffer, or, where that is not aligned, in a copy, which *copy has then for the caller to free. */
static inline int32_t hv_arrow_items(const hv_arrow_rows *rows, int64_t buffer, size_t first, size_t count,
                                     size_t width, const void **items, void **copy, hv_error *error) {
    const uint8_t *bytes = (const uint8_t *)rows->array->buffers[buffer];
    size_t alignment = width < 8 ? width : 8;
    *copy = NULL;
    *items = hv_arrow_nothing();
    if (count == 0) return HV_OK;
    if (!bytes) return hv_arrow_invalid(HV_ARROW_NO_POINTER, error);
    *items = bytes + first * width;
    if ((uintptr_t)bytes % alignment == 0) return HV_OK;
    *copy = malloc(count * width);
    if (!*copy) return hv_arrow_refuse(HV_OUT_OF_MEMORY, 0, 0, error);
    *items = memcpy(*copy, bytes + first * width, count * width);
    return HV_OK;
}
#endif
