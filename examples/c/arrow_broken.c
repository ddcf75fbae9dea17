/* Random legal Arrow arrays in which one field of one struct, or one item of one buffer, is broken: each is answered,
 * and under a sanitizer no byte is read that is not the array's, no null pointer followed and no pointer misaligned.
 * What comes in is read row by row and goes out again. How long a buffer is no reader of the interface can see, so
 * buffers are longer here than their arrays need, offsets of texts are made smaller only, and an array of views is left
 * without buffers, or as it is. arrow_broken [COUNT [SEED]]
 */
#include "arrow_list_layouts.h"
#include "check.h"

enum { STRUCTS = 64, SLACK = 512 };

static hv_session session;
static hv_error error;
static hv_column column = HV_EMPTY;
static struct ArrowSchema *schemas[STRUCTS];
static struct ArrowArray *arrays[STRUCTS];
static size_t structs;

/* All structs of an array, each schema next to its array. */
static void collect(struct ArrowSchema *schema, struct ArrowArray *array) {
    schemas[structs] = schema;
    arrays[structs++] = array;
    for (int64_t i = 0; i < array->n_children; i++) collect(schema->children[i], array->children[i]);
    if (array->dictionary) collect(schema->dictionary, array->dictionary);
}

static bool is_text(const char *format) { return strlen(format) == 1 && strchr("uUzZ", format[0]); }
static bool is_view(const char *format) { return format[0] == 'v'; }
static bool is_list(const char *format) { return strcmp(format, "+l") == 0 || strcmp(format, "+L") == 0; }

/* Numbers that no length, offset or count may be, and some that are near the right one. */
static int64_t broken_number(int64_t right) {
    static const int64_t numbers[] = {-1, -2, INT64_MIN, INT64_MAX, INT64_MAX - 1, 0, 1, 2, 3};
    if (one_in(2)) return right + (int64_t)below(40) - 20;
    return numbers[below(COUNT(numbers))];
}

static void break_format(struct ArrowSchema *schema) {
    static const char *const wrong[] = {
        "",     "n",   "+l",   "+L",   "+s",    "+r",     "+m",        "+w:2",   "w:x",        "e",        "f",   "g",
        "d:",   "d:x", "d:10", "d:5,", "d:0,1", "d:39,2", "d:5,1,256", "d:5,1,", "d:5,1,128x", "d:-5,1",   "ts",  "tss",
        "tsx:", "tdx", "tdDD", "ll",   "lx",    "+rr",    "tiD",       "vu ",    "u8",         "d:10,200", "tDs:"};
    const char *format = one_in(3) ? NULL : one_in(2) ? wrong[below(COUNT(wrong))] : types[below(TYPES)].format;
    bool texts = format && (is_text(format) || is_view(format));
    if (texts && (is_text(schema->format) || is_view(schema->format))) format = "";
    schema->format = format;
}

static void *broken_pointer(void *right) {
    switch (below(3)) {
    case 0: return NULL;
    case 1: return right;
    default: return one_in(2) ? (void *)schemas[0] : NULL;
    }
}

static void break_schema(struct ArrowSchema *schema) {
    size_t child = schema->n_children > 0 ? below((size_t)schema->n_children) : 0;
    switch (below(8)) {
    case 0: break_format(schema); break;
    case 1: schema->name = one_in(2) ? NULL : (const char *)1; break;
    case 2: schema->metadata = (const char *)1; break;
    case 3: schema->flags = (int64_t)chance(); break;
    case 4: schema->n_children = broken_number(schema->n_children); break;
    case 5:
        if (schema->children && one_in(2)) schema->children[child] = one_in(2) ? NULL : schemas[0];
        else schema->children = NULL;
        break;
    case 6: schema->dictionary = (struct ArrowSchema *)broken_pointer(schemas[below(structs)]); break;
    default: schema->release = NULL;
    }
}

static void break_buffer(const struct ArrowSchema *schema, struct ArrowArray *array) {
    if (array->n_buffers == 0 || one_in(3)) {
        array->buffers = NULL;
        return;
    }
    size_t chosen = below((size_t)array->n_buffers);
    bool sized = (is_text(schema->format) && chosen == 1) || (is_view(schema->format) && chosen > 1);
    const uint8_t *bytes = (const uint8_t *)array->buffers[chosen];
    array->buffers[chosen] = sized || !bytes || one_in(2) ? NULL : bytes + 1;
}

/* One item of a buffer: a bit of a bitmap, an offset that is smaller, a byte of an item. */
static void break_item(const struct ArrowSchema *schema, struct ArrowArray *array) {
    static const int64_t smaller[] = {-1, INT64_MIN, 0};
    size_t rows = (size_t)(array->offset + array->length);
    if (array->n_buffers < 2 || rows == 0) return;
    uint8_t *bits = (uint8_t *)array->buffers[0], *items = (uint8_t *)array->buffers[1];
    size_t at = below(rows);
    if (bits && one_in(2)) {
        bits[at / 8] ^= (uint8_t)(1 << at % 8);
    } else if (items && (is_text(schema->format) || is_list(schema->format))) {
        size_t size = strpbrk(schema->format, "UZL") ? 8 : 4;
        memcpy(items + at * size, &smaller[below(COUNT(smaller))], size);
    } else if (items) {
        size_t size = strcmp(schema->format, "b") == 0 ? 1 : is_view(schema->format) ? 16 : 1 + below(8);
        items[schema->format[0] == 'b' ? at / 8 : at * size % (rows + 1) + below(size)] ^= (uint8_t)chance();
    }
}

static void break_array(const struct ArrowSchema *schema, struct ArrowArray *array) {
    size_t child = array->n_children > 0 ? below((size_t)array->n_children) : 0;
    switch (below(10)) {
    case 0: array->length = broken_number(array->length); break;
    case 1: array->null_count = broken_number(array->null_count); break;
    case 2: array->offset = broken_number(array->offset); break;
    case 3: array->n_buffers = is_view(schema->format) ? (int64_t)below(5) - 1 : broken_number(array->n_buffers); break;
    case 4: array->n_children = broken_number(array->n_children); break;
    case 5: break_buffer(schema, array); break;
    case 6:
        if (array->children && one_in(2)) array->children[child] = one_in(2) ? NULL : arrays[0];
        else array->children = NULL;
        break;
    case 7: array->dictionary = one_in(2) ? NULL : arrays[below(structs)]; break;
    case 8: array->release = NULL; break;
    default: break_item(schema, array);
    }
}

/* What came in is read and goes out, also where no error is asked for. */
static void use_column(void) {
    uint8_t text[64];
    hv_value value;
    struct ArrowSchema schema;
    struct ArrowArray array;
    CHECK(hv_length(&column) < 10000);
    for (size_t row = 0; row < hv_length(&column); row++) {
        int32_t answer = hv_at(&column, row, &value, text, sizeof text, &error);
        CHECK(!answer || answer == (hv_kind_of(&column).number == HV_LIST ? HV_UNSUPPORTED : HV_COLUMN_LENGTH));
    }
    CHECK(!hv_arrow_export(&session, &column, "x", &schema, &array, one_in(2) ? &error : NULL));
    hv_arrow_release(&schema, &array);
}

static int32_t import(const struct ArrowSchema *schema, const struct ArrowArray *array, bool batch, hv_error *asked) {
    return batch ? hv_arrow_import_child(&session, schema, array, 0, &column, asked)
                 : hv_arrow_import(&session, schema, array, &column, asked);
}

/* Lays out an array or a batch and breaks it; whether it came in. */
static bool try_one(void) {
    struct ArrowSchema schema;
    struct ArrowArray array;
    const type *of = &types[below(TYPES)];
    rows shown = random_rows(of, one_in(10) ? 0 : below(30), one_in(3) ? 0 : 1 + below(6));
    const lists rows_of_lists = random_lists(of, below(20), one_in(2) ? 3 : 0);
    bool batch = one_in(4);
    if (!batch && one_in(4)) lay_lists(of, &rows_of_lists, one_in(2) ? 4 : 8, &schema, &array);
    else if (batch) lay_batch(&of, &shown, 1, &schema, &array);
    else lay_any(of, shown, 0, &schema, &array);
    structs = 0;
    collect(&schema, &array);
    size_t chosen = below(structs);
    if (one_in(3)) break_schema(schemas[chosen]);
    else break_array(schemas[chosen], arrays[chosen]);
    error.first = error.second = error.third = 0xa5a5;
    const int32_t answer = import(&schema, &array, batch, &error);
    CHECK(import(&schema, &array, batch, NULL) == answer); /* without an error the same number */
    CHECK(answer >= 0 && answer <= HV_ARROW_INVALID && answer != HV_OUT_OF_MEMORY);
    if (answer) CHECK(error.first != 0xa5a5 && error.second != 0xa5a5 && error.third != 0xa5a5);
    if (answer == HV_ARROW_INVALID) CHECK(error.first >= HV_ARROW_RELEASED && error.first <= HV_ARROW_VIEW);
    if (!answer) use_column();
    return !answer;
}

int main(int arguments, char **given) {
    uint64_t count = arguments > 1 ? strtoull(given[1], NULL, 10) : 10000, came_in = 0;
    uint64_t seed = arguments > 2 ? strtoull(given[2], NULL, 10) : 1;
    hv_session_initial(&session);
    memory_slack = SLACK;
    for (uint64_t i = 0; i < count; i++) {
        chance_state = (seed * 0x9e3779b97f4a7c15u + i + 1) * 0x2545f4914f6cdd1du | 1;
        chance();
        came_in += try_one();
        free_kept();
    }
    hv_free(&column);
    printf("%" PRIu64 " broken arrays: %" PRIu64 " refused, %" PRIu64 " came in, each answered\n", count,
           count - came_in, came_in);
    return 0;
}
