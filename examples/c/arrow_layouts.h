/* Rows laid out as legal arrays by chance: with offsets, as values of a dictionary or of runs, null_count given or not,
 * bitmaps that are not needed, anything under null, buffers that are not aligned. */
#ifndef HIVEVIGIL_ARROW_LAYOUTS_H
#define HIVEVIGIL_ARROW_LAYOUTS_H
#include "arrow_model.h"

static inline void release_schema(struct ArrowSchema *it) { it->release = NULL; }
static inline void release_array(struct ArrowArray *it) { it->release = NULL; }

static inline void begin_schema(struct ArrowSchema *schema, const char *format, bool nullable, size_t children) {
    *schema = (struct ArrowSchema){.format = format, .name = one_in(2) ? "x" : NULL, .release = release_schema};
    schema->flags = nullable ? ARROW_FLAG_NULLABLE : 0;
    schema->n_children = (int64_t)children;
    schema->children = children ? (struct ArrowSchema **)kept(children * sizeof *schema->children) : NULL;
    for (size_t i = 0; i < children; i++) schema->children[i] = (struct ArrowSchema *)kept(sizeof *schema);
}

static inline void begin_array(struct ArrowArray *array, size_t length, size_t offset, size_t buffers,
                               size_t children) {
    *array = (struct ArrowArray){.length = (int64_t)length, .offset = (int64_t)offset, .release = release_array};
    array->n_buffers = (int64_t)buffers;
    array->n_children = (int64_t)children;
    array->buffers = buffers ? (const void **)kept(buffers * sizeof *array->buffers) : NULL;
    array->children = children ? (struct ArrowArray **)kept(children * sizeof *array->children) : NULL;
    for (size_t i = 0; i < children; i++) array->children[i] = (struct ArrowArray *)kept(sizeof *array);
}

/* The bitmap of all rows, of which `shown` are the last; none where no null is shown and chance has it so. */
static inline void lay_validity(rows all, rows shown, struct ArrowArray *array) {
    size_t nulls = 0;
    for (size_t i = 0; i < shown.count; i++) nulls += shown.at[i].null;
    array->null_count = one_in(2) ? -1 : (int64_t)nulls;
    if (nulls == 0 && one_in(2)) return;
    uint8_t *bits = (uint8_t *)kept((all.count + 7) / 8 + memory_slack * 16);
    array->buffers[0] = bits;
    for (size_t i = 0; i < all.count; i++)
        if (!all.at[i].null) set_bit(bits, i);
}

static inline void lay_truths(rows all, struct ArrowArray *array) {
    uint8_t *bits = (uint8_t *)kept((all.count + 7) / 8 + memory_slack * 16);
    array->buffers[1] = bits;
    for (size_t i = 0; i < all.count; i++)
        if (all.at[i].null ? one_in(2) : all.at[i].bytes[0]) set_bit(bits, i);
}

static inline void lay_items(rows all, size_t size, struct ArrowArray *array) {
    uint8_t *items = new_buffer(all.count * size);
    array->buffers[1] = all.count || one_in(2) ? items : NULL;
    for (size_t i = 0; i < all.count; i++) {
        uint64_t any = chance();
        if (all.at[i].null) memcpy(items + i * size, &any, size < 8 ? size : 8);
        else memcpy(items + i * size, all.at[i].bytes, size);
    }
}

static inline void put_offset(uint8_t *offsets, size_t at, size_t size, size_t offset) {
    int64_t wide = (int64_t)offset;
    memcpy(offsets + at * size, &wide, size);
}

/* Texts that begin somewhere in their bytes; a null has some of them too. */
static inline void lay_texts(rows all, size_t size, struct ArrowArray *array) {
    size_t first = one_in(2) ? below(20) : 0, room = first + all.count * sizeof(row), stop = first;
    uint8_t *offsets = new_buffer((all.count + 1) * size), *scratch = (uint8_t *)kept(room);
    put_offset(offsets, 0, size, first);
    for (size_t i = 0; i < all.count; i++) {
        size_t more = all.at[i].null ? below(4) : all.at[i].size;
        memset(scratch + stop, 0xff, more); /* under null no text at all */
        if (!all.at[i].null) memcpy(scratch + stop, all.at[i].bytes, more);
        stop += more;
        put_offset(offsets, i + 1, size, stop);
    }
    uint8_t *bytes = new_buffer(stop);
    memcpy(bytes, scratch, stop);
    array->buffers[1] = all.count || one_in(2) ? offsets : NULL;
    array->buffers[2] = stop || one_in(2) ? bytes : NULL;
}

typedef struct view {
    int32_t size;
    uint8_t front[4];
    int32_t buffer, start;
} view;

/* A text of more than 12 bytes goes to one of the buffers, after some bytes of no text. */
static inline view lay_view(const row *text, uint8_t **buffers, int64_t *sizes, size_t count) {
    view made = {text->size, {0}, 0, 0};
    if (text->size <= 12) {
        memcpy((uint8_t *)&made + 4, text->bytes, text->size);
        return made;
    }
    size_t chosen = below(count);
    sizes[chosen] += (int64_t)below(3);
    memcpy(buffers[chosen] + sizes[chosen], text->bytes, text->size);
    memcpy(made.front, text->bytes, 4);
    made.buffer = (int32_t)chosen;
    made.start = (int32_t)sizes[chosen];
    sizes[chosen] += text->size;
    return made;
}

static inline void lay_views(rows all, size_t count, struct ArrowArray *array) {
    uint8_t *views = new_buffer(all.count * sizeof(view)), *buffers[4];
    int64_t sizes[4] = {0};
    for (size_t i = 0; i < count; i++) buffers[i] = (uint8_t *)kept(all.count * 26 + 1);
    for (size_t i = 0; i < all.count; i++) {
        view made = {(int32_t)chance(), {0}, (int32_t)chance(), (int32_t)chance()};
        if (!all.at[i].null) made = lay_view(&all.at[i], buffers, sizes, count);
        memcpy(views + i * sizeof made, &made, sizeof made);
    }
    uint8_t *told = new_buffer(count * sizeof *sizes);
    memcpy(told, sizes, count * sizeof *sizes);
    array->buffers[1] = all.count || one_in(2) ? views : NULL;
    array->buffers[2 + count] = told;
    for (size_t i = 0; i < count; i++) {
        uint8_t *exact = (uint8_t *)kept((size_t)sizes[i]);
        memcpy(exact, buffers[i], (size_t)sizes[i]);
        array->buffers[2 + i] = exact;
    }
}

static inline void lay_flat(const type *of, rows shown, struct ArrowSchema *schema, struct ArrowArray *array) {
    static const rows none = {0, NULL};
    size_t offset = one_in(2) ? 0 : one_in(8) ? below(200) : below(10), buffers = of->what == VIEW ? 1 + below(3) : 0;
    rows all = joined(random_rows(of, offset, 3), shown, none);
    begin_schema(schema, of->format, has_null(shown) || one_in(2), 0);
    begin_array(array, shown.count, offset, of->what == TEXT ? 3 : of->what == VIEW ? 3 + buffers : 2, 0);
    lay_validity(all, shown, array);
    switch (of->what) {
    case TRUTH: lay_truths(all, array); break;
    case TEXT: lay_texts(all, of->size, array); break;
    case VIEW: lay_views(all, buffers, array); break;
    default: lay_items(all, of->size, array);
    }
}

static inline void lay_any(const type *of, rows shown, int depth, struct ArrowSchema *schema, struct ArrowArray *array);

/* A row that has this number, in a type of numbers. */
static inline row number_row(uint64_t number, size_t size) {
    row made = {false, (uint8_t)size, {0}};
    memcpy(made.bytes, &number, sizeof number);
    return made;
}

/* The number of a row of the dictionary that is as this one, counted from somewhere; its length where none is. */
static inline size_t find_row(rows dictionary, const row *wanted) {
    size_t start = dictionary.count ? below(dictionary.count) : 0;
    for (size_t i = 0; i < dictionary.count; i++)
        if (same_row(&dictionary.at[(start + i) % dictionary.count], wanted)) return (start + i) % dictionary.count;
    return dictionary.count;
}

/* Every value shown, some more, and maybe null. A null row has a null code, or one that numbers a null. */
static inline void lay_dictionary(const type *of, rows shown, int depth, struct ArrowSchema *schema,
                                  struct ArrowArray *array) {
    static const rows none = {0, NULL};
    const type *code = &types[shown.count > 90 ? 1 + below(3) : below(8)];
    rows dictionary = joined(random_rows(of, below(4), one_in(2) ? 2 : 0), shown, none), codes = new_rows(shown.count);
    size_t used = dictionary.count - shown.count;
    for (size_t i = 0; i < shown.count; i++) {
        const row *wanted = &shown.at[i];
        const rows seen = {used, dictionary.at};
        size_t at = find_row(seen, wanted);
        if (at == used && !wanted->null) dictionary.at[used++] = *wanted;
        codes.at[i] = number_row(at, code->size);
        codes.at[i].null = wanted->null && (at == used || one_in(2));
    }
    dictionary.count = used;
    lay_flat(code, codes, schema, array);
    schema->dictionary = (struct ArrowSchema *)kept(sizeof *schema);
    array->dictionary = (struct ArrowArray *)kept(sizeof *array);
    lay_any(of, dictionary, depth + 1, schema->dictionary, array->dictionary);
}

/* The runs of all rows: a run ends where rows differ, and now and then before. The first has `base` rows more. */
static inline void split_runs(rows all, uint64_t base, size_t size, rows *ends, rows *values) {
    size_t runs = 0;
    *ends = new_rows(all.count);
    *values = new_rows(all.count);
    for (size_t i = 0; i < all.count; i++) {
        bool last = i + 1 == all.count || !same_row(&all.at[i], &all.at[i + 1]) || one_in(6);
        if (!last) continue;
        ends->at[runs] = number_row(base + i + 1, size);
        values->at[runs++] = all.at[i];
    }
    ends->count = values->count = runs;
}

/* Runs of which the first and the last may be hidden, in whole or in part. */
static inline void lay_runs(const type *of, rows shown, int depth, struct ArrowSchema *schema,
                            struct ArrowArray *array) {
    static const uint64_t bases[3] = {30000, (uint64_t)1 << 30, (uint64_t)1 << 62};
    static const rows none = {0, NULL};
    size_t width = below(3);
    rows before = one_in(2) ? none : random_rows(of, below(8), 4),
         after = one_in(2) ? none : random_rows(of, below(8), 4);
    if (before.count && shown.count && one_in(2)) before.at[before.count - 1] = shown.at[0];
    if (after.count && shown.count && one_in(2)) after.at[0] = shown.at[shown.count - 1];
    rows all = joined(before, shown, after), ends, values;
    uint64_t base = before.count && one_in(3) ? chance() % bases[width] : 0;
    split_runs(all, base, (size_t)2 << width, &ends, &values);
    begin_schema(schema, "+r", one_in(2), 2);
    begin_array(array, shown.count, base + before.count, one_in(8), 2);
    array->null_count = one_in(2) ? 0 : -1;
    lay_flat(&types[5 + width], ends, schema->children[0], array->children[0]);
    lay_any(of, values, depth + 1, schema->children[1], array->children[1]);
}

static inline void lay_any(const type *of, rows shown, int depth, struct ArrowSchema *schema,
                           struct ArrowArray *array) {
    size_t chosen = depth < 3 ? below(4) : 0;
    if (chosen == 3) lay_runs(of, shown, depth, schema, array);
    else if (chosen == 2) lay_dictionary(of, shown, depth, schema, array);
    else lay_flat(of, shown, schema, array);
}

/* A batch of these columns, all of one number of rows. Where the batch is null the columns become null; in the arrays
 * there is any row. */
static inline void lay_batch(const type *const *of, rows *columns, size_t count, struct ArrowSchema *schema,
                             struct ArrowArray *array) {
    static const type marks = {"c", NUMBER, 1};
    size_t length = columns[0].count, offset = one_in(2) ? 0 : below(10);
    rows marked = random_rows(&marks, length, one_in(2) ? 3 : 0);
    rows all = joined(random_rows(&marks, offset, 2), marked, random_rows(&marks, 0, 0));
    begin_schema(schema, "+s", has_null(marked), count);
    begin_array(array, length, offset, 1, count);
    lay_validity(all, marked, array);
    for (size_t i = 0; i < count; i++) {
        rows laid = joined(random_rows(of[i], offset, 3), columns[i], random_rows(of[i], below(3), 3));
        lay_any(of[i], laid, 1, schema->children[i], array->children[i]);
        for (size_t k = 0; k < length; k++) columns[i].at[k].null |= marked.at[k].null;
    }
}
#endif
