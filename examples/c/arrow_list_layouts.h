/* Rows of lists, laid out as legal arrays by chance, as arrow_layouts.h has other rows. */
#ifndef HIVEVIGIL_ARROW_LIST_LAYOUTS_H
#define HIVEVIGIL_ARROW_LIST_LAYOUTS_H
#include "arrow_layouts.h"

/* A row: null, or some items, which are in `items` from `start` on. */
typedef struct list {
    bool null;
    size_t start, size;
} list;

typedef struct lists {
    size_t count;
    list *at;
    rows items;
} lists;

static inline lists random_lists(const type *of, size_t count, size_t nulls) {
    lists made = {count, (list *)kept(count * sizeof(list)), {0, NULL}};
    size_t items = 0;
    for (size_t i = 0; i < count; i++) {
        made.at[i] = (list){nulls && one_in(nulls), items, one_in(3) ? 0 : below(5)};
        items += made.at[i].size; /* a null row may have items too */
    }
    made.items = random_rows(of, items, one_in(2) ? 3 : 0);
    return made;
}

static inline bool has_null_list(const lists *all) {
    for (size_t i = 0; i < all->count; i++)
        if (all->at[i].null) return true;
    return false;
}

/* Lists after some that are not shown, over items after some that no list has. */
static inline void lay_lists(const type *of, const lists *shown, size_t width, struct ArrowSchema *schema,
                      struct ArrowArray *array) {
    const size_t offset = one_in(2) ? 0 : below(10), ahead = one_in(2) ? below(20) : 0, nulls = has_null_list(shown);
    uint8_t *offsets = new_buffer((offset + shown->count + 1) * width);
    begin_schema(schema, width == 4 ? "+l" : "+L", nulls || one_in(2), 1);
    begin_array(array, shown->count, offset, 2, 1);
    for (size_t i = 0; i <= offset; i++) put_offset(offsets, i, width, offset ? ahead * i / offset : ahead);
    for (size_t i = 0; i < shown->count; i++)
        put_offset(offsets, offset + i + 1, width, ahead + shown->at[i].start + shown->at[i].size);
    array->buffers[1] = offsets;
    array->null_count = -1;
    if (nulls || one_in(2)) {
        uint8_t *bits = (uint8_t *)kept((offset + shown->count + 7) / 8 + memory_slack * 16);
        for (size_t i = 0; i < offset + shown->count; i++)
            if (i < offset ? one_in(2) : !shown->at[i - offset].null) set_bit(bits, i);
        array->buffers[0] = bits;
    }
    rows all = joined(random_rows(of, ahead, 4), shown->items, random_rows(of, below(3), 4));
    lay_any(of, all, 2, schema->children[0], array->children[0]);
}
#endif
