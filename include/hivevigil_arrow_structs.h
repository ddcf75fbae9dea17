/* Structs of malloc's memory and the callbacks that free them, a part of hivevigil_arrow.h, which includes it. */
#ifndef HIVEVIGIL_ARROW_STRUCTS_H
#define HIVEVIGIL_ARROW_STRUCTS_H
#include "hivevigil_arrow.h"

static inline void hv_arrow_release_schema(struct ArrowSchema *schema) {
    for (int64_t i = 0; i < schema->n_children; i++) {
        if (schema->children[i]->release) schema->children[i]->release(schema->children[i]);
        free(schema->children[i]);
    }
    if (schema->dictionary && schema->dictionary->release) schema->dictionary->release(schema->dictionary);
    free(schema->dictionary);
    free(schema->children);
    free(schema->private_data); /* the block of format and name */
    schema->release = NULL;
}

static inline void hv_arrow_release_array(struct ArrowArray *array) {
    for (int64_t i = 0; i < array->n_children; i++) {
        if (array->children[i]->release) array->children[i]->release(array->children[i]);
        free(array->children[i]);
    }
    if (array->dictionary && array->dictionary->release) array->dictionary->release(array->dictionary);
    free(array->dictionary);
    free(array->children);
    for (int64_t i = 0; i < array->n_buffers; i++) free((void *)array->buffers[i]);
    free((void *)array->buffers);
    array->release = NULL;
}

static inline void hv_arrow_release(struct ArrowSchema *schema, struct ArrowArray *array) {
    if (schema->release) schema->release(schema);
    if (array->release) array->release(array);
}

/* A schema with this many children, which are all zero so far. False where memory is refused. */
static inline bool hv_arrow_new_schema(struct ArrowSchema *schema, const char *format, const char *name,
                                       uint8_t nullable, int64_t children) {
    size_t format_size = strlen(format) + 1, name_size = strlen(name) + 1;
    char *text = (char *)malloc(format_size + name_size);
    memset(schema, 0, sizeof *schema);
    if (!text) return false;
    schema->format = (const char *)memcpy(text, format, format_size);
    schema->name = (const char *)memcpy(text + format_size, name, name_size);
    schema->flags = nullable ? ARROW_FLAG_NULLABLE : 0;
    schema->private_data = text;
    schema->release = hv_arrow_release_schema;
    schema->children = children ? (struct ArrowSchema **)calloc((size_t)children, sizeof *schema->children) : NULL;
    bool whole = children == 0 || schema->children;
    for (int64_t i = 0; whole && i < children; i++) {
        schema->children[i] = (struct ArrowSchema *)calloc(1, sizeof *schema);
        whole = schema->children[i] != NULL;
        schema->n_children += whole;
    }
    if (!whole) schema->release(schema);
    return whole;
}

/* An array with this many buffers, which are null so far, and children, which are all zero. False where memory
 * is refused. */
static inline bool hv_arrow_new_array(struct ArrowArray *array, size_t length, int64_t buffers, int64_t children) {
    memset(array, 0, sizeof *array);
    array->buffers = (const void **)calloc((size_t)buffers + 1, sizeof *array->buffers);
    if (!array->buffers) return false;
    array->length = (int64_t)length;
    array->n_buffers = buffers;
    array->release = hv_arrow_release_array;
    array->children = children ? (struct ArrowArray **)calloc((size_t)children, sizeof *array->children) : NULL;
    bool whole = children == 0 || array->children;
    for (int64_t i = 0; whole && i < children; i++) {
        array->children[i] = (struct ArrowArray *)calloc(1, sizeof *array);
        whole = array->children[i] != NULL;
        array->n_children += whole;
    }
    if (!whole) array->release(array);
    return whole;
}

/* A buffer of this number of items, and some room where there are none. NULL where memory is refused. */
static inline void *hv_arrow_new_buffer(struct ArrowArray *array, int64_t index, size_t items, size_t width) {
    void *buffer = items > (SIZE_MAX - 8) / width ? NULL : malloc(items * width + 8);
    array->buffers[index] = buffer;
    return buffer;
}
#endif
