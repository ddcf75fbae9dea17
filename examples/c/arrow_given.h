/* A stream of the test's own: it gives what it was given, and counts what is released of it. */
#ifndef HIVEVIGIL_ARROW_GIVEN_H
#define HIVEVIGIL_ARROW_GIVEN_H
#include "check.h"
#include "hivevigil_arrow.h"

/* What it gives: a schema, then chunks, then the end or an error. */
typedef struct given {
    struct ArrowSchema schema;
    struct ArrowArray *chunks[8];
    size_t count, next;
    int schema_error, error;
    const char *said;
    int released, schemas_out, chunks_out;
} given;

static given *counted;
static inline void count_schema(struct ArrowSchema *it) {
    counted->schemas_out--;
    it->release = NULL;
}
static inline void count_array(struct ArrowArray *it) {
    counted->chunks_out--;
    it->release = NULL;
}

static inline int give_schema(struct ArrowArrayStream *stream, struct ArrowSchema *out) {
    given *from = (given *)stream->private_data;
    if (from->schema_error) return from->schema_error;
    *out = from->schema;
    out->release = count_schema;
    from->schemas_out++;
    return 0;
}

static inline int give_next(struct ArrowArrayStream *stream, struct ArrowArray *out) {
    given *from = (given *)stream->private_data;
    memset(out, 0, sizeof *out);
    if (from->next == from->count) return from->error;
    *out = *from->chunks[from->next++];
    out->release = count_array;
    from->chunks_out++;
    return 0;
}

static inline const char *give_words(struct ArrowArrayStream *stream) { return ((given *)stream->private_data)->said; }

static inline void count_stream(struct ArrowArrayStream *stream) {
    ((given *)stream->private_data)->released++;
    stream->release = NULL;
}

static inline struct ArrowArrayStream stream_of(given *from) {
    counted = from;
    from->next = 0;
    from->released = 0;
    return (struct ArrowArrayStream){give_schema, give_next, give_words, count_stream, from};
}

/* Released once, and all that it gave too. */
static inline void check_released(const given *from, const struct ArrowArrayStream *stream) {
    CHECK(from->released == 1 && from->schemas_out == 0 && from->chunks_out == 0 && !stream->release);
}
#endif
