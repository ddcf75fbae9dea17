/* malloc, calloc, realloc and free that refuse the requests that were chosen, and count blocks. The linker hands them
 * to all of the program: cc .. -Wl,--wrap=malloc,--wrap=calloc,--wrap=realloc,--wrap=free */
#ifndef HIVEVIGIL_REFUSING_MALLOC_H
#define HIVEVIGIL_REFUSING_MALLOC_H
#include <stdbool.h>
#include <stddef.h>

void *__real_malloc(size_t size);
void *__real_calloc(size_t count, size_t size);
void *__real_realloc(void *block, size_t size);
void __real_free(void *block);

static long requests = 0, blocks = 0, refused = 0;
static long refuse_at = -1;      /* the number of the request that is refused, from 0; -1 for none */
static bool refuse_rest = false; /* and all after it */

static bool is_refused(void) {
    long request = requests++;
    bool now = refuse_at >= 0 && (request == refuse_at || (refuse_rest && request > refuse_at));
    refused += now;
    return now;
}

void *__wrap_malloc(size_t size) {
    void *block = is_refused() ? NULL : __real_malloc(size);
    blocks += block != NULL;
    return block;
}

void *__wrap_calloc(size_t count, size_t size) {
    void *block = is_refused() ? NULL : __real_calloc(count, size);
    blocks += block != NULL;
    return block;
}

void *__wrap_realloc(void *block, size_t size) {
    void *moved = is_refused() ? NULL : __real_realloc(block, size);
    blocks += moved && !block;
    return moved;
}

void __wrap_free(void *block) {
    blocks -= block != NULL;
    __real_free(block);
}
#endif
