/* Calls of the C library that fail where they are told to. LD_PRELOAD puts them in the place of its own, in a program
 * that is tested as it is. The environment says which, counted from 1 (none, where nothing is said):
 *     REFUSE_ONLY, REFUSE_FROM    the request for memory that is refused, alone or with all after it
 *     FAIL_READ                   the read of standard input that fails
 *     ENDLESS_READS               each of these reads gives one space, without end
 *     COUNTS                      the file that says in the end how many requests and how many reads came */
#define _GNU_SOURCE
#include <dlfcn.h>
#include <errno.h>
#include <fcntl.h>
#include <stdbool.h>
#include <stdio.h>
#include <stdlib.h>
#include <unistd.h>

static bool begun, endless;
static long requests, reads, refuse_only, refuse_from, fail_read;

static long number(const char *name) {
    const char *text = getenv(name);
    return text ? atol(text) : 0;
}

__attribute__((constructor)) static void begin(void) {
    refuse_only = number("REFUSE_ONLY");
    refuse_from = number("REFUSE_FROM");
    fail_read = number("FAIL_READ");
    endless = number("ENDLESS_READS");
    begun = true;
}

__attribute__((destructor)) static void end(void) {
    const char *path = getenv("COUNTS");
    char text[64];
    begun = false;
    int size = snprintf(text, sizeof text, "%ld %ld\n", requests, reads);
    int file = path ? open(path, O_WRONLY | O_CREAT | O_TRUNC, 0600) : -1;
    if (file >= 0 && write(file, text, (size_t)size) != size) abort();
}

static bool is_refused(void) {
    if (!begun) return false;
    requests++;
    bool now = requests == refuse_only || (refuse_from && requests >= refuse_from);
    if (now) errno = ENOMEM;
    return now;
}

void *malloc(size_t size) {
    static void *(*own)(size_t);
    if (!own) *(void **)&own = dlsym(RTLD_NEXT, "malloc");
    return is_refused() ? NULL : own(size);
}

void *realloc(void *block, size_t size) {
    static void *(*own)(void *, size_t);
    if (!own) *(void **)&own = dlsym(RTLD_NEXT, "realloc");
    return is_refused() ? NULL : own(block, size);
}

ssize_t read(int file, void *room, size_t size) {
    static ssize_t (*own)(int, void *, size_t);
    if (!own) *(void **)&own = dlsym(RTLD_NEXT, "read");
    if (file != 0) return own(file, room, size);
    if (++reads == fail_read) {
        errno = EIO;
        return -1;
    }
    if (!endless) return own(file, room, size);
    *(char *)room = ' ';
    return 1;
}
