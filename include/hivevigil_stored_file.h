/* Bytes that grow, and files of bytes, which are read from any place and written whole or not at all. A header only,
 * C99 and C++17, POSIX, also where C is strict (-std=c11), before or after headers of the system; nothing here is
 * proved. hivevigil_table_file.h includes it.
 *
 * A call answers 0, 21, or 203 (errno) where the system refuses. After a refusal of a save the file is as it was. */
#ifndef HIVEVIGIL_STORED_FILE_H
#define HIVEVIGIL_STORED_FILE_H
#if defined(__STRICT_ANSI__) && !defined(_GNU_SOURCE) && !defined(_XOPEN_SOURCE)
#define _XOPEN_SOURCE 700 /* for a program whose first header this is */
#endif
#include "hivevigil_table_errors.h"
#include <errno.h>
#include <fcntl.h>
#include <limits.h>
#include <stdbool.h>
#include <stdlib.h>
#include <string.h>
#include <sys/stat.h>
#include <unistd.h>
#ifdef __cplusplus
extern "C" {
#endif

/* What POSIX declares, and the headers of the system do not where C is strict. */
#if !defined(__cplusplus) && defined(__GLIBC__) && !defined(__USE_XOPEN2K8)
int fchmod(int descriptor, mode_t mode);
int fsync(int descriptor);
char *realpath(const char *path, char *real);
#endif
#ifdef O_CLOEXEC
enum { HV_CLOSED_BY_EXEC = O_CLOEXEC };
#elif defined(__linux__) && defined(__x86_64__)
enum { HV_CLOSED_BY_EXEC = 02000000 };
#else
enum { HV_CLOSED_BY_EXEC = 0 };
#endif
#ifdef PATH_MAX
enum { HV_PATH_BYTES = PATH_MAX };
#else
enum { HV_PATH_BYTES = 4096 };
#endif

/* ---- Bytes ---- */

/* Bytes of malloc's memory, of which there is room for more. Where memory was refused nothing more is put there. */
typedef struct hv_buffer {
    uint8_t *at;
    size_t size, room;
    bool is_refused;
} hv_buffer;
#define HV_BUFFER_EMPTY {NULL, 0, 0, false}

static inline void hv_buffer_free(hv_buffer *buffer) {
    free(buffer->at);
    memset(buffer, 0, sizeof *buffer);
}

/* Where `count` bytes more are, which are not written yet; null where memory is refused. */
static inline uint8_t *hv_buffer_more(hv_buffer *buffer, size_t count) {
    if (!buffer->is_refused && count > buffer->room - buffer->size) {
        const size_t least = buffer->size + count, twice = 2 * buffer->room, room = least > twice ? least : twice;
        uint8_t *const at = least < count ? NULL : (uint8_t *)realloc(buffer->at, room);
        buffer->is_refused = !at;
        buffer->at = at ? at : buffer->at;
        buffer->room = at ? room : buffer->room;
    }
    if (buffer->is_refused) return NULL;
    buffer->size += count;
    return buffer->at + buffer->size - count;
}

static inline void hv_buffer_put(hv_buffer *buffer, const void *bytes, size_t count) {
    uint8_t *const at = count ? hv_buffer_more(buffer, count) : NULL;
    if (at) memcpy(at, bytes, count);
}

/* 21 where memory was refused. */
static inline int32_t hv_buffer_answer(const hv_buffer *buffer, hv_error *error) {
    if (!buffer->is_refused) return HV_OK;
    if (error) memset(error, 0, sizeof *error);
    return HV_OUT_OF_MEMORY;
}

/* ---- Read ---- */

/* The bytes of a file, read from any place; those of one that is not a regular file (a pipe) were read at once. */
typedef struct hv_stored_file {
    int descriptor; /* -1 where the bytes are in memory: `lent`, or `all` */
    size_t size;
    const uint8_t *lent;
    hv_buffer all;
} hv_stored_file;
#define HV_STORED_FILE_EMPTY {-1, 0, NULL, HV_BUFFER_EMPTY}

static inline int32_t hv_stored_refused(hv_error *error) {
    const int reason = errno;
    if (error) memset(error, 0, sizeof *error);
    if (error) error->first = (uint64_t)reason;
    return HV_TABLE_FILE_REFUSED;
}

/* Bytes that are in memory, and outlive what is returned. */
static inline hv_stored_file hv_stored_bytes(const uint8_t *bytes, size_t size) {
    const hv_stored_file file = {-1, size, bytes, HV_BUFFER_EMPTY};
    return file;
}

static inline void hv_stored_file_close(hv_stored_file *file) {
    if (file->descriptor >= 0) close(file->descriptor);
    hv_buffer_free(&file->all);
    file->descriptor = -1;
    file->size = 0;
}

/* As many bytes as there is room for, or fewer where the file ends. */
static inline int32_t hv_stored_read(int descriptor, uint8_t *bytes, size_t count, size_t *found, hv_error *error) {
    for (*found = 0; *found < count;) {
        const ssize_t more = read(descriptor, bytes + *found, count - *found);
        if (more < 0 && errno != EINTR) return hv_stored_refused(error);
        if (more == 0) return HV_OK;
        *found += more < 0 ? 0 : (size_t)more;
    }
    return HV_OK;
}

/* All that comes from a file that is not a regular one. */
static inline int32_t hv_stored_read_all(hv_stored_file *file, hv_error *error) {
    size_t found = 1;
    int32_t answer = HV_OK;
    while (!answer && found) {
        const size_t count = 1 << 16;
        uint8_t *const at = hv_buffer_more(&file->all, count);
        answer = hv_buffer_answer(&file->all, error);
        found = 0;
        if (!answer) answer = hv_stored_read(file->descriptor, at, count, &found, error);
        if (at) file->all.size -= count - found;
    }
    file->size = file->all.size;
    return answer;
}

/* Opens a file to read it; the caller closes it. */
HV_ANSWER hv_stored_file_open(const char *path, hv_stored_file *out, hv_error *error) {
    hv_stored_file file = HV_STORED_FILE_EMPTY;
    struct stat found;
    file.descriptor = open(path, O_RDONLY | HV_CLOSED_BY_EXEC);
    int32_t answer = file.descriptor < 0 || fstat(file.descriptor, &found) ? hv_stored_refused(error) : HV_OK;
    const bool is_regular = !answer && S_ISREG(found.st_mode);
    if (is_regular) file.size = (size_t)found.st_size;
    else if (!answer) answer = hv_stored_read_all(&file, error);
    if (answer) hv_stored_file_close(&file);
    if (answer) return answer;
    if (!is_regular) {
        close(file.descriptor);
        file.descriptor = -1;
        file.lent = file.all.at;
    }
    *out = file;
    return HV_OK;
}

/* Puts `length` bytes from `start` on in place of those of a buffer, or fewer where the file ends. */
HV_ANSWER hv_stored_file_read(const hv_stored_file *file, size_t start, size_t length, hv_buffer *out,
                              hv_error *error) {
    if (start > file->size) start = file->size;
    if (length > file->size - start) length = file->size - start;
    out->size = 0;
    uint8_t *const at = length ? hv_buffer_more(out, length) : NULL;
    int32_t answer = hv_buffer_answer(out, error);
    if (answer || !length) return answer;
    if (file->descriptor < 0) {
        memcpy(at, file->lent + start, length);
        return HV_OK;
    }
    if (lseek(file->descriptor, (off_t)start, SEEK_SET) < 0) return hv_stored_refused(error);
    answer = hv_stored_read(file->descriptor, at, length, &out->size, error);
    return answer;
}

/* ---- Written ---- */

static inline int32_t hv_stored_write(int descriptor, const uint8_t *bytes, size_t size, hv_error *error) {
    for (size_t written = 0; written < size;) {
        const ssize_t more = write(descriptor, bytes + written, size - written);
        if (more < 0 && errno != EINTR) return hv_stored_refused(error);
        written += more < 0 ? 0 : (size_t)more;
    }
    return HV_OK;
}

/* Writes to what is not a regular file. */
static inline int32_t hv_stored_write_to(const uint8_t *bytes, size_t size, const char *path, hv_error *error) {
    const int descriptor = open(path, O_WRONLY | O_TRUNC | HV_CLOSED_BY_EXEC);
    if (descriptor < 0) return hv_stored_refused(error);
    int32_t answer = hv_stored_write(descriptor, bytes, size, error);
    if (close(descriptor) && !answer) answer = hv_stored_refused(error);
    return answer;
}

/* Makes a file of a name that none has, whose last 6 letters are given here; -1 as open. The system takes the mode of a
 * new file from the mask of the process, which nothing reads or changes here: other threads may make files. */
static inline int hv_stored_create(char *name) {
    static const char digits[] = "0123456789abcdef";
    char *const end = name + strlen(name);
    int descriptor = -1;
    for (uint32_t tried = 0; tried < 1000; tried++) {
        uint32_t number = (uint32_t)getpid() * 2654435761u + tried;
        for (char *at = end - 6; at < end; number >>= 4) *at++ = digits[number % 16];
        descriptor = open(name, O_WRONLY | O_CREAT | O_EXCL | HV_CLOSED_BY_EXEC, 0666);
        if (descriptor >= 0 || (errno != EEXIST && errno != EINTR)) return descriptor;
    }
    return descriptor;
}

/* Writes a file next to the one that is meant, which takes its place, with the mode of `there` if there is one, or is
 * taken away. */
static inline int32_t hv_stored_replace(const uint8_t *bytes, size_t size, const char *path, const struct stat *there,
                                        hv_error *error) {
    hv_buffer part = HV_BUFFER_EMPTY;
    hv_buffer_put(&part, path, strlen(path));
    hv_buffer_put(&part, ".XXXXXX", 8);
    int32_t answer = hv_buffer_answer(&part, error);
    if (answer) return hv_buffer_free(&part), answer;
    char *const name = (char *)part.at;
    const int descriptor = hv_stored_create(name);
    if (descriptor < 0) answer = hv_stored_refused(error);
    if (!answer) answer = hv_stored_write(descriptor, bytes, size, error);
    if (!answer && there && fchmod(descriptor, there->st_mode & 07777)) answer = hv_stored_refused(error);
    if (!answer && (fsync(descriptor) || rename(name, path))) answer = hv_stored_refused(error);
    if (descriptor >= 0) close(descriptor);
    if (answer && descriptor >= 0) unlink(name);
    hv_buffer_free(&part);
    return answer;
}

/* Writes the bytes as a file, which is replaced whole or not at all, with the mode that it had; where it is a link, the
 * file that this names is replaced. One that is not a regular file (/dev/stdout) is written to. */
HV_ANSWER hv_save_bytes(const uint8_t *bytes, size_t size, const char *path, hv_error *error) {
    char real[HV_PATH_BYTES];
    struct stat there;
    if (stat(path, &there)) return hv_stored_replace(bytes, size, path, NULL, error);
    if (!S_ISREG(there.st_mode)) return hv_stored_write_to(bytes, size, path, error);
    return hv_stored_replace(bytes, size, realpath(path, real) ? real : path, &there, error);
}

#ifdef __cplusplus
}
#endif
#endif
