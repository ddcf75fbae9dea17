/* What the C tests share: a check that ends the program where it does not hold, and the rows of a column as text. */
#ifndef HIVEVIGIL_CHECK_H
#define HIVEVIGIL_CHECK_H
#include "hivevigil.h"
#include <inttypes.h>
#include <stdbool.h>
#include <stdio.h>
#include <stdlib.h>
#include <string.h>

#define CHECK(what) check_that((what), #what, __FILE__, __LINE__)
/* the rows of a column, as "1 null 3" */
#define CHECK_ROWS(column, rows) check_text(rows_of(column), (rows), #column, __FILE__, __LINE__)
/* a refusal by this number with these fields, which are written: `error` holds other bytes before */
#define CHECK_REFUSED(answer, number, a, b, c) \
    (FILL(error), check_refused((answer), (number), &error, a, b, c, #answer, __FILE__, __LINE__))
/* what a call is to write holds other bytes than 0 before */
#define FILL(what) memset(&(what), 0xA5, sizeof(what))

/* validity: of a type without null; no row is null; null by the bits of an array */
#define NOT_NULLABLE hv_not_nullable()
#define NO_NULLS hv_all_valid()
#define NULLS_BY(bits, first) hv_valid_bits(bits, sizeof(bits), first)
#define NO_TEXT NULL, 0
#define NO_TEXT_ROOM (uint8_t[1]){0}, 0
#define COUNT(array) (sizeof(array) / sizeof *(array))

enum { FORM_FLAT = 0, FORM_CONSTANT = 1, FORM_RUNS = 3, FORM_NONE = 255 };

static inline void check_that(bool holds, const char *what, const char *file, int line) {
    if (holds) return;
    fprintf(stderr, "%s:%d: does not hold: %s\n", file, line, what);
    exit(1);
}

static inline void check_text(const char *found, const char *wanted, const char *what, const char *file, int line) {
    if (strcmp(found, wanted) == 0) return;
    fprintf(stderr, "%s:%d: %s is\n    %s\nand should be\n    %s\n", file, line, what, found, wanted);
    exit(1);
}

static inline void check_refused(int32_t answer, int32_t number, const hv_error *error, uint64_t first, uint64_t second,
                                 uint64_t third, const char *what, const char *file, int line) {
    if (answer == number && error->first == first && error->second == second && error->third == third) return;
    fprintf(stderr, "%s:%d: %s\n    answers %" PRId32 " (%" PRIu64 ", %" PRIu64 ", %" PRIu64 ")\n", file, line, what,
            answer, error->first, error->second, error->third);
    exit(1);
}

/* A value as text: 1, -1, true, high:low, "text", <hex bytes>, a float or null. */
static inline int print_value(char *to, size_t room, hv_value value, const uint8_t *text) {
    double number;
    switch (value.kind) {
    case HV_UNSIGNED: return snprintf(to, room, "%" PRIu64, value.as_unsigned);
    case HV_SIGNED: return snprintf(to, room, "%" PRId64, value.as_signed);
    case HV_TRUTH: return snprintf(to, room, "%s", value.truth == 1 ? "true" : value.truth == 0 ? "false" : "neither");
    case HV_DECIMAL_VALUE: return snprintf(to, room, "%" PRId64 ":%" PRIu64, value.as_signed, value.as_unsigned);
    case HV_DOUBLE:
        memcpy(&number, &value.as_unsigned, sizeof number);
        return snprintf(to, room, "%g", number);
    case HV_TEXT: return snprintf(to, room, "\"%.*s\"", (int)value.as_unsigned, (const char *)text);
    case HV_BYTES: {
        size_t used = (size_t)snprintf(to, room, "<");
        for (size_t i = 0; i < value.as_unsigned; i++)
            used += (size_t)snprintf(to + used, room - used, "%02x", text[i]);
        return (int)used + snprintf(to + used, room - used, ">");
    }
    default: return snprintf(to, room, "null");
    }
}

/* All rows as text, in memory that is good until the next call. Takes no memory of malloc. */
static inline const char *rows_of(const hv_column *column) {
    static char shown[1 << 16];
    size_t used = 0;
    shown[0] = 0;
    for (size_t row = 0; row < hv_length(column) && used < sizeof shown - 512; row++) {
        hv_error error;
        hv_value value;
        uint8_t text[128];
        FILL(error), FILL(value), FILL(text);
        int32_t answer = hv_at(column, row, &value, text, sizeof text, &error);
        if (row) shown[used++] = ' ';
        if (answer) used += (size_t)snprintf(shown + used, 32, "refused:%" PRId32, answer);
        else used += (size_t)print_value(shown + used, 300, value, text);
    }
    return shown;
}
#endif
