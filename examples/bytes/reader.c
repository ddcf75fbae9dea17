/* Reads columns as bytes, a line of hexadecimal digits each, and answers a line each: "refused", or the rows, at most a
 * hundred of them, the name of the logical type where there is one, and the bytes that the column is written as again.
 * Decimals are the digits of their 16 bytes, the highest first, texts and bytes those of their bytes after a quote, lists
 * their items in brackets.
 *
 *     cc reader.c $(pkg-config --cflags --libs hivevigil) -o reader */
#include "hivevigil.h"
#include <inttypes.h>
#include <stdbool.h>
#include <stdio.h>
#include <stdlib.h>
#include <string.h>

enum { LINE = 1 << 20, SHOWN = 100 };

static void *some(void *block) {
    if (block) return block;
    fprintf(stderr, "no memory\n");
    exit(1);
}

static void expect(int32_t answer, int32_t due, const char *call) {
    if (answer == due) return;
    fprintf(stderr, "%s answers %" PRId32 "\n", call, answer);
    exit(1);
}

static void print_digits(const uint8_t *bytes, size_t len) {
    for (size_t at = 0; at < len; at++) printf("%02x", bytes[at]);
}

static void print_row(const hv_column *column, size_t row) {
    hv_value value;
    hv_error error;
    static uint8_t text[LINE / 2];
    expect(hv_at(column, row, &value, text, sizeof text, &error), 0, "hv_at");
    switch (value.kind) {
    case HV_UNSIGNED: printf("%" PRIu64, value.as_unsigned); break;
    case HV_SIGNED: printf("%" PRId64, value.as_signed); break;
    case HV_TRUTH: printf("%s", value.truth ? "true" : "false"); break;
    case HV_DECIMAL_VALUE: printf("%016" PRIx64 "%016" PRIx64, (uint64_t)value.as_signed, value.as_unsigned); break;
    case HV_TEXT:
    case HV_BYTES:
        putchar('\'');
        print_digits(text, (size_t)value.as_unsigned);
        break;
    default: printf("null");
    }
}

static uint64_t number_at(const hv_column *numbers, size_t row) {
    hv_value value;
    hv_error error;
    expect(hv_at(numbers, row, &value, NULL, 0, &error), 0, "hv_at of a number");
    return value.as_unsigned;
}

static bool is_valid_at(const hv_column *flags, size_t row) {
    hv_value value;
    hv_error error;
    expect(hv_at(flags, row, &value, NULL, 0, &error), 0, "hv_at of a flag");
    return value.truth;
}

static void print_list(const hv_column *elements, size_t start, size_t size) {
    putchar('[');
    for (size_t item = start; item < start + size; item++) {
        if (item > start) putchar(' ');
        print_row(elements, item);
    }
    putchar(']');
}

/* The first rows of a column of lists, of which runs are written out. */
static void print_lists(const hv_column *column, size_t rows) {
    hv_column first = HV_EMPTY, lists = HV_EMPTY;
    hv_column elements = HV_EMPTY, offsets = HV_EMPTY, sizes = HV_EMPTY, flags = HV_EMPTY;
    hv_session session;
    hv_error error;
    hv_session_initial(&session);
    expect(hv_slice(&session, column, 0, rows, &first, &error), 0, "hv_slice");
    expect(hv_decode(&session, &first, &lists, &error), 0, "hv_decode");
    expect(hv_list_elements(&lists, &elements, &error), 0, "hv_list_elements");
    expect(hv_list_offsets(&lists, &offsets, &error), 0, "hv_list_offsets");
    expect(hv_list_sizes(&lists, &sizes, &error), 0, "hv_list_sizes");
    expect(hv_list_validity(&lists, &flags, &error), 0, "hv_list_validity");
    for (size_t row = 0; row < rows; row++) {
        putchar(' ');
        if (is_valid_at(&flags, row)) print_list(&elements, number_at(&offsets, row), number_at(&sizes, row));
        else printf("null");
    }
    hv_free(&first), hv_free(&lists), hv_free(&elements), hv_free(&offsets), hv_free(&sizes), hv_free(&flags);
}

static void print_rows(const hv_column *column, size_t rows) {
    if (hv_kind_of(column).number == HV_LIST) {
        print_lists(column, rows);
        return;
    }
    for (size_t row = 0; row < rows; row++) {
        putchar(' ');
        print_row(column, row);
    }
}

static void print_written(const hv_column *column) {
    hv_error error;
    size_t size, written;
    expect(hv_write_size(column, &size, &error), 0, "hv_write_size");
    uint8_t *bytes = some(malloc(size));
    expect(hv_write(column, bytes, size, &written, &error), 0, "hv_write");
    expect(written == size, 1, "the size");
    printf(" = ");
    print_digits(bytes, size);
    free(bytes);
}

/* The format, which a message of this length has room for. */
static void print_format(const hv_column *column, size_t len) {
    hv_error error;
    size_t size;
    uint8_t *format = some(malloc(len));
    expect(hv_type(column, format, len, &size, &error), 0, "hv_type");
    if (size) printf(" of '"), print_digits(format, size);
    free(format);
}

static void answer(const uint8_t *bytes, size_t len) {
    hv_column column = HV_EMPTY;
    hv_error error;
    uint8_t is_message;
    int32_t read = hv_read_column(bytes, len, &column, &error);
    expect(hv_is_message(bytes, len, &is_message, &error), 0, "hv_is_message");
    expect(is_message, read == 0, "hv_is_message, in its truth,");
    if (read != 0) {
        expect(read, HV_BAD_METADATA, "hv_read_column");
        puts("refused");
        return;
    }
    size_t rows = hv_length(&column);
    hv_column stored = HV_EMPTY; /* without a format, by which floats are answered as doubles */
    printf("%zu rows:", rows);
    expect(hv_with_type(&column, (const uint8_t *)"", 0, &stored, &error), 0, "hv_with_type");
    print_rows(&stored, rows < SHOWN ? rows : SHOWN);
    hv_free(&stored);
    print_format(&column, len);
    print_written(&column);
    putchar('\n');
    hv_free(&column);
}

int main(void) {
    char *line = some(malloc(LINE));
    uint8_t *bytes = some(malloc(LINE / 2));
    while (fgets(line, LINE, stdin)) {
        size_t len = strcspn(line, "\n") / 2;
        for (size_t at = 0; at < len; at++) sscanf(line + 2 * at, "%2" SCNx8, &bytes[at]);
        answer(bytes, len);
    }
    free(line), free(bytes);
    return 0;
}
