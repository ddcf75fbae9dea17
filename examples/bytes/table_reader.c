/* Reads tables as bytes, a line of hexadecimal digits each, and answers a line each: "refused", or the number of rows,
 * for each column its name, its format and its message without it, and then the bytes that the table is written as
 * again, as rows, and with differences, all in hexadecimal digits.
 *
 *     cc table_reader.c $(pkg-config --cflags --libs hivevigil) -o table_reader */
#include "hivevigil_table_file.h"
#include <inttypes.h>
#include <stdio.h>

enum { LINE = 1 << 20 };

static void expect(int32_t answer, int32_t due, const char *call) {
    if (answer == due) return;
    fprintf(stderr, "%s answers %" PRId32 "\n", call, answer);
    exit(1);
}

static void print_digits(const void *bytes, size_t len) {
    putchar(' ');
    for (size_t at = 0; at < len; at++) printf("%02x", ((const uint8_t *)bytes)[at]);
}

static void print_column(const hv_column *column) {
    static uint8_t bytes[LINE];
    hv_column untyped = HV_EMPTY;
    hv_error error;
    size_t size = 0;
    expect(hv_with_type(column, NULL, 0, &untyped, &error), HV_OK, "hv_with_type");
    expect(hv_write(&untyped, bytes, sizeof bytes, &size, &error), HV_OK, "hv_write");
    print_digits(bytes, size);
    hv_free(&untyped);
}

static void print_written(const hv_table *table, uint8_t differences) {
    hv_buffer made = HV_BUFFER_EMPTY;
    hv_error error;
    expect(hv_table_to_bytes(table, differences, &made, &error), HV_OK, "hv_table_to_bytes");
    print_digits(made.at, made.size);
    hv_buffer_free(&made);
}

static void answer(const uint8_t *bytes, size_t len) {
    hv_table table = HV_EMPTY;
    hv_table_columns held = HV_TABLE_NO_COLUMNS;
    hv_error error;
    const int32_t read = hv_table_from_bytes_within(bytes, len, UINT64_MAX, &table, &error);
    if (read != HV_OK) {
        expect(read, HV_BAD_METADATA, "hv_table_from_bytes_within");
        puts("refused");
        return;
    }
    printf("%zu", hv_table_len(&table));
    expect(hv_table_columns_of(&table, &held, &error), HV_OK, "hv_table_columns_of");
    for (size_t i = 0; i < held.count; i++) {
        print_digits(held.names[i].at, held.names[i].size);
        print_digits(held.formats[i].at, held.formats[i].size);
        print_column(&held.columns[i]);
    }
    hv_table_columns_free(&held);
    print_written(&table, 0);
    print_written(&table, 1);
    putchar('\n');
    hv_table_free(&table);
}

int main(void) {
    static char line[LINE];
    static uint8_t bytes[LINE / 2];
    while (fgets(line, LINE, stdin)) {
        const size_t len = strcspn(line, "\n") / 2;
        for (size_t at = 0; at < len; at++) sscanf(line + 2 * at, "%2" SCNx8, &bytes[at]);
        answer(bytes, len);
    }
    return 0;
}
