/* Rows of columns, as arrow_model.h has rows. */
#ifndef HIVEVIGIL_ARROW_COLUMNS_H
#define HIVEVIGIL_ARROW_COLUMNS_H
#include "arrow_model.h"
#include "check.h"

/* A row of a column, and what hv_at answers. */
static inline int32_t row_at(hv_column *from, size_t at, row *found, hv_error *error) {
    static const uint8_t sizes[] = {1, 2, 4, 8, 1, 2, 4, 8};
    uint8_t text[32];
    hv_value value;
    const row none = {false, 1, {0}};
    const int32_t answer = hv_at(from, at, &value, text, sizeof text, error);
    *found = none;
    if (answer) return answer;
    if (value.kind == HV_NULL) found->null = true;
    else if (value.kind == HV_TRUTH) found->bytes[0] = value.truth;
    else if (value.kind == HV_TEXT || value.kind == HV_BYTES) {
        found->size = (uint8_t)value.as_unsigned;
        memcpy(found->bytes, text, found->size);
    } else if (value.kind == HV_DECIMAL_VALUE) {
        found->size = 16;
        memcpy(found->bytes, &value.as_unsigned, 8);
        memcpy(found->bytes + 8, &value.as_signed, 8);
    } else {
        found->size = sizes[hv_kind_of(from).number];
        memcpy(found->bytes, value.kind == HV_SIGNED ? (void *)&value.as_signed : (void *)&value.as_unsigned,
               found->size);
    }
    return HV_OK;
}

/* The column that is read of the column's own bytes. */
static inline int32_t read_again(const hv_column *from, hv_column *out, hv_error *error) {
    size_t size;
    int32_t answer = hv_write_size(from, &size, error);
    if (answer) return answer;
    uint8_t *bytes = (uint8_t *)kept(size);
    answer = hv_write(from, bytes, size, &size, error);
    return answer ? answer : hv_read_column(bytes, size, out, error);
}
#endif
