/* The helpers of hivevigil_helpers.h: a column that is moved is owned once, and masks and indices from C's buffers. */
#include "check.h"
#include "hivevigil_helpers.h"

static hv_error error;

static void check_masks(const hv_session *session, const hv_column *column) {
    const uint8_t bits[2] = {0x80, 0x02}, flags[3] = {0, 255, 1};
    hv_column out = HV_EMPTY, none = HV_EMPTY;
    CHECK(!hv_filter_bits(session, column, bits, 2, 7, &out, NULL)); /* bits 7 to 9: 1 0 1 */
    CHECK_ROWS(&out, "4 9");
    CHECK(!hv_filter_flags(session, column, flags, 3, &out, NULL));
    CHECK_ROWS(&out, "7 9");
    CHECK_REFUSED(hv_filter_bits(session, column, bits, 2, 14, &out, &error), HV_COLUMN_LENGTH, 3, 2, 0);
    CHECK_REFUSED(hv_filter_bits(session, column, NULL, 0, 0, &out, &error), HV_COLUMN_LENGTH, 3, 0, 0);
    CHECK_REFUSED(hv_filter_flags(session, column, flags, 2, &out, &error), HV_MASK_LENGTH, 2, 3, 0);
    CHECK_REFUSED(hv_filter_flags(session, column, NULL, 0, &out, &error), HV_MASK_LENGTH, 0, 3, 0);
    CHECK_ROWS(&out, "7 9");
    hv_free(&out);
    CHECK(hv_filter_bits(session, &none, bits, 2, 0, &out, NULL) == HV_NO_COLUMN);
}

static void check_indices(const hv_session *session, const hv_column *column) {
    const uint8_t valid[1] = {0x05};
    const int8_t below[2] = {1, -1};
    hv_column out = HV_EMPTY;
#define TAKES(type, suffix) \
    do { \
        const type indices[4] = {2, 0, 0, 1}; \
        CHECK(!hv_take_##suffix(session, column, indices, 4, hv_not_nullable(), &out, NULL)); \
        CHECK_ROWS(&out, "9 4 4 7"); \
        CHECK(!hv_take_##suffix(session, column, indices, 3, hv_valid_bits(valid, 1, 0), &out, NULL)); \
        CHECK_ROWS(&out, "9 null 4"); \
        CHECK(!hv_take_##suffix(session, column, NULL, 0, hv_all_valid(), &out, NULL) && hv_length(&out) == 0); \
    } while (0)
    TAKES(uint8_t, u8);
    TAKES(uint16_t, u16);
    TAKES(uint32_t, u32);
    TAKES(uint64_t, u64);
    TAKES(int8_t, i8);
    TAKES(int16_t, i16);
    TAKES(int32_t, i32);
    TAKES(int64_t, i64);
    CHECK_REFUSED(hv_take_i8(session, column, below, 2, hv_not_nullable(), &out, &error), HV_OUT_OF_BOUNDS, UINT64_MAX,
                  3, 0);
    hv_free(&out);
}

int main(void) {
    const int64_t rows[] = {4, 7, 9};
    hv_session session;
    hv_column made = HV_EMPTY, other = HV_EMPTY;
    CHECK(hv_is_empty(&made) && hv_is_empty(NULL));
    CHECK(hv_i64(rows, 3, hv_not_nullable(), &made, NULL) == HV_OK && !hv_is_empty(&made));
    CHECK(hv_slice(&(hv_session){0}, &made, 2, 9, &other, NULL) == HV_BAD_RANGE && hv_is_empty(&other));

    hv_session_initial(&session);
    check_masks(&session, &made);
    check_indices(&session, &made);

    hv_column kept = hv_moved(&made);
    CHECK(hv_is_empty(&made) && hv_length(&made) == 0 && hv_length(&kept) == 3);
    made = hv_moved(NULL);
    CHECK(hv_is_empty(&made));
    CHECK(hv_clone(&kept, &other, NULL) == HV_OK);
    hv_put(&other, &kept); /* the clone is freed */
    CHECK(hv_is_empty(&kept) && hv_length(&other) == 3);
    hv_put(&other, &other);
    CHECK(hv_length(&other) == 3);
    hv_put(&other, &kept);
    CHECK(hv_is_empty(&other));
    puts("a column that is moved is owned once; masks and indices of C's buffers select the same rows");
    return 0;
}
