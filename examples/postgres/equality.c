/* Columns are equal where their rows are, null equal to null, and floats as PostgreSQL has them: 0.0 equals -0.0, and a
 * NaN equals every NaN. Rows of one type have one encoding, so that columns which
 * these functions made are compared only by their bytes; what another program wrote is encoded first. */
#include "pg_column.h"

#include "common/hashfn.h"

/* The only encoding of the rows, as bytes. */
static bytea *encoded(const char *function, bytea *bytes) {
    hv_error error = {0, 0, 0};
    hv_column column = HV_EMPTY, one_of_each = HV_EMPTY;
    hv_column_of(function, bytes, &column);
    if (!is_float_type(hv_kind_of(&column).number)) return hv_bytes_of_column(function, &column);
    const int32_t answer = float_column_canonical(&column, &one_of_each, &error);
    hv_free(&column);
    hv_raise(function, answer, &error);
    return hv_bytes_of_encoding(function, &one_of_each, NULL);
}

static bool same_bytes(const bytea *left, const bytea *right) {
    return VARSIZE_ANY_EXHDR(left) == VARSIZE_ANY_EXHDR(right) &&
           memcmp(VARDATA_ANY(left), VARDATA_ANY(right), VARSIZE_ANY_EXHDR(left)) == 0;
}

static bool same_rows(FunctionCallInfo fcinfo, const char *function) {
    bytea *left = PG_GETARG_BYTEA_PP(0), *right = PG_GETARG_BYTEA_PP(1);
    bool same = same_bytes(left, right);
    if (!same) {
        bytea *one = encoded(function, left), *other = encoded(function, right);
        same = same_bytes(one, other);
        pfree(one);
        pfree(other);
    }
    PG_FREE_IF_COPY(left, 0);
    PG_FREE_IF_COPY(right, 1);
    return same;
}

HV_FUNCTION(pg_hv_equal) { PG_RETURN_BOOL(same_rows(fcinfo, "hv_equal")); }
HV_FUNCTION(pg_hv_unequal) { PG_RETURN_BOOL(!same_rows(fcinfo, "hv_unequal")); }

/* The bytes that are hashed. For floats they are those that earlier versions wrote, with a line before the message of the
 * keys, so that indexes and partitions by hash remain those of their rows. */
static bytea *hashed(const char *function, bytea *bytes) {
    uint8_t line[FLOAT_LINE];
    bytea *found = encoded(function, bytes);
    const size_t size = VARSIZE_ANY_EXHDR(found);
    const size_t start = float_line_of((const uint8_t *)VARDATA_ANY(found), size, line);
    if (!start) return found;
    bytea *before = palloc(VARHDRSZ + FLOAT_LINE + size - start);
    SET_VARSIZE(before, VARHDRSZ + FLOAT_LINE + size - start);
    memcpy(VARDATA(before), line, FLOAT_LINE);
    memcpy(VARDATA(before) + FLOAT_LINE, VARDATA_ANY(found) + start, size - start);
    pfree(found);
    return before;
}

HV_FUNCTION(pg_hv_hash) {
    bytea *bytes = hashed("hv_hash", PG_GETARG_BYTEA_PP(0));
    const uint32 hash = hash_bytes((const unsigned char *)VARDATA_ANY(bytes), (int)VARSIZE_ANY_EXHDR(bytes));
    pfree(bytes);
    PG_RETURN_UINT32(hash);
}

/* The same in 64 bits, with a seed, for tables that are partitioned by hash. */
HV_FUNCTION(pg_hv_hash_extended) {
    bytea *bytes = hashed("hv_hash_extended", PG_GETARG_BYTEA_PP(0));
    const uint64 hash = hash_bytes_extended((const unsigned char *)VARDATA_ANY(bytes), (int)VARSIZE_ANY_EXHDR(bytes),
                                            (uint64)PG_GETARG_INT64(1));
    pfree(bytes);
    PG_RETURN_UINT64(hash);
}
