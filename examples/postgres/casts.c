/* The logical type that the bytes of an hvcolumn keep, and its numbers as those of another. */
#include "pg_column.h"

#include "mb/pg_wchar.h"
#include "utils/builtins.h"

/* Null for a column without one. */
HV_FUNCTION(pg_hv_logical_type) {
    hv_column column = HV_EMPTY;
    logical_type type;
    hv_typed_of("hv_logical_type", PG_GETARG_BYTEA_PP(0), &column, &type);
    hv_free(&column);
    if (!type.len) PG_RETURN_NULL();
    const char *const name = (const char *)type.format, *const text = pg_any_to_server(name, (int)type.len, PG_UTF8);
    PG_RETURN_TEXT_P(cstring_to_text_with_len(text, text == name ? (int)type.len : (int)strlen(text)));
}

void hv_recounted(const char *function, hv_column *column, const logical_type *from, const logical_type *to,
                  hv_column *out) {
    hv_error error = {0, 0, 0};
    const int32_t answer = column_recount(column, from, to, out, &error);
    hv_free(column);
    if (answer == HV_TYPE_MISMATCH)
        ereport(ERROR, (errcode(ERRCODE_DATATYPE_MISMATCH),
                        errmsg("%s: the column does not count what the logical type does", function)));
    hv_raise(function, answer, &error);
}

/* A column without a logical type has numbers that mean what the type says; an empty name takes a type away. */
HV_FUNCTION(pg_hv_cast) {
    bytea *const bytes = PG_GETARG_BYTEA_PP(0);
    text *const asked = PG_GETARG_TEXT_PP(1);
    const int len = VARSIZE_ANY_EXHDR(asked);
    const char *const name = pg_server_to_any(VARDATA_ANY(asked), len, PG_UTF8);
    hv_column column = HV_EMPTY, counted = HV_EMPTY;
    logical_type from, to;
    if (logical_type_named((const uint8_t *)name, name == VARDATA_ANY(asked) ? (size_t)len : strlen(name), &to))
        ereport(ERROR, (errcode(ERRCODE_INVALID_PARAMETER_VALUE),
                        errmsg("hv_cast: a logical type is '' or a format of dates and times, as 'tdD' and "
                               "'tsu:UTC'")));
    hv_typed_of("hv_cast", bytes, &column, &from);
    hv_recounted("hv_cast", &column, &from, &to, &counted);
    PG_RETURN_BYTEA_P(hv_bytes_of_typed("hv_cast", &counted, &to));
}
