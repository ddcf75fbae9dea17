/* The refusals of tables, and of their files, as names and sentences, as hivevigil_errors.h has those of hivevigil.h:
 * the numbers are in hivevigil_tables.h. C11 and C++17.
 *
 * A file that is not a table's, or that was damaged, is HV_BAD_METADATA; a name that is not UTF-8 HV_TYPE_MISMATCH. */
#ifndef HIVEVIGIL_TABLE_ERRORS_H
#define HIVEVIGIL_TABLE_ERRORS_H
#include "hivevigil_arrow_errors.h"
#include "hivevigil_tables.h"
#ifdef __cplusplus
extern "C" {
#endif

/* The third field of HV_UNSUPPORTED says what a call of tables does not serve; 0: a column of this type or form. */
enum {
    HV_TABLE_WITHOUT_BATCHES = 3, /* the stream has arrays, or batches without columns */
    HV_TABLE_WITHOUT_COLUMNS = 4, /* a table without columns does not go out to Arrow */
    HV_TABLE_WITH_ZERO_BYTE = 5   /* a name has a zero byte, which a name of Arrow has not */
};

/* The number's name, as hv_error_name and hv_arrow_error_name have those of the other headers. */
static inline const char *hv_table_error_name(int32_t number) {
    switch (number) {
    case HV_TABLE_UNKNOWN_NAME: return "HV_TABLE_UNKNOWN_NAME";
    case HV_TABLE_NAME_TWICE: return "HV_TABLE_NAME_TWICE";
    case HV_TABLE_FILE_REFUSED: return "HV_TABLE_FILE_REFUSED";
    case HV_TABLE_OVER_LIMIT: return "HV_TABLE_OVER_LIMIT";
    case HV_TABLE_NAME_COUNT: return "HV_TABLE_NAME_COUNT";
    case HV_TABLE_ROW_COUNT: return "HV_TABLE_ROW_COUNT";
    case HV_TABLE_NEW_NAME_COUNT: return "HV_TABLE_NEW_NAME_COUNT";
    case HV_TABLE_OTHER_NAMES: return "HV_TABLE_OTHER_NAMES";
    case HV_TABLE_OTHER_TYPE: return "HV_TABLE_OTHER_TYPE";
    case HV_TABLE_NEW_NAME_TWICE: return "HV_TABLE_NEW_NAME_TWICE";
    case HV_TABLE_NO_KEYS: return "HV_TABLE_NO_KEYS";
    case HV_TABLE_KEY_OF_LISTS: return "HV_TABLE_KEY_OF_LISTS";
    case HV_TABLE_UNKNOWN_COLUMN: return "HV_TABLE_UNKNOWN_COLUMN";
    case HV_TABLE_UNSUPPORTED_ANSWER: return "HV_TABLE_UNSUPPORTED_ANSWER";
    case HV_TABLE_ANSWER_TWICE: return "HV_TABLE_ANSWER_TWICE";
    case HV_TABLE_SUM_OVERFLOW: return "HV_TABLE_SUM_OVERFLOW";
    default: return hv_arrow_error_name(number);
    }
}

/* The sentence of HV_UNSUPPORTED by its third field. */
static inline const char *hv_table_not_served(uint64_t what) {
    switch (what) {
    case HV_TABLE_WITHOUT_BATCHES: return "a table comes from batches that have columns";
    case HV_TABLE_WITHOUT_COLUMNS: return "a table without columns does not go out to Arrow";
    case HV_TABLE_WITH_ZERO_BYTE: return "a name of Arrow has no zero byte, and that of a column has";
    default: return hv_error_sentence(HV_UNSUPPORTED);
    }
}

/* Writes the refusal as a sentence into `text`, which has room for HV_ERROR_TEXT bytes, and returns `text`. */
static inline char *hv_table_error_text(int32_t number, const hv_error *error, char *text) {
    const uint64_t first = error->first, second = error->second;
#define HV_TABLE_SAY(...) (snprintf(text, HV_ERROR_TEXT, __VA_ARGS__), text)
    switch (number) {
    case HV_TABLE_UNKNOWN_NAME: return HV_TABLE_SAY("no column has name %" PRIu64, first);
    case HV_TABLE_NAME_TWICE: return HV_TABLE_SAY("names %" PRIu64 " and %" PRIu64 " are equal", first, second);
    case HV_TABLE_FILE_REFUSED: return HV_TABLE_SAY("the system refused the file, with %" PRId64, (int64_t)first);
    case HV_TABLE_OVER_LIMIT:
        return HV_TABLE_SAY(
            "the columns kept as differences take %" PRIu64 " bytes in memory, above the limit of %" PRIu64, first,
            second);
    case HV_TABLE_NAME_COUNT: return HV_TABLE_SAY("%" PRIu64 " names for %" PRIu64 " columns", first, second);
    case HV_TABLE_ROW_COUNT:
        return HV_TABLE_SAY("column %" PRIu64 " has %" PRIu64 " rows, the table %" PRIu64, first, second, error->third);
    case HV_TABLE_NEW_NAME_COUNT: return HV_TABLE_SAY("%" PRIu64 " names for %" PRIu64 " others", first, second);
    case HV_TABLE_OTHER_NAMES: return HV_TABLE_SAY("the other table has not the same names in the same order");
    case HV_TABLE_OTHER_TYPE: return HV_TABLE_SAY("column %" PRIu64 " has another type or format", first);
    case HV_TABLE_NEW_NAME_TWICE:
        return HV_TABLE_SAY("columns %" PRIu64 " and %" PRIu64 " would have one name", first, second);
    case HV_TABLE_NO_KEYS: return HV_TABLE_SAY("rows are put in order, and in groups, by at least one column");
    case HV_TABLE_KEY_OF_LISTS: return HV_TABLE_SAY("key %" PRIu64 " is a column of lists", first);
    case HV_TABLE_UNKNOWN_COLUMN: return HV_TABLE_SAY("the column of answer %" PRIu64 " is not there", first);
    case HV_TABLE_UNSUPPORTED_ANSWER: return HV_TABLE_SAY("the column of answer %" PRIu64 " has no such answer", first);
    case HV_TABLE_ANSWER_TWICE:
        return HV_TABLE_SAY("answer %" PRIu64 " has the name of column %" PRIu64 " of the groups", second, first);
    case HV_TABLE_SUM_OVERFLOW:
        return HV_TABLE_SAY("the sum of group %" PRIu64 " in answer %" PRIu64 " does not fit", second, first);
    case HV_UNSUPPORTED: return HV_TABLE_SAY("%s", hv_table_not_served(error->third));
    case HV_BAD_METADATA: return HV_TABLE_SAY("the bytes, or those of the file, are not those of a table");
    default: return hv_arrow_error_text(number, error, text);
    }
#undef HV_TABLE_SAY
}

#ifdef __cplusplus
}
#endif
#endif
