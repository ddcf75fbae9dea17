/* The refusals of hivevigil.h in words: a name and a sentence for each number. A header only, C11 and C++17.
 *
 *     char text[HV_ERROR_TEXT];
 *     fprintf(stderr, "%s: %s\n", hv_error_name(answer), hv_error_text(answer, &error, text));
 */
#ifndef HIVEVIGIL_ERRORS_H
#define HIVEVIGIL_ERRORS_H
#include "hivevigil.h"
#include <inttypes.h>
#include <stdio.h>
#ifdef __cplusplus
extern "C" {
#endif

/* Each number with its sentence, in which %1, %2 and %3 are replaced by the fields. Rust and Python take their
 * sentences from here (tools/declarations.py). */
#define HV_ERRORS(X) \
    X(HV_OK, "done") \
    X(HV_ENDS_NOT_UNSIGNED, "ends of runs are a flat column of an unsigned type without null") \
    X(HV_LENGTHS_DIFFER, "there are %1 ends and %2 values: each run has one of both") \
    X(HV_NO_RUNS_WINDOW, "there is no run, yet a window of %2 rows from row %1 on") \
    X(HV_ENDS_NOT_STRICT, "the end of run %1 is not above the end before it") \
    X(HV_WINDOW_OVERFLOW, "offset and length, or all rows together, are 2^64 or more") \
    X(HV_FIRST_END_BELOW_OFFSET, "the first run ends before row %1, below the offset %2") \
    X(HV_LAST_END_BELOW_WINDOW, "the last run ends before row %1, the window before row %2") \
    X(HV_OUT_OF_BOUNDS, "row %1 is not among %2 rows") \
    X(HV_BAD_RANGE, "rows %1 to %2 are not among %3 rows") \
    X(HV_MASK_LENGTH, "a mask of %1 rows over a column of %2 rows") \
    X(HV_COLUMN_LENGTH, "a length of %1 next to one of %2") \
    X(HV_TYPE_MISMATCH, "the types do not match") \
    X(HV_UNSUPPORTED, "the call does not serve columns of this type or form") \
    X(HV_CAST_OUT_OF_RANGE, "a row does not fit the type") \
    X(HV_NULL_NOT_ALLOWED, "a row is null, and the type has no null") \
    X(HV_NULL_FILL, "nulls are filled with a value, and null is not one") \
    X(HV_BAD_METADATA, "the bytes are not a metadata record, or not a column") \
    X(HV_ENDS_TYPE_NUMBER, "%1 is not the number of a type of ends") \
    X(HV_RUN_COUNT, "the record says %1 runs, and there are %2") \
    X(HV_ONLY_PRIMITIVE, "only integers are encoded by this call") \
    X(HV_OUT_OF_MEMORY, "a request for memory was refused") \
    X(HV_NO_COLUMN, "there is no column: it was never made, freed, moved away, or lent twice to one call") \
    X(HV_BAD_NUMBER, "the number is not that of a type or of an operator")

/* The sentences of refusals whose third field says what they are about (hivevigil.h). */
#define HV_ERRORS_ABOUT(X) \
    X(HV_NO_RUNS_WINDOW, HV_ABOUT_TEXTS, "there is no offset of texts: there is one more than rows") \
    X(HV_ENDS_NOT_STRICT, HV_ABOUT_TEXTS, "the offset after row %1 is below the one before it, or one is negative") \
    X(HV_ENDS_NOT_STRICT, HV_ABOUT_LISTS, "the offset after list %1 is below the one before it, or one is negative") \
    X(HV_OUT_OF_BOUNDS, HV_ABOUT_TEXTS, "row %1 of %2 is not within the bytes") \
    X(HV_OUT_OF_BOUNDS, HV_ABOUT_LISTS, "list %1 is not within the %2 elements") \
    X(HV_COLUMN_LENGTH, HV_ABOUT_NULL, "a pointer is null next to a length of %1")

/* Room for every sentence: the longest, with three numbers of 20 digits. */
enum { HV_ERROR_TEXT = 160 };

/* The number's name in hivevigil.h, "HV_OUT_OF_BOUNDS"; "unknown" of any other number. */
static inline const char *hv_error_name(int32_t number) {
    switch (number) {
#define HV_NAME(name, sentence) \
    case name: return #name;
        HV_ERRORS(HV_NAME)
#undef HV_NAME
    default: return "unknown";
    }
}

/* The number's sentence, its fields not yet written; null of any other number. */
static inline const char *hv_error_sentence(int32_t number) {
    switch (number) {
#define HV_SENTENCE(name, sentence) \
    case name: return sentence;
        HV_ERRORS(HV_SENTENCE)
#undef HV_SENTENCE
    default: return NULL;
    }
}

/* The sentence of a number that is about something else than runs or rows; null of any other. */
static inline const char *hv_error_sentence_about(int32_t number, uint64_t about) {
#define HV_SENTENCE(name, what, sentence) \
    if (number == name && about == what) return sentence;
    HV_ERRORS_ABOUT(HV_SENTENCE)
#undef HV_SENTENCE
    return NULL;
}

/* Writes the refusal as a sentence with its fields into `text`, which has room for HV_ERROR_TEXT bytes, and returns
 * `text`. A number that is not of hivevigil.h is written with its fields. An index of 2^64 - 1 is written in words: it
 * means one that no uint64_t has. */
static inline char *hv_error_text(int32_t number, const hv_error *error, char *text) {
    const uint64_t fields[] = {error->first, error->second, error->third};
    const char *sentence = hv_error_sentence_about(number, error->third);
    size_t used = 0;
    if (!sentence) sentence = hv_error_sentence(number);
    if (number == HV_OUT_OF_BOUNDS && fields[0] == UINT64_MAX)
        sentence = "an index that is negative, or past 64 bits, is not among %2 rows";
    if (!sentence) {
        snprintf(text, HV_ERROR_TEXT, "error %" PRId32 " (%" PRIu64 ", %" PRIu64 ", %" PRIu64 ")", number, fields[0],
                 fields[1], fields[2]);
        return text;
    }
    for (; *sentence && used < HV_ERROR_TEXT - 1; sentence++) {
        if (sentence[0] == '%' && sentence[1] >= '1' && sentence[1] <= '3')
            used += (size_t)snprintf(text + used, HV_ERROR_TEXT - used, "%" PRIu64, fields[*++sentence - '1']);
        else
            text[used++] = *sentence;
    }
    text[used < HV_ERROR_TEXT ? used : HV_ERROR_TEXT - 1] = 0;
    return text;
}

#ifdef __cplusplus
}
#endif
#endif
