/* The refusals of hivevigil_arrow.h in words, as hivevigil_errors.h has those of hivevigil.h. C11 and C++17.
 *
 *     char text[HV_ERROR_TEXT];
 *     fprintf(stderr, "%s\n", hv_arrow_error_text(answer, &error, text));
 */
#ifndef HIVEVIGIL_ARROW_ERRORS_H
#define HIVEVIGIL_ARROW_ERRORS_H
#include "hivevigil_arrow.h"
#include "hivevigil_errors.h"
#ifdef __cplusplus
extern "C" {
#endif

/* The number's name, as hv_error_name has those of hivevigil.h. */
static inline const char *hv_arrow_error_name(int32_t number) {
    if (number == HV_ARROW_INVALID) return "HV_ARROW_INVALID";
    if (number == HV_ARROW_ENDS_TOO_LARGE) return "HV_ARROW_ENDS_TOO_LARGE";
    return number == HV_ARROW_STREAM_FAILED ? "HV_ARROW_STREAM_FAILED" : hv_error_name(number);
}

/* Why an array is not valid, by the first field of HV_ARROW_INVALID. */
static inline const char *hv_arrow_reason(uint64_t why) {
    switch (why) {
    case HV_ARROW_RELEASED: return "a struct is missing, or was released";
    case HV_ARROW_NO_POINTER: return "a pointer that the format needs is null";
    case HV_ARROW_PARTS: return "it does not have the buffers or the children of its format";
    case HV_ARROW_LENGTH: return "a length or an offset is negative, or past what there is";
    case HV_ARROW_NULL_COUNT: return "null_count is not the number of nulls";
    case HV_ARROW_NULL_IN_RUNS: return "an array of runs has a bitmap, or a run end is null";
    case HV_ARROW_DICTIONARY: return "only one of schema and array has a dictionary, or the codes are not integers";
    case HV_ARROW_VIEW: return "a view is not within its buffers, or does not begin as they do";
    default: return "it is not one of its format";
    }
}

/* Writes the refusal of a call of hivevigil_arrow.h as a sentence into `text`, which has room for HV_ERROR_TEXT bytes,
 * and returns `text`. A number of hivevigil.h is written as hv_error_text writes it. */
static inline char *hv_arrow_error_text(int32_t number, const hv_error *error, char *text) {
    switch (number) {
    case HV_ARROW_INVALID:
        if (error->first == HV_ARROW_VIEW)
            snprintf(text, HV_ERROR_TEXT, "the Arrow array is not valid: row %" PRIu64 ": %s", error->second,
                     hv_arrow_reason(error->first));
        else snprintf(text, HV_ERROR_TEXT, "the Arrow array is not valid: %s", hv_arrow_reason(error->first));
        return text;
    case HV_ARROW_ENDS_TOO_LARGE:
        snprintf(text, HV_ERROR_TEXT, "a run ends before row %" PRIu64 ", past the greatest end of its width, %" PRIu64,
                 error->first, error->second);
        return text;
    case HV_ARROW_STREAM_FAILED:
        snprintf(text, HV_ERROR_TEXT, "the Arrow stream failed with %" PRId64, (int64_t)error->first);
        return text;
    default: return hv_error_text(number, error, text);
    }
}

#ifdef __cplusplus
}
#endif
#endif
