/* A first program: rows become runs, and are asked for. */
#include "hivevigil_errors.h"
#include <inttypes.h>
#include <stdio.h>

int main(void) {
    const int64_t rows[9] = {4, 4, 4, 7, 7, 9, 9, 9, 9};
    hv_session session;
    hv_error error;
    hv_column flat = HV_EMPTY, runs = HV_EMPTY, part = HV_EMPTY;
    hv_total total;
    hv_session_initial(&session);

    int32_t answer = hv_i64(rows, 9, hv_not_nullable(), &flat, &error);
    if (!answer) answer = hv_encode(&session, &flat, &runs, &error);
    if (!answer) answer = hv_sum(&session, &runs, &total, &error);
    if (!answer) printf("%zu rows, sum %" PRId64 "\n", hv_length(&runs), total.as_signed); /* 9 rows, sum 62 */

    if (!answer) answer = hv_slice(&session, &runs, 2, 12, &part, &error);
    if (answer) { /* refused: rows 2 to 12 are not among 9 rows */
        char text[HV_ERROR_TEXT];
        printf("refused: %s\n", hv_error_text(answer, &error, text));
    }

    hv_free(&flat);
    hv_free(&runs);
    hv_free(&part);
    return answer == HV_BAD_RANGE ? 0 : 1;
}
