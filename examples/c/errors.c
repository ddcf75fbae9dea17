/* Names and sentences of refusals, worked out by hand. */
#include "hivevigil_errors.h"
#include "check.h"
#include "hivevigil_table_errors.h"

static void check_sentences(void) {
    char text[HV_ERROR_TEXT];
    const hv_error error = {5, 11, 10};
    CHECK(strcmp(hv_error_text(HV_BAD_RANGE, &error, text), "rows 5 to 11 are not among 10 rows") == 0);
    CHECK(strcmp(hv_error_text(HV_NO_RUNS_WINDOW, &error, text),
                 "there is no run, yet a window of 11 rows from row 5 on") == 0);
    CHECK(strcmp(hv_error_text(HV_WINDOW_OVERFLOW, &error, text),
                 "offset and length, or all rows together, are 2^64 or more") == 0);
    CHECK(strcmp(hv_error_text(HV_NULL_FILL, &error, text), "nulls are filled with a value, and null is not one") == 0);
    const hv_error negative = {UINT64_MAX, 3, 0};
    CHECK(strcmp(hv_error_text(HV_OUT_OF_BOUNDS, &negative, text),
                 "an index that is negative, or past 64 bits, is not among 3 rows") == 0);
    CHECK(strcmp(hv_error_text(-7, &error, text), "error -7 (5, 11, 10)") == 0);
    CHECK(strcmp(hv_error_name(HV_BAD_RANGE), "HV_BAD_RANGE") == 0 && strcmp(hv_error_name(99), "unknown") == 0);
}

/* What a refusal is about where its number has another sentence of runs or rows, by calls that are refused so. */
static void check_subjects(void) {
    const int32_t offsets[3] = {0, 5, 3}, far[2] = {0, 9};
    const uint64_t starts[1] = {1}, sizes[1] = {5};
    const uint8_t items[2] = {1, 2}, *const bytes = (const uint8_t *)"abcde";
    char text[HV_ERROR_TEXT];
    hv_column column = HV_EMPTY, out = HV_EMPTY;
    hv_error error;
#define SAID(call, sentence) CHECK(strcmp(hv_error_text((call), &error, text), (sentence)) == 0)
    CHECK(!hv_u8(items, 2, NOT_NULLABLE, &column, &error));
    SAID(hv_texts(0, offsets, 3, bytes, 5, NOT_NULLABLE, &out, &error),
         "the offset after row 1 is below the one before it, or one is negative");
    SAID(hv_texts(1, far, 2, bytes, 5, NOT_NULLABLE, &out, &error), "row 0 of 1 is not within the bytes");
    SAID(hv_texts(0, NULL, 0, bytes, 5, NOT_NULLABLE, &out, &error),
         "there is no offset of texts: there is one more than rows");
    SAID(hv_lists(&column, starts, 1, sizes, 1, NOT_NULLABLE, &out, &error), "list 0 is not within the 2 elements");
    SAID(hv_u8(NULL, 7, NOT_NULLABLE, &out, &error), "a pointer is null next to a length of 7");
    hv_free(&column);
}

/* Each sentence with the greatest fields is whole: it ends within the room, and as the list has it. */
static void check_room(void) {
    const hv_error error = {UINT64_MAX, UINT64_MAX, UINT64_MAX};
    for (int32_t number = HV_OK; number <= HV_BAD_NUMBER; number++) {
        char text[HV_ERROR_TEXT];
        const char *sentence = hv_error_sentence(number);
        hv_error_text(number, &error, text);
        CHECK(strlen(text) < HV_ERROR_TEXT - 1 && !strchr(text, '%'));
        const char last = sentence[strlen(sentence) - 1];
        CHECK(text[strlen(text) - 1] == (strchr("123", last) ? '5' : last)); /* 2^64 - 1 ends in a 5 */
        for (uint64_t about = HV_ABOUT_TEXTS; about <= HV_ABOUT_NULL; about++) {
            const hv_error greatest = {UINT64_MAX - 1, UINT64_MAX, about};
            CHECK(strlen(hv_error_text(number, &greatest, text)) < HV_ERROR_TEXT - 1 && !strchr(text, '%'));
        }
    }
}

static void check_of_a_call(void) {
    hv_column column = HV_EMPTY;
    hv_error error = {0, 0, 0};
    hv_value value;
    uint8_t nothing = 0;
    char text[HV_ERROR_TEXT];
    const uint8_t rows[2] = {1, 2};
    CHECK(hv_u8(rows, 2, NOT_NULLABLE, &column, &error) == HV_OK);
    const int32_t answer = hv_at(&column, 2, &value, &nothing, 0, &error);
    CHECK(strcmp(hv_error_text(answer, &error, text), "row 2 is not among 2 rows") == 0);
    hv_free(&column);
}

/* Each number of Arrow has a sentence, and each reason another; a number of hivevigil.h has its own. */
static void check_arrow(void) {
    char text[HV_ERROR_TEXT];
    const hv_error range = {5, 11, 10}, view = {HV_ARROW_VIEW, 3, 0}, ends = {32768, 32767, 0};
    const hv_error failed = {(uint64_t)-5, 0, 0};
    for (uint64_t why = HV_ARROW_RELEASED; why <= HV_ARROW_VIEW; why++) {
        const hv_error error = {why, UINT64_MAX, 0};
        CHECK(strlen(hv_arrow_error_text(HV_ARROW_INVALID, &error, text)) < HV_ERROR_TEXT - 1);
        CHECK(strstr(text, hv_arrow_reason(why)) && strcmp(hv_arrow_reason(why), hv_arrow_reason(why + 1)) != 0);
        CHECK(strcmp(hv_arrow_reason(why), hv_arrow_reason(0)) != 0);
    }
    CHECK(strcmp(hv_arrow_error_text(HV_ARROW_INVALID, &view, text),
                 "the Arrow array is not valid: row 3: a view is not within its buffers, or does not begin as they do") ==
          0);
    CHECK(strcmp(hv_arrow_error_text(HV_ARROW_ENDS_TOO_LARGE, &ends, text),
                 "a run ends before row 32768, past the greatest end of its width, 32767") == 0);
    CHECK(strcmp(hv_arrow_error_text(HV_ARROW_STREAM_FAILED, &failed, text), "the Arrow stream failed with -5") == 0);
    CHECK(strcmp(hv_arrow_error_text(HV_BAD_RANGE, &range, text), "rows 5 to 11 are not among 10 rows") == 0);
    CHECK(strcmp(hv_arrow_error_name(HV_ARROW_STREAM_FAILED), "HV_ARROW_STREAM_FAILED") == 0);
    CHECK(strcmp(hv_arrow_error_name(HV_BAD_RANGE), "HV_BAD_RANGE") == 0);
}

/* Those of tables, and what falls through to those of Arrow and of columns. */
static void check_tables(void) {
    char text[HV_ERROR_TEXT];
    hv_error error = {5, 11, 0};
    CHECK(strcmp(hv_table_error_text(HV_ARROW_STREAM_FAILED, &error, text), "the Arrow stream failed with 5") == 0);
    CHECK(strcmp(hv_table_error_name(HV_ARROW_INVALID), "HV_ARROW_INVALID") == 0);
    CHECK(strcmp(hv_table_error_text(HV_BAD_METADATA, &error, text),
                 "the bytes, or those of the file, are not those of a table") == 0);
    CHECK(strcmp(hv_table_error_text(HV_UNSUPPORTED, &error, text), hv_error_sentence(HV_UNSUPPORTED)) == 0);
    for (error.third = HV_TABLE_WITHOUT_BATCHES; error.third <= HV_TABLE_WITH_ZERO_BYTE; error.third++)
        CHECK(strcmp(hv_table_error_text(HV_UNSUPPORTED, &error, text), hv_error_sentence(HV_UNSUPPORTED)) != 0);
    error.third = HV_TABLE_WITHOUT_BATCHES;
    CHECK(strcmp(hv_table_error_text(HV_UNSUPPORTED, &error, text), "a table comes from batches that have columns") ==
          0);
    const hv_error greatest = {UINT64_MAX, UINT64_MAX, UINT64_MAX};
    for (int32_t number = HV_TABLE_UNKNOWN_NAME; number <= HV_TABLE_SUM_OVERFLOW; number++) {
        CHECK(strcmp(hv_table_error_name(number), "unknown") != 0);
        CHECK(strlen(hv_table_error_text(number, &greatest, text)) < HV_ERROR_TEXT - 1);
        CHECK(strncmp(text, "error ", 6) != 0);
    }
}

int main(void) {
    check_sentences();
    check_subjects();
    check_arrow();
    check_tables();
    check_room();
    check_of_a_call();
    puts("each refusal has a name and a sentence");
    return 0;
}
