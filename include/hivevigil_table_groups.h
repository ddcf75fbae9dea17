/* What is asked of the groups of a table, by names that are texts of C. A header only, C11 and C++17, which makes the
 * columns of names that hv_table_group_by of hivevigil_tables.h takes, and calls it; nothing here is proved.
 *
 *     const char *const keys[] = {"station"};
 *     const hv_table_answer asked[] = {{"readings", HV_FOLD_ROWS, NULL}, {"highest", HV_FOLD_GREATEST, "level"}};
 *     answer = hv_table_grouping(&table, keys, 1, asked, 2, &groups, &error);
 */
#ifndef HIVEVIGIL_TABLE_GROUPS_H
#define HIVEVIGIL_TABLE_GROUPS_H
#include "hivevigil_table_helpers.h"
#ifdef __cplusplus
extern "C" {
#endif

/* A column of answers: its name, what is asked (HV_FOLD_SUM to HV_FOLD_LAST), and of which column, which HV_FOLD_ROWS
 * does not need. */
typedef struct hv_table_answer {
    const char *name;
    uint8_t fold;
    const char *column;
} hv_table_answer;

/* What hv_table_group_by answers of these keys, answers, columns and folds. HV_TYPE_MISMATCH where a name is not UTF-8,
 * then refused as that call; HV_OUT_OF_MEMORY. */
HV_ANSWER hv_table_grouping(const hv_table *table, const char *const *keys, size_t key_count,
                            const hv_table_answer *answers, size_t answer_count, hv_table *out, hv_error *error) {
    const char *const of_rows = key_count ? keys[0] : ""; /* any column has rows */
    hv_column key_names = HV_EMPTY, answer_names = HV_EMPTY, column_names = HV_EMPTY;
    const char **names = NULL, **columns = NULL;
    uint8_t *folds = NULL;
    int32_t answer = hv_table_memory(answer_count, sizeof *names, &names, error);
    if (!answer) answer = hv_table_memory(answer_count, sizeof *columns, &columns, error);
    if (!answer) answer = hv_table_memory(answer_count, sizeof *folds, &folds, error);
    for (size_t i = 0; !answer && i < answer_count; i++) {
        names[i] = answers[i].name;
        columns[i] = answers[i].fold == HV_FOLD_ROWS ? of_rows : answers[i].column;
        folds[i] = answers[i].fold;
    }
    if (!answer) answer = hv_table_names(keys, key_count, &key_names, error);
    if (!answer) answer = hv_table_names(names, answer_count, &answer_names, error);
    if (!answer) answer = hv_table_names(columns, answer_count, &column_names, error);
    if (!answer)
        answer = hv_table_group_by(table, &key_names, &answer_names, &column_names, folds, answer_count, out, error);
    hv_free(&key_names);
    hv_free(&answer_names);
    hv_free(&column_names);
    free(names);
    free(columns);
    free(folds);
    return answer;
}

#ifdef __cplusplus
}
#endif
#endif
