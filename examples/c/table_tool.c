/* What C makes of the file of a table, as a file, for ../cpp/table_files.py, which has Python make the same:
 *
 *     table_tool copy FROM TO           as it is; `differences` keeps columns of integers as differences
 *     table_tool differences FROM TO
 *     table_tool slice FROM TO START STOP
 *     table_tool take FROM TO INDEX..
 *     table_tool filter FROM TO NAME OPERATOR INTEGER   which is of the column's type, or next to a column of floats
 *     table_tool sort FROM TO first|last [-+]NAME..
 *     table_tool append FROM TO OTHER
 *     table_tool groups FROM TO COLUMN FOLD NAME..      FOLD by its number in hivevigil.h
 *     table_tool select FROM TO NAME..
 *     table_tool arrow FROM TO ROWS     after a stream of batches of this number of rows
 *
 * A refusal is written to standard output as its name and its sentence. */
#include "hivevigil_table_file.h"
#include "check.h"
#include "hivevigil_table_arrow.h"
#include "hivevigil_table_concat.h"
#include "hivevigil_table_groups.h"

enum { MOST = 64 };
static hv_session session;
static hv_error error;

static int32_t take(const hv_table *table, char **words, size_t count, hv_table *out) {
    uint64_t indices[MOST];
    hv_column column = HV_EMPTY;
    for (size_t i = 0; i < count; i++) indices[i] = strtoull(words[i], NULL, 10);
    int32_t answer = hv_u64(indices, count, NOT_NULLABLE, &column, &error);
    if (!answer) answer = hv_table_take(table, &column, out, &error);
    hv_free(&column);
    return answer;
}

static int32_t filter(const hv_table *table, char **words, hv_table *out) {
    static const char *const signs[] = {"==", "!=", ">", ">=", "<", "<="};
    const hv_value value = {0, strtoll(words[2], NULL, 10), HV_SIGNED, 0, 0};
    const uint8_t *const name = (const uint8_t *)words[0];
    uint8_t operator_ = 0;
    while (strcmp(signs[operator_], words[1]) != 0) operator_++;
    return hv_table_filter_by(table, name, strlen(words[0]), operator_, &value, NULL, 0, out, &error);
}

static int32_t sort(const hv_table *table, char **words, size_t count, hv_table *out) {
    const char *names[MOST];
    uint8_t flags[MOST];
    hv_column texts = HV_EMPTY;
    for (size_t i = 1; i < count; i++) {
        names[i - 1] = words[i] + 1;
        flags[i - 1] = (uint8_t)((words[i][0] == '-' ? HV_TABLE_DESCENDING : 0) |
                                 (strcmp(words[0], "last") == 0 ? HV_TABLE_NULLS_LAST : 0));
    }
    int32_t answer = hv_table_names(names, count - 1, &texts, &error);
    if (!answer) answer = hv_table_sort(table, &texts, flags, count - 1, out, &error);
    hv_free(&texts);
    return answer;
}

static int32_t group(const hv_table *table, char **words, size_t count, hv_table *out) {
    const hv_table_answer asked = {"answer", (uint8_t)atoi(words[1]), words[0]};
    return hv_table_grouping(table, (const char *const *)words + 2, count - 2, &asked, 1, out, &error);
}

static int32_t append(const hv_table *table, const char *path, hv_table *out) {
    hv_table other = HV_EMPTY;
    int32_t answer = hv_table_load(path, &other, &error);
    if (!answer) answer = hv_table_concat(&session, table, &other, out, &error);
    hv_table_free(&other);
    return answer;
}

static int32_t through_arrow(const hv_table *table, const char *rows, hv_table *out) {
    struct ArrowArrayStream stream;
    const int32_t answer = hv_table_export_stream(&session, table, strtoull(rows, NULL, 10), &stream, &error);
    return answer ? answer : hv_table_import_stream(&session, &stream, out, &error);
}

static int32_t make(const char *command, const char *from, char **words, size_t count, hv_table *out) {
    hv_table table = HV_EMPTY;
    if (!strcmp(command, "select"))
        return hv_table_load_columns(from, (const char *const *)words, count, out, &error);
    int32_t answer = hv_table_load(from, &table, &error);
    if (answer) return answer;
    if (!strcmp(command, "slice"))
        answer = hv_table_slice(&table, strtoull(words[0], NULL, 10), strtoull(words[1], NULL, 10), out, &error);
    else if (!strcmp(command, "take")) answer = take(&table, words, count, out);
    else if (!strcmp(command, "filter")) answer = filter(&table, words, out);
    else if (!strcmp(command, "sort")) answer = sort(&table, words, count, out);
    else if (!strcmp(command, "append")) answer = append(&table, words[0], out);
    else if (!strcmp(command, "groups")) answer = group(&table, words, count, out);
    else if (!strcmp(command, "arrow")) answer = through_arrow(&table, words[0], out);
    else hv_table_replace(out, &table);
    hv_table_free(&table);
    return answer;
}

int main(int count, char **given) {
    hv_table made = HV_EMPTY;
    char text[HV_ERROR_TEXT];
    if (count < 4 || count > MOST) return 2;
    hv_session_initial(&session);
    int32_t answer = make(given[1], given[2], given + 4, (size_t)count - 4, &made);
    if (!answer) answer = hv_table_save(&made, given[3], !strcmp(given[1], "differences"), &error);
    if (answer) printf("%s: %s\n", hv_table_error_name(answer), hv_table_error_text(answer, &error, text));
    hv_table_free(&made);
    return 0;
}
