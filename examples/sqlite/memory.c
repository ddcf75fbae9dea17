/* Each request for memory of the extension and of the library refused in turn: the statement answers "out of memory",
 * or what it answers otherwise, and no block is lost. SQLite's own memory is another library's. Linked as test.c, with
 * -Wl,--wrap=malloc,--wrap=calloc,--wrap=realloc,--wrap=free */
#include "../c/refusing_malloc.h"
#include "check.h"
#include <sqlite3.h>

int sqlite3_hivevigilsqlite_init(sqlite3 *db, char **error, const void *api);

static sqlite3 *db;
static char answer[4096];

static const char *ask(const char *sql) {
    sqlite3_stmt *statement = NULL;
    const char *text = NULL;
    CHECK(sqlite3_prepare_v2(db, sql, -1, &statement, NULL) == SQLITE_OK);
    const int step = sqlite3_step(statement);
    if (step == SQLITE_ROW) text = (const char *)sqlite3_column_text(statement, 0);
    if (step == SQLITE_ROW || step == SQLITE_DONE) snprintf(answer, sizeof answer, "%s", text ? text : "NULL");
    else snprintf(answer, sizeof answer, "error: %s", sqlite3_errmsg(db));
    sqlite3_finalize(statement);
    return answer;
}

/* How many requests were refused, one in each turn, until none is left. The statement is refused by itself where
 * `is_error` says so. */
static long refuse_each(const char *sql, bool is_error) {
    char wanted[sizeof answer];
    long turn = 0, before = blocks;
    strcpy(wanted, ask(sql));
    CHECK((strncmp(wanted, "error: hv_", 10) == 0) == is_error && (is_error || strncmp(wanted, "error", 5) != 0));
    for (bool some = true; some; turn++) {
        const long so_far = refused;
        requests = 0, refuse_at = turn;
        ask(sql);
        refuse_at = -1;
        some = refused > so_far;
        if (strcmp(answer, wanted) != 0) check_text(answer, "error: out of memory", sql, __FILE__, __LINE__);
        if (blocks != before) printf("%s: %ld blocks lost\n", sql, blocks - before);
        CHECK(blocks == before);
    }
    return turn - 1;
}

int main(void) {
    static const char *const statements[] = {
        "SELECT length(hv_column(v)) FROM t",
        "SELECT length(hv_column('a text of number ' || v)) FROM t",
        "SELECT length(hv_column(v, 'integer')) FROM t",
        "SELECT length(hv_column(i)) FROM m",
        "SELECT length(hv_column('a text of number ' || i)) FROM m",
        "SELECT length(hv_concat(c)) FROM p",
        "SELECT length(hv_concat(hv_slice(w, 1, 20))) FROM p",
        "SELECT hv_rows(c) + hv_count(c) + hv_sum(c) + hv_at(c, 3) FROM p",
        "SELECT hv_min(w) || hv_max(w) || hv_at(w, 3) FROM p",
        "SELECT hv_first(c) + hv_last(c) + length(hv_first(w) || hv_last(w)) FROM p",
        "SELECT length(hv_filter(c, '>', 3)) FROM p",
        "SELECT length(hv_filter(w, '<', 'a text of number 4')) FROM p",
        "SELECT length(hv_slice(c, 3, 20)) FROM p",
        "SELECT length(hv_slice(c, 3, 4)) FROM p",
        "SELECT length(hv_add(c, 7)) FROM p",
        "SELECT length(hv_or(c, hv_compare(w, '>', 'a text of number 4'))) FROM p",
        "SELECT length(hv_filter(w, hv_not(c))) FROM p",
        "SELECT sum(length(key) + sum + first + rows) FROM p, hv_groups(w, c)",
        "SELECT sum(stop * length(value)) FROM p, hv_runs(w)",
        "SELECT sum(hv_count(c)) FROM (SELECT hv_concat(x'0801100B180120022803620200006A00') AS c)",
        "SELECT hv_sum(hv_concat(x'080110011803200528013A0107'))",
        "SELECT hv_sum(hv_concat(x'080110091801200428043201" "0D" "3A0105'))",
        "SELECT length(hv_append(c, 7, 3)) + length(hv_append(w, NULL, 3)) FROM p",
        "SELECT length(hv_append(w, 'a text that is longer than the room that there is at first', 3)) FROM p",
        "SELECT length(hv_repeat(v, 1000)) FROM t",
        "SELECT hv_sum_all(c) FROM p",
        "SELECT length(hv_steps(c)) + length(hv_totals(c)) FROM p",
        "SELECT length(hv_totals(c)) FROM (SELECT hv_repeat(7, 600) AS c)",
        "SELECT length(hv_buckets(c, 4)) + length(hv_step_buckets(c, 50)) FROM p",
        "SELECT sum(key * sum) FROM p, hv_groups(hv_step_buckets(c, 50), c)",
        "SELECT length(hv_column(v / 4.0)) FROM t",
        "SELECT hv_rows(f) + hv_count(f) + hv_sum(f) + hv_min(f) + hv_max(f) + hv_at(f, 3) + hv_first(f) FROM p",
        "SELECT hv_type(f) || hv_type(c) FROM p",
        "SELECT hv_sum_all(f) FROM (SELECT f FROM p UNION ALL SELECT hv_slice(f, 3, 20) FROM p)",
        "SELECT length(hv_filter(f, '>', 3)) + length(hv_filter(f, '<', 3.5)) FROM p",
        "SELECT length(hv_compare(f, '>', 3)) + length(hv_compare(f, '<', hv_append(hv_slice(f, 1, 100), 2.5, 1))) FROM p",
        "SELECT length(hv_concat(f)) + length(hv_append(f, 0.5, 3)) + length(hv_slice(f, 3, 20)) FROM p",
        "SELECT sum(key + sum + min + max + first + count) FROM p, hv_groups(f, f)",
        "SELECT sum(stop * value) FROM p, hv_runs(f)",
        "SELECT length(hv_concat(x'68697665766967696C2074797065203120660A080110071801200128013A040000C03F'))",
        "SELECT length(hv_concat(x'68697665766967696C2074797065203120650A080110061801200128013A02003E'))",
        "SELECT length(hv_concat(x'0802B2010165BA010E080110061801200128013A02003E'))",
        "SELECT length(hv_concat(x'0802B201077473733A555443BA0114080110081801200128013A080700000000000000'))",
        "SELECT length(hv_cast(c, 'tss:UTC')) + length(hv_cast(hv_cast(c, 'tss:UTC'), 'tsn:UTC')) FROM p",
        "SELECT length(hv_cast(c, 'tdD')) + length(hv_logical_type(hv_cast(c, 'tdD'))) FROM p",
        "SELECT length(hv_slice(d, 3, 90)) + length(hv_filter(d, '>', 3)) + length(hv_filter(d, c)) FROM p",
        "SELECT length(hv_append(d, 7, 3)) + length(hv_buckets(d, 4)) FROM p",
        "SELECT length(hv_concat(d)) FROM (SELECT d FROM p UNION ALL SELECT c FROM p UNION ALL SELECT d FROM p)",
    };
    static const char *const refused_statements[] = {
        "SELECT hv_sum(hv_column(9223372036854775000 + v * 100)) FROM t",
        "SELECT hv_multiply(c, 461168601842738790) FROM p",
        "SELECT hv_add(c, w) FROM p",
        "SELECT hv_append(c, w, 2) FROM p",
        "SELECT hv_repeat(iif(v < 20, v, 'a'), 2) FROM t",
        "SELECT hv_totals(hv_append(c, 9223372036854775807, 1)) FROM p",
        "SELECT hv_sum_all(w) FROM p",
        "SELECT hv_column(iif(v < 20, v || ' trees', CAST(x'C328' AS TEXT))) FROM t",
        "SELECT hv_add(f, f) FROM p",
        "SELECT hv_compare(f, '<', c) FROM p",
        "SELECT hv_append(f, 7, 2) FROM p",
        "SELECT hv_sum_all(c) FROM (SELECT c FROM p UNION ALL SELECT f FROM p)",
        "SELECT hv_sum(x'68697665766967696C2074797065203120670A080110071801200128013A040000C03F')",
        "SELECT hv_sum(x'0802B2010167BA0110080110071801200128013A040000C03F')",
        "SELECT hv_cast(hv_cast(c, 'tsm:'), 'tss:') FROM p",
        "SELECT hv_cast(w, 'tdD') FROM p",
        "SELECT hv_append(d, 2147483648, 1) FROM p",
        "SELECT hv_concat(c) FROM (SELECT d AS c FROM p UNION ALL SELECT hv_cast(c, 'tss:') FROM p)",
    };
    long all = 0;
    CHECK(sqlite3_open(":memory:", &db) == SQLITE_OK);
    CHECK(sqlite3_hivevigilsqlite_init(db, NULL, NULL) == SQLITE_OK);
    ask("CREATE TABLE t(v)");
    ask("WITH RECURSIVE n(i) AS (SELECT 0 UNION ALL SELECT i + 1 FROM n WHERE i < 99) INSERT INTO t SELECT CASE WHEN i "
        "% 7 "
        "THEN i / 3 END FROM n");
    ask("CREATE TABLE m AS WITH RECURSIVE n(i) AS (SELECT NULL UNION ALL SELECT ifnull(i, 0) + 1 FROM n LIMIT 1200) "
        "SELECT i FROM n");
    ask("CREATE TABLE p AS SELECT hv_column(v) AS c, hv_column('a text of number ' || v || ' and more, so that it is "
        "longer "
        "than any room that there is at first') AS w, hv_column(v / 4.0) AS f FROM t");
    ask("CREATE TABLE q AS SELECT p.*, hv_cast(c, 'tdD') AS d FROM p");
    ask("DROP TABLE p");
    ask("ALTER TABLE q RENAME TO p");
    for (size_t i = 0; i < COUNT(statements); i++) all += refuse_each(statements[i], false);
    for (size_t i = 0; i < COUNT(refused_statements); i++) all += refuse_each(refused_statements[i], true);
    CHECK(sqlite3_close(db) == SQLITE_OK);
    printf("%zu statements, %ld requests refused in turn\n", COUNT(statements) + COUNT(refused_statements), all);
    return 0;
}
