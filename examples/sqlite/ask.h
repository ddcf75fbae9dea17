/* What the tests of SQLite share: a database with the extension, a query's answer as text, and random numbers. */
#ifndef HIVEVIGIL_SQLITE_ASK_H
#define HIVEVIGIL_SQLITE_ASK_H
#include "check.h"
#include <sqlite3.h>

#ifndef LOADED_ALONE
int sqlite3_hivevigilsqlite_init(sqlite3 *db, char **error, const void *api);
#endif

static sqlite3 *db;
static char answer[1 << 20];

/* The rows of a query, with | between columns and a space between rows, or "error: " and why. */
static const char *ask(const char *sql) {
    sqlite3_stmt *statement = NULL;
    size_t used = 0;
    answer[0] = 0;
    int step = sqlite3_prepare_v2(db, sql, -1, &statement, NULL);
    while (!step || step == SQLITE_ROW) {
        step = sqlite3_step(statement);
        for (int at = 0; step == SQLITE_ROW && at < sqlite3_column_count(statement); at++) {
            const unsigned char *text = sqlite3_column_text(statement, at);
            used += (size_t)snprintf(answer + used, sizeof answer - used, "%s%s",
                                     at     ? "|"
                                     : used ? " "
                                            : "",
                                     text ? (const char *)text : "NULL");
        }
        if (step == SQLITE_DONE) break;
    }
    if (step != SQLITE_DONE) snprintf(answer, sizeof answer, "error: %s", sqlite3_errmsg(db));
    sqlite3_finalize(statement);
    return answer;
}

#define CHECK_SQL(sql, wanted) check_text(ask(sql), (wanted), sql, __FILE__, __LINE__)

/* Do both queries answer the same? */
static void same(const char *runs, const char *rows) {
    static char wanted[sizeof answer];
    strcpy(wanted, ask(rows));
    check_text(ask(runs), wanted, runs, __FILE__, __LINE__);
}

static uint64_t state = 88172645463325252;

static uint64_t below(uint64_t limit) {
    state ^= state << 13;
    state ^= state >> 7;
    state ^= state << 17;
    return (state * 2685821657736338717u >> 16) % limit;
}

/* the blob of one byte */
static void unhex_byte(sqlite3_context *context, int count, sqlite3_value **values) {
    const unsigned char byte = (unsigned char)sqlite3_value_int(values[0]);
    (void)count;
    sqlite3_result_blob(context, &byte, 1, SQLITE_TRANSIENT);
}

/* Opens a database in memory with the extension in this file, or with the one that is linked. */
static void open_database(const char *extension) {
    CHECK(sqlite3_open(":memory:", &db) == SQLITE_OK);
    if (extension) {
        sqlite3_db_config(db, SQLITE_DBCONFIG_ENABLE_LOAD_EXTENSION, 1, NULL);
        CHECK(sqlite3_load_extension(db, extension, NULL, NULL) == SQLITE_OK);
    } else {
#ifndef LOADED_ALONE
        CHECK(sqlite3_hivevigilsqlite_init(db, NULL, NULL) == SQLITE_OK);
#endif
    }
    sqlite3_create_function(db, "unhex_byte", 1, SQLITE_UTF8, NULL, unhex_byte, NULL, NULL);
}

#endif
