/* hv_runs(column): a table of a row for each run, made when it is asked for. */
#include "../engines/stretches.h"
#include "sqlite_column.h"
#include <stdlib.h>
#include <string.h>

enum { START, STOP, VALUE, COLUMN };

/* The runs are those of an encoding, and one of them is looked at. */
typedef struct cursor {
    sqlite3_vtab_cursor base;
    hv_column runs;
    size_t count, run, start, stop;
    row_value value;
    uint8_t *text; /* of the value */
    size_t room;
} cursor;

static void forget(cursor *at) {
    hv_free(&at->runs);
    free(at->text);
    at->text = NULL;
    at->room = at->count = at->run = 0;
}

/* Looks at the run, if there is one; its text is asked for again with room for it. */
static int32_t look(cursor *at, hv_error *error) {
    hv_value found = {.kind = HV_NULL};
    if (at->run >= at->count) return HV_OK;
    int32_t answer = hv_run(&at->runs, at->run, &at->start, &at->stop, &found, at->text, at->room, error);
    if (answer == HV_COLUMN_LENGTH) {
        uint8_t *text = realloc(at->text, (size_t)error->first);
        if (!text) return HV_OUT_OF_MEMORY;
        at->text = text;
        at->room = (size_t)error->first;
        answer = hv_run(&at->runs, at->run, &at->start, &at->stop, &found, at->text, at->room, error);
    }
    at->value = row_value_shown(&found, at->text);
    return answer;
}

static int connect_table(sqlite3 *db, void *data, int count, const char *const *words, sqlite3_vtab **table,
                         char **error) {
    (void)data, (void)count, (void)words, (void)error;
    const int answer = sqlite3_declare_vtab(db, "CREATE TABLE runs(start, stop, value, \"column\" HIDDEN)");
    if (answer) return answer;
    *table = sqlite3_malloc(sizeof **table);
    if (!*table) return SQLITE_NOMEM;
    memset(*table, 0, sizeof **table);
    return sqlite3_vtab_config(db, SQLITE_VTAB_INNOCUOUS);
}

static int disconnect(sqlite3_vtab *table) {
    sqlite3_free(table);
    return SQLITE_OK;
}

/* The column is the argument, which a plan has to have. */
static int best_index(sqlite3_vtab *table, sqlite3_index_info *plan) {
    bool asked = false;
    for (int i = 0; i < plan->nConstraint; i++) {
        if (plan->aConstraint[i].iColumn != COLUMN || plan->aConstraint[i].op != SQLITE_INDEX_CONSTRAINT_EQ) continue;
        asked = true;
        if (!plan->aConstraint[i].usable) continue;
        plan->aConstraintUsage[i].argvIndex = 1;
        plan->aConstraintUsage[i].omit = 1;
        plan->estimatedCost = 1000;
        plan->estimatedRows = 1000;
        return SQLITE_OK;
    }
    if (asked) return SQLITE_CONSTRAINT;
    table->zErrMsg = sqlite3_mprintf("hv_runs: a column is asked for, hv_runs(column)");
    return SQLITE_ERROR;
}

static int open_cursor(sqlite3_vtab *table, sqlite3_vtab_cursor **opened) {
    cursor *made = sqlite3_malloc(sizeof *made);
    (void)table;
    if (!made) return SQLITE_NOMEM;
    memset(made, 0, sizeof *made);
    *opened = &made->base;
    return SQLITE_OK;
}

static int close_cursor(sqlite3_vtab_cursor *base) {
    forget((cursor *)base);
    sqlite3_free(base);
    return SQLITE_OK;
}

static int begin(sqlite3_vtab_cursor *base, int plan, const char *name, int count, sqlite3_value **values) {
    cursor *at = (cursor *)base;
    hv_column column = HV_EMPTY;
    hv_error error = {0, 0, 0};
    char *reason = NULL;
    (void)plan, (void)name, (void)count;
    forget(at);
    if (sqlite3_value_type(values[0]) == SQLITE_NULL) return SQLITE_OK;
    bool done = column_of("hv_runs", values[0], &column, &reason);
    if (done) {
        int32_t answer = encoded_by_stretches(&column, &at->runs, &error);
        if (!answer) answer = hv_run_count(&at->runs, &at->count, &error);
        if (!answer) answer = look(at, &error);
        if (answer) reason = refusal("hv_runs", answer, &error);
        done = !answer;
    }
    hv_free(&column);
    if (done) return SQLITE_OK;
    base->pVtab->zErrMsg = reason;
    return reason ? SQLITE_ERROR : SQLITE_NOMEM;
}

static int next_run(sqlite3_vtab_cursor *base) {
    cursor *at = (cursor *)base;
    hv_error error;
    at->run++;
    return look(at, &error) ? SQLITE_NOMEM : SQLITE_OK;
}

static int at_end(sqlite3_vtab_cursor *base) {
    const cursor *at = (const cursor *)base;
    return at->run >= at->count;
}

static int column_value(sqlite3_vtab_cursor *base, sqlite3_context *context, int column) {
    const cursor *at = (const cursor *)base;
    if (column == START) sqlite3_result_int64(context, (sqlite3_int64)at->start);
    if (column == STOP) sqlite3_result_int64(context, (sqlite3_int64)at->stop);
    if (column == VALUE) answer_value(context, &at->value);
    return SQLITE_OK;
}

static int row_id(sqlite3_vtab_cursor *base, sqlite3_int64 *id) {
    *id = (sqlite3_int64)((cursor *)base)->run;
    return SQLITE_OK;
}

int register_runs_table(sqlite3 *db) {
    static const sqlite3_module module = {
        .xConnect = connect_table,
        .xBestIndex = best_index,
        .xDisconnect = disconnect,
        .xOpen = open_cursor,
        .xClose = close_cursor,
        .xFilter = begin,
        .xNext = next_run,
        .xEof = at_end,
        .xColumn = column_value,
        .xRowid = row_id,
    };
    return sqlite3_create_module(db, "hv_runs", &module, NULL);
}
