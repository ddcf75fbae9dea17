/* hv_groups(keys, values): a table of a row for each run of equal neighbouring keys, with what is asked of it. */
#include "../engines/group_folds.h"
#include "sqlite_column.h"
#include <stdlib.h>
#include <string.h>

enum { KEY, ROWS, COUNT, SUM, LEAST, GREATEST, FIRST, LAST, SHOWN, KEYS = SHOWN, VALUES };

/* The keys of the groups, and each answer that is asked; one group is looked at. */
typedef struct cursor {
    sqlite3_vtab_cursor base;
    hv_column columns[SHOWN];
    size_t count, group;
    uint8_t *text; /* of the key */
    size_t room;
} cursor;

static void forget(cursor *at) {
    for (int i = 0; i < SHOWN; i++) hv_free(&at->columns[i]);
    free(at->text);
    at->text = NULL;
    at->room = at->count = at->group = 0;
}

static int connect_table(sqlite3 *db, void *data, int count, const char *const *words, sqlite3_vtab **table,
                         char **error) {
    (void)data, (void)count, (void)words, (void)error;
    const int answer = sqlite3_declare_vtab(db, "CREATE TABLE groups(\"key\", \"rows\", \"count\", \"sum\", \"min\", "
                                                "\"max\", \"first\", \"last\", \"keys\" HIDDEN, \"values\" HIDDEN)");
    if (answer) return answer;
    *table = sqlite3_malloc(sizeof **table);
    if (!*table) return SQLITE_NOMEM;
    memset(*table, 0, sizeof **table);
    return sqlite3_vtab_config(db, SQLITE_VTAB_INNOCUOUS);
}

static int disconnect(sqlite3_vtab *table) {
    sqlite3_free(table);
    return SQLITE_OK;
}

/* Both columns are arguments, which a plan has to have. Its number has a bit for each column that is asked. */
static int best_index(sqlite3_vtab *table, sqlite3_index_info *plan) {
    bool asked[2] = {false, false}, usable[2] = {false, false};
    for (int i = 0; i < plan->nConstraint; i++) {
        const int argument = plan->aConstraint[i].iColumn - KEYS;
        if (argument < 0 || argument > 1 || plan->aConstraint[i].op != SQLITE_INDEX_CONSTRAINT_EQ) continue;
        asked[argument] = true;
        if (!plan->aConstraint[i].usable || usable[argument]) continue;
        usable[argument] = true;
        plan->aConstraintUsage[i].argvIndex = 1 + argument;
        plan->aConstraintUsage[i].omit = 1;
    }
    if (usable[0] && usable[1]) {
        plan->idxNum = (int)(plan->colUsed & ((1 << SHOWN) - 1));
        plan->estimatedCost = 1000;
        plan->estimatedRows = 1000;
        return SQLITE_OK;
    }
    if (asked[0] && asked[1]) return SQLITE_CONSTRAINT;
    table->zErrMsg = sqlite3_mprintf("hv_groups: two columns are asked for, hv_groups(keys, values)");
    return SQLITE_ERROR;
}

static int open_cursor(sqlite3_vtab *table, sqlite3_vtab_cursor **opened) {
    cursor *made = sqlite3_malloc(sizeof *made);
    (void)table;
    if (!made) return SQLITE_NOMEM;
    memset(made, 0, sizeof *made);
    *opened = &made->base;
    return SQLITE_OK;
}

static int close_cursor(sqlite3_vtab_cursor *base) {
    forget((cursor *)base);
    sqlite3_free(base);
    return SQLITE_OK;
}

/* Returns why the columns are not grouped, in a sentence, or null where memory ran out. */
static char *why(int32_t answer, const hv_error *error, const hv_column *values) {
    const uint8_t kind = hv_kind_of(values).number;
    if (answer == HV_CAST_OUT_OF_RANGE)
        return sqlite3_mprintf("hv_groups: integer overflow in group %llu", (unsigned long long)error->first);
    if (answer == HV_UNSUPPORTED && (kind == HV_UTF8 || kind == HV_BINARY))
        return sqlite3_mprintf("hv_groups: only numbers are grouped, and this is a column of %s",
                               kind == HV_UTF8 ? "texts" : "blobs");
    return refusal("hv_groups", answer, error);
}

/* Answers what is asked, a bit for each column, and the keys. */
static int32_t fold(cursor *at, int asked, const hv_column *keys, const hv_column *values, hv_error *error) {
    static const uint8_t folds[SHOWN] = {HV_FOLD_ROWS,  HV_FOLD_ROWS,     HV_FOLD_COUNT, HV_FOLD_SUM,
                                         HV_FOLD_LEAST, HV_FOLD_GREATEST, HV_FOLD_FIRST, HV_FOLD_LAST};
    hv_column spare = HV_EMPTY;
    int32_t answer = HV_OK;
    if (!(asked >> 1)) answer = groups_fold_by(keys, values, folds[KEY], NAN_UNORDERED, &at->columns[KEY], &spare, error);
    hv_free(&spare);
    for (int i = 1; !answer && i < SHOWN; i++)
        if (asked >> i & 1)
            answer = groups_fold_by(keys, values, folds[i], NAN_UNORDERED, &at->columns[KEY], &at->columns[i], error);
    at->count = hv_length(&at->columns[KEY]);
    return answer;
}

static int begin(sqlite3_vtab_cursor *base, int plan, const char *name, int count, sqlite3_value **values) {
    cursor *at = (cursor *)base;
    hv_column keys = HV_EMPTY, grouped = HV_EMPTY;
    hv_error error = {0, 0, 0};
    char *reason = NULL;
    (void)name, (void)count;
    forget(at);
    if (sqlite3_value_type(values[0]) == SQLITE_NULL || sqlite3_value_type(values[1]) == SQLITE_NULL) return SQLITE_OK;
    bool done = column_of("hv_groups", values[0], &keys, &reason) &&
                column_of("hv_groups", values[1], &grouped, &reason);
    if (done) {
        const int32_t answer = fold(at, plan, &keys, &grouped, &error);
        if (answer) reason = why(answer, &error, &grouped);
        done = !answer;
    }
    hv_free(&keys);
    hv_free(&grouped);
    if (done) return SQLITE_OK;
    base->pVtab->zErrMsg = reason;
    return reason ? SQLITE_ERROR : SQLITE_NOMEM;
}

static int next_group(sqlite3_vtab_cursor *base) {
    ((cursor *)base)->group++;
    return SQLITE_OK;
}

static int at_end(sqlite3_vtab_cursor *base) {
    const cursor *at = (const cursor *)base;
    return at->group >= at->count;
}

/* What a column has for the group that is looked at; a text is asked for again with room for it. */
static int column_value(sqlite3_vtab_cursor *base, sqlite3_context *context, int column) {
    cursor *at = (cursor *)base;
    hv_value found = {.kind = HV_NULL};
    hv_error error;
    if (column >= SHOWN || hv_form(&at->columns[column]) == HV_FORM_NONE) return SQLITE_OK;
    int32_t answer = hv_at(&at->columns[column], at->group, &found, at->text, at->room, &error);
    if (answer == HV_COLUMN_LENGTH) {
        uint8_t *text = realloc(at->text, (size_t)error.first);
        if (!text) return SQLITE_NOMEM;
        at->text = text;
        at->room = (size_t)error.first;
        answer = hv_at(&at->columns[column], at->group, &found, at->text, at->room, &error);
    }
    const row_value value = row_value_shown(&found, at->text);
    if (!answer && (column == ROWS || column == COUNT))
        sqlite3_result_int64(context, (sqlite3_int64)found.as_unsigned);
    else if (!answer) answer_value(context, &value);
    return answer ? SQLITE_ERROR : SQLITE_OK;
}

static int row_id(sqlite3_vtab_cursor *base, sqlite3_int64 *id) {
    *id = (sqlite3_int64)((cursor *)base)->group;
    return SQLITE_OK;
}

int register_groups_table(sqlite3 *db) {
    static const sqlite3_module module = {
        .xConnect = connect_table,
        .xBestIndex = best_index,
        .xDisconnect = disconnect,
        .xOpen = open_cursor,
        .xClose = close_cursor,
        .xFilter = begin,
        .xNext = next_group,
        .xEof = at_end,
        .xColumn = column_value,
        .xRowid = row_id,
    };
    return sqlite3_create_module(db, "hv_groups", &module, NULL);
}
