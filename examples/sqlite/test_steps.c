/* What is appended to columns, sums of many, times as steps and their buckets, next to SQLite's own answers over rows.
 * Linked and run as test.c. */
#include "ask.h"

#define LARGEST "9223372036854775807"
#define LEAST "(-9223372036854775807 - 1)"

/* Columns of 4 4 null 9, of texts, of no rows, of three nulls, and of 1 in each of 2^60 rows. */
static void make_columns(void) {
    ask("CREATE TABLE t(v)");
    ask("INSERT INTO t VALUES (4), (4), (NULL), (9)");
    ask("CREATE TABLE p AS SELECT hv_column(v) AS c, hv_column('text ' || v) AS s, hv_repeat(v, 0) AS none, "
        "hv_repeat(NULL, 1) AS nulls, hv_column(CAST('b' || v AS BLOB)) AS b, "
        "x'0801100818032080808080808080801028013A080100000000000000' AS ones FROM t");
}

static void check_append(void) {
    CHECK_SQL("SELECT start, stop, value FROM p, hv_runs(hv_append(c, 9, 3))", "0|2|4 2|3|NULL 3|7|9");
    CHECK_SQL("SELECT start, stop, value FROM p, hv_runs(hv_append(hv_append(c, NULL, 2), -5, 1))",
              "0|2|4 2|3|NULL 3|4|9 4|6|NULL 6|7|-5");
    CHECK_SQL("SELECT hv_append(c, 5, 0) = c, hv_append(c, NULL, 0) = c, hv_append(s, 'text', 0) = s FROM p", "1|1|1");
    CHECK_SQL("SELECT start, stop, value FROM p, hv_runs(hv_append(s, 'text 9', '2'))",
              "0|2|text 4 2|3|NULL 3|6|text 9");
    CHECK_SQL("SELECT hex(hv_last(hv_append(b, x'00FF', 1))), hv_rows(hv_append(b, NULL, 7)) FROM p", "00FF|11");
    CHECK_SQL("SELECT start, stop, value FROM p, hv_runs(hv_append(none, 'a', 2))", "0|2|a");
    CHECK_SQL("SELECT start, stop, value FROM p, hv_runs(hv_append(nulls, 'a', 2))", "0|4|NULL 4|6|a");
    CHECK_SQL("SELECT hv_rows(hv_append(none, NULL, 0)), hv_append(none, 'a', 0) = none FROM p", "0|1");
    CHECK_SQL("SELECT hv_append(NULL, 1, 1)", "NULL");
    CHECK_SQL("SELECT hv_rows(hv_append(ones, 1, 9223372036854775807 - 1152921504606846976)), hv_count(hv_append(ones, "
              "NULL, 5)), length(hv_append(ones, 2, 1000000)) < 80 FROM p",
              LARGEST "|1152921504606846976|1");
}

static void check_append_refused(void) {
    CHECK_SQL("SELECT hv_append(ones, 1, 9223372036854775807 - 1152921504606846975) FROM p",
              "error: hv_append: a column of 2^63 rows or more");
    CHECK_SQL("SELECT hv_append(ones, 1, 9223372036854775807) FROM p",
              "error: hv_append: a column of 2^63 rows or more");
    CHECK_SQL("SELECT hv_append(c, 1, -3) FROM p", "error: hv_append: a count of rows is not negative, and this is -3");
    CHECK_SQL("SELECT hv_append(c, 1, NULL) FROM p",
              "error: hv_append: a count of rows is an integer, and this is NULL");
    CHECK_SQL("SELECT hv_append(c, 1, 1.5) FROM p",
              "error: hv_append: a count of rows is an integer, and this is a real number");
    CHECK_SQL("SELECT hv_append(c, 'a', 1) FROM p", "error: hv_append: a column of integers takes no text");
    CHECK_SQL("SELECT hv_append(c, 'a', 0) FROM p", "error: hv_append: a column of integers takes no text");
    CHECK_SQL("SELECT hv_append(c, 0.5, 1) FROM p", "error: hv_append: a column of integers takes no real number");
    CHECK_SQL("SELECT hv_append(s, 7, 1) FROM p", "error: hv_append: a column of texts takes no integer");
    CHECK_SQL("SELECT hv_append(s, x'00', 1) FROM p", "error: hv_append: a column of texts takes no blob");
    CHECK_SQL("SELECT hv_append(b, 'a', 1) FROM p", "error: hv_append: a column of blobs takes no text");
    CHECK_SQL("SELECT hv_append(s, CAST(x'C328' AS TEXT), 1) FROM p", "error: hv_append: a text is not UTF-8");
    CHECK_SQL("SELECT hv_append(nulls, CAST(x'C328' AS TEXT), 1) FROM p", "error: hv_append: a text is not UTF-8");
    CHECK_SQL("SELECT hv_append(1, 1, 1)", "error: hv_append: a column is a blob, and this is an integer");
    CHECK_SQL("SELECT hv_append(x'0801', 1, 1)", "error: hv_append: the blob is not a column");
}

static void check_repeat(void) {
    CHECK_SQL("SELECT (SELECT hv_repeat(value, stop - start) FROM hv_runs(c)) = c, (SELECT hv_repeat(value, stop - start) "
              "FROM hv_runs(s)) = s, (SELECT hv_repeat(value, stop - start) FROM hv_runs(b)) = b FROM p",
              "1|1|1");
    CHECK_SQL("SELECT hv_rows(hv_repeat(7, 4611686018427387904)), hv_sum(hv_repeat(v, 2)) FROM t WHERE v = 9",
              "4611686018427387904|18");
    CHECK_SQL("SELECT hv_rows(hv_repeat(v, 1)) FROM t WHERE 0", "0");
    CHECK_SQL("SELECT hv_repeat(v, -1) FROM t", "error: hv_repeat: a count of rows is not negative, and this is -1");
    CHECK_SQL("SELECT hv_repeat(v, NULL) FROM t", "error: hv_repeat: a count of rows is an integer, and this is NULL");
    CHECK_SQL("SELECT hv_repeat(v, 4611686018427387904) FROM t", "error: hv_repeat: a column of 2^63 rows or more");
    CHECK_SQL("SELECT hv_repeat(v, 1) FROM (SELECT 'a' AS v UNION ALL SELECT 0.5)",
              "error: hv_repeat: a column of texts takes no real number");
    CHECK_SQL("SELECT hv_repeat(CAST(x'C328' AS TEXT), 1)", "error: hv_repeat: a text is not UTF-8");
    CHECK_SQL("SELECT hv_repeat(v, 1) FROM (SELECT 1 AS v UNION ALL SELECT 'a')",
              "error: hv_repeat: a column of integers takes no text");
    CHECK_SQL("SELECT hv_repeat(v, 1) OVER () FROM t", "error: hv_repeat() may not be used as a window function");
}

/* The largest number twice and its negation twice is -2: past 64 bits on the way, in most orders. */
static void check_sum_all(void) {
    CHECK_SQL("SELECT hv_sum_all(c) FROM p", "17");
    CHECK_SQL("SELECT hv_sum_all(c) FROM (SELECT c FROM p UNION ALL SELECT NULL UNION ALL SELECT nulls FROM p UNION ALL "
              "SELECT none FROM p UNION ALL SELECT hv_append(c, 1000, 2) FROM p)",
              "2034");
    CHECK_SQL("SELECT hv_sum_all(none), hv_sum_all(nulls), hv_sum_all(NULL) FROM p", "NULL|NULL|NULL");
    CHECK_SQL("SELECT hv_sum_all(c) FROM p WHERE 0", "NULL");
    CHECK_SQL("SELECT hv_sum_all(ones) FROM p", "1152921504606846976");
    ask("CREATE TABLE far AS SELECT hv_repeat(" LARGEST ", 4611686018427387904) AS up, hv_repeat(-" LARGEST
        ", 4611686018427387904) AS down, hv_repeat(" LEAST ", 2) AS least");
    CHECK_SQL("SELECT hv_sum_all(c) FROM (SELECT up AS c FROM far UNION ALL SELECT up FROM far UNION ALL SELECT up FROM far "
              "UNION ALL SELECT down FROM far UNION ALL SELECT down FROM far UNION ALL SELECT down FROM far UNION ALL "
              "SELECT hv_column(-2))",
              "-2");
    CHECK_SQL("SELECT hv_sum_all(c) FROM (SELECT least AS c FROM far UNION ALL SELECT hv_repeat(" LARGEST ", 1) FROM far)",
              "error: hv_sum_all: integer overflow");
    CHECK_SQL("SELECT hv_sum_all(c) = " LEAST " FROM (SELECT least AS c FROM far UNION ALL SELECT hv_repeat(" LARGEST
              ", 1) FROM far UNION ALL SELECT hv_column(1))",
              "1");
    CHECK_SQL("SELECT hv_sum_all(up) FROM far", "error: hv_sum_all: integer overflow");
    CHECK_SQL("SELECT hv_sum_all(down) FROM far", "error: hv_sum_all: integer overflow");
    CHECK_SQL("SELECT hv_sum_all(s) FROM p", "error: hv_sum_all: only numbers are added, and this is a column of texts");
    CHECK_SQL("SELECT hv_sum_all(5)", "error: hv_sum_all: a column is a blob, and this is an integer");
    CHECK_SQL("SELECT hv_sum_all(x'01')", "error: hv_sum_all: the blob is not a column");
}

static void check_steps(void) {
    CHECK_SQL("SELECT start, stop, value FROM p, hv_runs(hv_steps(c))", "0|1|4 1|2|0 2|3|NULL 3|4|5");
    CHECK_SQL("SELECT start, stop, value FROM p, hv_runs(hv_totals(c))", "0|1|4 1|2|8 2|3|NULL 3|4|17");
    CHECK_SQL("SELECT hv_totals(hv_steps(c)) = c, hv_steps(none) = none, hv_totals(none) = none, hv_steps(nulls) = nulls, "
              "hv_totals(nulls) = nulls, hv_steps(NULL), hv_totals(NULL) FROM p",
              "1|1|1|1|1|NULL|NULL");
    CHECK_SQL("SELECT hv_rows(hv_steps(ones)), hv_sum(hv_steps(ones)) FROM p", "1152921504606846976|1");
    CHECK_SQL("SELECT hv_rows(hv_totals(hv_steps(ones))), hv_sum(hv_totals(hv_steps(ones))) FROM p",
              "1152921504606846976|1152921504606846976");
    CHECK_SQL("SELECT hv_totals(ones) FROM p", "error: hv_totals: an answer of more than 67108864 runs");
    CHECK_SQL("SELECT hv_totals(hv_steps(hv_column(v))) = hv_column(v) FROM (SELECT " LARGEST " AS v UNION ALL SELECT 0 "
              "UNION ALL SELECT " LEAST " UNION ALL SELECT NULL UNION ALL SELECT -1)",
              "1");
    CHECK_SQL("SELECT hv_steps(hv_column(v)) FROM (SELECT -1 AS v UNION ALL SELECT NULL UNION ALL SELECT " LARGEST
              " UNION ALL SELECT 3)",
              "error: hv_steps: integer overflow in row 2");
    CHECK_SQL("SELECT hv_totals(hv_repeat(2305843009213693952, 5))", "error: hv_totals: integer overflow in row 3");
    CHECK_SQL("SELECT hv_at(hv_totals(hv_repeat(-2305843009213693952, 4)), 3) = " LEAST, "1");
    CHECK_SQL("SELECT hv_totals(hv_repeat(-2305843009213693952, 5))", "error: hv_totals: integer overflow in row 4");
    CHECK_SQL("SELECT hv_steps(s) FROM p", "error: hv_steps: this is not a column of integers, but of texts");
    CHECK_SQL("SELECT hv_totals(b) FROM p", "error: hv_totals: this is not a column of integers, but of blobs");
    CHECK_SQL("SELECT hv_totals('a')", "error: hv_totals: a column is a blob, and this is a text");
    CHECK_SQL("SELECT hv_steps(x'')", "error: hv_steps: the blob is not a column");
    /* two nulls of texts, as another program writes them, are nulls of every type */
    CHECK_SQL("SELECT hv_steps(c) = n, hv_totals(c) = n, hv_buckets(c, 5) = n, hv_append(c, NULL, 0) = n, "
              "hv_rows(hv_append(c, 5, 1)) FROM (SELECT x'0801100B180120022803620200006A00' AS c, "
              "hv_repeat(NULL, 2) AS n)",
              "1|1|1|1|3");
}

static void check_buckets(void) {
    CHECK_SQL("SELECT start, stop, value FROM p, hv_runs(hv_buckets(c, 5))", "0|2|0 2|3|NULL 3|4|5");
    CHECK_SQL("SELECT start, stop, value FROM p, hv_runs(hv_buckets(c, 5, -1))", "0|2|4 2|3|NULL 3|4|9");
    CHECK_SQL("SELECT start, stop, value FROM hv_runs(hv_buckets((SELECT hv_column(v) FROM (SELECT -11 AS v UNION ALL "
              "SELECT -10 UNION ALL SELECT -1 UNION ALL SELECT 0 UNION ALL SELECT 9 UNION ALL SELECT 10)), 10))",
              "0|1|-20 1|3|-10 3|5|0 5|6|10");
    CHECK_SQL("SELECT start, stop, value FROM hv_runs(hv_step_buckets((SELECT hv_repeat(1, 1152921504606846976)), "
              "288230376151711744))",
              "0|288230376151711743|0 288230376151711743|576460752303423487|288230376151711744 "
              "576460752303423487|864691128455135231|576460752303423488 "
              "864691128455135231|1152921504606846975|864691128455135232 "
              "1152921504606846975|1152921504606846976|1152921504606846976");
    CHECK_SQL("SELECT start, stop, value FROM hv_runs(hv_step_buckets((SELECT hv_repeat(-3, 7)), 10, 2))",
              "0|2|-8 2|6|-18 6|7|-28");
    CHECK_SQL("SELECT hv_step_buckets(ones, 1) FROM p", "error: hv_step_buckets: an answer of more than 67108864 runs");
    CHECK_SQL("SELECT hv_buckets(none, 5) = none, hv_step_buckets(nulls, 5) = nulls, hv_buckets(NULL, 0), "
              "hv_step_buckets(NULL, 1, 2) FROM p",
              "1|1|NULL|NULL");
    CHECK_SQL("SELECT hv_at(hv_buckets(hv_column(" LARGEST "), " LARGEST "), 0), hv_at(hv_buckets(hv_column(" LEAST
              "), 1), 0) = " LEAST ", hv_at(hv_buckets(hv_column(" LEAST "), 2), 0) = " LEAST,
              LARGEST "|1|1");
    CHECK_SQL("SELECT hv_at(hv_buckets(hv_column(5), 10, " LEAST "), 0), hv_at(hv_buckets(hv_column(5), 10, " LARGEST
              "), 0)",
              "2|-3");
    CHECK_SQL("SELECT hv_buckets(hv_column(v), 10) FROM (SELECT 5 AS v UNION ALL SELECT " LEAST ")",
              "error: hv_buckets: integer overflow in row 1");
    CHECK_SQL("SELECT hv_step_buckets(hv_repeat(4611686018427387904, 3), 10)",
              "error: hv_step_buckets: integer overflow in row 1");
    CHECK_SQL("SELECT hv_step_buckets(hv_repeat(3, 9000000000000000000), 4611686018427387904)",
              "error: hv_step_buckets: integer overflow in row 3074457345618258602");
    CHECK_SQL("SELECT hv_step_buckets(hv_repeat(-3, 9000000000000000000), 4611686018427387904)",
              "error: hv_step_buckets: integer overflow in row 3074457345618258602");
    CHECK_SQL("SELECT hv_buckets(c, 0) FROM p", "error: hv_buckets: a width is above 0, and this is 0");
    CHECK_SQL("SELECT hv_step_buckets(c, -7) FROM p", "error: hv_step_buckets: a width is above 0, and this is -7");
    CHECK_SQL("SELECT hv_buckets(c, 'a day') FROM p", "error: hv_buckets: a width is an integer, and this is a text");
    CHECK_SQL("SELECT hv_buckets(c, 5, NULL) FROM p", "error: hv_buckets: an origin is an integer, and this is NULL");
    CHECK_SQL("SELECT hv_buckets(s, 5) FROM p", "error: hv_buckets: this is not a column of integers, but of texts");
    CHECK_SQL("SELECT hv_buckets(x'00', 5)", "error: hv_buckets: the blob is not a column");
}

/* The question "the sum of each day", over rows and over runs: a reading each minute of five days but for some. */
static void check_days(void) {
    ask("CREATE TABLE readings AS WITH RECURSIVE n(i) AS (SELECT 0 UNION ALL SELECT i + 1 FROM n WHERE i < 7199) SELECT "
        "unixepoch('2026-01-30 22:00') + 60 * i AS at, CASE WHEN i % 97 THEN i / 30 * 7919 % 50 END AS level FROM n "
        "WHERE i % 1000 <> 0");
    ask("CREATE TABLE days AS SELECT hv_steps(hv_column(at)) AS steps, hv_column(at) AS times, hv_column(level) AS level "
        "FROM (SELECT * FROM readings ORDER BY at)");
    CHECK_SQL("SELECT hv_rows(steps), (SELECT count(*) FROM hv_runs(steps)), hv_totals(steps) = times FROM days",
              "7192|16|1");
    same("SELECT date(key, 'unixepoch'), rows, count, sum, min, max FROM days, hv_groups(hv_step_buckets(steps, 86400), "
         "level)",
         "SELECT date(at, 'unixepoch'), count(*), count(level), sum(level), min(level), max(level) FROM readings GROUP BY 1");
    same("SELECT datetime(key, 'unixepoch'), sum FROM days, hv_groups(hv_buckets(times, 3600), level)",
         "SELECT strftime('%Y-%m-%d %H:00:00', at, 'unixepoch') AS hour, sum(level) FROM readings GROUP BY hour");
    same("SELECT strftime('%Y-%m', key, 'unixepoch') AS month, sum(sum) FROM days, hv_groups(hv_step_buckets(steps, "
         "86400), level) GROUP BY month",
         "SELECT strftime('%Y-%m', at, 'unixepoch') AS month, sum(level) FROM readings GROUP BY month");
}

/* Booleans, which other programs write, are 1 and 0: true; true in 2^60 rows; and true null true false by bits. */
static void check_booleans(void) {
    CHECK_SQL("SELECT hv_sum(x'080110091801200128013A0101'), "
              "hv_sum(x'0801100918032080808080808080801028013A0101')",
              "1|1152921504606846976");
    CHECK_SQL("SELECT start, stop, value FROM hv_runs(x'080110091801200428043201" "0D" "3A0105')",
              "0|1|1 1|2|NULL 2|3|1 3|4|0");
    CHECK_SQL("SELECT hv_concat(c) = hv_column(1) FROM (SELECT x'080110091801200128013A0101' AS c)", "1");
    CHECK_SQL("SELECT start, stop, value FROM p, hv_runs(hv_filter(c, x'080110091801200428043201" "0D" "3A0105'))",
              "0|1|4 1|2|NULL");
}

/* ---- Random tables ---- */

/* A table of up to 200 rows in stretches of equal numbers, large or small, and of null. */
static void make_table(void) {
    char sql[8192] = "INSERT INTO r VALUES ";
    size_t used = strlen(sql), stretches = below(40);
    const uint64_t limit = below(2) ? 7 : (uint64_t)1 << 40;
    ask("DELETE FROM r");
    for (size_t stretch = 0; stretch < stretches; stretch++) {
        char value[32] = "NULL";
        if (below(5)) snprintf(value, sizeof value, "%lld", (long long)below(limit) - (long long)(limit / 2));
        for (size_t left = 1 + below(5); left; left--)
            used += (size_t)snprintf(sql + used, sizeof sql - used, "(%s),", value);
    }
    if (!stretches) return;
    sql[used - 1] = 0;
    CHECK_SQL(sql, "");
}

static void check_table(void) {
    char set[160];
    const uint64_t width = 1 + below(below(2) ? 9 : (uint64_t)1 << 39);
    snprintf(set, sizeof set, "UPDATE k SET w = %lld, o = %lld, n = %lld, a = (SELECT v FROM r WHERE rowid = %lld)",
             (long long)width, (long long)below(3 * width) - (long long)width, (long long)below(6),
             (long long)below(220));
    ask(set);
    same("SELECT hex(hv_steps(hv_column(v))) FROM r",
         "SELECT hex(hv_column(s)) FROM (SELECT v - ifnull((SELECT o.v FROM r AS o WHERE o.rowid < r.rowid AND o.v NOT "
         "NULL ORDER BY o.rowid DESC LIMIT 1), 0) AS s FROM r ORDER BY rowid)");
    ask("CREATE TABLE sums AS SELECT rowid AS i, CASE WHEN v NOT NULL THEN sum(v) OVER (ORDER BY rowid) END AS v FROM r");
    same("SELECT hex(hv_totals(hv_column(v))) FROM r", "SELECT hex(hv_column(v)) FROM (SELECT v FROM sums ORDER BY i)");
    CHECK_SQL("SELECT hv_totals(hv_steps(hv_column(v))) = hv_column(v) FROM r", "1");
    same("SELECT hex(hv_buckets((SELECT hv_column(v) FROM r), w, o)) FROM k",
         "SELECT hex(hv_column(v - ((v - o) % w + w) % w)) FROM r, k");
    same("SELECT hex(hv_step_buckets((SELECT hv_column(v) FROM r), w, o)) FROM k",
         "SELECT hex(hv_column(v)) FROM (SELECT v - ((v - o) % w + w) % w AS v FROM sums, k ORDER BY i)");
    same("SELECT hex(hv_append((SELECT hv_column(v) FROM r), a, n)) FROM k",
         "SELECT hex(hv_column(v)) FROM (SELECT v FROM r UNION ALL SELECT a FROM k, (WITH RECURSIVE c(i) AS (SELECT 1 "
         "UNION ALL SELECT i + 1 FROM c LIMIT 9) SELECT i FROM c) WHERE i <= n)");
    same("SELECT hv_sum_all(c) FROM (SELECT hv_column(v) AS c FROM r GROUP BY rowid % 3)", "SELECT sum(v) FROM r");
    ask("DROP TABLE sums");
}

/* Blobs with a byte changed: an answer or a sentence, and no fault. */
static size_t check_broken(size_t count) {
    size_t refused = 0;
    ask("CREATE TABLE b AS SELECT steps AS c FROM days UNION ALL SELECT c FROM p UNION ALL SELECT s FROM p");
    for (size_t i = 0; i < count; i++) {
        char sql[512];
        snprintf(sql, sizeof sql,
                 "SELECT length(hv_append(c, NULL, 3)) + length(hv_totals(c)) + length(hv_step_buckets(c, 3600)) + "
                 "length(hv_steps(c)) + hv_sum_all(c) FROM (SELECT CAST(substr(c, 1, k) || unhex_byte(%d) || substr(c, "
                 "k + 2) AS BLOB) AS c FROM (SELECT c, %d %% length(c) AS k FROM b LIMIT 1 OFFSET %d))",
                 (int)below(256), (int)below(1000), (int)below(3));
        refused += strncmp(ask(sql), "error: ", 7) == 0;
        if (strncmp(answer, "error: ", 7) == 0) CHECK(strstr(answer, "hv_") != NULL);
    }
    return refused;
}

/* ---- Logical types, as Python writes them ---- */

/* The days 20454 null -719162, of i32; the seconds 1767225600 null of UTC. */
#define DAYS "x'0802B20103746444BA011B080110071801200328043201053A0CE64F000000000000C606F5FF'"
#define SECONDS "x'0802B201077473733A555443BA011F080110081801200228043201013A1000B95569000000000000000000000000'"

static void check_types(void) {
    CHECK_SQL("SELECT hv_logical_type(" DAYS "), hv_logical_type(" SECONDS "), hv_logical_type(c), hv_logical_type(s), "
              "hv_logical_type(hv_column(0.5)), hv_logical_type(NULL), hv_logical_type(hv_slice(" DAYS ", 1, 2)) FROM p",
              "tdD|tss:UTC|NULL|NULL|g|NULL|NULL");
    CHECK_SQL("SELECT start, stop, date(value * 86400, 'unixepoch') FROM hv_runs(" DAYS ")",
              "0|1|2026-01-01 1|2|NULL 2|3|0001-01-01");
    CHECK_SQL("SELECT datetime(value, 'unixepoch') FROM hv_runs(hv_cast(hv_cast(" SECONDS ", 'tsn:UTC'), 'tss:UTC'))",
              "2026-01-01 00:00:00 NULL");
    CHECK_SQL("SELECT value FROM (SELECT hv_cast(hv_column(v), 'tsu:UTC') AS c FROM (SELECT -1 AS v UNION ALL SELECT "
              "NULL UNION ALL SELECT 1999999)), hv_runs(hv_cast(hv_buckets(c, 1000000), 'tss:UTC'))", "-1 NULL 1");
    CHECK_SQL("SELECT hex(hv_slice(" DAYS ", 2, 3)), hex(hv_cast(hv_slice(" DAYS ", 2, 3), ''))",
              "0802B20103746444BA01210801100718022001400048015201015A10080110071801200128013A04C606F5FF|"
              "0801100818022001400048015201015A14080110081801200128013A08C606F5FFFFFFFFFF");
    /* other rows of a type than numbers, which Python does not write: a text, and a truth */
    CHECK_SQL("SELECT hv_logical_type(t), hv_at(t, 0), hv_logical_type(hv_append(t, 'b', 1)), hv_cast(t, '') = "
              "hv_column('a') FROM (SELECT x'0802B20103746444BA01100801100B1801200128016201016A0161' AS t) GROUP BY t",
              "tdD|a|tdD|1");
    CHECK_SQL("SELECT hv_logical_type(b), hv_at(b, 0) FROM (SELECT x'0802B20103746444BA010D080110091801200128013A0101' "
              "AS b)", "NULL|1");
    /* rows of a type and rows without one, in either order; rows that are only null have no say */
    CHECK_SQL("SELECT hv_logical_type(hv_concat(c)), hv_rows(hv_concat(c)) FROM (SELECT c FROM p UNION ALL SELECT " DAYS
              " UNION ALL SELECT hv_slice(" SECONDS ", 1, 2))", "tdD|8");
    CHECK_SQL("SELECT hv_logical_type(hv_append(hv_slice(" DAYS ", 1, 2), 'a', 1)), "
              "hv_logical_type(hv_append(hv_cast(nulls, 'tdD'), 7, 1)), hv_sum(hv_cast(ones, 'tsn:')) FROM p",
              "NULL|NULL|1152921504606846976");
    /* what is made of two columns, and steps, are numbers; the bucket of a day is one */
    CHECK_SQL("SELECT hv_logical_type(hv_add(d, 1)), hv_logical_type(hv_steps(d)), hv_logical_type(hv_buckets(d, 7)), "
              "hv_logical_type(hv_step_buckets(hv_steps(d), 7)) FROM (SELECT hv_append(" DAYS ", 3, 1) AS d)",
              "NULL|NULL|tdD|NULL");
}

static void check_types_refused(void) {
    const char *const other = "error: hv_cast: the column does not count what the logical type does";
    CHECK_SQL("SELECT hv_concat(c) FROM (SELECT " DAYS " AS c UNION ALL SELECT " SECONDS ")",
              "error: hv_concat: columns of two logical types");
    CHECK_SQL("SELECT hv_cast(" DAYS ", 'tss:UTC')", other);
    CHECK_SQL("SELECT hv_cast(" SECONDS ", 'tsn:')", other);
    CHECK_SQL("SELECT hv_cast(" SECONDS ", 'tts')", other);
    CHECK_SQL("SELECT hv_cast(s, 'tdD') FROM p", other);
    CHECK_SQL("SELECT hv_cast(hv_column(0.5), '')", other);
    CHECK_SQL("SELECT hv_cast(hv_column(v), 'tdD') FROM (SELECT 1 AS v UNION ALL SELECT NULL UNION ALL SELECT "
              "-2147483649)", "error: hv_cast: row 2 has no number of the logical type");
    CHECK_SQL("SELECT hv_cast(hv_append(" SECONDS ", 10000000000, 4), 'tsn:UTC') FROM p",
              "error: hv_cast: row 2 has no number of the logical type");
    CHECK_SQL("SELECT hv_append(" DAYS ", " LARGEST ", 1)",
              "error: hv_append: row 3 has no number of the logical type");
    CHECK_SQL("SELECT hv_buckets(" DAYS ", " LARGEST ")", "error: hv_buckets: row 2 has no number of the logical type");
    CHECK_SQL("SELECT hv_cast(c, 'tsu') FROM p",
              "error: hv_cast: a logical type is '' or a format of dates and times, as 'tdD' and 'tsu:UTC'");
    CHECK_SQL("SELECT hv_cast(c, CAST(x'7473753AC328' AS TEXT)) FROM p", "error: hv_cast: a text is not UTF-8");
    CHECK_SQL("SELECT hv_cast(7, 'tdD')", "error: hv_cast: a column is a blob, and this is an integer");
    CHECK_SQL("SELECT hv_logical_type(x'0802B20103746444BA01')", "error: hv_logical_type: the blob is not a column");
    CHECK_SQL("SELECT hv_cast(NULL, 'tdD'), hv_cast(c, NULL) FROM p", "NULL|NULL");
}

int main(int count, char **words) {
    const size_t tables = 300, broken = 2000;
    open_database(count > 1 ? words[1] : NULL);
    make_columns();
    check_append();
    check_append_refused();
    check_repeat();
    check_sum_all();
    check_steps();
    check_buckets();
    check_days();
    check_booleans();
    check_types();
    check_types_refused();
    ask("CREATE TABLE r(v)");
    ask("CREATE TABLE k AS SELECT 1 AS w, 0 AS o, 0 AS n, 0 AS a");
    for (size_t table = 0; table < tables; table++) make_table(), check_table();
    const size_t refused = check_broken(broken);
    CHECK(refused > broken / 4 && refused < broken);
    CHECK(sqlite3_close(db) == SQLITE_OK);
    printf("%zu random tables as rows and as steps, %zu broken blobs of which %zu were refused\n", tables, broken, refused);
    return 0;
}
