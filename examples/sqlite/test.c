/* The extension next to SQLite's own answers over rows: by hand, over random tables, over broken blobs. Linked with the
 * extension and with SQLite, and run under the sanitizers too; `test LIBRARY` runs it over the extension as it is
 * loaded. */
#include "ask.h"

static void check_rows(void) {
    ask("CREATE TABLE t(v)");
    ask("INSERT INTO t VALUES (4), (4), (4), (NULL), (NULL), (9), (-1), (-1)");
    ask("CREATE TABLE p AS SELECT hv_column(v) AS c FROM t");
    CHECK_SQL("SELECT hv_rows(c), hv_count(c), hv_sum(c), hv_min(c), hv_max(c) FROM p", "8|6|19|-1|9");
    CHECK_SQL("SELECT hv_at(c, 0), hv_at(c, 4), hv_at(c, 5), hv_at(c, 8), hv_at(c, -1), hv_at(c, NULL) FROM p",
              "4|NULL|9|NULL|NULL|NULL");
    CHECK_SQL("SELECT start, stop, value FROM p, hv_runs(c)", "0|3|4 3|5|NULL 5|6|9 6|8|-1");
    CHECK_SQL("SELECT start, stop, value FROM p, hv_runs(hv_filter(c, '>', 0))", "0|3|4 3|4|9");
    CHECK_SQL("SELECT start, stop, value FROM p, hv_runs(hv_slice(c, 2, 6))", "0|1|4 1|3|NULL 3|4|9");
    CHECK_SQL("SELECT start, stop, value FROM hv_runs((SELECT hv_concat(c) FROM (SELECT c FROM p UNION ALL SELECT NULL "
              "UNION ALL SELECT hv_slice(c, 6, 7) FROM p)))",
              "0|3|4 3|5|NULL 5|6|9 6|9|-1");
    CHECK_SQL("SELECT hv_rows(hv_filter(c, '=', NULL)), hv_rows(hv_slice(c, 3, 3)) FROM p", "0|0");
    CHECK_SQL("SELECT hv_first(c), hv_last(c), hv_first(hv_slice(c, 3, 6)), hv_last(hv_slice(c, 0, 5)) FROM p", "4|-1|9|4");
    CHECK_SQL("SELECT hv_first(hv_slice(c, 3, 5)), hv_last(hv_slice(c, 3, 5)), hv_first(hv_slice(c, 2, 2)), hv_last(NULL) "
              "FROM p", "NULL|NULL|NULL|NULL");
    CHECK_SQL("SELECT hv_sum(NULL), hv_rows(NULL), hv_at(NULL, 1), hv_filter(NULL, '=', 1), hv_slice(NULL, 0, 1)",
              "NULL|NULL|NULL|NULL|NULL");
    CHECK_SQL("SELECT count(*) FROM hv_runs(NULL)", "0");
    CHECK_SQL("SELECT hv_rows(c), hv_sum(c), hv_min(c) FROM (SELECT hv_column(v) AS c FROM t WHERE 0)", "0|NULL|NULL");
    CHECK_SQL("SELECT hv_rows(c), hv_count(c), hv_sum(c), hv_max(c) FROM (SELECT hv_column(NULL) AS c FROM t)",
              "8|0|NULL|NULL");
    CHECK_SQL("SELECT sum((stop - start) * value) FROM p, hv_runs(c) WHERE value > 0", "21");
}

/* A type is what the rows have to be, and changes no byte of the column. */
static void check_types(void) {
    CHECK_SQL("SELECT hv_column(v, 'integer') = hv_column(v), hv_column(v, 'INTEGER') = hv_column(v) FROM t", "1|1");
    CHECK_SQL("SELECT hv_column(v, 'text') = hv_column(v) FROM w", "1");
    CHECK_SQL("SELECT hv_column(x'01', 'blob') = hv_column(x'01')", "1");
    CHECK_SQL("SELECT hv_rows(hv_column(NULL, 'text')), hv_sum(hv_column(1, 'integer')) FROM t WHERE v = 4", "3|3");
    CHECK_SQL("SELECT hv_rows(hv_column(v, 'blob')) FROM t WHERE 0", "0");
    CHECK_SQL("SELECT hv_column(v, 'text') FROM (SELECT NULL AS v UNION ALL SELECT 7)",
              "error: hv_column: row 1 is an integer, and the column that is asked for holds texts");
    CHECK_SQL("SELECT hv_column('7', 'integer')",
              "error: hv_column: row 0 is a text, and the column that is asked for holds integers");
    CHECK_SQL("SELECT hv_column(0.5, 'blob')",
              "error: hv_column: row 0 is a real number, and the column that is asked for holds blobs");
    CHECK_SQL("SELECT hv_column(v, 'real') FROM (SELECT 0.5 AS v UNION ALL SELECT 2)",
              "error: hv_column: row 1 is an integer, and the column that is asked for holds real numbers");
    CHECK_SQL("SELECT hv_column(v, CASE v WHEN 1 THEN 'integer' ELSE 'text' END) FROM (SELECT 1 AS v UNION ALL SELECT "
              "'x')",
              "error: hv_column: row 1 asks for texts, and the rows before it are integers");
    CHECK_SQL("SELECT hv_column(1, 'double')", "error: hv_column: a type is one of 'integer', 'real', 'text' and 'blob'");
    CHECK_SQL("SELECT hv_column(1, NULL)", "error: hv_column: a type is one of 'integer', 'real', 'text' and 'blob'");
    CHECK_SQL("SELECT hv_column(1, 'integer') OVER ()", "error: hv_column() may not be used as a window function");
}

static void check_texts(void) {
    ask("CREATE TABLE w(v)");
    ask("INSERT INTO w VALUES ('Oslo'), ('Oslo'), (NULL), (''), ('Zürich, where a text is longer than sixty-four "
        "bytes by some bytes'), ('a')");
    ask("CREATE TABLE q AS SELECT hv_column(v) AS c FROM w");
    CHECK_SQL("SELECT hv_rows(c), hv_count(c), hv_min(c), hv_at(c, 0), hv_at(c, 2), hv_at(c, 3) FROM q",
              "6|5||Oslo|NULL|");
    CHECK_SQL("SELECT hv_at(c, 4) = (SELECT v FROM w WHERE rowid = 5), hv_max(c) FROM q", "1|a");
    CHECK_SQL("SELECT hv_first(c) = hv_at(c, 0), hv_last(hv_slice(c, 0, 5)) = hv_at(c, 4) FROM q", "1|1");
    CHECK_SQL("SELECT start, stop, value FROM q, hv_runs(hv_filter(c, '<', 'P'))", "0|2|Oslo 2|3|");
    CHECK_SQL("SELECT typeof(hv_at(hv_column(x'0102'), 0)), hex(hv_at(hv_column(x'0102'), 0)), "
              "hex(hv_at(hv_column(x''), 0)), hex(hv_max(hv_column(x'ff00')))",
              "blob|0102||FF00");
}

/* [7] of integers, three rows of it in one run, and null: SQLite has no lists, and each function says so. */
#define SEVEN "080110081801200128013A080700000000000000"
#define WORD(number) "080110041801200128013A08" number "00000000000000"
#define ONE_LIST "0801100D180420012801" "8A0114" SEVEN "920114" WORD("00") "9A0114" WORD("01")
#define LIST_RUNS "0801100D18022003400048015201035A4F" ONE_LIST
#define NULL_LISTS "0801100D180320032803" "3A00" "A00108" "A80101"
#define NOT_SERVED(function) "error: " function ": columns of decimals and lists are not served"
#define NO_LISTS(question, function) \
    CHECK_SQL("SELECT " question " FROM (SELECT x'" ONE_LIST "' AS c)", NOT_SERVED(function)); \
    CHECK_SQL("SELECT " question " FROM (SELECT x'" LIST_RUNS "' AS c)", NOT_SERVED(function)); \
    CHECK_SQL("SELECT " question " FROM (SELECT x'" NULL_LISTS "' AS c)", NOT_SERVED(function))

static void check_lists(void) {
    NO_LISTS("hv_rows(c)", "hv_rows");
    NO_LISTS("hv_count(c)", "hv_count");
    NO_LISTS("hv_sum(c)", "hv_sum");
    NO_LISTS("hv_min(c)", "hv_min");
    NO_LISTS("hv_max(c)", "hv_max");
    NO_LISTS("hv_at(c, 0)", "hv_at");
    NO_LISTS("hv_first(c)", "hv_first");
    NO_LISTS("hv_last(c)", "hv_last");
    NO_LISTS("hv_filter(c, '=', 7)", "hv_filter");
    NO_LISTS("hv_slice(c, 0, 1)", "hv_slice");
    NO_LISTS("hv_concat(c)", "hv_concat");
    NO_LISTS("hv_add(c, 1)", "hv_add");
    NO_LISTS("hv_compare(c, '=', c)", "hv_compare");
    NO_LISTS("hv_not(c)", "hv_not");
    NO_LISTS("hv_filter(c, c)", "hv_filter");
    CHECK_SQL("SELECT * FROM hv_runs(x'" LIST_RUNS "')", NOT_SERVED("hv_runs"));
    CHECK_SQL("SELECT * FROM hv_runs(x'" NULL_LISTS "')", NOT_SERVED("hv_runs"));
    /* a list of two where there is one element */
    CHECK_SQL("SELECT hv_rows(x'0801100D1804200128018A0114" SEVEN "920114" WORD("00") "9A0114" WORD("02") "')",
              "error: hv_rows: the blob is not a column");
}

/* The message of 4 4 4 null null 9 -1 -1, written by hand after column.proto. */
static void check_bytes(void) {
    CHECK_SQL("SELECT hex(c) FROM p", "0801100818022008400048015204030201025A2F" /* runs of 8 rows, lengths 3 2 1 2 */
                                      "080110081801200428043201"
                                      "0D" /* their values, null by bits 1101 */
                                      "3A20"
                                      "0400000000000000"
                                      "0000000000000000"
                                      "0900000000000000"
                                      "FFFFFFFFFFFFFFFF");
    CHECK_SQL("SELECT hv_sum(x'0801100818012002280132003A00')", "error: hv_sum: the blob is not a column");
    /* flat, two rows, without null */
    CHECK_SQL("SELECT hv_sum(x'080110081801200228013A10010000000000000002000000000000"
              "00')",
              "3");
    /* runs of 3 and 1 rows, whose values are one run of two rows that have 7 */
    CHECK_SQL("SELECT start, stop, value, hv_sum(c) FROM (SELECT x'080110081802200440004801520203015A25"
              "08011008180220024000480152010"
              "25A1408011008180120012801"
              "3A080700000000000000' AS c), hv_runs(c)",
              "0|4|7|28");
    /* what other programs write: two rows of u8, five of a constant of i16, true; and 1.50, which SQLite has not */
    CHECK_SQL("SELECT hv_sum(x'080110011801200228013A020102')", "3");
    CHECK_SQL("SELECT hv_sum(x'080110061803200528013A020700')", "35");
    CHECK_SQL("SELECT hv_sum(x'080110091801200128013A0101')", "1");
    CHECK_SQL("SELECT hv_rows(x'0801100A1801200128013A109600000000000000000000000000000070057804')",
              NOT_SERVED("hv_rows"));
    check_lists();
    /* 2^62 rows in one run */
    CHECK_SQL("SELECT hv_rows(c), hv_at(c, 4611686018427387903), hv_max(hv_filter(c, '=', 1)) FROM (SELECT "
              "x'0801100818022080808080808080804040004804520980808080808080804"
              "05A14080110081801200128013A08"
              "0100000000000000' AS c)",
              "4611686018427387904|1|1");
}

/* One value in 2^60 rows, a constant, which costs a run in each function: 1 as i64 without null, 7 as u8, and, in two
 * rows, 2^63 as u64, which is not a number of SQLite's. */
static void check_constants(void) {
    ask("CREATE TABLE x AS SELECT x'0801100818032080808080808080801028013A080100000000000000' AS ones, "
        "x'0801100118032080808080808080801028013A0107' AS sevens, "
        "x'080110041803200228013A080000000000000080' AS past");
    CHECK_SQL("SELECT hv_rows(ones), hv_sum(ones), hv_count(ones), hv_at(ones, 5) FROM x",
              "1152921504606846976|1152921504606846976|1152921504606846976|1");
    CHECK_SQL("SELECT start, stop, value FROM x, hv_runs(sevens)", "0|1152921504606846976|7");
    CHECK_SQL("SELECT hv_rows(c), hv_max(c), hv_at(c, 0), hv_at(c, 1152921504606846976) FROM (SELECT hv_concat(c) AS c "
              "FROM (SELECT ones AS c FROM x UNION ALL SELECT sevens FROM x UNION ALL SELECT hv_column(NULL)))",
              "2305843009213693953|7|1|7");
    CHECK_SQL("SELECT hv_rows(hv_slice(sevens, 5, 1152921504606846976)), hv_rows(hv_filter(sevens, '>', 6)) FROM x",
              "1152921504606846971|1152921504606846976");
    CHECK_SQL("SELECT hv_sum(sevens) FROM x", "8070450532247928832");
    /* 2^63 - 1 is 1317624576693539401 times 7 */
    CHECK_SQL("SELECT hv_sum(hv_concat(c)) FROM (SELECT sevens AS c FROM x UNION ALL SELECT sevens FROM x)",
              "error: hv_sum: integer overflow with row 1317624576693539401");
    CHECK_SQL("SELECT hv_rows(past) FROM x", "error: hv_rows: a number of the column is 2^63 or more");
}

static void check_refusals(void) {
    CHECK_SQL("SELECT hv_sum(x'00')", "error: hv_sum: the blob is not a column");
    CHECK_SQL("SELECT hv_sum(x'')", "error: hv_sum: the blob is not a column");
    CHECK_SQL("SELECT hv_sum(5)", "error: hv_sum: a column is a blob, and this is an integer");
    CHECK_SQL("SELECT * FROM hv_runs('x')", "error: hv_runs: a column is a blob, and this is a text");
    CHECK_SQL("SELECT * FROM hv_runs(x'01')", "error: hv_runs: the blob is not a column");
    CHECK_SQL("SELECT * FROM hv_runs", "error: hv_runs: a column is asked for, hv_runs(column)");
    CHECK_SQL("SELECT hv_concat(1)", "error: hv_concat: a column is a blob, and this is an integer");
    CHECK_SQL("SELECT hv_concat(c) FROM (SELECT c FROM p UNION ALL SELECT c FROM q)",
              "error: hv_concat: a column of texts after columns of integers");
    CHECK_SQL("SELECT hv_column(v) FROM (SELECT 1 AS v UNION ALL SELECT 'x')",
              "error: hv_column: row 1 is a text, and a column holds integers");
    CHECK_SQL("SELECT hv_column(v) FROM (SELECT 1 AS v UNION ALL SELECT 1.5)",
              "error: hv_column: row 1 is a real number, and a column holds integers");
    CHECK_SQL("SELECT hv_column(CAST(x'C328' AS TEXT))", "error: hv_column: row 0 is a text that is not UTF-8");
    CHECK_SQL("SELECT hv_column(v) FROM (SELECT 'a' AS v UNION ALL SELECT 'a' UNION ALL SELECT NULL UNION ALL SELECT "
              "CAST(x'C328' AS TEXT) UNION ALL SELECT 'b')",
              "error: hv_column: row 3 is a text that is not UTF-8");
    CHECK_SQL("SELECT hv_sum(c) FROM q", "error: hv_sum: only numbers are added, and this is a column of texts");
    CHECK_SQL("SELECT hv_sum(hv_column(v)) FROM (SELECT 9223372036854775807 AS v UNION ALL SELECT 1)",
              "error: hv_sum: integer overflow with row 1");
    CHECK_SQL("SELECT hv_sum(hv_column(v)) FROM (SELECT -9223372036854775807 AS v UNION ALL SELECT NULL UNION ALL "
              "SELECT -1 UNION ALL SELECT -1 UNION ALL SELECT 5)",
              "error: hv_sum: integer overflow with row 3");
    CHECK_SQL("SELECT hv_sum(hv_slice(hv_column(v), 1, 4)) FROM (SELECT 5 AS v UNION ALL SELECT 4611686018427387904 "
              "UNION ALL SELECT 4611686018427387904 UNION ALL SELECT 1)",
              "error: hv_sum: integer overflow with row 1");
    CHECK_SQL("SELECT hv_slice(c, 2, 12) FROM p", "error: hv_slice: rows 2 to 12 are not among 8 rows");
    CHECK_SQL("SELECT hv_slice(c, -2, 1) FROM p", "error: hv_slice: rows -2 to 1 are not among 8 rows");
    CHECK_SQL("SELECT hv_slice(c, 3, 2) FROM p", "error: hv_slice: rows 3 to 2 are not among 8 rows");
    CHECK_SQL("SELECT hv_at(c, 'x') FROM p", "error: hv_at: a row is numbered by an integer, and this is a text");
    CHECK_SQL("SELECT hv_filter(c, '~', 2) FROM p", "error: hv_filter: an operator is one of = <> > >= < <=");
    CHECK_SQL("SELECT hv_filter(c, NULL, 2) FROM p", "error: hv_filter: an operator is one of = <> > >= < <=");
    CHECK_SQL("SELECT hv_filter(c, '=', 'a') FROM p",
              "error: hv_filter: a column of integers is not compared with a text");
    CHECK_SQL("SELECT hv_filter(c, '=', CAST(x'C328' AS TEXT)) FROM q", "error: hv_filter: a text is not UTF-8");
    CHECK_SQL("SELECT hv_filter(c, '=', CAST(x'C328' AS TEXT)) FROM p",
              "error: hv_filter: a column of integers is not compared with a text");
    CHECK_SQL("SELECT hv_filter(c, '=', 0.5) FROM p",
              "error: hv_filter: a column of integers is not compared with a real number");
    CHECK_SQL("SELECT hv_column(v) OVER (ORDER BY rowid) FROM t",
              "error: hv_column() may not be used as a window function");
    CHECK_SQL("SELECT hv_concat(c) OVER () FROM p", "error: hv_concat() may not be used as a window function");
}

/* Values by runs of equal keys: by hand, and next to SQLite's own answers over the same groups. */
static void check_groups(void) {
    ask("CREATE TABLE g(i INTEGER PRIMARY KEY, k, v)");
    ask("INSERT INTO g(k, v) VALUES ('a', 3), ('a', 4), (NULL, NULL), (NULL, NULL), ('a', -5), "
        "('long' || hex(zeroblob(99)), 7)");
    ask("CREATE TABLE h AS SELECT hv_column(k) AS k, hv_column(v) AS v FROM (SELECT k, v FROM g ORDER BY i)");
    CHECK_SQL("SELECT substr(key, 1, 5), rows, count, sum, min, max, first, last FROM h, hv_groups(k, v)",
              "a|2|2|7|3|4|3|4 NULL|2|0|NULL|NULL|NULL|NULL|NULL a|1|1|-5|-5|-5|-5|-5 long0|1|1|7|7|7|7|7");
    CHECK_SQL("SELECT length(key) FROM h, hv_groups(k, v)", "1 NULL 1 202");
    CHECK_SQL("SELECT count(*), max(rows) FROM h, hv_groups(v, v)", "5|2");
    CHECK_SQL("SELECT count(*) FROM h, hv_groups(k, NULL)", "0");
    CHECK_SQL("SELECT * FROM h, hv_groups(k)", "error: hv_groups: two columns are asked for, hv_groups(keys, values)");
    CHECK_SQL("SELECT sum FROM h, hv_groups(v, k)",
              "error: hv_groups: only numbers are grouped, and this is a column of texts");
    CHECK_SQL("SELECT sum FROM h, hv_groups(k, hv_slice(v, 0, 2))", "error: hv_groups: a length of 6 next to one of 2");
    CHECK_SQL("SELECT sum FROM hv_groups(x'01', x'01')", "error: hv_groups: the blob is not a column");
    ask("CREATE TABLE l AS SELECT hv_column(k) AS k, hv_column(v) AS v FROM (SELECT 1 AS k, 5 AS v UNION ALL "
        "SELECT 2, 9223372036854775807 UNION ALL SELECT 2, 1)");
    CHECK_SQL("SELECT sum FROM l, hv_groups(k, v)", "error: hv_groups: integer overflow in group 1");
    CHECK_SQL("SELECT key, max FROM l, hv_groups(k, v)", "1|5 2|9223372036854775807");

    ask("CREATE TABLE gb AS WITH RECURSIVE n(i, s) AS (SELECT 0, 7 UNION ALL SELECT i + 1, (s * 1103515245 + 12345) & "
        "2147483647 FROM n WHERE i < 1999) SELECT i, CASE WHEN s / 65536 % 4 THEN s / 65536 % 3 END AS k, "
        "CASE WHEN s / 4096 % 5 THEN s / 1024 % 2001 - 1000 END AS v FROM n");
    ask("CREATE TABLE bg AS SELECT i, k, v, i - row_number() OVER (PARTITION BY k ORDER BY i) AS island FROM gb");
    same("SELECT key, rows, count, sum, min, max, first, last FROM hv_groups((SELECT hv_column(k) FROM (SELECT k FROM gb "
         "ORDER BY i)), (SELECT hv_column(v) FROM (SELECT v FROM gb ORDER BY i)))",
         "SELECT k, count(*), count(v), sum(v), min(v), max(v), (SELECT v FROM bg AS o WHERE o.k IS g.k AND o.island = "
         "g.island AND v NOT NULL ORDER BY i LIMIT 1), (SELECT v FROM bg AS o WHERE o.k IS g.k AND o.island = g.island "
         "AND v NOT NULL ORDER BY i DESC LIMIT 1) FROM bg AS g GROUP BY k, island ORDER BY min(i)");
}

/* Two columns worked row by row: by hand, and next to SQLite's own answers over rows. */
static void check_pairs(void) {
    ask("CREATE TABLE xy(i INTEGER PRIMARY KEY, a, b, s, t)");
    ask("INSERT INTO xy(a, b, s, t) VALUES (4, 1, 'a', 'b'), (4, 1, 'a', 'a'), (NULL, 1, NULL, 'a'), (7, NULL, 'b', "
        "NULL), (0, -9, 'b', 'a'), (0, 0, '', 'a')");
    ask("CREATE TABLE z AS SELECT hv_column(a) AS a, hv_column(b) AS b, hv_column(s) AS s, hv_column(t) AS t, "
        "hv_column(NULL) AS n FROM (SELECT * FROM xy ORDER BY i)");
    CHECK_SQL("SELECT start, stop, value FROM z, hv_runs(hv_add(a, b))", "0|2|5 2|4|NULL 4|5|-9 5|6|0");
    CHECK_SQL("SELECT start, stop, value FROM z, hv_runs(hv_subtract(10, a))", "0|2|6 2|3|NULL 3|4|3 4|6|10");
    CHECK_SQL("SELECT start, stop, value FROM z, hv_runs(hv_multiply(a, a))", "0|2|16 2|3|NULL 3|4|49 4|6|0");
    CHECK_SQL("SELECT start, stop, value FROM z, hv_runs(hv_and(a, b))", "0|2|1 2|4|NULL 4|6|0");
    CHECK_SQL("SELECT start, stop, value FROM z, hv_runs(hv_or(a, b))", "0|5|1 5|6|0");
    CHECK_SQL("SELECT start, stop, value FROM z, hv_runs(hv_not(a))", "0|2|0 2|3|NULL 3|4|0 4|6|1");
    CHECK_SQL("SELECT start, stop, value FROM z, hv_runs(hv_compare(s, '<=', t))", "0|2|1 2|4|NULL 4|5|0 5|6|1");
    CHECK_SQL("SELECT start, stop, value FROM z, hv_runs(hv_compare(s, '=', 'b'))", "0|2|0 2|3|NULL 3|5|1 5|6|0");
    CHECK_SQL("SELECT start, stop, value FROM z, hv_runs(hv_filter(s, hv_compare(a, '>', b)))", "0|2|a 2|3|b");
    CHECK_SQL("SELECT hv_rows(hv_filter(s, n)), hv_count(hv_add(a, n)), hv_count(hv_compare(s, '<', n)), "
              "hv_rows(hv_compare(n, '=', n)) FROM z", "0|0|0|6");
    CHECK_SQL("SELECT hv_sum(hv_and(n, 0)), hv_count(hv_and(n, 1)), hv_sum(hv_or(n, 5)) FROM z", "0|0|6");
    CHECK_SQL("SELECT hv_add(NULL, a), hv_add(a, NULL), hv_not(NULL), hv_compare(NULL, '=', a), hv_filter(a, NULL) "
              "FROM z", "NULL|NULL|NULL|NULL|NULL");
    CHECK_SQL("SELECT hv_sum(hv_multiply(hv_column(v), 2)) FROM (SELECT 3 AS v UNION ALL SELECT 4)", "14");

    CHECK_SQL("SELECT hv_add(a, hv_slice(b, 0, 2)) FROM z", "error: hv_add: a length of 6 next to one of 2");
    CHECK_SQL("SELECT hv_add(a, s) FROM z", "error: hv_add: only integers are added, and this is a column of texts");
    CHECK_SQL("SELECT hv_or(s, a) FROM z", "error: hv_or: only integers are connected, and this is a column of texts");
    CHECK_SQL("SELECT hv_not(s) FROM z", "error: hv_not: only integers are negated, and this is a column of texts");
    CHECK_SQL("SELECT hv_filter(a, s) FROM z",
              "error: hv_filter: only integers are a mask, and this is a column of texts");
    CHECK_SQL("SELECT hv_filter(a, hv_slice(a, 0, 2)) FROM z",
              "error: hv_filter: a mask of 2 rows over a column of 6 rows");
    CHECK_SQL("SELECT hv_compare(a, '<', s) FROM z",
              "error: hv_compare: a column of integers is not compared with one of texts");
    CHECK_SQL("SELECT hv_compare(a, '~', b) FROM z", "error: hv_compare: an operator is one of = <> > >= < <=");
    CHECK_SQL("SELECT hv_compare(s, '<', CAST(x'C328' AS TEXT)) FROM z", "error: hv_compare: a text is not UTF-8");
    CHECK_SQL("SELECT hv_add(1, 2)", "error: hv_add: a column is a blob, and this is an integer");
    CHECK_SQL("SELECT hv_add(a, 0.5) FROM z", "error: hv_add: only integers are added, and this is a column of real numbers");
    CHECK_SQL("SELECT hv_multiply(x'01', 2)", "error: hv_multiply: the blob is not a column");
    CHECK_SQL("SELECT hv_add(hv_column(v), 2) FROM (SELECT 1 AS v UNION ALL SELECT 9223372036854775806)",
              "error: hv_add: integer overflow in row 1");

    ask("CREATE TABLE o2 AS WITH RECURSIVE n(i, s) AS (SELECT 0, 7 UNION ALL SELECT i + 1, (s * 1103515245 + 12345) & "
        "2147483647 FROM n WHERE i < 1999) SELECT i, CASE WHEN s / 65536 % 4 THEN s / 65536 % 3 - 1 END AS a, "
        "CASE WHEN s / 4096 % 5 THEN s / 1024 % 3 - 1 END AS b FROM n");
    static const char *const pairs[][2] = {
        {"hv_add(a, b)", "a + b"}, {"hv_subtract(a, b)", "a - b"}, {"hv_multiply(a, b)", "a * b"},
        {"hv_and(a, b)", "a AND b"}, {"hv_or(a, b)", "a OR b"}, {"hv_not(a)", "NOT a"},
        {"hv_compare(a, '=', b)", "a = b"}, {"hv_compare(a, '<>', b)", "a <> b"}, {"hv_compare(a, '<', b)", "a < b"},
        {"hv_compare(a, '<=', b)", "a <= b"}, {"hv_compare(a, '>', 0)", "a > 0"}, {"hv_compare(0, '>=', b)", "0 >= b"},
    };
    for (size_t i = 0; i < COUNT(pairs); i++) {
        char runs[512], rows[512];
        snprintf(runs, sizeof runs, "SELECT hex(%s) FROM (SELECT hv_column(a) AS a, hv_column(b) AS b FROM (SELECT a, b "
                 "FROM o2 ORDER BY i))", pairs[i][0]);
        snprintf(rows, sizeof rows, "SELECT hex(hv_column(v)) FROM (SELECT %s AS v FROM o2 ORDER BY i)", pairs[i][1]);
        same(runs, rows);
    }
    same("SELECT hex(hv_filter(a, hv_compare(a, '<', b))) FROM (SELECT hv_column(a) AS a, hv_column(b) AS b FROM (SELECT "
         "a, b FROM o2 ORDER BY i))",
         "SELECT hex(hv_column(a)) FROM (SELECT a FROM o2 WHERE a < b ORDER BY i)");
}

/* More rows, and more bytes of texts, than wait for the library's builder at a time. */
static void check_many(void) {
    ask("CREATE TABLE m AS WITH RECURSIVE n(i) AS (SELECT 0 UNION ALL SELECT i + 1 FROM n WHERE i < 4999) SELECT i, "
        "CASE WHEN i % 5 THEN i * 7919 % 1000 END AS v, 'a text of number ' || i AS s, "
        "printf('%.*c', 30000, 'x') || (i % 7) AS l FROM n");
    same("SELECT hv_first(c), hv_last(c) FROM (SELECT hv_column(v) AS c FROM (SELECT v FROM m ORDER BY rowid))",
         "SELECT (SELECT v FROM m WHERE v NOT NULL ORDER BY rowid LIMIT 1), "
         "(SELECT v FROM m WHERE v NOT NULL ORDER BY rowid DESC LIMIT 1)");
    same("SELECT hv_rows(c), hv_count(c), hv_sum(c), hv_min(c), hv_max(c) FROM (SELECT hv_column(v) AS c FROM m)",
         "SELECT count(*), count(v), sum(v), min(v), max(v) FROM m");
    same("SELECT start, stop, value FROM hv_runs((SELECT hv_column(v) FROM m))", "SELECT i, i + 1, v FROM m");
    same("SELECT start, stop, value FROM hv_runs((SELECT hv_column(s) FROM m))", "SELECT i, i + 1, s FROM m");
    same("SELECT start, stop, value FROM hv_runs((SELECT hv_column(l) FROM m WHERE i < 20))",
         "SELECT i, i + 1, l FROM m WHERE i < 20");
    CHECK_SQL("SELECT hv_rows(c), hv_count(c), hv_at(c, 2999), hv_at(c, 3000) FROM (SELECT hv_column(CASE WHEN i >= "
              "3000 THEN s END) AS c FROM m)",
              "5000|2000|NULL|a text of number 3000");
    same("SELECT hex(hv_concat(c)) FROM (SELECT hv_column(CAST(s AS BLOB)) AS c FROM m GROUP BY i / 700)",
         "SELECT hex(hv_column(CAST(s AS BLOB))) FROM m");
    CHECK_SQL("SELECT hv_column(CASE i WHEN 10 THEN CAST(x'C328' AS TEXT) ELSE s END) FROM m",
              "error: hv_column: row 10 is a text that is not UTF-8");
    CHECK_SQL("SELECT hv_column(CASE i WHEN 3000 THEN CAST(x'C328' AS TEXT) ELSE s END) FROM m",
              "error: hv_column: row 3000 is a text that is not UTF-8");
}

/* Columns that other programs wrote: only null as texts, which goes with every type, a constant, and runs with the
 * values 1 2 2 3 and lengths 3 1 2 1, of which four rows are shown from the third on: 1 2 2 2. */
static void check_others(void) {
    ask("CREATE TABLE o AS SELECT x'0801100B180120022803620200006A00' AS nulls, "
        "x'0801100B1803200328013A026162' AS three, x'0801100818022004400248015204030102015A2C080110081801200428013A20"
        "0100000000000000020000000000000002000000000000000300000000000000' AS part");
    CHECK_SQL("SELECT hv_rows(nulls), hv_count(nulls), hv_rows(hv_filter(nulls, '=', 5)) FROM o", "2|0|0");
    CHECK_SQL("SELECT start, stop, value FROM o, hv_runs(three)", "0|3|ab");
    CHECK_SQL("SELECT hv_count(three), hv_rows(hv_filter(three, '>', 'aa')), hv_rows(hv_filter(three, '=', 'aa')) "
              "FROM o",
              "3|3|0");
    CHECK_SQL("SELECT start, stop, value, hv_count(part) FROM o, hv_runs(part)", "0|1|1|4 1|4|2|4");
    CHECK_SQL("SELECT start, stop, value FROM o, hv_runs(hv_filter(part, '>=', 2))", "0|3|2");
    CHECK_SQL("SELECT hv_rows(hv_filter(part, '=', 3)), hv_rows(hv_filter(part, '<', 9)) FROM o", "0|4");
    CHECK_SQL("SELECT start, stop, value FROM hv_runs((SELECT hv_concat(c) FROM (SELECT nulls AS c FROM o UNION ALL "
              "SELECT part FROM o UNION ALL SELECT nulls FROM o)))",
              "0|2|NULL 2|3|1 3|6|2 6|8|NULL");
    same("SELECT hex(hv_concat(nulls)) FROM o", "SELECT hex(hv_column(NULL)) FROM (SELECT 1 UNION ALL SELECT 2)");
    CHECK_SQL("SELECT hv_concat(c) FROM (SELECT three AS c FROM o UNION ALL SELECT nulls FROM o UNION ALL "
              "SELECT part FROM o)",
              "error: hv_concat: a column of integers after columns of texts");
}

/* ---- Random tables ---- */

/* A table of up to 120 rows in stretches; numbers, texts or blobs. */
static void make_table(void) {
    static const char *const kinds[] = {"%lld", "'%llx'", "x'%02llx'"};
    const char *kind = kinds[below(3)];
    char sql[8192] = "INSERT INTO r VALUES ";
    size_t used = strlen(sql), stretches = below(30);
    ask("DELETE FROM r");
    for (size_t stretch = 0; stretch < stretches; stretch++) {
        char value[32] = "NULL";
        if (below(4)) snprintf(value, sizeof value, kind, (long long)below(5) + (kind == kinds[0] ? -2 : 16));
        for (size_t left = 1 + below(4); left; left--)
            used += (size_t)snprintf(sql + used, sizeof sql - used, "(%s),", value);
    }
    if (!stretches) return;
    sql[used - 1] = 0;
    CHECK_SQL(sql, "");
}

static void check_table(void) {
    const int rows = atoi(ask("SELECT count(*) FROM r")), first = (int)below((uint64_t)rows + 1);
    const int second = first + (int)below((uint64_t)(rows - first) + 1);
    char range[128];
    snprintf(range, sizeof range, "UPDATE k SET first = %d, stop = %d", first, second);
    ask(range);
    static const char *const operators[] = {"=", "<>", "<", "<=", ">", ">="};
    same("SELECT hv_rows(c), hv_count(c), hv_min(c), hv_max(c) FROM (SELECT hv_column(v) AS c FROM r)",
         "SELECT count(*), count(v), min(v), max(v) FROM r");
    if (atoi(ask("SELECT count(*) FROM r WHERE typeof(v) IN ('text', 'blob')")) == 0)
        same("SELECT hv_sum(hv_column(v)) FROM r", "SELECT sum(v) FROM r");
    same("SELECT hv_at((SELECT hv_column(v) FROM r), first) FROM k",
         "SELECT max(v) FROM (SELECT v FROM r LIMIT 1 OFFSET (SELECT first FROM k))");
    same("SELECT hex(hv_slice((SELECT hv_column(v) FROM r), first, stop)) FROM k",
         "SELECT hex(hv_column(v)) FROM "
         "(SELECT v FROM r LIMIT (SELECT stop - first FROM k) OFFSET (SELECT first FROM k))");
    same("SELECT hex(hv_concat(c)) FROM (SELECT hv_column(v) AS c FROM r GROUP BY (rowid - 1) / 7 ORDER BY rowid)",
         "SELECT hex(hv_column(v)) FROM r");
    same("SELECT start, stop, value FROM hv_runs((SELECT hv_column(v) FROM r))",
         "WITH x AS (SELECT rowid - 1 AS n, v, rowid = 1 OR v IS NOT lag(v) OVER (ORDER BY rowid) AS s FROM r), "
         "y AS (SELECT n, v, sum(s) OVER (ORDER BY n) AS g FROM x) "
         "SELECT min(n), max(n) + 1, v FROM y GROUP BY g ORDER BY g");
    for (size_t i = 0; i < COUNT(operators) && rows; i++) {
        char left[512], right[512];
        const char *value = "(SELECT ifnull(v, (SELECT max(v) FROM r)) FROM r LIMIT 1 OFFSET %d)";
        char chosen[128];
        snprintf(chosen, sizeof chosen, value, first % rows);
        snprintf(left, sizeof left, "SELECT hex(hv_filter(hv_column(v), '%s', %s)) FROM r", operators[i], chosen);
        snprintf(right, sizeof right, "SELECT hex(hv_column(v)) FROM r WHERE v %s %s", operators[i], chosen);
        same(left, right);
    }
}

/* Blobs with a byte changed, left out or added: an answer or an error, and no fault. */
static size_t check_broken(size_t count) {
    size_t refused = 0;
    ask("CREATE TABLE b AS SELECT c FROM p UNION ALL SELECT c FROM q UNION ALL SELECT hv_column(NULL)");
    for (size_t i = 0; i < count; i++) {
        char sql[512];
        snprintf(sql, sizeof sql,
                 "WITH x AS (SELECT CAST(substr(c, 1, k) || unhex_byte(%d) || substr(c, k + 2 - %d) AS BLOB) AS c FROM "
                 "(SELECT c, %d %% "
                 "length(c) AS k FROM b LIMIT 1 OFFSET %d)) SELECT hv_rows(c), hv_count(c), hv_min(c), "
                 "length(hv_slice(c, 0, 1)) FROM x",
                 (int)below(256), (int)below(3) - 1, (int)below(1000), (int)below(3));
        refused += strncmp(ask(sql), "error: ", 7) == 0;
        if (strncmp(answer, "error: ", 7) == 0) CHECK(strstr(answer, "hv_") != NULL);
    }
    return refused;
}

int main(int count, char **words) {
    const size_t tables = 400, broken = 4000;
    open_database(count > 1 ? words[1] : NULL);
    check_rows();
    check_texts();
    check_types();
    check_bytes();
    check_many();
    check_others();
    check_constants();
    check_groups();
    check_pairs();
    check_refusals();
    ask("CREATE TABLE r(v)");
    ask("CREATE TABLE k AS SELECT 0 AS first, 0 AS stop");
    for (size_t table = 0; table < tables; table++) make_table(), check_table();
    const size_t refused = check_broken(broken);
    CHECK(refused > broken / 2 && refused < broken);
    CHECK(sqlite3_close(db) == SQLITE_OK);
    printf("%zu random tables as rows and as runs, %zu broken blobs of which %zu were refused\n", tables, broken,
           refused);
    return 0;
}
