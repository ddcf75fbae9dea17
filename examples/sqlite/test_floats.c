/* Columns of real numbers next to SQLite's own answers over rows, and next to the floats of C: NaNs with payloads, which
 * SQLite has not, both zeros, infinities, blobs that other programs wrote, broken ones. Linked, and run, as test.c is. */
#include "ask.h"
#include <math.h>

/* ---- Blobs as another program writes them: a flat message of the keys, with the type around it or in a line before ---- */

enum { MOST_ROWS = 120, FRONT = 32 };

/* A row: a float by its bits, or null. */
typedef struct row { bool is_null; uint64_t bits; } row;

static double float_of(uint64_t bits) {
    double number;
    memcpy(&number, &bits, sizeof number);
    return number;
}

static uint64_t bits_of(double number) {
    uint64_t bits;
    memcpy(&bits, &number, sizeof bits);
    return bits;
}

/* The place of a float among all: of a negative one as many places below the least positive one as its bits say. */
static int64_t key_of(uint64_t bits) {
    return bits >> 63 ? -1 - (int64_t)(bits & INT64_MAX) : (int64_t)bits;
}

static size_t put_varint(unsigned char *to, size_t number) {
    size_t size = 0;
    for (; number > 127; number >>= 7) to[size++] = (unsigned char)(number | 128);
    to[size++] = (unsigned char)number;
    return size;
}

/* Writes the message of the keys of these rows, of which there is one, and returns how many bytes it has. */
static size_t put_message(unsigned char *blob, const row *rows, size_t count) {
    size_t size = 0;
    memcpy(blob + size, "\x08\x01\x10\x08\x18\x01\x20", 7); /* version 1, i64, flat, rows */
    size += 7;
    size += put_varint(blob + size, count);
    memcpy(blob + size, "\x28\x04\x32", 3); /* null by bits */
    size += 3;
    size += put_varint(blob + size, (count + 7) / 8);
    memset(blob + size, 0, (count + 7) / 8);
    for (size_t i = 0; i < count; i++) blob[size + i / 8] |= (unsigned char)(!rows[i].is_null << i % 8);
    size += (count + 7) / 8;
    blob[size++] = 0x3A;
    size += put_varint(blob + size, 8 * count);
    for (size_t i = 0; i < count; i++) {
        const int64_t key = rows[i].is_null ? 0 : key_of(rows[i].bits);
        memcpy(blob + size, &key, 8);
        size += 8;
    }
    return size;
}

/* The blob of the rows, which has the type in a line, as earlier versions wrote it, in each second call. */
static size_t put_blob(unsigned char *blob, const row *rows, size_t count) {
    static bool has_line = false;
    const size_t size = put_message(blob + FRONT, rows, count);
    size_t front = 0;
    has_line = !has_line;
    if (has_line) {
        memcpy(blob, "hivevigil type 1 g\n", front = 19);
    } else {
        memcpy(blob, "\x08\x02\xb2\x01\x01g\xba\x01", front = 8); /* version 2, "g", and the length of the message */
        front += put_varint(blob + front, size);
    }
    memmove(blob + front, blob + FRONT, size);
    return front + size;
}

/* Binds the blob of the rows to a parameter. */
static void bind_rows(sqlite3_stmt *statement, int at, const row *rows, size_t count) {
    static unsigned char blob[64 + 9 * MOST_ROWS];
    sqlite3_bind_blob(statement, at, blob, (int)put_blob(blob, rows, count), SQLITE_TRANSIENT);
}

static sqlite3_stmt *prepared(const char *sql) {
    sqlite3_stmt *statement = NULL;
    if (sqlite3_prepare_v2(db, sql, -1, &statement, NULL) != SQLITE_OK)
        check_text(sqlite3_errmsg(db), "", sql, __FILE__, __LINE__);
    return statement;
}

/* The bytes of the column of these rows, as the extension writes them. */
static size_t written(unsigned char *to, const row *rows, size_t count) {
    sqlite3_stmt *statement = prepared(count ? "SELECT hv_concat(?1)" : "SELECT hv_repeat(NULL, 0)");
    if (count) bind_rows(statement, 1, rows, count);
    CHECK(sqlite3_step(statement) == SQLITE_ROW);
    const size_t size = (size_t)sqlite3_column_bytes(statement, 0);
    memcpy(to, sqlite3_column_blob(statement, 0), size);
    sqlite3_finalize(statement);
    return size;
}

/* Is the blob that a query answers the column of these rows? */
static void check_blob(sqlite3_stmt *statement, const char *what, const row *rows, size_t count) {
    static unsigned char wanted[64 + 32 * MOST_ROWS];
    const size_t size = written(wanted, rows, count);
    if (sqlite3_step(statement) != SQLITE_ROW) check_text(sqlite3_errmsg(db), "", what, __FILE__, __LINE__);
    const bool same = (size_t)sqlite3_column_bytes(statement, 0) == size &&
                      memcmp(sqlite3_column_blob(statement, 0), wanted, size) == 0;
    if (!same) check_text("another column", "the column", what, __FILE__, __LINE__);
    sqlite3_finalize(statement);
}

/* Does a query answer the float with these bits, where a NaN is NULL? */
static void check_float(sqlite3_stmt *statement, const char *what, bool is_null, uint64_t bits) {
    if (sqlite3_step(statement) != SQLITE_ROW) check_text(sqlite3_errmsg(db), "", what, __FILE__, __LINE__);
    const int type = sqlite3_column_type(statement, 0);
    const double found = sqlite3_column_double(statement, 0);
    if (is_null || isnan(float_of(bits))) {
        if (type != SQLITE_NULL) check_text("a number", "NULL", what, __FILE__, __LINE__);
    } else if (type != SQLITE_FLOAT || bits_of(found) != bits) {
        char one[64], other[64];
        snprintf(one, sizeof one, "%a", found), snprintf(other, sizeof other, "%a", float_of(bits));
        check_text(one, other, what, __FILE__, __LINE__);
    }
    sqlite3_finalize(statement);
}

/* ---- By hand ---- */

static void check_rows(void) {
    ask("CREATE TABLE t(v)");
    ask("INSERT INTO t VALUES (1.5), (1.5), (NULL), (-0.25), (9e999), (1.5)");
    ask("CREATE TABLE p AS SELECT hv_column(v) AS c FROM t");
    CHECK_SQL("SELECT hv_rows(c), hv_count(c), hv_min(c), hv_max(c), hv_first(c), hv_last(c), hv_type(c) FROM p",
              "6|5|-0.25|Inf|1.5|1.5|real");
    CHECK_SQL("SELECT hv_at(c, 0), hv_at(c, 2), hv_at(c, 3), hv_at(c, 6), hv_at(c, -1) FROM p",
              "1.5|NULL|-0.25|NULL|NULL");
    CHECK_SQL("SELECT start, stop, value FROM p, hv_runs(c)", "0|2|1.5 2|3|NULL 3|4|-0.25 4|5|Inf 5|6|1.5");
    CHECK_SQL("SELECT hv_sum(c), hv_sum(hv_slice(c, 0, 4)), hv_sum(hv_slice(c, 2, 3)) FROM p", "Inf|2.75|NULL");
    CHECK_SQL("SELECT typeof(hv_sum(c)), typeof(hv_min(c)), typeof(hv_at(c, 0)), typeof(hv_count(c)) FROM p",
              "real|real|real|integer");
    CHECK_SQL("SELECT start, stop, value FROM p, hv_runs(hv_filter(c, '>', 1))", "0|2|1.5 2|3|Inf 3|4|1.5");
    CHECK_SQL("SELECT hv_rows(hv_filter(c, '=', 1.5)), hv_rows(hv_filter(c, '=', NULL)), hv_rows(hv_filter(c, '<', 0)) "
              "FROM p", "3|0|1");
    CHECK_SQL("SELECT start, stop, value FROM p, hv_runs(hv_compare(c, '>=', 1.5))",
              "0|2|1 2|3|NULL 3|4|0 4|6|1");
    CHECK_SQL("SELECT start, stop, value FROM p, hv_runs(hv_compare(0, '<', c))", "0|2|1 2|3|NULL 3|4|0 4|6|1");
    CHECK_SQL("SELECT start, stop, value FROM p, hv_runs(hv_filter(c, hv_compare(c, '<', 9e999)))",
              "0|2|1.5 2|3|-0.25 3|4|1.5");
    CHECK_SQL("SELECT hv_sum(hv_append(c, -2.5, 2)), hv_rows(hv_append(c, NULL, 3)) FROM "
              "(SELECT hv_slice(c, 0, 4) AS c FROM p)", "-2.25|7");
    CHECK_SQL("SELECT hv_sum_all(c) FROM (SELECT hv_column(1e100) AS c UNION ALL SELECT hv_column(1.0) UNION ALL "
              "SELECT hv_column(-1e100))", "1.0");
    CHECK_SQL("SELECT hv_sum(hv_repeat(0.1, 10))", "1.0");
    CHECK_SQL("SELECT hv_type(hv_column(v)) FROM (SELECT 1 AS v)", "integer");
    CHECK_SQL("SELECT hv_type(hv_column('a')), hv_type(hv_column(x'00')), hv_type(hv_column(NULL)), hv_type(NULL)",
              "text|blob|null|NULL");
    /* only null goes with every type, as do columns of it */
    CHECK_SQL("SELECT hv_rows(hv_filter(c, '<', 0.5)), hv_count(hv_compare(c, '<', 0.5)), hv_sum(c), hv_max(c) FROM "
              "(SELECT hv_column(NULL) AS c)", "0|0|NULL|NULL");
    CHECK_SQL("SELECT start, stop, value FROM hv_runs((SELECT hv_concat(c) FROM (SELECT hv_column(NULL) AS c UNION ALL "
              "SELECT hv_column(0.5) UNION ALL SELECT hv_column(NULL))))", "0|1|NULL 1|2|0.5 2|3|NULL");
    CHECK_SQL("SELECT key, rows, sum FROM p, hv_groups(c, (SELECT hv_repeat(7, 6)))",
              "1.5|2|14 NULL|1|7 -0.25|1|7 Inf|1|7 1.5|1|7");
    CHECK_SQL("SELECT key, rows, count, sum, min, max, first, last FROM p, hv_groups((SELECT hv_repeat(k, 3) FROM "
              "(SELECT 1 AS k UNION ALL SELECT 2)), c)",
              "1|3|2|3.0|1.5|1.5|1.5|1.5 2|3|3|Inf|-0.25|Inf|-0.25|1.5");
    CHECK_SQL("SELECT hv_sum_all(c) FROM (SELECT hv_column(0.5) AS c UNION ALL SELECT hv_column(NULL) UNION ALL SELECT "
              "hv_column(1))", "error: hv_sum_all: a column of integers after columns of real numbers");
}

static void check_refusals(void) {
    CHECK_SQL("SELECT hv_column(v) FROM (SELECT 1.5 AS v UNION ALL SELECT 1)",
              "error: hv_column: row 1 is an integer, and a column holds real numbers");
    CHECK_SQL("SELECT hv_append(c, 1, 1) FROM p", "error: hv_append: a column of real numbers takes no integer");
    CHECK_SQL("SELECT hv_concat(c) FROM (SELECT c FROM p UNION ALL SELECT hv_column(1))",
              "error: hv_concat: a column of integers after columns of real numbers");
    CHECK_SQL("SELECT hv_filter(c, '<', 'a') FROM p",
              "error: hv_filter: a column of real numbers is not compared with a text");
    CHECK_SQL("SELECT hv_filter(c, '~', 1) FROM p", "error: hv_filter: an operator is one of = <> > >= < <=");
    CHECK_SQL("SELECT hv_filter(hv_column(1), '<', 1.5)",
              "error: hv_filter: a column of integers is not compared with a real number");
    CHECK_SQL("SELECT hv_compare(hv_column(1), '<', 1.5)",
              "error: hv_compare: a column of integers is not compared with one of real numbers");
    CHECK_SQL("SELECT hv_compare(c, '<', hv_slice(c, 0, 2)) FROM p", "error: hv_compare: a length of 6 next to one of 2");
    CHECK_SQL("SELECT hv_add(c, c) FROM p", "error: hv_add: only integers are added, and this is a column of real numbers");
    CHECK_SQL("SELECT hv_multiply(c, 2.5) FROM p",
              "error: hv_multiply: only integers are multiplied, and this is a column of real numbers");
    CHECK_SQL("SELECT hv_and(c, 1) FROM p",
              "error: hv_and: only integers are connected, and this is a column of real numbers");
    CHECK_SQL("SELECT hv_not(c) FROM p", "error: hv_not: only integers are negated, and this is a column of real numbers");
    CHECK_SQL("SELECT hv_filter(c, c) FROM p",
              "error: hv_filter: only integers are a mask, and this is a column of real numbers");
    CHECK_SQL("SELECT hv_steps(c) FROM p", "error: hv_steps: this is not a column of integers, but of real numbers");
    CHECK_SQL("SELECT hv_buckets(c, 5) FROM p", "error: hv_buckets: this is not a column of integers, but of real numbers");
    CHECK_SQL("SELECT hv_slice(c, 2, 12) FROM p", "error: hv_slice: rows 2 to 12 are not among 6 rows");
    /* a line without a message, with that of other integers, of a type that is not of floats, and of none */
    CHECK_SQL("SELECT hv_rows(CAST('hivevigil type 1 g' || char(10) AS BLOB))", "error: hv_rows: the blob is not a column");
    CHECK_SQL("SELECT hv_rows(CAST('hivevigil type 1 f' || char(10) || c AS BLOB)) FROM (SELECT "
              "x'080110081801200128013A080100000000000000' AS c)", "error: hv_rows: the blob is not a column");
    CHECK_SQL("SELECT hv_rows(CAST('hivevigil type 1 tdD' || char(10) AS BLOB))",
              "error: hv_rows: the blob is not a column");
    CHECK_SQL("SELECT hv_rows(CAST('hivevigil type 1 z' || char(10) || c AS BLOB)) FROM (SELECT "
              "x'080110081801200128013A080100000000000000' AS c)", "error: hv_rows: the blob is not a column");
}

/* ---- Blobs of other programs ---- */

#define LINE(letter) "68697665766967696C2074797065203120" letter "0A"
/* version 2, a type of one letter, and a message of this length after it */
#define TYPED(letter, length) "0802B20101" letter "BA01" length
#define FLAT_OF(type, rows) "080110" type "180120" rows "2801"

/* Messages that keep their type, and what is refused of them. */
static void check_typed(void) {
    /* 1.5 1.5 null 0.0, of which the keys are 0x3FF8 << 48 and 0: runs of 2, 1 and 1 rows, null by bits 101 */
    CHECK_SQL("SELECT hex(hv_column(v)) FROM (SELECT 1.5 AS v UNION ALL SELECT 1.5 UNION ALL SELECT NULL UNION ALL "
              "SELECT 0.0)",
              TYPED("67", "3A") "08011008180220044000480152030201015A27" "080110081801200328043201" "05" "3A18"
              "000000000000F83F" "0000000000000000" "0000000000000000");
    /* floats of 64, 32 and 16 bits: 1.5, and -0.0, which SQLite shows as 0.0 */
    CHECK_SQL("SELECT value FROM hv_runs(x'" TYPED("67", "1C") FLAT_OF("08", "02") "3A10" "000000000000F83F"
              "FFFFFFFFFFFFFFFF" "')", "1.5 0.0");
    CHECK_SQL("SELECT value FROM hv_runs(x'" TYPED("66", "14") FLAT_OF("07", "02") "3A08" "0000C03F" "FFFFFFFF" "')",
              "1.5 0.0");
    CHECK_SQL("SELECT value, hv_type(c) FROM (SELECT x'" TYPED("65", "10") FLAT_OF("06", "02") "3A04" "003E" "FFFF"
              "' AS c), hv_runs(c)", "1.5|real 0.0|real");
    /* with and without the line they are the same rows, and the same bytes where the extension wrote them */
    CHECK_SQL("SELECT count(DISTINCT c), count(DISTINCT hv_concat) FROM (SELECT c, hv_concat(c) AS hv_concat FROM (SELECT "
              "x'" TYPED("66", "10") FLAT_OF("07", "01") "3A04" "0100807F" "' AS c UNION ALL SELECT x'" LINE("66")
              FLAT_OF("07", "01") "3A04" "0100807F" "') GROUP BY c)", "2|1");
    /* times, as Python writes them, are their numbers, and keep what these mean; so are rows of a type that nobody knows */
    CHECK_SQL("SELECT hv_type(c), hv_sum(c), hex(hv_concat(c)) FROM (SELECT x'0802B201077473733A555443BA0114"
              "080110081801200128013A080700000000000000' AS c)",
              "integer|7|0802B201077473733A555443BA0125"
              "0801100818022001400048015201015A14080110081801200128013A080700000000000000");
    CHECK_SQL("SELECT hv_type(c), hv_sum(c) FROM (SELECT x'0802B201026767BA0110080110071801200128013A0407000000' AS c)",
              "integer|7");
    /* keys of other floats, texts, no name, a type within a type, a line before one, and what is cut short */
    CHECK_SQL("SELECT hv_rows(x'" TYPED("66", "14") FLAT_OF("08", "01") "3A08" "000000000000F83F" "')",
              "error: hv_rows: the blob is not a column");
    CHECK_SQL("SELECT hv_rows(x'" TYPED("67", "10") FLAT_OF("07", "01") "3A04" "0000C03F" "')",
              "error: hv_rows: the blob is not a column");
    CHECK_SQL("SELECT hv_rows(x'" TYPED("67", "10") "0801100B1801200128016201016A0161" "')",
              "error: hv_rows: the blob is not a column");
    CHECK_SQL("SELECT hv_rows(x'0802B20100BA0110" FLAT_OF("07", "01") "3A04" "0000C03F" "')",
              "error: hv_rows: the blob is not a column");
    CHECK_SQL("SELECT hv_rows(x'" TYPED("66", "19") TYPED("66", "10") FLAT_OF("07", "01") "3A04" "0000C03F" "')",
              "error: hv_rows: the blob is not a column");
    CHECK_SQL("SELECT hv_rows(x'" LINE("66") TYPED("66", "10") FLAT_OF("07", "01") "3A04" "0000C03F" "')",
              "error: hv_rows: the blob is not a column");
    CHECK_SQL("SELECT hv_rows(x'" TYPED("66", "10") FLAT_OF("07", "01") "3A04" "0000C0" "')",
              "error: hv_rows: the blob is not a column");
}

/* The same with the line of earlier versions. */
static void check_bytes(void) {
    /* floats of 32 bits as keys: 1.5, the least above 0, the greatest, -infinity, -0.0, which SQLite shows as 0.0 */
    CHECK_SQL("SELECT start, stop, value FROM hv_runs(x'" LINE("66") FLAT_OF("07", "05") "3A14"
              "0000C03F" "01000000" "FFFF7F7F" "FFFF7F80" "FFFFFFFF" "')",
              "0|1|1.5 1|2|1.40129846432482e-45 2|3|3.40282346638529e+38 3|4|-Inf 4|5|0.0");
    /* floats of 16 bits: 1.5, the least above 0, the greatest below 2^-14, 65504, -infinity */
    CHECK_SQL("SELECT value FROM hv_runs(x'" LINE("65") FLAT_OF("06", "05") "3A0A"
              "003E" "0100" "FF03" "FF7B" "FF83" "')",
              "1.5 5.96046447753906e-08 6.09755516052246e-05 65504.0 -Inf");
    /* NaNs keep their payload, also one of 32 bits that signals: 0x7F800001 is 0x7FF0000020000000 */
    CHECK_SQL("SELECT hex(hv_concat(x'" LINE("66") FLAT_OF("07", "01") "3A04" "0100807F" "'))",
              TYPED("67", "25") "0801100818022001400048015201015A14" "080110081801200128013A08" "000000200000F07F");
    CHECK_SQL("SELECT hv_rows(c), hv_count(c), hv_at(c, 0), hv_sum(c), hv_min(c), hv_max(c), hv_type(c) FROM (SELECT x'"
              LINE("66") FLAT_OF("07", "01") "3A04" "0100807F" "' AS c)", "1|1|NULL|NULL|NULL|NULL|real");
    /* 2.0 in each of 2^60 rows, a constant */
    CHECK_SQL("SELECT hv_rows(c), hv_sum(c), hv_max(c), hv_rows(hv_filter(c, '>', 1)), hv_sum(hv_compare(c, '<', c)), "
              "hv_sum_all(c) FROM (SELECT x'" LINE("67")
              "08011008180320808080808080808010" "28013A08" "0000000000000040" "' AS c)",
              "1152921504606846976|2.30584300921369e+18|2.0|1152921504606846976|0|2.30584300921369e+18");
    /* null of floats goes with every type */
    CHECK_SQL("SELECT hv_type(c), hv_count(c), hv_sum(c), hv_min(c), hv_first(c), hv_rows(hv_filter(c, '<', 5)), "
              "hex(hv_concat(c)) = hex(hv_column(NULL)) FROM (SELECT x'" LINE("67")
              "0801100818012001" "2803" "3A080000000000000000" "' AS c)", "null|0|NULL|NULL|NULL|0|1");
}

/* ---- Random rows, next to the floats of C ---- */

static const uint64_t few[] = {
    0x0000000000000000, 0x8000000000000000,                                         /* both zeros */
    0x3FF8000000000000, 0xBFF8000000000000, 0x3FB999999999999A,                     /* 1.5, -1.5, 0.1 */
    0x7FF0000000000000, 0xFFF0000000000000,                                         /* infinities */
    0x7FF8000000000000, 0xFFF8000000000000, 0x7FF0000000000001, 0xFFFFFFFFFFFFFFFF, /* NaNs */
    0x0000000000000001, 0x800FFFFFFFFFFFFF, 0x7FEFFFFFFFFFFFFF,                     /* the least, ..., the greatest */
    0x4340000000000000, 0x4340000000000001,                                         /* 2^53, 2^53 + 2 */
};

/* Rows in stretches; of wild ones some are NaN, infinite or very far apart, of others sums are exact in 128 bits. */
static size_t make_rows(row *rows, bool wild) {
    const size_t count = 1 + (size_t)below(MOST_ROWS);
    for (size_t at = 0; at < count;) {
        row one = {below(5) == 0, few[below(COUNT(few))]};
        if (!wild) one.bits = bits_of(ldexp((double)below((uint64_t)1 << 53) * (below(2) ? 1 : -1), (int)below(48) - 40));
        for (size_t left = 1 + below(4); left && at < count; left--) rows[at++] = one;
    }
    return count;
}

static bool holds(const char *operator_, long double left, long double right) {
    static const char *const operators[] = {"=", "<>", "<", "<=", ">", ">="};
    const bool answers[] = {left == right, left != right, left < right, left <= right, left > right, left >= right};
    for (size_t i = 0; i < COUNT(operators); i++)
        if (strcmp(operator_, operators[i]) == 0) return answers[i];
    return false;
}

static sqlite3_stmt *asked(const char *sql, const row *rows, size_t count) {
    sqlite3_stmt *statement = prepared(sql);
    bind_rows(statement, 1, rows, count);
    return statement;
}

/* Rows that begin as those of the column, and in which some are taken out. */
static size_t kept(row *to, const row *rows, size_t count, const char *operator_, long double right) {
    size_t size = 0;
    for (size_t i = 0; i < count; i++)
        if (!rows[i].is_null && holds(operator_, float_of(rows[i].bits), right)) to[size++] = rows[i];
    return size;
}

static void check_filters(const row *rows, size_t count) {
    static const char *const operators[] = {"=", "<>", "<", "<=", ">", ">="};
    static const sqlite3_int64 integers[] = {0, 1, -2, 9007199254740992, 9007199254740993, INT64_MAX, INT64_MIN};
    row left[MOST_ROWS];
    for (size_t i = 0; i < COUNT(operators); i++) {
        const double number = float_of(few[below(7)]);
        const sqlite3_int64 integer = integers[below(COUNT(integers))];
        sqlite3_stmt *statement = asked("SELECT hv_filter(?1, ?2, ?3)", rows, count);
        sqlite3_bind_text(statement, 2, operators[i], -1, SQLITE_STATIC);
        sqlite3_bind_double(statement, 3, number);
        check_blob(statement, operators[i], left, kept(left, rows, count, operators[i], number));
        statement = asked("SELECT hv_filter(?1, hv_compare(?1, ?2, ?3))", rows, count);
        sqlite3_bind_text(statement, 2, operators[i], -1, SQLITE_STATIC);
        sqlite3_bind_int64(statement, 3, integer);
        check_blob(statement, operators[i], left, kept(left, rows, count, operators[i], integer));
        statement = asked("SELECT hv_filter(?1, ?2, ?3)", rows, count);
        sqlite3_bind_text(statement, 2, operators[i], -1, SQLITE_STATIC);
        sqlite3_bind_int64(statement, 3, integer);
        check_blob(statement, operators[i], left, kept(left, rows, count, operators[i], integer));
    }
}

/* Two columns row by row: the rows of the left one of which it holds, and how often neither is null. */
static void check_two(const row *rows, const row *others, size_t count) {
    static const char *const operators[] = {"=", "<>", "<", "<=", ">", ">="};
    for (size_t i = 0; i < COUNT(operators); i++) {
        row left[MOST_ROWS];
        size_t size = 0, both = 0;
        for (size_t at = 0; at < count; at++) {
            if (rows[at].is_null || others[at].is_null) continue;
            both++;
            if (holds(operators[i], float_of(rows[at].bits), float_of(others[at].bits))) left[size++] = rows[at];
        }
        sqlite3_stmt *statement = asked("SELECT hv_filter(?1, hv_compare(?1, ?2, ?3))", rows, count);
        sqlite3_bind_text(statement, 2, operators[i], -1, SQLITE_STATIC);
        bind_rows(statement, 3, others, count);
        check_blob(statement, operators[i], left, size);
        statement = asked("SELECT hv_count(hv_compare(?1, ?2, ?3))", rows, count);
        sqlite3_bind_text(statement, 2, operators[i], -1, SQLITE_STATIC);
        bind_rows(statement, 3, others, count);
        CHECK(sqlite3_step(statement) == SQLITE_ROW && sqlite3_column_int64(statement, 0) == (sqlite3_int64)both);
        sqlite3_finalize(statement);
    }
}

/* Is a float below another, where -0.0 is below 0.0? */
static bool is_below(uint64_t left, uint64_t right) { return key_of(left) < key_of(right); }

static void check_questions(const row *rows, size_t count) {
    uint64_t least = 0, greatest = 0, first = 0, last = 0;
    size_t valid = 0, numbers = 0;
    for (size_t i = 0; i < count; i++) {
        const uint64_t bits = rows[i].bits;
        if (rows[i].is_null) continue;
        if (!valid++) first = bits;
        last = bits;
        if (isnan(float_of(bits))) continue;
        if (!numbers || is_below(bits, least)) least = bits;
        if (!numbers++ || is_below(greatest, bits)) greatest = bits;
    }
    check_float(asked("SELECT hv_min(?1)", rows, count), "hv_min", !numbers, least);
    check_float(asked("SELECT hv_max(?1)", rows, count), "hv_max", !numbers, greatest);
    check_float(asked("SELECT hv_first(?1)", rows, count), "hv_first", !valid, first);
    check_float(asked("SELECT hv_last(?1)", rows, count), "hv_last", !valid, last);
    sqlite3_stmt *statement = asked("SELECT hv_rows(?1) = ?2 AND hv_count(?1) = ?3", rows, count);
    sqlite3_bind_int64(statement, 2, (sqlite3_int64)count);
    sqlite3_bind_int64(statement, 3, (sqlite3_int64)valid);
    CHECK(sqlite3_step(statement) == SQLITE_ROW && sqlite3_column_int(statement, 0) == 1);
    sqlite3_finalize(statement);
    const size_t at = (size_t)below(count), stop = at + (size_t)below(count - at + 1);
    statement = asked("SELECT hv_at(?1, ?2)", rows, count);
    sqlite3_bind_int64(statement, 2, (sqlite3_int64)at);
    check_float(statement, "hv_at", rows[at].is_null, rows[at].bits);
    statement = asked("SELECT hv_slice(?1, ?2, ?3)", rows, count);
    sqlite3_bind_int64(statement, 2, (sqlite3_int64)at);
    sqlite3_bind_int64(statement, 3, (sqlite3_int64)stop);
    check_blob(statement, "hv_slice", rows + at, stop - at);
}

/* Parts joined are the whole; and rows that SQLite itself has, of which a NaN is NULL. */
static void check_making(const row *rows, size_t count) {
    row without[MOST_ROWS];
    sqlite3_stmt *statement = prepared("DELETE FROM r");
    sqlite3_step(statement), sqlite3_finalize(statement);
    const size_t cut = (size_t)below(count);
    statement = prepared(cut ? "SELECT hv_concat(c) FROM (SELECT ?1 AS c UNION ALL SELECT ?2)" : "SELECT hv_concat(?2)");
    if (cut) bind_rows(statement, 1, rows, cut);
    bind_rows(statement, 2, rows + cut, count - cut);
    check_blob(statement, "hv_concat", rows, count);
    for (size_t i = 0; i < count; i++) {
        without[i] = rows[i];
        without[i].is_null |= isnan(float_of(rows[i].bits));
        statement = prepared("INSERT INTO r VALUES (?1)");
        if (!rows[i].is_null) sqlite3_bind_double(statement, 1, float_of(rows[i].bits));
        CHECK(sqlite3_step(statement) == SQLITE_DONE);
        sqlite3_finalize(statement);
    }
    check_blob(prepared("SELECT hv_column(v) FROM r"), "hv_column", without, count);
    size_t runs = 1;
    for (size_t i = 1; i < count; i++)
        runs += without[i].is_null != without[i - 1].is_null ||
                (!without[i].is_null && without[i].bits != without[i - 1].bits);
    CHECK(atoi(ask("SELECT count(*) FROM hv_runs((SELECT hv_column(v) FROM r))")) == (int)runs);
    same("SELECT min(value), max(value) FROM hv_runs((SELECT hv_column(v) FROM r))", "SELECT min(v), max(v) FROM r");
}

__extension__ typedef __int128 wide;

/* The sum of rows that are whole numbers of 2^-40, in 128 bits, which C rounds to the nearest double. */
static void check_sums(const row *rows, size_t count) {
    wide units = 0;
    size_t valid = 0, minus_zeros = 0;
    for (size_t i = 0; i < count; i++) {
        if (rows[i].is_null) continue;
        valid++;
        minus_zeros += rows[i].bits == (uint64_t)1 << 63;
        units += (wide)ldexp(float_of(rows[i].bits), 40);
    }
    double sum = ldexp((double)units, -40);
    if (valid && valid == minus_zeros) sum = -0.0;
    check_float(asked("SELECT hv_sum(?1)", rows, count), "hv_sum", !valid, bits_of(sum));
    check_float(asked("SELECT hv_sum_all(?1)", rows, count), "hv_sum_all", !valid, bits_of(sum));
}

/* Sums by hand: of one column, and of columns of a row each. */
static void check_few_sums(void) {
    static const struct {
        uint64_t rows[4];
        size_t count;
        uint64_t sum;
    } sums[] = {
        {{0x8000000000000000, 0x8000000000000000}, 2, 0x8000000000000000},                     /* only -0.0 */
        {{0x8000000000000000, 0x0000000000000000}, 2, 0x0000000000000000},
        {{0x3FF8000000000000, 0xBFF8000000000000}, 2, 0x0000000000000000},                     /* 1.5 and -1.5 */
        {{0x4340000000000000, 0x3FF0000000000000}, 2, 0x4340000000000000},                     /* 2^53 + 1, a tie */
        {{0x4340000000000001, 0x3FF0000000000000}, 2, 0x4340000000000002},                     /* 2^53 + 3, a tie */
        {{0x4340000000000000, 0x3FF0000000000000, 1}, 3, 0x4340000000000001},                  /* past the tie */
        {{0xC340000000000001, 0xBFF0000000000000}, 2, 0xC340000000000002},
        {{0x433FFFFFFFFFFFFF, 0x3FE0000000000000}, 2, 0x4340000000000000},                     /* to the next power */
        {{0x7FEFFFFFFFFFFFFF, 0x7FEFFFFFFFFFFFFF, 0xFFEFFFFFFFFFFFFF}, 3, 0x7FEFFFFFFFFFFFFF},
        {{0x7FEFFFFFFFFFFFFF, 0x7C90000000000000}, 2, 0x7FF0000000000000},                     /* half a place past */
        {{0x7FEFFFFFFFFFFFFF, 0x7C8FFFFFFFFFFFFF}, 2, 0x7FEFFFFFFFFFFFFF},
        {{0xFFEFFFFFFFFFFFFF, 0xFFEFFFFFFFFFFFFF}, 2, 0xFFF0000000000000},
        {{0x000FFFFFFFFFFFFF, 1}, 2, 0x0010000000000000},                                      /* least normal */
        {{0x0010000000000000, 0x800FFFFFFFFFFFFF}, 2, 1},
        {{0x7FF0000000000000, 0xFFEFFFFFFFFFFFFF}, 2, 0x7FF0000000000000},
        {{0x7FF0000000000000, 0xFFF0000000000000}, 2, 0x7FF8000000000000},                     /* NULL */
        {{0x3FF0000000000000, 0xFFF8000000000001}, 2, 0x7FF8000000000000},
    };
    for (size_t i = 0; i < COUNT(sums); i++) {
        row rows[4] = {{false, 0}};
        for (size_t at = 0; at < sums[i].count; at++) rows[at].bits = sums[i].rows[at];
        check_float(asked("SELECT hv_sum(?1)", rows, sums[i].count), "hv_sum", false, sums[i].sum);
        check_float(asked("WITH RECURSIVE n(i) AS (SELECT hv_rows(?1) - 1 UNION ALL SELECT i - 1 FROM n WHERE i > 0) "
                          "SELECT hv_sum_all(hv_slice(?1, i, i + 1)) FROM n", rows, sums[i].count),
                    "hv_sum_all", false, sums[i].sum);
    }
}

/* Sums of any rows: of columns by parts, in another order, as of the whole column, which the library adds. */
static void check_wild_sums(const row *rows, size_t count) {
    sqlite3_stmt *statement = asked("SELECT typeof(hv_sum(?1)), hv_sum(?1)", rows, count);
    CHECK(sqlite3_step(statement) == SQLITE_ROW);
    const bool is_null = sqlite3_column_type(statement, 1) == SQLITE_NULL;
    const uint64_t sum = bits_of(sqlite3_column_double(statement, 1));
    sqlite3_finalize(statement);
    check_float(asked("WITH RECURSIVE n(i) AS (SELECT hv_rows(?1) / 7 UNION ALL SELECT i - 1 FROM n WHERE i > 0) SELECT "
                      "hv_sum_all(hv_slice(?1, 7 * i, min(7 * i + 7, hv_rows(?1)))) FROM n", rows, count),
                "hv_sum_all of parts", is_null, sum);
    statement = asked("WITH RECURSIVE n(i) AS (SELECT 0 UNION ALL SELECT i + 1 FROM n WHERE i + 1 < hv_rows(?1)), "
                      "k AS (SELECT hv_column(i / 5) AS c FROM n), p AS (SELECT g.*, hv_slice(?1, 5 * key, 5 * key + "
                      "rows) AS c FROM k, hv_groups(k.c, ?1) AS g) SELECT count(*) FROM p WHERE sum IS NOT hv_sum(c) OR "
                      "min IS NOT hv_min(c) OR max IS NOT hv_max(c) OR count <> hv_count(c) OR first IS NOT hv_first(c) "
                      "OR last IS NOT hv_last(c)", rows, count);
    CHECK(sqlite3_step(statement) == SQLITE_ROW && sqlite3_column_int64(statement, 0) == 0);
    sqlite3_finalize(statement);
}

/* Blobs with a byte changed, left out or added: an answer or an error, and no fault. */
static size_t check_broken(size_t count) {
    static unsigned char blob[64 + 9 * MOST_ROWS];
    row rows[MOST_ROWS];
    size_t refused = 0;
    for (size_t i = 0; i < count; i++) {
        const size_t size = put_blob(blob, rows, make_rows(rows, true)), at = (size_t)below(size);
        const int more = (int)below(3) - 1;
        if (more > 0) memmove(blob + at + 1, blob + at, size - at);
        if (more < 0) memmove(blob + at, blob + at + 1, size - at - 1);
        if (more >= 0) blob[at] = (unsigned char)below(256);
        sqlite3_stmt *statement = prepared("SELECT hv_rows(?1), hv_count(?1), hv_sum(?1), hv_min(?1), hv_filter(?1, '<', "
                                           "1.5), hv_sum_all(?1), length(hv_slice(?1, 0, 1))");
        sqlite3_bind_blob(statement, 1, blob, (int)size + more, SQLITE_TRANSIENT);
        const bool is_refused = sqlite3_step(statement) != SQLITE_ROW;
        refused += is_refused;
        if (is_refused) CHECK(strstr(sqlite3_errmsg(db), "hv_") != NULL);
        sqlite3_finalize(statement);
    }
    return refused;
}

int main(int count, char **words) {
    const size_t tables = 300, broken = 3000;
    row rows[MOST_ROWS], others[MOST_ROWS];
    open_database(count > 1 ? words[1] : NULL);
    check_rows();
    check_refusals();
    check_typed();
    check_bytes();
    check_few_sums();
    ask("CREATE TABLE r(v)");
    for (size_t table = 0; table < tables; table++) {
        const bool wild = table % 3 > 0;
        const size_t size = make_rows(rows, wild), of_others = make_rows(others, wild);
        check_questions(rows, size);
        check_filters(rows, size);
        check_two(rows, others, size < of_others ? size : of_others);
        check_making(rows, size);
        if (!wild) check_sums(rows, size);
        check_wild_sums(rows, size);
    }
    const size_t refused = check_broken(broken);
    CHECK(refused > broken / 4 && refused < broken);
    CHECK(sqlite3_close(db) == SQLITE_OK);
    printf("%zu random columns of real numbers as rows and as runs, %zu broken blobs of which %zu were refused\n", tables,
           broken, refused);
    return 0;
}
