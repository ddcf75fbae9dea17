-- The same questions over rows and over runs. A difference ends the script with its query.
\set VERBOSITY terse
\if :{?count} \else \set count 60000 \endif
SELECT setseed(0.25) \g /dev/null

-- ---- By hand ----
CREATE TABLE t(n serial, v bigint);
INSERT INTO t(v) VALUES (4), (4), (4), (NULL), (NULL), (9), (-1), (-1);
CREATE TABLE p AS SELECT hv_column(v ORDER BY n) AS c FROM t;
CREATE TABLE w(n serial, v text);
INSERT INTO w(v) VALUES ('Oslo'), ('Oslo'), (NULL), (''), ('Zürich, ' || repeat('a longer text ', 40)), ('a');
CREATE TABLE q AS SELECT hv_column(v ORDER BY n) AS c FROM w;
SELECT same('SELECT hv_rows(c), hv_count(c), hv_sum(c), hv_min(c), hv_max(c) FROM p', 'SELECT 8, 6, 19, -1, 9'),
    same('SELECT hv_at(c, 0), hv_at(c, 4), hv_at(c, 5), hv_at(c, 8), hv_at(c, -1) FROM p',
         'SELECT 4, NULL, 9, NULL, NULL'),
    same('SELECT r.* FROM p, hv_runs(c) r', 'VALUES (0, 3, 4), (3, 5, NULL), (5, 6, 9), (6, 8, -1)'),
    same('SELECT r.* FROM p, hv_runs(hv_filter(c, ''>'', 0)) r', 'VALUES (0, 3, 4), (3, 4, 9)'),
    same('SELECT r.* FROM p, hv_runs(hv_slice(c, 2, 6)) r', 'VALUES (0, 1, 4), (1, 3, NULL), (3, 4, 9)'),
    same('SELECT hv_rows(hv_filter(c, ''='', NULL::bigint)), hv_filter(NULL::hvcolumn, ''='', 1), hv_sum(NULL)
          FROM p',
         'SELECT 0, NULL, NULL'),
    same('SELECT hv_rows(hv_column(v)), hv_sum(hv_column(v)) FROM t WHERE false', 'SELECT 0, NULL'),
    same('SELECT hv_rows(hv_concat(c)), hv_sum(hv_concat(c)) FROM (SELECT c FROM p UNION ALL SELECT NULL UNION ALL
          SELECT hv_slice(c, 6, 7) FROM p) x', 'SELECT 9, 18'),
    same('SELECT c::text::hvcolumn::bytea = c::bytea, c::bytea::hvcolumn::text = c::text FROM p', 'SELECT true, true'),
    same('SELECT hv_sum(hv_column(v) OVER (ORDER BY n)) FROM t', 'SELECT sum(v) OVER (ORDER BY n) FROM t'),
    same('SELECT hv_rows(c), hv_count(c), hv_min_text(c), hv_max_text(c), hv_at_text(c, 1), hv_at_text(c, 2) FROM q',
         'SELECT 6, 5, '''', ''a'', ''Oslo'', NULL'),
    same('SELECT hv_at_text(c, 4) FROM q', 'SELECT v FROM w WHERE n = 5'),
    same('SELECT r.* FROM q, hv_text_runs(hv_filter(c, ''<'', ''P'')) r', 'VALUES (0, 2, ''Oslo''), (2, 3, '''')'),
    same('SELECT hv_first(c), hv_last(c), hv_first(hv_slice(c, 3, 6)), hv_last(hv_slice(c, 0, 5)) FROM p',
         'SELECT 4, -1, 9, 4'),
    same('SELECT hv_first(hv_slice(c, 3, 5)), hv_last(hv_slice(c, 3, 5)), hv_first(hv_slice(c, 2, 2)) FROM p',
         'SELECT NULL::bigint, NULL::bigint, NULL::bigint'),
    same($$SELECT hv_first_text(c), hv_last_text(c), hv_last_text(hv_slice(c, 0, 5)), hv_first_text(hv_slice(c, 2, 4))
           FROM q$$, $$SELECT 'Oslo', 'a', v, '' FROM w WHERE n = 5$$),
-- a run of 2^62 rows, in 46 bytes
    same($$SELECT hv_rows(c), hv_at(c, 4611686018427387903), hv_rows(hv_filter(c, '=', 1)) FROM
          (SELECT ('\x08011008180220' || '808080808080808040' || '400048045209' || '808080808080808040' ||
                   '5A14080110081801200128013A080100000000000000')::hvcolumn AS c) x$$,
         'SELECT 4611686018427387904, 1, 4611686018427387904'),
    -- 7 as u8 in each of 2^60 rows, a constant, and two of these: 14 * 2^60 is past a bigint
    same($$SELECT hv_rows(c), hv_sum(c) FROM (SELECT '\x0801100118032080808080808080801028013A0107'::hvcolumn AS c) x$$,
         'SELECT 1152921504606846976, 8070450532247928832'),
    same($$SELECT r.* FROM (SELECT hv_concat('\x0801100118032080808080808080801028013A0107'::hvcolumn) AS c
           FROM generate_series(1, 2)) x, hv_runs(c) r$$, 'SELECT 0, 2305843009213693952, 7')
\g /dev/null

-- ---- Equality: by rows, whoever wrote the bytes ----
-- 7 in each of three rows, as a constant of type u8 and as these functions write it
CREATE TABLE e AS SELECT '\x080110011803200328013A0107'::hvcolumn AS constant, hv_column(7) AS runs
    FROM generate_series(1, 3);
SELECT same('SELECT runs = constant, runs <> constant, runs = hv_slice(runs, 0, 2), runs <> hv_slice(runs, 0, 2),
                    runs = NULL FROM e', 'SELECT true, false, false, true, NULL::boolean'),
    same('SELECT runs::bytea = constant::bytea, hv_hash(runs) = hv_hash(constant),
                 hv_hash_extended(runs, 5) = hv_hash_extended(constant, 5) FROM e', 'SELECT false, true, true'),
    same('SELECT count(DISTINCT hv_hash(hv_slice(c, 0, n))) FROM p, generate_series(0, 8) n', 'SELECT 9'),
    same('SELECT count(*) FROM (SELECT c FROM p UNION SELECT hv_slice(c, 0, 8) FROM p UNION SELECT c FROM q UNION
          SELECT hv_slice(c, 0, 7) FROM p UNION SELECT runs FROM e UNION SELECT constant FROM e) x', 'SELECT 4'),
    same('SELECT count(*) FROM e JOIN e f ON e.runs = f.constant', 'SELECT 1')
\g /dev/null

-- ANALYZE looks at widths and nulls, and compares no columns
CREATE TABLE looked AS SELECT CASE WHEN n % 4 > 0 THEN hv_repeat(n, 1000) END AS c FROM generate_series(1, 400) n GROUP BY n;
ANALYZE looked;
SELECT same($$SELECT null_frac, avg_width, n_distinct, most_common_vals IS NULL FROM pg_stats WHERE tablename = 'looked'$$,
            'SELECT 0.25::real, avg(pg_column_size(c))::int, 0::real, true FROM looked') \g /dev/null

-- ---- Two columns, row by row: by hand, and next to PostgreSQL's own answers over rows ----
CREATE TABLE xy(n serial, a bigint, b bigint, s text, t text);
INSERT INTO xy(a, b, s, t) VALUES (4, 1, 'a', 'b'), (4, 1, 'a', 'a'), (NULL, 1, NULL, 'a'), (7, NULL, 'b', NULL),
    (0, -9, 'b', 'a'), (0, 0, '', 'a');
CREATE TABLE z AS SELECT hv_column(a ORDER BY n) AS a, hv_column(b ORDER BY n) AS b, hv_column(s ORDER BY n) AS s,
    hv_column(t ORDER BY n) AS t, hv_column(NULL::text ORDER BY n) AS nothing FROM xy;
SELECT same('SELECT r.* FROM z, hv_runs(hv_add(a, b)) r', 'VALUES (0, 2, 5), (2, 4, NULL), (4, 5, -9), (5, 6, 0)'),
    same('SELECT r.* FROM z, hv_runs(hv_subtract(a, 10)) r', 'VALUES (0, 2, -6), (2, 3, NULL), (3, 4, -3), (4, 6, -10)'),
    same('SELECT r.* FROM z, hv_runs(hv_multiply(a, a)) r', 'VALUES (0, 2, 16), (2, 3, NULL), (3, 4, 49), (4, 6, 0)'),
    same('SELECT r.* FROM z, hv_runs(hv_and(a, b)) r', 'VALUES (0, 2, 1), (2, 4, NULL), (4, 6, 0)'),
    same('SELECT r.* FROM z, hv_runs(hv_or(a, b)) r', 'VALUES (0, 5, 1), (5, 6, 0)'),
    same('SELECT r.* FROM z, hv_runs(hv_not(a)) r', 'VALUES (0, 2, 0), (2, 3, NULL), (3, 4, 0), (4, 6, 1)'),
    same($$SELECT r.* FROM z, hv_runs(hv_compare(s, '<=', t)) r$$,
         'VALUES (0, 2, 1), (2, 4, NULL), (4, 5, 0), (5, 6, 1)'),
    same($$SELECT r.* FROM z, hv_runs(hv_compare(s, '=', 'b'::text)) r$$,
         'VALUES (0, 2, 0), (2, 3, NULL), (3, 5, 1), (5, 6, 0)'),
    same($$SELECT r.* FROM z, hv_text_runs(hv_filter(s, hv_compare(a, '>', b))) r$$, $$VALUES (0, 2, 'a'), (2, 3, 'b')$$),
    same($$SELECT hv_rows(hv_filter(s, nothing)), hv_count(hv_add(a, nothing)), hv_count(hv_compare(s, '<', nothing)),
           hv_add(NULL, a), hv_compare(a, '=', NULL::bigint) FROM z$$, 'SELECT 0, 0, 0, NULL, NULL')
\g /dev/null
SELECT refused('SELECT hv_add(a, hv_slice(b, 0, 2)) FROM z', 'hv_add: a length of 6 next to one of 2'),
    refused('SELECT hv_add(a, s) FROM z', 'hv_add: only numbers are added, and this is a column of texts'),
    refused('SELECT hv_or(s, a) FROM z', 'hv_or: only numbers are connected, and this is a column of texts'),
    refused('SELECT hv_not(s) FROM z', 'hv_not: only numbers are negated, and this is a column of texts'),
    refused('SELECT hv_filter(a, s) FROM z', 'hv_filter: only numbers are a mask, and this is a column of texts'),
    refused('SELECT hv_filter(a, hv_slice(a, 0, 2)) FROM z', 'hv_filter: a mask of 2 rows over a column of 6 rows'),
    refused($$SELECT hv_compare(a, '<', s) FROM z$$,
            'hv_compare: a column of numbers is not compared with one of texts'),
    refused($$SELECT hv_compare(a, '<', 'a'::text) FROM z$$,
            'hv_compare: a column of numbers is not compared with one of texts'),
    refused('SELECT hv_multiply(a, 4611686018427387904) FROM z', 'hv_multiply: bigint out of range')
\g /dev/null
-- an overflow names its row
DO $$
DECLARE detail text;
BEGIN
    PERFORM hv_add(b, 9223372036854775807) FROM z;
    RAISE EXCEPTION 'the sum is not refused';
EXCEPTION WHEN numeric_value_out_of_range THEN
    GET STACKED DIAGNOSTICS detail = PG_EXCEPTION_DETAIL;
    IF detail <> 'Row 0 leaves the range.' THEN RAISE EXCEPTION '%', detail; END IF;
END $$;

-- ---- Groups ----
SELECT same('SELECT g.* FROM z, hv_text_groups(s, a) g',
            $$VALUES ('a', 2, 2, 8, 4, 4, 4, 4), (NULL, 1, 0, NULL, NULL, NULL, NULL, NULL),
                     ('b', 2, 2, 7, 0, 7, 7, 0), ('', 1, 1, 0, 0, 0, 0, 0)$$),
    same('SELECT key, sum FROM z, hv_groups(b, a)', 'VALUES (1, 8), (NULL, 7), (-9, 0), (0, 0)'),
    same('SELECT count(*) FROM z, hv_groups(a, NULL)', 'SELECT 0'),
    same('SELECT s.*, c.count, l.min, g.max FROM z, hv_sum_by(b, a) WITH ORDINALITY s(key, sum, n),
          hv_count_by(b, a) WITH ORDINALITY c(key, count, n), hv_min_by(b, a) WITH ORDINALITY l(key, min, n),
          hv_max_by(b, a) WITH ORDINALITY g(key, max, n) WHERE s.n = c.n AND s.n = l.n AND s.n = g.n',
         'VALUES (1, 8, 1, 2, 4, 4), (NULL, 7, 2, 1, 7, 7), (-9, 0, 3, 1, 0, 0), (0, 0, 4, 1, 0, 0)'),
    same('SELECT s.key, sum, count, min, max FROM z, hv_text_sum_by(s, a) s, hv_text_count_by(s, a) c,
          hv_text_min_by(s, a) l, hv_text_max_by(s, a) g
          WHERE (s.key, c.key, l.key) IS NOT DISTINCT FROM (c.key, l.key, g.key)',
         $$VALUES ('a', 8, 2, 4, 4), (NULL, NULL, 0, NULL, NULL), ('b', 7, 2, 0, 7), ('', 0, 1, 0, 0)$$),
    same('SELECT key, max FROM (SELECT hv_column(v) AS v, hv_column(1) AS k
          FROM (VALUES (9223372036854775807), (1)) x(v)) y, hv_max_by(k, v)', 'SELECT 1, 9223372036854775807'),
    refused('SELECT sum FROM z, hv_sum_by(a, s)', 'hv_sum_by: only numbers are grouped, and this is a column of texts'),
    refused('SELECT sum FROM z, hv_sum_by(s, a)', 'hv_sum_by: keys are not a column of numbers'),
    refused('SELECT min FROM z, hv_text_min_by(a, a)', 'hv_text_min_by: keys are not a column of texts'),
    refused('SELECT count FROM z, hv_count_by(a, hv_slice(a, 0, 2))', 'hv_count_by: a length of 6 next to one of 2'),
    refused('SELECT sum FROM (SELECT hv_column(v) AS v, hv_column(1) AS k
             FROM (VALUES (9223372036854775807), (1)) x(v)) y, hv_sum_by(k, v)', 'hv_sum_by: bigint out of range'),
    same('SELECT length(key) FROM q, hv_text_groups(c, (SELECT hv_column(n ORDER BY n) FROM w))',
         'VALUES (4), (NULL), (0), (568), (1)'),
    refused('SELECT g.* FROM z, hv_groups(a, s) g', 'hv_groups: only numbers are grouped, and this is a column of texts'),
    refused('SELECT g.* FROM z, hv_groups(s, a) g', 'hv_groups: keys are not a column of numbers'),
    refused('SELECT g.* FROM z, hv_text_groups(a, a) g', 'hv_text_groups: keys are not a column of texts'),
    refused('SELECT g.* FROM z, hv_groups(a, hv_slice(a, 0, 2)) g', 'hv_groups: a length of 6 next to one of 2'),
    refused('SELECT g.* FROM (SELECT hv_column(v) AS v, hv_column(1) AS k FROM (VALUES (9223372036854775807), (1)) x(v)) y,
             hv_groups(k, v) g', 'hv_groups: bigint out of range')
\g /dev/null

-- ---- Refusals ----
SELECT refused($$SELECT '\x00'::hvcolumn$$, 'hvcolumn: the bytes are not a column'),
    refused($$SELECT 'x'::hvcolumn$$, 'hvcolumn: the bytes are not a column'),
    refused($$SELECT '\x0801'::bytea::hvcolumn$$, 'hvcolumn: the bytes are not a column'),
    refused('SELECT hv_slice(c, 2, 12) FROM p', 'hv_slice: rows 2 to 12 are not among 8 rows'),
    refused('SELECT hv_slice(c, -2, 1) FROM p', 'hv_slice: rows are numbered from 0'),
    refused('SELECT hv_slice(c, 3, 2) FROM p', 'hv_slice: rows 3 to 2 are not among 8 rows'),
    refused('SELECT hv_filter(c, ''~'', 2) FROM p', 'invalid input value for enum hv_operator: "~"'),
    refused('SELECT hv_first(c) FROM q', 'hv_first: this is not a column of numbers'),
    refused('SELECT hv_last_text(c) FROM p', 'hv_last_text: this is not a column of texts'),
    refused('SELECT hv_filter(c, NULL, 2) FROM p', 'hv_filter: an operator is one of = <> > >= < <='),
    refused('SELECT hv_filter(c, ''='', ''a''::text) FROM p', 'hv_filter: a column of numbers is not compared with a text'),
    refused('SELECT hv_sum(c) FROM q', 'hv_sum: only numbers are added, and this is a column of texts'),
    refused('SELECT hv_min(c) FROM q', 'hv_min: this is not a column of numbers'),
    refused('SELECT hv_at_text(c, 0) FROM p', 'hv_at_text: this is not a column of texts'),
    refused('SELECT r.* FROM q, hv_runs(c) r', 'hv_runs: this is not a column of numbers'),
    refused('SELECT r.* FROM p, hv_text_runs(c) r', 'hv_text_runs: this is not a column of texts'),
    refused('SELECT hv_concat(c) FROM (SELECT c FROM p UNION ALL SELECT c FROM q) x',
            'hv_concat: a column of texts after columns of numbers'),
    -- eight columns of 2^60 rows are one of 2^63; and two rows of 2^63 as u64
    refused($$SELECT hv_concat('\x0801100118032080808080808080801028013A0107'::hvcolumn) FROM generate_series(1, 8)$$,
            'hv_concat: a column of 2^63 rows or more'),
    refused($$SELECT '\x080110041803200228013A080000000000000080'::hvcolumn$$,
            'hvcolumn: a number of the column is 2^63 or more'),
    refused('SELECT c FROM p ORDER BY c', 'could not identify an ordering operator for type hvcolumn'),
    refused('SELECT hv_sum(hv_column(v)) FROM (VALUES (9223372036854775807), (1)) x(v)', 'hv_sum: bigint out of range')
\g /dev/null
-- an overflow names its row: 2^63 - 1 is 1317624576693539401 times 7
DO $$
DECLARE detail text;
BEGIN
    PERFORM hv_sum(hv_concat('\x0801100118032080808080808080801028013A0107'::hvcolumn)) FROM generate_series(1, 2);
    RAISE EXCEPTION 'the sum is not refused';
EXCEPTION WHEN numeric_value_out_of_range THEN
    GET STACKED DIAGNOSTICS detail = PG_EXCEPTION_DETAIL;
    IF detail <> 'The sum leaves the range with row 1317624576693539401.' THEN RAISE EXCEPTION '%', detail; END IF;
END $$;
-- what has bytes and is no hvcolumn: 1.50, [7], three rows of it in one run, and null of lists
SELECT refused(format('SELECT %L::hvcolumn', bytes), sentence),
    refused(format('SELECT %L::bytea::hvcolumn', bytes), sentence)
FROM (SELECT '0801100D180420012801' || '8A0114' || '080110081801200128013A080700000000000000' ||
             '920114' || '080110041801200128013A080000000000000000' ||
             '9A0114' || '080110041801200128013A080100000000000000') AS one(list),
    LATERAL (VALUES ('0801100A1801200128013A109600000000000000000000000000000070057804'), (list),
                    ('0801100D18022003400048015201035A4F' || list),
                    ('0801100D1803200328033A00A00108A80101')) AS all_of(digits),
    LATERAL (SELECT '\x' || digits, 'hvcolumn: columns of decimals and lists are not served')
        AS asked(bytes, sentence)
\g /dev/null

-- ---- Random tables, in stretches ----
CREATE TABLE r(n serial, v bigint, s text);
CREATE PROCEDURE check_table() LANGUAGE plpgsql AS $$
DECLARE op text; value bigint; rows int; a int; b int;
BEGIN
    TRUNCATE r RESTART IDENTITY;
    INSERT INTO r(v, s) SELECT x, 'text ' || x FROM (
        SELECT CASE WHEN random() < 0.8 THEN floor(5 * random()) - 2 END AS x, g
        FROM generate_series(1, (30 * random())::int) g) stretch, generate_series(1, 1 + (g * 7919) % 4);
    SELECT count(*) FROM r INTO rows;
    a := floor((rows + 1) * random());
    b := a + floor((rows - a + 1) * random());
    PERFORM same('SELECT hv_rows(c), hv_count(c), hv_sum(c), hv_min(c), hv_max(c)
                  FROM (SELECT hv_column(v) AS c FROM r) x',
                 'SELECT count(*), count(v), sum(v), min(v), max(v) FROM r');
    PERFORM same('SELECT hv_first(c), hv_last(c) FROM (SELECT hv_column(v ORDER BY n) AS c FROM r) x',
                 'SELECT (SELECT v FROM r WHERE v IS NOT NULL ORDER BY n LIMIT 1),
                         (SELECT v FROM r WHERE v IS NOT NULL ORDER BY n DESC LIMIT 1)');
    PERFORM same(format('SELECT hv_first_text(c), hv_last_text(c)
                         FROM (SELECT hv_column(s ORDER BY n) FILTER (WHERE n > %s) AS c FROM r) x', a),
                 format('SELECT (SELECT s FROM r WHERE s IS NOT NULL AND n > %s ORDER BY n LIMIT 1),
                                (SELECT s FROM r WHERE s IS NOT NULL AND n > %s ORDER BY n DESC LIMIT 1)', a, a));
    PERFORM same('SELECT hv_min_text(c), hv_max_text(c) FROM (SELECT hv_column(s) AS c FROM r) x',
                 'SELECT min(s COLLATE "C"), max(s COLLATE "C") FROM r');
    PERFORM same(format('SELECT hv_at(hv_column(v ORDER BY n), %1$s), hv_at_text(hv_column(s ORDER BY n), %1$s)
                         FROM r', a),
                 format('SELECT max(v), max(s) FROM r WHERE n = %s + 1', a));
    PERFORM same(format('SELECT hv_slice(hv_column(s ORDER BY n), %s, %s)::text FROM r', a, b),
                 format('SELECT hv_column(s ORDER BY n)::text FROM r WHERE n > %s AND n <= %s', a, b));
    PERFORM same('SELECT hv_concat(c ORDER BY g)::text
                  FROM (SELECT n / 7 AS g, hv_column(v ORDER BY n) AS c FROM r GROUP BY g) x',
                 'SELECT hv_column(v ORDER BY n)::text FROM r');
    PERFORM same('SELECT u.* FROM (SELECT hv_column(v ORDER BY n) AS c FROM r) x, hv_runs(c) u',
        'SELECT min(n) - 1, max(n), v FROM (SELECT n, v, sum(s) OVER (ORDER BY n) AS g FROM (SELECT n, v, (n = 1 OR
         v IS DISTINCT FROM lag(v) OVER (ORDER BY n))::int AS s FROM r) y) z GROUP BY g, v ORDER BY g');
    PERFORM same('SELECT key, rows, count, sum, min, max, first, last FROM
                  (SELECT hv_column(v ORDER BY n) AS k, hv_column(n ORDER BY n) AS c FROM r) x, hv_groups(k, c)',
        'SELECT v, count(*), count(n), sum(n), min(n), max(n), min(n), max(n) FROM (SELECT n, v, sum(s) OVER (ORDER BY n)
         AS g FROM (SELECT n, v, (n = 1 OR v IS DISTINCT FROM lag(v) OVER (ORDER BY n))::int AS s FROM r) y) z
         GROUP BY g, v ORDER BY g');
    PERFORM same('SELECT key, sum FROM (SELECT hv_column(v ORDER BY n) AS k, hv_column(n ORDER BY n) AS c FROM r) x,
                  hv_sum_by(k, c)', 'SELECT key, sum FROM (SELECT hv_column(v ORDER BY n) AS k,
                  hv_column(n ORDER BY n) AS c FROM r) x, hv_groups(k, c)');
    PERFORM same(format('SELECT %s::text FROM (SELECT hv_column(v ORDER BY n) AS v, hv_column(n %% 3 - 1 ORDER BY n) AS n
                         FROM r) x', pair[1]),
                 format('SELECT hv_column(x ORDER BY n)::text FROM (SELECT n, (%s)::int AS x FROM (SELECT n, v,
                         n %% 3 - 1 AS m FROM r) y) z', pair[2]))
    FROM (VALUES (ARRAY['hv_add(v, n)', 'v + m']), (ARRAY['hv_subtract(v, n)', 'v - m']),
          (ARRAY['hv_multiply(v, n)', 'v * m']), (ARRAY['hv_add(v, 5)', 'v + 5']),
          (ARRAY['hv_and(v, n)', 'v <> 0 AND m <> 0']), (ARRAY['hv_or(v, n)', 'v <> 0 OR m <> 0']),
          (ARRAY['hv_not(v)', 'v = 0']), (ARRAY[$q$hv_compare(v, '<', n)$q$, 'v < m']),
          (ARRAY[$q$hv_compare(v, '>=', n)$q$, 'v >= m']), (ARRAY[$q$hv_compare(v, '=', 1)$q$, 'v = 1'])) tried(pair);
    PERFORM same($q$SELECT hv_filter(v, hv_compare(v, '>', n))::text FROM (SELECT hv_column(v ORDER BY n) AS v,
                    hv_column(n % 3 - 1 ORDER BY n) AS n FROM r) x$q$,
                 'SELECT hv_column(v ORDER BY n)::text FROM r WHERE v > n % 3 - 1');
    FOREACH op IN ARRAY ARRAY['=', '<>', '<', '<=', '>', '>='] LOOP
        value := floor(5 * random()) - 2;
        PERFORM same(format('SELECT hv_filter(hv_column(v ORDER BY n), %L, %s)::text FROM r', op, value),
                     format('SELECT hv_column(v ORDER BY n)::text FROM r WHERE v %s %s', op, value));
        PERFORM same(format('SELECT hv_filter(hv_column(s ORDER BY n), %L, %L)::text FROM r', op, 'text ' || value),
                     format('SELECT hv_column(s ORDER BY n)::text FROM r WHERE s COLLATE "C" %s %L', op,
                            'text ' || value));
    END LOOP;
END $$;
DO $$ BEGIN FOR i IN 1 .. 150 LOOP CALL check_table(); END LOOP; END $$;

-- ---- Bytes with one changed: a column that answers, or a refusal ----
DO $$
DECLARE whole bytea; broken bytea; c hvcolumn; taken int := 0;
BEGIN
    FOR i IN 1 .. 5000 LOOP
        IF i % 2 = 0 THEN SELECT p.c::bytea FROM p INTO whole; ELSE SELECT q.c::bytea FROM q INTO whole; END IF;
        broken := set_byte(whole, (i * 31) % length(whole), floor(256 * random())::int);
        BEGIN
            c := broken::hvcolumn;
            PERFORM hv_rows(c), hv_count(c), hv_slice(c, 0, least(hv_rows(c), 3));
            taken := taken + 1;
        EXCEPTION WHEN data_corrupted OR feature_not_supported THEN NULL;
        END;
    END LOOP;
    IF taken < 100 OR taken > 4900 THEN RAISE EXCEPTION '% of 5000 broken columns are taken', taken; END IF;
END $$;

-- ---- Binary copies go through receive and send ----
CREATE TABLE copied(c hvcolumn);
\set file :folder '/columns'
COPY p TO :'file' (FORMAT binary);
COPY copied FROM :'file' (FORMAT binary);
SELECT same('SELECT c::text FROM copied', 'SELECT c::text FROM p') \g /dev/null

-- ---- Parallel plans: parts of workers are joined, and answer as the serial plan ----
CREATE TABLE big AS SELECT i AS n, CASE WHEN i % 97 <> 0 THEN (i / 30)::bigint END AS v, 'state ' || i / 1000 % 3 AS s
    FROM generate_series(0, 199999) i;
CREATE TABLE parted(n int, v bigint, s text) PARTITION BY RANGE (n);
CREATE TABLE parted_low PARTITION OF parted FOR VALUES FROM (0) TO (90000);
CREATE TABLE parted_high PARTITION OF parted FOR VALUES FROM (90000) TO (200000);
INSERT INTO parted SELECT * FROM big;
ANALYZE big, parted;
CREATE FUNCTION plan_of(query text) RETURNS text LANGUAGE plpgsql AS $$
DECLARE line text; all_lines text := '';
BEGIN
    FOR line IN EXECUTE 'EXPLAIN (ANALYZE, COSTS off, TIMING off, SUMMARY off) ' || query LOOP
        all_lines := all_lines || line || E'\n';
    END LOOP;
    RETURN all_lines;
END $$;
SET parallel_setup_cost = 0;
SET parallel_tuple_cost = 0;
SET min_parallel_table_scan_size = 0;
SET max_parallel_workers_per_gather = 4;
DO $$
DECLARE plan text := plan_of('SELECT hv_column(v) FROM big');
BEGIN
    IF plan !~ 'Finalize Aggregate.*Gather.*Workers Launched: [1-9].*Partial Aggregate' THEN
        RAISE EXCEPTION 'no parallel plan: %', plan;
    END IF;
    FOR i IN 1 .. 5 LOOP
        PERFORM same('SELECT hv_rows(c), hv_count(c), hv_sum(c), hv_min(c), hv_max(c)
                      FROM (SELECT hv_column(v) AS c FROM big) x',
                     'SELECT count(*), count(v), sum(v), min(v), max(v) FROM big');
        PERFORM same('SELECT u.value, sum(stop - start)
                      FROM (SELECT hv_column(s) AS c FROM parted) x, hv_text_runs(c) u GROUP BY 1 ORDER BY 1',
                     'SELECT s, count(*) FROM big GROUP BY s ORDER BY s');
        PERFORM same('SELECT md5(hv_column(v ORDER BY n)::text) FROM parted',
                     'SELECT md5(hv_column(v ORDER BY n)::text) FROM big');
    END LOOP;
END $$;
SET enable_partitionwise_aggregate = on;
SELECT same('SELECT hv_sum(c), hv_rows(c) FROM (SELECT hv_column(v) AS c FROM parted) x',
            'SELECT sum(v), count(*) FROM big')
\g /dev/null

-- ---- More rows, and more bytes of texts, than wait for the library's builder at a time ----
SELECT same($$SELECT u.* FROM (SELECT hv_column(n * 7919::bigint % 5003 ORDER BY n) AS c FROM big WHERE n < 5000) x,
              hv_runs(c) u$$,
            $$SELECT n, n + 1, n * 7919::bigint % 5003 FROM big WHERE n < 5000 ORDER BY n$$),
    same($$SELECT u.* FROM (SELECT hv_column('text ' || n ORDER BY n) AS c FROM big WHERE n < 5000) x,
           hv_text_runs(c) u$$,
         $$SELECT n, n + 1, 'text ' || n FROM big WHERE n < 5000 ORDER BY n$$),
    same($$SELECT start, md5(value) FROM (SELECT hv_column(repeat('x', 30000) || (n % 7) ORDER BY n) AS c FROM big
           WHERE n < 20) x, hv_text_runs(c)$$,
         $$SELECT n, md5(repeat('x', 30000) || (n % 7)) FROM big WHERE n < 20 ORDER BY n$$),
    same($$SELECT hv_rows(c), hv_count(c), hv_at_text(c, 2999), hv_at_text(c, 3000) FROM (SELECT
           hv_column(CASE WHEN n >= 3000 THEN 'text ' || n END ORDER BY n) AS c FROM big WHERE n < 5000) x$$,
         $$SELECT 5000, 2000, NULL, 'text 3000'$$),
    same($$SELECT md5(hv_concat(c ORDER BY part)::text) FROM (SELECT n / 700 AS part,
           hv_column('text ' || n ORDER BY n) AS c FROM big WHERE n < 5000 GROUP BY 1) x$$,
         $$SELECT md5(hv_column('text ' || n ORDER BY n)::text) FROM big WHERE n < 5000$$)
\g /dev/null

-- ---- A statement that is cancelled, and memory after calls that fail ----
SET statement_timeout = 100;
SELECT refused('SELECT hv_column(i) FROM generate_series(1, 1000000000::bigint) i',
               'canceling statement due to statement timeout') \g /dev/null
RESET statement_timeout;
-- a new process of the server, whose memory has no room that was freed before
\connect
-- its own pages that are in memory: neither those of files, which the system takes back, nor those that servers share
CREATE FUNCTION own_pages() RETURNS int LANGUAGE sql AS
    $$ SELECT split_part(pg_read_file('/proc/self/statm'), ' ', 2)::int -
              split_part(pg_read_file('/proc/self/statm'), ' ', 3)::int $$;
CREATE PROCEDURE fail_often(times int) LANGUAGE plpgsql AS $$
DECLARE c hvcolumn; d hvcolumn;
BEGIN
    SELECT p.c, q.c FROM p, q INTO c, d;
    FOR i IN 1 .. times LOOP
        BEGIN
            CASE i % 14
            WHEN 0 THEN PERFORM hv_slice(c, 2, 12);
            WHEN 1 THEN PERFORM hv_filter(d, '=', 5);
            WHEN 2 THEN PERFORM hv_concat(x) FROM (VALUES (d), (c)) v(x);
            WHEN 3 THEN PERFORM hv_sum(d);
            WHEN 4 THEN PERFORM hv_column(1 / (3 - g)) FROM generate_series(1, 3) g;
            WHEN 5 THEN PERFORM hv_add(c, d);
            WHEN 6 THEN PERFORM hv_compare(d, '<', hv_slice(d, 0, 2));
            WHEN 7 THEN PERFORM hv_filter(d, hv_slice(c, 0, 2));
            WHEN 8 THEN PERFORM g.* FROM hv_text_groups(d, d) g;
            WHEN 9 THEN PERFORM hv_append(c, 'a', 1);
            WHEN 10 THEN PERFORM hv_buckets(d, 5);
            WHEN 11 THEN PERFORM hv_totals(d);
            WHEN 12 THEN PERFORM hv_sum_all(x) FROM (VALUES (c), (d)) v(x);
            ELSE PERFORM r.* FROM hv_runs(d) r;
            END CASE;
            RAISE EXCEPTION 'call % was not refused', i;
        EXCEPTION WHEN array_subscript_error OR datatype_mismatch OR division_by_zero THEN NULL;
        END;
    END LOOP;
END $$;
CALL fail_often(5000);
SELECT own_pages() AS before \gset
CALL fail_often(:count);
SELECT own_pages() AS after \gset
SELECT CASE WHEN :after - :before > 100 THEN 1 / 0 END \g /dev/null
SELECT format('PostgreSQL %s: random tables as rows and as runs, parallel plans, and %s calls that fail take %s KiB',
    current_setting('server_version'), :count, (:after - :before) * 4);

-- ---- Another server (this one, by its socket) filters the columns that it has ----
CREATE EXTENSION postgres_fdw;
CREATE SERVER other FOREIGN DATA WRAPPER postgres_fdw
    OPTIONS (host :'folder', dbname 'postgres', extensions 'hivevigil');
CREATE USER MAPPING FOR CURRENT_USER SERVER other OPTIONS (user 'tester');
CREATE FOREIGN TABLE far(c hvcolumn) SERVER other OPTIONS (table_name 'p');
SELECT same('SELECT hv_sum(c) FROM far WHERE hv_rows(hv_filter(c, ''>'', 0)) = 4', 'SELECT 19') \g /dev/null
DO $$
DECLARE line text;
BEGIN
    FOR line IN EXPLAIN (VERBOSE, COSTS OFF) SELECT c FROM far WHERE hv_rows(hv_filter(c, '>', 0)) = 4 LOOP
        IF line LIKE '%Remote SQL:%hv_filter%' THEN RETURN; END IF;
    END LOOP;
    RAISE EXCEPTION 'the filter is not sent to the other server';
END $$;
SET client_min_messages = warning;
DROP EXTENSION postgres_fdw CASCADE;
