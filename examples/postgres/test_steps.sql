-- What is appended to columns, sums of many, booleans, dates and times, steps and buckets, next to PostgreSQL's own
-- answers over rows. Runs after test.sql, in its database.
\set VERBOSITY terse
SELECT setseed(0.5) \g /dev/null

-- ---- Rows at the end: p is of 4 4 4 null null 9 -1 -1, q of texts ----
CREATE TABLE one AS SELECT hv_column(n) AS none, '\x0801100118032080808080808080801028013A0107'::hvcolumn AS sevens
    FROM t WHERE false;
ALTER TABLE one ADD nulls hvcolumn;
UPDATE one SET nulls = (SELECT hv_column(NULL::bigint) FROM generate_series(1, 3));
SELECT same('SELECT r.* FROM p, hv_runs(hv_append(c, -1, 3)) r',
            'VALUES (0, 3, 4), (3, 5, NULL), (5, 6, 9), (6, 11, -1)'),
    same('SELECT r.* FROM p, hv_runs(hv_append(hv_append(hv_slice(c, 4, 6), NULL, 2), 7, 1)) r',
         'VALUES (0, 1, NULL), (1, 2, 9), (2, 4, NULL), (4, 5, 7)'),
    same($$SELECT r.* FROM q, hv_text_runs(hv_append(hv_slice(c, 0, 2), 'Bergen', 2)) r$$,
         $$VALUES (0, 2, 'Oslo'), (2, 4, 'Bergen')$$),
    same('SELECT hv_append(c, 5, 0) = c, hv_append(c, NULL, 0) = c, hv_append(NULL, 5, 1), hv_append(NULL, ''a'',
         1) FROM p',
         'SELECT true, true, NULL, NULL'),
    same('SELECT r.* FROM one, hv_text_runs(hv_append(hv_append(none, NULL, 2), ''a'', 3)) r',
         $$VALUES (0, 2, NULL), (2, 5, 'a')$$),
    same('SELECT r.* FROM one, hv_text_runs(hv_append(nulls, ''a'', 3)) r', $$VALUES (0, 3, NULL), (3, 6, 'a')$$),
    same('SELECT hv_rows(hv_append(sevens, 7, 9223372036854775807 - 1152921504606846976)),
             length(hv_append(sevens, 8, 1000000)::bytea) < 100 FROM one', 'SELECT 9223372036854775807, true'),
    refused('SELECT hv_append(sevens, 7, 9223372036854775807 - 1152921504606846975) FROM one',
            'hv_append: a column of 2^63 rows or more'),
    refused('SELECT hv_append(c, 5, -3) FROM p', 'hv_append: a count of rows is not negative, and this is -3'),
    refused('SELECT hv_append(c, 5, NULL) FROM p', 'hv_append: a count of rows is not null'),
    refused('SELECT hv_append(c, ''a'', 1) FROM p', 'hv_append: a column of numbers takes no text'),
    refused('SELECT hv_append(c, ''a'', 0) FROM p', 'hv_append: a column of numbers takes no text'),
    refused('SELECT hv_append(c, 5, 1) FROM q', 'hv_append: a column of texts takes no bigint')
\g /dev/null

-- ---- Values and how often each comes ----
SELECT same('SELECT (SELECT hv_repeat(value, stop - start ORDER BY start) FROM hv_runs(c)) = c FROM p', 'SELECT true'),
    same('SELECT (SELECT hv_repeat(value, stop - start ORDER BY start) FROM hv_text_runs(c)) = c FROM q',
         'SELECT true'),
    same('SELECT hv_rows(hv_repeat(7, 4611686018427387904)), hv_rows(hv_repeat(''a'', 0)), hv_sum(hv_repeat(v,
         2)) FROM t
          WHERE n = 1', 'SELECT 4611686018427387904, 0, 8'),
    same('SELECT hv_rows(hv_repeat(v, n)) FROM t WHERE false', 'SELECT 0'),
    refused('SELECT hv_repeat(v, -n) FROM t', 'hv_repeat: a count of rows is not negative, and this is -1'),
    refused('SELECT hv_repeat(v, NULL) FROM t', 'hv_repeat: a count of rows is not null'),
    refused('SELECT hv_repeat(v, 4611686018427387904) FROM t', 'hv_repeat: a column of 2^63 rows or more')
\g /dev/null

-- ---- The sum of all columns: past 64 bits on the way, in any order, and in parts of workers ----
CREATE TABLE parts AS SELECT n % 1000 AS part, hv_column(v) AS c FROM big GROUP BY 1;
CREATE TABLE wide AS SELECT i, hv_repeat(CASE WHEN i % 2 = 0 THEN 1 ELSE -1 END * 9223372036854775807,
    4611686018427387904 + i)
    AS c FROM generate_series(1, 2000) i GROUP BY i;
ANALYZE parts, wide;
SELECT same('SELECT hv_sum_all(c) FROM p', 'SELECT 19'),
    same('SELECT hv_sum_all(c) FROM (SELECT c FROM p UNION ALL SELECT NULL UNION ALL SELECT none FROM one UNION ALL
          SELECT nulls FROM one) x', 'SELECT 19'),
    same('SELECT hv_sum_all(none), hv_sum_all(nulls), hv_sum_all(NULL) FROM one', 'SELECT NULL, NULL, NULL'),
    same('SELECT hv_sum_all(c) FROM p WHERE false', 'SELECT NULL::numeric'),
    same('SELECT hv_sum_all(hv_slice(c, 6, 8)), hv_sum_all(sevens) FROM p, one', 'SELECT -2, 8070450532247928832'),
    same('SELECT hv_sum_all(c) FROM wide',
         'SELECT sum((CASE WHEN i % 2 = 0 THEN 1 ELSE -1 END) * 9223372036854775807::numeric *
          (4611686018427387904 + i)) FROM generate_series(1, 2000) i'),
    same('SELECT i, hv_sum_all(c) FROM wide WHERE i < 3 GROUP BY i ORDER BY i',
         'VALUES (1, -9223372036854775807::numeric * 4611686018427387905), (2,
         9223372036854775807::numeric * 4611686018427387906)'),
    same('SELECT part, hv_sum_all(c) FROM parts GROUP BY part ORDER BY part',
         'SELECT n % 1000, sum(v) FROM big GROUP BY 1 ORDER BY 1'),
    refused('SELECT hv_sum_all(c) FROM q', 'hv_sum_all: only numbers are added, and this is a column of texts')
\g /dev/null
SET parallel_setup_cost = 0;
SET parallel_tuple_cost = 0;
SET min_parallel_table_scan_size = 0;
SET max_parallel_workers_per_gather = 4;
DO $$
DECLARE plan text := plan_of('SELECT hv_sum_all(c) FROM wide');
BEGIN
    IF plan !~ 'Finalize Aggregate.*Gather.*Workers Launched: [1-9].*Partial Aggregate' THEN
        RAISE EXCEPTION 'no parallel plan: %', plan;
    END IF;
    FOR i IN 1 .. 5 LOOP
        PERFORM same('SELECT hv_sum_all(c) FROM wide', 'SELECT 1000 * 9223372036854775807::numeric'),
            same('SELECT hv_sum_all(c) FROM parts', 'SELECT sum(v) FROM big'),
            same('SELECT hv_rows(c), hv_sum(c) FROM (SELECT hv_repeat(v, n % 5) AS c FROM big) x',
             'SELECT sum(n % 5), sum(v * (n % 5)) FROM big');
    END LOOP;
END $$;
RESET ALL;

-- ---- Booleans, dates and times ----
SET timezone = 'Asia/Kathmandu';
CREATE TABLE times AS SELECT i AS n, CASE WHEN i % 5 <> 0 THEN i % 3 = 0 END AS b,
    CASE WHEN i % 7 <> 0 THEN date '2026-03-01' - i * i / 40 END AS d,
    CASE WHEN i % 7 <> 0 THEN timestamp '2026-03-01 12:34:56.789012' - i * i * interval '17 min 3.000001 s' END AS s,
    CASE WHEN i % 9 <> 0 THEN timestamptz '2026-03-01 12:34:56.789012+00' - i * interval '31 days 3.5 s' END AS z
    FROM generate_series(1, 3000) i;
SELECT same('SELECT r.value FROM (SELECT hv_column(b ORDER BY n) AS c FROM times) x, hv_runs(hv_slice(c, 0, 6)) r',
            'VALUES (0), (1), (0), (NULL), (1)'),
    same('SELECT hv_sum(hv_column(b)), hv_rows(hv_filter(hv_column(b), ''='', 0)) FROM times',
         'SELECT count(*) FILTER (WHERE b), count(*) FILTER (WHERE NOT b) FROM times'),
    same('SELECT hv_column(d ORDER BY n)::text, hv_column(s ORDER BY n)::text, hv_column(z ORDER BY n)::text
         FROM times',
         'SELECT hv_column(d - date ''1970-01-01'' ORDER BY n)::text,
             hv_column((extract(epoch FROM s) * 1000000)::bigint ORDER BY n)::text,
             hv_column((extract(epoch FROM z) * 1000000)::bigint ORDER BY n)::text FROM times'),
    same('SELECT hv_date(value) FROM (SELECT hv_column(d ORDER BY n) AS c
         FROM times) x, hv_runs(c), generate_series(start, stop - 1)',
         'SELECT d FROM times ORDER BY n'),
    same('SELECT hv_timestamp(value) FROM (SELECT hv_column(s ORDER BY n) AS c
         FROM times) x, hv_runs(c), generate_series(start, stop - 1)',
         'SELECT s FROM times ORDER BY n'),
    same('SELECT hv_timestamptz(value) FROM (SELECT hv_column(z ORDER BY n) AS c
         FROM times) x, hv_runs(c), generate_series(start, stop - 1)',
         'SELECT z FROM times ORDER BY n'),
    same('SELECT hv_date(hv_min(c)), hv_date(hv_max(c)) FROM (SELECT hv_column(d) AS c FROM times) x',
         'SELECT min(d), max(d) FROM times'),
    same($$SELECT hv_rows(hv_filter(hv_column(z), '>=', hv_number(timestamptz '2000-01-01'))) FROM times$$,
         $$SELECT count(*) FROM times WHERE z >= '2000-01-01'$$),
    same('SELECT hv_sum(hv_column(n::smallint)), hv_sum(hv_column(n::int)) FROM times',
         'SELECT sum(n), sum(n) FROM times'),
    same($$SELECT hv_number(true), hv_number(false), hv_number(date '1970-01-02'),
         hv_number(timestamp '1970-01-01 00:00:01'),
                  hv_number(timestamptz '1970-01-01 00:00:01+00'), hv_number(interval '1 day 01:00:00.5'),
                      hv_number(NULL::date)$$,
         'SELECT 1, 0, 1, 1000000, 1000000, 90000500000, NULL'),
    -- the first and the last of each type come back
    same($$SELECT hv_date(hv_number(x)) FROM (VALUES (date '4714-11-24 BC'), ('5874897-12-31')) v(x)$$,
         $$VALUES (date '4714-11-24 BC'), ('5874897-12-31')$$),
    same($$SELECT hv_timestamp(hv_number(x))
         FROM (VALUES (timestamp '4714-11-24 00:00:00 BC'), ('294247-01-10 04:00:54.775807')) v(x)$$,
         $$VALUES (timestamp '4714-11-24 00:00:00 BC'), ('294247-01-10 04:00:54.775807')$$),
    -- aggregates over windows, and of no rows
    same('SELECT hv_rows(hv_column(d) OVER (ORDER BY n)) FROM times WHERE n < 4', 'VALUES (1), (2), (3)'),
    same('SELECT hv_rows(hv_column(b)), hv_rows(hv_column(z)) FROM times WHERE false', 'SELECT 0, 0')
\g /dev/null
SELECT refused(format('SELECT hv_column(%s)', value), 'hv_column: ' || sentence),
    refused(format('SELECT hv_number(%s)', value), 'hv_number: ' || sentence)
FROM (VALUES ('date ''infinity''', 'infinity is not a day that a column has'),
         ('date ''-infinity''', 'infinity is not a day that a column has'),
         ('timestamp ''infinity''', 'infinity is not a time that a column has'),
         ('timestamptz ''-infinity''', 'infinity is not a time that a column has'),
         ('timestamp ''294247-01-10 04:00:54.775808''',
              'a time after 294247-01-10 04:00:54.775807 is past the numbers of a column')) tried(value, sentence)
\g /dev/null
SELECT refused('SELECT hv_date(5000000000)', 'hv_date: date out of range'),
    refused('SELECT hv_date(-9223372036854775808)', 'hv_date: date out of range'),
    refused('SELECT hv_date(2145042906)', 'hv_date: date out of range'),
    refused('SELECT hv_timestamp(-9223372036854775808)', 'hv_timestamp: timestamp out of range'),
    refused('SELECT hv_timestamptz(-210866803200000001)', 'hv_timestamptz: timestamp out of range'),
    refused('SELECT hv_number(interval ''1 month'')', 'hv_number: a month has no number of microseconds'),
    refused('SELECT hv_number(interval ''2000000000 days'')', 'hv_number: the interval is past the numbers of a column')
\g /dev/null
-- booleans that another program wrote: true; true in each of 2^60 rows; true null true false by bits
SELECT same($$SELECT hv_sum('\x080110091801200128013A0101'), hv_sum('\x0801100918032080808080808080801028013A0101')$$,
            'SELECT 1, 1152921504606846976'),
    same($$SELECT r.* FROM hv_runs('\x0801100918012004280432010D3A0105') r$$,
         'VALUES (0, 1, 1), (1, 2, NULL), (2, 3, 1), (3, 4, 0)'),
    same($$SELECT '\x080110091801200128013A0101'::hvcolumn = hv_column(true)$$, 'SELECT true')
\g /dev/null

-- ---- Steps and buckets, by hand ----
SELECT same('SELECT r.* FROM p, hv_runs(hv_steps(c)) r',
            'VALUES (0, 1, 4), (1, 3, 0), (3, 5, NULL), (5, 6, 5), (6, 7, -10), (7, 8, 0)'),
    same('SELECT r.* FROM p, hv_runs(hv_totals(c)) r',
         'VALUES (0, 1, 4), (1, 2, 8), (2, 3, 12), (3, 5, NULL), (5, 6, 21), (6, 7, 20), (7, 8, 19)'),
    same('SELECT hv_totals(hv_steps(c)) = c, hv_steps(none) = none, hv_totals(nulls) = nulls, hv_steps(NULL),
         hv_totals(NULL) FROM p, one',
         'SELECT true, true, true, NULL, NULL'),
    same('SELECT r.* FROM p, hv_runs(hv_buckets(c, 5)) r', 'VALUES (0, 3, 0), (3, 5, NULL), (5, 6, 5), (6, 8, -5)'),
    same('SELECT r.* FROM p, hv_runs(hv_buckets(c, 5, -1)) r', 'VALUES (0, 3, 4), (3, 5, NULL), (5, 6, 9), (6, 8, -1)'),
    same('SELECT r.* FROM hv_runs(hv_step_buckets((SELECT hv_repeat(-3, 7)), 10, 2)) r',
         'VALUES (0, 2, -8), (2, 6, -18), (6, 7, -28)'),
    -- the rows of 1 .. 2^60, in buckets of 2^59
    same('SELECT r.* FROM hv_runs(hv_step_buckets((SELECT hv_repeat(1, 1152921504606846976)), 576460752303423488)) r',
         'VALUES (0, 576460752303423487, 0), (576460752303423487, 1152921504606846975, 576460752303423488),
             (1152921504606846975, 1152921504606846976, 1152921504606846976)'),
    refused('SELECT hv_totals(sevens) FROM one', 'hv_totals: an answer of more than 67108864 runs'),
    refused('SELECT hv_totals(hv_repeat(2305843009213693952, 5))', 'hv_totals: bigint out of range'),
    refused('SELECT hv_steps(hv_column(v ORDER BY v)) FROM (VALUES (-9223372036854775808), (1)) x(v)',
         'hv_steps: bigint out of range'),
    refused('SELECT hv_buckets(hv_column(-9223372036854775808), 10)', 'hv_buckets: bigint out of range'),
    refused('SELECT hv_step_buckets(hv_repeat(4611686018427387904, 3), 10)', 'hv_step_buckets: bigint out of range'),
    refused('SELECT hv_buckets(c, 0) FROM p', 'hv_buckets: a width is above 0, and this is 0'),
    refused('SELECT hv_step_buckets(c, -5, 2) FROM p', 'hv_step_buckets: a width is above 0, and this is -5'),
    refused('SELECT hv_steps(c) FROM q', 'hv_steps: this is not a column of numbers, but of texts'),
    refused('SELECT hv_totals(c) FROM q', 'hv_totals: this is not a column of numbers, but of texts'),
    refused('SELECT hv_buckets(c, 5) FROM q', 'hv_buckets: this is not a column of numbers, but of texts')
\g /dev/null

-- ---- Random tables, in stretches of equal numbers and of null ----
CREATE TABLE s(n serial, v bigint);
CREATE PROCEDURE check_steps() LANGUAGE plpgsql AS $$
DECLARE size bigint := (ARRAY[7, 1000000000000])[1 + floor(2 * random())::int];
    width bigint := 1 + floor(size * random()); origin bigint := floor(3 * width * random()) - width;
    count int := floor(6 * random()); value bigint;
BEGIN
    TRUNCATE s RESTART IDENTITY;
    INSERT INTO s(v) SELECT x FROM (
        SELECT CASE WHEN random() < 0.8 THEN floor(size * random())::bigint - size / 2 END AS x, g
        FROM generate_series(1, (40 * random())::int) g) stretch, generate_series(1, 1 + (g * 7919) % 5);
    SELECT v FROM s WHERE n = 20 INTO value;
    CREATE TEMPORARY TABLE sums ON COMMIT DROP AS SELECT n, v - coalesce((SELECT o.v
        FROM s o WHERE o.n < s.n AND o.v IS NOT NULL
        ORDER BY o.n DESC LIMIT 1), 0) AS step,
            CASE WHEN v IS NOT NULL THEN (sum(v) OVER (ORDER BY n))::bigint END AS total FROM s;
    PERFORM same('SELECT hv_steps(hv_column(v ORDER BY n))::text FROM s',
         'SELECT hv_column(step ORDER BY n)::text FROM sums'),
        same('SELECT hv_totals(hv_column(v ORDER BY n))::text FROM s',
             'SELECT hv_column(total ORDER BY n)::text FROM sums'),
        same('SELECT hv_totals(hv_steps(hv_column(v ORDER BY n)))::text FROM s',
             'SELECT hv_column(v ORDER BY n)::text FROM s'),
        same(format('SELECT hv_buckets(hv_column(v ORDER BY n), %s, %s)::text FROM s', width, origin),
         format('SELECT hv_column((floor((v - %2$s)::numeric / %1$s) * %1$s + %2$s)::bigint ORDER BY n)::text
                 FROM s', width, origin)),
        same(format('SELECT hv_step_buckets(hv_column(v ORDER BY n), %s, %s)::text FROM s', width, origin),
         format('SELECT hv_column((floor((total - %2$s)::numeric / %1$s) * %1$s + %2$s)::bigint ORDER BY n)::text
                 FROM sums', width, origin)),
        same(format('SELECT hv_append(hv_column(v ORDER BY n), %L::bigint, %s)::text FROM s', value, count),
         format('SELECT hv_column(v ORDER BY n)::text FROM (SELECT n, v FROM s UNION ALL
                     SELECT 1000000, %L::bigint FROM generate_series(1, %s)) x', value, count));
    DROP TABLE sums;
END $$;
DO $$ BEGIN FOR i IN 1 .. 150 LOOP CALL check_steps(); END LOOP; END $$;

-- ---- The sum of each day, in one statement: a reading each minute of a week but for some ----
CREATE TABLE week AS SELECT timestamptz '2026-03-26 22:00:00+00' + i * interval '1 minute' AS at,
    CASE WHEN i % 97 <> 0 THEN (i / 30 * 7919 % 50)::bigint END AS level
        FROM generate_series(0, 10079) i WHERE i % 1000 <> 0;
CREATE TABLE week_packed AS SELECT hv_steps(hv_column(at ORDER BY at)) AS steps, hv_column(at ORDER BY at) AS at,
    hv_column(level ORDER BY at) AS level FROM week;
SET timezone = 'UTC';
SELECT same($$SELECT hv_timestamptz(key)::date, rows, count, sum, min, max FROM week_packed,
                     hv_groups(hv_step_buckets(steps, hv_number(interval '1 day')), level)$$,
            'SELECT at::date, count(*), count(level), sum(level), min(level), max(level)
                FROM week GROUP BY 1 ORDER BY 1'),
    same($$SELECT hv_timestamptz(key), sum
         FROM week_packed, hv_groups(hv_buckets(at, hv_number(interval '1 hour')), level)$$,
         'SELECT date_trunc(''hour'', at), sum(level) FROM week GROUP BY 1 ORDER BY 1'),
    -- days of a place, where one has 23 hours
    same($$SELECT (hv_timestamptz(key) AT TIME ZONE 'Europe/Berlin')::date AS day, sum(sum) FROM week_packed,
                  hv_groups(hv_step_buckets(steps, hv_number(interval '1 hour')), level) GROUP BY day ORDER BY day$$,
         $$SELECT (at AT TIME ZONE 'Europe/Berlin')::date AS day, sum(level) FROM week GROUP BY day ORDER BY day$$),
    same('SELECT hv_totals(steps) = at, (SELECT count(*) FROM hv_runs(steps)) FROM week_packed', 'SELECT true, 22')
\g /dev/null
RESET timezone;
SELECT 'PostgreSQL: booleans, dates and times, steps and buckets as over rows';
