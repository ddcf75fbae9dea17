-- A year of sensors, as SENSORS.md has it: loaded, packed by day, and asked over rows and over columns. Answers that
-- differ end the script. Sizes and times come as Markdown. Runs after same.sql.
\set VERBOSITY terse
\if :{?sensors} \else \set sensors 20 \endif
\if :{?days} \else \set days 365 \endif
\if :{?stamps} \else \set stamps 1000000 \endif
SET timezone = 'UTC';
SET max_parallel_workers_per_gather = 0;

-- ---- Rows as they come: each minute one of each sensor, of which one in a thousand is lost ----
CREATE TABLE readings(sensor int NOT NULL, at timestamptz NOT NULL, level bigint, state text,
    temperature double precision);
INSERT INTO readings
    SELECT s, timestamptz '2025-01-01' + i * interval '1 minute',
        CASE WHEN (i + s) % 97 <> 0 THEN 200 + hashint4(s * 1000000 + i / 30) % 50 END,
        (ARRAY['running', 'stopped for service', 'off'])[1 + (i + s * 7) / 700 % 3],
        CASE WHEN (i + s) % 997 <> 0 THEN 20 + hashint4(s * 1000003 + i / 10) % 80 / 8.0::double precision END
    FROM generate_series(0, :days * 1440 - 1) i, generate_series(1, :sensors) s WHERE hashint4(i * 100 + s) % 1000 <> 0;
CREATE INDEX readings_btree ON readings(sensor, at);
CREATE INDEX readings_brin ON readings USING brin(at);

-- ---- Packed by day ----
CREATE TABLE packed(sensor int, day date, at hvcolumn, level hvcolumn, state hvcolumn, temperature hvfloat8,
    PRIMARY KEY (sensor, day));
INSERT INTO packed
    SELECT sensor, at::date AS day, hv_steps(hv_column(at ORDER BY at)), hv_column(level ORDER BY at),
        hv_column(state ORDER BY at), hv_column(temperature ORDER BY at)
    FROM readings GROUP BY sensor, day;
VACUUM ANALYZE readings, packed;
-- the rows are in the columns
CREATE VIEW unpacked AS
    SELECT sensor, hv_timestamptz(a.value) AS at, l.value AS level, s.value AS state, t.value AS temperature
    FROM packed, hv_runs(hv_totals(packed.at)) a, LATERAL (SELECT hv_slice(packed.level, a.start, a.stop) AS one,
        hv_slice(packed.state, a.start, a.stop) AS other, hv_slice(packed.temperature, a.start, a.stop) AS third) x,
        hv_runs(one) l, hv_text_runs(other) s, hv_runs(third) t;
DO $$
DECLARE lost int; more int;
BEGIN
    SELECT count(*) FROM (SELECT * FROM readings WHERE sensor = 2 AND at < '2025-01-08' EXCEPT
                          SELECT * FROM unpacked WHERE sensor = 2) x INTO lost;
    SELECT count(*) FROM (SELECT * FROM unpacked WHERE sensor = 2 AND at < '2025-01-08' EXCEPT
                          SELECT * FROM readings WHERE sensor = 2) x INTO more;
    IF lost + more > 0 THEN RAISE EXCEPTION '% rows are lost, and % are there besides', lost, more; END IF;
END $$;

-- ---- Questions ----
-- nanoseconds in which a processor worked for this process of the server, on Linux; by the clock elsewhere
CREATE FUNCTION worked() RETURNS numeric LANGUAGE sql AS $$
    SELECT coalesce(split_part(pg_read_file('/proc/self/schedstat', 0, 99, true), ' ', 1)::numeric,
                    extract(epoch FROM clock_timestamp()) * 1000000000) $$;
-- the answer, and the milliseconds of a turn: of three, or, of a long time of sensors, of as many as take a third of a
-- second
SELECT set_config('sensors.long', (:days > 100)::text, false) \g /dev/null
CREATE FUNCTION timed(query text, OUT answer text, OUT taken numeric) LANGUAGE plpgsql AS $$
DECLARE start numeric; turns int := 0;
BEGIN
    query := format('SELECT string_agg(x::text, '' '') FROM (%s) AS x', query);
    EXECUTE query INTO answer;
    start := worked();
    LOOP
        EXECUTE query INTO answer;
        turns := turns + 1;
        taken := worked() - start;
        EXIT WHEN turns >= 3 AND (taken > 333333333 OR NOT current_setting('sensors.long')::boolean);
    END LOOP;
    taken := taken / turns / 1000000;
END $$;
CREATE FUNCTION compared(title text, plain text, columns text) RETURNS text LANGUAGE plpgsql AS $$
DECLARE slow record; fast record;
BEGIN
    SELECT * FROM timed(plain) INTO slow;
    SELECT * FROM timed(columns) INTO fast;
    IF slow.answer IS DISTINCT FROM fast.answer OR slow.answer IS NULL THEN
        RAISE EXCEPTION E'%\nanswers %\nand should %', columns, fast.answer, slow.answer;
    END IF;
    RETURN format('| %s | %s ms | %s ms |', title, round(slow.taken, 1), round(fast.taken, 2));
END $$;

SELECT format(E'%s sensors, %s days, %s rows, PostgreSQL %s\n\n| | Size |\n|---|---|', :sensors, :days, count(*),
              current_setting('server_version')) FROM readings;
SELECT format('| %s | %s |', title, pg_size_pretty(size)) FROM (VALUES
    ('rows', pg_table_size('readings')), ('btree over sensor and time', pg_relation_size('readings_btree')),
    ('BRIN over time', pg_relation_size('readings_brin')), ('columns by day', pg_table_size('packed')),
    ('btree over sensor and day', pg_relation_size('packed_pkey')),
    ('- the times in them', (SELECT sum(pg_column_size(at)) FROM packed)),
    ('- the levels', (SELECT sum(pg_column_size(level)) FROM packed)),
    ('- the states', (SELECT sum(pg_column_size(state)) FROM packed)),
    ('- the temperatures', (SELECT sum(pg_column_size(temperature)) FROM packed))) v(title, size);
SELECT E'\n| | Rows | Columns |\n|---|---|---|';
SELECT compared('sum of each day', 'SELECT at::date AS day, sum(level) FROM readings GROUP BY day ORDER BY day',
    'SELECT day, sum(hv_sum(level)) FROM packed GROUP BY day ORDER BY day');
SELECT compared('one sensor, one week', $$SELECT sum(level), count(level), max(level) FROM readings
        WHERE sensor = 3 AND at >= '2025-01-03' AND at < '2025-01-10'$$,
    $$SELECT sum(hv_sum(level)), sum(hv_count(level)), max(hv_max(level)) FROM packed
        WHERE sensor = 3 AND day >= '2025-01-03' AND day < '2025-01-10'$$);
SELECT compared('all sensors, one day',
    $$SELECT sum(level), count(*) FROM readings WHERE at >= '2025-01-05' AND at < '2025-01-06'$$,
    $$SELECT sum(hv_sum(level)), sum(hv_rows(level)) FROM packed WHERE day = '2025-01-05'$$);
SELECT compared('sum of each hour, one sensor, ten days',
    $$SELECT date_trunc('hour', at) AS hour, sum(level), count(*) FROM readings WHERE sensor = 3 AND at < '2025-01-11'
        GROUP BY hour ORDER BY hour$$,
    $$SELECT hv_timestamptz(key) AS hour, sum, rows FROM packed,
        hv_groups(hv_step_buckets(at, hv_number(interval '1 hour')), level)
        WHERE sensor = 3 AND day < '2025-01-11' ORDER BY hour$$);
SELECT compared('rows above a limit, and their sum', 'SELECT count(*), sum(level) FROM readings WHERE level > 245',
    $$SELECT sum(hv_rows(f)), sum(hv_sum(f)) FROM (SELECT hv_filter(level, '>', 245) AS f FROM packed OFFSET 0) x$$);
SELECT compared('sum of the levels in one state', $$SELECT sum(level) FROM readings WHERE state = 'off'$$,
    $$SELECT hv_sum_all(hv_filter(level, hv_compare(state, '=', 'off'::text))) FROM packed$$);
SELECT compared('sum and greatest temperature of each day',
    'SELECT at::date AS day, sum(temperature), max(temperature) FROM readings GROUP BY day ORDER BY day',
    'SELECT day, hv_sum_all(temperature), max(hv_max(temperature)) FROM packed GROUP BY day ORDER BY day');
SELECT compared('temperatures of each hour, one sensor, ten days',
    $$SELECT date_trunc('hour', at) AS hour, sum(temperature), min(temperature) FROM readings
        WHERE sensor = 3 AND at < '2025-01-11' GROUP BY hour ORDER BY hour$$,
    $$SELECT hv_timestamptz(key) AS hour, sum, min FROM packed,
        hv_groups(hv_step_buckets(at, hv_number(interval '1 hour')), temperature)
        WHERE sensor = 3 AND day < '2025-01-11' ORDER BY hour$$);
SELECT compared('rows below a temperature, and their levels',
    'SELECT count(*), sum(level) FROM readings WHERE temperature < 12.5',
    $$SELECT sum(hv_rows(f)), hv_sum_all(f) FROM (SELECT hv_filter(level, hv_compare(temperature, '<', 12.5)) AS f
        FROM packed OFFSET 0) x$$);
SELECT compared('first and last time above a limit, one sensor',
    'SELECT min(at), max(at) FROM readings WHERE sensor = 3 AND level > 248',
    $$SELECT (SELECT hv_timestamptz(hv_min(hv_filter(hv_totals(at), hv_compare(level, '>', 248)))) FROM packed
              WHERE sensor = 3 AND hv_max(level) > 248 ORDER BY day LIMIT 1),
             (SELECT hv_timestamptz(hv_max(hv_filter(hv_totals(at), hv_compare(level, '>', 248)))) FROM packed
              WHERE sensor = 3 AND hv_max(level) > 248 ORDER BY day DESC LIMIT 1)$$);
SELECT compared('last level of each sensor',
    format('SELECT s, level FROM generate_series(1, %s) s, LATERAL (SELECT level FROM readings WHERE sensor = s
            AND level IS NOT NULL ORDER BY at DESC LIMIT 1) x ORDER BY s', :sensors),
    format('SELECT s, hv_last(level) FROM generate_series(1, %s) s, LATERAL (SELECT level FROM packed WHERE sensor = s
            AND hv_count(level) > 0 ORDER BY day DESC LIMIT 1) x ORDER BY s', :sensors));
SELECT compared('all times of one sensor', 'SELECT count(*), min(at), max(at) FROM readings WHERE sensor = 3',
    $$SELECT sum(hv_rows(t)), hv_timestamptz(min(hv_min(t))), hv_timestamptz(max(hv_max(t)))
      FROM (SELECT hv_totals(at) AS t FROM packed WHERE sensor = 3 OFFSET 0) x$$);

-- ---- Many time stamps in one column, as they are and as steps, in the size in which PostgreSQL keeps them ----
CREATE TABLE stamps(title text, at hvcolumn, steps hvcolumn);
CREATE PROCEDURE add_stamps(title text, stamps int, lost int, jitter int) LANGUAGE plpgsql AS $$
DECLARE c hvcolumn; minute timestamptz := '2025-01-01';
BEGIN
    SELECT hv_column(minute + i * interval '1 minute' + hashint4(i) % jitter * interval '1 ms' ORDER BY i)
        FROM generate_series(0, stamps - 1) i WHERE hashint4(i) % lost <> 0 INTO c;
    INSERT INTO stamps VALUES (title, c, hv_steps(c));
    IF (SELECT hv_totals(s.steps) <> s.at FROM stamps s WHERE s.title = add_stamps.title) THEN
        RAISE EXCEPTION 'the times of % are others', title;
    END IF;
END $$;
CALL add_stamps('one each minute', :stamps, 2147483647, 1);
CALL add_stamps('one in a thousand lost', :stamps, 1000, 1);
CALL add_stamps('up to 49 ms off the minute, by whole milliseconds', :stamps, 2147483647, 50);
SELECT format(E'\n| %s time stamps | As they are | As steps |\n|---|---|---|', :stamps);
SELECT format('| %s | %s | %s |', title, pg_size_pretty(pg_column_size(at)::bigint),
              pg_size_pretty(pg_column_size(steps)::bigint)) FROM stamps ORDER BY pg_column_size(steps);

-- ---- Each night the rows of the day before are packed ----
CREATE TABLE incoming AS SELECT * FROM readings WHERE at < '2025-01-03' AND sensor < 4;
CREATE TABLE kept(LIKE packed);
WITH gone AS (DELETE FROM incoming WHERE at < '2025-01-02' RETURNING *)
    INSERT INTO kept SELECT sensor, at::date AS day, hv_steps(hv_column(at ORDER BY at)), hv_column(level ORDER BY at),
        hv_column(state ORDER BY at), hv_column(temperature ORDER BY at) FROM gone GROUP BY sensor, day;
DO $$
BEGIN
    IF (SELECT count(*) FROM incoming WHERE at < '2025-01-02') > 0 OR
       EXISTS (SELECT * FROM kept EXCEPT SELECT * FROM packed WHERE day = '2025-01-01' AND sensor < 4) OR
       (SELECT count(*) FROM kept) <> 3 THEN RAISE EXCEPTION 'a day is packed otherwise'; END IF;
END $$;
DROP TABLE incoming, kept;
