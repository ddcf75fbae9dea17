-- Sizes and times of a plain table and of its columns in runs, as Markdown; an answer that differs ends the script.
\set VERBOSITY terse
\if :{?count} \else \set count 10000000 \endif
CREATE EXTENSION hivevigil;
SET max_parallel_workers_per_gather = 0;
CREATE TABLE readings AS SELECT (i * 10::bigint / :count)::int AS station, i AS n,
    CASE WHEN i % 97 <> 0 THEN (i / 30)::bigint END AS level,
    (ARRAY['running', 'stopped for service', 'off'])[1 + i / 1000 % 3] AS state
    FROM generate_series(0, :count - 1) i;
CREATE TABLE packed AS SELECT station, hv_column(level ORDER BY n) AS level, hv_column(state ORDER BY n) AS state
    FROM readings GROUP BY station;
CREATE TABLE parts AS SELECT n / (:count / 1000) AS part, hv_column(level ORDER BY n) AS level FROM readings GROUP BY 1;
VACUUM ANALYZE readings, packed, parts;

CREATE FUNCTION milliseconds(query text, OUT answer text, OUT taken numeric) LANGUAGE plpgsql AS $$
DECLARE start timestamptz; turns numeric[] := '{}';
BEGIN
    FOR turn IN 1 .. 3 LOOP
        start := clock_timestamp();
        EXECUTE format('SELECT string_agg(x::text, '' '') FROM (%s) AS x', query) INTO answer;
        turns := turns || extract(epoch FROM clock_timestamp() - start) * 1000;
    END LOOP;
    SELECT t INTO taken FROM unnest(turns) t ORDER BY t OFFSET 1 LIMIT 1;
END $$;
CREATE FUNCTION line(title text, plain text, runs text) RETURNS text LANGUAGE plpgsql AS $$
DECLARE slow record; fast record;
BEGIN
    SELECT * FROM milliseconds(plain) INTO slow;
    SELECT * FROM milliseconds(runs) INTO fast;
    IF slow.answer IS DISTINCT FROM fast.answer THEN RAISE EXCEPTION '% and % differ', slow.answer, fast.answer; END IF;
    RETURN format('| %s | %s ms | %s ms | %s |', title, round(slow.taken, 1), round(fast.taken, 2),
                  round(slow.taken / fast.taken));
END $$;

SELECT format(E'%s rows, PostgreSQL %s\n\n| | Rows | Runs | Rows / runs |\n|---|---|---|---|', :count,
              current_setting('server_version'));
SELECT format('| size | %s | %s | %s |', pg_size_pretty(plain), pg_size_pretty(runs), plain / runs)
    FROM (SELECT pg_total_relation_size('readings') AS plain, pg_total_relation_size('packed') AS runs) x;
SELECT line('sum', 'SELECT sum(level) FROM readings', 'SELECT sum(hv_sum(level)) FROM packed');
SELECT line('count of a column', 'SELECT count(level) FROM readings', 'SELECT sum(hv_count(level)) FROM packed');
SELECT line('least and greatest', 'SELECT min(level), max(level) FROM readings',
    'SELECT min(hv_min(level)), max(hv_max(level)) FROM packed');
SELECT line('sum of levels above a limit', format('SELECT sum(level) FROM readings WHERE level > %s', :count / 50),
    format('SELECT sum(hv_sum(hv_filter(level, ''>'', %s))) FROM packed', :count / 50));
SELECT line('rows with a text', 'SELECT count(*) FROM readings WHERE state = ''off''',
    'SELECT sum(hv_rows(hv_filter(state, ''='', ''off''::text))) FROM packed');
SELECT line('rows by text', 'SELECT state, count(*) FROM readings GROUP BY state ORDER BY state COLLATE "C"',
    'SELECT value, sum(stop - start) FROM packed, hv_text_runs(state) GROUP BY value ORDER BY value COLLATE "C"');

SELECT E'\n| Workers | Making a column of all rows | Sum over rows | Sum over 1000 columns |\n|---|---|---|---|';
SET parallel_setup_cost = 0;
SET parallel_tuple_cost = 0;
SET min_parallel_table_scan_size = 0;
CREATE FUNCTION workers(count int) RETURNS text LANGUAGE plpgsql AS $$
DECLARE made record; plain record; runs record;
BEGIN
    PERFORM set_config('max_parallel_workers_per_gather', count::text, false);
    SELECT * FROM milliseconds('SELECT hv_sum(hv_column(level)) FROM readings') INTO made;
    SELECT * FROM milliseconds('SELECT sum(level) FROM readings') INTO plain;
    SELECT * FROM milliseconds('SELECT sum(hv_sum(level)) FROM parts') INTO runs;
    IF made.answer <> plain.answer OR plain.answer <> runs.answer THEN RAISE EXCEPTION 'answers differ'; END IF;
    RETURN format('| %s | %s ms | %s ms | %s ms |', count, round(made.taken), round(plain.taken), round(runs.taken, 1));
END $$;
SELECT workers(0);
SELECT workers(2);
SELECT workers(4);
