-- Statements that are ended while a call works columns of many runs. After same.sql; in a database of its own, since it
-- watches the memory of the server's process.
\set VERBOSITY terse
\if :{?runs} \else \set runs 200000 \endif
CREATE TABLE long(c hvcolumn, d hvcolumn, m hvcolumn, k hvcolumn, t hvcolumn, f hvfloat8, g hvfloat8);
DO $$ DECLARE name text; BEGIN
    FOREACH name IN ARRAY ARRAY['c', 'd', 'm', 'k', 't', 'f', 'g'] LOOP
        EXECUTE format('ALTER TABLE long ALTER %s SET STORAGE EXTERNAL', name);
    END LOOP;
END $$;
-- up and down again; up; a mask of runs of one row; one key; texts; floats
INSERT INTO long SELECT hv_totals(hv_append(up, -1, :runs - :runs / 2)), hv_totals(hv_append(up, 3, :runs - :runs / 2)),
    NULL, hv_append(hv_slice(up, 0, 0), 5, :runs), NULL, NULL, NULL
    FROM (SELECT hv_repeat(1, :runs / 2) AS up) x;
UPDATE long SET m = (SELECT hv_column(n % 2) FROM generate_series(1, :runs) n),
    t = (SELECT hv_column('text ' || n) FROM generate_series(1, :runs) n),
    f = (SELECT hv_column(n / 4.0) FROM generate_series(1, :runs) n),
    g = (SELECT hv_column(CASE WHEN n % 9 > 0 THEN -n / 2.0 END) FROM generate_series(1, :runs) n);

-- each call, how many milliseconds it takes, how many it took until it was ended, and by what
CREATE TABLE calls(n serial, query text, whole float, took float, said text);
INSERT INTO calls(query) VALUES ('hv_and(c, d)'), ('hv_or(d, c)'), ('hv_not(c)'), ('hv_add(c, d)'),
    ('hv_multiply(c, 3)'), ($$hv_compare(c, '<', d)$$), ($$hv_compare(c, '<', 1000)$$), ('hv_filter(c, m)'),
    ($$hv_filter(c, '>', 1000)$$), ($$hv_filter(t, '>', 'text 3'::text)$$), ($$hv_compare(t, '=', 'text 3'::text)$$),
    ('hv_filter(t, m)'), ($$hv_compare(f, '<', g)$$), ($$hv_compare(f, '<', 1000)$$), ($$hv_filter(f, '>', 1000)$$),
    ('hv_steps(c)'), ('hv_totals(m)'), ('hv_buckets(c, 3)'), ('hv_step_buckets(m, 3)'), ('hv_buckets(f, 3)'),
    ($$hv_cast(c, 'tsu:')$$), ($$hv_cast(hv_cast(c, 'tss:'), 'tsm:')$$), ('hv_slice(c, 1, hv_rows(c) - 1)'),
    ('hv_append(c, 7, 7)'), ('hv_concat(c)'), ('hv_concat(f)'), ('c = d'), ('f = g'), ('hv_hash(c)'), ('hv_hash(f)'),
    ('(SELECT count(*) FROM hv_runs(c))'), ('(SELECT count(*) FROM hv_sum_by(c, d))'),
    ('(SELECT count(*) FROM hv_sum_by(k, d))'), ('(SELECT count(*) FROM hv_text_sum_by(t, d))'),
    ('(SELECT count(*) FROM hv_sum_by(k, f))'), ('hv_sum_all(c)'), ('hv_sum_all(f)'), ('hv_max(f)'),
    ('hv_first(c)');
-- runs the query to its end, and leaves an eighth of its time as timeout of the next statement
CREATE FUNCTION done(call int) RETURNS void LANGUAGE plpgsql AS $$
DECLARE query text := (SELECT c.query FROM calls c WHERE n = call); start timestamptz := clock_timestamp(); taken float;
BEGIN
    EXECUTE 'SELECT ' || query || ' FROM long';
    taken := 1000 * extract(epoch FROM clock_timestamp() - start);
    UPDATE calls SET whole = taken WHERE n = call;
    PERFORM set_config('statement_timeout', (1 + taken::int / 8)::text, false);
END $$;
-- runs it again, and writes how long it took until it was ended, if it was
CREATE FUNCTION ended(call int) RETURNS void LANGUAGE plpgsql AS $$
DECLARE query text := (SELECT c.query FROM calls c WHERE n = call); start timestamptz := clock_timestamp(); taken float;
BEGIN
    EXECUTE 'SELECT ' || query || ' FROM long';
EXCEPTION WHEN OTHERS OR query_canceled THEN
    taken := 1000 * extract(epoch FROM clock_timestamp() - start);
    UPDATE calls SET took = taken, said = SQLERRM WHERE n = call;
END $$;
-- the answer is the same as in one call for each half, whose seam is no stretch's
SELECT same($$SELECT hv_and(c, d)::bytea = hv_concat(part)::bytea FROM long, LATERAL (SELECT hv_and(hv_slice(c, a, b),
    hv_slice(d, a, b)) AS part FROM (VALUES (0, 1000), (1000, 1001), (1001, hv_rows(c))) x(a, b)) y GROUP BY c, d$$,
    'SELECT true') \g /dev/null

-- a new process of the server, whose memory has no room that was freed before
\connect
CREATE OR REPLACE FUNCTION own_pages() RETURNS int LANGUAGE sql AS
    $$ SELECT split_part(pg_read_file('/proc/self/statm'), ' ', 2)::int -
              split_part(pg_read_file('/proc/self/statm'), ' ', 3)::int $$;
SELECT $$SELECT 'SELECT done(' || n || ')', 'SELECT ended(' || n || ')', 'RESET statement_timeout' FROM calls ORDER BY n$$
    AS ask \gset
-- a timeout may come just after the query has ended by itself, and is an error of the statement around it then
\set ON_ERROR_STOP off
\o /dev/null
:ask \gexec
CREATE TABLE first_calls AS TABLE calls;
-- ended again and again, a few milliseconds later each time, and no memory is lost: what malloc keeps is kept after a while
SELECT $$SELECT 'SET statement_timeout = ' || 3 * turn, 'SELECT ended(' || n || ')', 'RESET statement_timeout'
    FROM calls, generate_series(1, 8) turn WHERE n IN (1, 8, 10, 16, 33) ORDER BY turn, n$$ AS again \gset
:again \gexec
:again \gexec
SELECT own_pages() AS before \gset
:again \gexec
:again \gexec
SELECT own_pages() AS after \gset
\o
\set ON_ERROR_STOP on
DO $$
DECLARE late text := (SELECT string_agg(format('%s: %s ms, ended in %s by: %s', query, whole::int, took::int, said), E'\n')
    FROM first_calls WHERE took - whole / 8 > 1000 OR said <> 'canceling statement due to statement timeout');
BEGIN
    IF late IS NOT NULL THEN RAISE EXCEPTION '%', late; END IF;
    IF (SELECT count(took) < 20 OR percentile_cont(0.5) WITHIN GROUP (ORDER BY took / whole) > 0.75 FROM first_calls) THEN
        RAISE EXCEPTION 'most calls run to their end';
    END IF;
END $$;
SELECT CASE WHEN :after - :before > 10000 THEN 1 / 0 END \g /dev/null

-- few runs whose answers are many: 2^26 totals and buckets
SET statement_timeout = 500;
SELECT refused('SELECT hv_totals(hv_repeat(1, 67000000))', 'canceling statement due to statement timeout'),
    clock_timestamp() - statement_timestamp() < '1.5 s' AS soon \gset
\if :soon \else SELECT 1 / 0; \endif
SELECT refused('SELECT hv_step_buckets(hv_repeat(7, 67000000), 8)', 'canceling statement due to statement timeout'),
    clock_timestamp() - statement_timestamp() < '1.5 s' AS soon \gset
\if :soon \else SELECT 1 / 0; \endif
RESET statement_timeout;
SELECT format('PostgreSQL: %s calls over columns of %s runs are ended by a timeout of an eighth of their time, and %s KiB lost',
    count(took), :runs, (:after - :before) * 4) FROM first_calls;
