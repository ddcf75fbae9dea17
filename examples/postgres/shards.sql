-- The packed year of sensors.sql on two servers, by postgres_fdw: this one and the one whose socket is in :other. The
-- database `shard` is on both. An answer that differs from that of the columns here ends the script.
\set VERBOSITY terse
SET timezone = 'UTC';
SET enable_partitionwise_aggregate = on;
CREATE EXTENSION postgres_fdw;
-- a row that comes from a server costs more than one of numbers, since it has columns
CREATE SERVER first_server FOREIGN DATA WRAPPER postgres_fdw
    OPTIONS (host :'folder', dbname 'shard', extensions 'hivevigil', async_capable 'true', fdw_tuple_cost '1');
CREATE SERVER second_server FOREIGN DATA WRAPPER postgres_fdw
    OPTIONS (host :'other', dbname 'shard', extensions 'hivevigil', async_capable 'true', fdw_tuple_cost '1');
CREATE USER MAPPING FOR CURRENT_USER SERVER first_server OPTIONS (user 'tester');
CREATE USER MAPPING FOR CURRENT_USER SERVER second_server OPTIONS (user 'tester');

-- ---- Odd sensors there, even ones here; the rows of an INSERT go to the server that has their sensor ----
CREATE TABLE far(sensor int, day date, at hvcolumn, level hvcolumn, state hvcolumn, temperature hvfloat8)
    PARTITION BY LIST (sensor);
SELECT set_config('sensors.even', string_agg(sensor::text, ',') FILTER (WHERE sensor % 2 = 0), false),
    set_config('sensors.odd', string_agg(sensor::text, ',') FILTER (WHERE sensor % 2 = 1), false)
FROM (SELECT DISTINCT sensor FROM packed) x \g /dev/null
CREATE PROCEDURE share(name text, far_name text) LANGUAGE plpgsql AS $$
BEGIN
    EXECUTE format('CREATE FOREIGN TABLE %1$s_even PARTITION OF %1$s FOR VALUES IN (%2$s) SERVER first_server
        OPTIONS (table_name %3$L, batch_size %4$L)', name, current_setting('sensors.even'), far_name, '100');
    EXECUTE format('CREATE FOREIGN TABLE %1$s_odd PARTITION OF %1$s FOR VALUES IN (%2$s) SERVER second_server
        OPTIONS (table_name %3$L, batch_size %4$L)', name, current_setting('sensors.odd'), far_name, '100');
END $$;
CALL share('far', 'packed');
INSERT INTO far SELECT * FROM packed;
ANALYZE far;
SELECT same('SELECT count(*), count(DISTINCT sensor) FROM far', 'SELECT count(*), count(DISTINCT sensor) FROM packed'),
    same('SELECT * FROM far WHERE sensor < 4 AND day < ''2025-01-04'' ORDER BY sensor, day',
         'SELECT * FROM packed WHERE sensor < 4 AND day < ''2025-01-04'' ORDER BY sensor, day')
\g /dev/null

-- ---- What is sent to the servers: all in the statement that comes after 'Remote SQL' ----
CREATE FUNCTION sent(query text, part text) RETURNS void LANGUAGE plpgsql AS $$
DECLARE line text; servers int := 0;
BEGIN
    FOR line IN EXECUTE 'EXPLAIN (VERBOSE, COSTS OFF) ' || query LOOP
        IF line LIKE '%Remote SQL:%' || part || '%' THEN servers := servers + 1; END IF;
    END LOOP;
    IF servers <> 2 THEN RAISE EXCEPTION '% is sent to % servers in %', part, servers, query; END IF;
END $$;
CREATE PROCEDURE asked(part text, far_query text, near_query text) LANGUAGE plpgsql AS $$
BEGIN
    PERFORM sent(far_query, part), same(far_query, near_query);
END $$;
-- groups by the sensor, which says where a row is, are made on the servers
CALL asked('sum(public.hv_sum(level))', 'SELECT sensor, sum(hv_sum(level)) FROM far GROUP BY sensor ORDER BY sensor',
    'SELECT sensor, sum(level) FROM readings GROUP BY sensor ORDER BY sensor');
CALL asked('hv_sum_all(level)',
    'SELECT sum(s) FROM (SELECT sensor, hv_sum_all(level) AS s FROM far GROUP BY sensor) x',
    'SELECT sum(level) FROM readings');
-- sums of double precision are exact, wherever they are made
CALL asked('hv_sum_all(temperature)',
    'SELECT sensor, hv_sum_all(temperature) FROM far GROUP BY sensor ORDER BY sensor',
    'SELECT sensor, sum(temperature) FROM readings GROUP BY sensor ORDER BY sensor');
CALL asked('hv_filter(temperature, ''>''::public.hv_operator',
    $$SELECT sensor, day FROM far WHERE hv_rows(hv_filter(temperature, '>', 28.5)) > 100 ORDER BY sensor, day$$,
    $$SELECT sensor, at::date AS day FROM readings WHERE temperature > 28.5 GROUP BY sensor, day HAVING count(*) > 100
      ORDER BY sensor, day$$);
CALL asked('hv_filter(level, ''>''::public.hv_operator',
    $$SELECT sensor, day FROM far WHERE hv_rows(hv_filter(level, '>', 245)) > 100 ORDER BY sensor, day$$,
    $$SELECT sensor, at::date AS day FROM readings WHERE level > 245 GROUP BY sensor, day HAVING count(*) > 100
      ORDER BY sensor, day$$);
CALL asked('hv_concat(level ORDER BY day',
    'SELECT sensor, hv_rows(hv_concat(level ORDER BY day)) FROM far GROUP BY sensor ORDER BY sensor',
    'SELECT sensor, count(*) FROM readings GROUP BY sensor ORDER BY sensor');
-- groups by anything else come as columns, which are small, and are joined here
SELECT same('SELECT day, sum(hv_sum(level)) FROM far GROUP BY day ORDER BY day',
            'SELECT at::date AS day, sum(level) FROM readings GROUP BY day ORDER BY day'),
    same('SELECT hv_rows(c), hv_sum(c) FROM (SELECT hv_concat(level) AS c FROM far) x',
         'SELECT count(*), sum(level) FROM readings')
\g /dev/null

-- ---- The view `hours` of each server has the sums of hours, so that only these come ----
CREATE TABLE far_hours(sensor int, hour timestamptz, sum bigint, rows bigint) PARTITION BY LIST (sensor);
CALL share('far_hours', 'hours');
SELECT same('SELECT hour, sum(sum), sum(rows) FROM far_hours WHERE hour < ''2025-01-11'' GROUP BY hour ORDER BY hour',
            $$SELECT date_trunc('hour', at) AS hour, sum(level), count(*) FROM readings WHERE at < '2025-01-11'
              GROUP BY hour ORDER BY hour$$)
\g /dev/null
SET client_min_messages = warning;
DROP EXTENSION postgres_fdw CASCADE;
DROP TABLE far, far_hours;
SELECT format('%s columns of %s sensors on two servers answer as %s rows', count(*), count(DISTINCT sensor),
              (SELECT count(*) FROM readings)) FROM packed;
