-- Columns that keep a logical type, next to PostgreSQL's own dates and times. Runs after test.sql, in its database.
\set VERBOSITY terse
SET timezone = 'UTC';
CREATE SCHEMA types;
SET search_path = types, public;

-- ---- By hand: what another program wrote ----
-- the days 2026-01-01 null 0001-01-01 of i32; 2026-01-01 twice in seconds of UTC and null; 1.5 hours and null in ms
CREATE TABLE w AS SELECT
    '\x0802B20103746444BA011B080110071801200328043201053A0CE64F000000000000C606F5FF'::bytea::hvcolumn AS days,
    ('\x0802B201077473733A555443BA0131080110081802200340004801520202015A1F'::bytea ||
     '\x080110081801200228043201013A1000B95569000000000000000000000000')::hvcolumn AS seconds,
    '\x0802B2010374446DBA011F080110081801200228043201013A10C0655200000000000000000000000000'::bytea::hvcolumn
        AS lengths;
SELECT same('SELECT hv_logical_type(days), hv_logical_type(seconds), hv_logical_type(lengths), hv_type(days),
                    hv_logical_type((SELECT hv_column(7))), hv_logical_type(NULL),
                    hv_logical_type(hv_slice(days, 1, 2)) FROM w',
            $$SELECT 'tdD', 'tss:UTC', 'tDm', 'bigint', NULL, NULL, NULL$$),
    same('SELECT u.* FROM w, hv_date_runs(days) u',
         $$VALUES (0, 1, date '2026-01-01'), (1, 2, NULL), (2, 3, '0001-01-01')$$),
    same('SELECT u.* FROM w, hv_timestamptz_runs(seconds) u',
         $$VALUES (0, 2, timestamptz '2026-01-01 00:00:00+00'), (2, 3, NULL)$$),
    same('SELECT u.* FROM w, hv_interval_runs(lengths) u', $$VALUES (0, 1, interval '1:30'), (1, 2, NULL)$$),
    -- a day is a time of it, without a zone
    same('SELECT u.* FROM w, hv_timestamp_runs(days) u',
         $$VALUES (0, 1, timestamp '2026-01-01'), (1, 2, NULL), (2, 3, '0001-01-01')$$),
    same($$SELECT hv_timestamptz(hv_max(hv_cast(seconds, 'tsu:UTC'))), hv_interval(hv_sum(hv_cast(lengths, 'tDu'))),
           hv_date(hv_min(days)) FROM w$$,
         $$SELECT timestamptz '2026-01-01 00:00:00+00', interval '1:30', date '0001-01-01'$$),
    -- numbers of no type are microseconds, or days
    same($$SELECT hv_time(value), hv_interval(value)
           FROM hv_runs((SELECT hv_column(hv_number(time '08:30:00.000001'))))$$,
         $$SELECT time '08:30:00.000001', interval '08:30:00.000001'$$),
    same($$SELECT u.value FROM hv_time_runs((SELECT hv_cast(hv_column(hv_number(time '08:30')), 'ttu'))) u$$,
         $$SELECT time '08:30'$$),
    same($$SELECT u.value FROM hv_time_runs((SELECT hv_cast(hv_column(8 * 3600), 'tts'))) u$$, $$SELECT time '08:00'$$),
    -- what keeps the type, and what does not
    same($$SELECT hv_logical_type(hv_filter(days, '>', 0)), hv_logical_type(hv_filter(days, hv_not(days))),
           hv_logical_type(hv_append(days, 7, 2)), hv_logical_type(hv_buckets(seconds, 3600)),
           hv_logical_type(hv_cast(days, 'tsm:')), hv_logical_type(hv_cast(days, '')), hv_logical_type(hv_add(days, 1)),
           hv_logical_type(hv_steps(days)) FROM w$$,
         $$SELECT 'tdD', NULL, 'tdD', 'tss:UTC', 'tsm:', NULL, NULL, NULL$$),
    -- bytes: the days, after a null, as they were written; a type that nobody knows, over i16
    same('SELECT hv_slice(days, 2, 3)::bytea FROM w',
         $$SELECT '\x0802B20103746444BA0121'::bytea ||
           '\x0801100718022001400048015201015A10080110071801200128013A04C606F5FF'$$),
    same($$SELECT hv_concat('\x0802B201037A7A7ABA010E080110061801200128013A020700'::bytea::hvcolumn)::bytea$$,
         $$SELECT '\x0802B201037A7A7ABA011F0801100618022001400048015201015A0E080110061801200128013A020700'::bytea$$),
    -- rows are equal whatever they mean, so that indexes by hash stay right
    same('SELECT days = hv_cast(days, ''''), hv_hash(days) = hv_hash(hv_cast(days, '''')),
          days::bytea = hv_concat(days)::bytea, hv_hash_extended(days, 3) = hv_hash_extended(hv_cast(days, ''''), 3)
          FROM w GROUP BY days',
         'SELECT true, true, false, true'),
    -- columns of one type and without one; one of only null has no say
    same('SELECT hv_logical_type(hv_concat(c)), hv_rows(hv_concat(c)) FROM (SELECT days FROM w UNION ALL
          SELECT hv_column(7) UNION ALL SELECT hv_slice(seconds, 2, 3) FROM w UNION ALL SELECT NULL) x(c)',
         $$SELECT 'tdD', 5$$)
\g /dev/null
SELECT refused('SELECT hv_concat(c) FROM (SELECT days FROM w UNION ALL SELECT seconds FROM w) x(c)',
               'hv_concat: columns of two logical types'),
    refused('SELECT hv_append(days, 2147483648, 1) FROM w', 'hv_append: row 3 has no number of the logical type'),
    refused($$SELECT hv_cast(hv_append(lengths, 999, 2), 'tDs') FROM w$$,
            'hv_cast: row 2 has no number of the logical type'),
    refused($$SELECT u.* FROM w, hv_date_runs(hv_append(hv_cast(days, 'tss:'), 86399, 2)) u$$,
            'hv_date_runs: row 3 has no number of the logical type'),
    refused($$SELECT hv_cast(days, 'tDu') FROM w$$, 'hv_cast: the column does not count what the logical type does'),
    refused($$SELECT hv_cast(seconds, 'tsu:') FROM w$$,
            'hv_cast: the column does not count what the logical type does'),
    refused('SELECT u.* FROM w, hv_timestamp_runs(seconds) u',
            'hv_timestamp_runs: the column does not count what the logical type does'),
    refused('SELECT u.* FROM hv_date_runs((SELECT hv_column(''a''::text))) u',
            'hv_date_runs: the column does not count what the logical type does'),
    refused('SELECT u.* FROM hv_date_runs((SELECT hv_column(2147483648))) u',
            'hv_date_runs: row 0 has no number of the logical type'),
    refused('SELECT u.* FROM hv_date_runs((SELECT hv_column(2147483647))) u', 'hv_date_runs: date out of range'),
    refused('SELECT u.* FROM hv_timestamp_runs((SELECT hv_column(-9223372036854775807))) u',
            'hv_timestamp_runs: timestamp out of range'),
    refused('SELECT hv_time(86400000001)', 'hv_time: time out of range'),
    refused($$SELECT hv_cast(days, 'date') FROM w$$,
            $$hv_cast: a logical type is '' or a format of dates and times, as 'tdD' and 'tsu:UTC'$$),
    refused($$SELECT hv_logical_type('\x0802B20103746444BA01')$$, 'hvcolumn: the bytes are not a column')
\g /dev/null

-- ---- Random times: out of PostgreSQL with their type in each unit, and back ----
CREATE PROCEDURE check_types() LANGUAGE plpgsql AS $$
DECLARE
    unit text = (ARRAY['s', 'm', 'u', 'n'])[1 + floor(random() * 4)];
    step float8 = (ARRAY[1e6, 1e3, 1, 1])[strpos('smun', unit)];
    zoned boolean = random() < 0.5;
    zone text = CASE WHEN zoned THEN 'UTC' ELSE '' END;
    format text = 'ts' || unit || ':' || CASE WHEN zoned THEN 'Europe/Berlin' ELSE '' END;
BEGIN
    CREATE TABLE r AS SELECT n, CASE WHEN random() > 0.2
        THEN timestamptz '2000-01-01 00:00:00+00' + floor(random() * 4 - 2) * 1000003 * step * interval '1 us' END AS at
        FROM generate_series(1, 1 + floor(random() * 40)::int) n;
    CREATE TABLE c AS SELECT hv_cast(hv_cast(hv_column(at ORDER BY n), 'tsu:' || zone), format) AS c FROM r;
    PERFORM same(format('SELECT count(*), count(value), min(value), max(value), sum(stop - start) FROM c,
                         hv_timestamp%s_runs(c) u', CASE WHEN zoned THEN 'tz' ELSE '' END),
                 format('SELECT count(*), count(at), min(at%1$s), max(at%1$s), sum(n) FROM (SELECT at, count(*) AS n
                         FROM (SELECT at, n - row_number() OVER (PARTITION BY at ORDER BY n) AS run FROM r) x
                         GROUP BY at, run) y',
                        CASE WHEN zoned THEN '' ELSE ' AT TIME ZONE ''UTC''' END)),
        same('SELECT hv_logical_type(c), hv_logical_type(hv_concat(c)) FROM c GROUP BY c',
             format('SELECT f, f FROM (SELECT CASE WHEN count(at) > 0 THEN %L END AS f FROM r) x', format)),
        same(format('SELECT u.value FROM c, hv_runs(hv_cast(c, ''tsu:%s'')) u', zone),
             'SELECT u.value FROM (SELECT hv_column(at ORDER BY n) AS at FROM r) x, hv_runs(at) u');
    DROP TABLE r, c;
END $$;
DO $$ BEGIN FOR i IN 1 .. 60 LOOP CALL check_types(); END LOOP; END $$;

-- ---- Workers join parts of a type ----
CREATE TABLE parts AS SELECT hv_cast(hv_column(g), CASE WHEN g % 3 > 0 THEN 'tdD' ELSE '' END) AS c
    FROM generate_series(1, 3000) g GROUP BY g;
SET parallel_setup_cost = 0; SET parallel_tuple_cost = 0; SET min_parallel_table_scan_size = 0;
SELECT same('SELECT hv_logical_type(hv_concat(c)), hv_sum(hv_concat(c)) FROM parts',
            $$SELECT 'tdD', 4501500$$) \g /dev/null
INSERT INTO parts SELECT hv_cast(hv_column(7), 'tss:');
SELECT refused('SELECT hv_concat(c) FROM parts', 'hv_concat: columns of two logical types') \g /dev/null
RESET parallel_setup_cost; RESET parallel_tuple_cost; RESET min_parallel_table_scan_size;

-- ---- Calls that fail leave no memory ----
CREATE PROCEDURE fail_on_types(count int) LANGUAGE plpgsql AS $$
BEGIN
    FOR i IN 1 .. count LOOP
        BEGIN
            CASE i % 5
            WHEN 0 THEN PERFORM hv_cast(days, 'tDu') FROM w;
            WHEN 1 THEN PERFORM hv_append(days, 2147483648, 1) FROM w;
            WHEN 2 THEN PERFORM u.* FROM w, hv_date_runs(hv_append(hv_cast(days, 'tss:'), 86399, 2)) u;
            WHEN 3 THEN PERFORM hv_concat(x.c) FROM (SELECT days FROM w UNION ALL SELECT seconds FROM w) x(c);
            ELSE PERFORM u.* FROM w, hv_timestamp_runs(seconds) u;
            END CASE;
            RAISE EXCEPTION 'call % was not refused', i;
        EXCEPTION WHEN datatype_mismatch OR numeric_value_out_of_range THEN NULL;
        END;
    END LOOP;
END $$;
CALL fail_on_types(2000);
SELECT own_pages() AS before \gset
CALL fail_on_types(10000);
SELECT own_pages() AS after \gset
SELECT CASE WHEN :after - :before > 100 THEN 1 / 0 END \g /dev/null
RESET timezone;
RESET search_path;
SELECT 'PostgreSQL: columns with a logical type as dates and times over rows';
