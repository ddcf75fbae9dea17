-- Columns of real and of double precision next to plain rows. Runs after test.sql, in its database.
\set VERBOSITY terse
SELECT setseed(0.5) \g /dev/null

-- ---- By hand ----
CREATE TABLE f(n serial, v double precision, r real);
INSERT INTO f(v, r) VALUES (1.5, 1.5), (1.5, 1.5), (NULL, NULL), (-0.25, 0.1), ('Infinity', 'NaN'), ('-0', '-0'),
    (0, 0);
CREATE TABLE fp AS SELECT hv_column(v ORDER BY n) AS c, hv_column(r ORDER BY n) AS d FROM f;
SELECT same('SELECT pg_typeof(c), pg_typeof(d), hv_type(c), hv_type(d) FROM fp',
            $$SELECT 'hvfloat8', 'hvfloat4', 'double precision', 'real'$$),
    same('SELECT hv_rows(c), hv_count(c), hv_min(c), hv_max(c), hv_first(c), hv_last(c) FROM fp',
         $$SELECT 7, 6, -0.25, 'Infinity'::float8, 1.5, 0$$),
    same('SELECT hv_rows(d), hv_count(d), hv_min(d), hv_max(d), hv_first(d), hv_last(d), hv_at(d, 3) FROM fp',
         $$SELECT 7, 6, '-0'::real, 'NaN'::real, 1.5, 0, 0.1::real$$),
    same('SELECT hv_at(c, 0), hv_at(c, 2), hv_at(c, 5), hv_at(c, 7), hv_at(c, -1), pg_typeof(hv_at(d, 0)) FROM fp',
         $$SELECT 1.5, NULL, '-0'::float8, NULL, NULL, 'real'$$),
    same('SELECT u.* FROM fp, hv_runs(c) u', $$VALUES (0, 2, 1.5::float8), (2, 3, NULL), (3, 4, -0.25),
         (4, 5, 'Infinity'), (5, 6, '-0'), (6, 7, 0)$$),
    same('SELECT u.* FROM fp, hv_runs(hv_slice(d, 2, 6)) u',
         $$VALUES (0, 1, NULL::real), (1, 2, 0.1), (2, 3, 'NaN'), (3, 4, '-0')$$),
    -- a NaN with a minus, as processors make them, is above all numbers too
    same($$SELECT hv_min(c), hv_max(c), hv_min(hv_slice(c, 1, 2)), float8send(hv_max(c)), hv_rows(hv_filter(c, '>', 1)),
           hv_rows(hv_filter(c, '=', 'NaN')), hv_rows(hv_filter(c, '<', '-NaN')) FROM (SELECT hv_column(v) AS c
           FROM (VALUES (1::float8), ('-NaN')) t(v)) x$$,
         $$SELECT 1, 'NaN', 'NaN', '\xfff8000000000000'::bytea, 1, 1, 1$$),
    same('SELECT hv_sum(c), hv_sum(hv_slice(c, 0, 4)), hv_sum(hv_slice(c, 2, 3)), hv_sum(hv_slice(c, 5, 6)) FROM fp',
         $$SELECT 'Infinity'::float8, 2.75, NULL, '-0'::float8$$),
    same('SELECT hv_sum(d), hv_sum(hv_slice(d, 0, 4)) FROM fp', $$SELECT 'NaN'::float8, 3 + 0.1::real::float8$$),
    same($$SELECT u.* FROM fp, hv_runs(hv_filter(c, '=', 0)) u$$, $$VALUES (0, 1, '-0'::float8), (1, 2, 0)$$),
    same($$SELECT hv_rows(hv_filter(d, '=', 'NaN')), hv_rows(hv_filter(d, '>', 'Infinity')), hv_rows(hv_filter(d, '<>',
           0)), hv_rows(hv_filter(d, '=', 0.1)), hv_rows(hv_filter(d, '=', 0.1::real)) FROM fp$$,
         'SELECT 1, 1, 4, 0, 1'),
    same($$SELECT u.* FROM fp, hv_runs(hv_compare(c, '<', d)) u$$,
         'VALUES (0, 2, 0), (2, 3, NULL), (3, 5, 1), (5, 7, 0)'),
    same($$SELECT u.* FROM fp, hv_runs(hv_filter(c, hv_compare(d, '>=', 1.5))) u$$,
         $$VALUES (0, 2, 1.5::float8), (2, 3, 'Infinity')$$),
    same($$SELECT hv_rows(hv_filter(c, '=', NULL)), hv_filter(NULL::hvfloat8, '=', 1), hv_sum(NULL::hvfloat4),
           hv_compare(c, '=', NULL::float8) FROM fp$$, 'SELECT 0, NULL, NULL, NULL'),
    same($$SELECT hv_sum(hv_append(hv_slice(c, 0, 4), -2.5, 2)), hv_rows(hv_append(c, NULL, 3)),
           hv_last(hv_append(d, 7, 1)) FROM fp$$, 'SELECT -2.25, 10, 7'),
    same($$SELECT hv_rows(hv_concat(c)), hv_min(hv_concat(c)) FROM (SELECT c FROM fp UNION ALL SELECT NULL UNION ALL
           SELECT hv_slice(c, 2, 4) FROM fp) x$$, 'SELECT 9, -0.25'),
    same($$SELECT hv_sum(hv_repeat(x, n)), pg_typeof(hv_repeat(x, n))
           FROM (VALUES (0.1::float8, 10), (NULL, 2)) v(x, n)$$,
         $$SELECT 1, 'hvfloat8'$$),
    same('SELECT hv_rows(c), hv_sum(c), hv_min(c), hv_type(c) FROM (SELECT hv_column(v) AS c FROM f WHERE false) x',
         'SELECT 0, NULL, NULL, NULL'),
    -- rows that are all null are the same bytes in every type
    same($$SELECT c::bytea = hv_column(NULL::bigint)::bytea, hv_count(c), hv_sum(c), hv_max(c), hv_at(c, 0), hv_type(c),
           hv_rows(hv_filter(c, '>', 1)), hv_count(hv_compare(c, '<', 2)), hv_sum(hv_append(c, 2, 3)),
           hv_sum_all(c) FROM (SELECT hv_column(NULL::real) AS c) x GROUP BY c$$,
         'SELECT true, 0, NULL, NULL, NULL, NULL, 0, 0, 6, NULL'),
    same('SELECT hv_sum(c::hvfloat8), hv_at(c::hvfloat8, 1), hv_at(c::hvfloat8, 0) FROM (SELECT hv_slice(d, 2, 4) AS c
          FROM fp) x', 'SELECT 0.1::real::float8, 0.1::real::float8, NULL')
\g /dev/null

-- logical types, buckets, and keys that are floats
SELECT same($$SELECT hv_logical_type(c), hv_logical_type(d), hv_cast(c, 'g') = c, hv_cast(d, 'f') = d,
              pg_typeof(hv_cast(d, 'f')), hv_logical_type(NULL::hvfloat8) FROM fp$$,
            $$SELECT 'g', 'f', true, true, 'hvfloat4', NULL$$),
    refused($$SELECT hv_cast(c, 'f') FROM fp$$,
            $$hv_cast: a column of double precision has the logical type 'g', and no other$$),
    refused($$SELECT hv_cast(d, '') FROM fp$$, $$hv_cast: a column of real has the logical type 'f', and no other$$),
    same('SELECT u.* FROM fp, hv_runs(hv_buckets(c, 1)) u', $$VALUES (0, 2, 1::float8), (2, 3, NULL), (3, 4, -1),
         (4, 5, 'Infinity'), (5, 7, 0)$$),
    same('SELECT u.* FROM fp, hv_runs(hv_buckets(d, 0.5, 0.25)) u', $$VALUES (0, 2, 1.25::float8), (2, 3, NULL),
         (3, 4, -0.25), (4, 5, 'NaN'), (5, 7, -0.25)$$),
    refused('SELECT hv_buckets(c, 0) FROM fp', 'hv_buckets: a width is finite and above 0, and an origin is finite'),
    refused($$SELECT hv_buckets(c, 1, 'NaN') FROM fp$$,
            'hv_buckets: a width is finite and above 0, and an origin is finite'),
    refused('SELECT hv_buckets(hv_column(1.7e308::float8), 1, -1.7e308)', 'hv_buckets: double precision out of range'),
    same('SELECT g.key, g.rows, g.count, g.first FROM fp, hv_groups(c, d) g',
         $$VALUES (1.5::float8, 2, 2, 1.5::float8), (NULL, 1, 0, NULL), (-0.25, 1, 1, 0.1::real), ('Infinity', 1, 1,
         'NaN'), ('-0', 1, 1, '-0'), (0, 1, 1, 0)$$),
    same('SELECT g.* FROM fp, hv_count_by(d, hv_compare(c, ''<'', 1)) g',
         $$VALUES (1.5::float8, 2), (NULL, 0), (0.1::real, 1), ('NaN', 1), ('-0', 1), (0, 1)$$),
    refused('SELECT g.* FROM fp, hv_sum_by(hv_slice(c, 0, 2), d) g', 'hv_sum_by: a length of 2 next to one of 7')
\g /dev/null

-- which column is made of an argument
SELECT same('SELECT pg_typeof(hv_column(1)), pg_typeof(hv_column(1::smallint)), pg_typeof(hv_column(1::bigint)),
             pg_typeof(hv_column(1.5)), pg_typeof(hv_column(1::real)), pg_typeof(hv_repeat(1, 2)),
             pg_typeof(hv_repeat(1::smallint, 2)), pg_typeof(hv_repeat(1::real, 2)), pg_typeof(hv_concat(NULL))',
            $$SELECT 'hvcolumn', 'hvcolumn', 'hvcolumn', 'hvfloat8', 'hvfloat4', 'hvcolumn', 'hvcolumn', 'hvfloat4',
              'hvcolumn'$$),
    same($$SELECT hv_type(hv_column(1)), hv_type(hv_column('a'::text)), hv_type(hv_column(NULL::bigint)),
           hv_type(NULL)$$,
         $$SELECT 'bigint', 'text', NULL, NULL$$),
    same('SELECT hv_sum(hv_column(x::smallint)), hv_sum(hv_repeat(x::smallint, 3)), hv_sum(hv_repeat(x, 3))
          FROM (VALUES (5), (NULL), (-7)) v(x)', 'SELECT -2, -6, -6')
\g /dev/null

-- ---- Bytes: a message of the keys, with the type around it, or in a line before it as in earlier versions ----
-- 1.5 1.5 null 0.0; of real a NaN that signals, with its payload; 2.0 in each of 2^60 rows
SELECT same($$SELECT hv_column(v)::bytea FROM (VALUES (1.5::float8), (1.5), (NULL), (0)) x(v)$$,
    $$SELECT '\x0802B2010167BA013A'::bytea || '\x08011008180220044000480152030201015A27'::bytea ||
      '\x080110081801200328043201053A18000000000000F83F00000000000000000000000000000000'$$),
    same($$SELECT hv_column(v::real)::bytea FROM (VALUES (1.5)) x(v)$$,
         $$SELECT '\x0802B2010166BA0121'::bytea || '\x0801100718022001400048015201015A10'::bytea ||
           '\x080110071801200128013A040000C03F'$$),
    same($$SELECT float4send(hv_at(c, 0)), float8send(hv_at(c::hvfloat8, 0)), hv_column(hv_at(c, 0)) = c FROM (SELECT
           '\x0802B2010166BA0110080110071801200128013A040100807F'::bytea::hvfloat4 AS c) x GROUP BY c$$,
         $$SELECT '\x7F800001'::bytea, '\x7FF0000020000000'::bytea, true$$),
    same($$SELECT hv_rows(c), hv_sum(c), hv_rows(hv_filter(c, '>', 1)), hv_sum_all(c) FROM (SELECT
           '\x0802B2010167BA011C0801100818032080808080808080801028013A080000000000000040'::bytea::hvfloat8 AS c) x
           GROUP BY c$$,
         'SELECT 1152921504606846976, 2305843009213693952::float8, 1152921504606846976, 2305843009213693952::float8'),
    -- a column of earlier versions equals the same one, is one of the same group, and is written as it is now
    same($$SELECT c = hv_column(1.5::float8), hv_hash(c) = hv_hash(hv_column(1.5::float8)), hv_hash_extended(c, 7) =
           hv_hash_extended(hv_column(1.5::float8), 7), hv_concat(c)::bytea = hv_column(1.5::float8)::bytea,
           c::bytea = hv_column(1.5::float8)::bytea FROM (SELECT (convert_to(E'hivevigil type 1 g\n', 'UTF8') ||
           '\x0801100818022001400048015201015A14080110081801200128013A08000000000000F83F')::hvfloat8 AS c) x
           GROUP BY c$$,
         'SELECT true, true, true, true, false'),
    -- hashes are those of the bytes of earlier versions, here as words of 32 bits, so that indexes by hash stay right
    same($$SELECT hv_hash(c), hv_hash_extended(c, 5) FROM (SELECT hv_column(1.5::float8) AS c) x$$,
         $$SELECT hashoidvector(b), hashoidvectorextended(b, 5) FROM (SELECT
           ('1702259048 1768384886 2037653612 824206704 134899488 403181569 1073815554 1375815680 ' ||
            '341442817 135266568 18874648 138019112 0 1073217536')::oidvector AS b) x$$),
    -- times, as Python writes them, are their numbers, and keep what these mean
    same($$SELECT hv_type(c), hv_sum(c), c = hv_column(7), hv_concat(c)::bytea FROM (SELECT
           '\x0802B201077473733A555443BA0114080110081801200128013A080700000000000000'::bytea::hvcolumn AS c) x
           GROUP BY c$$,
         $$SELECT 'bigint', 7, true, '\x0802B201077473733A555443BA0125'::bytea || hv_column(7)::bytea$$),
    same($$SELECT float4send(hv_at(c, 0)), float8send(hv_at(c::hvfloat8, 0)), hv_column(hv_at(c, 0)) = c FROM (SELECT
           (convert_to(E'hivevigil type 1 f\n', 'UTF8') || '\x080110071801200128013A040100807F')::hvfloat4 AS c) x
           GROUP BY c$$,
         $$SELECT '\x7F800001'::bytea, '\x7FF0000020000000'::bytea, true$$),
    same($$SELECT hv_rows(c), hv_sum(c), hv_rows(hv_filter(c, '>', 1)), hv_sum_all(c) FROM (SELECT
           (convert_to(E'hivevigil type 1 g\n', 'UTF8') ||
            '\x0801100818032080808080808080801028013A080000000000000040')::hvfloat8 AS c) x GROUP BY c$$,
         'SELECT 1152921504606846976, 2305843009213693952::float8, 1152921504606846976, 2305843009213693952::float8')
\g /dev/null
SELECT refused($$SELECT c::bytea::hvcolumn FROM fp$$,
               'hvcolumn: this is a column of double precision, which has the type hvfloat8'),
    refused($$SELECT d::bytea::hvcolumn FROM fp$$, 'hvcolumn: this is a column of real, which has the type hvfloat4'),
    refused($$SELECT d::bytea::hvfloat8 FROM fp$$, 'hvfloat8: this is a column of real'),
    refused($$SELECT c::text::hvfloat4 FROM fp$$, 'hvfloat4: this is a column of double precision'),
    refused($$SELECT hv_column(1)::bytea::hvfloat8$$, 'hvfloat8: this is a column of numbers'),
    refused($$SELECT hv_column('a'::text)::text::hvfloat4$$, 'hvfloat4: this is a column of texts'),
    refused($$SELECT '\x00'::hvfloat8$$, 'hvfloat8: the bytes are not a column'),
    refused($$SELECT convert_to(E'hivevigil type 1 g\n', 'UTF8')::hvfloat8$$, 'hvfloat8: the bytes are not a column'),
    -- a message of i64 after the line of real, and with the type of real; one with a type after the line; and no name
    refused($$SELECT (convert_to(E'hivevigil type 1 f\n', 'UTF8') || hv_column(1)::bytea)::hvfloat4$$,
            'hvfloat4: the bytes are not a column'),
    refused($$SELECT ('\x0802B2010166BA0125'::bytea || hv_column(1)::bytea)::hvfloat4$$,
            'hvfloat4: the bytes are not a column'),
    refused($$SELECT (convert_to(E'hivevigil type 1 g\n', 'UTF8') || c::bytea)::hvfloat8 FROM fp$$,
            'hvfloat8: the bytes are not a column'),
    refused($$SELECT '\x0802B20100BA0110080110071801200128013A040000C03F'::bytea::hvfloat4$$,
            'hvfloat4: the bytes are not a column'),
    refused($$SELECT '\x0802B2010166BA0110080110071801200128013A040000C03F'::bytea::hvcolumn$$,
            'hvcolumn: this is a column of real, which has the type hvfloat4'),
    refused('SELECT hv_slice(c, 2, 12) FROM fp', 'hv_slice: rows 2 to 12 are not among 7 rows'),
    refused($$SELECT hv_filter(c, NULL, 2) FROM fp$$, 'hv_filter: an operator is one of = <> > >= < <='),
    refused($$SELECT hv_filter(fp.c, hv_slice(p.c, 0, 2)) FROM fp, p$$,
            'hv_filter: a mask of 2 rows over a column of 7 rows'),
    refused($$SELECT hv_compare(c, '<', hv_slice(c, 0, 2)) FROM fp$$, 'hv_compare: a length of 7 next to one of 2'),
    refused('SELECT hv_append(c, 1.5, -1) FROM fp', 'hv_append: a count of rows is not negative, and this is -1'),
    refused('SELECT hv_sum(hv_column(v)) FROM (VALUES (1e308::float8), (1e308)) x(v)',
            'hv_sum: double precision out of range'),
    refused('SELECT hv_sum_all(c) FROM (SELECT hv_column(v) AS c FROM (VALUES (-1e308::float8), (-1e308)) x(v)) y',
            'hv_sum_all: double precision out of range'),
    refused('SELECT sum FROM (SELECT hv_column(v) AS v, hv_column(1) AS k FROM (VALUES (1e308::float8), (1e308)) x(v)) y,
             hv_sum_by(k, v)', 'hv_sum_by: double precision out of range'),
    refused('SELECT count FROM fp, p, hv_count_by(p.c, fp.c)', 'hv_count_by: a length of 8 next to one of 7')
\g /dev/null

-- ---- Equality is PostgreSQL's: zeros are equal, and NaNs ----
CREATE TABLE fe AS SELECT hv_column(v ORDER BY n) AS c, hv_column(w ORDER BY n) AS d FROM
    (VALUES (1, 0::float8, '-0'::float8), (2, 'NaN', '-NaN'), (3, NULL, NULL), (4, 2, 2)) x(n, v, w);
SELECT same('SELECT c = d, c <> d, c::bytea = d::bytea, hv_hash(c) = hv_hash(d), hv_hash_extended(c, 5) =
             hv_hash_extended(d, 5), c = hv_slice(c, 0, 3) FROM fe', 'SELECT true, false, false, true, true, false'),
    same('SELECT count(*) FROM (SELECT c FROM fe UNION SELECT d FROM fe UNION SELECT hv_slice(c, 0, 2) FROM fe) x',
         'SELECT 2'),
    same('SELECT count(*) FROM fe JOIN fe g ON fe.c = g.d', 'SELECT 1'),
    refused('SELECT c FROM fe ORDER BY c', 'could not identify an ordering operator for type hvfloat8')
\g /dev/null

-- ---- Random tables, in stretches: of few numbers, and of whole numbers of 2^-20, whose sums are exact ----
CREATE TABLE rf(n serial, v double precision, r real, k bigint);
CREATE PROCEDURE check_floats(wild boolean) LANGUAGE plpgsql AS $$
DECLARE op text; value double precision; rows int; a int; b int; plain text;
    few double precision[] := '{0, -0, 1.5, -1.5, 0.1, NaN, Infinity, -Infinity, 5e-324, 1e300, -NaN}';
    narrow real[] := '{0, -0, 1.5, -1.5, 0.1, NaN, Infinity, -Infinity, 1e-45, 3.4028235e38, -NaN}';
BEGIN
    TRUNCATE rf RESTART IDENTITY;
    INSERT INTO rf(v, r, k) SELECT CASE WHEN wild THEN few[i] ELSE m::double precision / 1048576 END,
                                   CASE WHEN wild THEN narrow[i] ELSE (m % 16777216)::real END, m FROM (
        SELECT CASE WHEN random() < 0.8 THEN 1 + floor(11 * random())::int END AS i,
               CASE WHEN random() < 0.8 THEN floor((random() - 0.5) * 9007199254740992)::bigint END AS m, g
        FROM generate_series(1, 1 + (30 * random())::int) g) stretch, generate_series(1, 1 + (g * 7919) % 4);
    SELECT count(*) FROM rf INTO rows;
    a := floor(rows * random());
    b := a + floor((rows - a + 1) * random());
    FOREACH plain IN ARRAY ARRAY['v', 'r'] LOOP
        PERFORM same(format('SELECT hv_rows(c), hv_count(c), hv_min(c) + 0, hv_max(c) + 0
                             FROM (SELECT hv_column(%s) AS c FROM rf) x', plain),
                     format('SELECT count(*), count(%1$s), min(%1$s) + 0, max(%1$s) + 0 FROM rf', plain));
        PERFORM same(format('SELECT hv_first(c), hv_last(c), hv_at(c, %2$s) FROM (SELECT hv_column(%1$s ORDER BY n) AS c
                             FROM rf) x', plain, a),
                     format('SELECT (SELECT %1$s FROM rf WHERE %1$s IS NOT NULL ORDER BY n LIMIT 1),
                                    (SELECT %1$s FROM rf WHERE %1$s IS NOT NULL ORDER BY n DESC LIMIT 1),
                                    (SELECT %1$s FROM rf WHERE n = %2$s + 1)', plain, a));
        PERFORM same(format('SELECT hv_slice(hv_column(%s ORDER BY n), %s, %s)::text FROM rf', plain, a, b),
                     format('SELECT hv_column(%s ORDER BY n)::text FROM rf WHERE n > %s AND n <= %s', plain, a, b));
        PERFORM same(format('SELECT hv_concat(c ORDER BY g)::text
                             FROM (SELECT n / 7 AS g, hv_column(%s ORDER BY n) AS c FROM rf GROUP BY g) x', plain),
                     format('SELECT hv_column(%s ORDER BY n)::text FROM rf', plain));
        PERFORM same(format('SELECT hv_repeat(value, stop - start)::text FROM (SELECT u.* FROM (SELECT
                             hv_column(%s ORDER BY n) AS c FROM rf) x, hv_runs(c) u) y', plain),
                     format('SELECT hv_column(%s ORDER BY n)::text FROM rf', plain));
        PERFORM same(format('SELECT u.* FROM (SELECT hv_column(%s ORDER BY n) AS c FROM rf) x, hv_runs(c) u', plain),
            format('SELECT min(n) - 1, max(n), min(v) FROM (SELECT n, v, sum(s) OVER (ORDER BY n) AS g FROM (SELECT n,
                    v, (n = 1 OR b IS DISTINCT FROM lag(b) OVER (ORDER BY n))::int AS s
                    FROM (SELECT n, %1$s AS v, %2$s(%1$s) AS b FROM rf) w) y) z GROUP BY g ORDER BY g', plain,
                    CASE plain WHEN 'v' THEN 'float8send' ELSE 'float4send' END));
        PERFORM same(format('SELECT key, rows, count, sum, min + 0, max + 0, first, last FROM (SELECT
                             hv_column((n - 1) / 5 ORDER BY n) AS k, hv_column(%s ORDER BY n) AS c FROM rf) x,
                             hv_groups(k, c)', plain),
            format('SELECT (n - 1) / 5 AS g, count(*), count(%1$s), hv_sum(hv_column(%1$s)), min(%1$s) + 0,
                    max(%1$s) + 0, (array_agg(%1$s ORDER BY n) FILTER (WHERE %1$s IS NOT NULL))[1],
                    (array_agg(%1$s ORDER BY n DESC) FILTER (WHERE %1$s IS NOT NULL))[1]
                    FROM rf GROUP BY g ORDER BY g', plain));
        -- keys that are floats, by their bits; those of real as double precision
        PERFORM same(format('SELECT key, rows, count, sum, first FROM (SELECT hv_column(%s ORDER BY n) AS f,
                             hv_column(k ORDER BY n) AS c FROM rf) x, hv_groups(f, c)', plain),
            format('SELECT min(v), count(*), count(k), sum(k), (array_agg(k ORDER BY n) FILTER (WHERE k IS NOT NULL))[1]
                    FROM (SELECT n, v, k, sum(s) OVER (ORDER BY n) AS g FROM (SELECT n, v, k,
                    (n = 1 OR b IS DISTINCT FROM lag(b) OVER (ORDER BY n))::int AS s
                    FROM (SELECT n, k, %1$s::float8 AS v, %2$s(%1$s) AS b FROM rf) w) y) z GROUP BY g ORDER BY g', plain,
                    CASE plain WHEN 'v' THEN 'float8send' ELSE 'float4send' END));
        PERFORM same(format('SELECT m.key, m.min + 0, n.max + 0, c.count FROM (SELECT hv_column((n / 3)::float8
                             ORDER BY n) AS f, hv_column(%s ORDER BY n) AS c FROM rf) x, hv_min_by(f, c) m
                             JOIN LATERAL hv_max_by(f, c) n USING (key) JOIN LATERAL hv_count_by(f, c) c USING (key)
                             ORDER BY key', plain),
            format('SELECT (n / 3)::float8 AS key, min(%1$s)::float8 + 0, max(%1$s)::float8 + 0, count(%1$s) FROM rf
                    GROUP BY key ORDER BY key', plain));
        PERFORM same(format('SELECT key, s.sum, max + 0 FROM (SELECT hv_column(''k'' || (n - 1) / 5 ORDER BY n) AS k,
                             hv_column(%s ORDER BY n) AS c FROM rf) x, hv_text_sum_by(k, c) s
                             JOIN LATERAL hv_text_max_by(k, c) m USING (key) ORDER BY key COLLATE "C"', plain),
            format('SELECT ''k'' || (n - 1) / 5 AS key, hv_sum(hv_column(%1$s)), max(%1$s) + 0 FROM rf
                    GROUP BY key ORDER BY min((''k'' || (n - 1) / 5) COLLATE "C")', plain));
        FOREACH op IN ARRAY ARRAY['=', '<>', '<', '<=', '>', '>='] LOOP
            value := CASE WHEN wild THEN few[1 + floor(8 * random())::int]
                          ELSE (SELECT CASE plain WHEN 'v' THEN v ELSE r END FROM rf WHERE v IS NOT NULL
                                UNION ALL SELECT 0.5 LIMIT 1) END;
            PERFORM same(format('SELECT hv_filter(hv_column(%s ORDER BY n), %L, %L)::text FROM rf', plain, op, value),
                         format('SELECT hv_column(%s ORDER BY n)::text FROM rf WHERE %1$s %s %L::float8', plain, op,
                                value));
            PERFORM same(format('SELECT hv_compare(hv_column(%s ORDER BY n), %L, %L::float8)::text FROM rf', plain, op,
                                value),
                         format('SELECT hv_column(x ORDER BY n)::text FROM (SELECT n, (%s %s %L::float8)::int AS x
                                 FROM rf) y', plain, op, value));
            PERFORM same(format('SELECT hv_compare(hv_column(%s ORDER BY n), %L, hv_column(v ORDER BY -n))::text FROM rf',
                                plain, op),
                         format('SELECT hv_column(x ORDER BY n)::text FROM (SELECT rf.n, (rf.%s %s o.v)::int AS x FROM rf
                                 JOIN rf o ON rf.n + o.n = %s + 1) y', plain, op, rows));
        END LOOP;
    END LOOP;
    PERFORM same('SELECT hv_column(v ORDER BY n) = hv_column(v ORDER BY -n),
                         hv_column(v) = hv_column(CASE WHEN v = 0 THEN 0 - v ELSE v END) FROM rf',
                 format('SELECT bool_and(rf.v IS NOT DISTINCT FROM o.v), true FROM rf JOIN rf o
                         ON rf.n + o.n = %s + 1', rows));
    IF wild THEN
        -- infinities and NaNs are added as PostgreSQL adds them
        PERFORM same('SELECT hv_sum(c), hv_sum_all(c) FROM (SELECT hv_column(v) AS c FROM rf) x GROUP BY c',
                     'SELECT sum(v), sum(v) FROM rf')
        FROM rf WHERE v IN ('NaN', 'Infinity', '-Infinity') LIMIT 1;
    ELSE
        -- buckets in whole numbers of 2^-20
        FOREACH a IN ARRAY ARRAY[1, 262144, 1000003] LOOP
            PERFORM same(format('SELECT hv_buckets(hv_column(v ORDER BY n), %s / 1048576::float8, 0.125)::text
                                 FROM rf', a),
                format('SELECT hv_column((k - ((k - 131072) %% %1$s + %1$s) %% %1$s)::float8 / 1048576 ORDER BY n)::text
                        FROM rf', a));
            PERFORM same(format('SELECT hv_buckets(hv_column(r ORDER BY n), %s)::text FROM rf', a),
                format('SELECT hv_column((r::bigint - (r::bigint %% %1$s + %1$s) %% %1$s)::float8 ORDER BY n)::text
                        FROM rf', a));
        END LOOP;
        PERFORM same('SELECT hv_sum(hv_column(v)), hv_sum(hv_column(r)) FROM rf',
                     'SELECT sum(k)::double precision / 1048576, sum(k % 16777216)::double precision FROM rf');
        PERFORM same('SELECT hv_sum_all(c), hv_sum_all(d) FROM (SELECT hv_column(v) AS c, hv_column(r) AS d FROM rf
                      GROUP BY n % 5) x',
                     'SELECT sum(k)::double precision / 1048576, sum(k % 16777216)::double precision FROM rf');
    END IF;
END $$;
DO $$ BEGIN FOR i IN 1 .. 60 LOOP CALL check_floats(i % 2 = 0); END LOOP; END $$;

-- ---- Bytes with one changed: a column that answers, or a refusal ----
DO $$
DECLARE whole bytea; broken bytea; c hvfloat8; taken int := 0;
BEGIN
    SELECT hv_column(v ORDER BY n)::bytea FROM rf INTO whole;
    FOR i IN 1 .. 4000 LOOP
        broken := set_byte(whole, (i * 31) % length(whole), floor(256 * random())::int);
        BEGIN
            c := broken::hvfloat8;
            PERFORM hv_rows(c), hv_count(c), hv_min(c), hv_slice(c, 0, least(hv_rows(c), 3)), hv_filter(c, '<', 1);
            taken := taken + 1;
        EXCEPTION WHEN data_corrupted OR feature_not_supported OR datatype_mismatch THEN NULL;
        END;
    END LOOP;
    IF taken < 100 OR taken > 3900 THEN RAISE EXCEPTION '% of 4000 broken columns are taken', taken; END IF;
END $$;

-- ---- Binary copies go through receive and send ----
CREATE TABLE float_copy(LIKE fp);
\set file :folder '/floats'
COPY fp TO :'file' (FORMAT binary);
COPY float_copy FROM :'file' (FORMAT binary);
SELECT same('SELECT c::text, d::text FROM float_copy', 'SELECT c::text, d::text FROM fp') \g /dev/null

-- ---- Parallel plans: the sum of columns is exact, whichever worker has which, and rows are joined by parts ----
CREATE TABLE float_rows(n int, v double precision, r real);
INSERT INTO float_rows SELECT i, CASE i % 3 WHEN 0 THEN 1e100 WHEN 1 THEN -1e100 ELSE 0.5 END,
    CASE i % 3 WHEN 0 THEN 1e30 WHEN 1 THEN -1e30 ELSE 0.25 END FROM generate_series(0, 149999) i;
CREATE TABLE float_parts AS SELECT n / 100 AS part, hv_column(v ORDER BY n) AS c, hv_column(r ORDER BY n) AS d
    FROM float_rows GROUP BY part;
ANALYZE float_rows, float_parts;
SET parallel_setup_cost = 0;
SET parallel_tuple_cost = 0;
SET min_parallel_table_scan_size = 0;
SET max_parallel_workers_per_gather = 4;
DO $$
DECLARE line text; plan text := '';
BEGIN
    FOR line IN EXPLAIN (ANALYZE, COSTS off, TIMING off, SUMMARY off) SELECT hv_sum_all(c) FROM float_parts LOOP
        plan := plan || line || E'\n';
    END LOOP;
    IF plan !~ 'Finalize Aggregate.*Gather.*Workers Launched: [1-9].*Partial Aggregate' THEN
        RAISE EXCEPTION 'no parallel plan: %', plan;
    END IF;
    FOR i IN 1 .. 5 LOOP
        PERFORM same('SELECT hv_sum_all(c), hv_sum_all(d) FROM float_parts', 'SELECT 25000, 12500');
        PERFORM same('SELECT hv_rows(c), hv_sum(c), hv_min(c), hv_max(c)
                      FROM (SELECT hv_column(v) AS c FROM float_rows) x',
                     'SELECT count(*), 25000, min(v), max(v) FROM float_rows');
        PERFORM same('SELECT md5(hv_concat(c ORDER BY part)::text) FROM float_parts',
                     'SELECT md5(hv_column(v ORDER BY n)::text) FROM float_rows');
    END LOOP;
END $$;

-- ---- Memory after calls that fail, in a new process of the server ----
\connect
CREATE PROCEDURE fail_on_floats(times int) LANGUAGE plpgsql AS $$
DECLARE c hvfloat8; d hvfloat4; e hvcolumn;
BEGIN
    SELECT fp.c, fp.d, p.c FROM fp, p INTO c, d, e;
    FOR i IN 1 .. times LOOP
        BEGIN
            CASE i % 10
            WHEN 0 THEN PERFORM hv_slice(c, 2, 12);
            WHEN 1 THEN PERFORM hv_filter(d, hv_slice(e, 0, 2));
            WHEN 2 THEN PERFORM hv_compare(c, '<', hv_slice(d, 0, 2)::hvfloat8);
            WHEN 3 THEN PERFORM d::bytea::hvfloat8;
            WHEN 4 THEN PERFORM c::bytea::hvcolumn;
            WHEN 5 THEN PERFORM hv_sum(hv_repeat(1e308, 2));
            WHEN 6 THEN PERFORM hv_sum_all(x) FROM (VALUES (hv_append(c, '-Infinity', 1)), ('\x00')) v(x);
            WHEN 7 THEN PERFORM g.* FROM hv_groups(e, c) g;
            WHEN 8 THEN PERFORM hv_column(1.5 / (3 - g)) FROM generate_series(1, 3) g;
            ELSE PERFORM hv_append(c, 1.5, -1);
            END CASE;
            RAISE EXCEPTION 'call % was not refused', i;
        EXCEPTION WHEN array_subscript_error OR datatype_mismatch OR division_by_zero OR data_corrupted OR
                  numeric_value_out_of_range OR invalid_parameter_value THEN NULL;
        END;
    END LOOP;
END $$;
CALL fail_on_floats(2000);
SELECT own_pages() AS before \gset
CALL fail_on_floats(20000);
SELECT own_pages() AS after \gset
SELECT CASE WHEN :after - :before > 100 THEN 1 / 0 END \g /dev/null
SELECT format('PostgreSQL: columns of real and of double precision as over rows, and 20000 calls that fail take %s KiB',
    (:after - :before) * 4);

-- ---- Another server (this one, by its socket) filters the columns that it has ----
CREATE EXTENSION postgres_fdw;
CREATE SERVER other FOREIGN DATA WRAPPER postgres_fdw
    OPTIONS (host :'folder', dbname 'postgres', extensions 'hivevigil');
CREATE USER MAPPING FOR CURRENT_USER SERVER other OPTIONS (user 'tester');
CREATE FOREIGN TABLE far_floats(c hvfloat8, d hvfloat4) SERVER other OPTIONS (table_name 'fp');
SELECT same('SELECT hv_min(c), hv_sum_all(hv_slice(d, 0, 4)) FROM far_floats WHERE hv_rows(hv_filter(c, ''>'', 1)) = 3
             GROUP BY c', 'SELECT hv_min(c), hv_sum(hv_slice(d, 0, 4)) FROM fp') \g /dev/null
DO $$
DECLARE line text;
BEGIN
    FOR line IN EXPLAIN (VERBOSE, COSTS OFF) SELECT c FROM far_floats WHERE hv_rows(hv_filter(c, '>', 1)) = 3 LOOP
        IF line LIKE '%Remote SQL:%hv_filter%' THEN RETURN; END IF;
    END LOOP;
    RAISE EXCEPTION 'the filter is not sent to the other server';
END $$;
SET client_min_messages = warning;
DROP EXTENSION postgres_fdw CASCADE;
