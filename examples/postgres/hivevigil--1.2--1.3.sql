-- What reads a column serves floats too: groups by keys that are floats, buckets, and the logical type.
\echo Use "ALTER EXTENSION hivevigil UPDATE TO '1.3'" to load this file. \quit

-- 'f' and 'g', and no other type: a cast to it leaves the column as it is
CREATE FUNCTION hv_logical_type(hvfloat4) RETURNS text LANGUAGE sql IMMUTABLE STRICT PARALLEL SAFE AS $$SELECT 'f'$$;
CREATE FUNCTION hv_logical_type(hvfloat8) RETURNS text LANGUAGE sql IMMUTABLE STRICT PARALLEL SAFE AS $$SELECT 'g'$$;
CREATE FUNCTION hv_cast(hvfloat4, logical_type text) RETURNS hvfloat4
    AS 'MODULE_PATHNAME', 'pg_hv_cast_float4' LANGUAGE C IMMUTABLE STRICT PARALLEL SAFE COST 100;
CREATE FUNCTION hv_cast(hvfloat8, logical_type text) RETURNS hvfloat8
    AS 'MODULE_PATHNAME', 'pg_hv_cast_float8' LANGUAGE C IMMUTABLE STRICT PARALLEL SAFE COST 100;

-- where the last bucket begins that does not begin above the row; infinities and NaNs stay
CREATE FUNCTION hv_buckets(hvfloat8, width double precision, origin double precision DEFAULT 0) RETURNS hvfloat8
    AS 'MODULE_PATHNAME', 'pg_hv_buckets_floats' LANGUAGE C IMMUTABLE STRICT PARALLEL SAFE COST 100;

-- Groups by runs of equal floats, by their bits: 0.0 and -0.0 are two keys. A key of real becomes a double precision.
CREATE FUNCTION hv_groups(keys hvfloat8, vals hvcolumn, OUT key double precision, OUT rows bigint, OUT count bigint,
        OUT sum bigint, OUT min bigint, OUT max bigint, OUT first bigint, OUT last bigint)
    RETURNS SETOF record
    AS 'MODULE_PATHNAME', 'pg_hv_groups_floats' LANGUAGE C IMMUTABLE STRICT PARALLEL SAFE COST 100 ROWS 1000;
CREATE FUNCTION hv_sum_by(keys hvfloat8, vals hvcolumn, OUT key double precision, OUT sum bigint)
        RETURNS SETOF record
    AS 'MODULE_PATHNAME', 'pg_hv_sum_by_floats' LANGUAGE C IMMUTABLE STRICT PARALLEL SAFE COST 100 ROWS 1000;
CREATE FUNCTION hv_count_by(keys hvfloat8, vals hvcolumn, OUT key double precision, OUT count bigint)
        RETURNS SETOF record
    AS 'MODULE_PATHNAME', 'pg_hv_count_by_floats' LANGUAGE C IMMUTABLE STRICT PARALLEL SAFE COST 100 ROWS 1000;
CREATE FUNCTION hv_min_by(keys hvfloat8, vals hvcolumn, OUT key double precision, OUT min bigint)
        RETURNS SETOF record
    AS 'MODULE_PATHNAME', 'pg_hv_min_by_floats' LANGUAGE C IMMUTABLE STRICT PARALLEL SAFE COST 100 ROWS 1000;
CREATE FUNCTION hv_max_by(keys hvfloat8, vals hvcolumn, OUT key double precision, OUT max bigint)
        RETURNS SETOF record
    AS 'MODULE_PATHNAME', 'pg_hv_max_by_floats' LANGUAGE C IMMUTABLE STRICT PARALLEL SAFE COST 100 ROWS 1000;
CREATE FUNCTION hv_groups(keys hvfloat8, vals hvfloat8, OUT key double precision, OUT rows bigint, OUT count bigint,
        OUT sum double precision, OUT min double precision, OUT max double precision, OUT first double precision, OUT last double precision)
    RETURNS SETOF record
    AS 'MODULE_PATHNAME', 'pg_hv_groups_floats' LANGUAGE C IMMUTABLE STRICT PARALLEL SAFE COST 100 ROWS 1000;
CREATE FUNCTION hv_sum_by(keys hvfloat8, vals hvfloat8, OUT key double precision, OUT sum double precision)
        RETURNS SETOF record
    AS 'MODULE_PATHNAME', 'pg_hv_sum_by_floats' LANGUAGE C IMMUTABLE STRICT PARALLEL SAFE COST 100 ROWS 1000;
CREATE FUNCTION hv_count_by(keys hvfloat8, vals hvfloat8, OUT key double precision, OUT count bigint)
        RETURNS SETOF record
    AS 'MODULE_PATHNAME', 'pg_hv_count_by_floats' LANGUAGE C IMMUTABLE STRICT PARALLEL SAFE COST 100 ROWS 1000;
CREATE FUNCTION hv_min_by(keys hvfloat8, vals hvfloat8, OUT key double precision, OUT min double precision)
        RETURNS SETOF record
    AS 'MODULE_PATHNAME', 'pg_hv_min_by_floats' LANGUAGE C IMMUTABLE STRICT PARALLEL SAFE COST 100 ROWS 1000;
CREATE FUNCTION hv_max_by(keys hvfloat8, vals hvfloat8, OUT key double precision, OUT max double precision)
        RETURNS SETOF record
    AS 'MODULE_PATHNAME', 'pg_hv_max_by_floats' LANGUAGE C IMMUTABLE STRICT PARALLEL SAFE COST 100 ROWS 1000;
