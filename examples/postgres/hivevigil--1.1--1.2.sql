-- The logical type that the bytes of a column keep: dates, times of a day, timestamps and durations in any unit.
\echo Use "ALTER EXTENSION hivevigil UPDATE TO '1.2'" to load this file. \quit

-- its format in Arrow, null where the column has none
CREATE FUNCTION hv_logical_type(hvcolumn) RETURNS text
    AS 'MODULE_PATHNAME', 'pg_hv_logical_type' LANGUAGE C IMMUTABLE STRICT PARALLEL SAFE COST 100;
-- the same times as numbers of another, exactly or refused with the row; '' takes the type away
CREATE FUNCTION hv_cast(hvcolumn, logical_type text) RETURNS hvcolumn
    AS 'MODULE_PATHNAME', 'pg_hv_cast' LANGUAGE C IMMUTABLE STRICT PARALLEL SAFE COST 100;

-- what a number of microseconds says
CREATE FUNCTION hv_time(number bigint) RETURNS time
    AS 'MODULE_PATHNAME', 'pg_hv_time_of_number' LANGUAGE C IMMUTABLE STRICT PARALLEL SAFE;
CREATE FUNCTION hv_interval(number bigint) RETURNS interval
    AS 'MODULE_PATHNAME', 'pg_hv_interval_of_number' LANGUAGE C IMMUTABLE STRICT PARALLEL SAFE;

-- a row for each run, of the column as hv_cast makes it one of 'tdD', 'ttu', 'tsu:', 'tsu:UTC' and 'tDu'
CREATE FUNCTION hv_date_runs(hvcolumn, OUT start bigint, OUT stop bigint, OUT value date) RETURNS SETOF record
    AS 'MODULE_PATHNAME', 'pg_hv_runs_dates' LANGUAGE C IMMUTABLE STRICT PARALLEL SAFE COST 100 ROWS 1000;
CREATE FUNCTION hv_time_runs(hvcolumn, OUT start bigint, OUT stop bigint, OUT value time) RETURNS SETOF record
    AS 'MODULE_PATHNAME', 'pg_hv_runs_times' LANGUAGE C IMMUTABLE STRICT PARALLEL SAFE COST 100 ROWS 1000;
CREATE FUNCTION hv_timestamp_runs(hvcolumn, OUT start bigint, OUT stop bigint, OUT value timestamp)
        RETURNS SETOF record
    AS 'MODULE_PATHNAME', 'pg_hv_runs_timestamps' LANGUAGE C IMMUTABLE STRICT PARALLEL SAFE COST 100 ROWS 1000;
CREATE FUNCTION hv_timestamptz_runs(hvcolumn, OUT start bigint, OUT stop bigint, OUT value timestamptz)
        RETURNS SETOF record
    AS 'MODULE_PATHNAME', 'pg_hv_runs_timestamptzs' LANGUAGE C IMMUTABLE STRICT PARALLEL SAFE COST 100 ROWS 1000;
CREATE FUNCTION hv_interval_runs(hvcolumn, OUT start bigint, OUT stop bigint, OUT value interval)
        RETURNS SETOF record
    AS 'MODULE_PATHNAME', 'pg_hv_runs_intervals' LANGUAGE C IMMUTABLE STRICT PARALLEL SAFE COST 100 ROWS 1000;
