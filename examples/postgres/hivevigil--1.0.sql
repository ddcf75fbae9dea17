-- A column in runs, of bigint or of text, with null. What reads a column costs a hundred operators on numbers.
\echo Use "CREATE EXTENSION hivevigil" to load this file. \quit

CREATE TYPE hvcolumn;
CREATE FUNCTION hvcolumn_in(cstring) RETURNS hvcolumn
    AS 'MODULE_PATHNAME', 'pg_hvcolumn_in' LANGUAGE C IMMUTABLE STRICT PARALLEL SAFE;
CREATE FUNCTION hvcolumn_out(hvcolumn) RETURNS cstring
    AS 'MODULE_PATHNAME', 'pg_hvcolumn_out' LANGUAGE C IMMUTABLE STRICT PARALLEL SAFE;
CREATE FUNCTION hvcolumn_receive(internal) RETURNS hvcolumn
    AS 'MODULE_PATHNAME', 'pg_hvcolumn_receive' LANGUAGE C IMMUTABLE STRICT PARALLEL SAFE;
CREATE FUNCTION hvcolumn_send(hvcolumn) RETURNS bytea
    AS 'MODULE_PATHNAME', 'pg_hvcolumn_send' LANGUAGE C IMMUTABLE STRICT PARALLEL SAFE;
CREATE FUNCTION hvcolumn_analyze(internal) RETURNS boolean
    AS 'MODULE_PATHNAME', 'pg_hvcolumn_analyze' LANGUAGE C STRICT;
CREATE TYPE hvcolumn (
    INPUT = hvcolumn_in, OUTPUT = hvcolumn_out, RECEIVE = hvcolumn_receive, SEND = hvcolumn_send,
    ANALYZE = hvcolumn_analyze, INTERNALLENGTH = VARIABLE, STORAGE = extended
);

-- bytes that are a column, and the bytes of a column
CREATE FUNCTION hvcolumn(bytea) RETURNS hvcolumn
    AS 'MODULE_PATHNAME', 'pg_hvcolumn_of_bytes' LANGUAGE C IMMUTABLE STRICT PARALLEL SAFE;
CREATE CAST (bytea AS hvcolumn) WITH FUNCTION hvcolumn(bytea);
CREATE CAST (hvcolumn AS bytea) WITHOUT FUNCTION;

CREATE FUNCTION hv_rows(hvcolumn) RETURNS bigint
    AS 'MODULE_PATHNAME', 'pg_hv_rows' LANGUAGE C IMMUTABLE STRICT PARALLEL SAFE COST 100;
CREATE FUNCTION hv_count(hvcolumn) RETURNS bigint
    AS 'MODULE_PATHNAME', 'pg_hv_count' LANGUAGE C IMMUTABLE STRICT PARALLEL SAFE COST 100;
CREATE FUNCTION hv_sum(hvcolumn) RETURNS bigint
    AS 'MODULE_PATHNAME', 'pg_hv_sum' LANGUAGE C IMMUTABLE STRICT PARALLEL SAFE COST 100;
CREATE FUNCTION hv_min(hvcolumn) RETURNS bigint
    AS 'MODULE_PATHNAME', 'pg_hv_min' LANGUAGE C IMMUTABLE STRICT PARALLEL SAFE COST 100;
CREATE FUNCTION hv_max(hvcolumn) RETURNS bigint
    AS 'MODULE_PATHNAME', 'pg_hv_max' LANGUAGE C IMMUTABLE STRICT PARALLEL SAFE COST 100;
CREATE FUNCTION hv_at(hvcolumn, bigint) RETURNS bigint
    AS 'MODULE_PATHNAME', 'pg_hv_at' LANGUAGE C IMMUTABLE STRICT PARALLEL SAFE COST 100;
-- the first row that is not null, and the last
CREATE FUNCTION hv_first(hvcolumn) RETURNS bigint
    AS 'MODULE_PATHNAME', 'pg_hv_first' LANGUAGE C IMMUTABLE STRICT PARALLEL SAFE COST 100;
CREATE FUNCTION hv_last(hvcolumn) RETURNS bigint
    AS 'MODULE_PATHNAME', 'pg_hv_last' LANGUAGE C IMMUTABLE STRICT PARALLEL SAFE COST 100;
-- the same of columns of texts
CREATE FUNCTION hv_first_text(hvcolumn) RETURNS text
    AS 'MODULE_PATHNAME', 'pg_hv_first_text' LANGUAGE C IMMUTABLE STRICT PARALLEL SAFE COST 100;
CREATE FUNCTION hv_last_text(hvcolumn) RETURNS text
    AS 'MODULE_PATHNAME', 'pg_hv_last_text' LANGUAGE C IMMUTABLE STRICT PARALLEL SAFE COST 100;
CREATE FUNCTION hv_min_text(hvcolumn) RETURNS text
    AS 'MODULE_PATHNAME', 'pg_hv_min_text' LANGUAGE C IMMUTABLE STRICT PARALLEL SAFE COST 100;
CREATE FUNCTION hv_max_text(hvcolumn) RETURNS text
    AS 'MODULE_PATHNAME', 'pg_hv_max_text' LANGUAGE C IMMUTABLE STRICT PARALLEL SAFE COST 100;
CREATE FUNCTION hv_at_text(hvcolumn, bigint) RETURNS text
    AS 'MODULE_PATHNAME', 'pg_hv_at_text' LANGUAGE C IMMUTABLE STRICT PARALLEL SAFE COST 100;

CREATE FUNCTION hv_slice(hvcolumn, start bigint, stop bigint) RETURNS hvcolumn
    AS 'MODULE_PATHNAME', 'pg_hv_slice' LANGUAGE C IMMUTABLE STRICT PARALLEL SAFE COST 100;
-- an enum, so that a condition may be sent to another server by postgres_fdw: a text has a collation, which may not
CREATE TYPE hv_operator AS ENUM ('=', '<>', '>', '>=', '<', '<=');
CREATE FUNCTION hv_filter(hvcolumn, operator hv_operator, value bigint) RETURNS hvcolumn
    AS 'MODULE_PATHNAME', 'pg_hv_filter_numbers' LANGUAGE C IMMUTABLE PARALLEL SAFE COST 100;
CREATE FUNCTION hv_filter(hvcolumn, operator hv_operator, value text) RETURNS hvcolumn
    AS 'MODULE_PATHNAME', 'pg_hv_filter_texts' LANGUAGE C IMMUTABLE PARALLEL SAFE COST 100;
CREATE FUNCTION hv_runs(hvcolumn, OUT start bigint, OUT stop bigint, OUT value bigint) RETURNS SETOF record
    AS 'MODULE_PATHNAME', 'pg_hv_runs_numbers' LANGUAGE C IMMUTABLE STRICT PARALLEL SAFE COST 100 ROWS 1000;
CREATE FUNCTION hv_text_runs(hvcolumn, OUT start bigint, OUT stop bigint, OUT value text) RETURNS SETOF record
    AS 'MODULE_PATHNAME', 'pg_hv_runs_texts' LANGUAGE C IMMUTABLE STRICT PARALLEL SAFE COST 100 ROWS 1000;

-- What the values are in each run of equal neighbouring keys: values are numbers.
CREATE FUNCTION hv_groups(keys hvcolumn, vals hvcolumn, OUT key bigint, OUT rows bigint, OUT count bigint,
        OUT sum bigint, OUT min bigint, OUT max bigint, OUT first bigint, OUT last bigint) RETURNS SETOF record
    AS 'MODULE_PATHNAME', 'pg_hv_groups_numbers' LANGUAGE C IMMUTABLE STRICT PARALLEL SAFE COST 100 ROWS 1000;
CREATE FUNCTION hv_text_groups(keys hvcolumn, vals hvcolumn, OUT key text, OUT rows bigint, OUT count bigint,
        OUT sum bigint, OUT min bigint, OUT max bigint, OUT first bigint, OUT last bigint) RETURNS SETOF record
    AS 'MODULE_PATHNAME', 'pg_hv_groups_texts' LANGUAGE C IMMUTABLE STRICT PARALLEL SAFE COST 100 ROWS 1000;

-- the same of one question, at the cost of that one
CREATE FUNCTION hv_sum_by(keys hvcolumn, vals hvcolumn, OUT key bigint, OUT sum bigint) RETURNS SETOF record
    AS 'MODULE_PATHNAME', 'pg_hv_sum_by_numbers' LANGUAGE C IMMUTABLE STRICT PARALLEL SAFE COST 100 ROWS 1000;
CREATE FUNCTION hv_text_sum_by(keys hvcolumn, vals hvcolumn, OUT key text, OUT sum bigint) RETURNS SETOF record
    AS 'MODULE_PATHNAME', 'pg_hv_sum_by_texts' LANGUAGE C IMMUTABLE STRICT PARALLEL SAFE COST 100 ROWS 1000;
CREATE FUNCTION hv_count_by(keys hvcolumn, vals hvcolumn, OUT key bigint, OUT count bigint) RETURNS SETOF record
    AS 'MODULE_PATHNAME', 'pg_hv_count_by_numbers' LANGUAGE C IMMUTABLE STRICT PARALLEL SAFE COST 100 ROWS 1000;
CREATE FUNCTION hv_text_count_by(keys hvcolumn, vals hvcolumn, OUT key text, OUT count bigint) RETURNS SETOF record
    AS 'MODULE_PATHNAME', 'pg_hv_count_by_texts' LANGUAGE C IMMUTABLE STRICT PARALLEL SAFE COST 100 ROWS 1000;
CREATE FUNCTION hv_min_by(keys hvcolumn, vals hvcolumn, OUT key bigint, OUT min bigint) RETURNS SETOF record
    AS 'MODULE_PATHNAME', 'pg_hv_min_by_numbers' LANGUAGE C IMMUTABLE STRICT PARALLEL SAFE COST 100 ROWS 1000;
CREATE FUNCTION hv_text_min_by(keys hvcolumn, vals hvcolumn, OUT key text, OUT min bigint) RETURNS SETOF record
    AS 'MODULE_PATHNAME', 'pg_hv_min_by_texts' LANGUAGE C IMMUTABLE STRICT PARALLEL SAFE COST 100 ROWS 1000;
CREATE FUNCTION hv_max_by(keys hvcolumn, vals hvcolumn, OUT key bigint, OUT max bigint) RETURNS SETOF record
    AS 'MODULE_PATHNAME', 'pg_hv_max_by_numbers' LANGUAGE C IMMUTABLE STRICT PARALLEL SAFE COST 100 ROWS 1000;
CREATE FUNCTION hv_text_max_by(keys hvcolumn, vals hvcolumn, OUT key text, OUT max bigint) RETURNS SETOF record
    AS 'MODULE_PATHNAME', 'pg_hv_max_by_texts' LANGUAGE C IMMUTABLE STRICT PARALLEL SAFE COST 100 ROWS 1000;

-- Two columns worked row by row, or a column and a value. A truth is 1 or 0, and any number but 0 is true.
CREATE FUNCTION hv_add(hvcolumn, hvcolumn) RETURNS hvcolumn
    AS 'MODULE_PATHNAME', 'pg_hv_add' LANGUAGE C IMMUTABLE STRICT PARALLEL SAFE COST 100;
CREATE FUNCTION hv_add(hvcolumn, bigint) RETURNS hvcolumn
    AS 'MODULE_PATHNAME', 'pg_hv_add_number' LANGUAGE C IMMUTABLE STRICT PARALLEL SAFE COST 100;
CREATE FUNCTION hv_subtract(hvcolumn, hvcolumn) RETURNS hvcolumn
    AS 'MODULE_PATHNAME', 'pg_hv_subtract' LANGUAGE C IMMUTABLE STRICT PARALLEL SAFE COST 100;
CREATE FUNCTION hv_subtract(hvcolumn, bigint) RETURNS hvcolumn
    AS 'MODULE_PATHNAME', 'pg_hv_subtract_number' LANGUAGE C IMMUTABLE STRICT PARALLEL SAFE COST 100;
CREATE FUNCTION hv_multiply(hvcolumn, hvcolumn) RETURNS hvcolumn
    AS 'MODULE_PATHNAME', 'pg_hv_multiply' LANGUAGE C IMMUTABLE STRICT PARALLEL SAFE COST 100;
CREATE FUNCTION hv_multiply(hvcolumn, bigint) RETURNS hvcolumn
    AS 'MODULE_PATHNAME', 'pg_hv_multiply_number' LANGUAGE C IMMUTABLE STRICT PARALLEL SAFE COST 100;
CREATE FUNCTION hv_and(hvcolumn, hvcolumn) RETURNS hvcolumn
    AS 'MODULE_PATHNAME', 'pg_hv_and' LANGUAGE C IMMUTABLE STRICT PARALLEL SAFE COST 100;
CREATE FUNCTION hv_or(hvcolumn, hvcolumn) RETURNS hvcolumn
    AS 'MODULE_PATHNAME', 'pg_hv_or' LANGUAGE C IMMUTABLE STRICT PARALLEL SAFE COST 100;
CREATE FUNCTION hv_not(hvcolumn) RETURNS hvcolumn
    AS 'MODULE_PATHNAME', 'pg_hv_not' LANGUAGE C IMMUTABLE STRICT PARALLEL SAFE COST 100;
CREATE FUNCTION hv_compare(hvcolumn, operator hv_operator, hvcolumn) RETURNS hvcolumn
    AS 'MODULE_PATHNAME', 'pg_hv_compare' LANGUAGE C IMMUTABLE STRICT PARALLEL SAFE COST 100;
CREATE FUNCTION hv_compare(hvcolumn, operator hv_operator, value bigint) RETURNS hvcolumn
    AS 'MODULE_PATHNAME', 'pg_hv_compare_number' LANGUAGE C IMMUTABLE STRICT PARALLEL SAFE COST 100;
CREATE FUNCTION hv_compare(hvcolumn, operator hv_operator, value text) RETURNS hvcolumn
    AS 'MODULE_PATHNAME', 'pg_hv_compare_text' LANGUAGE C IMMUTABLE STRICT PARALLEL SAFE COST 100;
CREATE FUNCTION hv_filter(hvcolumn, mask hvcolumn) RETURNS hvcolumn
    AS 'MODULE_PATHNAME', 'pg_hv_filter_mask' LANGUAGE C IMMUTABLE STRICT PARALLEL SAFE COST 100;

-- `count` more rows of a value at the end; a null value is that many nulls
CREATE FUNCTION hv_append(hvcolumn, value bigint, count bigint) RETURNS hvcolumn
    AS 'MODULE_PATHNAME', 'pg_hv_append_number' LANGUAGE C IMMUTABLE PARALLEL SAFE COST 100;
CREATE FUNCTION hv_append(hvcolumn, value text, count bigint) RETURNS hvcolumn
    AS 'MODULE_PATHNAME', 'pg_hv_append_text' LANGUAGE C IMMUTABLE PARALLEL SAFE COST 100;

-- Each row that is not null as its difference to the one before, and back; and the bucket of each row, or of each row of
-- hv_totals, by where the bucket begins: origin + k * width.
CREATE FUNCTION hv_steps(hvcolumn) RETURNS hvcolumn
    AS 'MODULE_PATHNAME', 'pg_hv_steps' LANGUAGE C IMMUTABLE STRICT PARALLEL SAFE COST 100;
CREATE FUNCTION hv_totals(steps hvcolumn) RETURNS hvcolumn
    AS 'MODULE_PATHNAME', 'pg_hv_totals' LANGUAGE C IMMUTABLE STRICT PARALLEL SAFE COST 100;
CREATE FUNCTION hv_buckets(hvcolumn, width bigint, origin bigint DEFAULT 0) RETURNS hvcolumn
    AS 'MODULE_PATHNAME', 'pg_hv_buckets' LANGUAGE C IMMUTABLE STRICT PARALLEL SAFE COST 100;
CREATE FUNCTION hv_step_buckets(steps hvcolumn, width bigint, origin bigint DEFAULT 0) RETURNS hvcolumn
    AS 'MODULE_PATHNAME', 'pg_hv_step_buckets' LANGUAGE C IMMUTABLE STRICT PARALLEL SAFE COST 100;

-- Booleans are kept as 1 and 0, dates as days from 1970-01-01 on, timestamps as microseconds from 1970-01-01 00:00 on, in
-- UTC where they have a time zone: the number that a column has, and back.
CREATE FUNCTION hv_number(boolean) RETURNS bigint
    AS 'MODULE_PATHNAME', 'pg_hv_number_of_boolean' LANGUAGE C IMMUTABLE STRICT PARALLEL SAFE;
CREATE FUNCTION hv_number(date) RETURNS bigint
    AS 'MODULE_PATHNAME', 'pg_hv_number_of_date' LANGUAGE C IMMUTABLE STRICT PARALLEL SAFE;
CREATE FUNCTION hv_number(timestamp) RETURNS bigint
    AS 'MODULE_PATHNAME', 'pg_hv_number_of_time' LANGUAGE C IMMUTABLE STRICT PARALLEL SAFE;
CREATE FUNCTION hv_number(timestamptz) RETURNS bigint
    AS 'MODULE_PATHNAME', 'pg_hv_number_of_time' LANGUAGE C IMMUTABLE STRICT PARALLEL SAFE;
CREATE FUNCTION hv_number(interval) RETURNS bigint
    AS 'MODULE_PATHNAME', 'pg_hv_number_of_interval' LANGUAGE C IMMUTABLE STRICT PARALLEL SAFE;
CREATE FUNCTION hv_date(number bigint) RETURNS date
    AS 'MODULE_PATHNAME', 'pg_hv_date_of_number' LANGUAGE C IMMUTABLE STRICT PARALLEL SAFE;
CREATE FUNCTION hv_timestamp(number bigint) RETURNS timestamp
    AS 'MODULE_PATHNAME', 'pg_hv_timestamp_of_number' LANGUAGE C IMMUTABLE STRICT PARALLEL SAFE;
CREATE FUNCTION hv_timestamptz(number bigint) RETURNS timestamptz
    AS 'MODULE_PATHNAME', 'pg_hv_timestamptz_of_number' LANGUAGE C IMMUTABLE STRICT PARALLEL SAFE;

-- Equality by rows, for DISTINCT, GROUP BY, joins and hash indexes. Columns have no order.
CREATE FUNCTION hv_equal(hvcolumn, hvcolumn) RETURNS boolean
    AS 'MODULE_PATHNAME', 'pg_hv_equal' LANGUAGE C IMMUTABLE STRICT PARALLEL SAFE COST 100;
CREATE FUNCTION hv_unequal(hvcolumn, hvcolumn) RETURNS boolean
    AS 'MODULE_PATHNAME', 'pg_hv_unequal' LANGUAGE C IMMUTABLE STRICT PARALLEL SAFE COST 100;
CREATE FUNCTION hv_hash(hvcolumn) RETURNS integer
    AS 'MODULE_PATHNAME', 'pg_hv_hash' LANGUAGE C IMMUTABLE STRICT PARALLEL SAFE COST 100;
CREATE FUNCTION hv_hash_extended(hvcolumn, bigint) RETURNS bigint
    AS 'MODULE_PATHNAME', 'pg_hv_hash_extended' LANGUAGE C IMMUTABLE STRICT PARALLEL SAFE COST 100;
CREATE OPERATOR = (
    LEFTARG = hvcolumn, RIGHTARG = hvcolumn, FUNCTION = hv_equal, COMMUTATOR = =, NEGATOR = <>,
    RESTRICT = eqsel, JOIN = eqjoinsel, HASHES
);
CREATE OPERATOR <> (
    LEFTARG = hvcolumn, RIGHTARG = hvcolumn, FUNCTION = hv_unequal, COMMUTATOR = <>, NEGATOR = =,
    RESTRICT = neqsel, JOIN = neqjoinsel
);
CREATE OPERATOR CLASS hvcolumn_ops DEFAULT FOR TYPE hvcolumn USING hash AS
    OPERATOR 1 =, FUNCTION 1 hv_hash(hvcolumn), FUNCTION 2 hv_hash_extended(hvcolumn, bigint);

-- Aggregates. Each worker of a parallel plan joins its part, and the parts are joined as they come: the rows of such a
-- column stand in no order that is promised. hv_column(value ORDER BY ..) is made by one process, in that order.
CREATE FUNCTION hv_step(internal, bigint) RETURNS internal
    AS 'MODULE_PATHNAME', 'pg_hv_step_number' LANGUAGE C IMMUTABLE PARALLEL SAFE;
CREATE FUNCTION hv_step(internal, text) RETURNS internal
    AS 'MODULE_PATHNAME', 'pg_hv_step_text' LANGUAGE C IMMUTABLE PARALLEL SAFE;
CREATE FUNCTION hv_step(internal, boolean) RETURNS internal
    AS 'MODULE_PATHNAME', 'pg_hv_step_boolean' LANGUAGE C IMMUTABLE PARALLEL SAFE;
CREATE FUNCTION hv_step(internal, date) RETURNS internal
    AS 'MODULE_PATHNAME', 'pg_hv_step_date' LANGUAGE C IMMUTABLE PARALLEL SAFE;
CREATE FUNCTION hv_step(internal, timestamp) RETURNS internal
    AS 'MODULE_PATHNAME', 'pg_hv_step_time' LANGUAGE C IMMUTABLE PARALLEL SAFE;
CREATE FUNCTION hv_step(internal, timestamptz) RETURNS internal
    AS 'MODULE_PATHNAME', 'pg_hv_step_time' LANGUAGE C IMMUTABLE PARALLEL SAFE;
CREATE FUNCTION hv_step(internal, bigint, count bigint) RETURNS internal
    AS 'MODULE_PATHNAME', 'pg_hv_step_numbers' LANGUAGE C IMMUTABLE PARALLEL SAFE;
CREATE FUNCTION hv_step(internal, text, count bigint) RETURNS internal
    AS 'MODULE_PATHNAME', 'pg_hv_step_texts' LANGUAGE C IMMUTABLE PARALLEL SAFE;
CREATE FUNCTION hv_step(internal, hvcolumn) RETURNS internal
    AS 'MODULE_PATHNAME', 'pg_hv_step_column' LANGUAGE C IMMUTABLE PARALLEL SAFE COST 100;
CREATE FUNCTION hv_final(internal) RETURNS hvcolumn
    AS 'MODULE_PATHNAME', 'pg_hv_final' LANGUAGE C IMMUTABLE PARALLEL SAFE;
CREATE FUNCTION hv_combine(internal, internal) RETURNS internal
    AS 'MODULE_PATHNAME', 'pg_hv_combine' LANGUAGE C IMMUTABLE PARALLEL SAFE;
CREATE FUNCTION hv_serial(internal) RETURNS bytea
    AS 'MODULE_PATHNAME', 'pg_hv_serial' LANGUAGE C IMMUTABLE STRICT PARALLEL SAFE;
CREATE FUNCTION hv_deserial(bytea, internal) RETURNS internal
    AS 'MODULE_PATHNAME', 'pg_hv_deserial' LANGUAGE C IMMUTABLE STRICT PARALLEL SAFE;

CREATE AGGREGATE hv_column(bigint) (
    SFUNC = hv_step, STYPE = internal, FINALFUNC = hv_final,
    COMBINEFUNC = hv_combine, SERIALFUNC = hv_serial, DESERIALFUNC = hv_deserial, PARALLEL = SAFE
);
CREATE AGGREGATE hv_column(text) (
    SFUNC = hv_step, STYPE = internal, FINALFUNC = hv_final,
    COMBINEFUNC = hv_combine, SERIALFUNC = hv_serial, DESERIALFUNC = hv_deserial, PARALLEL = SAFE
);
CREATE AGGREGATE hv_column(boolean) (
    SFUNC = hv_step, STYPE = internal, FINALFUNC = hv_final,
    COMBINEFUNC = hv_combine, SERIALFUNC = hv_serial, DESERIALFUNC = hv_deserial, PARALLEL = SAFE
);
CREATE AGGREGATE hv_column(date) (
    SFUNC = hv_step, STYPE = internal, FINALFUNC = hv_final,
    COMBINEFUNC = hv_combine, SERIALFUNC = hv_serial, DESERIALFUNC = hv_deserial, PARALLEL = SAFE
);
CREATE AGGREGATE hv_column(timestamp) (
    SFUNC = hv_step, STYPE = internal, FINALFUNC = hv_final,
    COMBINEFUNC = hv_combine, SERIALFUNC = hv_serial, DESERIALFUNC = hv_deserial, PARALLEL = SAFE
);
CREATE AGGREGATE hv_column(timestamptz) (
    SFUNC = hv_step, STYPE = internal, FINALFUNC = hv_final,
    COMBINEFUNC = hv_combine, SERIALFUNC = hv_serial, DESERIALFUNC = hv_deserial, PARALLEL = SAFE
);
-- rows of a value and how often it comes, as hv_runs has them
CREATE AGGREGATE hv_repeat(bigint, bigint) (
    SFUNC = hv_step, STYPE = internal, FINALFUNC = hv_final,
    COMBINEFUNC = hv_combine, SERIALFUNC = hv_serial, DESERIALFUNC = hv_deserial, PARALLEL = SAFE
);
CREATE AGGREGATE hv_repeat(text, bigint) (
    SFUNC = hv_step, STYPE = internal, FINALFUNC = hv_final,
    COMBINEFUNC = hv_combine, SERIALFUNC = hv_serial, DESERIALFUNC = hv_deserial, PARALLEL = SAFE
);
CREATE AGGREGATE hv_concat(hvcolumn) (
    SFUNC = hv_step, STYPE = internal, FINALFUNC = hv_final,
    COMBINEFUNC = hv_combine, SERIALFUNC = hv_serial, DESERIALFUNC = hv_deserial, PARALLEL = SAFE
);

-- The sum of the rows of all columns, exact, in whichever order they come.
CREATE FUNCTION hv_step_sum(numeric, hvcolumn) RETURNS numeric
    AS 'MODULE_PATHNAME', 'pg_hv_step_sum' LANGUAGE C IMMUTABLE PARALLEL SAFE COST 100;
CREATE AGGREGATE hv_sum_all(hvcolumn) (
    SFUNC = hv_step_sum, STYPE = numeric, COMBINEFUNC = numeric_add, PARALLEL = SAFE
);
