-- Columns of real and of double precision: the types hvfloat4 and hvfloat8. What reads a column costs a hundred
-- operators on numbers.
\echo Use "ALTER EXTENSION hivevigil UPDATE TO '1.1'" to load this file. \quit

-- a literal or a NULL without a type is an hvcolumn, as where it was the only type
UPDATE pg_catalog.pg_type SET typcategory = 'h', typispreferred = true WHERE oid = 'hvcolumn'::pg_catalog.regtype;

CREATE TYPE hvfloat4;
CREATE FUNCTION hvfloat4_in(cstring) RETURNS hvfloat4
    AS 'MODULE_PATHNAME', 'pg_hvfloat4_in' LANGUAGE C IMMUTABLE STRICT PARALLEL SAFE;
CREATE FUNCTION hvfloat4_out(hvfloat4) RETURNS cstring
    AS 'MODULE_PATHNAME', 'pg_hvcolumn_out' LANGUAGE C IMMUTABLE STRICT PARALLEL SAFE;
CREATE FUNCTION hvfloat4_receive(internal) RETURNS hvfloat4
    AS 'MODULE_PATHNAME', 'pg_hvfloat4_receive' LANGUAGE C IMMUTABLE STRICT PARALLEL SAFE;
CREATE FUNCTION hvfloat4_send(hvfloat4) RETURNS bytea
    AS 'MODULE_PATHNAME', 'pg_hvcolumn_send' LANGUAGE C IMMUTABLE STRICT PARALLEL SAFE;
CREATE TYPE hvfloat4 (
    INPUT = hvfloat4_in, OUTPUT = hvfloat4_out, RECEIVE = hvfloat4_receive, SEND = hvfloat4_send,
    ANALYZE = hvcolumn_analyze, INTERNALLENGTH = VARIABLE, STORAGE = extended, CATEGORY = 'h'
);
CREATE FUNCTION hvfloat4(bytea) RETURNS hvfloat4
    AS 'MODULE_PATHNAME', 'pg_hvfloat4_of_bytes' LANGUAGE C IMMUTABLE STRICT PARALLEL SAFE;
CREATE CAST (bytea AS hvfloat4) WITH FUNCTION hvfloat4(bytea);
CREATE CAST (hvfloat4 AS bytea) WITHOUT FUNCTION;

CREATE TYPE hvfloat8;
CREATE FUNCTION hvfloat8_in(cstring) RETURNS hvfloat8
    AS 'MODULE_PATHNAME', 'pg_hvfloat8_in' LANGUAGE C IMMUTABLE STRICT PARALLEL SAFE;
CREATE FUNCTION hvfloat8_out(hvfloat8) RETURNS cstring
    AS 'MODULE_PATHNAME', 'pg_hvcolumn_out' LANGUAGE C IMMUTABLE STRICT PARALLEL SAFE;
CREATE FUNCTION hvfloat8_receive(internal) RETURNS hvfloat8
    AS 'MODULE_PATHNAME', 'pg_hvfloat8_receive' LANGUAGE C IMMUTABLE STRICT PARALLEL SAFE;
CREATE FUNCTION hvfloat8_send(hvfloat8) RETURNS bytea
    AS 'MODULE_PATHNAME', 'pg_hvcolumn_send' LANGUAGE C IMMUTABLE STRICT PARALLEL SAFE;
CREATE TYPE hvfloat8 (
    INPUT = hvfloat8_in, OUTPUT = hvfloat8_out, RECEIVE = hvfloat8_receive, SEND = hvfloat8_send,
    ANALYZE = hvcolumn_analyze, INTERNALLENGTH = VARIABLE, STORAGE = extended, CATEGORY = 'h'
);
CREATE FUNCTION hvfloat8(bytea) RETURNS hvfloat8
    AS 'MODULE_PATHNAME', 'pg_hvfloat8_of_bytes' LANGUAGE C IMMUTABLE STRICT PARALLEL SAFE;
CREATE CAST (bytea AS hvfloat8) WITH FUNCTION hvfloat8(bytea);
CREATE CAST (hvfloat8 AS bytea) WITHOUT FUNCTION;

-- the same numbers, and NaNs with their payload
CREATE FUNCTION hvfloat8(hvfloat4) RETURNS hvfloat8
    AS 'MODULE_PATHNAME', 'pg_hvfloat8_of_hvfloat4' LANGUAGE C IMMUTABLE STRICT PARALLEL SAFE COST 100;
CREATE CAST (hvfloat4 AS hvfloat8) WITH FUNCTION hvfloat8(hvfloat4) AS IMPLICIT;

-- 'bigint', 'text' or 'bytea', of floats 'real' or 'double precision'; null where each row is null
CREATE FUNCTION hv_type(hvcolumn) RETURNS text
    AS 'MODULE_PATHNAME', 'pg_hv_type' LANGUAGE C IMMUTABLE STRICT PARALLEL SAFE COST 100;
CREATE FUNCTION hv_type(hvfloat4) RETURNS text
    AS 'MODULE_PATHNAME', 'pg_hv_type' LANGUAGE C IMMUTABLE STRICT PARALLEL SAFE COST 100;
CREATE FUNCTION hv_type(hvfloat8) RETURNS text
    AS 'MODULE_PATHNAME', 'pg_hv_type' LANGUAGE C IMMUTABLE STRICT PARALLEL SAFE COST 100;

-- ---- Columns of real ----
CREATE FUNCTION hv_rows(hvfloat4) RETURNS bigint
    AS 'MODULE_PATHNAME', 'pg_hv_rows' LANGUAGE C IMMUTABLE STRICT PARALLEL SAFE COST 100;
CREATE FUNCTION hv_count(hvfloat4) RETURNS bigint
    AS 'MODULE_PATHNAME', 'pg_hv_count' LANGUAGE C IMMUTABLE STRICT PARALLEL SAFE COST 100;
CREATE FUNCTION hv_sum(hvfloat4) RETURNS double precision
    AS 'MODULE_PATHNAME', 'pg_hv_sum_floats' LANGUAGE C IMMUTABLE STRICT PARALLEL SAFE COST 100;
CREATE FUNCTION hv_min(hvfloat4) RETURNS real
    AS 'MODULE_PATHNAME', 'pg_hv_min_float4' LANGUAGE C IMMUTABLE STRICT PARALLEL SAFE COST 100;
CREATE FUNCTION hv_max(hvfloat4) RETURNS real
    AS 'MODULE_PATHNAME', 'pg_hv_max_float4' LANGUAGE C IMMUTABLE STRICT PARALLEL SAFE COST 100;
CREATE FUNCTION hv_at(hvfloat4, bigint) RETURNS real
    AS 'MODULE_PATHNAME', 'pg_hv_at_float4' LANGUAGE C IMMUTABLE STRICT PARALLEL SAFE COST 100;
CREATE FUNCTION hv_first(hvfloat4) RETURNS real
    AS 'MODULE_PATHNAME', 'pg_hv_first_float4' LANGUAGE C IMMUTABLE STRICT PARALLEL SAFE COST 100;
CREATE FUNCTION hv_last(hvfloat4) RETURNS real
    AS 'MODULE_PATHNAME', 'pg_hv_last_float4' LANGUAGE C IMMUTABLE STRICT PARALLEL SAFE COST 100;
CREATE FUNCTION hv_slice(hvfloat4, start bigint, stop bigint) RETURNS hvfloat4
    AS 'MODULE_PATHNAME', 'pg_hv_slice' LANGUAGE C IMMUTABLE STRICT PARALLEL SAFE COST 100;
CREATE FUNCTION hv_filter(hvfloat4, operator hv_operator, value double precision) RETURNS hvfloat4
    AS 'MODULE_PATHNAME', 'pg_hv_filter_floats' LANGUAGE C IMMUTABLE PARALLEL SAFE COST 100;
CREATE FUNCTION hv_filter(hvfloat4, mask hvcolumn) RETURNS hvfloat4
    AS 'MODULE_PATHNAME', 'pg_hv_filter_mask' LANGUAGE C IMMUTABLE STRICT PARALLEL SAFE COST 100;
CREATE FUNCTION hv_compare(hvfloat4, operator hv_operator, hvfloat4) RETURNS hvcolumn
    AS 'MODULE_PATHNAME', 'pg_hv_compare' LANGUAGE C IMMUTABLE STRICT PARALLEL SAFE COST 100;
CREATE FUNCTION hv_compare(hvfloat4, operator hv_operator, value double precision) RETURNS hvcolumn
    AS 'MODULE_PATHNAME', 'pg_hv_compare_float' LANGUAGE C IMMUTABLE STRICT PARALLEL SAFE COST 100;
CREATE FUNCTION hv_append(hvfloat4, value real, count bigint) RETURNS hvfloat4
    AS 'MODULE_PATHNAME', 'pg_hv_append_float4' LANGUAGE C IMMUTABLE PARALLEL SAFE COST 100;
CREATE FUNCTION hv_runs(hvfloat4, OUT start bigint, OUT stop bigint, OUT value real) RETURNS SETOF record
    AS 'MODULE_PATHNAME', 'pg_hv_runs_float4' LANGUAGE C IMMUTABLE STRICT PARALLEL SAFE COST 100 ROWS 1000;

CREATE FUNCTION hv_groups(keys hvcolumn, vals hvfloat4, OUT key bigint, OUT rows bigint, OUT count bigint,
        OUT sum double precision, OUT min real, OUT max real, OUT first real, OUT last real)
    RETURNS SETOF record
    AS 'MODULE_PATHNAME', 'pg_hv_groups_numbers' LANGUAGE C IMMUTABLE STRICT PARALLEL SAFE COST 100 ROWS 1000;
CREATE FUNCTION hv_sum_by(keys hvcolumn, vals hvfloat4, OUT key bigint, OUT sum double precision) RETURNS SETOF record
    AS 'MODULE_PATHNAME', 'pg_hv_sum_by_numbers' LANGUAGE C IMMUTABLE STRICT PARALLEL SAFE COST 100 ROWS 1000;
CREATE FUNCTION hv_count_by(keys hvcolumn, vals hvfloat4, OUT key bigint, OUT count bigint) RETURNS SETOF record
    AS 'MODULE_PATHNAME', 'pg_hv_count_by_numbers' LANGUAGE C IMMUTABLE STRICT PARALLEL SAFE COST 100 ROWS 1000;
CREATE FUNCTION hv_min_by(keys hvcolumn, vals hvfloat4, OUT key bigint, OUT min real) RETURNS SETOF record
    AS 'MODULE_PATHNAME', 'pg_hv_min_by_numbers' LANGUAGE C IMMUTABLE STRICT PARALLEL SAFE COST 100 ROWS 1000;
CREATE FUNCTION hv_max_by(keys hvcolumn, vals hvfloat4, OUT key bigint, OUT max real) RETURNS SETOF record
    AS 'MODULE_PATHNAME', 'pg_hv_max_by_numbers' LANGUAGE C IMMUTABLE STRICT PARALLEL SAFE COST 100 ROWS 1000;
CREATE FUNCTION hv_text_groups(keys hvcolumn, vals hvfloat4, OUT key text, OUT rows bigint, OUT count bigint,
        OUT sum double precision, OUT min real, OUT max real, OUT first real, OUT last real)
    RETURNS SETOF record
    AS 'MODULE_PATHNAME', 'pg_hv_groups_texts' LANGUAGE C IMMUTABLE STRICT PARALLEL SAFE COST 100 ROWS 1000;
CREATE FUNCTION hv_text_sum_by(keys hvcolumn, vals hvfloat4, OUT key text, OUT sum double precision)
        RETURNS SETOF record
    AS 'MODULE_PATHNAME', 'pg_hv_sum_by_texts' LANGUAGE C IMMUTABLE STRICT PARALLEL SAFE COST 100 ROWS 1000;
CREATE FUNCTION hv_text_count_by(keys hvcolumn, vals hvfloat4, OUT key text, OUT count bigint) RETURNS SETOF record
    AS 'MODULE_PATHNAME', 'pg_hv_count_by_texts' LANGUAGE C IMMUTABLE STRICT PARALLEL SAFE COST 100 ROWS 1000;
CREATE FUNCTION hv_text_min_by(keys hvcolumn, vals hvfloat4, OUT key text, OUT min real) RETURNS SETOF record
    AS 'MODULE_PATHNAME', 'pg_hv_min_by_texts' LANGUAGE C IMMUTABLE STRICT PARALLEL SAFE COST 100 ROWS 1000;
CREATE FUNCTION hv_text_max_by(keys hvcolumn, vals hvfloat4, OUT key text, OUT max real) RETURNS SETOF record
    AS 'MODULE_PATHNAME', 'pg_hv_max_by_texts' LANGUAGE C IMMUTABLE STRICT PARALLEL SAFE COST 100 ROWS 1000;

-- Equality by rows as PostgreSQL has them: 0.0 equals -0.0, and a NaN every NaN.
CREATE FUNCTION hv_equal(hvfloat4, hvfloat4) RETURNS boolean
    AS 'MODULE_PATHNAME', 'pg_hv_equal' LANGUAGE C IMMUTABLE STRICT PARALLEL SAFE COST 100;
CREATE FUNCTION hv_unequal(hvfloat4, hvfloat4) RETURNS boolean
    AS 'MODULE_PATHNAME', 'pg_hv_unequal' LANGUAGE C IMMUTABLE STRICT PARALLEL SAFE COST 100;
CREATE FUNCTION hv_hash(hvfloat4) RETURNS integer
    AS 'MODULE_PATHNAME', 'pg_hv_hash' LANGUAGE C IMMUTABLE STRICT PARALLEL SAFE COST 100;
CREATE FUNCTION hv_hash_extended(hvfloat4, bigint) RETURNS bigint
    AS 'MODULE_PATHNAME', 'pg_hv_hash_extended' LANGUAGE C IMMUTABLE STRICT PARALLEL SAFE COST 100;
CREATE OPERATOR = (
    LEFTARG = hvfloat4, RIGHTARG = hvfloat4, FUNCTION = hv_equal, COMMUTATOR = =, NEGATOR = <>,
    RESTRICT = eqsel, JOIN = eqjoinsel, HASHES
);
CREATE OPERATOR <> (
    LEFTARG = hvfloat4, RIGHTARG = hvfloat4, FUNCTION = hv_unequal, COMMUTATOR = <>, NEGATOR = =,
    RESTRICT = neqsel, JOIN = neqjoinsel
);
CREATE OPERATOR CLASS hvfloat4_ops DEFAULT FOR TYPE hvfloat4 USING hash AS
    OPERATOR 1 =, FUNCTION 1 hv_hash(hvfloat4), FUNCTION 2 hv_hash_extended(hvfloat4, bigint);

-- ---- Columns of double precision ----
CREATE FUNCTION hv_rows(hvfloat8) RETURNS bigint
    AS 'MODULE_PATHNAME', 'pg_hv_rows' LANGUAGE C IMMUTABLE STRICT PARALLEL SAFE COST 100;
CREATE FUNCTION hv_count(hvfloat8) RETURNS bigint
    AS 'MODULE_PATHNAME', 'pg_hv_count' LANGUAGE C IMMUTABLE STRICT PARALLEL SAFE COST 100;
CREATE FUNCTION hv_sum(hvfloat8) RETURNS double precision
    AS 'MODULE_PATHNAME', 'pg_hv_sum_floats' LANGUAGE C IMMUTABLE STRICT PARALLEL SAFE COST 100;
CREATE FUNCTION hv_min(hvfloat8) RETURNS double precision
    AS 'MODULE_PATHNAME', 'pg_hv_min_float8' LANGUAGE C IMMUTABLE STRICT PARALLEL SAFE COST 100;
CREATE FUNCTION hv_max(hvfloat8) RETURNS double precision
    AS 'MODULE_PATHNAME', 'pg_hv_max_float8' LANGUAGE C IMMUTABLE STRICT PARALLEL SAFE COST 100;
CREATE FUNCTION hv_at(hvfloat8, bigint) RETURNS double precision
    AS 'MODULE_PATHNAME', 'pg_hv_at_float8' LANGUAGE C IMMUTABLE STRICT PARALLEL SAFE COST 100;
CREATE FUNCTION hv_first(hvfloat8) RETURNS double precision
    AS 'MODULE_PATHNAME', 'pg_hv_first_float8' LANGUAGE C IMMUTABLE STRICT PARALLEL SAFE COST 100;
CREATE FUNCTION hv_last(hvfloat8) RETURNS double precision
    AS 'MODULE_PATHNAME', 'pg_hv_last_float8' LANGUAGE C IMMUTABLE STRICT PARALLEL SAFE COST 100;
CREATE FUNCTION hv_slice(hvfloat8, start bigint, stop bigint) RETURNS hvfloat8
    AS 'MODULE_PATHNAME', 'pg_hv_slice' LANGUAGE C IMMUTABLE STRICT PARALLEL SAFE COST 100;
CREATE FUNCTION hv_filter(hvfloat8, operator hv_operator, value double precision) RETURNS hvfloat8
    AS 'MODULE_PATHNAME', 'pg_hv_filter_floats' LANGUAGE C IMMUTABLE PARALLEL SAFE COST 100;
CREATE FUNCTION hv_filter(hvfloat8, mask hvcolumn) RETURNS hvfloat8
    AS 'MODULE_PATHNAME', 'pg_hv_filter_mask' LANGUAGE C IMMUTABLE STRICT PARALLEL SAFE COST 100;
CREATE FUNCTION hv_compare(hvfloat8, operator hv_operator, hvfloat8) RETURNS hvcolumn
    AS 'MODULE_PATHNAME', 'pg_hv_compare' LANGUAGE C IMMUTABLE STRICT PARALLEL SAFE COST 100;
CREATE FUNCTION hv_compare(hvfloat8, operator hv_operator, value double precision) RETURNS hvcolumn
    AS 'MODULE_PATHNAME', 'pg_hv_compare_float' LANGUAGE C IMMUTABLE STRICT PARALLEL SAFE COST 100;
CREATE FUNCTION hv_append(hvfloat8, value double precision, count bigint) RETURNS hvfloat8
    AS 'MODULE_PATHNAME', 'pg_hv_append_float8' LANGUAGE C IMMUTABLE PARALLEL SAFE COST 100;
CREATE FUNCTION hv_runs(hvfloat8, OUT start bigint, OUT stop bigint, OUT value double precision) RETURNS SETOF record
    AS 'MODULE_PATHNAME', 'pg_hv_runs_float8' LANGUAGE C IMMUTABLE STRICT PARALLEL SAFE COST 100 ROWS 1000;

CREATE FUNCTION hv_groups(keys hvcolumn, vals hvfloat8, OUT key bigint, OUT rows bigint, OUT count bigint,
        OUT sum double precision, OUT min double precision, OUT max double precision,
        OUT first double precision, OUT last double precision)
    RETURNS SETOF record
    AS 'MODULE_PATHNAME', 'pg_hv_groups_numbers' LANGUAGE C IMMUTABLE STRICT PARALLEL SAFE COST 100 ROWS 1000;
CREATE FUNCTION hv_sum_by(keys hvcolumn, vals hvfloat8, OUT key bigint, OUT sum double precision) RETURNS SETOF record
    AS 'MODULE_PATHNAME', 'pg_hv_sum_by_numbers' LANGUAGE C IMMUTABLE STRICT PARALLEL SAFE COST 100 ROWS 1000;
CREATE FUNCTION hv_count_by(keys hvcolumn, vals hvfloat8, OUT key bigint, OUT count bigint) RETURNS SETOF record
    AS 'MODULE_PATHNAME', 'pg_hv_count_by_numbers' LANGUAGE C IMMUTABLE STRICT PARALLEL SAFE COST 100 ROWS 1000;
CREATE FUNCTION hv_min_by(keys hvcolumn, vals hvfloat8, OUT key bigint, OUT min double precision) RETURNS SETOF record
    AS 'MODULE_PATHNAME', 'pg_hv_min_by_numbers' LANGUAGE C IMMUTABLE STRICT PARALLEL SAFE COST 100 ROWS 1000;
CREATE FUNCTION hv_max_by(keys hvcolumn, vals hvfloat8, OUT key bigint, OUT max double precision) RETURNS SETOF record
    AS 'MODULE_PATHNAME', 'pg_hv_max_by_numbers' LANGUAGE C IMMUTABLE STRICT PARALLEL SAFE COST 100 ROWS 1000;
CREATE FUNCTION hv_text_groups(keys hvcolumn, vals hvfloat8, OUT key text, OUT rows bigint, OUT count bigint,
        OUT sum double precision, OUT min double precision, OUT max double precision,
        OUT first double precision, OUT last double precision)
    RETURNS SETOF record
    AS 'MODULE_PATHNAME', 'pg_hv_groups_texts' LANGUAGE C IMMUTABLE STRICT PARALLEL SAFE COST 100 ROWS 1000;
CREATE FUNCTION hv_text_sum_by(keys hvcolumn, vals hvfloat8, OUT key text, OUT sum double precision)
        RETURNS SETOF record
    AS 'MODULE_PATHNAME', 'pg_hv_sum_by_texts' LANGUAGE C IMMUTABLE STRICT PARALLEL SAFE COST 100 ROWS 1000;
CREATE FUNCTION hv_text_count_by(keys hvcolumn, vals hvfloat8, OUT key text, OUT count bigint) RETURNS SETOF record
    AS 'MODULE_PATHNAME', 'pg_hv_count_by_texts' LANGUAGE C IMMUTABLE STRICT PARALLEL SAFE COST 100 ROWS 1000;
CREATE FUNCTION hv_text_min_by(keys hvcolumn, vals hvfloat8, OUT key text, OUT min double precision)
        RETURNS SETOF record
    AS 'MODULE_PATHNAME', 'pg_hv_min_by_texts' LANGUAGE C IMMUTABLE STRICT PARALLEL SAFE COST 100 ROWS 1000;
CREATE FUNCTION hv_text_max_by(keys hvcolumn, vals hvfloat8, OUT key text, OUT max double precision)
        RETURNS SETOF record
    AS 'MODULE_PATHNAME', 'pg_hv_max_by_texts' LANGUAGE C IMMUTABLE STRICT PARALLEL SAFE COST 100 ROWS 1000;

-- Equality by rows as PostgreSQL has them: 0.0 equals -0.0, and a NaN every NaN.
CREATE FUNCTION hv_equal(hvfloat8, hvfloat8) RETURNS boolean
    AS 'MODULE_PATHNAME', 'pg_hv_equal' LANGUAGE C IMMUTABLE STRICT PARALLEL SAFE COST 100;
CREATE FUNCTION hv_unequal(hvfloat8, hvfloat8) RETURNS boolean
    AS 'MODULE_PATHNAME', 'pg_hv_unequal' LANGUAGE C IMMUTABLE STRICT PARALLEL SAFE COST 100;
CREATE FUNCTION hv_hash(hvfloat8) RETURNS integer
    AS 'MODULE_PATHNAME', 'pg_hv_hash' LANGUAGE C IMMUTABLE STRICT PARALLEL SAFE COST 100;
CREATE FUNCTION hv_hash_extended(hvfloat8, bigint) RETURNS bigint
    AS 'MODULE_PATHNAME', 'pg_hv_hash_extended' LANGUAGE C IMMUTABLE STRICT PARALLEL SAFE COST 100;
CREATE OPERATOR = (
    LEFTARG = hvfloat8, RIGHTARG = hvfloat8, FUNCTION = hv_equal, COMMUTATOR = =, NEGATOR = <>,
    RESTRICT = eqsel, JOIN = eqjoinsel, HASHES
);
CREATE OPERATOR <> (
    LEFTARG = hvfloat8, RIGHTARG = hvfloat8, FUNCTION = hv_unequal, COMMUTATOR = <>, NEGATOR = =,
    RESTRICT = neqsel, JOIN = neqjoinsel
);
CREATE OPERATOR CLASS hvfloat8_ops DEFAULT FOR TYPE hvfloat8 USING hash AS
    OPERATOR 1 =, FUNCTION 1 hv_hash(hvfloat8), FUNCTION 2 hv_hash_extended(hvfloat8, bigint);

-- ---- Aggregates ----
-- PostgreSQL prefers double precision to bigint for an argument of a narrower integer, which has its own here.
CREATE FUNCTION hv_step(internal, integer) RETURNS internal
    AS 'MODULE_PATHNAME', 'pg_hv_step_integer' LANGUAGE C IMMUTABLE PARALLEL SAFE;
CREATE FUNCTION hv_step(internal, smallint) RETURNS internal
    AS 'MODULE_PATHNAME', 'pg_hv_step_smallint' LANGUAGE C IMMUTABLE PARALLEL SAFE;
CREATE FUNCTION hv_step(internal, real) RETURNS internal
    AS 'MODULE_PATHNAME', 'pg_hv_step_float4' LANGUAGE C IMMUTABLE PARALLEL SAFE;
CREATE FUNCTION hv_step(internal, double precision) RETURNS internal
    AS 'MODULE_PATHNAME', 'pg_hv_step_float8' LANGUAGE C IMMUTABLE PARALLEL SAFE;
CREATE FUNCTION hv_step(internal, integer, count bigint) RETURNS internal
    AS 'MODULE_PATHNAME', 'pg_hv_step_integers' LANGUAGE C IMMUTABLE PARALLEL SAFE;
CREATE FUNCTION hv_step(internal, smallint, count bigint) RETURNS internal
    AS 'MODULE_PATHNAME', 'pg_hv_step_smallints' LANGUAGE C IMMUTABLE PARALLEL SAFE;
CREATE FUNCTION hv_step(internal, real, count bigint) RETURNS internal
    AS 'MODULE_PATHNAME', 'pg_hv_step_floats4' LANGUAGE C IMMUTABLE PARALLEL SAFE;
CREATE FUNCTION hv_step(internal, double precision, count bigint) RETURNS internal
    AS 'MODULE_PATHNAME', 'pg_hv_step_floats8' LANGUAGE C IMMUTABLE PARALLEL SAFE;
CREATE FUNCTION hv_step(internal, hvfloat4) RETURNS internal
    AS 'MODULE_PATHNAME', 'pg_hv_step_column' LANGUAGE C IMMUTABLE PARALLEL SAFE COST 100;
CREATE FUNCTION hv_final_hvfloat4(internal) RETURNS hvfloat4
    AS 'MODULE_PATHNAME', 'pg_hv_final' LANGUAGE C IMMUTABLE PARALLEL SAFE;
CREATE FUNCTION hv_step(internal, hvfloat8) RETURNS internal
    AS 'MODULE_PATHNAME', 'pg_hv_step_column' LANGUAGE C IMMUTABLE PARALLEL SAFE COST 100;
CREATE FUNCTION hv_final_hvfloat8(internal) RETURNS hvfloat8
    AS 'MODULE_PATHNAME', 'pg_hv_final' LANGUAGE C IMMUTABLE PARALLEL SAFE;

CREATE AGGREGATE hv_column(integer) (
    SFUNC = hv_step, STYPE = internal, FINALFUNC = hv_final,
    COMBINEFUNC = hv_combine, SERIALFUNC = hv_serial, DESERIALFUNC = hv_deserial, PARALLEL = SAFE
);
CREATE AGGREGATE hv_column(smallint) (
    SFUNC = hv_step, STYPE = internal, FINALFUNC = hv_final,
    COMBINEFUNC = hv_combine, SERIALFUNC = hv_serial, DESERIALFUNC = hv_deserial, PARALLEL = SAFE
);
CREATE AGGREGATE hv_repeat(integer, bigint) (
    SFUNC = hv_step, STYPE = internal, FINALFUNC = hv_final,
    COMBINEFUNC = hv_combine, SERIALFUNC = hv_serial, DESERIALFUNC = hv_deserial, PARALLEL = SAFE
);
CREATE AGGREGATE hv_repeat(smallint, bigint) (
    SFUNC = hv_step, STYPE = internal, FINALFUNC = hv_final,
    COMBINEFUNC = hv_combine, SERIALFUNC = hv_serial, DESERIALFUNC = hv_deserial, PARALLEL = SAFE
);
CREATE AGGREGATE hv_column(real) (
    SFUNC = hv_step, STYPE = internal, FINALFUNC = hv_final_hvfloat4,
    COMBINEFUNC = hv_combine, SERIALFUNC = hv_serial, DESERIALFUNC = hv_deserial, PARALLEL = SAFE
);
CREATE AGGREGATE hv_repeat(real, bigint) (
    SFUNC = hv_step, STYPE = internal, FINALFUNC = hv_final_hvfloat4,
    COMBINEFUNC = hv_combine, SERIALFUNC = hv_serial, DESERIALFUNC = hv_deserial, PARALLEL = SAFE
);
CREATE AGGREGATE hv_concat(hvfloat4) (
    SFUNC = hv_step, STYPE = internal, FINALFUNC = hv_final_hvfloat4,
    COMBINEFUNC = hv_combine, SERIALFUNC = hv_serial, DESERIALFUNC = hv_deserial, PARALLEL = SAFE
);
CREATE AGGREGATE hv_column(double precision) (
    SFUNC = hv_step, STYPE = internal, FINALFUNC = hv_final_hvfloat8,
    COMBINEFUNC = hv_combine, SERIALFUNC = hv_serial, DESERIALFUNC = hv_deserial, PARALLEL = SAFE
);
CREATE AGGREGATE hv_repeat(double precision, bigint) (
    SFUNC = hv_step, STYPE = internal, FINALFUNC = hv_final_hvfloat8,
    COMBINEFUNC = hv_combine, SERIALFUNC = hv_serial, DESERIALFUNC = hv_deserial, PARALLEL = SAFE
);
CREATE AGGREGATE hv_concat(hvfloat8) (
    SFUNC = hv_step, STYPE = internal, FINALFUNC = hv_final_hvfloat8,
    COMBINEFUNC = hv_combine, SERIALFUNC = hv_serial, DESERIALFUNC = hv_deserial, PARALLEL = SAFE
);

-- The exact sum of the rows of all columns, rounded once, in whichever order they come.
CREATE FUNCTION hv_step_total(internal, hvfloat4) RETURNS internal
    AS 'MODULE_PATHNAME', 'pg_hv_total_step' LANGUAGE C IMMUTABLE PARALLEL SAFE COST 100;
CREATE FUNCTION hv_step_total(internal, hvfloat8) RETURNS internal
    AS 'MODULE_PATHNAME', 'pg_hv_total_step' LANGUAGE C IMMUTABLE PARALLEL SAFE COST 100;
CREATE FUNCTION hv_combine_total(internal, internal) RETURNS internal
    AS 'MODULE_PATHNAME', 'pg_hv_total_combine' LANGUAGE C IMMUTABLE PARALLEL SAFE;
CREATE FUNCTION hv_serial_total(internal) RETURNS bytea
    AS 'MODULE_PATHNAME', 'pg_hv_total_serial' LANGUAGE C IMMUTABLE STRICT PARALLEL SAFE;
CREATE FUNCTION hv_deserial_total(bytea, internal) RETURNS internal
    AS 'MODULE_PATHNAME', 'pg_hv_total_deserial' LANGUAGE C IMMUTABLE STRICT PARALLEL SAFE;
CREATE FUNCTION hv_final_total(internal) RETURNS double precision
    AS 'MODULE_PATHNAME', 'pg_hv_total_final' LANGUAGE C IMMUTABLE PARALLEL SAFE;
CREATE AGGREGATE hv_sum_all(hvfloat4) (
    SFUNC = hv_step_total, STYPE = internal, FINALFUNC = hv_final_total, COMBINEFUNC = hv_combine_total,
    SERIALFUNC = hv_serial_total, DESERIALFUNC = hv_deserial_total, PARALLEL = SAFE
);
CREATE AGGREGATE hv_sum_all(hvfloat8) (
    SFUNC = hv_step_total, STYPE = internal, FINALFUNC = hv_final_total, COMBINEFUNC = hv_combine_total,
    SERIALFUNC = hv_serial_total, DESERIALFUNC = hv_deserial_total, PARALLEL = SAFE
);
