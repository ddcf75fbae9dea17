-- What each of the two servers of shards.sql has.
CREATE EXTENSION hivevigil;
SET timezone = 'UTC';
CREATE TABLE packed(sensor int, day date, at hvcolumn, level hvcolumn, state hvcolumn, temperature hvfloat8,
    PRIMARY KEY (sensor, day));
CREATE VIEW hours AS
    SELECT sensor, hv_timestamptz(key) AS hour, sum, rows
    FROM packed, hv_groups(hv_step_buckets(at, hv_number(interval '1 hour')), level);
