/* Booleans, dates and times as the numbers that a column has, and back: days and microseconds from 1970-01-01 00:00 on,
 * which of a timestamptz is in UTC. PostgreSQL itself counts from 2000-01-01 on. */
#include "pg_column.h"

#include "common/int.h"
#include "utils/date.h"
#include "utils/timestamp.h"

enum { EPOCH_DAYS = POSTGRES_EPOCH_JDATE - UNIX_EPOCH_JDATE };
#define EPOCH_MICROSECONDS ((int64)EPOCH_DAYS * USECS_PER_DAY)

static void refuse(const char *function, const char *why) {
    ereport(ERROR, (errcode(ERRCODE_DATETIME_VALUE_OUT_OF_RANGE), errmsg("%s: %s", function, why)));
}

static int64 number_of_date(const char *function, DateADT day) {
    if (DATE_NOT_FINITE(day)) refuse(function, "infinity is not a day that a column has");
    return (int64)day + EPOCH_DAYS;
}

/* A time of the year 294247 or later is past 64 bits. */
static int64 number_of_time(const char *function, Timestamp time) {
    int64 number = 0;
    if (TIMESTAMP_NOT_FINITE(time)) refuse(function, "infinity is not a time that a column has");
    if (pg_add_s64_overflow(time, EPOCH_MICROSECONDS, &number))
        refuse(function, "a time after 294247-01-10 04:00:54.775807 is past the numbers of a column");
    return number;
}

HV_FUNCTION(pg_hv_number_of_boolean) { PG_RETURN_INT64(PG_GETARG_BOOL(0) ? 1 : 0); }
HV_FUNCTION(pg_hv_number_of_date) { PG_RETURN_INT64(number_of_date("hv_number", PG_GETARG_DATEADT(0))); }
HV_FUNCTION(pg_hv_number_of_time) { PG_RETURN_INT64(number_of_time("hv_number", PG_GETARG_TIMESTAMP(0))); }

/* A width in microseconds, where a day has 24 hours. */
HV_FUNCTION(pg_hv_number_of_interval) {
    const Interval *width = PG_GETARG_INTERVAL_P(0);
    int64 days = 0, all = 0;
    if (width->month != 0) refuse("hv_number", "a month has no number of microseconds");
    if (pg_mul_s64_overflow(width->day, USECS_PER_DAY, &days) || pg_add_s64_overflow(days, width->time, &all))
        refuse("hv_number", "the interval is past the numbers of a column");
    PG_RETURN_INT64(all);
}

/* ---- Back ---- */

Datum hv_date_datum(const char *function, int64 number) {
    int64 day = 0;
    if (pg_sub_s64_overflow(number, EPOCH_DAYS, &day) || day < DATETIME_MIN_JULIAN - POSTGRES_EPOCH_JDATE ||
        day >= DATE_END_JULIAN - POSTGRES_EPOCH_JDATE)
        refuse(function, "date out of range");
    PG_RETURN_DATEADT((DateADT)day);
}

Datum hv_time_datum(const char *function, int64 number) {
    if (number < 0 || number > USECS_PER_DAY) refuse(function, "time out of range");
    PG_RETURN_TIMEADT(number);
}

Datum hv_timestamp_datum(const char *function, int64 number) {
    int64 time = 0;
    if (pg_sub_s64_overflow(number, EPOCH_MICROSECONDS, &time) || !IS_VALID_TIMESTAMP(time))
        refuse(function, "timestamp out of range");
    PG_RETURN_TIMESTAMP(time);
}

/* Of microseconds only, since a day of an interval may have other than 24 hours. */
Datum hv_interval_datum(const char *function, int64 number) {
    Interval *length = palloc0(sizeof *length);
    (void)function;
    length->time = number;
    PG_RETURN_INTERVAL_P(length);
}

HV_FUNCTION(pg_hv_date_of_number) { return hv_date_datum("hv_date", PG_GETARG_INT64(0)); }
HV_FUNCTION(pg_hv_time_of_number) { return hv_time_datum("hv_time", PG_GETARG_INT64(0)); }
HV_FUNCTION(pg_hv_timestamp_of_number) { return hv_timestamp_datum("hv_timestamp", PG_GETARG_INT64(0)); }
HV_FUNCTION(pg_hv_timestamptz_of_number) { return hv_timestamp_datum("hv_timestamptz", PG_GETARG_INT64(0)); }
HV_FUNCTION(pg_hv_interval_of_number) { return hv_interval_datum("hv_interval", PG_GETARG_INT64(0)); }

/* ---- Rows of an aggregate ---- */

static Datum added(FunctionCallInfo fcinfo, int64 number) {
    const row_value null = {HV_NULL, 0, NULL, 0}, value = {HV_SIGNED, number, NULL, 0};
    return hv_added(fcinfo, "hv_column", PG_ARGISNULL(1) ? &null : &value, 1);
}

HV_FUNCTION(pg_hv_step_boolean) { return added(fcinfo, PG_ARGISNULL(1) ? 0 : PG_GETARG_BOOL(1) ? 1 : 0); }

HV_FUNCTION(pg_hv_step_date) {
    return added(fcinfo, PG_ARGISNULL(1) ? 0 : number_of_date("hv_column", PG_GETARG_DATEADT(1)));
}

HV_FUNCTION(pg_hv_step_time) {
    return added(fcinfo, PG_ARGISNULL(1) ? 0 : number_of_time("hv_column", PG_GETARG_TIMESTAMP(1)));
}
