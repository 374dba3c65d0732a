MODEL (name a.h, kind INCREMENTAL_BY_TIME_RANGE (time_column d), start '2001-01-01', cron '@hourly');
SELECT DATE '2001-01-01' AS d
