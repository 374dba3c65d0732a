MODEL (name a.a, kind INCREMENTAL_BY_TIME_RANGE (time_column d), start '2001-01-01', cron '@hourly');
SELECT d FROM a.h
