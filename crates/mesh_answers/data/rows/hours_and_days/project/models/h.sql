MODEL (name a.h, kind INCREMENTAL_BY_TIME_RANGE (time_column at), start '2024-01-01', cron '@hourly');
SELECT at, @start_epoch AS first, @end_epoch AS last FROM a.s WHERE at BETWEEN @start_epoch AND @end_epoch
