MODEL (name a.k, kind INCREMENTAL_BY_TIME_RANGE (time_column at), start '2024-01-01', cron '0 6 * * *', interval_unit hour);
SELECT at FROM a.s WHERE at BETWEEN @start_epoch AND @end_epoch
