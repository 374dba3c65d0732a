MODEL (name a.d, kind INCREMENTAL_BY_TIME_RANGE (time_column at), start '2024-01-01');
SELECT at FROM a.s WHERE at BETWEEN @start_epoch AND @end_epoch
