MODEL (name a.w, kind INCREMENTAL_BY_TIME_RANGE (time_column at), start '2024-02-25', cron '@weekly');
SELECT at FROM raw.e WHERE at BETWEEN @start_date AND @end_date
