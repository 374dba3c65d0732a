MODEL (name a.d, kind INCREMENTAL_BY_TIME_RANGE (time_column at), start '2024-03-01');
SELECT at FROM a.w WHERE at BETWEEN @start_date AND @end_date
