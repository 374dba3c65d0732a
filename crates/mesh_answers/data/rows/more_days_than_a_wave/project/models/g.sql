MODEL (name a.g, kind INCREMENTAL_BY_TIME_RANGE (time_column d), start '2023-01-01');
SELECT d, COUNT(*) AS n FROM a.s WHERE d BETWEEN @start_ds AND @end_ds GROUP BY d
