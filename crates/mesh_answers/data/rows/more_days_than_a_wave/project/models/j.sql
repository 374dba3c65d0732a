MODEL (name a.j, kind INCREMENTAL_BY_TIME_RANGE (time_column d), start '2023-01-01');
SELECT d FROM a.s WHERE d BETWEEN @start_ds AND @end_ds
