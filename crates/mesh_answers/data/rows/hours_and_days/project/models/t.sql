MODEL (name a.t, kind INCREMENTAL_BY_TIME_RANGE (time_column d), start '2023-12-31');
SELECT d, @start_date AS first, @end_ds AS last FROM a.s
