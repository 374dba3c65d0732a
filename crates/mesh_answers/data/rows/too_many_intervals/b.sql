MODEL (name a.b, kind INCREMENTAL_BY_TIME_RANGE (time_column d), start '2024-01-01');
SELECT DATE '2024-01-01' AS d
