MODEL (name a.m, kind INCREMENTAL_BY_TIME_RANGE (time_column d), start '2024-03-01', cron '0 0 1 * 1');
SELECT d FROM a.s
