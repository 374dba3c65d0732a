MODEL (name a.m, kind INCREMENTAL_BY_TIME_RANGE (time_column d), start '2024-01-01', cron '30 6 * * *');
SELECT d FROM a.s
