MODEL (name shop.hours, kind INCREMENTAL_BY_TIME_RANGE (time_column day), start '2000-01-01', cron '@hourly');
SELECT day FROM raw.orders
