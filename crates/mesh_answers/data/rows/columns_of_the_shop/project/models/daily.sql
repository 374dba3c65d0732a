MODEL (name shop.daily, kind INCREMENTAL_BY_TIME_RANGE (time_column day), start '2024-01-01');
SELECT id, day, qty FROM raw.orders WHERE day BETWEEN @start_ds AND @end_ds
