MODEL (name shop.pairs, kind INCREMENTAL_BY_TIME_RANGE (time_column day), start '2024-01-01');
SELECT d.id, d.day, o.qty FROM shop.daily AS d LEFT JOIN raw.orders AS o ON d.id = o.id AND o.day BETWEEN @start_ds AND @end_ds
WHERE d.day BETWEEN @start_ds AND @end_ds
