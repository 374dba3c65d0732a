MODEL (name shop.daily, kind INCREMENTAL_BY_TIME_RANGE (time_column day), start '2024-01-01');
SELECT id, who, day, qty FROM raw.orders WHERE qty > 0
