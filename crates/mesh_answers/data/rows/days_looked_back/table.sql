MODEL (name shop.daily, kind FULL (lookback 1));
SELECT id, day, qty FROM raw.orders
