MODEL (name shop.with_rates, kind FULL);
WITH unused AS (SELECT rate FROM raw.rates) SELECT id FROM shop.daily
