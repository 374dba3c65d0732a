MODEL (name shop.once, kind FULL);
SELECT DISTINCT id, who FROM shop.daily
