MODEL (name shop.counted, kind FULL);
SELECT COUNT(*) AS n, 1 AS one FROM shop.daily
