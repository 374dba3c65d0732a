MODEL (name shop.sums, kind FULL);
SELECT SUM(qty) AS s FROM shop.recent
