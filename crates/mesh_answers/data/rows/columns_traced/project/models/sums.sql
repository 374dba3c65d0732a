MODEL (name shop.sums, kind FULL);
SELECT name, SUM(qty) AS total, COUNT(*) AS n, 1 AS one FROM shop.named GROUP BY name HAVING MAX(qty) > 10
