MODEL (name shop.totals, kind FULL);
SELECT day, SUM(qty) AS total, COUNT(*) AS n FROM shop.daily GROUP BY 1
