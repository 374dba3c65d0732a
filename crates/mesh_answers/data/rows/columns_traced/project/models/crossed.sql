MODEL (name shop.crossed, kind FULL);
SELECT s.total FROM shop.sums AS s CROSS JOIN raw.rates AS r
