MODEL (name shop.both, kind FULL);
SELECT id AS a, who AS b FROM shop.daily UNION ALL SELECT who, id FROM shop.daily
