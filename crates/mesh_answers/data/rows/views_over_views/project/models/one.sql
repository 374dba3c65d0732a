MODEL (name shop.one, kind FULL);
SELECT COUNT(*) AS n FROM shop.few
