MODEL (name shop.extra, kind FULL);
SELECT 1 AS one
