MODEL (name shop.fixed, kind FULL);
SELECT 1 AS one
