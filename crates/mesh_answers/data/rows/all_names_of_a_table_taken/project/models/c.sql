MODEL (name a.c, kind FULL); SELECT 1 AS x
