MODEL (name a.p, kind FULL); SELECT 1 AS a, COUNT(*) AS n FROM a.t
