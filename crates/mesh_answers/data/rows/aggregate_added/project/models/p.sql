MODEL (name a.p, kind FULL); SELECT 1 AS a FROM a.t
