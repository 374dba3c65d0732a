MODEL (name a.p, kind FULL); SELECT DISTINCT x, y FROM a.t
