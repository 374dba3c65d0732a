MODEL (name a.p, kind FULL); SELECT x, 1 AS one FROM a.t
