MODEL (name a.l, kind FULL); SELECT a.n + 10 * b.n + 100 * c.n + 1000 * d.n AS k FROM a.d AS a, a.d AS b, a.d AS c, a.d AS d
