MODEL (name a.one, kind FULL);
SELECT k, SUM(v) AS n FROM a.s GROUP BY k
