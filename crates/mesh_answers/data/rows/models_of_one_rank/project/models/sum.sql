MODEL (name a.sum, kind FULL);
SELECT SUM(v) AS t FROM a.two
