MODEL (name a.least, kind FULL); SELECT SUM(v) AS s FROM a.s WHERE v < 0
