MODEL (name a.joined, kind FULL); SELECT x.k, y.v FROM a.s AS x LEFT JOIN a.s AS y ON x.k = y.k
