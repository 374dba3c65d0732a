MODEL (name a.c, kind FULL); SELECT x FROM a.p JOIN a.q ON p.id = q.id
