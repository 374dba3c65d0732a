MODEL (name a.p, kind FULL); SELECT DISTINCT x FROM a.t
