MODEL (name a.p, kind FULL); SELECT x FROM a.t WHERE x > 1
