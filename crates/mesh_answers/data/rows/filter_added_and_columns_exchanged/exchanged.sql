MODEL (name a.p, kind FULL); SELECT y, x FROM a.t
