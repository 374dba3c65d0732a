MODEL (name a.p, kind FULL); SELECT id, x FROM a.t
