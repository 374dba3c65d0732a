MODEL (name a.q, kind FULL); SELECT id, x FROM a.t
