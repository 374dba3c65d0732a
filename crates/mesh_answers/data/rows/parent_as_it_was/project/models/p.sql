MODEL (name a.p, kind FULL); SELECT x FROM a.t
