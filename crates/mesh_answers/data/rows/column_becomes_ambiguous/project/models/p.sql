MODEL (name a.p, kind FULL); SELECT id FROM a.t
