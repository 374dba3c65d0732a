MODEL (name a.f, kind FULL); SELECT * FROM a.s
