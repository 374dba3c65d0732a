MODEL (name a.c, kind FULL); SELECT * FROM a.p
