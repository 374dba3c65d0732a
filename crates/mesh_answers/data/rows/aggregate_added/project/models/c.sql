MODEL (name a.c, kind FULL); SELECT a FROM a.p
