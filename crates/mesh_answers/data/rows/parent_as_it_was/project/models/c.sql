MODEL (name a.c, kind FULL); SELECT x FROM a.p
