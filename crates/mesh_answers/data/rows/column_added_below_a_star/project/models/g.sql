MODEL (name a.g, kind FULL); SELECT x FROM a.c
