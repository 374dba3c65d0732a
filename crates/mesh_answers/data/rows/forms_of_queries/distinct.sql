MODEL (name a.f, kind FULL); SELECT DISTINCT v FROM a.s
