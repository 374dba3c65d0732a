MODEL (name a.f, kind FULL); SELECT s.v FROM a.s
