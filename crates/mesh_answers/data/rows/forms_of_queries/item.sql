MODEL (name a.f, kind FULL); SELECT t.v FROM a.s
