MODEL (name a.f, kind FULL); SELECT k, v FROM a.s
