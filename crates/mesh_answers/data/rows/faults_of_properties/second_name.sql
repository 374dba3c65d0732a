MODEL (name a.f, kind FULL, name a.f); SELECT v FROM a.s
