MODEL (name a.f, kind FULL, what 1); SELECT v FROM a.s
