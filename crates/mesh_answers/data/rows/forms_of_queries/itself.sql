MODEL (name a.f, kind FULL); SELECT v FROM a.f
