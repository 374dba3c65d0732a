MODEL (name a.f, kind FULL); SELECT k FROM a.s
