MODEL (name a.f, kind FULL); SELECT v + 1 FROM a.s
