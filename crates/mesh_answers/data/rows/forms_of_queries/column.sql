MODEL (name a.f, kind FULL); SELECT w FROM a.s
