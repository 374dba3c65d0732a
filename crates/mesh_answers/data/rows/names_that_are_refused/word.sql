MODEL (name a.f, kind FULL); SELECT from FROM a.s
