MODEL (name a.g, kind FULL); SELECT f.* FROM a.f AS f
