MODEL (name a.f, kind FULL, columns (k TEXT, v INT)); SELECT v, k FROM a.s
