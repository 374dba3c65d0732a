MODEL (name a.f, kind FULL, columns (e INT)); SELECT e FROM a.s
