MODEL (name a.f, kind FULL, columns (k INT)); SELECT v FROM a.s
