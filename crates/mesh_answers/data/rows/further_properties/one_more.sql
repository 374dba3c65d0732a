MODEL (name a.f, kind FULL, columns (v INT, k TEXT)); SELECT v FROM a.s
