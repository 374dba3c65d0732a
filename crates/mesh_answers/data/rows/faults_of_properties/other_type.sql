MODEL (name a.f, kind FULL, columns (v FLOAT)); SELECT v FROM a.s
