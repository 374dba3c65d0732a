MODEL (name a.f, kind FULL, columns (b BOOL, d DATE)); SELECT b, d FROM a.s
