MODEL (name a.f, kind FULL, columns (v TEXT)); SELECT v FROM a.s
