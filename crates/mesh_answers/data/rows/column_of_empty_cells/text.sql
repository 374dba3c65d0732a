MODEL (name a.f, kind FULL, columns (e TEXT)); SELECT e FROM a.s
