MODEL (name a.f, kind FULL, columns (v SMALLINT, k VARCHAR)); SELECT v, k FROM a.s
