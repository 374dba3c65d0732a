MODEL (name a.f, kind FULL, columns (d DATE, t TEXT, id INT)); SELECT d, t, id FROM a.s
