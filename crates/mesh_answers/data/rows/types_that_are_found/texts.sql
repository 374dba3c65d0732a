MODEL (name a.f, kind FULL, columns (d TEXT, t TEXT, id INT)); SELECT d, t, id FROM a.s
