MODEL (name a.s, kind SEED (path '../seeds'), columns (k TEXT, v INT));
