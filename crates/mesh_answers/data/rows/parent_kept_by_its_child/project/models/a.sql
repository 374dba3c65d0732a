MODEL (name a.a, kind SEED (path '../seeds/s.csv'), columns (k TEXT, v INT));
