MODEL (name a.b, kind SEED (path '../seeds/s.csv'), columns (k TEXT, v INT));
